"""A story, as the plain engine plays it: steps, put together to calls of the program, each with what it has to leave.

A step is ('init', SCHEMA, OBJECT), with a depth behind it where that is not 1,000, ('file', TEXT) for a bench's file that comes from elsewhere, ('line', BYTES) of a session,
('last', BYTES) for one that ends without a line feed, ('save',) where a session ends, or ('ask', WORD, ..) for a subcommand.
Lines that follow one another are one session.
"""
from typing import NamedTuple

from .sessions import Desk, Outcome, reply
from .values import Fault


class Call(NamedTuple):
    word: str
    given: tuple
    # The steps that it is, by the numbers of the first and of the one behind the last.
    first: int
    end: int
    outcome: Outcome


class Play:
    def __init__(self, tally=None):
        self.desk, self.tally = Desk(), tally
        self.steps, self.calls = [], []
        self.lines, self.replies = [], []

    def bench(self):
        """The bench as it stands, None where there is none or its file is refused."""
        try:
            return self.desk.open() if self.desk.file is not None else None
        except Fault:
            return None

    def step(self, word, *given):
        """Takes the next step; gives the reply to a line, the outcome of a call."""
        if word not in ('line', 'last'):
            self.close()
        self.steps.append((word, *given))
        if word in ('line', 'last'):
            return self.line(given[0], word == 'last')
        if word == 'save':
            return None
        if word == 'file':
            self.desk.put(given[0])
            return self.called(word, given, Outcome(0, b'', given[0]))
        if word == 'init':
            return self.called(word, given, self.desk.call(word, *given))
        before = self.bench().state() if self.bench() else None
        outcome = self.called(given[0], given[1:], self.desk.call(*given))
        if self.tally and before:
            self.tally.call(given[0], given[1:], outcome, before, self.bench())
        return outcome

    def line(self, given, is_last):
        bench = self.bench()
        before = bench and bench.state()
        said = reply(bench, given) if bench else None
        self.lines.append(given + (b'' if is_last else b'\n'))
        self.replies.append(said)
        if self.tally and bench:
            self.tally.line(given, said, before, bench)
        if is_last:
            self.close()
        return said

    def called(self, word, given, outcome, number=1):
        self.calls.append(Call(word, given, len(self.steps) - number, len(self.steps), outcome))
        if self.tally:
            self.tally.outcome(word, outcome)
        return outcome

    def close(self):
        """Ends the session that is open."""
        if not self.lines:
            return
        given, number, bench = b''.join(self.lines), len(self.lines), self.bench()
        outcome = self.desk.saved(0, self.replies) if bench else self.desk.call('session', given)
        self.called('session', (given,), outcome, number)
        self.lines, self.replies = [], []


def play(steps):
    """The calls of a story."""
    made = Play()
    for step in steps:
        made.step(*step)
    made.close()
    return made.calls
