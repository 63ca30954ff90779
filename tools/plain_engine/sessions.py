"""Lines and words: which command each is, and what is printed of it."""
from typing import NamedTuple

from .benches import MOST_DEPTH, Bench, read_state
from .files import file_text, read_file
from .paths import read_path
from .schemas import read_schema
from .tables import is_part_told, part_members
from .values import Fault, moment, read, text

TEXTS = {'at', 'manager'}
# The members of each command: those that it has to have, and those that it may have.
COMMANDS = {'apply': ({'at', 'manager', 'object'}, {'force', 'subresource'}), 'update': ({'at', 'manager', 'object'}, {'subresource'}),
            'strip': (set(), set()), 'undo': (set(), set()), 'redo': (set(), set()), 'show': (set(), {'managed'}), 'owners': ({'path'}, set()), 'log': (set(), set())}
FILE_FAULTS = (70, 71, 72, 73)


def is_texts(value):
    return isinstance(value, list) and all(isinstance(it, str) for it in value)


def command_of(value):
    """The command that a value is."""
    word = value.get('do') if isinstance(value, dict) else None
    if not isinstance(word, str) or word not in COMMANDS:
        raise Fault(66)
    needed, others = COMMANDS[word]
    names = value.keys() - {'do'}
    is_well = (needed <= names <= needed | others and all(isinstance(value[it], str) for it in names & TEXTS)
               and all(isinstance(value[it], bool) for it in names & {'force', 'managed'})
               and is_part_told(value) and ('path' not in names or is_texts(value['path'])))
    if not is_well:
        raise Fault(66)
    if 'at' in value:
        moment(value['at'])
    return value


def answer(bench, command):
    word = command['do']
    if word in ('apply', 'update', 'strip'):
        return bench.change(command)
    if word in ('undo', 'redo'):
        return bench.move(word)
    if word == 'show':
        return bench.show(command.get('managed', False))
    return bench.owners(read_path(command['path'])) if word == 'owners' else bench.log()


def reply(bench, line):
    """The text of the reply to a line."""
    try:
        return text(answer(bench, command_of(read(line))))
    except Fault as fault:
        return fault.line()


def lines_of(given):
    """The lines of an input: what stands behind the last line feed is one too, where it is something."""
    *whole, rest = given.split(b'\n')
    return whole + [rest] if rest else whole


class Outcome(NamedTuple):
    """What a call leaves: its status, what it printed, and the text of the bench's file, None where there is none."""
    status: int
    printed: bytes
    file: object


def printed(*replies):
    return ''.join(it + '\n' for it in replies).encode()


class Desk:
    """Calls of the program, one after the other, on one bench's file."""

    def __init__(self):
        self.file, self.bench = None, None

    def call(self, word, *given):
        """What the program is to do with a subcommand."""
        if self.file is None and word != 'init':
            return Outcome(3, b'', None)
        try:
            if word == 'init':
                return self.init(*given)
            bench = self.open()
            return self.session(bench, *given) if word == 'session' else self.ask(bench, word, *given)
        except Fault as fault:
            return Outcome(3 if fault.number in FILE_FAULTS else 1, printed(fault.line()), self.file)

    def put(self, given):
        """A file that comes from elsewhere takes the place of the bench's."""
        self.file, self.bench = given, None

    def open(self):
        if self.bench is None:
            self.bench = read_file(self.file)
        return self.bench

    def saved(self, status, replies):
        self.file = file_text(self.bench)
        return Outcome(status, printed(*replies), self.file)

    def init(self, schema, given, depth=MOST_DEPTH):
        value = read(schema)
        kind = read_schema(value)
        self.bench = Bench(value, kind, *read_state(kind, read(given)), depth)
        return self.saved(0, [text(self.bench.made())])

    def session(self, bench, given):
        replies = [reply(bench, line) for line in lines_of(given)]
        return self.saved(0, replies)

    def ask(self, bench, word, *given):
        """A subcommand that is one command of a session."""
        command = {'do': word}
        if word in ('apply', 'update'):
            command |= {'object': read(given[0]), 'at': moment(given[1]), 'manager': given[2], **part_members(given[3])}
        if word == 'apply':
            command['force'] = given[4]
        if word == 'show':
            command['managed'] = given[0]
        if word == 'owners':
            command['path'] = read(given[0].encode())
        told = text(answer(bench, command_of(command)))
        if word in ('show', 'owners', 'log'):
            return Outcome(0, printed(told), self.file)
        return self.saved(0, [told])
