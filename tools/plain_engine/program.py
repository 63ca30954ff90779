"""The built program: its calls, and the first place where it differs from the plain engine."""
import os, subprocess
from typing import NamedTuple

from .sessions import Outcome

SECONDS = 300


class Difference(NamedTuple):
    step: int
    what: str
    wanted: object
    got: object


def words_of(word, given):
    """The words of a call; its files have names of their own."""
    if word == 'init':
        return ['init', 'schema', 'object', 'bench'] + ['--depth=%d' % it for it in given[2:]]
    words = [word, 'bench']
    if word in ('apply', 'update'):
        words += ['given', '--at=' + given[1]] + (['--field-manager=' + given[2]] if given[2] != 'kubectl' else [])
        words += ['--subresource=' + given[3]] if given[3] else []
    if word == 'apply' and given[4]:
        words.append('--force-conflicts')
    if word == 'show' and given[0]:
        words.append('--show-managed-fields')
    return words + ([given[0]] if word == 'owners' else [])


class Program:
    def __init__(self, name, folder):
        self.name, self.folder = name, folder

    def at(self, name):
        return os.path.join(self.folder, name)

    def put(self, name, given):
        with open(self.at(name), 'wb') as file:
            file.write(given)

    def file(self):
        if not os.path.exists(self.at('bench')):
            return None
        with open(self.at('bench'), 'rb') as file:
            return file.read()

    def clear(self):
        if os.path.exists(self.at('bench')):
            os.remove(self.at('bench'))

    def call(self, word, given):
        """What a call leaves, and what it told on standard error."""
        if word == 'file':
            self.put('bench', given[0])
            return Outcome(0, b'', given[0]), b''
        for name, inside in zip(('schema', 'object') if word == 'init' else ('given',), given):
            if isinstance(inside, bytes):
                self.put(name, inside)
        said = given[0] if word == 'session' else b''
        try:
            made = subprocess.run([self.name, *words_of(word, given)], input=said, capture_output=True, cwd=self.folder, timeout=SECONDS)
        except subprocess.TimeoutExpired:
            return Outcome('no end', b'', self.file()), b''
        return Outcome(made.returncode, made.stdout, self.file()), made.stderr

    def difference(self, calls):
        """The first difference, None where there is none."""
        self.clear()
        for call in calls:
            got, told = self.call(call.word, call.given)
            if got != call.outcome:
                return unlike(call, got)
            if got.status == 0 and told:
                return Difference(call.end - 1, 'standard error', b'', told)
        return None


def unlike(call, got):
    """Where what a call left isn't what it should have left."""
    wanted = call.outcome
    if got.printed != wanted.printed:
        replies, others = wanted.printed.split(b'\n'), got.printed.split(b'\n')
        number = next((it for it, both in enumerate(zip(replies, others)) if both[0] != both[1]), min(len(replies), len(others)) - 1)
        return Difference(min(call.first + number, call.end - 1), 'reply', replies[number], others[number])
    if got.status != wanted.status:
        return Difference(call.end - 1, 'status', wanted.status, got.status)
    return Difference(call.end - 1, 'file', wanted.file, got.file)
