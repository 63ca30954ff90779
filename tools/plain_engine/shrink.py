"""The smallest story that still differs: fewer steps, and smaller values in them."""
import json

from .benches import shown
from .drawn_values import places
from .play import Play, play
from .values import text


class Shrinker:
    def __init__(self, program, tries):
        self.program, self.tries = program, tries

    def differs(self, steps):
        """Where the program differs from the plain engine on a story, None where nowhere or where it was tried often enough."""
        self.tries -= 1
        return self.program.difference(play(steps)) if self.tries >= 0 else None

    def shrink(self, steps, found):
        """The smallest story that was found, with its difference."""
        steps = self.begun_later(steps[:found.step + 1])
        steps = self.fewer(steps)
        while True:
            size = sum(map(len, map(repr, steps)))
            steps = self.fewer(self.smaller(steps))
            if sum(map(len, map(repr, steps))) == size or self.tries < 0:
                return steps, self.program.difference(play(steps))

    def begun_later(self, steps):
        """The story from its last file on, or from the object of a state that it reaches; the fewest commands of its end that do."""
        begins = [place for place, step in enumerate(steps) if step[0] in ('init', 'file')]
        if len(begins) > 1 and self.differs(steps[begins[-1]:]):
            steps = steps[begins[-1]:]
        number = 1
        while number < len(steps):
            made = Play()
            for step in steps[:-number]:
                made.step(*step)
            bench = made.bench()
            if bench:
                start = ('init', text(bench.schema).encode(), text(shown(bench.identity, bench.state(), True)).encode(), bench.depth)
                later = [start, *steps[-number:]]
                if self.differs(later):
                    return later
            number *= 2
        return steps

    def fewer(self, steps):
        """Without the steps that aren't needed, many at a time first."""
        number = max(1, (len(steps) - 1) // 2)
        while True:
            place, is_same = 1, True
            while place < len(steps):
                less = steps[:place] + steps[place + number:]
                if self.differs(less):
                    steps, is_same = less, False
                else:
                    place += number
            if number == 1 and is_same:
                return steps
            number = max(1, number // 2)

    def smaller(self, steps):
        """With less in the values of its steps, and fewer lines in its files."""
        for place, step in enumerate(steps):
            for part, inside in enumerate(step):
                if step[0] == 'file':
                    steps = self.smaller_file(steps, place)
                elif isinstance(inside, bytes):
                    steps = self.smaller_text(steps, place, part)
        return steps

    def smaller_file(self, steps, place):
        """With a bench's file that has fewer commands, as long as the story with it differs."""
        while True:
            first, *lines = steps[place][1].split(b'\n')
            try:
                counts = json.loads(first)
                name = 'future' if counts['future'] else 'past'
                counts[name] -= 1
            except (ValueError, LookupError, TypeError):
                return steps
            less = b'\n'.join([text(counts).encode(), *lines[:-2], b''])
            if len(lines) < 4 or not self.differs(with_part(steps, place, 1, less)):
                return steps
            steps = with_part(steps, place, 1, less)

    def smaller_text(self, steps, place, part):
        """With fewer members and items in a JSON text, as long as the story with it differs."""
        try:
            value = json.loads(steps[place][part])
        except ValueError:
            return steps
        compact, at = with_part(steps, place, part, text(value).encode()), 1
        steps = compact if self.differs(compact) else steps
        while at < len(ways := list(places(value))):
            less = without(value, ways[at])
            tried = with_part(steps, place, part, text(less).encode())
            if self.differs(tried):
                steps, value = tried, less
            else:
                at += 1
        return steps


def with_part(steps, place, part, given):
    """The story with other bytes in a part of a step."""
    step = steps[place]
    return [*steps[:place], (*step[:part], given, *step[part + 1:]), *steps[place + 1:]]


def without(value, way):
    if len(way) > 1:
        inside = without(value[way[0]], way[1:])
        return [*value[:way[0]], inside, *value[way[0] + 1:]] if isinstance(value, list) else {**value, way[0]: inside}
    if isinstance(value, list):
        return value[:way[0]] + value[way[0] + 1:]
    return {name: it for name, it in value.items() if name != way[0]}


def shown_bytes(given):
    return given.decode('utf-8', 'backslashreplace') if isinstance(given, bytes) else str(given)


def told(job, steps, found):
    """A story and its difference, for people."""
    lines = ['%s, seed %s, number %d: the %s differs, at step %d of' % (*job, found.what, found.step + 1)]
    for step in steps:
        names = ('schema', 'object', 'depth') if step[0] == 'init' else (step[0],) * len(step)
        if step[0] == 'ask':
            lines.append('  words   ' + ' '.join(map(shown_bytes, step[1:])))
        elif step[0] == 'file':
            lines += ['  file    ' + line for line in shown_bytes(step[1]).splitlines()]
        else:
            lines += ['  %-7s %s' % (name, shown_bytes(it)) for name, it in zip(names, step[1:])]
    sides = [('plain', found.wanted), ('program', found.got)]
    if found.what == 'file' and None not in (found.wanted, found.got):
        both = list(zip(found.wanted.split(b'\n'), found.got.split(b'\n')))
        wanted, got = next((it for it in both if it[0] != it[1]), (found.wanted[-80:], found.got[-80:]))
        sides = [('plain', wanted), ('program', got)]
    return '\n'.join(lines + ['  %-7s %s' % (name, shown_bytes(it)) for name, it in sides])
