"""Bench files: the text of a bench, and the bench or the first fault of a text. Each format is one entry of FORMATS."""
from typing import NamedTuple

from .benches import MOST_DEPTH, Bench, read_state, shown
from .records import carried, has_shape, record, tells_part
from .schemas import read_schema
from .tables import is_in_one_order, is_part_told, named
from .values import Fault, is_whole, moment, read, text

MOST_BYTES = 67_108_864
# The one that is saved, in which alone the depth is told; and those in which subresources are told.
WRITTEN = 4
WITH_PARTS = (3, 4)


class Format(NamedTuple):
    """How a format is written and read: its first line, and what stands behind the schema."""
    head: object
    is_head: object
    lines: object
    read: object


def states_head(bench, number):
    return {'format': number, 'place': bench.place, 'states': len(bench.states)}


def is_states_head(said):
    return (said.keys() == {'format', 'place', 'states'} and is_whole(said['place']) and is_whole(said['states'])
            and 0 <= said['place'] < said['states'] <= MOST_DEPTH + 1)


def whole_states(bench):
    """Each state's object, with the command that made it; none made the first."""
    return [{'command': label, 'object': shown(bench.identity, state, True)} for label, state in zip([{}, *bench.labels], bench.states)]


def head(bench, number):
    return {'format': number, 'future': bench.future(), 'past': bench.past()}


def is_head(said):
    return (said.keys() == {'format', 'future', 'past'} and is_whole(said['future']) and is_whole(said['past'])
            and min(said['future'], said['past']) >= 0 and said['future'] + said['past'] <= MOST_DEPTH)


def deep_head(bench, number):
    return {'depth': depth_told(bench), **head(bench, number)}


def depth_told(bench):
    return bench.depth


def is_deep_head(said):
    others = {name: it for name, it in said.items() if name != 'depth'}
    return is_head(others) and is_whole(said.get('depth')) and 1 <= said['depth'] <= MOST_DEPTH and is_within_depth(said)


def is_within_depth(said):
    return said['future'] + said['past'] <= said['depth']


def recorded(bench):
    """The present object, and the record of each command, back along the past and then on along the future."""
    lines = [shown(bench.identity, bench.state(), True)]
    back = [(place, place - 1) for place in range(bench.place, 0, -1)]
    on = [(place, place + 1) for place in range(bench.place, len(bench.labels))]
    for here, there in back + on:
        made = record(bench.states[here], bench.states[there], bench.identity[0])
        lines.append({'command': bench.labels[min(here, there)], 'record': made})
    return lines


def file_text(bench, number=WRITTEN):
    """The text of a bench."""
    form = FORMATS[number]
    return ''.join(text(line) + '\n' for line in [form.head(bench, number), bench.schema, *form.lines(bench)]).encode()


def can_tell(bench, number):
    """Whether a format can tell a bench, beside its depth."""
    return number in WITH_PARTS or not (any(map(is_part_label, bench.labels)) or any(map(has_part, bench.states)))


def depth_of(bench, number):
    """How deep the bench is that is taken from the file of this one."""
    return bench.depth if number == WRITTEN else MOST_DEPTH


def is_part_label(label):
    return 'subresource' in label


def has_part(state):
    return any(row.key.part for row in state.table)


def is_label(said):
    try:
        if said == {'do': 'strip'}:
            return True
        members = {'apply': {'at', 'do', 'force', 'manager'}, 'update': {'at', 'do', 'manager'}}[said['do']]
        is_well = (isinstance(said['manager'], str) and isinstance(said.get('force', True), bool) and is_part_told(said)
                   and said.keys() - {'subresource'} == members)
        return is_well and bool(named(said['manager']) and moment(said['at']))
    except (Fault, LookupError, TypeError):
        return False


class Lines:
    """The values of the lines of a text, one after the other."""

    def __init__(self, given):
        self.rest = given

    def next(self):
        line, feed, self.rest = self.rest.partition(b'\n')
        try:
            value = read(line, MOST_BYTES)
        except Fault:
            raise Fault(70) from None
        if not feed or text(value).encode() != line:
            raise Fault(70)
        return value


def as_70(function, *given):
    try:
        return function(*given)
    except Fault:
        raise Fault(70) from None


def that(holds):
    if not holds:
        raise Fault(70)


def read_file(given):
    """The bench whose text this is, or the first fault of its first faulty line."""
    lines = Lines(given)
    first = lines.next()
    that(isinstance(first, dict) and is_whole(first.get('format')) and first['format'] in FORMATS)
    form = FORMATS[first['format']]
    that(form.is_head(first))
    schema = lines.next()
    bench = form.read(lines, first, schema, as_70(read_schema, schema))
    that(not lines.rest)
    return bench


def read_states(lines, first, schema, kind):
    identity, state = as_70(read_line_of_state, kind, lines.next(), True)
    bench = Bench(schema, kind, identity, state)
    for _ in range(first['states'] - 1):
        line = lines.next()
        other, state = as_70(read_line_of_state, kind, line, False)
        that(other == identity and is_in_one_order(bench.states[-1].table, state.table))
        bench.states.append(state)
        bench.labels.append(line['command'])
    return at_place(bench, first['place'])


def at_place(bench, place):
    bench.place = place
    return bench


def read_line_of_state(kind, line, is_first):
    """The identity and the state that a line of a file of whole states tells."""
    that(isinstance(line, dict) and line.keys() == {'command', 'object'})
    that(line['command'] == {} if is_first else is_label(line['command']))
    identity, state = read_state(kind, line['object'])
    that(text(shown(identity, state, True)) == text(line['object']))
    that(not is_part_label(line['command']) and not has_part(state))
    return identity, state


def read_recorded(lines, first, schema, kind):
    told = lines.next()
    identity, state = as_70(read_state, kind, told)
    that(text(shown(identity, state, True)) == text(told))
    has_parts = first['format'] in WITH_PARTS
    that(has_parts or not has_part(state))
    past, future = (read_way(lines, first[name], state, kind, identity, has_parts) for name in ('past', 'future'))
    bench = Bench(schema, kind, identity, state, first.get('depth', MOST_DEPTH))
    bench.states = [it for it, _ in reversed(past)] + [state] + [it for it, _ in future]
    bench.labels = [label for _, label in reversed(past)] + [label for _, label in future]
    bench.place = len(past)
    return bench


def read_way(lines, number, state, kind, identity, has_parts):
    """The states to which so many lines lead, each with its label."""
    found = []
    for _ in range(number):
        line = lines.next()
        that(isinstance(line, dict) and line.keys() == {'command', 'record'} and is_label(line['command']) and has_shape(line['record']))
        that(has_parts or not (is_part_label(line['command']) or tells_part(line['record'])))
        state = carried(line['record'], state, kind, identity[0])
        found.append((state, line['command']))
    return found


# Each format that is read, by its number.
FORMATS = {1: Format(states_head, is_states_head, whole_states, read_states),
           **{number: Format(head, is_head, recorded, read_recorded) for number in (2, 3)},
           4: Format(deep_head, is_deep_head, recorded, read_recorded)}
