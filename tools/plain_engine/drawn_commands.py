"""Objects, entries of managedFields and commands, drawn for a bench as it stands."""
import json

from .bodies import METADATA, is_ownable, restrict, value_at
from .drawn_values import led, permuted, some_value, spelled, spoiled, spoiled_bytes, varied
from .paths import beginnings, fields_v1
from .schemas import Record
from .tables import Key, part_members
from .values import text

NAMES, RARE_NAMES = ('a', 'm2', 'kubectl', 'n' * 128), ('', 'é', 'x' * 129, 'a\x7f', '"\\', ' ', '~')


def moment(step):
    """A time that no other of 8,000 steps has."""
    return '%d-05-01T10:00:01Z' % (2000 + step % 8000)


def some_name(dice):
    return dice.pick(RARE_NAMES if dice.one_in(30) else NAMES)


def identified(value, identity):
    """An object: a value of the schema, perhaps with metadata, and the identity."""
    names = dict(zip(('name', 'namespace'), identity[2:]))
    return {**value, 'apiVersion': identity[0], 'kind': identity[1], 'metadata': {**value.get('metadata', {}), **names}}


def new_value(dice, kind, bound=3):
    """A value of the root's kind; each field stands in it one time in three, and each of metadata one time in four."""
    rest = {name: it for name, it in kind.fields.items() if name != 'metadata'}
    return {**some_value(dice, Record(rest), bound), 'metadata': some_value(dice, kind.fields['metadata'], 4)}


def owned_value(bench, name):
    """What the managers of this name own of the live object."""
    body, table = bench.state()
    kept = {()}.union(*(beginnings(path) for row in table if row.key.name == name for path in row.owned))
    kept |= {path + ('f:' + key,) for path in kept if path and path[-1].startswith('k:') for key in json.loads(path[-1][2:])}
    return value_at(restrict(body, kept))


def some_object(dice, bench, name):
    """An object for a manager: a new one, or one near the live object or near what the manager owns, perhaps but for the orders of its
    lists, or but for these and for items that are left out and that come."""
    how = dice.below(18)
    if how < 11:
        return identified(new_value(dice, bench.kind), bench.identity)
    value = value_at(bench.state().body) if how < 15 else owned_value(bench, name)
    make = {11: led, 12: permuted, 15: led, 16: permuted}.get(how, varied)
    return identified(make(dice, bench.kind, value), bench.identity)


def some_deed(dice, bench, word, force, step):
    name = some_name(dice)
    at = moment(step - dice.below(3)) if dice.one_in(10) else moment(step)
    command = {'at': at, 'do': word, 'manager': name, 'object': some_object(dice, bench, name), **part_members(some_part(dice))}
    if word == 'apply' and (force or dice.one_in(4)):
        command['force'] = force
    return command


def some_part(dice):
    """The subresource in one command of four."""
    return 'status' if dice.one_in(4) else ''


def some_change(dice, bench, step):
    """A command that makes a new state: of 49 one a strip, 9 updates and 10 forced applies."""
    how = dice.below(49)
    if how == 0:
        return {'do': 'strip'}
    if how < 10:
        return some_deed(dice, bench, 'update', False, step)
    return some_deed(dice, bench, 'apply', how < 20, step)


def some_command(dice, bench, step):
    """Of twelve one an undo and one a redo."""
    how = dice.below(12)
    return {'do': 'undo' if how == 0 else 'redo'} if how < 2 else some_change(dice, bench, step)


def of_crowd(bench, step):
    """The apply of one and the same label by a manager of its own for each step."""
    given = identified({'metadata': {'labels': {'crowd': 'yes'}}}, bench.identity)
    return {'at': moment(step), 'do': 'apply', 'manager': 'crowd-%d' % step, 'object': given}


def some_path(dice, bench):
    """A path of the live object or near it."""
    path = list(dice.pick(sorted(bench.state().body)))
    if dice.one_in(8):
        path = path[:-1] + [dice.pick(('f:zzz', 'q', 'i:0', 'v: 1', 'v:1.5', 'k:{"a": 1}', 'k:{}', 'v:"a"', 'v:9', ''))]
    return path


def bad_line(dice, bench, step):
    """The line of a command with something in it that may be wrong."""
    command = some_command(dice, bench, step) if dice.one_in(2) else some_deed(dice, bench, 'apply', dice.one_in(2), step)
    if dice.one_in(6):
        command = {'do': 'owners', 'path': some_path(dice, bench)}
    how = dice.below(8)
    if how == 0:
        return spoiled_bytes(dice, text(command).encode()).replace(b'\n', b' ')
    if how == 1:
        return dice.pick((b'', b'   ', b'\r', b'null', b'[]', b'{"do":"und', b'{"do":"jump"}', b'{"do":"undo"} x', b'{"do":"strip","do":"log"}',
                          b'\xef\xbb\xbf{"do":"undo"}', b'{"do":"apply","a":null,"a":1}', b'{"do":"show","managed":1}'))
    if how == 2 and 'object' in command:
        given = command['object']
        metadata = {**given['metadata'], 'managedFields': dice.pick(([], 1, {}, ''))}
        return text({**command, 'object': {**given, 'metadata': metadata}}).encode()
    if how == 3 and 'object' in command:
        named = {'manager': dice.pick(RARE_NAMES), 'subresource': dice.pick(('scale', 1, 'status', '', 'status'))}
        return text({**command, **named}).encode()
    if how < 6 and 'object' in command:
        return text({**command, 'object': spoiled(dice, command['object'])}).encode()
    return spelled(dice, spoiled(dice, command))


def some_rows(dice, body, number):
    """Rows of managers who own some of the paths of a body, branches too, or beginnings of what is there."""
    ownable = sorted(path for path in body if is_ownable(body, path))
    rows = []
    for place in range(number if ownable else 0):
        name = dice.pick(NAMES) if number < 9 else 'n%d' % place
        owned = set(dice.some(ownable, 1 + dice.below(4)) or [dice.pick(ownable)])
        above = {path for it in owned for path in beginnings(it)} - {(), METADATA}
        owned |= {path for path in sorted(above) if dice.one_in(8)}
        key = Key(name, dice.pick(('Apply', 'Apply', 'Update')), some_part(dice))
        rows.append((key, owned & body.keys(), moment(place)))
    return rows


def with_entries(dice, given, body, number):
    """An object with managedFields, whose members stand in one order in each run: what is spoiled is drawn by its place."""
    entries, seen = [], set()
    for key, owned, at in some_rows(dice, body, number):
        if key not in seen or dice.one_in(20):
            seen.add(key)
            entries.append({'apiVersion': given['apiVersion'], 'fieldsType': 'FieldsV1', 'fieldsV1': fields_v1(sorted(owned)), 'time': at,
                            **key.members()})
    return {**given, 'metadata': {**given['metadata'], 'managedFields': entries}}
