"""The record of what has to change in one state to get another: made, and carried out as far as what is told goes."""
import json

from .bodies import children, flat, is_leaf, is_ownable, is_too_large, kind_at, value_at
from .operations import State
from .paths import fields_v1, is_under, read_fields_v1, read_path
from .schemas import fit
from .tables import (KEY_MEMBERS, MOST_MANAGERS, OPERATIONS, Row, entry, has_entry_shape, is_key_list, is_part_told, key_listed, key_of,
                     named, row_of)
from .values import Fault, is_whole, moment, text

MEMBERS = {'changed', 'cut', 'gone', 'here', 'leaves', 'order', 'put'}


def alone(first, second):
    """The topmost paths that only the first has."""
    return sorted(path for path in first if path not in second and path[:-1] in second)


def is_reordered(order, after):
    """Whether the common items of two orders stand otherwise."""
    common = set(order) & set(after)
    return [it for it in order if it in common] != [it for it in after if it in common]


def puts(before, after):
    """What comes, with all below it, and in a list with its place."""
    told, below, places = [], children(after), {}
    for path in alone(after, before):
        told.append([list(path), value_at(after, path, below)])
        around = after[path[:-1]]
        if isinstance(around, tuple):
            if path[:-1] not in places:
                places[path[:-1]] = {element: place for place, element in enumerate(around)}
            told[-1].append(places[path[:-1]][path[-1]])
    return told


def record(before, after, version):
    """The record from one state to the other."""
    v, w = before.body, after.body
    common = sorted(v.keys() & w.keys())
    return {
        'changed': [change(row, row_of(after.table, row.key)) for row in before.table if row_of(after.table, row.key) not in (None, row)],
        'cut': [list(path) for path in alone(v, w)],
        'gone': [row.key.listed() for row in before.table if not row_of(after.table, row.key)],
        'here': [{'entry': entry(row, version), 'place': place} for place, row in enumerate(after.table)
                 if not row_of(before.table, row.key)],
        'leaves': [[list(path), json.loads(w[path])] for path in common if is_leaf(v[path]) and v[path] != w[path]],
        'order': [[list(path), list(w[path])] for path in common if isinstance(v[path], tuple) and is_reordered(v[path], w[path])],
        'put': puts(v, w),
    }


def change(row, after):
    told = {'gain': fields_v1(after.owned - row.owned), 'lose': fields_v1(row.owned - after.owned), **row.key.members()}
    return told if row.at == after.at else {**told, 'time': after.at}


def has_shape(told):
    """Whether a value has the members, the JSON types and the canonical texts of a record."""
    try:
        return (isinstance(told, dict) and told.keys() == MEMBERS and all(isinstance(it, list) for it in told.values())
                and all(is_change(it) for it in told['changed']) and all(is_path(it) for it in told['cut'])
                and all(is_key_list(it) for it in told['gone']) and all(is_arrival(it) for it in told['here'])
                and all(is_pair(it) for it in told['leaves']) and all(is_pair(it) and is_path(it[1]) for it in told['order'])
                and all(is_pair(it[:2]) and (len(it) == 2 or len(it) == 3 and is_whole(it[2])) for it in told['put']))
    except (Fault, TypeError, KeyError):
        return False


def is_path(told):
    return isinstance(told, list) and all(isinstance(it, str) for it in told) and read_path(told) is not None


def is_pair(told):
    return isinstance(told, list) and len(told) == 2 and is_path(told[0])


def is_change(told):
    members = {'gain', 'lose'} | KEY_MEMBERS
    return (isinstance(told, dict) and told.keys() - {'subresource', 'time'} == members and told['operation'] in OPERATIONS
            and is_part_told(told) and isinstance(told['manager'], str) and ('time' not in told or moment(told['time']) is not None)
            and read_fields_v1(told['gain']) is not None and read_fields_v1(told['lose']) is not None)


def is_arrival(told):
    it = told['entry']
    return (told.keys() == {'entry', 'place'} and is_whole(told['place']) and has_entry_shape({**it, 'fieldsType': 'FieldsV1'})
            and isinstance(it['fieldsType'], str) and moment(it['time']) is not None and read_fields_v1(it['fieldsV1']) is not None)


def tells_part(told):
    """Whether a manager that a record tells of acts through a subresource."""
    return (any('subresource' in it for it in told['changed'] + [it['entry'] for it in told['here']])
            or any(len(it) > 2 for it in told['gone']))


def carried(told, before, kind, version):
    """The valid state to which the record leads from a state, if it is the record of these two."""
    try:
        after = State(carried_body(told, before.body, kind), carried_table(told, before.table))
        if is_valid(after, kind) and text(record(before, after, version)) == text(told):
            return after
    except (Fault, LookupError, TypeError, ValueError):
        pass
    raise Fault(71)


def carried_body(told, v, kind):
    gone = [tuple(path) for path in told['cut']]
    body = {path: there for path, there in v.items() if not any(is_under(path, above) for above in gone)}
    for path, content in told['leaves']:
        body[tuple(path)] = text(content)
    for path in gone:
        if isinstance(body.get(path[:-1]), tuple):
            body[path[:-1]] = tuple(it for it in body[path[:-1]] if it != path[-1])
    for path, value, *place in sorted(told['put'], key=lambda it: it[2:]):
        path = tuple(path)
        there = kind_at(kind, path)
        if there is None:
            raise Fault(71)
        fit(there, value, path)
        body |= flat(there, value, path)
        if place:
            items = body[path[:-1]]
            body[path[:-1]] = items[:place[0]] + (path[-1],) + items[place[0]:]
    for path, order in told['order']:
        body[tuple(path)] = tuple(order)
    return body


def carried_table(told, table):
    gone = [key_listed(it) for it in told['gone']]
    rows = [row for row in table if row.key not in gone]
    for it in told['changed']:
        place = [row.key for row in rows].index(key_of(it))
        owned = (rows[place].owned - read_fields_v1(it['lose'])) | read_fields_v1(it['gain'])
        rows[place] = rows[place]._replace(owned=owned, at=it.get('time', rows[place].at))
    for it in told['here']:
        given = it['entry']
        rows.insert(it['place'], Row(key_of(given), frozenset(read_fields_v1(given['fieldsV1'])), given['time']))
    return rows


def is_valid(state, kind):
    """Whether the body is that of a fitting value, within the limits, and the table one of it."""
    body, table = state
    try:
        value = value_at(body)
        fit(kind, value)
        for row in table:
            named(row.key.name)
    except Fault:
        return False
    return (flat(kind, value) == body and not is_too_large(body) and len(table) <= MOST_MANAGERS
            and len({row.key for row in table}) == len(table)
            and all(row.owned and all(is_ownable(body, path) for path in row.owned) for row in table))
