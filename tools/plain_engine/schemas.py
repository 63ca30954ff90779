"""What a schema says: the kinds of its places, and the first fault of a schema or of a value."""
from typing import NamedTuple

from .values import Fault, is_whole, text

DEEPEST = 32
LIST_TYPE, LIST_KEYS, MAP_TYPE = 'x-kubernetes-list-type', 'x-kubernetes-list-map-keys', 'x-kubernetes-map-type'
MARKERS = (LIST_TYPE, LIST_KEYS, MAP_TYPE)
KEYWORDS = {'type', 'properties', 'additionalProperties', 'items', 'description', *MARKERS}
SCALARS = ('string', 'integer', 'boolean')


class Scalar(NamedTuple):
    type: str


class Atomic(NamedTuple):
    shape: object


class Record(NamedTuple):
    fields: dict


class Dict(NamedTuple):
    entry: object


class ListOf(NamedTuple):
    """A list inside an atomic value."""
    item: object


class SetOf(NamedTuple):
    item: Scalar


class ItemsOf(NamedTuple):
    keys: list
    item: Record


METADATA = Record({'annotations': Dict(Scalar('string')), 'finalizers': SetOf(Scalar('string')), 'labels': Dict(Scalar('string'))})


def that(holds, number):
    if not holds:
        raise Fault(number)


def read_schema(value):
    """The kind of the root, with the fields of metadata that are everywhere."""
    kind = read_kind(value, 1, False)
    return Record({**kind.fields, 'metadata': METADATA})


def read_kind(schema, level, inside):
    """The kind of a schema at a level, perhaps inside an atomic value; or the first fault."""
    that(level <= DEEPEST, 13)
    that(isinstance(schema, dict), 11)
    that(all(name in KEYWORDS for name in schema), 10)
    kind = schema.get('type')
    that(isinstance(kind, str) and kind in (*SCALARS, 'object', 'array'), 11)
    that(isinstance(schema.get('description', ''), str), 11)
    that(not (inside and any(name in schema for name in MARKERS)), 11)
    that(level > 1 or kind == 'object', 11)
    if kind in SCALARS:
        that(set(schema) <= {'type', 'description'}, 11)
        return Scalar(kind)
    return read_object(schema, level, inside) if kind == 'object' else read_array(schema, level, inside)


def read_object(schema, level, inside):
    fields, of_map = schema.get('properties', {}), schema.get(MAP_TYPE, 'granular')
    that('items' not in schema and LIST_TYPE not in schema and LIST_KEYS not in schema, 11)
    that(not ('properties' in schema and 'additionalProperties' in schema) and isinstance(fields, dict), 11)
    that(of_map in ('granular', 'atomic'), 11)
    if level == 1:
        that('additionalProperties' not in schema and of_map != 'atomic', 11)
        that(not {'apiVersion', 'kind', 'metadata'} & set(fields), 11)
    within = inside or of_map == 'atomic'
    if 'additionalProperties' in schema:
        made = Dict(read_kind(schema['additionalProperties'], level + 1, within))
    else:
        made = Record({name: read_kind(fields[name], level + 1, within) for name in sorted(fields)})
    return Atomic(made) if of_map == 'atomic' else made


def read_array(schema, level, inside):
    of_list, keys = schema.get(LIST_TYPE, 'atomic'), schema.get(LIST_KEYS)
    that('items' in schema and not {'properties', 'additionalProperties', MAP_TYPE} & set(schema), 11)
    that(of_list in ('atomic', 'set', 'map'), 11)
    that(LIST_KEYS not in schema or of_list == 'map', 12)
    if of_list == 'map':
        that(isinstance(keys, list) and keys and all(isinstance(key, str) for key in keys) and len(set(keys)) == len(keys), 12)
    item = read_kind(schema['items'], level + 1, inside or of_list == 'atomic')
    if of_list == 'atomic':
        return ListOf(item) if inside else Atomic(ListOf(item))
    if of_list == 'set':
        that(isinstance(item, Scalar), 11)
        return SetOf(item)
    that(isinstance(item, Record), 11)
    that(all(isinstance(item.fields.get(key), Scalar) for key in keys), 12)
    return ItemsOf(sorted(keys), item)


def is_of(value, kind):
    """Whether a value is a scalar of a scalar kind."""
    if kind.type == 'integer':
        return is_whole(value)
    return isinstance(value, str if kind.type == 'string' else bool)


def fit(kind, value, path=(), at=None):
    """Raises the first fault of a value, at its path, or at a place that stands for all below it (an atomic value)."""
    here = path if at is None else at

    def holds(is_well, number=21, where=here):
        if not is_well:
            raise Fault(number, path=list(where))

    if isinstance(kind, Scalar):
        holds(is_of(value, kind))
    elif isinstance(kind, Atomic):
        fit(kind.shape, value, path, path)
    elif isinstance(kind, (Record, Dict)):
        holds(isinstance(value, dict))
        for name in sorted(value):
            there = path + ('f:' + name,)
            holds(isinstance(kind, Dict) or name in kind.fields, 20, there if at is None else at)
            fit(kind.entry if isinstance(kind, Dict) else kind.fields[name], value[name], there, at)
    else:
        holds(isinstance(value, list))
        fit_items(kind, value, path, at, holds)


def fit_items(kind, value, path, at, holds):
    """The same of the items of a list."""
    seen = set()
    for item in value:
        if isinstance(kind, ListOf):
            fit(kind.item, item, path, at)
            continue
        if isinstance(kind, SetOf):
            holds(is_of(item, kind.item))
        else:
            holds(isinstance(item, dict))
            for key in kind.keys:
                holds(key in item, 22)
                holds(is_of(item[key], kind.item.fields[key]))
        element = element_of(kind, item)
        holds(element not in seen, 23, path + (element,))
        seen.add(element)
        if isinstance(kind, ItemsOf):
            fit(kind.item, item, path + (element,))


def element_of(kind, item):
    """The text of the element by which an item of a set or map list is known."""
    if isinstance(kind, SetOf):
        return 'v:' + text(item)
    return 'k:' + text({key: item[key] for key in kind.keys})
