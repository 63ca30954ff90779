"""Elements, told by their texts, so that a path is a tuple of texts and paths are ordered as tuples are; sets of paths as FieldsV1."""
import json

from .values import Fault, is_scalar, read, text


def read_element(said):
    """The text itself, where it is an element's own."""
    if said.startswith('f:'):
        return said
    if said.startswith('i:'):
        raise Fault(31)
    if said[:2] not in ('v:', 'k:'):
        raise Fault(30)
    try:
        value = read(said[2:].encode(), len(said.encode()))
    except Fault:
        raise Fault(30) from None
    is_key = isinstance(value, dict) and value and all(is_scalar(it) for it in value.values())
    if not (is_scalar(value) if said.startswith('v:') else is_key):
        raise Fault(30)
    if said[2:] != text(value):
        raise Fault(32)
    return said


def read_path(texts):
    return tuple(read_element(it) for it in texts)


def is_item(element):
    return not element.startswith('f:')


def is_under(path, above):
    """Whether the second is a beginning of the first, or the first itself."""
    return path[:len(above)] == above


def beginnings(path):
    return {path[:length] for length in range(len(path) + 1)}


def is_key_field(path):
    """Whether it is the field of an item by which, with others, the item is known."""
    return len(path) > 1 and path[-2].startswith('k:') and path[-1].startswith('f:') and path[-1][2:] in json.loads(path[-2][2:])


def fields_v1(paths):
    """The writing of a set: each member has `{}` where its place is all of the set at and below it. The members stand in the order of the
    paths."""
    below = {}
    for path in paths:
        if path:
            below.setdefault(path[0], []).append(path[1:])
    written = {element: {} if rest == [()] else fields_v1(rest) for element, rest in below.items()}
    return {'.': {}, **written} if () in paths else written


def read_fields_v1(value, at=()):
    """The set of paths that it says, or its first fault."""
    if not isinstance(value, dict):
        raise Fault(30)
    said = set()
    for name in sorted(value):
        inside = value[name]
        if name == '.':
            if inside != {}:
                raise Fault(30)
            said.add(at)
            continue
        there = at + (read_element(name),)
        if not isinstance(inside, dict):
            raise Fault(30)
        if inside == {'.': {}}:
            raise Fault(32)
        said |= read_fields_v1(inside, there) if inside else {there}
    return said
