"""Bodies: whole paths with what stands at each; points, comparison, the configuration over the live body.

At a path stands the compact text of a scalar or an atomic value, RECORD or DICT, or a tuple: the items of a list in their order.
"""
import json

from .paths import is_item
from .schemas import Atomic, Dict, ItemsOf, Record, Scalar, SetOf, element_of
from .values import text

RECORD, DICT = object(), object()
METADATA = ('f:metadata',)
MOST_PATHS = 20_000


def flat(kind, value, path=()):
    """The body of a value that fits its kind."""
    if isinstance(kind, (Scalar, Atomic)):
        return {path: text(value)}
    if isinstance(kind, (SetOf, ItemsOf)):
        elements = tuple(element_of(kind, item) for item in value)
        body = {path: elements}
        for element, item in zip(elements, value):
            body |= flat(kind.item, item, path + (element,))
        return body
    body = {path: DICT if isinstance(kind, Dict) else RECORD}
    for name, inside in value.items():
        there = path + ('f:' + name,)
        if there != METADATA or inside != {}:
            body |= flat(kind.entry if isinstance(kind, Dict) else kind.fields[name], inside, there)
    return body


def children(body):
    """The elements below each path, in their order."""
    below = {path: [] for path in body}
    for path in sorted(body):
        if path:
            below[path[:-1]].append(path[-1])
    return below


def value_at(body, path=(), below=None):
    """The value whose body has what stands at a path and below."""
    below = children(body) if below is None else below
    there = body[path]
    if isinstance(there, str):
        return json.loads(there)
    if isinstance(there, tuple):
        return [value_at(body, path + (element,), below) for element in there]
    return {element[2:]: value_at(body, path + (element,), below) for element in below[path]}


def kind_at(kind, path):
    """The kind of what may stand at a path, None where nothing may."""
    for element in path:
        if isinstance(kind, (SetOf, ItemsOf)) and is_item(element):
            kind = kind.item
        elif isinstance(kind, Dict) and not is_item(element):
            kind = kind.entry
        elif isinstance(kind, Record) and not is_item(element) and element[2:] in kind.fields:
            kind = kind.fields[element[2:]]
        else:
            return None
    return kind


def is_leaf(there):
    return isinstance(there, str)


def points(body):
    """Leaves, items, entries of maps, and branches with nothing below, but for the root."""
    parents = {path[:-1] for path in body if path}
    return {path for path, there in body.items() if path and
            (is_leaf(there) or is_item(path[-1]) or body[path[:-1]] is DICT or path not in parents)}


def is_ownable(body, path):
    return path in body and path not in ((), METADATA)


def compare(before, after):
    """What was added, modified and removed."""
    added = points(after) - before.keys()
    modified = {path for path in before.keys() & after.keys() if is_leaf(before[path]) and before[path] != after[path]}
    return added, modified, before.keys() - after.keys()


def merged_order(live, configured):
    """The order of a list that both have.

    The places that hold items of both are refilled with these in the configuration's order, the other live items keep theirs, and what
    the configuration alone has follows in its order.
    """
    own, others = set(live), set(configured)
    both = iter([element for element in configured if element in own])
    refilled = [next(both) if element in others else element for element in live]
    return (*refilled, *(element for element in configured if element not in own))


def over(live, config):
    """The configuration laid over the live body."""
    merged = {**live, **config}
    for path in live.keys() & config.keys():
        if isinstance(live[path], tuple):
            merged[path] = merged_order(live[path], config[path])
    return merged


def restrict(body, kept):
    """What of a body stands at these paths, orders too."""
    made = {path: there for path, there in body.items() if path in kept}
    for path, there in made.items():
        if isinstance(there, tuple):
            made[path] = tuple(element for element in there if path + (element,) in kept)
    return made


def is_too_large(body):
    return len(body) - 1 > MOST_PATHS


def listed(paths):
    """Paths as they stand in replies."""
    return [list(path) for path in sorted(paths)]
