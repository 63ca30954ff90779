"""Values of a kind, drawn: new ones, and variations of one that is there; and values that are spoiled."""
import json

from .schemas import Atomic, Dict, ItemsOf, ListOf, Record, Scalar, SetOf, element_of
from .values import text

# Few values, so that managers meet; now and then one that needs escapes, or stands elsewhere by its bytes than by its value.
TEXTS, RARE_TEXTS = ('a', 'a', 'a', 'b'), ('c', '', '"', '\\', 'é', 'a\nb', '\x1f', '\x7f', '\U0001f600', ' ', 'f:a', '\u2028')
WHOLES, RARE_WHOLES = (9, 9, 9, 10), (-1, 0, 100, 2 ** 63 - 1, -2 ** 63)
TRUTHS = (True, True, True, False)
POOLS = {'string': ('a', 'b', 'c'), 'integer': (9, 10, -1), 'boolean': (True, False)}
RARE = {'string': RARE_TEXTS, 'integer': RARE_WHOLES, 'boolean': (True, False)}


def some_scalar(dice, kind):
    if dice.one_in(14):
        return dice.pick(RARE[kind.type])
    return dice.pick({'string': TEXTS, 'integer': WHOLES, 'boolean': TRUTHS}[kind.type])


def some_of_pool(dice, kind):
    """Different scalars in any order."""
    found = dice.some(POOLS[kind.type])
    if dice.one_in(8):
        more = dice.pick(RARE[kind.type])
        found += [more] if not any(text(more) == text(it) for it in found) else []
    return found


def some_item(dice, kind):
    keys = {key: dice.pick(POOLS[kind.item.fields[key].type]) for key in kind.keys}
    if dice.one_in(20):
        key = dice.pick(kind.keys)
        keys[key] = dice.pick(RARE[kind.item.fields[key].type])
    rest = Record({name: it for name, it in kind.item.fields.items() if name not in kind.keys})
    return {**keys, **some_value(dice, rest)}


def distinct(kind, items):
    """The items, each element once."""
    found = {}
    for item in items:
        found.setdefault(element_of(kind, item), item)
    return list(found.values())


def some_value(dice, kind, bound=2):
    """A value of a kind; each field of a Record stands in it one time in so many."""
    if isinstance(kind, Scalar):
        return some_scalar(dice, kind)
    if isinstance(kind, Atomic):
        return some_value(dice, kind.shape)
    if isinstance(kind, Record):
        return {name: some_value(dice, kind.fields[name]) for name in kind.fields if dice.one_in(bound)}
    if isinstance(kind, Dict):
        return {name: some_value(dice, kind.entry) for name in some_of_pool(dice, Scalar('string'))}
    if isinstance(kind, SetOf):
        return some_of_pool(dice, kind.item)
    if isinstance(kind, ListOf):
        return [some_value(dice, kind.item) for _ in range(dice.below(3))]
    return distinct(kind, [some_item(dice, kind) for _ in range(dice.below(4))])


def varied(dice, kind, value, bound=5):
    """A value near another: few things change, go and come, and items may stand in another order."""
    if isinstance(kind, Scalar):
        return dice.pick(POOLS[kind.type]) if dice.one_in(bound) else value
    if isinstance(kind, Atomic):
        return some_value(dice, kind) if dice.one_in(bound) else value
    if isinstance(kind, (Record, Dict)):
        fields = kind.fields if isinstance(kind, Record) else dict.fromkeys(value, kind.entry)
        made = {name: varied(dice, fields[name], inside, bound) for name, inside in value.items() if not dice.one_in(bound)}
        more = some_value(dice, kind, 2 * bound) if isinstance(kind, Record) or dice.one_in(bound) else {}
        return {**more, **made}
    left = [item for item in value if not dice.one_in(bound)]
    if isinstance(kind, ItemsOf):
        rest = Record({name: it for name, it in kind.item.fields.items() if name not in kind.keys})
        left = [{**{key: item[key] for key in kind.keys},
                 **varied(dice, rest, {name: it for name, it in item.items() if name not in kind.keys}, bound)} for item in left]
    more = some_value(dice, kind) if dice.one_in(3) else []
    return distinct(kind, reordered(dice, left + more))


def permuted(dice, kind, value):
    """The same value but for the orders of its sets and map lists."""
    if isinstance(kind, (Record, Dict)):
        return {name: permuted(dice, kind.entry if isinstance(kind, Dict) else kind.fields[name], it) for name, it in value.items()}
    if isinstance(kind, SetOf):
        return reordered(dice, value)
    return reordered(dice, [permuted(dice, kind.item, it) for it in value]) if isinstance(kind, ItemsOf) else value


def led(dice, kind, value):
    """The same value, but that of its sets and map lists, nested ones too, some items are left out, new ones come among the others and all
    are shuffled."""
    if isinstance(kind, (Record, Dict)):
        return {name: led(dice, kind.entry if isinstance(kind, Dict) else kind.fields[name], it) for name, it in value.items()}
    if not isinstance(kind, (SetOf, ItemsOf)):
        return value
    left = [led(dice, kind.item, item) for item in value if not dice.one_in(4)]
    return dice.shuffled(distinct(kind, left + (some_value(dice, kind) if dice.one_in(2) else [])))


def reordered(dice, items):
    how = dice.below(4)
    if how == 0:
        return items
    if how == 1:
        return items[::-1]
    return dice.shuffled(items) if how == 2 else items[1:] + items[:1]


def places(value, at=()):
    """The places of a value, each as the names and numbers that lead to it."""
    yield at
    inside = value.items() if isinstance(value, dict) else enumerate(value) if isinstance(value, list) else ()
    for name, it in inside:
        yield from places(it, at + (name,))


def changed(value, at, make):
    """The value with what stands at a place made anew; `make` gives a list of what comes in place of an item or a member's value."""
    if not at:
        return (make(value) or [value])[0]
    if isinstance(value, list):
        return value[:at[0]] + (make(value[at[0]]) if len(at) == 1 else [changed(value[at[0]], at[1:], make)]) + value[at[0] + 1:]
    made = make(value[at[0]]) if len(at) == 1 else [changed(value[at[0]], at[1:], make)]
    return {name: it for name, it in {**value, at[0]: made[0] if made else None}.items() if name != at[0] or made}


STRANGE = (None, 1.5, True, False, 7, -1, 'x', '', [], {}, ['x'], {'x': 1}, {'.': {}}, 'a', 10 ** 19, -0.0, 'set', 'map', 'atomic', 'granular',
           'string', 'integer', 'object', 'array', 'status', ['name'], ['port', 'port'], {'type': 'string'}, 'Apply', 'Patch', '2024-05-01T10:00:60Z')
NAMES = ('x', 'zzz', 'uid', 'name', 'namespace', 'managedFields', 'force', 'managed', 'description', 'items', 'properties', 'default',
         'additionalProperties', 'x-kubernetes-list-type', 'x-kubernetes-list-map-keys', 'x-kubernetes-map-type', '.', 'i:0', 'v: 1',
         'v:1.5', 'f:spec', 'f:metadata', 'q', 'k:{}', 'k:{"a": 1}', 'k:{"a":[]}', 'v:', 'subresource', 'apiVersion', 'metadata')


def spoiled(dice, value):
    """The value with one thing that may be wrong."""
    at = dice.pick(list(places(value)))
    there = value
    for step in at:
        there = there[step]
    how = dice.below(6)
    if isinstance(there, dict) and how < 3:
        if how == 0:
            return changed(value, at, lambda it: [{**it, dice.pick(NAMES): dice.pick(STRANGE)}])
        if there and how == 1:
            old, new = dice.pick(sorted(there)), dice.pick(NAMES)
            return changed(value, at, lambda it: [{new if name == old else name: inside for name, inside in it.items()}])
    if isinstance(there, list) and there and how < 3:
        return changed(value, at, lambda it: [it + [dice.pick(it)] if how else dice.shuffled(it)])
    if how == 3:
        return changed(value, at, lambda it: [])
    if how == 4 and isinstance(there, str) and there:
        place = dice.below(len(there))
        return changed(value, at, lambda it: [it[:place] + dice.pick(('', 'x', ' ', '"', '0')) + it[place + 1:]])
    return changed(value, at, lambda it: [dice.pick(STRANGE)])


def spoiled_bytes(dice, given):
    """Bytes of which one place is changed."""
    place = dice.below(len(given) + 1)
    how = dice.below(5)
    if how == 0:
        return given[:place]
    if how == 1:
        return given[:place] + given[place + 1:]
    word = dice.pick((b'0', b'"', b'}', b']', b'{', b'[', b',', b':', b'\\', b' ', b'\n', b'\xff', b'null', b'1e400', b'-0', b'1.0', b'9' * 400,
                      b'\\ud800', b'9223372036854775808', b'\r', b'\t', b'e', b'.', b'-'))
    return given[:place] + word + given[place + (how == 2):]


def spelled(dice, value):
    """A spelling of a value, mostly the compact one."""
    how = dice.below(6)
    if how == 0:
        return json.dumps(value, ensure_ascii=True).encode()
    if how == 1 and isinstance(value, dict):
        return json.dumps(dict(dice.shuffled(value.items())), ensure_ascii=False, separators=(' , ', ': ')).encode()
    return text(value).encode()
