"""The elements of paths: their texts as servers write them, as the bench has them, and the ways that people read.

A path here is a list of element texts: `f:NAME`, `k:{KEYS}`, `v:VALUE`. The bench's texts have values as they stand there, as
texts of their JSON where the schema has no one type for them.
"""
import functools
import json
import re
from typing import NamedTuple

from .documents import compact, parse_json
from .places import BENCH_METADATA, METADATA, OTHERS, STATUS

PLAIN_NAME = re.compile(r"^[A-Za-z_(*][A-Za-z0-9_()*-]*$")


@functools.lru_cache(maxsize=65536)
def read(text):
    """What an element's text says: its letter, and a name, keys or a value. None where it is no element's text."""
    letter, rest = text[:2], text[2:]
    if letter == "f:":
        return "f", rest
    if letter not in ("k:", "v:"):
        return None
    try:
        said = parse_json(rest)
    except (ValueError, RecursionError):
        return None
    if letter == "k:":
        return ("k", said) if isinstance(said, dict) and said else None
    return "v", said


def boxed(place, value):
    """A scalar of a key or of a set as it stands on the bench."""
    return compact(value) if place.kind == "json" else value


def unboxed(place, value):
    return json.loads(value) if place.kind == "json" and isinstance(value, str) else value


def key_text(place, keys):
    """The bench's text of an item of a map list with these keys."""
    if all(place.item.fields[name].kind != "json" for name in place.keys):
        return "k:" + compact(keys)
    return "k:" + compact({name: boxed(place.item.fields[name], keys[name]) for name in place.keys})


def value_text(place, value):
    """The bench's text of an item of a set."""
    return "v:" + compact(boxed(place.item, value))


def named_keys(place, item):
    """The keys of an item, a missing one filled in by its default; None where one is missing, or is no scalar."""
    keys = {name: place.fill.get(name) if item.get(name) is None else item[name] for name in place.keys}
    if any(value is None or isinstance(value, (dict, list)) for value in keys.values()):
        return None
    return keys


class RealPath(NamedTuple):
    """A path of the bench as a server writes it, and as people read it."""

    place: object
    texts: tuple = ()
    way: str = ""
    among_others: bool = False  # whether the next element is an entry among a record's others
    is_whole: bool = False  # an item that a server takes as one: what is below is it
    is_structural: bool = True  # whether it stands for nothing that can be owned


def real_path(root, path):
    """A path of the bench as a server writes it. Each beginning is looked at once, and kept at the root."""
    known = root.real_paths
    if path not in known:
        known[path] = _longer(root, real_path(root, path[:-1]), path[-1]) if path else RealPath(root)
    return known[path]


def _longer(root, above, text):
    place = above.place
    if above.is_whole:
        return above
    if place is root and not above.among_others and text == "f:" + METADATA:
        return RealPath(root.fields["metadata"], ("f:metadata",), ".metadata")
    if place is root and not above.among_others and root.plain_status and text == "f:" + STATUS:
        return RealPath(root.fields["status"], ("f:status",), ".status", is_structural=False)
    if not above.among_others and place and place.kind == "record" and place.rest and text == "f:" + OTHERS:
        return above._replace(among_others=True, is_structural=True)
    whole = bool(place) and place.whole_items
    place, text, way = _real_element(place.rest if above.among_others else place, text, above.among_others)
    texts = (*above.texts, text)
    return RealPath(place, texts, above.way + way, is_whole=whole, is_structural=texts == ("f:metadata",))


def _real_element(place, text, is_entry):
    """The place at an element, and its text and way. Where the element is an entry among others, `place` is the entry's own."""
    letter, said = read(text)
    if letter == "f":
        child = place if is_entry or place is None else place.child(said)[0]
        return child, text, way_of_name(said)
    if letter == "k":
        keys = {name: unboxed(place.item.fields[name], value) for name, value in said.items()} if place else said
        way = ",".join(f"{name}={compact(value)}" for name, value in keys.items())
        return place and place.item, "k:" + compact(keys), f"[{way}]"
    value = unboxed(place.item, said) if place else said
    return place and place.item, "v:" + compact(value), f"[={compact(value)}]"


def way_of(texts):
    """The way that people read, of a path as servers write it."""
    return "".join(_real_element(None, text, False)[2] for text in texts)


def way_of_name(name):
    return f".{name}" if PLAIN_NAME.match(name) else f"[{compact(name)}]"


BENCH_PLAIN = re.compile(r"^[A-Za-z0-9/_-]+$")


def bench_way(path):
    """The way of a path of the bench as the proved program writes it in its lines for people."""
    return "".join(_bench_step(*read(text)) for text in path) or "the root"


def _bench_step(letter, said):
    if letter == "f":
        return f".{said}" if BENCH_PLAIN.match(said) else f"[{compact(said)}]"
    if letter == "k":
        return f"[{','.join(f'{name}={compact(value)}' for name, value in sorted(said.items()))}]"
    return f"[={compact(said)}]"


def without_stand_ins(text):
    """A line of the proved program without the names that stand for something else on a bench."""
    text = text.replace(f'; "{OTHERS}"?', "").replace(f'["{OTHERS}"]', "")
    for name in (METADATA, STATUS):
        text = text.replace(f'["{name}"]', f".{name[1:-1]}").replace(f'; "{name}"?', f"; {name[1:-1]}?")
    return text


def told_paths(root, paths):
    """Paths of the bench as pairs: the list of texts as a server writes them, and the way as people read it; each once."""
    told = {}
    for path in paths:
        real = real_path(root, tuple(path))
        if not real.is_structural:
            told.setdefault(real.texts, real.way)
    return [(list(texts), way) for texts, way in told.items()]


def bench_first(name):
    """The element texts on the bench of a member of metadata."""
    return ["f:metadata", "f:" + name] if name in BENCH_METADATA else ["f:" + METADATA, "f:" + name]
