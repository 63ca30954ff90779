"""Ways to a field, as people write them: `.spec.containers[name=nginx].image`, with or without the first point and the quotes.

A way is followed through the kind's places and the object. Names with points stand in brackets and quotes, but where an entry of
that name is there. A list of element texts, as the proved program prints it, is a way too.
"""
import difflib
import json
import re

from .along import Along
from .documents import compact
from .objects import IDENTITY, SERVERS_OWN
from .refusal import Refusal

MOST_ITEMS = 5  # of a list that are told
NAME = re.compile(r"\.?([^.\[\]]+)")
KEYS = re.compile(r'\[((?:"(?:[^"\\]|\\.)*"|[^\]"])*)\]')
PART = re.compile(r'\s*([^=,"]*)=\s*("(?:[^"\\]|\\.)*"|[^,"]*)\s*(?:,|$)')


def followed(root, value, way):
    """Where a way leads in an object. Raises a refusal where the schema hasn't it, or it isn't there."""
    here = Along(root, value)
    if way.lstrip().startswith("["):
        try:
            texts = json.loads(way)
        except ValueError:
            texts = None
        if isinstance(texts, list) and all(isinstance(text, str) for text in texts):
            for text in texts:
                here = _step(here, text, way)
            return here
    rest = way
    while rest and rest != ".":
        text, rest = _element(here, rest, way)
        here = _step(here, text, way)
    return here


def _step(here, text, way):
    if here.place.is_leaf or here.is_whole:
        raise Refusal(f"{way}: {here.way} is owned as one")
    found = here.step(text)
    if found is not None and found.value is not None:
        return found
    if here.knows(text):
        raise Refusal(f"{here.way_of(text)} is not there")
    if here.path is None and text[2:] in (*IDENTITY, *SERVERS_OWN) or here.path == () and text[2:] in ("apiVersion", "kind"):
        raise Refusal(f"{here.way_of(text)} is owned by nobody")
    if text.startswith("f:") and not here.place.is_list:
        near = difflib.get_close_matches(text[2:], here.place.fields, n=1)
        raise Refusal(f"{here.way_of(text)}: no such field{'; ' + near[0] + '?' if near else ''}")
    kinds = {"map": "a list of items known by " + ", ".join(here.place.keys), "set": "a list of values"}
    there = [child.way.removeprefix(here.way) for child in here.children()] if here.place.is_list else []
    more = [".."] if len(there) > MOST_ITEMS else []
    items = f": {', '.join(there[:MOST_ITEMS] + more)}" if there else ""
    raise Refusal(f"{way}: {here.way or 'the object'} is {kinds.get(here.place.kind, 'no list')}{items}")


def _element(here, rest, way):
    """The next element's text, and what is left of the way."""
    if rest.startswith("["):
        found = KEYS.match(rest)
        if not found:
            raise Refusal(f"{way}: no way to a field: a bracket isn't closed")
        return _in_brackets(here, found.group(1), way), rest[found.end() :]
    there = here.value if isinstance(here.value, dict) and here.place.child("")[0] else {}
    for name in sorted(there, key=len, reverse=True):
        left = rest.removeprefix(".")
        if left.startswith(name) and (left[len(name) :] + ".")[0] in ".[":
            return f"f:{name}", left[len(name) :]
    found = NAME.match(rest)
    if not found:
        raise Refusal(f"{way}: no way to a field")
    return f"f:{found.group(1)}", rest[found.end() :]


def _in_brackets(here, inner, way):
    if "=" not in inner or inner.startswith('"') and inner.endswith('"') and here.place.kind not in ("map", "set"):
        name = json.loads(inner) if inner.startswith('"') else inner
        return f"f:{name}"
    if inner.startswith("="):
        item = here.place.item if here.place.kind == "set" else None
        return "v:" + compact(_scalar(item, inner[1:], way))
    keys, place = {}, 0
    while place < len(inner):
        found = PART.match(inner, place)
        if not found or found.end() == place:
            raise Refusal(f"{way}: [{inner}] names no item")
        name = found.group(1).strip()
        item = here.place.item.fields.get(name) if here.place.kind == "map" else None
        keys[name] = _scalar(item, found.group(2), way)
        place = found.end()
    return "k:" + compact(keys)


def _scalar(place, text, way):
    """A scalar: of a field of texts the very text, quoted or not; else as JSON, where it is."""
    if text.startswith('"') or place is None or place.kind != "text":
        try:
            return json.loads(text)
        except ValueError:
            if text.startswith('"'):
                raise Refusal(f"{way}: {text} is no text") from None
    return text
