"""Values, turned to what stands on a bench and back.

`to_bench` tells the report what is not as it was; ways in the report are those of the schema: `[]` for any item, `.*` for any
entry of a map.
"""
import json

from .documents import compact
from .places import OPEN, OTHERS

ABSENT = object()


def to_bench(place, value, way, report):
    """What stands on the bench for a value; ABSENT for a null, and for what the schema hasn't where such values are left out."""
    if value is None and not (place and place.kind == "json" and place.why == OPEN):
        report.add(way, "null, taken as absent", "null")
        return ABSENT
    if place is None:
        if not report.leaves_out:
            return value
        report.add(way, "none of the schema, left out", "value")
        return ABSENT
    if place.kind == "json":
        _tell_text(place, value, way, report)
        return compact(value)
    if place.kind in ("record", "dict") and isinstance(value, dict):
        return _members_to_bench(place, value, way, report)
    if place.is_list and isinstance(value, list):
        return _items_to_bench(place, value, way, report)
    return value


PART_BY_PART = "owned and replaced as one, on a server part by part"


def _tell_text(place, value, way, report):
    if isinstance(value, dict) and value:
        report.add(way, f"{place.why}, stands as the text of its JSON; {PART_BY_PART}", "open")
    elif place.why != OPEN:
        report.add(way, f"{place.why}, stands as the text of its JSON", "text")


def _members_to_bench(place, value, way, report):
    turned, others = {}, {}
    for name, member in value.items():
        child, is_other = place.child(name)
        below = f"{way}.*" if is_other or place.kind == "dict" else f"{way}.{name}"
        found = to_bench(child, member, below, report)
        if found is not ABSENT:
            (others if is_other else turned)[name] = found
    entries = turned if place.kind == "dict" else others
    if entries and place.rest and place.rest.why == OPEN:
        report.add(way, "open object, each entry stands as the text of its JSON", "text")
    if others:
        turned[OTHERS] = others
    return turned


def _items_to_bench(place, value, way, report):
    turned = []
    if place.whole_items and value:
        report.add(f"{way}[]", "items are taken field by field, on a server each as one", "whole")
    for item in value:
        if place.kind == "map" and isinstance(item, dict):
            item = _with_keys(place, item, f"{way}[]", report)
        found = to_bench(place.item, item, f"{way}[]", report)
        if found is not ABSENT:
            turned.append(found)
    return turned


def _with_keys(place, item, way, report):
    """The item with each missing key filled in by its default."""
    filled = {name: value for name, value in place.fill.items() if item.get(name) is None}
    for name, value in filled.items():
        report.add(f"{way}.{name}", f"a key, filled in as {compact(value)}", "filled")
    return {**item, **filled}


def from_bench(place, value):
    """The value that stands for this on the bench."""
    if place is None:
        return value
    if place.kind == "json":
        return json.loads(value) if isinstance(value, str) else value
    if place.kind == "dict" and isinstance(value, dict):
        return {name: from_bench(place.rest, member) for name, member in value.items()}
    if place.kind == "record" and isinstance(value, dict):
        others = value.get(OTHERS, {}) if place.rest else {}
        named = {name: from_bench(place.fields.get(name), value[name]) for name in value if name != OTHERS or not place.rest}
        return named | {name: from_bench(place.rest, member) for name, member in others.items()}
    if place.is_list and isinstance(value, list):
        return [from_bench(place.item, item) for item in value]
    return value
