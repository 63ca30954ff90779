"""Where two answers differ, and why: of objects and of managers' tables."""
import json

from ssabench_people.fields import said_paths
from ssabench_people.migration import ANNOTATION

from sides import way

FIRST = "before-first-apply"
CLIENT_SIDE = "kubectl-client-side-apply"


def text(value):
    return json.dumps(value, sort_keys=True)


def body(value):
    """An object without its managers."""
    metadata = {name: part for name, part in value["metadata"].items() if name != "managedFields"}
    return {**value, "metadata": metadata}


def sorted_lists(value):
    if isinstance(value, dict):
        return {name: sorted_lists(part) for name, part in value.items()}
    return sorted((sorted_lists(item) for item in value), key=text) if isinstance(value, list) else value


def without_empty(value):
    """The value without objects and lists that have nothing in them, which a server may leave as nulls."""
    if isinstance(value, dict):
        kept = {name: without_empty(part) for name, part in value.items()}
        return {name: part for name, part in kept.items() if part not in ({}, [], None)}
    return [without_empty(item) for item in value] if isinstance(value, list) else value


def object_reason(server, bench, before):
    """Why the objects differ; None where they are equal. `before` is the bench's object before the command."""
    whole, server, bench = server, body(server), body(bench)
    if text(server) == text(bench):
        return None
    specs = [text(sorted_lists(without_empty({**one, "metadata": {}}))) for one in (server, bench)]
    if specs[0] == specs[1] and ANNOTATION in text(server):
        return "client-side apply: the annotation goes with kubectl's applies"
    if text(sorted_lists(server)) == text(sorted_lists(bench)):
        return "order of lists"
    if text(sorted_lists(without_empty(server))) == text(sorted_lists(without_empty(bench))):
        return "emptied containers"
    its, mine = ways_values(without_empty(server)), ways_values(without_empty(bench))
    if any(key[0] == FIRST for key in entries(whole)):
        return FIRST
    kept = mine.keys() - its.keys()
    gone = its.keys() - mine.keys()
    lists = [path for entry in entries(before).values() for path in owned(entry) if isinstance(at(before, path), list)]
    if any(mine[path] != its[path] for path in its.keys() & mine.keys()):
        return "another object"
    if gone:
        listed = all(any(path[: len(above)] == above for above in lists) for path in gone)
        return "a list applied as empty goes with its items" if listed else "another object"
    updated = {path for entry in entries(before).values() if entry["operation"] == "Update" for path in owned(entry)}
    if any(path in updated for path in kept):
        return "an item in which an Update owns something stays"
    return "fields that nobody owns stay"


def ways_values(value, path=()):
    """The leaves of a value by their paths: fields by name, items by their key; of lists without keys the items, in no order."""
    if isinstance(value, dict) and value:
        return {below: leaf for name, part in value.items() for below, leaf in ways_values(part, (*path, f"f:{name}")).items()}
    if isinstance(value, list) and value and all(isinstance(item, dict) and ("name" in item or "port" in item) for item in value):
        found = {}
        for item in value:
            key = "name" if "name" in item else "port"
            found |= ways_values(item, (*path, "k:" + json.dumps({key: item[key]}, separators=(",", ":"))))
        return found
    return {path: text(sorted_lists(value))}


def entries(value):
    """The entries of an object by their manager, operation and part."""
    found = value["metadata"].get("managedFields") or []
    return {(entry["manager"], entry["operation"], entry.get("subresource", "")): entry for entry in found}


def owned(entry):
    return set(said_paths(entry["fieldsV1"]))


def at(value, path):
    """What stands at a path; None where nothing does."""
    for part in path:
        if part[0] == "f":
            value = value.get(part[2:]) if isinstance(value, dict) else None
        elif part[0] == "k":
            keys = json.loads(part[2:])
            items = value if isinstance(value, list) else []
            value = next((item for item in items if all(item.get(name) == keys[name] for name in keys)), None)
        else:
            value = json.loads(part[2:]) if isinstance(value, list) and json.loads(part[2:]) in value else None
        if value is None:
            return None
    return value


def conflict_reason(theirs, ours, before):
    """Why the conflicts differ, where they do: each is a set of pairs, or None where the command was done. `before` is the
    bench's object before it."""
    theirs, ours = theirs or set(), ours or set()
    empty = {way(path) for path, leaf in ways_values(body(before)).items() if leaf in ("{}", "[]")}
    reasons = {FIRST if manager == FIRST else "emptied containers" if field in empty else "another" for manager, field in theirs - ours}
    by_client_side = any(manager == CLIENT_SIDE for manager, _ in ours)
    reasons |= {"client-side apply" if by_client_side else "another" for _ in ours - theirs}
    return "another" if "another" in reasons else min(reasons, default=None)


def table_reasons(server, bench):
    """Why the managers' sets differ: the reasons, none where they are equal."""
    ours, theirs, reasons = entries(bench), entries(server), set()
    for key in ours.keys() | theirs.keys():
        if key[0] == FIRST:
            reasons.add(FIRST)
            continue
        mine = owned(ours[key]) if key in ours else set()
        its = owned(theirs[key]) if key in theirs else set()
        for path in its - mine:
            branch = isinstance(at(server, path), (dict, list))
            reasons.add("an Update owns the branches that it made" if branch and key[1] == "Update" else "another set")
        for path in mine - its:
            there = at(bench, path)
            if isinstance(there, list):
                reasons.add("an empty list is owned")
            else:
                reasons.add("emptied containers" if isinstance(there, dict) else "another set")
    return reasons
