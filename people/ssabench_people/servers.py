"""What a server would do otherwise with an apply: told by this program, and proved by nobody.

The rules are those of Kubernetes' own merge. *Removals*: what an applier owned counts with the named fields above it, and so does
what anybody owns afterwards; what only the first has goes with all that stands below. So an owner holds the named fields above what
it owns, but no item and no entry of a map. What is owned as empty is not held where an empty list stands in it, which does not
count for a server: it goes with all that nobody owns in it. A list that is merged item by item is no applier's: the bench, where who
applied it as empty owns it, may remove what stays on a server. *Order*: the two lists are merged from their heads, led by the items
that both have.
"""
import collections

from .changes import above, topmost
from .documents import compact
from .elements import named_keys, way_of


def with_fields_above(root, paths):
    """The paths, with each beginning of theirs that ends at a named field of an object."""
    found = set(paths)
    for path in paths:
        place = root
        for size, text in enumerate(path, 1):
            place, is_named = _below(place, text)
            if is_named:
                found.add(path[:size])
    return found


def _below(place, text):
    """The place at an element, and whether it is a named field."""
    if place is None:
        return None, False
    if not text.startswith("f:"):
        return (place.item if place.is_list else None), False
    name = text[2:]
    return place.child(name)[0], place.kind == "record" and name in place.fields


def _is_merged_list(root, path):
    place = root
    for text in path:
        place, _ = _below(place, text)
    return place is not None and place.kind in ("set", "map")


def _lists_of(root, owner, paths):
    """The lists of a set that are no applier's on a server."""
    if owner["operation"] != "Apply":
        return set()
    return {path for path in paths if path[-1:] and path[-1].startswith("f:") and _is_merged_list(root, path)}


def _goes(root, changes):
    """What goes on a server: what the applier owned last, and nobody holds afterwards."""
    last = with_fields_above(root, changes.own_before - _lists_of(root, changes.actor, changes.own_before))
    held = with_fields_above(root, {path for owner, paths in changes.sets_after for path in paths - _lists_of(root, owner, paths)})
    lowest = (last & held) - above(held)
    return last - (held - {path for path in lowest if _has_uncounted(changes.before.at(path))})


def removals(root, changes):
    """What a server removes beside what the bench does: places with their ways, the topmost ones."""
    gone = {path: way_of(path) for path in _goes(root, changes) if changes.after.value(path) is not None}
    return topmost({path: way for path, way in gone.items() if path != ("f:metadata",)})


def kept(root, changes):
    """What a server keeps though the bench removes it, since the applier once applied the list as empty: the topmost places."""
    gone, lists = _goes(root, changes), _lists_of(root, changes.actor, changes.own_before)
    removed = {path: {path[:size] for size in range(1, len(path) + 1)} for path in changes.compared["removed"]}
    return topmost({path: way_of(path) for path, beginnings in removed.items() if beginnings & lists and not beginnings & gone})


def _has_uncounted(here):
    """Whether an empty list stands in a place, or an object of nothing else."""
    return here is not None and any(_is_uncounted(child) for child in here.children())


def _is_uncounted(here):
    if here.place.is_list and not here.place.is_leaf:
        return here.value == []
    children = here.children()
    return bool(children) and all(_is_uncounted(child) for child in children)


def merged_order(live, given):
    """The order of a merged list on a server, of the two lists of what items are known by."""
    in_live, in_given, done = set(live), set(given), set()
    shared = collections.deque(item for item in given if item in in_live)
    merged, left, right = [], 0, 0
    while left < len(live) or right < len(given):
        head = live[left] if left < len(live) else None
        if left < len(live) and right < len(given):
            if head == given[right]:
                shared.popleft()
                merged.append(head)
                done.add(head)
                left, right = left + 1, right + 1
                continue
            if head in in_given and shared and shared[0] != head:
                left += 1
                continue
        if left < len(live):
            if head not in in_given:
                merged.append(head)
                left += 1
                continue
            if head in done:
                left += 1
        if right < len(given):
            if shared and shared[0] == given[right]:
                shared.popleft()
            merged.append(given[right])
            done.add(given[right])
            right += 1
    return merged


def orders(changes, configured, gone):
    """The lists that have another order on a server: their ways, with the items in its order. `configured` finds places of the
    manifest, `gone` are the places that a server removes beside."""
    found = []

    def walk(here):
        live, after = changes.before.at(here.texts), changes.after.at(here.texts)
        if here.is_whole or here.place.is_leaf or after is None:
            return
        if here.place.is_list and live is not None and live.value:
            wanted = merged_order(*(_known(place, here.place) for place in (live, here)))
            now = [item for item in _known(after, here.place) if (*here.texts, item) not in gone]
            stays = set(now)
            wanted = [item for item in wanted if item in stays]
            if wanted != now and len(wanted) == len(now):
                found.append((here.texts, here.way, wanted))
        for child in here.children():
            walk(child)

    walk(configured.at(()))
    return found


def _known(here, place):
    """What the items of a list are known by, as the last elements of their paths."""
    if place.kind == "set":
        return ["v:" + compact(item) for item in here.value]
    return ["k:" + compact(named_keys(place, item)) for item in here.value]


def before_first_apply(live, changes):
    """The places at which an apply conflicts with who is there before any manager is: nobody is, and values differ."""
    if live["metadata"].get("managedFields"):
        return []
    return sorted(changes.compared["modified"].items())
