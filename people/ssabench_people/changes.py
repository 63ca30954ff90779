"""What a command changed: by the proved program's comparison, and by the managers' entries before and after it.

A change is a dict: `what` is `added`, `modified`, `removed`, `reordered`, `shared`, `claimed` or `given up`; `path` the element texts
as servers write them and `way` as people do; `from` and `to` values, where there are some; `items` of a list that was reordered;
`takenFrom` who owned the place until the command took it, `with` who owns it too, `keptBy` for whose sake a place stays that its
applier gave up.
"""
import functools
import json

from .along import Finder
from .elements import told_paths, way_of
from .fields import said_paths

OPERATIONS = {"apply": "Apply", "update": "Update"}


def owner_of(entry):
    """Whose an entry is: a manager, with its operation and part."""
    return {name: entry[name] for name in ("manager", "operation", "subresource") if entry.get(name)}


def who_key(owner):
    """An owner as a key of a dict."""
    return tuple(sorted(owner.items()))


@functools.lru_cache(maxsize=4096)
def _paths_of(text):
    return frozenset(said_paths(json.loads(text)))


def sets(shown):
    """The owners of an object as people see it, in their order, each with the set of its paths."""
    entries = shown["metadata"].get("managedFields") or []
    return [(owner_of(entry), _paths_of(json.dumps(entry["fieldsV1"]))) for entry in entries]


def acting(label):
    """Who gave a command, as an owner; None where nobody is named."""
    return owner_of(label | {"operation": OPERATIONS[label["do"]]}) if "manager" in label else None


def above(paths):
    """All places above some."""
    return {path[:size] for path in paths for size in range(1, len(path))}


def topmost(ways):
    """Of places with their ways those that stand below no other."""
    return [(path, ways[path]) for path in sorted(ways) if not any(path[:size] in ways for size in range(1, len(path)))]


class Changes:
    """The changes of one command by `actor`, None where it is nobody's, from one object to another, as people see them."""

    def __init__(self, root, before, after, actor, reply, reordered=()):
        self.actor = actor
        self.before, self.after = Finder(root, before), Finder(root, after)
        self.sets_before, self.sets_after = sets(before), sets(after)
        told = {part: told_paths(root, reply[part]) for part in ("added", "modified", "removed")}
        self.compared = {part: {tuple(texts): way for texts, way in ways} for part, ways in told.items()}
        self.reordered = told_paths(root, reordered)
        self.own_before, self.own_after = self._own(self.sets_before), self._own(self.sets_after)

    def _own(self, which):
        return next((paths for owner, paths in which if owner == self.actor), frozenset())

    def losers(self, path):
        """Who owned a place until the command took it, but for who gave the command."""
        if self.actor is None:
            return []
        still = [owner for owner, paths in self.sets_after if path in paths]
        return [owner for owner, paths in self.sets_before if path in paths and owner not in (*still, self.actor)]

    def lost(self):
        """The places that others lost by the command."""
        after = dict((who_key(owner), paths) for owner, paths in self.sets_after)
        theirs = ((owner, paths) for owner, paths in self.sets_before if owner != self.actor)
        return {path for owner, paths in theirs for path in paths - after.get(who_key(owner), frozenset())}

    def others(self, path):
        """Who owns a place afterwards, but for who gave the command."""
        return [owner for owner, paths in self.sets_after if path in paths and owner != self.actor]

    @functools.cached_property
    def _above_after(self):
        """The owners afterwards, each with all places above its own."""
        return [(owner, above(paths)) for owner, paths in self.sets_after]

    def keepers(self, path):
        """Who owns a place or something below it afterwards."""
        return self.others(path) or [owner for owner, places in self._above_after if path in places]

    def all(self):
        """All that the command changed: values, orders and owners."""
        return self.values() + self.orders() + self.ownership()

    def values(self, parts=("added", "modified", "removed")):
        """What was added, modified and removed; of what came or went as a whole the topmost place."""
        return [self.valued(part, path, way) for part in parts for path, way in topmost(self.compared[part])]

    def orders(self):
        """The lists whose items stand in another order, with their items."""
        found = []
        for texts, way in self.reordered:
            items = [child.texts[-1] for child in self.after.at(tuple(texts)).children()]
            found.append({"what": "reordered", "path": texts, "way": way, "items": items})
        return found

    def valued(self, what, path, way):
        told = {"what": what, "path": list(path), "way": way}
        if what != "added":
            told["from"] = self.before.value(path)
        if what != "removed":
            told["to"] = self.after.value(path)
        losers = self.losers(path)
        return told | ({"takenFrom": losers} if losers else {})

    def ownership(self, all_shared=False):
        """What changed its owners at places whose values stay: shared, claimed where nobody owned it or it was taken, given up.
        With `all_shared` also what was shared before."""
        changed = {path for ways in self.compared.values() for path in ways}
        gained = (self.own_after if all_shared else self.own_after - self.own_before) - changed
        found = []
        for path in self._without_keys(gained):
            others, losers = self.others(path), self.losers(path)
            if others:
                found.append(self._owned("shared", path) | {"with": others})
            elif losers or path not in self.own_before:
                found.append(self._owned("claimed", path) | ({"takenFrom": losers} if losers else {}))
        return found + self.given_up()

    def given_up(self):
        """What the actor owned and gave up though it stays, and for whose sake; but for branches in which it still owns something."""
        stays = {path for path in self.own_before - self.own_after if path not in self.compared["removed"]}
        stays -= above(self.own_after)
        return [self._owned("given up", path) | {"keptBy": self.keepers(path)} for path in self._without_keys(stays)]

    def _without_keys(self, paths):
        """The paths in their order, but for keys of items that are among them."""

        def is_key(path):
            return len(path) > 1 and path[:-1] in paths and path[-2].startswith("k:") and path[-1][2:] in json.loads(path[-2][2:])

        return sorted(path for path in paths if not is_key(path))

    def _owned(self, what, path):
        """A change of owners alone; the value is told of a place that has nothing below it."""
        here = self.after.at(path)
        told = {"what": what, "path": list(path), "way": way_of(path)}
        return told | ({"to": here.value} if here is not None and not here.children() else {})
