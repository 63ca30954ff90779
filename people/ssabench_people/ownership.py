"""Who owns what: the entries of `managedFields`, turned with the object and back.

Each owned path is taken to the place that stands for it on the bench. A path below a place that the bench has as one becomes that
place; a path of an item that a server takes as one brings all that is below the item. What can't be taken is told, and is a loss,
but for a path whose value is a null.
"""
import json

from .along import Along
from .documents import compact
from .elements import real_path
from .fields import is_set, said_paths, written
from .report import counted

NO_TIME = "1970-01-01T00:00:00Z"  # stands for an entry's time where it has none
MEMBERS = ("apiVersion", "fieldsType", "fieldsV1", "manager", "operation", "time")


def entry_name(entry):
    name = f"entry of {entry.get('manager')} ({entry.get('operation')})"
    return f"{name} through {entry['subresource']}" if entry.get("subresource") else name


class Turning:
    """Turns the entries of one object."""

    def __init__(self, root, value, report, same_schema=False):
        self.root = root
        self.value = value
        self.report = report
        self.same_schema = same_schema

    def entries(self, given):
        """The bench's entries. Two of one manager, operation and part become one."""
        turned = {}
        for entry in given:
            found = self.entry(entry)
            if found is None:
                continue
            key = (found["manager"], found["operation"], found.get("subresource", ""))
            if key in turned:
                self.report.add(entry_name(entry), "joined with the entry before of the same manager", "moved")
                found["fieldsV1"] = written(said_paths(turned[key]["fieldsV1"]) + said_paths(found["fieldsV1"]))
                found["time"] = max(found["time"], turned[key]["time"])
            turned[key] = found
        return list(turned.values())

    def entry(self, entry):
        """The bench's entry for one of a server's; None where it is left out."""
        if not _is_entry(entry):
            self.report.add(f"entry {compact(entry)[:60]}", "no entry of fields, left out", "entry")
            return None
        name, count = entry_name(entry), counted(len(said_paths(entry["fieldsV1"])), "field")
        version, here = entry.get("apiVersion"), self.value["apiVersion"]
        part = entry.get("subresource") or ""
        if part not in ("", "status"):
            self.report.add(name, f"the bench has no such part: left out, {count}", "entry")
            return None
        if version != here and not self.same_schema:
            self.report.add(f"{name} at {version}", f"left out, {count}; --same-schema takes it as of {here}", "entry")
            return None
        if version != here:
            self.report.add(f"{name} at {version}", f"taken as of {here}", "moved")
        if not entry.get("time"):
            self.report.add(name, "has no time", "time")
        paths = self.paths(entry["fieldsV1"], name)
        if not paths:
            self.report.add(name, "owns nothing that stands on the bench, left out", "entry")
            return None
        turned = {member: entry.get(member, "") for member in MEMBERS} | {"apiVersion": here, "fieldsV1": written(paths)}
        turned["fieldsType"] = entry.get("fieldsType") or "FieldsV1"
        turned["time"] = entry.get("time") or NO_TIME
        return turned | ({"subresource": part} if part else {})

    def paths(self, fields, name):
        """The bench's paths of a set."""
        found = []
        self._walk(Along(self.root, self.value), fields, found, name)
        return found

    def _walk(self, here, node, found, name):
        for text, below in node.items():
            if text == ".":
                self._itself(here, found, name)
                continue
            child = here.step(text)
            if child is None:
                self._lost(here, text, below, name)
            elif child.value is None:
                self.report.add(child.way, f"a null, owned by {name.removeprefix('entry of ')}: owned by nobody", "null", 0)
            elif child.place.is_leaf:
                self._at_leaf(child, below, found)
            elif child.is_whole:
                found.extend(child.all_paths())
            elif not below:
                self._itself(child, found, name)
            else:
                self._walk(child, below, found, name)

    def _itself(self, here, found, name):
        if here.is_nobodys:
            self.report.add(name, "owns the object or its metadata as such, which nobody owns here", "moved")
        else:
            found.append(here.path)

    def _at_leaf(self, child, below, found):
        if below:
            told = "owned part by part on a server; here its owners own it as one"
            self.report.add(child.schema_way, told, "coarse", len(said_paths(below)))
        found.append(child.path)

    def _lost(self, here, text, below, name):
        count = max(1, len(said_paths(below))) if isinstance(below, dict) else 1
        absent = "is not there" if here.knows(text) else "is none of the schema"
        self.report.add(f"{name}: {here.way_of(text)}", f"{absent}, left out", "path", count)


def _is_entry(entry):
    """Whether a value has the shape of an entry, of which only the time, the fields' type and the part may be missing."""
    return (
        isinstance(entry, dict)
        and is_set(entry.get("fieldsV1"))
        and entry.get("operation") in ("Apply", "Update")
        and all(isinstance(entry.get(name), str) for name in ("manager", "apiVersion"))
        and all(isinstance(entry.get(name) or "", str) for name in ("time", "fieldsType", "subresource"))
    )


def shown_entry(root, entry):
    """An entry of the bench as a server shows it."""
    text = json.dumps(entry["fieldsV1"])
    if text not in root.real_sets:
        found = (real_path(root, path) for path in said_paths(entry["fieldsV1"]))
        root.real_sets[text] = written([real.texts for real in found if not real.is_structural])
    shown = {**entry, "fieldsV1": root.real_sets[text]}
    if shown["time"] == NO_TIME:
        del shown["time"]
    return shown
