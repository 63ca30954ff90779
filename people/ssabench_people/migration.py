"""From client-side apply to server-side apply, as client-go's `csaupgrade` and `kubectl apply --server-side` do it.

Who wrote by client-side apply is seen by an Update entry that owns the last-applied annotation. All Update entries of these
managers become the applier's: its entry, or the first of theirs turned into it, gets the sets of the first of each manager that
is of the same version; the others go.
"""
from .fields import said_paths, written

ANNOTATION = "kubectl.kubernetes.io/last-applied-configuration"
ANNOTATION_PATH = ("f:metadata", "f:annotations", "f:" + ANNOTATION)


def client_side_appliers(entries):
    """The names of the managers that wrote by client-side apply, in the order of their entries."""
    names = []
    for entry in entries:
        if isinstance(entry, dict) and entry.get("operation") == "Update" and ANNOTATION_PATH in said_paths(entry.get("fieldsV1")):
            if entry.get("manager") not in names:
                names.append(entry.get("manager"))
    return names


def migrated(entries, applier, report):
    """The entries after the migration to `applier`."""
    for name in client_side_appliers(entries):
        entries = one_migrated(entries, name, applier)
        report.add(f"entry of {name} (Update)", f"client-side apply: now {applier}'s (Apply), joined with what it owned", "moved")
    return entries


def _is(entry, manager, operation):
    return isinstance(entry, dict) and entry.get("manager") == manager and entry.get("operation") == operation and not entry.get("subresource")


def _first(entries, fits):
    return next((index for index, entry in enumerate(entries) if fits(entry)), None)


def one_migrated(entries, name, applier):
    """The entries after the migration of one manager."""
    entries = [dict(entry) if isinstance(entry, dict) else entry for entry in entries]
    place = _first(entries, lambda entry: _is(entry, applier, "Apply"))
    if place is None:
        place = _first(entries, lambda entry: _is(entry, name, "Update"))
        if place is None:
            return entries
        entries[place] |= {"manager": applier, "operation": "Apply"}
    target = entries[place]
    same = _first(entries, lambda entry: _is(entry, name, "Update") and entry.get("apiVersion") == target.get("apiVersion"))
    if same is not None:
        target["fieldsV1"] = written(said_paths(target["fieldsV1"]) + said_paths(entries[same]["fieldsV1"]))
    return [entry for entry in entries if not _is(entry, name, "Update")]
