"""Objects: what a server shows, or a manifest, as an object of the bench, and back."""
from .documents import compact, shown_name
from .elements import named_keys
from .places import BENCH_METADATA, METADATA, STATUS
from .refusal import Refusal
from .turning import from_bench, to_bench

IDENTITY = ("name", "namespace")
SERVERS_OWN = (
    "uid",
    "resourceVersion",
    "generation",
    "creationTimestamp",
    "deletionTimestamp",
    "deletionGracePeriodSeconds",
    "selfLink",
)


def identity(value, name):
    """The four parts of an object's identity, the namespace being None where there is none. `name` is its file's."""
    metadata = value.get("metadata") if isinstance(value, dict) else None
    if not isinstance(metadata, dict):
        raise Refusal(f"{shown_name(name)}: no object with metadata")
    parts = (value.get("apiVersion"), value.get("kind"), metadata.get("name"), metadata.get("namespace"))
    if not all(isinstance(part, str) and part for part in parts[:3]):
        raise Refusal(f"{shown_name(name)}: an object has apiVersion, kind and metadata.name")
    return parts


def to_bench_object(root, value, report):
    """The object of the bench, without the managers' entries, and what a server keeps of its own in metadata."""
    metadata = value["metadata"]
    place = root.fields["metadata"]
    kept = {name: metadata[name] for name in SERVERS_OWN if metadata.get(name) is not None}
    given = {name: part for name, part in metadata.items() if name not in (*IDENTITY, *SERVERS_OWN, "managedFields")}
    for name in SERVERS_OWN:
        if name in metadata and metadata[name] is None:
            report.add(f".metadata.{name}", "null, taken as absent", "null")
    turned = to_bench(place, given, ".metadata", report)
    more = {name: turned.pop(name) for name in list(turned) if name in place.fields and name not in BENCH_METADATA}
    named = {name: metadata[name] for name in IDENTITY if metadata.get(name) is not None}
    body = {name: part for name, part in value.items() if name not in ("apiVersion", "kind", "metadata")}
    found = to_bench(root, body, "", report)
    if root.plain_status and "status" in found:
        found[STATUS] = found.pop("status")
    found |= {"apiVersion": value["apiVersion"], "kind": value["kind"], "metadata": turned | named}
    if more:
        found[METADATA] = more
    return found, kept


def tell_kept(kept, report):
    if kept:
        report.add(".metadata", f"{', '.join(sorted(kept))}: a server's own, kept beside the bench", "kept", len(kept))


def from_bench_object(root, value, kept):
    """The object as people see it, with the managers' entries as the bench has them."""
    more = value.get(METADATA, {})
    metadata = {**value["metadata"], **more}
    entries = metadata.pop("managedFields", None)
    body = {name: part for name, part in value.items() if name not in ("apiVersion", "kind", "metadata", METADATA)}
    if root.plain_status and STATUS in body:
        body["status"] = body.pop(STATUS)
    shown = {"apiVersion": value["apiVersion"], "kind": value["kind"]}
    shown["metadata"] = from_bench(root.fields["metadata"], metadata) | kept
    shown |= from_bench(root, body)
    return shown, entries


def as_taken(value, live, replaces, takes_status, report):
    """The manifest without what a server takes from nobody: its own parts of metadata, and a status that is written elsewhere.
    Of what is written elsewhere nothing is told where the object is replaced by one that has it as it is live."""
    metadata = {}
    for name, part in value["metadata"].items():
        if name in SERVERS_OWN and part is not None:
            report.add(f".metadata.{name}", "a server's own, left out", "value")
        else:
            metadata[name] = part
    given = {**value, "metadata": metadata}
    if takes_status:
        return given
    status = given.pop("status", None)
    if status is not None and not (replaces and status == live.get("status")):
        report.add(".status", "written through the subresource, left out", "value")
    return given


def tell_beside_status(value, live, replaces, report):
    """Tells what of a manifest is not written through the subresource `status`, of which the proved program takes nothing."""
    fields = {f".{name}": (part, live.get(name)) for name, part in value.items() if name not in ("apiVersion", "kind", "metadata", "status")}
    more = {name: part for name, part in value["metadata"].items() if name not in (*IDENTITY, *SERVERS_OWN, "managedFields")}
    fields |= {f".metadata.{name}": (part, live["metadata"].get(name)) for name, part in more.items()}
    for way, (part, is_now) in fields.items():
        if part is not None and not (replaces and part == is_now):
            report.add(way, "not written through the subresource, left out", "value")


def without_repeats(place, value, way, report):
    """The value in which of repeated items of a set or map list only the last stands; each that goes is told."""
    if place is None or place.is_leaf:
        return value
    if isinstance(value, dict) and place.kind in ("record", "dict"):
        return {
            name: without_repeats(place.child(name)[0], part, f"{way}.{name}", report) for name, part in value.items()
        }
    if isinstance(value, list) and place.is_list:
        last = {}
        for index, item in enumerate(value):
            last[_known_by(place, item, index)] = index
        for index, item in enumerate(value):
            if last[_known_by(place, item, index)] != index:
                report.add(f"{way}[]", f"repeated item {_known_by(place, item, index)}, left out", "value")
        kept = [item for index, item in enumerate(value) if last[_known_by(place, item, index)] == index]
        return [without_repeats(place.item, item, f"{way}[]", report) for item in kept]
    return value


def _known_by(place, item, index):
    if place.kind == "set":
        return compact(item)
    named = named_keys(place, item) if isinstance(item, dict) else None
    return compact(named) if named is not None else f"no keys {index}"
