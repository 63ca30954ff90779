"""What each place of a schema is on a bench.

The proved program has texts, whole numbers, truth values, records, maps of one kind and lists. A place that is none of these
stands on the bench as the text of its compact JSON (`json`). An object that has named fields and takes others too is a record with
one more field, OTHERS, which is the map of the others. What `metadata` has beside labels, annotations and finalizers stands in a
field of the root, METADATA. So does a status that is no subresource's, STATUS: a field `status` is a part of its own there. The
three names are no field's in any API.
"""
from dataclasses import dataclass, field

from .refusal import Refusal
from .schemas import part

OTHERS = "(others)"
METADATA = "(metadata)"
STATUS = "(status)"
DEEPEST = 32
SCALARS = ("text", "whole", "truth", "json")
ENGINE_SCALARS = {"text": "string", "whole": "integer", "truth": "boolean", "json": "string"}

INT_OR_STRING = "int-or-string"
NUMBER = "number"
UNTYPED = "no declared type"
OPEN = "open object"
RECURSIVE = "recursive schema"
DEEP = "deeper than the bench's 32 levels"
NO_SCALAR = "item of a set that is no scalar"


@dataclass
class Place:
    """A place of a schema. `kind` is one of SCALARS, `record`, `dict`, `atomic`, `set` and `map`, the last three lists."""

    kind: str
    why: str = ""  # of `json`: why it stands as a text
    fields: dict = field(default_factory=dict)  # of a record
    rest: "Place | None" = None  # of a record: the entries under other names; of a map of one kind: its entries
    item: "Place | None" = None  # of a list
    keys: list = field(default_factory=list)  # of a map list
    fill: dict = field(default_factory=dict)  # of a map list: the defaults of keys
    whole: bool = False  # of a record or map of one kind: atomic
    whole_items: bool = False  # of a map list: a server takes its items as atomic
    plain_status: bool = False  # of a root: its status is written with all else
    real_paths: dict = field(default_factory=dict, compare=False, repr=False)  # of a root: what `real_path` found
    real_sets: dict = field(default_factory=dict, compare=False, repr=False)  # of a root: sets that were turned, by their texts

    @property
    def is_leaf(self):
        """Whether nothing has a path below it on the bench."""
        return self.kind in SCALARS or self.kind == "atomic" or self.whole

    @property
    def is_list(self):
        return self.kind in ("atomic", "set", "map")

    def child(self, name):
        """The place of a field or an entry, and whether it stands among a record's others; None where there is none."""
        if self.kind == "record":
            if name in self.fields:
                return self.fields[name], False
            return (self.rest, True) if self.rest else (None, False)
        return (self.rest, False) if self.kind == "dict" else (None, False)


def root_of(schema):
    """The place of the root of a kind's schema, its metadata among the fields."""
    node, names = schema.open_node(schema.root)
    reader = _Reader(schema)
    if not isinstance(node, dict) or node.get("type", "object") != "object":
        raise Refusal(f"the schema of {schema.kind} is no object")
    place = reader.object_place(node, 1, frozenset(names), False, ("apiVersion", "kind", "metadata"))
    place.whole = False
    if place.kind == "dict":
        place = Place("record", rest=place.rest)
    for name in (OTHERS, METADATA, STATUS):
        if name in place.fields:
            raise Refusal(f"the schema of {schema.kind} has a field {name}, which stands for something else on a bench")
    if schema.has_status and place.rest:
        place.fields.setdefault("status", place.rest)
    place.plain_status = "status" in place.fields and not schema.has_status
    place.fields["metadata"] = metadata_place()
    return place


def metadata_place():
    """The place of an object's metadata. A server's own parts are not among it."""
    texts = Place("dict", rest=Place("text"))
    owner = {name: Place("text") for name in ("apiVersion", "kind", "name", "uid")}
    owner |= {name: Place("truth") for name in ("blockOwnerDeletion", "controller")}
    owners = Place("map", item=Place("record", fields=owner), keys=["uid"], whole_items=True)
    fields = {"labels": texts, "annotations": texts, "finalizers": Place("set", item=Place("text"))}
    return Place("record", fields=fields | {"ownerReferences": owners, "generateName": Place("text")})


BENCH_METADATA = ("labels", "annotations", "finalizers")


class _Reader:
    """Makes places of nodes. `level` counts as the proved program counts a schema's depth, the root being 1."""

    def __init__(self, schema):
        self.schema = schema

    def place(self, node, level, seen, inside):
        node, names = self.schema.open_node(node)
        if seen.intersection(names):
            return Place("json", RECURSIVE)
        seen = seen.union(names)
        if not isinstance(node, dict):
            return Place("json", UNTYPED)
        if node.get("x-kubernetes-int-or-string") or node.get("format") == "int-or-string":
            return Place("json", INT_OR_STRING)
        kind = _type(node)
        if kind in ("object", "array") and level >= DEEPEST - 2:
            return Place("json", DEEP)
        if kind == "object":
            return self.object_place(node, level, seen, inside)
        if kind == "array":
            return self.list_place(node, level, seen, inside)
        scalar = {"string": "text", "integer": "whole", "boolean": "truth"}.get(kind)
        return Place(scalar) if scalar else Place("json", NUMBER if kind == "number" else UNTYPED)

    def object_place(self, node, level, seen, inside, skipped=()):
        whole = inside or node.get("x-kubernetes-map-type") == "atomic"
        given = part(node, "properties", dict, {})
        fields = {
            name: self.place(child, level + 1, seen, whole) for name, child in given.items() if name not in skipped
        }
        if OTHERS in fields:
            raise Refusal(f"the schema has a field {OTHERS}, which stands for something else on a bench")
        rest = self.rest_place(node, given, level, seen, whole)
        if rest and not fields:
            return Place("dict", rest=rest, whole=whole)
        return Place("record", fields=fields, rest=rest, whole=whole)

    def rest_place(self, node, given, level, seen, whole):
        """The place of entries under names that are no field's; None where there are none."""
        more = node.get("additionalProperties")
        if isinstance(more, dict) and more:
            return self.place(more, level + (2 if given else 1), seen, whole)
        if more is True or more == {}:
            return Place("json", OPEN)
        keeps = node.get("x-kubernetes-preserve-unknown-fields") or node.get("x-kubernetes-embedded-resource")
        if more is None and (keeps or not given or self.schema.open_everywhere):
            return Place("json", OPEN)
        return None

    def list_place(self, node, level, seen, inside):
        merged, keys = ("atomic", []) if inside else _list_type(node)
        items = part(node, "items", dict, {})
        item = self.place(items, level + 1, seen, merged == "atomic")
        if merged == "set":
            return Place("set", item=item if item.kind in SCALARS else Place("json", NO_SCALAR))
        if merged == "map" and self.has_keys(item, keys):
            place = Place("map", item=item, keys=keys, fill=self.defaults(node, keys), whole_items=item.whole)
            if item.whole:
                item.whole = False
            return place
        if merged == "map":
            item = self.place(items, level + 1, seen, True)
        return Place("atomic", item=item)

    def has_keys(self, item, keys):
        return item.kind == "record" and keys and all(
            name in item.fields and item.fields[name].kind in SCALARS for name in keys
        )

    def defaults(self, node, keys):
        items, _ = self.schema.open_node(part(node, "items", dict, {}))
        given = part(items, "properties", dict, {})
        nodes = {name: self.schema.open_node(given[name])[0] for name in keys if name in given}
        found = {name: child.get("default") for name, child in nodes.items() if isinstance(child, dict)}
        return {name: value for name, value in found.items() if value is not None and not isinstance(value, (dict, list))}


def _type(node):
    kind = node.get("type")
    if isinstance(kind, list):
        named = [name for name in kind if name != "null"]
        kind = named[0] if len(named) == 1 else None
    if kind is not None and not isinstance(kind, str):
        raise Refusal("the schema: type is no text")
    if kind is None and "properties" in node:
        return "object"
    if kind is None and "items" in node:
        return "array"
    return kind


def _list_type(node):
    """How the items of a list are merged, and the keys: as given, else by the strategy of patches."""
    given = node.get("x-kubernetes-list-type")
    if given in ("atomic", "set"):
        return given, []
    if given == "map":
        return "map", [str(key) for key in part(node, "x-kubernetes-list-map-keys", list, [])]
    strategy = str(node.get("x-kubernetes-patch-strategy", "")).split(",")
    if given is None and "merge" in strategy:
        key = node.get("x-kubernetes-patch-merge-key")
        return ("map", [str(key)]) if key else ("set", [])
    return "atomic", []


def engine_schema(place, inside=False):
    """The schema of a place as the proved program reads it."""
    if place.kind in SCALARS:
        return {"type": ENGINE_SCALARS[place.kind]}
    below = inside or place.whole or place.kind == "atomic"
    if place.is_list:
        return {"type": "array", "items": engine_schema(place.item, below)} | _list_markers(place, inside)
    markers = {"x-kubernetes-map-type": "atomic"} if place.whole and not inside else {}
    if place.kind == "dict":
        return {"type": "object", "additionalProperties": engine_schema(place.rest, below)} | markers
    properties = {name: engine_schema(child, below) for name, child in place.fields.items()}
    if place.rest:
        properties[OTHERS] = {"type": "object", "additionalProperties": engine_schema(place.rest, below)}
    return {"type": "object", "properties": properties} | markers


def _list_markers(place, inside):
    if inside or place.kind == "atomic":
        return {}
    if place.kind == "set":
        return {"x-kubernetes-list-type": "set"}
    return {"x-kubernetes-list-type": "map", "x-kubernetes-list-map-keys": place.keys}


def engine_root(root):
    """The schema of a bench: the root's own fields, and one more for what metadata has beside the program's own. A status that is
    no subresource's has another name."""
    metadata = root.fields["metadata"]
    more = {name: child for name, child in metadata.fields.items() if name not in BENCH_METADATA}
    fields = {name: child for name, child in root.fields.items() if name != "metadata"}
    if root.plain_status:
        fields[STATUS] = fields.pop("status")
    return engine_schema(Place("record", fields=fields | {METADATA: Place("record", fields=more)}, rest=root.rest))


PLAIN = ("why", "keys", "fill", "whole", "whole_items", "plain_status")  # what stands in the file as it is


def to_json(place):
    """A place as the value that stands in the file beside a bench."""
    told = {"kind": place.kind}
    if place.fields:
        told["fields"] = {name: to_json(child) for name, child in place.fields.items()}
    for name in ("rest", "item"):
        if getattr(place, name):
            told[name] = to_json(getattr(place, name))
    for name in PLAIN:
        if getattr(place, name):
            told[name] = getattr(place, name)
    return told


def from_json(told):
    fields = {name: from_json(child) for name, child in told.get("fields", {}).items()}
    rest, item = (from_json(told[name]) if name in told else None for name in ("rest", "item"))
    plain = {name: told[name] for name in PLAIN if name in told}
    return Place(told["kind"], fields=fields, rest=rest, item=item, **plain)
