"""Objects that are filled to the last field, made of a schema, with the set that a server would note for who made them.

Apart from the program: the rules of schemas are written here a second time, and shorter. A set is written as FieldsV1: atomic
values, scalars and, below an open object, its entries are leaves, as they are on a bench.
"""

import json

TEXTS = ("a", "b: c", "80", "1.0", "null", "é\n", "")
ANYTHING = ({"x": {"y": [1, None, "z"]}, "w": 1.25}, [1, {"a": "b"}], "text", 7, True, 0.001)


class Filler:
    """Fills nodes; each call takes the next value of its kind, so that neighbours differ."""

    def __init__(self, definitions=None):
        self.definitions = definitions or {}
        self.count = 0

    def next_of(self, values):
        self.count += 1
        return values[self.count % len(values)]

    def opened(self, node, seen):
        while "$ref" in node or ("allOf" in node and "type" not in node and len(node["allOf"]) == 1):
            inner = node["allOf"][0] if "$ref" not in node else self.definitions[node["$ref"].rsplit("/", 1)[-1]]
            if "$ref" in node:
                if node["$ref"] in seen:
                    return None, seen
                seen = seen | {node["$ref"]}
            node = {**inner, **{name: value for name, value in node.items() if name not in ("$ref", "allOf")}}
        return node, seen

    def value(self, node, seen=frozenset()):
        """A value of a node, and its FieldsV1; the value is None where the schema is recursive."""
        node, seen = self.opened(node, seen)
        if node is None:
            return None, None
        if node.get("x-kubernetes-int-or-string") or node.get("format") == "int-or-string":
            return self.next_of((80, "http", "80")), {}
        kind = node.get("type") or ("object" if "properties" in node else None)
        if kind == "object":
            return self.object_value(node, seen)
        if kind == "array":
            return self.list_value(node, seen)
        scalars = {"string": TEXTS, "integer": (0, -1, 2**63 - 1), "boolean": (True, False), "number": (1.5, 2, -1e-9)}
        return self.next_of(scalars.get(kind, ANYTHING)), {}

    def object_value(self, node, seen):
        given, more = node.get("properties") or {}, node.get("additionalProperties")
        found, fields = {}, {}
        for name, child in given.items():
            found[name], fields["f:" + name] = self.value(child, seen)
        kept = node.get("x-kubernetes-preserve-unknown-fields") or node.get("x-kubernetes-embedded-resource")
        if isinstance(more, dict) and more:
            for name in ("one", "two.three/four"):
                found[name], fields["f:" + name] = self.value(more, seen)
        elif more is True or more == {} or more is None and (kept or not given):
            for name in ("any", "other"):
                found[name], fields["f:" + name] = self.next_of(ANYTHING), {}
        found = {name: value for name, value in found.items() if value is not None}
        fields = {text: below for text, below in fields.items() if below is not None}
        return found, ({} if node.get("x-kubernetes-map-type") == "atomic" else fields)

    def list_value(self, node, seen):
        items = node.get("items") or {}
        first, fields = self.value(items, seen)
        if first is None:
            return [], {}
        second = self.value(items, seen)[0]
        keys = node.get("x-kubernetes-list-map-keys") or [node.get("x-kubernetes-patch-merge-key")]
        merged = node.get("x-kubernetes-list-type") or {"merge": "map", "merge,retainKeys": "map"}.get(
            node.get("x-kubernetes-patch-strategy"), "atomic"
        )
        if merged == "map" and keys == [None]:
            merged = "set"
        if merged == "map" and isinstance(first, dict) and set(keys) <= first.keys():
            return self.map_list(node, keys, first, fields)
        if merged == "set" and not isinstance(first, (dict, list)):
            return [first], {"v:" + dumped(first): {}}
        return [first, second], {}

    def map_list(self, node, keys, item, fields):
        items, _ = self.opened(node["items"], frozenset())
        text = "k:" + dumped({name: item[name] for name in keys})
        if items.get("x-kubernetes-map-type") == "atomic":
            return [item], {text: {}}
        return [item], {text: {".": {}} | fields}


def dumped(value):
    return json.dumps(value, separators=(",", ":"), sort_keys=True, ensure_ascii=False)
