"""Schemas and places: which schema a file has, and what each place of it is on a bench."""
import unittest

import beside  # noqa: F401
from ssabench_people import places
from ssabench_people.places import OTHERS, engine_root, from_json, root_of, to_json
from ssabench_people.refusal import Refusal
from ssabench_people.schemas import KindSchema, found

TEXT = {"type": "string"}


def spec_place(node, **more):
    """The place of `spec` under a schema."""
    return root_of(KindSchema("", "v1", "X", {"type": "object", "properties": {"spec": node}}, **more)).fields["spec"]


def spec_schema(node, **more):
    root = root_of(KindSchema("", "v1", "X", {"type": "object", "properties": {"spec": node}}, **more))
    return engine_root(root)["properties"]["spec"]


def array(items, **more):
    return {"type": "array", "items": items} | {f"x-kubernetes-{name.replace('_', '-')}": value for name, value in more.items()}


def record(**fields):
    return {"type": "object", "properties": fields}


class Places(unittest.TestCase):
    def test_scalars(self):
        for node, kind, why in (
            ({"type": "string", "format": "byte"}, "text", ""),
            ({"type": "integer", "format": "int64", "minimum": 0}, "whole", ""),
            ({"type": "boolean"}, "truth", ""),
            ({"type": "number"}, "json", places.NUMBER),
            ({"x-kubernetes-int-or-string": True, "anyOf": [{"type": "integer"}, TEXT]}, "json", places.INT_OR_STRING),
            ({"type": "string", "format": "int-or-string"}, "json", places.INT_OR_STRING),
            ({"oneOf": [TEXT, {"type": "number"}]}, "json", places.UNTYPED),
            ({"type": ["string", "null"]}, "text", ""),
            ({}, "json", places.UNTYPED),
            ({"x-kubernetes-preserve-unknown-fields": True}, "json", places.UNTYPED),
        ):
            with self.subTest(node=node):
                place = spec_place(node)
                self.assertEqual((place.kind, place.why), (kind, why))

    def test_objects(self):
        open_dict = {"type": "object", "additionalProperties": TEXT}
        self.assertEqual(spec_schema({"type": "object", "additionalProperties": {"type": "integer"}})["additionalProperties"], {"type": "integer"})
        for node in (
            {"type": "object"},
            {"type": "object", "additionalProperties": True},
            {"type": "object", "additionalProperties": {}},
            {"type": "object", "x-kubernetes-preserve-unknown-fields": True},
            {"type": "object", "x-kubernetes-embedded-resource": True},
        ):
            with self.subTest(node=node):
                self.assertEqual(spec_schema(node), open_dict)
        self.assertEqual(spec_schema({"type": "object", "additionalProperties": False}), {"type": "object", "properties": {}})
        kept = record(a=TEXT) | {"x-kubernetes-preserve-unknown-fields": True}
        self.assertEqual(spec_schema(kept)["properties"], {"a": TEXT, OTHERS: open_dict})
        self.assertEqual(spec_schema(record(a=TEXT), open_everywhere=True)["properties"], {"a": TEXT, OTHERS: open_dict})
        atomic = record(a=array(TEXT, list_type="set")) | {"x-kubernetes-map-type": "atomic"}
        self.assertEqual(
            spec_schema(atomic),
            {"type": "object", "properties": {"a": {"type": "array", "items": TEXT}}, "x-kubernetes-map-type": "atomic"},
        )

    def test_list_types_as_given_else_by_the_strategy_of_patches(self):
        item = record(name=TEXT, size={"type": "integer"})
        for node, kind, keys in (
            (array(TEXT), "atomic", []),
            (array(TEXT, list_type="set"), "set", []),
            (array(TEXT, list_type="atomic", patch_strategy="merge"), "atomic", []),
            (array(item, list_type="map", list_map_keys=["name", "size"]), "map", ["name", "size"]),
            (array(item, patch_strategy="merge", patch_merge_key="name"), "map", ["name"]),
            (array(item, patch_strategy="merge,retainKeys", patch_merge_key="name"), "map", ["name"]),
            (array(TEXT, patch_strategy="merge"), "set", []),
            (array(item, patch_strategy="retainKeys"), "atomic", []),
            (array(item, list_type="map", list_map_keys=["other"]), "atomic", []),
            (array(record(name=record()), list_type="map", list_map_keys=["name"]), "atomic", []),
            (array({}, list_type="map", list_map_keys=["name"]), "atomic", []),
        ):
            with self.subTest(node=node):
                place = spec_place(node)
                self.assertEqual((place.kind, place.keys), (kind, keys))

    def test_atomic_items_of_a_map_list_are_taken_field_by_field(self):
        item = record(name=TEXT, key=record(a=TEXT)) | {"x-kubernetes-map-type": "atomic"}
        place = spec_place(array(item, list_type="map", list_map_keys=["name"]))
        self.assertTrue(place.whole_items)
        schema = spec_schema(array(item, list_type="map", list_map_keys=["name"]))["items"]
        self.assertNotIn("x-kubernetes-map-type", schema)
        self.assertEqual(schema["properties"]["key"]["x-kubernetes-map-type"], "atomic")

    def test_a_set_of_objects_is_one_of_texts(self):
        self.assertEqual(spec_schema(array(record(a=TEXT), list_type="set"))["items"], TEXT)

    def test_references_and_an_all_of_one(self):
        definitions = {"a.B": record(x=TEXT), "a.C": {"$ref": "#/components/schemas/a.B"}}
        definitions["a.Tree"] = record(left={"$ref": "#/definitions/a.Tree"}, items=array({"$ref": "#/definitions/a.Tree"}))
        node = {"allOf": [{"$ref": "#/components/schemas/a.C"}], "default": {}, "x-kubernetes-map-type": "atomic"}
        place = spec_place(node, definitions=definitions)
        self.assertEqual((place.kind, place.whole, list(place.fields)), ("record", True, ["x"]))
        tree = spec_place({"$ref": "#/definitions/a.Tree"}, definitions=definitions)
        self.assertEqual((tree.fields["left"].why, tree.fields["items"].item.why), (places.RECURSIVE, places.RECURSIVE))
        with self.assertRaisesRegex(Refusal, "has no #/definitions/a.D"):
            spec_place({"$ref": "#/definitions/a.D"}, definitions=definitions)
        definitions["a.E"] = {"$ref": "#/definitions/a.E"}
        with self.assertRaisesRegex(Refusal, "refers to itself"):
            spec_place({"$ref": "#/definitions/a.E"}, definitions=definitions)

    def test_validation_beside_a_type_says_nothing(self):
        node = {"type": "object", "properties": {"a": TEXT}, "allOf": [{"properties": {"a": {"maxLength": 3}}}]}
        self.assertEqual(spec_schema(node)["properties"], {"a": TEXT})

    def test_what_stands_too_deep_is_a_text(self):
        node = TEXT
        for _ in range(40):
            node = record(a=node)
        place, depth = spec_place(node), 2
        while place.kind == "record":
            place, depth = place.fields["a"], depth + 1
        self.assertEqual((place.why, depth), (places.DEEP, 30))

    def test_the_file_beside_a_bench_says_the_places_again(self):
        node = record(
            a=array(record(k={"type": "integer", "default": 3}) | {"x-kubernetes-map-type": "atomic"}, list_type="map", list_map_keys=["k"]),
            b={"type": "object"},
            c=record(x={"type": "number"}) | {"x-kubernetes-preserve-unknown-fields": True},
        )
        root = root_of(KindSchema("", "v1", "X", record(spec=node)))
        self.assertEqual(from_json(to_json(root)), root)
        self.assertEqual(root.fields["spec"].fields["a"].fill, {"k": 3})


class Schemas(unittest.TestCase):
    def definition(self, *versions, group="example.com", kind="App"):
        return {"kind": "CustomResourceDefinition", "apiVersion": "apiextensions.k8s.io/v1", "spec": {
            "group": group, "names": {"kind": kind},
            "versions": [{"name": name, "schema": {"openAPIV3Schema": record(**{name: TEXT})}} for name in versions]}}  # fmt: skip

    def test_the_version_is_chosen(self):
        for version in ("v1", "v2"):
            schema = found([self.definition("v1", "v2")], "x", {"kind": "App", "group": "example.com", "version": version})
            self.assertEqual((schema.api_version, list(schema.root["properties"])), (f"example.com/{version}", [version]))

    def test_what_is_not_there_is_refused_by_name(self):
        definition = self.definition("v1", "v2")
        with self.assertRaisesRegex(Refusal, r"no schema of App v3; there: App \(example.com/v1\), App \(example.com/v2\)"):
            found([definition], "x", {"kind": "App", "version": "v3"})
        with self.assertRaisesRegex(Refusal, "more than one schema"):
            found([definition], "x", {"kind": "App"})
        with self.assertRaisesRegex(Refusal, "neither a CustomResourceDefinition nor"):
            found([{"kind": "App"}, 1, {"a": 2}], "x", {})

    def test_a_kind_of_an_openapi_document(self):
        names = {"group": "apps", "version": "v1", "kind": "Deployment"}
        node = record(status=record()) | {"x-kubernetes-group-version-kind": [names]}
        document = {"components": {"schemas": {"a": node, "b": record()}}}
        self.assertTrue(found([document], "x", {"kind": "Deployment"}).has_status)
        verbs = {"get": {"x-kubernetes-group-version-kind": names}}
        self.assertFalse(found([document | {"paths": {"/apis/apps/v1/d": verbs}}], "x", names).has_status)
        self.assertTrue(found([document | {"paths": {"/d": verbs, "/d/status": verbs}}], "x", names).has_status)

    def test_a_status_has_its_own_name_where_it_is_no_subresources(self):
        for has_status, name in ((True, "status"), (False, places.STATUS)):
            root = root_of(KindSchema("", "v1", "X", record(status=record(ready=TEXT)), has_status=has_status))
            self.assertEqual(sorted(engine_root(root)["properties"]), sorted([places.METADATA, name]))
            self.assertEqual(from_json(to_json(root)), root)

    def test_an_open_kind_has_a_status_where_it_is_a_subresources(self):
        anything = {"type": "object", "x-kubernetes-preserve-unknown-fields": True}
        for has_status in (True, False):
            root = root_of(KindSchema("", "v1", "X", anything, has_status=has_status))
            self.assertEqual("status" in engine_root(root)["properties"], has_status)

    def test_names_that_stand_for_something_else_are_refused(self):
        for name in (OTHERS, places.METADATA, places.STATUS):
            with self.assertRaisesRegex(Refusal, "stands for something else"):
                root_of(KindSchema("", "v1", "X", record(**{name: TEXT})))


if __name__ == "__main__":
    unittest.main()
