"""Entries of `managedFields`, turned with an object and back, and what is told of them."""
import io
import unittest

import beside  # noqa: F401
from ssabench_people.fields import said_paths, written
from ssabench_people.migration import ANNOTATION, client_side_appliers, migrated
from ssabench_people.ownership import NO_TIME, Turning, shown_entry
from ssabench_people.places import root_of
from ssabench_people.report import Report
from ssabench_people.schemas import KindSchema

ROOT = {
    "type": "object",
    "properties": {
        "spec": {
            "type": "object",
            "properties": {
                "ports": {
                    "type": "array",
                    "x-kubernetes-list-type": "map",
                    "x-kubernetes-list-map-keys": ["port", "protocol"],
                    "items": {
                        "type": "object",
                        "properties": {
                            "port": {"type": "integer"},
                            "protocol": {"type": "string", "default": "TCP"},
                            "target": {"x-kubernetes-int-or-string": True},
                        },
                    },
                },
                "secrets": {
                    "type": "array",
                    "x-kubernetes-list-type": "map",
                    "x-kubernetes-list-map-keys": ["name"],
                    "items": {
                        "type": "object",
                        "x-kubernetes-map-type": "atomic",
                        "properties": {"name": {"type": "string"}, "optional": {"type": "boolean"}},
                    },
                },
                "args": {"type": "array", "items": {"type": "string"}},
                "size": {"type": "integer"},
                "values": {"type": "object", "x-kubernetes-preserve-unknown-fields": True, "properties": {"a": {"type": "string"}}},
            },
        }
    },
}
OBJECT = {
    "apiVersion": "v1",
    "kind": "X",
    "metadata": {"name": "x", "labels": {"a": "b"}, "finalizers": ["f"]},
    "spec": {
        "ports": [{"port": 80, "target": "http"}],
        "secrets": [{"name": "s", "optional": True}],
        "args": ["a"],
        "size": None,
        "values": {"a": "b", "c": {"d": 1}},
    },
}
SECRET = 'k:{"name":"s"}'
PORT = 'k:{"port":80,"protocol":"TCP"}'


def entry(fields, manager="m", operation="Apply", **more):
    return {
        "apiVersion": "v1", "fieldsType": "FieldsV1", "fieldsV1": fields, "manager": manager, "operation": operation,
        "time": "2024-05-01T08:00:00Z", **more,
    }  # fmt: skip


class Entries(unittest.TestCase):
    def setUp(self):
        self.root = root_of(KindSchema("", "v1", "X", ROOT))
        self.report = Report(io.StringIO())

    def turned(self, *entries, **more):
        return Turning(self.root, OBJECT, self.report, **more).entries(entries)

    def fields(self, fields):
        (turned,) = self.turned(entry({"f:spec": fields}))
        return turned["fieldsV1"]["f:spec"]

    def lines(self, *counts):
        return [(way, what) for (way, what), (count, _) in self.report.lines.items() if count in counts]

    def test_a_key_that_an_element_lacks_is_its_default(self):
        for text in (PORT, 'k:{"protocol":"TCP","port":80}', 'k:{"port":80}', 'k:{ "port": 80 }'):
            with self.subTest(text=text):
                self.assertEqual(self.fields({"f:ports": {text: {".": {}, "f:port": {}}}}), {"f:ports": {PORT: {".": {}, "f:port": {}}}})
        self.assertEqual(self.report.losses, 0)

    def test_an_item_that_a_server_takes_whole_is_owned_with_its_fields_and_shown_as_one(self):
        whole = {"f:secrets": {SECRET: {".": {}, "f:name": {}, "f:optional": {}}}}
        for below in ({}, {".": {}}, {"f:name": {}}):
            with self.subTest(below=below):
                self.assertEqual(self.fields({"f:secrets": {SECRET: below}}), whole)
        shown = shown_entry(self.root, entry({"f:spec": whole}))
        self.assertEqual(shown["fieldsV1"], {"f:spec": {"f:secrets": {SECRET: {}}}})

    def test_what_is_owned_below_an_atomic_value_or_an_entry_becomes_its(self):
        given = {"f:args": {"i:0": {}}, "f:values": {"f:a": {}, "f:c": {"f:d": {}}}}
        self.assertEqual(self.fields(given), {"f:args": {}, "f:values": {"f:a": {}, "f:(others)": {"f:c": {}}}})
        shown = shown_entry(self.root, entry({"f:spec": self.fields(given)}))
        self.assertEqual(shown["fieldsV1"]["f:spec"]["f:values"], {"f:a": {}, "f:c": {}})

    def test_a_path_that_is_not_there_is_a_loss_and_one_of_a_null_is_not(self):
        self.assertEqual(self.fields({"f:size": {}, "f:args": {}}), {"f:args": {}})
        self.assertEqual(self.report.losses, 0)
        self.assertEqual(self.fields({"f:ports": {'k:{"port":81}': {".": {}, "f:port": {}}}, "f:args": {}, "f:x": {}}), {"f:args": {}})
        self.assertEqual(self.report.total("path"), 3)
        told = [("entry of m (Apply): .spec.ports[port=81]", "is not there, left out")]
        told.append(("entry of m (Apply): .spec.x", "is none of the schema, left out"))
        self.assertEqual(self.lines("path"), told)

    def test_elements_that_are_none_are_losses(self):
        for text in ("k:1", "k:{}", "k:{", "v:", "x", "i:0", "v:1", 'k:{"port":80,"other":1}', "f:port"):
            with self.subTest(text=text):
                self.report = Report(io.StringIO())
                self.assertEqual(self.fields({"f:ports": {text: {}, PORT: {}}}), {"f:ports": {PORT: {}}})
                self.assertEqual(self.report.total("path"), 1)

    def test_metadata_and_the_object_as_such_are_nobodys(self):
        given = {".": {}, "f:metadata": {".": {}, "f:labels": {".": {}, "f:a": {}}, "f:finalizers": {'v:"f"': {}}}}
        (turned,) = self.turned(entry(given))
        self.assertEqual(turned["fieldsV1"], {"f:metadata": {"f:labels": {".": {}, "f:a": {}}, "f:finalizers": {'v:"f"': {}}}})
        self.assertEqual(self.report.total("moved"), 2)

    def test_entries_of_one_manager_are_joined(self):
        first = entry({"f:spec": {"f:args": {}}}, apiVersion="v0", time="2025-01-01T00:00:00Z")
        second = entry({"f:spec": {"f:ports": {PORT: {}}}})
        (turned,) = self.turned(first, second, same_schema=True)
        self.assertEqual(turned["fieldsV1"], {"f:spec": {"f:args": {}, "f:ports": {PORT: {}}}})
        self.assertEqual(turned["time"], "2025-01-01T00:00:00Z")
        self.assertEqual(len(self.turned(first, entry(second["fieldsV1"], operation="Update"), same_schema=True)), 2)

    def test_entries_that_are_left_out(self):
        given = [
            entry({"f:spec": {"f:args": {}}}, apiVersion="v0"),
            entry({"f:status": {"f:x": {}}}, subresource="status"),
            entry({"f:spec": {"f:args": {}}}, subresource="scale"),
            entry({"f:spec": {"f:x": {}}}),
            entry({}),
            {"manager": "m"},
            1,
        ]
        self.assertEqual(self.turned(*given), [])
        self.assertEqual(self.report.total("entry"), 7)
        (kept,) = self.turned(entry({"f:spec": {"f:args": {}}}, subresource="status"))
        self.assertEqual(kept["subresource"], "status")

    def test_an_entry_without_a_time_is_shown_without_one(self):
        for missing in ({}, {"time": None}):
            given = entry({"f:spec": {"f:args": {}}})
            del given["time"]
            (turned,) = self.turned(given | missing)
            self.assertEqual(turned["time"], NO_TIME)
            self.assertNotIn("time", shown_entry(self.root, turned))


class Sets(unittest.TestCase):
    def test_a_set_has_one_writing(self):
        for said in ({}, {"f:a": {}}, {"f:a": {".": {}, "f:b": {}}}, {"f:a": {"f:b": {}, "f:c": {".": {}, "v:1": {}}}}):
            self.assertEqual(written(said_paths(said)), said)
        self.assertEqual(written([("f:a",), ("f:a", "f:b"), ("f:a",)]), {"f:a": {".": {}, "f:b": {}}})
        self.assertEqual(said_paths({"f:a": {".": {}}}), [("f:a",)])


class Migration(unittest.TestCase):
    OWNS = {"f:metadata": {"f:annotations": {"f:" + ANNOTATION: {}}}}

    def both(self, *entries, applier="kubectl"):
        return [
            (one["manager"], one["operation"], one["fieldsV1"], one["time"][-3:-1], one["apiVersion"])
            for one in migrated(list(entries), applier, Report(io.StringIO()))
        ]

    def test_who_wrote_by_client_side_apply(self):
        given = [entry(self.OWNS, "a"), entry(self.OWNS, "b", "Update"), entry({"f:x": {}}, "c", "Update")]
        self.assertEqual(client_side_appliers(given), ["b"])

    def test_the_first_entry_becomes_the_appliers(self):
        given = [entry({"f:y": {}}, "other"), entry(self.OWNS, "csa", "Update", time="2024-05-01T08:00:07Z")]
        self.assertEqual(self.both(*given), [("other", "Apply", {"f:y": {}}, "00", "v1"), ("kubectl", "Apply", self.OWNS, "07", "v1")])

    def test_the_appliers_entry_gets_its_set(self):
        given = [entry(self.OWNS, "csa", "Update"), entry({"f:y": {}}, "kubectl", time="2024-05-01T08:00:09Z")]
        self.assertEqual(self.both(*given), [("kubectl", "Apply", self.OWNS | {"f:y": {}}, "09", "v1")])

    def test_another_version_is_discarded_and_another_part_stays(self):
        old = entry(self.OWNS, "csa", "Update", apiVersion="v0")
        part = entry({"f:status": {}}, "csa", "Update", subresource="status")
        self.assertEqual(
            self.both(old, part, entry({"f:y": {}}, "kubectl")),
            [("csa", "Update", {"f:status": {}}, "00", "v1"), ("kubectl", "Apply", {"f:y": {}}, "00", "v1")],
        )

    def test_two_managers_that_wrote_the_same(self):
        given = [entry(self.OWNS, "one", "Update"), entry(self.OWNS | {"f:y": {}}, "two", "Update")]
        self.assertEqual(self.both(*given, applier="me"), [("me", "Apply", self.OWNS | {"f:y": {}}, "00", "v1")])


if __name__ == "__main__":
    unittest.main()
