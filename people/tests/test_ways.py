"""Ways to a field, as people write them."""
import unittest

import beside  # noqa: F401
from ssabench_people.places import root_of
from ssabench_people.refusal import Refusal
from ssabench_people.schemas import KindSchema
from ssabench_people.ways import followed

ITEM = {"type": "object", "properties": {"name": {"type": "string"}, "port": {"x-kubernetes-int-or-string": True}, "to": {"type": "string"}}}


def items(*keys):
    return {"type": "array", "x-kubernetes-list-type": "map", "x-kubernetes-list-map-keys": list(keys), "items": ITEM}


SPEC = {
    "type": "object",
    "properties": {
        "by_name": items("name"),
        "by_both": items("name", "port"),
        "set": {"type": "array", "x-kubernetes-list-type": "set", "items": {"type": "string"}},
        "open": {"type": "object", "x-kubernetes-preserve-unknown-fields": True},
    },
}
OBJECT = {
    "metadata": {"name": "x", "labels": {"app": "a", "app.kubernetes.io/name": "b", "x[y]": "c"}},
    "spec": {
        "by_name": [{"name": "80", "to": "a"}, {"name": "a,b=c", "to": "b"}],
        "by_both": [{"name": "n", "port": 80, "to": "c"}, {"name": "n", "port": "80", "to": "d"}],
        "set": ["e", "1"],
        "open": {"f": {"g": 1}},
    },
}


class Ways(unittest.TestCase):
    def setUp(self):
        self.root = root_of(KindSchema("", "v1", "X", {"type": "object", "properties": {"spec": SPEC}}))

    def test_ways_that_lead_somewhere(self):
        for way, value in (
            (".spec.by_name[name=80].to", "a"),
            ('spec.by_name[name="80"].to', "a"),
            ('.spec.by_name[name="a,b=c"].to', "b"),
            (".spec.by_both[name=n,port=80].to", "c"),
            ('.spec.by_both[port="80",name=n].to', "d"),
            (".spec.set[=e]", "e"),
            ('.spec.set[="1"]', "1"),
            (".spec.set[=1]", "1"),
            ("metadata.labels.app", "a"),
            ("metadata.labels.app.kubernetes.io/name", "b"),
            ('metadata.labels["app.kubernetes.io/name"]', "b"),
            ('.metadata.labels["x[y]"]', "c"),
            (".metadata.labels[app]", "a"),
            ('["f:spec","f:set","v:\\"e\\""]', "e"),
            (".spec.open.f", {"g": 1}),
            (".", OBJECT),
        ):
            with self.subTest(way=way):
                self.assertEqual(followed(self.root, OBJECT, way).value, value)

    def test_ways_that_lead_nowhere(self):
        for way, told in (
            (".spec.by_names", r"\.spec\.by_names: no such field; by_name\?"),
            (".spec.xyz", r"\.spec\.xyz: no such field$"),
            (".spec.by_name[name=x].to", r'\.spec\.by_name\[name="x"\] is not there'),
            (".spec.by_name[0]", r'is a list of items known by name: \[name="80"\], \[name="a,b=c"\]$'),
            (".spec.by_name[port=80]", "is a list of items known by name|is not there"),
            (".spec.set[0]", r'is a list of values: \[="e"\], \[="1"\]$'),
            (".spec.set[=z]", r'\.spec\.set\[="z"\] is not there'),
            (".spec.open.f.g", r"\.spec\.open\.f is owned as one"),
            (".spec.by_name[name=80", "a bracket isn't closed"),
            (".spec..set", "no way to a field"),
            (".metadata.name", r"\.metadata\.name is owned by nobody"),
            (".apiVersion", "is owned by nobody"),
        ):
            with self.subTest(way=way):
                self.assertRaisesRegex(Refusal, told, followed, self.root, OBJECT, way)


if __name__ == "__main__":
    unittest.main()
