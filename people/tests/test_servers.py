"""What a server would do otherwise, by examples that its own field manager was asked (docs/SERVER.md), and rows worked out by hand."""
import unittest

import beside  # noqa: F401
from ssabench_people.changes import Changes
from ssabench_people.places import root_of
from ssabench_people.schemas import KindSchema
from ssabench_people.servers import kept, merged_order, removals, with_fields_above

TEXT = {"type": "string"}
ITEM = {"type": "object", "properties": {"name": TEXT, "image": TEXT, "probe": {"type": "object", "properties": {"path": TEXT, "period": TEXT}}}}
ITEMS = {"type": "array", "x-kubernetes-list-type": "map", "x-kubernetes-list-map-keys": ["name"], "items": ITEM}
SPEC = {
    "type": "object",
    "properties": {
        "items": ITEMS,
        "args": {"type": "array", "x-kubernetes-list-type": "atomic", "items": TEXT},
        "inner": {"type": "object", "properties": {"items": ITEMS, "path": TEXT}},
        "limits": {"type": "object", "additionalProperties": TEXT},
        "groups": {"type": "object", "additionalProperties": ITEM},
        "probe": {"type": "object", "properties": {"path": TEXT, "period": TEXT}},
    },
}
ROOT = root_of(KindSchema("", "v1", "X", {"type": "object", "properties": {"spec": SPEC}}))
NOTHING = {"added": [], "modified": [], "removed": []}


def shown(spec, **sets):
    """An object with managers' sets; a name that ends with `_updates` is an Update's."""
    entries = [
        {
            "manager": name.removesuffix("_updates"),
            "operation": "Update" if name.endswith("_updates") else "Apply",
            "fieldsV1": {"f:spec": fields},
        }
        for name, fields in sets.items()
    ]
    return {"apiVersion": "v1", "kind": "X", "metadata": {"name": "x", "managedFields": entries}, "spec": spec}


class Orders(unittest.TestCase):
    def test_lists_are_merged_from_their_heads(self):
        for live, given, wanted in (
            ("ab", "cab", "cab"),
            ("abcd", "dxa", "bcdxa"),
            ("ab", "ba", "ba"),
            ("ab", "", "ab"),
            ("", "ab", "ab"),
            ("ab", "cd", "abcd"),
            ("abc", "axc", "abxc"),
            ("ab", "ab", "ab"),
            ("abc", "cb", "acb"),
        ):
            with self.subTest(live=live, given=given):
                self.assertEqual("".join(merged_order(list(live), list(given))), wanted)


class Removals(unittest.TestCase):
    def told(self, before, after, actor="team"):
        changes = Changes(ROOT, before, after, {"manager": actor, "operation": "Apply"}, NOTHING)
        return [way for _, way in removals(ROOT, changes)]

    def test_a_field_above_goes_with_what_nobody_owns(self):
        before = shown({"probe": {"path": "/", "period": "1"}, "limits": {"cpu": "1"}}, team={"f:probe": {"f:path": {}}, "f:limits": {"f:cpu": {}}})
        after = shown({"probe": {"period": "1"}, "limits": {"cpu": "1"}}, team={"f:limits": {"f:cpu": {}}})
        self.assertEqual(self.told(before, after), [".spec.probe"])

    def test_an_entry_beside_goes_with_its_map(self):
        before = shown({"limits": {"cpu": "1", "memory": "2"}, "probe": {"path": "/"}}, team={"f:limits": {"f:cpu": {}}, "f:probe": {"f:path": {}}})
        after = shown({"limits": {"memory": "2"}, "probe": {"path": "/"}}, team={"f:probe": {"f:path": {}}})
        self.assertEqual(self.told(before, after), [".spec.limits"])

    def test_an_item_goes_with_what_an_update_owns_in_it_and_its_list_stays(self):
        a, b = ('k:{"name":"a"}', 'k:{"name":"b"}')
        whole = {".": {}, "f:name": {}}
        update = {"f:items": {b: {"f:image": {}}}}
        items = [{"name": "a"}, {"name": "b", "image": "i"}]
        before = shown({"items": items}, team={"f:items": {a: whole, b: whole}}, editor_updates=update)
        after = shown({"items": items}, team={"f:items": {a: whole}}, editor_updates=update)
        self.assertEqual(self.told(before, after), ['.spec.items[name="b"]'])

    def test_a_field_above_stays_for_who_owns_something_below(self):
        before = shown({"probe": {"path": "/", "period": "1"}}, team={"f:probe": {"f:path": {}}}, editor_updates={"f:probe": {"f:period": {}}})
        after = shown({"probe": {"period": "1"}}, editor_updates={"f:probe": {"f:period": {}}})
        self.assertEqual(self.told(before, after), [])

    def test_an_item_that_another_applier_owns_stays(self):
        item = {"f:items": {'k:{"name":"a"}': {".": {}, "f:name": {}}}}
        before = shown({"items": [{"name": "a"}]}, team=item, other=item)
        self.assertEqual(self.told(before, shown({"items": [{"name": "a"}]}, other=item)), [])

    def test_what_is_owned_as_empty_goes_where_an_empty_list_stands_in_it(self):
        team, given_up = {"f:probe": {"f:path": {}}}, {"probe": {"path": "/"}}
        for beside, wanted in (
            ({"items": [], "limits": {"cpu": "1"}}, [".spec"]),
            ({"items": [{"name": "a"}], "limits": {"cpu": "1"}}, []),
            ({"limits": {"cpu": "1"}}, []),
            ({"limits": {}}, []),
            ({"args": [], "limits": {"cpu": "1"}}, []),
            ({"inner": {"items": []}, "limits": {"cpu": "1"}}, [".spec"]),
            ({"inner": {"items": [], "path": "/"}, "limits": {"cpu": "1"}}, []),
        ):
            with self.subTest(beside=beside):
                self.assertEqual(self.told(shown(given_up | beside, team=team), shown(beside, team={})), wanted)
        before = shown(given_up | {"items": []}, team=team, other={"f:limits": {}})
        self.assertEqual(self.told(before, shown({"items": [], "limits": {}}, team={}, other={"f:limits": {}})), [])

    def test_a_list_that_was_applied_as_empty_is_nobodys(self):
        items, a = ("f:spec", "f:inner", "f:items"), 'k:{"name":"a"}'
        gone = {**NOTHING, "removed": [list(items), [*items, a], [*items, a, "f:name"]]}
        team = {"manager": "team", "operation": "Apply"}
        live = {"inner": {"items": [{"name": "a"}], "path": "/"}, "probe": {"path": "/"}}
        after = shown({"inner": {"path": "/"}, "probe": {"path": "/"}}, team={"f:probe": {"f:path": {}}})
        for owned, wanted in (
            ({"f:items": {}}, ([], [".spec.inner.items"])),
            ({"f:items": {".": {}, a: {".": {}, "f:name": {}}}}, ([".spec.inner"], [])),
        ):
            with self.subTest(owned=owned):
                before = shown(live, team={"f:inner": owned, "f:probe": {"f:path": {}}})
                changes = Changes(ROOT, before, after, team, gone)
                self.assertEqual(tuple([way for _, way in told(ROOT, changes)] for told in (removals, kept)), wanted)

    def test_fields_above_are_named_ones_only(self):
        path = ("f:spec", "f:items", 'k:{"name":"a"}', "f:probe", "f:path")
        wanted = {path, path[:1], path[:2], path[:4]}
        self.assertEqual(with_fields_above(ROOT, {path}), wanted)
        entry = ("f:spec", "f:limits", "f:cpu")
        self.assertEqual(with_fields_above(ROOT, {entry}), {entry, entry[:1], entry[:2]})
        below = ("f:spec", "f:groups", "f:a", "f:probe", "f:path")
        self.assertEqual(with_fields_above(ROOT, {below}), {below, below[:1], below[:2], below[:4]})


if __name__ == "__main__":
    unittest.main()
