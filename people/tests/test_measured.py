"""Real kinds, real definitions and real manifests: each opens, and comes back equal but for what was told.

They are out of Debian's packages, which are fetched when first needed; where they can't be had, these tests say so. What was
counted is printed at the end of each, on standard error.
"""
import io
import os
import re
import shutil
import subprocess
import sys
import tempfile
import unittest

import beside  # noqa: F401
import merge_schema
import packages
import real_kinds
import yaml
from filled import Filler
from ssabench_people import bench, schemas
from ssabench_people.documents import compact, parse_documents
from ssabench_people.fields import said_paths
from ssabench_people.migration import one_migrated
from ssabench_people.objects import to_bench_object
from ssabench_people.ownership import Turning
from ssabench_people.places import root_of
from ssabench_people.report import Report

MANIFESTS = (
    "deployment web --image=nginx:1.14 --replicas=2 --port=80",
    "service clusterip web --tcp=80:8080",
    "service nodeport web --tcp=80:http",
    "service loadbalancer web --tcp=443",
    "configmap settings --from-literal=a=1 --from-literal=b=yes",
    "secret generic keys --from-literal=a=1",
    "job pi --image=perl -- perl -e 1",
    "cronjob pi --image=perl --schedule=0_0_*_*_* -- perl",
    "namespace shop",
    "serviceaccount robot",
    "quota most --hard=cpu=1,memory=1G",
)


def said(text):
    print(f"\nmeasured: {text}", file=sys.__stderr__)


def without_nulls(value):
    if isinstance(value, dict):
        return {name: without_nulls(part) for name, part in value.items() if part is not None}
    return [without_nulls(item) for item in value] if isinstance(value, list) else value


class Measured(unittest.TestCase):
    maxDiff = None

    @classmethod
    def setUpClass(cls):
        try:
            packages.root()
        except packages.NotHere as fault:
            print(f"\n{fault}", file=sys.__stderr__)
            raise unittest.SkipTest(str(fault)) from fault

    def setUp(self):
        folder = tempfile.TemporaryDirectory(prefix="ssabench-measured-")
        self.addCleanup(folder.cleanup)
        self.name = os.path.join(folder.name, "bench")

    def opened(self, documents, names, value):
        """Opens an object under a kind's schema: the object as it comes back, its entries, and the report."""
        schema = schemas.found(documents, "schema", names)
        root, report = root_of(schema), Report(io.StringIO())
        turned, kept = to_bench_object(root, value, report)
        entries = Turning(root, value, report).entries(value["metadata"].get("managedFields") or [])
        turned["metadata"]["managedFields"] = entries
        status, reply, lines = bench.make(self.name, root, turned, kept)
        self.assertEqual(status, 0, (names, reply, lines))
        made = bench.Bench(self.name)
        back = made.live()
        return back, back["metadata"].pop("managedFields", []), report

    def same(self, value, back):
        metadata = {name: part for name, part in value["metadata"].items() if name != "managedFields"}
        self.assertEqual(compact(without_nulls({**value, "metadata": metadata})), compact(back))

    def test_each_built_in_kind_with_its_filled_object(self):
        types = merge_schema.types()
        nodes, kinds, objects = merge_schema.definitions(types), merge_schema.kinds(types), real_kinds.test_objects()
        texts = 0
        for kind in kinds:
            group, version, name = kind.split(".")[-3:]
            group = {"apiserverinternal": "internal"}.get(group, group)
            value = objects[group, version, name]
            with self.subTest(kind=kind):
                document = merge_schema.document(nodes, kind, value["apiVersion"], value["kind"])
                group, _, version = value["apiVersion"].rpartition("/")
                back, _, report = self.opened([document], {"kind": name, "group": group, "version": version}, value)
                self.same(value, back)
                texts += report.total("text", "open")
        self.assertGreaterEqual(len(kinds), 127)
        said(f"{len(kinds)} built-in kinds open with the filled objects of k8s.io/api and come back equal; {texts} values stood as texts")

    def filled(self, schema, node, definitions, names):
        """An object that is filled to the last field, with an owner of it all: of the status one who acts through it."""
        value, fields = Filler(definitions).value(node)
        api_version = f"{names['group']}/{names['version']}" if names["group"] else names["version"]
        own = ("apiVersion", "kind", "metadata")
        value = {name: part for name, part in value.items() if name not in own}
        fields = {text: below for text, below in fields.items() if text[2:] not in own}
        plain = {
            "apiVersion": api_version, "fieldsType": "FieldsV1", "manager": "filler", "operation": "Apply", "time": "2024-05-01T08:00:00Z",
        }  # fmt: skip
        parts = {"": fields}
        if schema.has_status and "f:status" in fields:
            parts = {"": {text: below for text, below in fields.items() if text != "f:status"}, "status": {"f:status": fields["f:status"]}}
        entries = [plain | {"fieldsV1": owned} | ({"subresource": part} if part else {}) for part, owned in parts.items() if owned]
        metadata = {"name": "filled", "namespace": "x", "uid": "u"} | ({"managedFields": entries} if entries else {})
        return value | {"apiVersion": api_version, "kind": names["kind"], "metadata": metadata}

    def round_trip(self, documents, names, node, definitions):
        """Opens a filled object, and compares what comes back. Gives how many values stood as texts, and whether there was an owner
        through the status."""
        value = self.filled(schemas.found(documents, "schema", names), node, definitions, names)
        back, entries, report = self.opened(documents, names, value)
        self.same(value, back)
        self.assertEqual(compact(entries), compact(value["metadata"].get("managedFields") or []))
        self.assertEqual(report.losses, 0)
        return report.total("text", "open"), any("subresource" in entry for entry in entries)

    def test_each_definition_with_a_filled_object_and_its_owner(self):
        tried, well, texts, through = 0, 0, 0, 0
        for label, documents, names in real_kinds.definitions():
            tried += 1
            with self.subTest(definition=label):
                schema = schemas.found(documents, label, names)
                found = self.round_trip(documents, names, schema.root, schema.definitions)
                well, texts, through = well + 1, texts + found[0], through + found[1]
        self.assertGreaterEqual(tried, 100)
        self.assertGreaterEqual(well, tried * 0.98)
        said(f"{well} of {tried} CustomResourceDefinitions open, filled to the last field, with an owner of it all, {through} of them through the status too, and come back equal; {texts} values stood as texts")

    def test_each_kind_of_openshifts_own_server(self):
        tried, through = 0, 0
        for label, documents, names in real_kinds.of_openshifts_server():
            tried += 1
            with self.subTest(kind=label):
                schema = schemas.found(documents, label, names)
                through += self.round_trip(documents, names, schema.root, schema.definitions)[1]
        self.assertGreater(tried, 30)
        said(f"{tried} kinds of OpenShift's own server do so too, {through} of them through the status too")

    def test_each_kind_of_openapi_documents_with_a_filled_object_and_its_owner(self):
        tried, through = 0, 0
        for path in (*real_kinds.OPENAPI, real_kinds.SWAGGER):
            documents = real_kinds.read(packages.gocode(path))
            for names, node, definitions in list(real_kinds.kinds_of(documents[0])):
                tried += 1
                with self.subTest(path=path, kind=names):
                    through += self.round_trip(documents, names, node, definitions)[1]
        self.assertGreater(tried, 100)
        self.assertGreater(through, 30)
        said(f"{tried} kinds of {len(real_kinds.OPENAPI)} OpenAPI v3 documents and one of v2 do so too, {through} of them through the status too")

    def test_manifests_that_kubectl_writes(self):
        if shutil.which("kubectl") is None:
            print("\nnot tried: manifests of kubectl, which is not on the path", file=sys.__stderr__)
            self.skipTest("kubectl is not on the path")
        documents = [document for path in real_kinds.OPENAPI for document in real_kinds.read(packages.gocode(path))]
        for words in MANIFESTS:
            with self.subTest(words=words):
                command = ["kubectl", "create", *(word.replace("_", " ") for word in words.split())]
                dashes = command.index("--") if "--" in command else len(command)
                command[dashes:dashes] = ["--dry-run=client", "-o", "yaml"]
                ran = subprocess.run(command, capture_output=True, text=True, check=True)
                (value,) = parse_documents(ran.stdout, "kubectl")
                group, _, version = value["apiVersion"].rpartition("/")
                back, _, report = self.opened(documents, {"kind": value["kind"], "group": group, "version": version}, value)
                for part in back.get("spec", {}).get("template", {}).get("spec", {}).get("containers", []):
                    for port in part.get("ports", []):
                        self.assertEqual(port.pop("protocol"), "TCP")
                self.same(value, back)
                self.assertEqual(report.losses, 0)
        said(f"{len(MANIFESTS)} of {len(MANIFESTS)} manifests of kubectl create --dry-run=client open as they are")

    def test_migration_as_client_go_tests_its_own(self):
        with open(packages.gocode("k8s.io/client-go/util/csaupgrade/upgrade_test.go"), encoding="utf-8") as file:
            cases = file.read().partition("func TestUpgradeCSA")[2].split("\t\t\tName:")[1:]
        tried = 0
        for case in cases:
            label, manager = (re.search(pattern, case).group(1) for pattern in (r'"([^"]+)"', r'SSAManager:\s+"([^"]+)"'))
            if "Options:" in case:  # of a subresource, which is nothing of this program's
                continue
            names = re.findall(r'"([^"]+)"', re.search(r"CSAManagers:(.*)", case).group(1))
            given, wanted = (yaml.safe_load(text)["metadata"]["managedFields"] for text in re.findall(r"Object: \[\]byte\(`(.*?)`\)", case, re.DOTALL)[:2])
            for order in (names, names[::-1]):
                with self.subTest(case=label, order=order):
                    entries = given
                    for name in order:
                        entries = one_migrated(entries, name, manager)
                    self.assertEqual([self.told_entry(entry) for entry in entries], [self.told_entry(entry) for entry in wanted])
            tried += 1
        self.assertGreaterEqual(tried, 8)
        said(f"{tried} migrations from client-side apply are as client-go's own tests have them")

    @staticmethod
    def told_entry(entry):
        return {**entry, "time": str(entry.get("time")), "fieldsV1": sorted(said_paths(entry["fieldsV1"]))}

    def test_an_object_with_managers_from_kubectls_own_tests(self):
        documents = [document for path in real_kinds.OPENAPI for document in real_kinds.read(packages.gocode(path))]
        (value,) = real_kinds.read(packages.gocode("k8s.io/kubectl/testdata/apply/rc-managedfields-lastapplied.yaml"))
        back, entries, report = self.opened(documents, {"kind": "ReplicationController", "group": "", "version": "v1"}, value)
        self.same(value, back)
        whole = value["metadata"]["managedFields"]
        self.assertEqual((report.total("entry"), [entry.get("subresource") for entry in whole]), (0, ["status", None]))
        del whole[1]["fieldsV1"]["f:spec"]["f:template"]["f:metadata"]["f:creationTimestamp"]  # its value is a null
        self.assertEqual(compact(entries), compact(whole))
        said(f"kubectl's ReplicationController: {len(whole)} entries of {len(entries)}, one of them through the status")


if __name__ == "__main__":
    unittest.main()
