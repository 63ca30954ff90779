"""Schemas, objects and manifests with parts taken out, put in and exchanged: each is refused by name, or comes back as it was.

Nothing may break the program, and what opens without a word on what was left out or filled in is shown equal.
"""
import argparse
import contextlib
import copy
import io
import json
import os
import random
import tempfile
import unittest

import beside  # noqa: F401
from ssabench_people.bench import Bench
from ssabench_people.documents import parse_documents, read_documents, tidy
from ssabench_people.view import page_data
from ssabench_people.words import main

HERE = os.path.dirname(os.path.realpath(__file__))
CASES = 120
JUNK = (
    None, 1, -1, 1.5, True, "", "x", [], {}, [None], {"a": None}, {"": 1}, [1, "a", {}], "é\n", 2**70, {"type": "array"},
    {"type": "object"}, {"$ref": "#/a/b"}, {"type": "string"}, ["type"], {"f:a": {}}, {".": {}}, {"k:{}": {}}, {"v:": {}},
)  # fmt: skip
NAMES = (
    "x", "type", "items", "properties", "additionalProperties", "x-kubernetes-list-type", "$ref", "allOf", "spec", "metadata",
    'k:{"a":1}', "f:zz", "v:1",
)  # fmt: skip


def story(*parts):
    (document,) = read_documents(os.path.join(HERE, "stories", *parts))
    return document


def ways(value, way=()):
    yield way
    inside = value.items() if isinstance(value, dict) else enumerate(value) if isinstance(value, list) else ()
    for name, part in inside:
        yield from ways(part, (*way, name))


def mutated(drawn, value):
    value = copy.deepcopy(value)
    for _ in range(drawn.choice((1, 1, 2, 4))):
        *above, last = drawn.choice([way for way in ways(value) if way])
        part = value
        for name in above:
            part = part[name]
        draw = drawn.random()
        if draw < 0.2 and isinstance(part, dict) and len(part) > 1:
            del part[last]
        elif draw < 0.3 and isinstance(part, dict):
            part[drawn.choice(NAMES)] = copy.deepcopy(drawn.choice(JUNK))
        else:
            part[last] = copy.deepcopy(drawn.choice(JUNK))
    return value


def without_nulls(value):
    if isinstance(value, dict):
        return {name: without_nulls(part) for name, part in value.items() if part is not None}
    return [without_nulls(item) for item in value if item is not None] if isinstance(value, list) else value


def run(*words):
    out, told = io.StringIO(), io.StringIO()
    with contextlib.redirect_stdout(out), contextlib.redirect_stderr(told):
        status = main(list(words))
    return status, out.getvalue(), told.getvalue()


class Mutated(unittest.TestCase):
    def setUp(self):
        folder = tempfile.TemporaryDirectory(prefix="ssabench-mutated-")
        self.addCleanup(folder.cleanup)
        self.folder = folder.name

    def write(self, name, value):
        path = os.path.join(self.folder, name)
        with open(path, "w", encoding="utf-8") as file:
            json.dump(value, file)
        return path

    def test_what_is_refused_is_refused_by_name_and_what_opens_comes_back(self):
        kinds, definition = story("kinds.yaml"), story("release", "crd.yaml")
        pairs = ((kinds, story("deployment", "live.yaml")), (definition, story("release", "live.yaml")))
        opened = 0
        for case in range(CASES):
            drawn = random.Random(case)
            schema, value = drawn.choice(pairs)
            sort = drawn.random()
            schema = mutated(drawn, schema) if sort < 0.4 else schema
            given = mutated(drawn, value) if sort > 0.3 else value
            with self.subTest(case=case):
                opened += self.one(drawn, schema, given, value)
        self.assertGreater(opened, CASES // 4)

    def one(self, drawn, schema, given, value):
        bench = os.path.join(self.folder, "bench")
        words = ["open", "--schema", self.write("schema", schema), "-f", self.write("object", given), "--force"]
        status, _, told = run(*words, *drawn.choice(([], ["--drop"])), bench)
        self.assertIn(status, (0, 1), told)
        self.assertTrue(status == 0 or told)
        if status:
            return 0
        if "left out" not in told and "filled in" not in told:
            (wanted,) = parse_documents(json.dumps(given), "object")
            wanted["metadata"].pop("managedFields", None)
            shown = json.loads(run("show", "-o", "json", bench)[1])
            self.assertEqual(without_nulls(tidy(wanted)), without_nulls(shown))
        metadata = {name: given["metadata"][name] for name in ("name", "namespace") if name in given["metadata"]}
        manifest = {**value, **{name: given[name] for name in ("apiVersion", "kind")}, "metadata": metadata}
        words = ("-f", self.write("manifest", mutated(drawn, manifest)), "--field-manager", "z")
        explained, out, _ = run("explain", *words, bench)
        status, _, told = run("apply", *words, bench)
        self.assertIn(status, (0, 1), told)
        self.assertTrue(status == 0 or told)
        self.assertEqual(explained, status)
        self.assertTrue(out or status == 1)
        for look in (("owners",), ("owners", "--ways"), ("log",), ("log", "--fights")):
            self.assertEqual(run(*look, bench)[0], 0)
        page_data(Bench(bench), argparse.Namespace(files=None))
        return 1


if __name__ == "__main__":
    unittest.main()
