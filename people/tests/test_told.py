"""What `explain` and `log` tell, beside what the proved program said when the commands were given: drawn stories."""
import argparse
import contextlib
import io
import json
import os
import random
import shutil
import tempfile
import unittest
import unittest.mock

import beside  # noqa: F401
from ssabench_people import view
from ssabench_people.bench import Bench
from ssabench_people.view import page_data
from ssabench_people.words import main, parser

EXAMPLE = os.path.join(os.path.dirname(os.path.dirname(os.path.realpath(__file__))), "example")
CONDITIONS = os.path.join(os.path.dirname(os.path.realpath(__file__)), "stories", "conditions")
STORIES, COMMANDS = 8, 7
SPEC = "        spec: {allOf:"
STATUS = """        status:
          type: object
          properties:
            replicas: {type: integer}
            conditions:
              type: array
              items: {type: object, properties: {type: {type: string}, is: {type: boolean}}}
              x-kubernetes-list-type: map
              x-kubernetes-list-map-keys: [type]
"""


def run(*words):
    out, told = io.StringIO(), io.StringIO()
    with contextlib.redirect_stdout(out), contextlib.redirect_stderr(told):
        status = main(list(words))
    return status, json.loads(out.getvalue()) if out.getvalue() else None, told.getvalue()


def topmost(paths):
    return {path for path in paths if not any(path[:size] in paths for size in range(1, len(path)))}


def of_reply(reply):
    """What a reply says was added, modified and removed: the topmost places."""
    return {part: topmost({tuple(path) for path in reply[part]}) for part in ("added", "modified", "removed")}


def of_changes(changes):
    """The same of told changes, what went because it was given up among the removed."""
    found = {part: set() for part in ("added", "modified", "removed")}
    for change in changes:
        part = "removed" if change.get("goes") else change["what"]
        if part in found:
            found[part].add(tuple(change["path"]))
    return found


def owners(shown, path):
    """Who owns a path, by walking the sets that `show` prints."""
    found = []
    for entry in shown["metadata"].get("managedFields", []):
        node = entry["fieldsV1"]
        for text in path:
            node = node.get(text) if isinstance(node, dict) else None
        if node is not None and (node == {} or "." in node):
            found.append(key(entry))
    return found


def key(owner):
    """An owner as its name, its operation and its part."""
    return owner["manager"], owner["operation"], owner.get("subresource", "")


def parts(shown):
    """The status of an object, and all else but its managers."""
    metadata = {name: value for name, value in shown["metadata"].items() if name != "managedFields"}
    return {"status": shown.get("status"), "": {**shown, "metadata": metadata, "status": None}}


class Told(unittest.TestCase):
    maxDiff = None

    def setUp(self):
        folder = tempfile.TemporaryDirectory(prefix="ssabench-told-")
        self.addCleanup(folder.cleanup)
        self.folder = folder.name
        shutil.copytree(EXAMPLE, self.folder, dirs_exist_ok=True)
        self.bench, self.file, schema = (os.path.join(self.folder, name) for name in ("web.bench", "manifest.json", "apps.yaml"))
        with open(schema, encoding="utf-8") as file:
            text = file.read()
        with open(schema, "w", encoding="utf-8") as file:
            file.write(text.replace(SPEC, STATUS + SPEC, 1))

    def manifest(self, drawn):
        value = {"apiVersion": "apps/v1", "kind": "Deployment", "metadata": {"name": "web"}, "spec": {}}
        if drawn.random() < 0.5:
            value["metadata"]["labels"] = {"app": drawn.choice(("web", "shop"))}
        if drawn.random() < 0.6:
            value["spec"]["replicas"] = drawn.choice((2, 3, 5))
        names = drawn.sample(("web", "log", "side"), drawn.randint(0, 3))
        images = ({"image": f"{name}:{drawn.choice('12')}"} if drawn.random() < 0.7 else {} for name in names)
        if names:
            value["spec"]["template"] = {"spec": {"containers": [{"name": name} | image for name, image in zip(names, images)]}}
        if drawn.random() < 0.6:
            seen = [{"type": name, "is": drawn.random() < 0.5} for name in drawn.sample(("Up", "Ready"), drawn.randint(0, 2))]
            value["status"] = {"replicas": drawn.choice((2, 3)), "conditions": seen}
        return value

    def write(self, value):
        with open(self.file, "w", encoding="utf-8") as file:
            json.dump(value, file)

    def shown(self):
        return run("show", "-o", "json", "--show-managed-fields", self.bench)[1]

    def test_drawn_stories(self):
        commands = 0
        for story in range(STORIES):
            drawn, replies = random.Random(story), []
            schema, live = (os.path.join(self.folder, name) for name in ("apps.yaml", "live.yaml"))
            status, _, told = run("open", "--schema", schema, "-f", live, "--force", "-o", "json", self.bench)
            self.assertEqual(status, 0, told)
            for number in range(COMMANDS):
                with self.subTest(story=story, number=number):
                    replies.append(self.one(drawn, number))
            commands += len(replies)
            with self.subTest(story=story):
                self.history(replies)
        self.assertEqual(commands, STORIES * COMMANDS)

    def one(self, drawn, number):
        """A command through one of the parts: what was said of it before is what it then does, and the other part stays as it was.
        Gives its reply and who lost what it modified."""
        manager, part = drawn.choice(("team", "other", "autoscaler")), drawn.choice(("", "", "status"))
        self.write(self.manifest(drawn))
        before = self.shown()
        words = ("-f", self.file, "--field-manager", manager, *(("--subresource", part) if part else ()))
        done = self.update if drawn.random() < 0.3 else self.apply
        reply = done(before, words, ("--at", f"2024-05-01T10:00:0{number}Z"), (manager, done.__name__.capitalize(), part))
        other = "" if part else "status"
        self.assertEqual(parts(self.shown())[other], parts(before)[other])
        return reply

    def update(self, before, words, at, actor):
        status, reply, told = run("update", *words, *at, "-o", "json", self.bench)
        self.assertEqual(status, 0, told)
        return reply, self.lost(before, reply, actor)

    def apply(self, before, words, at, actor):
        status, explained, told = run("explain", *words, "-o", "json", self.bench)
        self.assertIsNotNone(explained, told)
        refused, conflicts, _ = run("apply", *words, *at, "-o", "json", self.bench)
        self.assertEqual(status, refused)
        (told,) = explained["manifests"]
        self.assertEqual(told.get("subresource", ""), actor[2])
        said = {(tuple(one["path"]), key(one["owner"])) for one in told["conflicts"]}
        reply = conflicts
        if refused:
            self.assertEqual({(tuple(path), key(one)) for one in conflicts["conflicts"] for path in one["fields"]}, said)
            status, reply, _ = run("apply", *words, *at, "--force-conflicts", "-o", "json", self.bench)
            self.assertEqual(status, 0)
        taken = {(tuple(one["path"]), key(owner)) for one in told["changes"] if one["what"] == "modified" for owner in one.get("takenFrom", [])}
        self.assertEqual(taken, said)
        self.given_up(before, told["changes"], actor)
        wanted, found = of_reply(reply), of_changes(told["changes"])
        self.assertEqual((found["added"], found["modified"]), (wanted["added"], wanted["modified"]))
        self.assertLessEqual(found["removed"], {tuple(path) for path in reply["removed"]})
        return reply, self.lost(before, reply, actor)

    def given_up(self, before, changes, actor):
        """What was told as given up was the applier's; it is gone, or stays for who owns it or something in it."""
        after = self.shown()
        for change in changes:
            if change["what"] == "given up":
                self.assertIn(actor, owners(before, change["path"]))
                self.assertNotIn(actor, owners(after, change["path"]))
                if not change.get("goes"):
                    keepers = [key(owner) for owner in change["keptBy"]]
                    self.assertTrue(keepers)
                    self.assertIn(owners(after, change["path"]), (keepers, []))

    def lost(self, before, reply, actor):
        after = self.shown()
        found = {}
        for path in reply["modified"]:
            gone = [owner for owner in owners(before, path) if owner not in owners(after, path) and owner != actor]
            found[tuple(path)] = gone
        return found

    def history(self, replies):
        """Each command of the history did what it said when it was given."""
        _, log, _ = run("log", "-o", "json", self.bench)
        self.assertEqual(len(log["past"]), len(replies))
        for command, (reply, lost) in zip(log["past"], replies):
            self.assertEqual(of_changes(command["changes"]), of_reply(reply))
            for change in command["changes"]:
                if change["what"] == "modified":
                    taken = [key(owner) for owner in change.get("takenFrom", [])]
                    self.assertEqual(taken, lost[tuple(change["path"])])


class Trees(unittest.TestCase):
    def test_the_page_has_each_object_of_the_history_with_its_owners(self):
        with tempfile.TemporaryDirectory(prefix="ssabench-trees-") as folder:
            shutil.copytree(EXAMPLE, folder, dirs_exist_ok=True)
            bench, turned, team = (os.path.join(folder, name) for name in ("web.bench", "turned.json", "team.yaml"))
            run("open", "--schema", os.path.join(folder, "apps.yaml"), "-f", os.path.join(folder, "live.yaml"), "-o", "json", bench)
            _, first, _ = run("show", "-o", "json", "--show-managed-fields", bench)
            value = {**first, "metadata": {"name": "web"}}
            value["spec"]["template"]["spec"]["containers"].reverse()
            with open(turned, "w", encoding="utf-8") as file:
                json.dump(value, file)
            objects = [run("show", "-o", "json", "--show-managed-fields", bench)[1]]
            for words in (("update", "-f", turned), ("apply", "-f", team, "--field-manager", "team", "--force-conflicts")):
                self.assertEqual(run(*words, "-o", "json", "--at", "2024-05-01T10:00:01Z", bench)[0], 0)
                objects.append(run("show", "-o", "json", "--show-managed-fields", bench)[1])
            data = page_data(Bench(bench), argparse.Namespace(files=None))
        self.assertEqual(len(data["states"]), 3)
        for number, shown in zip(data["states"], objects):
            self.same(data, number, "", {**shown, "metadata": {**shown["metadata"]}}, shown, ())
        self.assertEqual([change["what"] for change in data["steps"][0]["changes"]], ["removed", "removed", "reordered"])  # annotations, labels; the containers

    def test_a_long_history_shows_its_latest_steps(self):
        with tempfile.TemporaryDirectory(prefix="ssabench-trees-") as folder:
            shutil.copytree(EXAMPLE, folder, dirs_exist_ok=True)
            bench = os.path.join(folder, "web.bench")
            run("open", "--schema", os.path.join(folder, "apps.yaml"), "-f", os.path.join(folder, "live.yaml"), "-o", "json", bench)
            for number, name in enumerate(("team", "autoscaler", "team")):
                words = ("-f", os.path.join(folder, f"{name}.yaml"), "--field-manager", name, "--at", f"2024-05-01T10:00:0{number}Z")
                self.assertEqual(run("apply", *words, "--force-conflicts", "-o", "json", bench)[0], 0)
            run("undo", "-o", "json", bench)
            told = io.StringIO()
            with unittest.mock.patch.object(view, "MOST_BYTES", 1), contextlib.redirect_stderr(told):
                short = page_data(Bench(bench), argparse.Namespace(files=None))
            with contextlib.redirect_stderr(told):
                whole = page_data(Bench(bench), argparse.Namespace(files=None))
        self.assertEqual((short["leftOut"], len(short["steps"]), short["present"]), (2, 1, 0))
        self.assertEqual((whole["leftOut"], len(whole["steps"]), whole["present"]), (0, 3, 2))
        self.assertEqual(short["steps"], whole["steps"][2:])
        self.assertEqual(told.getvalue(), "kubectl-ssabench: 2 earlier commands left out: the page would have more than 1 bytes of objects\n")

    def test_the_page_tells_who_acts_through_the_status(self):
        with tempfile.TemporaryDirectory(prefix="ssabench-trees-") as folder:
            shutil.copytree(CONDITIONS, folder, dirs_exist_ok=True)
            bench, crd, live, builder, painter = (
                os.path.join(folder, name) for name in ("b.bench", "crd.yaml", "live.yaml", "builder.yaml", "painter.yaml")
            )
            self.assertEqual(run("open", "--schema", crd, "-f", live, "-o", "json", bench)[0], 0)
            words = ("--subresource", "status", "--field-manager", "builder", "--at", "2024-05-01T10:00:03Z", "-o", "json", bench)
            self.assertEqual(run("update", "-f", builder, *words)[0], 0)
            words = ["view", "-f", painter, "--subresource", "status", "--field-manager", "painter", bench]
            data = page_data(Bench(bench), parser().parse_args(words))
        self.assertEqual(data["managers"], ["team (Apply)", "builder (Update through status)", "painter (Apply through status)"])
        self.assertEqual([step["heading"] for step in data["steps"]], ["2024-05-01T10:00:03Z update by builder through status"])
        told = [(change["what"], change["way"]) for change in data["steps"][0]["changes"]]
        self.assertEqual(told[-1], ("removed", '.status.conditions[type="Painted"]'))
        (manifest,) = data["manifests"]
        self.assertEqual((manifest["manager"], manifest["conflicts"]), ("painter through status", []))
        self.assertEqual([(change["what"], change["way"]) for change in manifest["changes"]], [("added", '.status.conditions[type="Painted"]')])

    def same(self, data, number, way, value, shown, path):
        """Whether a node is a value with its owners, all the way down; metadata's sets aside."""
        part, text, numbers, children, is_item = data["nodes"][number]
        self.assertTrue(way.endswith(part))
        self.assertEqual([data["managers"][one] for one in numbers], [f"{name} ({operation})" for name, operation, _ in owners(shown, path)], way)
        if not children:
            self.assertEqual(json.loads(text), value, way)
            return
        if isinstance(value, list):
            self.assertEqual(len(children), len(value), way)
            for child, item in zip(children, value):
                keys = json.dumps({"name": item["name"]}, separators=(",", ":"))
                self.same(data, child, way + data["nodes"][child][0], item, shown, (*path, "k:" + keys))
            return
        names = sorted(name for name in value if name != "managedFields")
        self.assertEqual(len(children), len(names), way)
        for child in children:
            name = data["nodes"][child][0].removeprefix(".")
            name = json.loads(name[1:-1]) if name.startswith("[") else name
            self.assertIn(name, names)
            self.same(data, child, way + data["nodes"][child][0], value[name], shown, (*path, f"f:{name}"))


if __name__ == "__main__":
    unittest.main()
