"""The values that words print with `-o json`, held against the forms of FORMS.md: each member that has to be there, and no other."""
import json
import os
import re
import shutil
import tempfile
import unittest

import beside  # noqa: F401
import yaml
from test_speed import run

HERE = os.path.dirname(os.path.realpath(__file__))
AT = ("--at", "2024-05-01T10:00:01Z")
OTHER = ("-f", "other.yaml", "--field-manager", "other")
NINE = ("-f", "../status_taken/nine.yaml", "--subresource", "status")
STEPS = (  # the form, the words, the status
    ("open", ("open", "--schema", "../kinds.yaml", "-f", "live.yaml"), 0),
    ("explain", ("explain", "-f", "team.yaml", "--field-manager", "team"), 0),
    ("explain", ("explain", *OTHER), 1),
    ("diff", ("diff", *OTHER, "--force-conflicts"), 1),
    ("refusal", ("apply", *OTHER, *AT), 1),
    ("refusal", ("undo",), 1),
    ("apply", ("apply", *OTHER, *AT, "--force-conflicts"), 0),
    ("apply", ("apply", "-f", "team.yaml", "--field-manager", "team", *AT, "--force-conflicts"), 0),
    ("apply", ("apply", *OTHER, *AT, "--force-conflicts"), 0),
    ("update", ("update", "-f", "other.yaml", *AT), 0),
    ("update", ("update", *NINE, *AT), 0),
    ("explain", ("explain", *NINE, "--field-manager", "other"), 0),
    ("apply", ("apply", *NINE, "--field-manager", "other", *AT), 0),
    ("strip", ("strip", "--dry-run"), 0),
    ("strip", ("strip",), 0),
    ("undo", ("undo",), 0),
    ("undo", ("undo",), 0),
    ("redo", ("redo",), 0),
    ("undo", ("undo",), 0),
    ("show", ("show", "--show-managed-fields"), 0),
    ("owners", ("owners",), 0),
    ("log", ("log",), 0),
    ("log --fights", ("log", "--fights"), 0),
    ("log --path", ("log", "--path", ".spec.replicas"), 0),
    ("log --path", ("log", "--path", ".spec.template.spec.containers[name=side].image"), 0),
    ("owners PATH", ("owners", ".spec.replicas"), 0),
    ("owners PATH", ("owners", ".spec.template"), 0),
)
BEHIND = {"owners PATH"}  # forms whose words end with a path, which stands behind the bench


def forms():
    """The forms of the page by their names."""
    with open(os.path.join(os.path.dirname(HERE), "FORMS.md"), encoding="utf-8") as file:
        found = re.findall(r"^    ([A-Za-z_ -]+) = (.+)$", file.read(), re.MULTILINE)
    return {name: json.loads(form) if form.startswith("{") else form for name, form in found}


class Forms(unittest.TestCase):
    def setUp(self):
        self.forms = forms()

    def has(self, form, value, where):
        """Whether a value has a form."""
        plain = {"TEXT": str, "COUNT": int, "TRUTH": bool, "OBJECT": dict}
        if isinstance(form, dict):
            self.assertIsInstance(value, dict, where)
            names = {name.removesuffix("?"): part for name, part in form.items()}
            self.assertLessEqual({name for name in form if not name.endswith("?")}, value.keys(), where)
            self.assertLessEqual(value.keys(), names.keys(), where)
            for name, part in value.items():
                self.has(names[name], part, f"{where}.{name}")
        elif isinstance(form, list):
            self.assertIsInstance(value, list, where)
            for item in value:
                self.has(form[0], item, f"{where}[]")
        elif form in plain:
            self.assertIs(type(value), plain[form], where)
        elif form == "PATH":
            self.has(["TEXT"], value, where)
        elif form.isupper() and form != "VALUE":
            self.has(self.forms[form], value, where)
        elif form != "VALUE":
            self.assertEqual(value, form, where)

    def test_each_word(self):
        with tempfile.TemporaryDirectory(prefix="ssabench-forms-") as place:
            shutil.copytree(os.path.join(HERE, "stories"), place, dirs_exist_ok=True)
            tried = set()
            for form, words, status in STEPS:
                with self.subTest(words=words):
                    *before, path = words if form in BEHIND else (*words, None)
                    bench = ["web.bench", *([path] if path else [])]
                    ran = run(*before, "-o", "json", *bench, folder=os.path.join(place, "explain"))
                    self.assertEqual(ran.returncode, status, ran.stderr)
                    value = json.loads(ran.stdout)
                    self.has(self.forms[form], value, form)
                    if form in ("log", "owners", "explain", "show"):
                        again = run(*before, "-o", "yaml", *bench, folder=os.path.join(place, "explain"))
                        self.assertEqual(yaml.safe_load(again.stdout), value)
                    tried.add(form)
            self.assertEqual({name for name in self.forms if not name.isupper()} - tried, set())

    def test_a_value_of_another_form_is_found(self):
        for form, value in (
            ("undo", {"done": "undo", "past": 1}),
            ("undo", {"done": "undo", "past": 1, "future": 0, "more": 1}),
            ("undo", {"done": "redo", "past": 1, "future": 0}),
            ("undo", {"done": "undo", "past": "1", "future": 0}),
            ("owners", {"done": "owners", "fields": [{"path": ["f:a"], "owners": [{"manager": "m"}]}]}),
        ):
            with self.subTest(value=value), self.assertRaises(AssertionError):
                self.has(self.forms[form], value, form)


if __name__ == "__main__":
    unittest.main()
