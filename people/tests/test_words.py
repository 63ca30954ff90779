"""The words as kubectl's hand gives them: their help, their options, and that what only asks changes nothing."""
import contextlib
import hashlib
import io
import os
import re
import shlex
import shutil
import tempfile
import unittest

import beside  # noqa: F401
from ssabench_people.words import EXAMPLES, main, parser
from test_speed import HAS_PAGES, run

HERE = os.path.dirname(os.path.realpath(__file__))
AT = ("--at", "2024-05-01T10:00:01Z")
TEAM = ("-f", "team.yaml", "--field-manager", "team")
ASKING = (
    ("apply", *TEAM, *AT, "--dry-run"),
    ("apply", *TEAM, *AT, "--dry-run=server", "--force-conflicts"),
    ("update", *TEAM, *AT, "--dry-run"),
    ("replace", *TEAM, *AT, "--dry-run=server"),
    ("strip", "--dry-run"),
    ("diff", *TEAM, *AT),
    ("diff", *TEAM, "--show-managed-fields"),
    ("explain", *TEAM),
    ("explain", "--migrate", *TEAM),
    ("show", "-o", "json"),
    ("owners",),
    ("owners", "--ways", "--manager", "team"),
    ("log",),
    ("log", "--fights"),
    ("log", "--path", ".spec.replicas"),
    *([("view", *TEAM)] if HAS_PAGES else []),
)


def printed(*words):
    """What a call that ends by itself prints on standard output, and its status."""
    out = io.StringIO()
    with contextlib.redirect_stdout(out), contextlib.redirect_stderr(io.StringIO()):
        try:
            status = main(list(words))
        except SystemExit as end:
            status = end.code
    return out.getvalue(), status


def digests(folder):
    found = {}
    for name in sorted(os.listdir(folder)):
        with open(os.path.join(folder, name), "rb") as file:
            found[name] = hashlib.sha256(file.read()).hexdigest()
    return found


class Help(unittest.TestCase):
    def test_each_word_has_an_example_and_its_statuses(self):
        for word, example in EXAMPLES.items():
            for words in (("help", word), (word, "--help"), (word, "-h")):
                with self.subTest(words=words):
                    text, status = printed(*words)
                    told = " ".join(text.split())
                    self.assertEqual(status, 0)
                    self.assertIn(f"example: kubectl-ssabench {example}", told)
                    self.assertRegex(told, r"statuses: 0 \w+.*; 1 \w+.*; 2 ")

    def test_each_example_is_taken(self):
        for example in EXAMPLES.values():
            with self.subTest(example=example):
                words = ["--dry-run=server" if word == "--dry-run" else word for word in shlex.split(example.partition(" > ")[0])]
                self.assertTrue(parser().parse_args(words).do)

    def test_help_of_all_words(self):
        text, status = printed("help")
        self.assertEqual(status, 0)
        for word in EXAMPLES:
            self.assertRegex(text, rf"(?m)^    {word}\b")

    def test_other_words_are_told_and_end_with_2(self):
        for words in (["delete"], ["apply"], ["apply", "-f", "x", "--force", "b"], ["help", "delete"], ["show", "b", "-o", "wide"], []):
            with self.subTest(words=words):
                self.assertEqual(printed(*words)[1], 2)


class Asking(unittest.TestCase):
    def setUp(self):
        place = tempfile.TemporaryDirectory(prefix="ssabench-words-")
        self.addCleanup(place.cleanup)
        shutil.copytree(os.path.join(HERE, "stories"), place.name, dirs_exist_ok=True)
        self.folder = os.path.join(place.name, "explain")
        self.run_well("open", "--schema", "../kinds.yaml", "-f", "live.yaml", "web.bench")

    def run_well(self, *words):
        ran = run(*words, folder=self.folder)
        self.assertEqual(ran.returncode, 0, ran.stderr)
        return ran.stdout

    def test_what_only_asks_leaves_file_history_and_future(self):
        self.run_well("apply", *TEAM, *AT, "web.bench")
        self.run_well("strip", "web.bench")
        self.run_well("undo", "web.bench")
        before = digests(self.folder)
        for words in ASKING:
            with self.subTest(words=words):
                self.assertIn(run(*words, "web.bench", folder=self.folder).returncode, (0, 1))
                self.assertEqual(digests(self.folder), before)
        self.assertEqual(self.run_well("redo", "web.bench"), "redone: strip; 2 commands can be undone, 0 redone\n")

    def test_no_dry_run_is_none(self):
        before = digests(self.folder)
        self.run_well("apply", *TEAM, *AT, "--dry-run=none", "web.bench")
        self.assertNotEqual(digests(self.folder), before)

    def test_files_are_taken_in_their_order(self):
        words = ("-f", "team.yaml", "-f", "../history/replicas.yaml", "--field-manager", "team", "--dry-run", *AT)
        told = self.run_well("apply", *words, "web.bench")
        self.assertEqual(re.findall(r"\.spec\.replicas: (\d -> \d)", told), ["2 -> 3", "3 -> 5"])

    def test_server_side_is_taken_and_changes_nothing(self):
        told = self.run_well("apply", "--server-side", *TEAM, *AT, "--dry-run", "web.bench")
        self.assertEqual(told, self.run_well("apply", *TEAM, *AT, "--dry-run", "web.bench"))

    def test_the_moment_is_now_where_none_is_given(self):
        self.run_well("apply", *TEAM, "web.bench")
        self.assertTrue(re.match(r"20\d\d-\d\d-\d\dT\d\d:\d\d:\d\dZ apply by team\n", self.run_well("log", "web.bench")))

    def test_the_managers_are_kubectls_where_none_is_named(self):
        self.run_well("apply", "-f", "team.yaml", "--force-conflicts", *AT, "web.bench")
        self.run_well("replace", "-f", "other.yaml", *AT, "web.bench")
        headings = [line for line in self.run_well("log", "web.bench").splitlines() if not line.startswith(" ")]
        self.assertEqual(headings, [f"{AT[1]} apply by kubectl, by force", f"{AT[1]} update by kubectl-replace"])


if __name__ == "__main__":
    unittest.main()
