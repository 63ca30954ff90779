"""Colours and widths: as the terminal says where the output is one, and nothing of it elsewhere."""
import importlib.util
import os
import pty
import re
import shutil
import subprocess
import sys
import tempfile
import unittest

import beside  # noqa: F401
from test_speed import PROGRAM, run

HERE = os.path.dirname(os.path.realpath(__file__))
ESCAPE = re.compile(r"\x1b\[[0-9;]*m")
EXPLAIN = ("explain", "-f", "other.yaml", "--field-manager", "other", "web.bench")


def on_terminal(*words, folder, **environment):
    """What a word prints on a terminal."""
    here, there = pty.openpty()
    environment = {**os.environ, "TERM": "xterm-256color", **environment}
    environment.pop("NO_COLOR", None) if "NO_COLOR" not in environment else None
    words = [sys.executable, PROGRAM, *words]
    process = subprocess.Popen(words, cwd=folder, env=environment, stdout=there, stderr=subprocess.DEVNULL)
    os.close(there)
    found = b""
    while True:
        try:
            part = os.read(here, 65536)
        except OSError:  # the other end is closed
            break
        if not part:
            break
        found += part
    os.close(here)
    process.wait()
    return found.decode("utf-8").replace("\r\n", "\n")


class Terminal(unittest.TestCase):
    maxDiff = None

    def setUp(self):
        place = tempfile.TemporaryDirectory(prefix="ssabench-terminal-")
        self.addCleanup(place.cleanup)
        shutil.copytree(os.path.join(HERE, "stories"), place.name, dirs_exist_ok=True)
        self.folder = os.path.join(place.name, "explain")
        self.assertEqual(run("open", "--schema", "../kinds.yaml", "-f", "live.yaml", "web.bench", folder=self.folder).returncode, 0)

    def test_elsewhere_nothing_of_it(self):
        for words in (("owners", "web.bench"), EXPLAIN, ("--help",)):
            ran = run(*words, folder=self.folder)
            self.assertNotIn("\x1b", ran.stdout + ran.stderr)

    def needs_rich(self):
        if importlib.util.find_spec("rich") is None:
            print("\ncolours were not tried: they need rich (apt-get install python3-rich)", file=sys.__stderr__)
            self.skipTest("rich is missing")

    def test_colours_on_a_terminal(self):
        self.needs_rich()
        shown = on_terminal(*EXPLAIN, folder=self.folder)
        self.assertIn("\x1b[", shown)
        self.assertEqual(ESCAPE.sub("", shown), run(*EXPLAIN, folder=self.folder).stdout)

    def test_no_colours_where_they_are_not_wanted(self):
        self.needs_rich()
        for wanted in ({"NO_COLOR": "1"}, {"TERM": "dumb"}):
            with self.subTest(wanted=wanted):
                shown = on_terminal(*EXPLAIN, folder=self.folder, **wanted)
                self.assertEqual(re.findall(r"\x1b\[3\dm", shown), [])

    def test_a_table_keeps_to_the_width(self):
        self.needs_rich()
        shown = ESCAPE.sub("", on_terminal("owners", "--ways", "web.bench", folder=self.folder, COLUMNS="60"))
        self.assertLessEqual(max(len(line) for line in shown.splitlines()), 60)
        self.assertEqual(len(re.findall(r"^\.", shown, re.MULTILINE)), 11)

    def test_a_page_is_not_written_to_a_terminal(self):
        here, there = pty.openpty()
        words = [sys.executable, PROGRAM, "view", "web.bench"]
        ran = subprocess.run(words, cwd=self.folder, stdout=there, stderr=subprocess.PIPE, text=True, check=False)
        os.close(there)
        os.close(here)
        told = "kubectl-ssabench: view writes a page, which is no text for a terminal: kubectl-ssabench view web.bench > bench.html\n"
        self.assertEqual((ran.returncode, ran.stderr), (2, told))

    def test_a_table_without_rich_is_plain(self):
        blocked = os.path.join(self.folder, "rich.py")
        with open(blocked, "w", encoding="utf-8") as file:
            file.write("raise ImportError('no rich')\n")
        shown = on_terminal("owners", "web.bench", folder=self.folder, PYTHONPATH=self.folder)
        self.assertEqual(shown, run("owners", "web.bench", folder=self.folder).stdout)


if __name__ == "__main__":
    unittest.main()
