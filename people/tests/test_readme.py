"""The questions that README.md begins with: each command prints what stands there, but for the moments."""
import os
import re
import shutil
import tempfile
import unittest

import beside  # noqa: F401
from ssabench_people import engine
from test_stories import parted, run

HERE = os.path.dirname(os.path.realpath(__file__))
TOP = os.path.dirname(os.path.dirname(HERE))
MOMENT = re.compile(r"\d{4}-\d\d-\d\dT\d\d:\d\d:\d\dZ")


def first_screen():
    """The transcript of README.md up to its first heading below the title."""
    with open(os.path.join(TOP, "README.md"), encoding="utf-8") as file:
        text = file.read().partition("\n## ")[0]
    return "\n".join(line[4:] for line in text.splitlines() if line.startswith("    "))


class Readme(unittest.TestCase):
    maxDiff = None

    def test_the_first_screen(self):
        commands = parted(first_screen())
        (first, _), *commands = commands
        self.assertEqual(first, "cd people/example; PATH=$PATH:..")
        self.assertGreater(len(commands), 5)
        with tempfile.TemporaryDirectory(prefix="ssabench-readme-") as place:
            for name in ("kubectl-ssabench", "ssabench_people", "example"):
                source = os.path.join(os.path.dirname(HERE), name)
                (shutil.copytree if os.path.isdir(source) else shutil.copy)(source, os.path.join(place, name))
            environment = {**os.environ, "PATH": os.environ["PATH"] + ":..", "SSABENCH": os.path.realpath(engine.program())}
            for command, wanted in commands:
                with self.subTest(command=command):
                    printed = run(command + " 2> /dev/null", os.path.join(place, "example"), environment)
                    printed = re.sub(r"\[status 1\]\n$", "", printed) if "is refused" in printed else printed
                    self.assertEqual(MOMENT.sub("MOMENT", printed), MOMENT.sub("MOMENT", "".join(f"{line}\n" for line in wanted)))


if __name__ == "__main__":
    unittest.main()
