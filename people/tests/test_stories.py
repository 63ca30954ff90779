"""The stories: transcripts of calls with what they print, written by hand from the rules.

A folder of `stories` has files and `story.txt`: lines that begin with `$ ` are commands, those behind are what is printed on
standard error and then on standard output, and `[status N]` where a command ends with another status than 0.
"""
import os
import shutil
import subprocess
import tempfile
import unittest

import beside  # noqa: F401
from ssabench_people import engine

HERE = os.path.dirname(os.path.realpath(__file__))
STORIES = os.path.join(HERE, "stories")


def parted(text):
    """The commands of a story, each with what it is to print."""
    commands = []
    for line in text.splitlines():
        if line.startswith("$ "):
            commands.append((line[2:], []))
        else:
            commands[-1][1].append(line)
    return commands


def run(command, folder, environment):
    """What a command prints, standard error first, and its status where it isn't 0."""
    ran = subprocess.run(["bash", "-c", command], cwd=folder, env=environment, capture_output=True, text=True, check=False)
    status = f"[status {ran.returncode}]\n" if ran.returncode else ""
    return ran.stderr + ran.stdout + status


class Stories(unittest.TestCase):
    maxDiff = None

    def tell(self, name):
        with open(os.path.join(STORIES, name, "story.txt"), encoding="utf-8") as file:
            commands = parted(file.read())
        self.assertTrue(commands)
        with tempfile.TemporaryDirectory(prefix="ssabench-story-") as place:
            shutil.copytree(STORIES, place, dirs_exist_ok=True)
            bin_folder = os.path.join(place, "bin")
            os.mkdir(bin_folder)
            os.symlink(os.path.join(os.path.dirname(HERE), "kubectl-ssabench"), os.path.join(bin_folder, "kubectl-ssabench"))
            environment = {**os.environ, "PATH": f"{bin_folder}:{os.environ['PATH']}", "SSABENCH": os.path.realpath(engine.program())}
            for command, wanted in commands:
                with self.subTest(command=command):
                    printed = run(command, os.path.join(place, name), environment)
                    self.assertEqual(printed, "".join(f"{line}\n" for line in wanted))


def _add(name):
    setattr(Stories, f"test_{name}", lambda self: self.tell(name))


for _name in sorted(os.listdir(STORIES)):
    if os.path.isdir(os.path.join(STORIES, _name)):
        _add(_name)

if __name__ == "__main__":
    unittest.main()
