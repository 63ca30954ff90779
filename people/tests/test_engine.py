"""Calls of the proved program that go wrong, or take long: each is told in a sentence, with status 3."""
import contextlib
import io
import os
import tempfile
import unittest
import unittest.mock

import beside  # noqa: F401
from ssabench_people import engine
from ssabench_people.words import main


class Calls(unittest.TestCase):
    def setUp(self):
        folder = tempfile.TemporaryDirectory(prefix="ssabench-engine-")
        self.addCleanup(folder.cleanup)
        self.program = os.path.join(folder.name, "ssabench")

    def told(self, script):
        """The status of `--version` over a program that is a script, and what is told on standard error."""
        with open(self.program, "w", encoding="utf-8") as file:
            file.write(f"#!/bin/sh\n{script}\n")
        os.chmod(self.program, 0o700)
        return self.called("--version")

    def called(self, *words):
        out, told = io.StringIO(), io.StringIO()
        engine.program.cache_clear()
        self.addCleanup(engine.program.cache_clear)
        with unittest.mock.patch.dict(os.environ, SSABENCH=self.program), contextlib.redirect_stdout(out), contextlib.redirect_stderr(told):
            try:
                status = main(list(words))
            except SystemExit as end:
                status = end.code
        return status, out.getvalue(), told.getvalue().replace(self.program, "PROGRAM")

    def test_the_version_names_the_program_that_answers(self):
        self.assertEqual(self.told("echo ssabench 1.0.0"), (0, f"ssabench 1.0.0, {self.program}\n", ""))

    def test_a_program_that_is_not_there(self):
        self.assertEqual(self.called("--version"), (3, "", "kubectl-ssabench: cannot run PROGRAM: No such file or directory\n"))

    def test_a_program_that_fails_is_told_with_its_own_words(self):
        self.assertEqual(self.told("echo no room >&2; exit 3"), (3, "", "kubectl-ssabench: no room\n"))
        self.assertEqual(self.told("exit 4"), (3, "", "kubectl-ssabench: PROGRAM ended with status 4\n"))

    def test_no_reply(self):
        self.told("echo '{\"done\":'; printf '\\377'")
        with unittest.mock.patch.dict(os.environ, SSABENCH=self.program), self.assertRaisesRegex(engine.Refusal, "printed no UTF-8"):
            engine.called("show", "web.bench")
        self.told("echo '{\"done\":'")
        with unittest.mock.patch.dict(os.environ, SSABENCH=self.program), self.assertRaisesRegex(engine.Refusal, "a reply that is none"):
            engine.called("show", "web.bench")

    def test_a_launcher_that_first_proves_is_told_and_waited_for(self):
        with unittest.mock.patch.multiple(engine, LAUNCHER=self.program, PATIENCE=0.05):
            status, out, told = self.told("sleep 0.5; echo ssabench 1.0.0")
        self.assertEqual((status, out), (0, f"ssabench 1.0.0, {self.program}\n"))
        self.assertIn("PROGRAM is at work: where no program stands that was built of its sources, it is proved and built first", told)


if __name__ == "__main__":
    unittest.main()
