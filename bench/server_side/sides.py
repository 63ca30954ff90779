"""The two sides: the server's field manager as a process, and the workbench by the words of kubectl-ssabench."""
import contextlib
import io
import json
import os
import re
import subprocess

from ssabench_people.words import main

CONFLICT = re.compile(r'conflict with "([^"]*)"')


class Server:
    """Answers a command on a live object."""

    def __init__(self, program, schemas, group, version, kind, status=False):
        self.process = subprocess.Popen([program], stdin=subprocess.PIPE, stdout=subprocess.PIPE, text=True)
        self._send({"schemas": schemas, "group": group, "version": version, "kind": kind, "status": status})

    def _send(self, value):
        self.process.stdin.write(json.dumps(value) + "\n")
        self.process.stdin.flush()

    def asked(self, do, live, value, manager, force=False, part=""):
        """The object that comes of it, and the conflicts as pairs of a manager's name and a way; one of the two is None."""
        self._send({"do": do, "live": live, "object": value, "manager": manager, "force": force, "subresource": part})
        reply = json.loads(self.process.stdout.readline())
        if "error" in reply:
            raise ValueError(f"the server refuses: {reply['error']}")
        if "conflicts" in reply:
            return None, {(CONFLICT.match(one["manager"]).group(1), one["field"]) for one in reply["conflicts"]}
        return reply["object"], None

    def close(self):
        self.process.stdin.close()
        self.process.wait()


class Workbench:
    """A bench, in a folder."""

    def __init__(self, folder, schema):
        self.bench = os.path.join(folder, "bench")
        self.file = os.path.join(folder, "object.json")
        self.schema = os.path.join(folder, "schema.json")
        self.count = 0
        with open(self.schema, "w", encoding="utf-8") as file:
            json.dump(schema, file)

    def _run(self, *words):
        out, told = io.StringIO(), io.StringIO()
        with contextlib.redirect_stdout(out), contextlib.redirect_stderr(told):
            status = main(list(words))
        return status, out.getvalue(), told.getvalue()

    def _write(self, value):
        with open(self.file, "w", encoding="utf-8") as file:
            json.dump(value, file)

    def open(self, live):
        self._write(live)
        status, _, told = self._run("open", "--schema", self.schema, "-f", self.file, "--force", self.bench)
        if status:
            raise ValueError(f"the workbench doesn't open this: {told}")

    def asked(self, do, value, manager, force=False, part=""):
        """As the server's, on the bench's own object."""
        self.count += 1
        self._write(value)
        moment = f"2024-05-01T10:{self.count // 60 % 60:02}:{self.count % 60:02}Z"
        words = [do, "-f", self.file, "--field-manager", manager, "--at", moment, "-o", "json", self.bench]
        words += ["--force-conflicts"] if force and do == "apply" else []
        status, out, told = self._run(*words, *(["--subresource", part] if part else []))
        if status == 1 and out and json.loads(out)["fault"] == 50:
            conflicts = json.loads(out)["conflicts"]
            return None, {(one["manager"], way(path)) for one in conflicts for path in one["fields"]}
        if status:
            raise ValueError(f"the workbench refuses: {out}{told}")
        return self.live(), None

    def live(self):
        return json.loads(self._run("show", "-o", "json", "--show-managed-fields", self.bench)[1])


def way(path):
    """A path as the server's conflicts write it."""
    parts = []
    for text in path:
        letter, rest = text[0], text[2:]
        if letter == "f":
            parts.append("." + rest)
        elif letter == "k":
            keys = json.loads(rest)
            parts.append("[" + ",".join(f"{name}={json.dumps(keys[name])}" for name in sorted(keys)) + "]")
        else:
            parts.append(f"[={rest}]")
    return "".join(parts)
