#!/usr/bin/env python3
"""What `explain` tells of a server, beside the server's own field manager: random stories, counted.

    bench/server_side/explained.py SERVER [STORIES] [SEED]

SERVER is the program that `build` makes; SSABENCH names the proved program. Each story begins with an object that the server made,
and goes on by what the server answers. Before each apply that the server carries out, `explain` says what is removed beside what
the bench removes, and which lists have another order: with these the bench's object has to be the server's. KINDS=KIND|KIND.. names
the kinds that are tried.
"""
import copy
import json
import os
import sys
import tempfile

from compare import Stories, kinds
from differences import body, text, without_empty
from sides import Server, Workbench

BEGUN = (0, 1, 2, 3, 4, 5, 6)  # of the sorts of stories those in which verdicts are the same


def with_told(value, told):
    """The bench's object with what is told of a server: removals and orders."""
    value = copy.deepcopy(value)
    for one in told:
        if one["what"] == "removes":
            _remove(value, one["path"])
        elif one["what"] == "orders":
            _order(value, one["path"], one["items"])
    return value


def _remove(value, path):
    *above, last = path
    for text in above:
        value = _below(value, text)
    if last.startswith("f:"):
        value.pop(last[2:], None)
    else:
        value.remove(_below(value, last))


def _below(value, text):
    if text.startswith("f:"):
        return value[text[2:]]
    said = json.loads(text[2:])
    if text.startswith("v:"):
        return next(item for item in value if item == said and type(item) is type(said))
    return next(item for item in value if all(item.get(name) == part and type(item.get(name)) is type(part) for name, part in said.items()))


def _order(value, path, items):
    for text in path:
        value = _below(value, text)
    value[:] = [_below(value, text) for text in items]


def main():
    program, number, seed = sys.argv[1], int((sys.argv[2:] or ["100"])[0]), int((sys.argv[3:] or ["1"])[0])
    for label, api_version, kind, shape, status, schema, schemas in kinds():
        if label not in (os.environ.get("KINDS") or label).split("|"):
            continue
        group, _, version = api_version.rpartition("/")
        server = Server(program, schemas, group, version, kind, status is not None)
        with tempfile.TemporaryDirectory(prefix="ssabench-explained-") as folder:
            stories = Explained(server, Explaining(folder, schema), shape, api_version, kind, seed, status)
            for one in range(number):
                stories.told(one)
        server.close()
        print(label, dict(sorted(stories.counts.items())))


class Explaining(Workbench):
    """A bench that is asked what an apply would do."""

    def explained(self, value, manager, part):
        self._write(value)
        words = ["explain", "-f", self.file, "--field-manager", manager, "--force-conflicts", "-o", "json", self.bench]
        words += ["--subresource", part] if part else []
        status, out, told = self._run(*words)
        if status:
            raise ValueError(f"the workbench doesn't explain this: {out}{told}")
        return json.loads(out)["manifests"][0]["notProved"]["server"]


class Explained(Stories):
    """The stories of one kind."""

    def told(self, number):
        live = self.begun(BEGUN[number % len(BEGUN)])
        for _ in range(6):
            do, value, manager, force, part = self.drawn_command(live, False)
            theirs, _ = self.server.asked(do, live, value, manager, force, part)
            if theirs is None:
                continue
            if do == "apply":
                self.compared(live, value, manager, theirs, part)
            live = theirs

    def compared(self, live, value, manager, theirs, part):
        if "null" in text([live[name] for name in ("spec", "status") if name in live]):  # the field manager alone leaves nulls, a server doesn't
            self.counts["left out: a null"] += 1
            return
        try:
            self.workbench.open(live)
        except ValueError:  # an entry that owns what such a null was, and no longer is there
            self.counts["left out: owns what is not there"] += 1
            return
        told = self.workbench.explained(value, manager, part)
        ours, _ = self.workbench.asked("apply", value, manager, True, part)
        wanted, plain, explained = (text(without_empty(body(one))) for one in (theirs, ours, with_told(ours, told)))
        self.counts["applies"] += 1
        answered = "answered as here" if wanted == plain else "answered otherwise"
        self.counts[f"{answered}, {'told' if wanted == explained else 'NOT told'}"] += 1
        if wanted != explained and os.environ.get("SHOW"):
            print(json.dumps({"live": live, "value": value, "manager": manager, "theirs": wanted, "told": told, "explained": explained}))


if __name__ == "__main__":
    main()
