#!/usr/bin/env python3
"""Random stories on the server's field manager and on the workbench, counted by where they differ.

    bench/server_side/compare.py SERVER [STORIES] [SEED]

SERVER is the program that `build` makes; SSABENCH names the proved program. Each story begins with an object that the server
made, which the workbench opens by kubectl-ssabench, and has six commands, each given to both. A story ends where verdicts or
objects differ, but for the order of lists and emptied containers. With SHOW=REASON|REASON.. each object that differs for one of
these is printed on standard error, with what it came of; KINDS=KIND|KIND.. names those that are tried.
"""
import collections
import json
import os
import random
import sys
import tempfile

TOP = os.path.dirname(os.path.dirname(os.path.dirname(os.path.realpath(__file__))))
sys.path[:0] = [os.path.join(TOP, "people"), os.path.join(TOP, "people", "tests")]

from differences import CLIENT_SIDE, conflict_reason, object_reason, table_reasons  # noqa: E402
from drawn import DEPLOYMENT, ROUTE, ROUTE_SCHEMA, STATUS, STATUS_SCHEMA, Drawer  # noqa: E402
from sides import Server, Workbench  # noqa: E402
from ssabench_people.migration import ANNOTATION  # noqa: E402

GOES_ON = ("order of lists", "emptied containers")
APPLIERS, UPDATERS = ("one", "two", "three"), ("editor", "scaler")


def apps_document():
    import packages
    import real_kinds

    return real_kinds.read(packages.gocode(real_kinds.OPENAPI[1]))[0]


def route_schema(definitions, with_status=False):
    """The kind Route as a definition, and as the server's schemas have it; with a status that is written through its subresource."""
    schema = {**ROUTE_SCHEMA, "properties": {**ROUTE_SCHEMA["properties"], **({"status": STATUS_SCHEMA} if with_status else {})}}
    version = {"name": "v1", "schema": {"openAPIV3Schema": schema}} | ({"subresources": {"status": {}}} if with_status else {})
    spec = {"group": "example.com", "names": {"kind": "Route"}, "versions": [version]}
    metadata = {"$ref": "#/components/schemas/io.k8s.apimachinery.pkg.apis.meta.v1.ObjectMeta"}
    own = {"apiVersion": {"type": "string"}, "kind": {"type": "string"}, "metadata": metadata}
    names = [{"group": "example.com", "version": "v1", "kind": "Route"}]
    model = {**schema, "properties": {**schema["properties"], **own}, "x-kubernetes-group-version-kind": names}
    return {"kind": "CustomResourceDefinition", "spec": spec}, {**definitions, "com.example.v1.Route": model}


class Stories:
    """The stories of one kind, and what was counted."""

    def __init__(self, server, workbench, shape, api_version, kind, seed, status=None):
        self.server, self.workbench = server, workbench
        self.random = random.Random(seed)
        self.drawer = Drawer(self.random, shape)
        self.status_drawer = status and Drawer(self.random, status)
        self.identity = {"apiVersion": api_version, "kind": kind}
        self.counts = collections.Counter()

    def made(self, spec):
        return {**self.identity, "metadata": {"name": "x", "namespace": "y"}, "spec": spec}

    def begun(self, number):
        """The object that a story begins with: applied, with fields that nobody owns, or updated; seldom without managers."""
        spec = self.drawer.spec(0.7)
        sort = number % 9
        if sort == 7:
            return self.made(spec)
        if sort == 8:
            return self.by_client_side_apply(spec)
        live = self.made_live(spec, sort)
        if self.status_drawer and sort % 2:
            value = {**live, "status": self.status_drawer.spec(0.7)}
            live, _ = self.server.asked("update", live, value, "controller", False, "status")
        return live

    def made_live(self, spec, sort):
        live, _ = self.server.asked("update" if sort == 6 else "apply", None, self.made(spec), "one" if sort != 6 else "editor")
        if 3 <= sort < 6:  # as defaults are set after an object is made: what is written belongs to nobody
            live, _ = self.server.asked("update", live, {**live, "spec": self.drawer.edited(live["spec"])}, "default")
            entries_left = [entry for entry in live["metadata"].get("managedFields") or [] if entry["manager"] != "default"]
            live["metadata"]["managedFields"] = entries_left
        return live

    def by_client_side_apply(self, spec):
        value = self.made(spec)
        annotations = {ANNOTATION: json.dumps(value) + "\n"}
        value = {**value, "metadata": {**value["metadata"], "annotations": annotations}}
        return self.server.asked("update", None, value, CLIENT_SIDE)[0]

    def told(self, number):
        live = self.begun(number)
        self.workbench.open(live)
        for _ in range(6):
            do, value, manager, force, part = self.drawn_command(live, number % 9 == 8)
            theirs, their_conflicts = self.server.asked(do, live, value, manager, force, part)
            given = {**value, "metadata": {name: part for name, part in value["metadata"].items() if name != "managedFields"}}
            before = self.workbench.live()
            ours, our_conflicts = self.workbench.asked(do, given, manager, force, part)
            self.counts["commands"] += 1
            if part:
                self.counts["commands through the status"] += 1
            why = conflict_reason(their_conflicts, our_conflicts, before)
            if (theirs is None) != (ours is None):
                self.counts[f"verdict: {why}"] += 1
                return
            self.counts["verdict: the same"] += 1
            if theirs is None:
                self.counts[f"conflicts: {why or 'the same managers and fields'}"] += 1
                continue
            self.counts["done by both"] += 1
            reason = object_reason(theirs, ours, before)
            self.counts[f"object: {reason or 'equal'}"] += 1
            if reason in os.environ.get("SHOW", "").split("|"):
                shown = {"reason": reason, "live": live, "do": do, "manager": manager, "value": value, "server": theirs}
                shown |= {"bench before": before, "bench": ours}
                print(json.dumps(shown), file=sys.stderr)
            if reason and reason not in GOES_ON:
                return
            for told in table_reasons(theirs, ours) or ["equal"]:
                self.counts[f"managers: {told}"] += 1
            live = theirs

    def drawn_command(self, live, by_kubectl):
        """A command with the part that it is given through; now and then it also says something of the other part."""
        if self.status_drawer is None or self.random.random() < 0.5:
            do, value, manager, force = self.command(live, by_kubectl)
            if self.status_drawer and self.random.random() < 0.3:
                value = {**value, "status": self.status_drawer.spec(0.5)}
            return do, value, manager, force, ""
        if self.random.random() < 0.6:
            value = self.made(self.drawer.spec(0.2)) | {"status": self.status_drawer.spec(0.5)}
            return "apply", value, self.random.choice(APPLIERS), self.random.random() < 0.4, "status"
        status = self.status_drawer.edited(live.get("status") or {})
        return "update", {**live, "status": status}, self.random.choice(("controller", *UPDATERS)), False, "status"

    def command(self, live, by_kubectl):
        if by_kubectl and self.random.random() < 0.5:
            return "apply", self.made(self.drawer.spec(0.35)), "kubectl", False
        if self.random.random() < 0.6:
            return "apply", self.made(self.drawer.spec(0.35)), self.random.choice(APPLIERS), self.random.random() < 0.4
        spec = live.get("spec") or {}
        for _ in range(self.random.randint(1, 2)):
            spec = self.drawer.edited(spec)
        return "update", {**live, "spec": spec}, self.random.choice(UPDATERS), False


def kinds():
    """Each kind that is tried: what it is called, its apiVersion and kind, the shapes of its spec and its status, and its schema as
    the workbench and the server read it."""
    document = apps_document()
    definitions = document["components"]["schemas"]
    yield "Deployment", "apps/v1", "Deployment", DEPLOYMENT, None, document, definitions
    for label, status in (("Route", None), ("Route with a status", STATUS)):
        yield label, "example.com/v1", "Route", ROUTE, status, *route_schema(definitions, status is not None)


def main():
    program, number, seed = sys.argv[1], int((sys.argv[2:] or ["100"])[0]), int((sys.argv[3:] or ["1"])[0])
    for label, api_version, kind, shape, status, schema, schemas in kinds():
        if label not in (os.environ.get("KINDS") or label).split("|"):
            continue
        group, _, version = api_version.rpartition("/")
        server = Server(program, schemas, group, version, kind, status is not None)
        with tempfile.TemporaryDirectory(prefix="ssabench-server-side-") as folder:
            stories = Stories(server, Workbench(folder, schema), shape, api_version, kind, seed, status)
            for one in range(number):
                stories.told(one)
        server.close()
        print(f"{label}: {number} stories")
        for name, count in sorted(stories.counts.items()):
            print(f"  {count:>6}  {name}")


if __name__ == "__main__":
    main()
