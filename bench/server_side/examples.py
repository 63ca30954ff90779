#!/usr/bin/env python3
"""Asks both sides the examples of docs/SERVER.md, which stand in examples.yaml with what each is to answer.

    bench/server_side/examples.py SERVER
"""
import os
import sys
import tempfile

import yaml

TOP = os.path.dirname(os.path.dirname(os.path.dirname(os.path.realpath(__file__))))
sys.path[:0] = [os.path.join(TOP, "people"), os.path.join(TOP, "people", "tests")]

from compare import apps_document  # noqa: E402
from differences import text  # noqa: E402
from sides import Server, Workbench  # noqa: E402


def made(command):
    metadata = {"name": "web"} | ({"annotations": command["annotations"]} if "annotations" in command else {})
    return {"apiVersion": "apps/v1", "kind": "Deployment", "metadata": metadata, "spec": command["spec"]}


def met(server, example):
    """The live object that an example's command meets."""
    live = None
    for command in example["before"]:
        value = made(command)
        if live is not None and command["do"] == "update":
            value["metadata"] = live["metadata"]
        live, _ = server.asked(command["do"], live, value, command["manager"])
    if "defaults" in example:
        live = {**(live or made({"spec": {}})), "spec": example["defaults"]}
    return live or made({"spec": {}})


def told(wanted, live, conflicts):
    """What there is of that which is wanted."""
    if conflicts is not None:
        return {"conflicts": sorted(list(one) for one in conflicts)}
    if "owns" in wanted:
        entries = live["metadata"].get("managedFields") or []
        of = [entry for entry in entries if (entry["manager"], entry["operation"]) == (wanted["manager"], wanted["operation"])]
        return {**wanted, "owns": of[0]["fieldsV1"] if of else {}}
    return {"spec": live["spec"]}


def both(server, workbench, command, live):
    """What a command makes of a server's object, and of the bench's own: the object, or the conflicts."""
    value = made(command)
    plain = {**value, "metadata": {"name": "web"}} if command["do"] == "update" else value
    if command["do"] == "update":
        value["metadata"] = live["metadata"]
    return server.asked(command["do"], live, value, command["manager"]), workbench.asked(command["do"], plain, command["manager"])


def main():
    with open(os.path.join(os.path.dirname(os.path.realpath(__file__)), "examples.yaml"), encoding="utf-8") as file:
        examples = yaml.safe_load(file)
    document = apps_document()
    server = Server(sys.argv[1], document["components"]["schemas"], "apps", "v1", "Deployment")
    well = 0
    with tempfile.TemporaryDirectory(prefix="ssabench-examples-") as folder:
        workbench = Workbench(folder, document)
        for example in examples:
            live = met(server, example)
            workbench.open(live)
            for command in [*example.get("both", []), example["command"]]:
                its, ours = both(server, workbench, command, live)
                live = its[0]
            theirs, ours = (told(example[side], *found) for side, found in (("server", its), ("bench", ours)))
            right = text(theirs) == text(example["server"]) and text(ours) == text(example["bench"])
            well += right
            if not right:
                print(f"{example['reason']}:\n  server {text(theirs)}\n  wanted {text(example['server'])}")
                print(f"  bench  {text(ours)}\n  wanted {text(example['bench'])}")
    server.close()
    print(f"{well} of {len(examples)} examples are as they stand there")
    return 0 if well == len(examples) else 1


if __name__ == "__main__":
    sys.exit(main())
