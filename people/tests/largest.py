"""A bench near the limit of 20,000 paths: groups of entries, and a wide map, by three managers."""
import json
import os

GROUPS, ENTRIES, WIDE = 20, 192, 4500
PATHS = 3 + GROUPS * 3 + GROUPS * ENTRIES * 4 + WIDE
ENTRY = {"type": "object", "properties": {"key": {"type": "string"}, "size": {"type": "integer"}, "port": {"x-kubernetes-int-or-string": True}}}


def _list(key, item):
    return {"type": "array", "x-kubernetes-list-type": "map", "x-kubernetes-list-map-keys": [key], "items": item}


def definition():
    group = {"type": "object", "properties": {"name": {"type": "string"}, "entries": _list("key", ENTRY)}}
    wide = {"type": "object", "additionalProperties": {"type": "string"}}
    spec = {"type": "object", "properties": {"groups": _list("name", group), "wide": wide}}
    version = {"name": "v1", "schema": {"openAPIV3Schema": {"type": "object", "properties": {"spec": spec}}}}
    return {"kind": "CustomResourceDefinition", "spec": {"group": "example.com", "names": {"kind": "Big"}, "versions": [version]}}


def value(spec=None):
    made = {"apiVersion": "example.com/v1", "kind": "Big", "metadata": {"name": "big"}}
    return made if spec is None else made | {"spec": spec}


def _entries():
    return [{"key": f"e{number}", "size": 1, "port": number if number % 2 else str(number)} for number in range(ENTRIES)]


def commands():
    """The manifests that fill it, each with its manager."""
    groups = [{"name": f"g{number}", "entries": _entries()} for number in range(GROUPS)]
    wide = {f"w{number}": f"v{number}" for number in range(WIDE)}
    yield "one", {"groups": groups, "wide": wide}
    yield "two", {"wide": {name: text for name, text in wide.items() if name.endswith("5")}}
    yield "three", {"groups": [{"name": "g3", "entries": [{"key": "e5", "size": 7}]}]}


def made(folder, run):
    """Makes the bench in a folder by words, which `run` takes; gives its name."""
    bench, paths = os.path.join(folder, "big.bench"), {}
    for name, content in (("crd", definition()), ("object", value())):
        paths[name] = os.path.join(folder, f"{name}.json")
        with open(paths[name], "w", encoding="utf-8") as file:
            json.dump(content, file)
    run("open", "--schema", paths["crd"], "-f", paths["object"], "--force", bench)
    for number, (manager, spec) in enumerate(commands(), 1):
        path = os.path.join(folder, f"{manager}.json")
        with open(path, "w", encoding="utf-8") as file:
            json.dump(value(spec), file)
        moment = f"2024-05-01T10:00:0{number}Z"
        run("apply", "-f", path, "--field-manager", manager, "--force-conflicts", "--at", moment, "-o", "name", bench)
    return bench
