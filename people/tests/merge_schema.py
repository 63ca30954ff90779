"""The schema that client-go merges built-in kinds by, as an OpenAPI document.

Its names of types don't tell the group as an object's apiVersion does, so the objects that carry them say it: `kinds` gives the
types that are kinds, and `document` an OpenAPI document with one of them under the apiVersion of an object.
"""
import re

import yaml

from packages import gocode

SOURCE = ("k8s.io/client-go/applyconfigurations/internal/internal.go",)
SCALARS = {"string": {"type": "string"}, "numeric": {"type": "integer"}, "boolean": {"type": "boolean"}, "untyped": {}}


def types():
    """The types of the merge schema by their names."""
    with open(gocode(*SOURCE), encoding="utf-8") as file:
        text = re.search(r"typed\.YAMLObject\(`(.*)`\)", file.read(), re.DOTALL).group(1)
    loader = getattr(yaml, "CSafeLoader", yaml.SafeLoader)
    return {one["name"]: one for one in yaml.load(text, Loader=loader)["types"]}


def kinds(all_types):
    """The names of the types that are kinds: those with apiVersion, kind and metadata."""
    found = []
    for name, one in all_types.items():
        fields = {field["name"] for field in (one.get("map") or {}).get("fields") or []}
        if {"apiVersion", "kind", "metadata"} <= fields:
            found.append(name)
    return found


def _node(type_or_atom):
    if "namedType" in type_or_atom:
        name = type_or_atom["namedType"]
        if name == "__untyped_deduced_":
            return {"type": "object", "additionalProperties": True}
        if name == "__untyped_atomic_":
            return {}
        node = {"allOf": [{"$ref": f"#/components/schemas/{name}"}]}
        relation = type_or_atom.get("elementRelationship")
        return node | ({"x-kubernetes-map-type": relation} if relation else {})
    if "scalar" in type_or_atom:
        return SCALARS[type_or_atom["scalar"]]
    if "list" in type_or_atom:
        return _list(type_or_atom["list"])
    return _map(type_or_atom["map"])


def _list(one):
    node = {"type": "array", "items": _node(one["elementType"])}
    if one["elementRelationship"] == "atomic":
        return node | {"x-kubernetes-list-type": "atomic"}
    if one.get("keys"):
        return node | {"x-kubernetes-list-type": "map", "x-kubernetes-list-map-keys": one["keys"]}
    return node | {"x-kubernetes-list-type": "set"}


def _map(one):
    node = {"type": "object"}
    if one.get("elementRelationship"):
        node["x-kubernetes-map-type"] = "granular" if one["elementRelationship"] == "separable" else "atomic"
    if one.get("fields"):
        node["properties"] = {
            field["name"]: _node(field["type"]) | ({"default": field["default"]} if "default" in field else {})
            for field in one["fields"]
        }
    if one.get("elementType"):
        node["additionalProperties"] = _node(one["elementType"])
    return node


def definitions(all_types):
    return {name: _node(one) for name, one in all_types.items()}


def document(nodes, name, api_version, kind):
    """An OpenAPI document that has one type as the kind of an object."""
    group, _, version = api_version.rpartition("/")
    here = nodes[name] | {"x-kubernetes-group-version-kind": [{"group": group, "version": version, "kind": kind}]}
    return {"openapi": "3.0.0", "components": {"schemas": nodes | {name: here}}}
