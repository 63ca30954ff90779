"""The schema of a kind: of a CustomResourceDefinition, or of an OpenAPI document and a kind.

`found` gives a `KindSchema`; its `open_node` resolves a reference, or an `allOf` of one, with what stands beside it.
"""
from dataclasses import dataclass, field

from .refusal import Refusal


KINDS = {dict: "object", list: "list", str: "text"}


def part(node, name, kind, default):
    """A part of a schema that has to be of a kind where it is there."""
    value = node.get(name)
    if value is None:
        return default
    if not isinstance(value, kind):
        raise Refusal(f"the schema: {name} is no {KINDS[kind]}")
    return value


@dataclass
class KindSchema:
    """The schema of one version of a kind, with the definitions that it refers to."""

    group: str
    version: str
    kind: str
    root: dict
    definitions: dict = field(default_factory=dict)
    has_status: bool = False  # whether `status` is written through a subresource of its own
    open_everywhere: bool = False  # whether every object keeps fields that the schema hasn't

    @property
    def api_version(self):
        return f"{self.group}/{self.version}" if self.group else self.version

    def open_node(self, node):
        """The node with its reference resolved, and the names that were gone through."""
        names = []
        while isinstance(node, dict):
            beside = {name: value for name, value in node.items() if name not in ("$ref", "allOf")}
            if "$ref" in node:
                name = str(node["$ref"]).rsplit("/", 1)[-1]
                if not isinstance(self.definitions.get(name), dict):
                    raise Refusal(f"the schema has no {node['$ref']}")
                if name in names:
                    raise Refusal(f"the schema's {node['$ref']} refers to itself")
                names.append(name)
                node = {**self.definitions[name], **beside}
            elif _is_one(node.get("allOf")) and not ({"type", "properties", "items"} & node.keys()):
                node = {**node["allOf"][0], **beside}
            else:
                break
        return node, names


def _is_one(several):
    return isinstance(several, list) and len(several) == 1 and isinstance(several[0], dict)


def found(documents, name, wanted):
    """The schema in the documents of a file. `wanted` has a kind, a group and a version, each of which may be None."""
    found_here = []
    for document in documents:
        if not isinstance(document, dict):
            continue
        if document.get("kind") == "CustomResourceDefinition":
            found_here += _of_definition(document)
        else:
            found_here += _of_openapi(document)
    if not found_here:
        raise Refusal(f"{name}: neither a CustomResourceDefinition nor an OpenAPI document with kinds")
    return _chosen(found_here, name, wanted)


def _chosen(found_here, name, wanted):
    fitting = [
        schema
        for schema in found_here
        if wanted.get("kind") in (None, schema.kind)
        and wanted.get("group") in (None, schema.group)
        and wanted.get("version") in (None, schema.version)
    ]
    if not fitting:
        there = sorted({f"{schema.kind} ({schema.api_version})" for schema in found_here})
        asked = " ".join(str(part) for part in (wanted.get("kind"), wanted.get("group"), wanted.get("version")) if part)
        raise Refusal(f"{name}: no schema of {asked}; there: {', '.join(there[:20])}")
    if len({(schema.group, schema.version, schema.kind) for schema in fitting}) > 1:
        there = sorted({f"{schema.kind} ({schema.api_version})" for schema in fitting})
        raise Refusal(f"{name}: more than one schema: {', '.join(there[:20])}; name one by --kind and --version")
    return fitting[0]


def _of_definition(document):
    spec = part(document, "spec", dict, {})
    group, kind = part(spec, "group", str, ""), part(part(spec, "names", dict, {}), "kind", str, None)
    if kind is None:
        raise Refusal("the definition has no spec.names.kind")
    for version in part(spec, "versions", list, [{"name": spec.get("version")}]):
        if not isinstance(version, dict):
            raise Refusal("the definition: a version is no object")
        schema = part(version, "schema", dict, part(spec, "validation", dict, {}))
        root = part(schema, "openAPIV3Schema", dict, {"type": "object", "x-kubernetes-preserve-unknown-fields": True})
        has_status = "status" in part(version, "subresources", dict, part(spec, "subresources", dict, {}))
        name, is_open = part(version, "name", str, None), spec.get("preserveUnknownFields") is True
        yield KindSchema(group, name, kind, root, {}, has_status, is_open)


def _of_openapi(document):
    components = part(document, "components", dict, {})
    definitions = part(components, "schemas", dict, part(document, "definitions", dict, {}))
    paths = part(document, "paths", dict, {})
    for node in definitions.values():
        if not isinstance(node, dict):
            continue
        for names in part(node, "x-kubernetes-group-version-kind", list, []):
            if not isinstance(names, dict):
                continue
            has_status = "status" in part(node, "properties", dict, {})
            if paths and has_status:
                has_status = _has_status_path(paths, names)
            named = (part(names, "group", str, ""), part(names, "version", str, None), part(names, "kind", str, None))
            yield KindSchema(*named, node, definitions, has_status)


def _has_status_path(paths, names):
    """Whether the document has a path for the status of the kind; where it has no path of the kind at all, it is taken so."""
    any_path = False
    for path, methods in paths.items():
        for method in methods.values() if isinstance(methods, dict) else []:
            if isinstance(method, dict) and method.get("x-kubernetes-group-version-kind") == names:
                any_path = True
                if path.endswith("/status"):
                    return True
    return not any_path
