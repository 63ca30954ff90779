"""Kinds out of Go's types, as the API conventions write them: structs with JSON tags, and markers in comments.

`kinds(folder, packages)` reads the types of packages below a folder of Go sources, and gives each kind with its schema: scalars,
lists, maps and structs as their tags say, the list types and keys of markers, the strategies of patches of tags.
"""
import glob
import os
import re

STRUCT = re.compile(r"^type (\w+) struct \{\n(.*?)^\}", re.MULTILINE | re.DOTALL)
NAMED = re.compile(r"^type (\w+) ([\w.\[\]*]+)$", re.MULTILINE)
GROUPED = re.compile(r"^type \(\n(.*?)^\)", re.MULTILINE | re.DOTALL)
IMPORT = re.compile(r'^\s*(?:import )?(\w+)? ?"([\w./-]+)"$', re.MULTILINE)
FIELD = re.compile(r"^\t(?:(\w+)\s+)?([\w.\[\]*]+)\s+`([^`]*)`")
TAG = re.compile(r'(\w+):"([^"]*)"')
MARKER = re.compile(r"^\s*//\s*\+(listType|listMapKey|mapType|structType)=(\w+)")
SCALARS = {
    "string": "string", "bool": "boolean", "float32": "number", "float64": "number",
    **{name: "integer" for name in ("int", "int8", "int16", "int32", "int64", "uint", "uint8", "uint16", "uint32", "uint64", "byte")},
}  # fmt: skip
META = "k8s.io/apimachinery/pkg/apis/meta/v1"
KNOWN = {
    "time.Duration": {"type": "integer"},
    f"{META}.Time": {"type": "string", "format": "date-time"},
    f"{META}.MicroTime": {"type": "string"},
    f"{META}.Duration": {"type": "string"},
    f"{META}.FieldsV1": {"type": "object"},
    f"{META}.ObjectMeta": {"type": "object"},
    "k8s.io/apimachinery/pkg/util/intstr.IntOrString": {"x-kubernetes-int-or-string": True},
    "k8s.io/apimachinery/pkg/api/resource.Quantity": {"oneOf": [{"type": "string"}, {"type": "number"}]},
    "k8s.io/apimachinery/pkg/runtime.RawExtension": {"type": "object", "x-kubernetes-preserve-unknown-fields": True},
    "k8s.io/apimachinery/pkg/runtime.Object": {"type": "object", "x-kubernetes-preserve-unknown-fields": True},
}


class Package:
    """The types of one package."""

    def __init__(self, folder, name):
        self.name, self.structs, self.named, self.imports, self.group = name, {}, {}, {}, None
        for path in sorted(glob.glob(os.path.join(folder, name, "*.go"))):
            if path.endswith("_test.go"):
                continue
            with open(path, encoding="utf-8") as file:
                text = file.read()
            found = re.search(r'GroupName\s*=\s*"([\w.-]+)"', text)
            self.group = found.group(1) if found else self.group
            if os.path.basename(path).startswith(("zz_", "generated")):
                continue
            head = text.partition("\ntype ")[0]
            self.imports |= {alias or path.rpartition("/")[2]: path for alias, path in IMPORT.findall(head)}
            self.structs |= dict(STRUCT.findall(text))
            self.named |= dict(NAMED.findall(text))


class Sources:
    """Packages below a folder, read when they are asked for, and the schemas of their types as definitions."""

    def __init__(self, folder):
        self.folder, self.packages, self.definitions = folder, {}, {}

    def package(self, name):
        if name not in self.packages:
            self.packages[name] = Package(self.folder, name)
        return self.packages[name]

    def schema(self, package, kind):
        """The schema of a type as a field of a package's struct writes it."""
        if kind.startswith("*"):
            return self.schema(package, kind[1:])
        if kind in ("[]byte", "[]uint8"):
            return {"type": "string"}
        if kind.startswith("[]"):
            return {"type": "array", "items": self.schema(package, kind[2:])}
        found = re.match(r"map\[[\w.]+\](.+)", kind)
        if found:
            return {"type": "object", "additionalProperties": self.schema(package, found.group(1))}
        if kind in SCALARS:
            return {"type": SCALARS[kind]}
        alias, _, name = kind.rpartition(".")
        return self.of_type(self.package(package.imports[alias]) if alias else package, name)

    def of_type(self, package, name):
        """The schema of a named type: a reference to its definition, where it is a struct."""
        full = f"{package.name}.{name}"
        if full in KNOWN:
            return KNOWN[full]
        if name in package.structs:
            if full not in self.definitions:
                self.definitions[full] = {}
                self.definitions[full] |= self.struct(package, package.structs[name])
            return {"$ref": f"#/{full.replace('/', '.')}"}
        if name in package.named:
            return self.schema(package, package.named[name])
        raise KeyError(f"{full} is no type that was found")

    def struct(self, package, text):
        properties, markers = {}, {}
        for line in text.splitlines():
            marked = MARKER.match(line)
            if marked:
                markers.setdefault(marked.group(1), []).append(marked.group(2))
                continue
            found = FIELD.match(line)
            if found:
                self.field(package, properties, markers, *found.groups())
            if found or not line.strip().startswith("//"):
                markers = {}
        return {"type": "object", "properties": properties}

    def field(self, package, properties, markers, name, kind, tags):
        tags = dict(TAG.findall(tags))
        json_name, *options = tags.get("json", "").split(",")
        if json_name == "-" or kind.endswith("TypeMeta"):
            return
        if "inline" in options or name is None and not json_name:
            inner, _ = self._opened(self.schema(package, kind))
            properties |= inner.get("properties", {})
            return
        node = dict(self.schema(package, kind))
        if "listType" in markers:
            node["x-kubernetes-list-type"] = markers["listType"][0]
        if "listMapKey" in markers:
            node["x-kubernetes-list-map-keys"] = markers["listMapKey"]
        if "atomic" in (*markers.get("mapType", ()), *markers.get("structType", ())):
            node["x-kubernetes-map-type"] = "atomic"
        for tag, keyword in (("patchStrategy", "x-kubernetes-patch-strategy"), ("patchMergeKey", "x-kubernetes-patch-merge-key")):
            if tag in tags:
                node[keyword] = tags[tag]
        properties[json_name or name] = node

    def _opened(self, node):
        full = node.get("$ref", "#/")[2:]
        return next(((one, name) for name, one in self.definitions.items() if name.replace("/", ".") == full), (node, None))


def kinds(folder, packages):
    """Each kind of packages: its group, version and kind, with the definitions that its schema stands in, under its own name."""
    sources = Sources(folder)
    for name in packages:
        package = sources.package(name)
        for kind, text in package.structs.items():
            if "metav1.TypeMeta" in text and "metav1.ObjectMeta" in text and package.group:
                names = {"group": package.group, "version": name.rpartition("/")[2], "kind": kind}
                sources.of_type(package, kind)
                yield names, f"{name}.{kind}".replace("/", "."), sources
