"""The kinds and CustomResourceDefinitions that Debian's packages carry."""
import glob
import importlib
import json
import os
import re
import sys

import beside  # noqa: F401
import go_types
from packages import gocode, root
from ssabench_people.documents import parse_documents

OPENAPI = (  # documents as a cluster gives them, of 1.3x
    "k8s.io/client-go/openapi/openapitest/testdata/api__v1_openapi.json",
    "k8s.io/client-go/openapi/openapitest/testdata/apis__apps__v1_openapi.json",
    "k8s.io/client-go/openapi/openapitest/testdata/apis__batch__v1_openapi.json",
    "k8s.io/client-go/openapi/openapitest/testdata/apis__discovery.k8s.io__v1_openapi.json",
    "k8s.io/client-go/openapi/openapitest/testdata/apis__networking.k8s.io__v1alpha1_openapi.json",
    "k8s.io/kubectl/testdata/openapi/v3/apis/autoscaling/v1.json",
    "k8s.io/kubectl/testdata/openapi/v3/apis/autoscaling/v2.json",
    "k8s.io/kube-openapi/pkg/util/proto/testdata/openapi_v3_0_0/apiextensions.k8s.io/v1.json",
    "k8s.io/kube-openapi/pkg/util/proto/testdata/openapi_v3_0_0/batch/v1beta1.json",
)
SWAGGER = "k8s.io/kubectl/testdata/openapi/swagger.json"


def read(path):
    with open(path, encoding="utf-8") as file:
        return parse_documents(file.read(), path)


def kinds_of(document):
    """The kinds of an OpenAPI document that are objects: names with the definition's node."""
    definitions = (document.get("components") or {}).get("schemas") or document["definitions"]
    for node in definitions.values():
        names = node.get("x-kubernetes-group-version-kind") or []
        metadata = (node.get("properties") or {}).get("metadata")
        if len(names) == 1 and metadata and "ObjectMeta" in json.dumps(metadata):
            yield names[0], node, definitions


def definitions():
    """Each CustomResourceDefinition as its label, the documents that say it, and its group, version and kind."""
    for path in sorted(glob.glob(gocode("k8s.io/kube-openapi/pkg/schemaconv/testdata/crds/openapiv3/*.json"))):
        documents = read(path)
        for names, _, _ in kinds_of(documents[0]):
            yield f"Config Connector {names['kind']}", documents, names
    yield from _of_files()
    yield from _of_rook()
    yield from _of_calico()
    yield from _of_cue()
    yield from _of_openshift()


def _of_files():
    for path in (
        "k8s.io/kubectl/testdata/apply/applysets-crd.yaml",
        "sigs.k8s.io/structured-merge-diff/internal/testdata/prometheus-crd.yaml",
        "k8s.io/apiextensions-apiserver/pkg/test/example/apiexports_crd.yaml",
    ):
        yield _defined("", read(gocode(path))[0])


def _defined(label, document):
    """A definition with its first version."""
    spec = document["spec"]
    version = spec["versions"][0]["name"] if "versions" in spec else spec["version"]
    names = {"group": spec["group"], "version": version, "kind": spec["names"]["kind"]}
    return f"{label} {names['kind']}".lstrip(), [document], names


def _is_definition(document):
    return isinstance(document, dict) and document.get("kind") == "CustomResourceDefinition"


def _of_calico():
    """Calico's definitions of two releases, out of the scripts by which OpenStack's Magnum writes them to a file."""
    folder = os.path.join(root(), "usr/lib/python3/dist-packages/magnum/drivers/common/templates/kubernetes/fragments")
    for path in sorted(glob.glob(f"{folder}/calico-service*.sh")):
        with open(path, encoding="utf-8") as file:
            for written in re.findall(r"<< EOF > .*?\n(.*?)^EOF$", file.read(), re.MULTILINE | re.DOTALL):
                parts = [re.sub(r"\\([$`\\])", r"\1", part) for part in re.split(r"^---.*$", written, flags=re.MULTILINE)]
                texts = [part for part in parts if "kind: CustomResourceDefinition" in part]
                for document in (one for text in texts for one in parse_documents(text, path) if _is_definition(one)):
                    yield _defined(f"Calico ({os.path.basename(path)})", document)


def _of_cue():
    """The definitions in the tests of CUE, but for those that a server refuses for their references."""
    for path in sorted(glob.glob(gocode("cuelang.org/go/**/*crd*.txtar"), recursive=True)):
        with open(path, encoding="utf-8") as file:
            parts = re.split(r"^-- (\S+) --$", file.read(), flags=re.MULTILINE)
        for name, text in zip(parts[1::2], parts[2::2]):
            if name.endswith((".yaml", ".yml", ".json")) and "CustomResourceDefinition" in text and "$ref" not in text and "errors" not in path:
                for document in filter(_is_definition, parse_documents(text, path)):
                    yield _defined(f"CUE ({os.path.basename(path)})", document)


OPENSHIFT = {  # of OpenShift's kinds those that its clusters have as definitions; None: all of the group
    "config/v1": None,
    "operator/v1": None,
    "network/v1": None,
    "quota/v1": ("ClusterResourceQuota",),
    "security/v1": ("SecurityContextConstraints",),
    "authorization/v1": ("RoleBindingRestriction",),
    "servicecertsigner/v1alpha1": None,
}


OPENSHIFT_SERVER = ("apps/v1", "authorization/v1", "build/v1", "image/v1", "oauth/v1", "project/v1", "quota/v1", "route/v1", "security/v1", "template/v1", "user/v1")  # fmt: skip


def _openshift(packages):
    """The kinds of packages of OpenShift's API, made again of its Go types; each with its package's name."""
    chosen = {f"github.com/openshift/api/{name}": name for name in packages}
    for names, name, sources in go_types.kinds(gocode(), list(chosen)):
        package = next(chosen[one] for one in chosen if name.startswith(one.replace("/", ".") + "."))
        nodes = {full.replace("/", "."): node for full, node in sources.definitions.items()}
        nodes[name] = {**nodes[name], "x-kubernetes-group-version-kind": [names]}
        yield package, f"OpenShift {names['kind']}", [{"openapi": "3.0.0", "components": {"schemas": nodes}}], names


def _of_openshift():
    """The kinds that OpenShift's clusters have as definitions."""
    for package, label, documents, names in _openshift(OPENSHIFT):
        if names["kind"] != "MyOperatorResource" and names["kind"] in (OPENSHIFT[package] or (names["kind"],)):
            yield label, documents, names


def of_openshifts_server():
    """The kinds that a server of OpenShift's own has."""
    for package, label, documents, names in _openshift(OPENSHIFT_SERVER):
        if names["kind"] not in OPENSHIFT.get(package, ()):
            yield label, documents, names


def _of_rook():
    """Rook's definitions, made again of the classes that were generated of them."""
    folder = os.path.join(root(), "usr/share/ceph/mgr/rook")
    sys.path.insert(0, folder)
    try:
        for path in sorted(glob.glob(f"{folder}/rook_client/ceph/*.py")):
            module = importlib.import_module("rook_client.ceph." + os.path.basename(path)[:-3])
            base = getattr(module, "CrdClass", None)
            for kind in [one for one in vars(module).values() if base and isinstance(one, type) and issubclass(one, base)]:
                if kind is not base:
                    yield _rook_definition(module, kind)
    finally:
        sys.path.remove(folder)


def _rook_definition(module, kind):
    schema = _rook_object(module, kind)
    for name in ("apiVersion", "kind", "metadata"):
        schema["properties"].pop(name, None)
    names = {"group": "ceph.rook.io", "version": "v1", "kind": kind.__name__}
    spec = {"group": names["group"], "names": {"kind": kind.__name__}, "versions": [{"name": "v1", "schema": {"openAPIV3Schema": schema}}]}
    return f"Rook {kind.__name__}", [{"kind": "CustomResourceDefinition", "spec": spec}], names


def _rook_object(module, one, above=()):
    """A class's schema. Where a name leads back to a class above, as names that were generated twice do, it takes anything."""
    if one in above:
        return {"x-kubernetes-preserve-unknown-fields": True}
    within = (*above, one)
    return {"type": "object", "properties": {name: _rook_type(module, kind, within) for name, _, kind, _, _ in one._properties}}


def _rook_type(module, kind, above):
    if isinstance(kind, str):
        kind = getattr(module, kind)
    if not isinstance(kind, type):
        return {"x-kubernetes-preserve-unknown-fields": True}
    if issubclass(kind, module.CrdObject):
        return _rook_object(module, kind, above)
    if issubclass(kind, module.CrdObjectList):
        return {"type": "array", "items": _rook_type(module, kind._items_type or object, above)}
    scalar = {str: "string", int: "integer", bool: "boolean", float: "number"}.get(kind)
    return {"type": scalar} if scalar else {"x-kubernetes-preserve-unknown-fields": True}


def test_objects():
    """The filled objects of `k8s.io/api`, by group, version and kind as the files are named."""
    found = {}
    for path in sorted(glob.glob(gocode("k8s.io/api/testdata/HEAD/*.json"))):
        group, version, kind = re.fullmatch(r"(.*)\.([^.]+)\.([^.]+)\.json", os.path.basename(path)).groups()
        found[group.split(".")[0], version, kind] = read(path)[0]
    return found
