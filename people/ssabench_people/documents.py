"""Documents in YAML and JSON, read as `kubectl` reads them, and the one compact spelling of a value.

Plain words in YAML mean what Kubernetes' own reader makes of them: no dates, no numbers to the base of 60, an exponent without a
point is a number, and `y`, `on` and their like are truth values.
"""
import json
import math
import re
import sys

import yaml

from .refusal import Refusal

LEAST, MOST = -(2**63), 2**63 - 1


class Loader(getattr(yaml, "CSafeLoader", yaml.SafeLoader)):
    """A reader of YAML that resolves plain words as Kubernetes does, and takes names of members as texts."""

    yaml_implicit_resolvers = {}

    def construct_mapping(self, node, deep=False):
        self.flatten_mapping(node)
        return {_name(self.construct_object(name, deep=True)): self.construct_object(part, deep=deep) for name, part in node.value}


Loader.add_implicit_resolver("tag:yaml.org,2002:null", re.compile(r"^(?:~|null|Null|NULL|)$"), ["~", "n", "N", ""])
Loader.add_implicit_resolver(
    "tag:yaml.org,2002:bool",
    re.compile(r"^(?:y|Y|yes|Yes|YES|n|N|no|No|NO|true|True|TRUE|false|False|FALSE|on|On|ON|off|Off|OFF)$"),
    list("yYnNtTfFoO"),
)
Loader.add_implicit_resolver(
    "tag:yaml.org,2002:int",
    re.compile(r"^[-+]?(?:0b[01_]+|0x[0-9a-fA-F_]+|0o?[0-7_]+|0|[1-9][0-9_]*)$"),
    list("-+0123456789"),
)
Loader.add_implicit_resolver(
    "tag:yaml.org,2002:float",
    re.compile(r"^(?:[-+]?(?:\.[0-9]+|[0-9][0-9_]*(?:\.[0-9_]*)?)(?:[eE][-+]?[0-9]+)?|[-+]?\.(?:inf|Inf|INF)|\.(?:nan|NaN|NAN))$"),
    list("-+.0123456789"),
)
Loader.add_implicit_resolver("tag:yaml.org,2002:merge", re.compile(r"^<<$"), ["<"])


def _truth(loader, node):
    return loader.construct_scalar(node).lower() in ("y", "yes", "true", "on")


def _whole(loader, node):
    text = loader.construct_scalar(node).replace("_", "")
    digits = text.lstrip("+-")
    if digits.startswith("0") and digits[1:2].isdigit():
        return int(text.replace(digits, "0o" + digits[1:]), 8)
    return int(text, 0)


def _fraction(loader, node):
    return float(loader.construct_scalar(node).replace("_", "").replace(".inf", "inf").replace(".nan", "nan"))


Loader.add_constructor("tag:yaml.org,2002:bool", _truth)
Loader.add_constructor("tag:yaml.org,2002:int", _whole)
Loader.add_constructor("tag:yaml.org,2002:float", _fraction)


def tidy(value):
    """The value with texts as names of members, and each number in its one spelling: a whole one of 64 bits where it is one."""
    if isinstance(value, dict):
        return {_name(name): tidy(member) for name, member in value.items()}
    if isinstance(value, (list, tuple)):
        return [tidy(item) for item in value]
    if isinstance(value, str):
        return _text_of(value)
    if value is None or isinstance(value, bool):
        return value
    if isinstance(value, int):
        return value if LEAST <= value <= MOST else tidy(float(value))
    if isinstance(value, float):
        if not math.isfinite(value):
            raise Refusal(f"{value} is no number of JSON")
        if value.is_integer() and LEAST <= value <= MOST and int(value) == value:
            return int(value)
        return value
    raise Refusal(f"a value of the type {type(value).__name__} has no JSON")


def _text_of(text):
    if not text.isascii():
        try:
            text.encode("utf-8")
        except UnicodeEncodeError as fault:
            raise Refusal("a text with half a pair of surrogates has no UTF-8") from fault
    return text


def _name(name):
    if isinstance(name, str):
        return _text_of(name)
    if isinstance(name, bool):
        return "true" if name else "false"
    if isinstance(name, (int, float)):
        return compact(tidy(name))
    raise Refusal(f"{name!r} can't name a member")


_ENCODER = json.JSONEncoder(ensure_ascii=False, separators=(",", ":"), sort_keys=True)


def compact(value):
    """The one compact spelling of a tidy value: no spaces, members in the order of their names."""
    return _ENCODER.encode(value)


def _no_constant(text):
    raise ValueError(f"{text} is no number of JSON")


_DECODER = json.JSONDecoder(parse_constant=_no_constant)


def parse_json(text):
    """The tidy value of a JSON text. Raises ValueError."""
    return tidy(_DECODER.decode(text))


def shown_name(name):
    """A file's name in a line for people."""
    return "standard input" if name == "-" else name


def parse_documents(text, name):
    """The documents of a text in JSON or YAML, without empty ones; a `List` gives its items."""
    try:
        found = [parse_json(text)]
    except (ValueError, OverflowError, RecursionError):
        try:
            found = [tidy(document) for document in yaml.load_all(text, Loader=Loader)]
        except (yaml.YAMLError, ValueError, RecursionError) as fault:
            mark = getattr(fault, "problem_mark", None)
            where = f" at line {mark.line + 1}, column {mark.column + 1}" if mark else ""
            raise Refusal(f"{shown_name(name)}: neither JSON nor YAML{where}") from fault
    return [item for document in found if document is not None for item in _items(document)]


def _items(document):
    if isinstance(document, dict) and str(document.get("kind", "")).endswith("List") and isinstance(document.get("items"), list):
        return document["items"]
    return [document]


def read_text(name):
    """The text of a file, or of standard input where the name is `-`."""
    try:
        if name == "-":
            return sys.stdin.buffer.read().decode("utf-8")
        with open(name, "rb") as file:
            return file.read().decode("utf-8")
    except OSError as fault:
        raise Refusal(f"cannot read {name}", 3) from fault
    except UnicodeDecodeError as fault:
        raise Refusal(f"{shown_name(name)}: not UTF-8") from fault


def read_documents(name):
    return parse_documents(read_text(name), name)


class Dumper(getattr(yaml, "CSafeDumper", yaml.SafeDumper)):
    """A writer of YAML whose plain words no reader takes for something else."""

    def ignore_aliases(self, data):
        return True


def _text(dumper, text):
    readers = (Loader.yaml_implicit_resolvers, yaml.SafeLoader.yaml_implicit_resolvers)
    quoted = any(pattern.match(text) for reader in readers for _, pattern in reader.get(text[:1], []))
    style = "|" if "\n" in text else '"' if quoted else None
    return dumper.represent_scalar("tag:yaml.org,2002:str", text, style=style)


Dumper.add_representer(str, _text)


def to_yaml(value):
    return yaml.dump(value, Dumper=Dumper, allow_unicode=True, default_flow_style=False, width=1000, sort_keys=True)
