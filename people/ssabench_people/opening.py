"""The word that makes a bench of a schema and an object."""
import os

from .answers import object_name, print_value, tell_refusal
from .bench import make
from .documents import read_documents, shown_name
from .migration import migrated
from .objects import identity, tell_kept, to_bench_object, without_repeats
from .ownership import Turning
from .places import root_of
from .refusal import Refusal
from .report import Report, counted, line
from .schemas import found


def the_object(documents, name, kind):
    """The one object of a file, of the kind where one is named."""
    fitting = [value for value in documents if kind is None or isinstance(value, dict) and value.get("kind") == kind]
    if len(fitting) != 1:
        of_kind = f" of the kind {kind}" if kind else ""
        raise Refusal(f"{shown_name(name)}: {len(fitting)} objects{of_kind}; a bench is made of one")
    identity(fitting[0], name)
    return fitting[0]


def wanted_schema(args, value, report):
    """Which schema is asked for: by the words, else as the object says."""
    group, _, version = value["apiVersion"].rpartition("/")
    if args.version and args.version != version:
        if not args.same_schema:
            raise Refusal(f"the object is at {value['apiVersion']}, not at {args.version}; --same-schema takes it so")
        report.add("the object", f"at {value['apiVersion']}, taken as of the schema of {args.version}", "moved")
    return {"kind": args.kind or value["kind"], "group": group, "version": args.version or version}


def do_open(args):
    if os.path.lexists(args.bench) and not args.force:
        raise Refusal(f"{args.bench} is there; --force replaces it, with its history")
    report = Report(leaves_out=True)
    source = shown_name(args.file)
    value = the_object(read_documents(args.file), args.file, args.kind)
    schemas = [document for name in args.schema for document in read_documents(name)]
    schema = found(schemas, ", ".join(shown_name(name) for name in args.schema), wanted_schema(args, value, report))
    root = root_of(schema)
    if args.drop:
        value = without_repeats(root, value, "", report)
    turned, kept = to_bench_object(root, value, report)
    tell_kept(kept, report)
    entries = value["metadata"].get("managedFields") or []
    if not isinstance(entries, list):
        raise Refusal(f"{source}: .metadata.managedFields is no list")
    if args.migrate:
        entries = migrated(entries, args.field_manager, report)
    turning = Turning(root, value, report, args.same_schema)
    turned["metadata"]["managedFields"] = turning.entries(entries)
    report.tell()
    if report.losses and not args.drop:
        line("no bench was made: --drop makes it without what is left out")
        return 1
    status, reply, lines = make(args.bench, root, turned, kept, source)
    if status != 0:
        tell_refusal(root, args.file, reply, lines)
        return status
    if args.output:
        print_value({"done": "open", "object": object_name(value)} | {name: reply[name] for name in ("managers", "paths")}, args.output)
        return 0
    print(f"{object_name(value)} opened: {counted(reply['managers'], 'manager')}, {counted(reply['paths'], 'path')}")
    return 0
