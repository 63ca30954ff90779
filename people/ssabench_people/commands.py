"""The words that change a bench, and the one that says what an apply would change."""
import contextlib
import datetime
import difflib
from dataclasses import dataclass

from . import engine
from .answers import change_parts, object_name, print_value, shown_change, tell_conflicts, tell_refusal, turned_reply
from .bench import Bench, with_file
from .changes import Changes, acting
from .documents import read_documents, shown_name, to_yaml
from .history import label_line
from .objects import as_taken, identity, tell_beside_status, to_bench_object
from .refusal import Refusal
from .report import Report, counted, line
from .terminal import say


@dataclass
class Manifest:
    """A manifest: the name of its file, what a word takes of it, the same as the bench has it, and the live object that it meets."""

    source: str
    value: dict
    turned: dict
    live: dict


def now():
    return datetime.datetime.now(datetime.timezone.utc).strftime("%Y-%m-%dT%H:%M:%SZ")


def manifests(args, live, report):
    """The manifests of the files that are of the bench's object, each with the name of its file."""
    own = identity(live, args.bench)
    fitting = []
    for source, value in ((source, value) for source in args.files for value in read_documents(source)):
        named = identity(value, source)
        if named[:3] == own[:3] and named[3] in (None, own[3]):
            fitting.append((source, value))
        else:
            line(f"{shown_name(source)}: {value['kind']} {named[2]} is not the bench's object, left out")
    if not fitting:
        sources = ", ".join(shown_name(source) for source in args.files)
        raise Refusal(f"{sources}: nothing for {own[1]} {own[2]}{' in ' + own[3] if own[3] else ''} at {own[0]}")
    for source, value in fitting:
        if own[3] and not value["metadata"].get("namespace"):
            report.add(".metadata.namespace", f"the bench's, {own[3]}, filled in", "filled")
            value = {**value, "metadata": {**value["metadata"], "namespace": own[3]}}
        yield source, value


def turned_manifests(args, bench):
    """Each manifest of the files. What is not as it was is told before each."""
    live, report = bench.live(), Report()
    takes_status = args.subresource == "status" or bench.root.plain_status
    for number, (source, given) in enumerate(list(manifests(args, live, report))):
        if number > 0:
            live, report = bench.live(), Report()
        replaces = args.does == "update"
        value = as_taken(given, live, replaces, takes_status, report)
        if args.subresource:
            tell_beside_status(value, live, replaces, report)
        turned, _ = to_bench_object(bench.root, value, report)
        if value["metadata"].get("managedFields") is not None:
            turned["metadata"]["managedFields"] = value["metadata"]["managedFields"]
        report.tell(without=("text", "whole"))
        yield Manifest(source, value, turned, live)


def asked_with(args, bench, manifest, force):
    """What the proved program answers to a word with a manifest: the status, the reply and its lines."""
    options = ["--at", args.at or now(), "--field-manager", args.field_manager]
    options += ["--subresource", args.subresource] if args.subresource else []
    options += ["--force-conflicts"] if force else []
    source = shown_name(manifest.source)
    return with_file(manifest.turned, source, lambda name: engine.called(args.does, bench.name, name, *options))


def changed_with(args, bench, manifest, reply):
    """What a manifest changed on the bench."""
    part = {"subresource": args.subresource} if args.subresource else {}
    actor = acting({"do": args.does, "manager": args.field_manager} | part)
    return Changes(bench.root, manifest.live, bench.live(), actor, reply, bench.last_reordered())


def carried_out(args, bench, after):
    """Does a word with each manifest of its files, up to the first that is refused. Gives that one's status, else 0; `after` is
    called with each manifest and its reply."""
    for manifest in turned_manifests(args, bench):
        status, reply, lines = asked_with(args, bench, manifest, args.does == "apply" and args.force_conflicts)
        if status != 0:
            if args.output in ("json", "yaml") and reply is not None:
                print_value(turned_reply(bench.root, reply), args.output)
            tell_refused(bench.root, args, reply, lines, manifest)
            return status
        after(manifest, reply)
    return 0


def tell_refused(root, args, reply, lines, manifest):
    if reply is not None and reply["fault"] == 50:
        tell_conflicts(root, reply["conflicts"], manifest.live, manifest.value, args.field_manager)
    else:
        tell_refusal(root, manifest.source, reply, lines)


def _target(args):
    """The bench that a word is done on: a copy, where nothing is to change."""
    bench = Bench(args.bench)
    return bench.copied() if args.dry_run == "server" else contextlib.nullcontext(bench)


def do_command(args):
    """Apply or update."""
    with _target(args) as bench:

        def after(manifest, reply):
            name = object_name(manifest.value)
            if args.output == "name":
                print(name)
                return
            changes = changed_with(args, bench, manifest, reply).all()
            if args.output:
                print_value(turned_reply(bench.root, reply) | {"changes": [shown_change(one) for one in changes]}, args.output)
                return
            say(f"{name} {'serverside-applied' if args.does == 'apply' else 'replaced'}{dry(args)}")
            for change in changes:
                say("  ", *change_parts(change))

        return carried_out(args, bench, after)


def dry(args):
    return " (server dry run)" if args.dry_run == "server" else ""


def do_diff(args):
    """What an apply would change, as YAML: status 0 nothing, 1 something, 2 where it is refused, as kubectl has it."""
    form, args.output = args.output, None
    with Bench(args.bench).copied() as bench:
        before = bench.live()
        status = carried_out(args, bench, lambda manifest, reply: None)
        if status != 0:
            return max(status, 2)
        shown = [_lines(value, args.show_managed_fields) for value in (before, bench.live())]
    told = list(difflib.unified_diff(*shown, "live", "applied", lineterm=""))
    if form:
        print_value({"done": "diff", "lines": told}, form)
        return 1 if told else 0
    for one in told:
        say((one, {"-": "removed", "+": "added", "@": "owner"}.get(one[0], "")))
    return 1 if told else 0


def _lines(value, managed):
    metadata = {name: part for name, part in value["metadata"].items() if managed or name != "managedFields"}
    return to_yaml({**value, "metadata": metadata}).splitlines()


def do_strip(args):
    with _target(args) as bench:
        status, reply, lines = engine.called("strip", bench.name)
        if args.output and reply is not None:
            print_value(turned_reply(bench.root, reply), args.output)
        if status != 0:
            tell_refusal(bench.root, args.bench, reply, lines)
        elif not args.output:
            print(f"stripped: nobody owns anything{dry(args)}")
        return status


def do_turn(args):
    """Undo and redo, with the command that was undone or redone."""
    bench = Bench(args.bench)
    status, reply, lines = engine.called(args.does, bench.name)
    if status != 0:
        if args.output and reply is not None:
            print_value(reply, args.output)
        tell_refusal(bench.root, args.bench, reply, lines)
        return status
    log = engine.asked("log", bench.name)
    label = log["future"][0] if args.does == "undo" else log["past"][-1]
    if args.output:
        print_value(reply | {"command": label}, args.output)
    else:
        print(f"{args.does}ne: {label_line(label)}; {counted(reply['past'], 'command')} can be undone, {reply['future']} redone")
    return 0
