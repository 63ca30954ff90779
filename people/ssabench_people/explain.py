"""The word that says what an apply would do, to each field, and what a server would do otherwise."""
from . import engine, servers
from .along import Finder
from .answers import WAYS_OUT, change_parts, object_name, owner_part, print_value, shown_change, shown_value, tell_client_side, who
from .bench import Bench
from .changes import above, topmost
from .commands import asked_with, changed_with, tell_refused, turned_manifests
from .elements import told_paths, way_of
from .migration import migrated
from .ownership import Turning
from .report import Report, counted
from .terminal import say

NOT_PROVED = "a server otherwise (told by this program, and not proved)"


def do_explain(args):
    told, status = [], 0
    for found, status in _each(args):
        if found is None:
            return status
        told.append(found)
        if args.output is None:
            _print(found)
    if args.output:
        print_value({"done": "explain", "manifests": [_in_json(found) for found in told]}, args.output)
    return status


def _each(args):
    """What each manifest of the files would do, with its status, up to the first that is refused."""
    with _copy(args) as bench:
        for manifest in turned_manifests(args, bench):
            found, status = _explained(args, bench, manifest)
            yield found, status
            if status != 0:
                return


def explained_files(args):
    """What each manifest of the files would do; those that are refused for something else than conflicts are told and left out."""
    return [found for found, _ in _each(args) if found is not None]


def _copy(args):
    """The bench in a copy; with --migrate one of its object, whose entries are as after kubectl's migration."""
    bench = Bench(args.bench)
    if not args.migrate:
        return bench.copied()
    live, report = bench.live(), Report()
    value = engine.asked("show", args.bench)["object"]
    entries = migrated(live["metadata"].get("managedFields") or [], args.field_manager, report)
    value["metadata"]["managedFields"] = Turning(bench.root, live, report).entries(entries)
    report.tell()
    return bench.made_of(value)


def _explained(args, bench, manifest):
    """What an apply of a manifest does on the bench, a copy, by force where it is refused without. None where it is refused for
    something else, which is told."""
    conflicts, value, live = [], manifest.value, manifest.live
    status, reply, lines = asked_with(args, bench, manifest, args.force_conflicts)
    if reply is not None and reply.get("fault") == 50:
        conflicts = _conflicts(bench.root, reply["conflicts"], live, value)
        engine_status, reply, lines = asked_with(args, bench, manifest, True)
        status = engine_status or status
    if reply is None or "fault" in reply:
        tell_refused(bench.root, args, reply, lines, manifest)
        return None, status
    part = {"subresource": args.subresource} if args.subresource else {}
    changes = changed_with(args, bench, manifest, reply)
    found = {
        "object": object_name(value),
        "manager": args.field_manager,
        **part,
        "conflicts": conflicts,
        "changes": _of_manifest(changes),
        "server": _otherwise(bench.root, changes, {"status": value.get("status")} if part else value, live),
        "live": live,
    }
    return found, status


def _of_manifest(changes):
    """The changes; of what goes the fields that the applier gave up, each, and what went beside them."""
    removed = changes.compared["removed"]
    given_up = {path: way for path, way in removed.items() if path in changes.own_before}
    higher = above(given_up)
    beside = {path: way for path, way in removed.items() if path not in higher and not _is_under(path, given_up)}
    goes = [changes.valued("removed", *place) | {"what": "given up", "goes": True} for place in topmost(given_up)]
    went = [changes.valued("removed", *place) for place in topmost(beside)]
    return [*changes.values(("added", "modified")), *went, *changes.orders(), *changes.ownership(all_shared=True), *goes]


def _is_under(path, places):
    """Whether a path is one of the places, or stands below one."""
    return any(path[:size] in places for size in range(1, len(path) + 1))


def _conflicts(root, conflicts, live, value):
    is_now, will_be = Finder(root, live), Finder(root, value)
    return [
        {
            "path": texts,
            "way": way,
            "owner": {name: conflict[name] for name in ("manager", "operation", "subresource") if conflict.get(name)},
            "from": is_now.value(tuple(texts)),
            "to": will_be.value(tuple(texts)),
        }
        for conflict in conflicts
        for texts, way in told_paths(root, conflict["fields"])
    ]


def _otherwise(root, changes, value, live):
    """What a server would do otherwise, each with the sentence that tells it. `value` is what counts of the manifest."""
    found = []
    gone = servers.removals(root, changes)
    for path, way in gone:
        keepers = changes.keepers(path)
        of = f"what {', '.join(who(owner) for owner in keepers)} owns there" if keepers else "what nobody owns there"
        found.append({"what": "removes", "path": list(path), "told": f"{way} goes too, with {of}"})
    for path, way in servers.kept(root, changes):
        found.append({"what": "keeps", "path": list(path), "told": f"{way} stays: a list that was applied as empty is nobody's there"})
    for path, way, items in servers.orders(changes, Finder(root, value), {path for path, _ in gone}):
        order = ", ".join(way_of((item,)) for item in items)
        found.append({"what": "orders", "path": list(path), "items": items, "told": f"{way} has the order {order}"})
    for path, way in servers.before_first_apply(live, changes):
        told = f"{way} conflicts with before-first-apply, to whom a server first gives all that is there without managers"
        found.append({"what": "conflicts", "path": list(path), "told": told})
    return found


def _print(found):
    through = f" through {found['subresource']}" if "subresource" in found else ""
    applier = f"an apply by {found['manager']}{through}"
    if found["conflicts"]:
        say((f"{found['object']}: {applier} is refused, {counted(len(found['conflicts']), 'field')} in conflict", "head"))
        for one in found["conflicts"]:
            values = f": {shown_value(one['from'])}, configured as {shown_value(one['to'])}"
            say("  ", ("conflict ", "conflict"), one["way"], values, ", owned by ", owner_part([one["owner"]]))
        tell_client_side([one["owner"] for one in found["conflicts"]], found["live"], found["manager"])
        say("  ", WAYS_OUT)
        say(("by force", "head"))
    else:
        say((f"{found['object']}: {applier} is done", "head"))
    for change in found["changes"]:
        say("  ", *change_parts(change))
    if not found["changes"]:
        say("  nothing changes")
    if found["server"]:
        say((NOT_PROVED, "head"))
    for one in found["server"]:
        say("  ", (f"{one['what']:<10}", "conflict"), one["told"])


def _in_json(found):
    told = {name: found[name] for name in ("object", "manager", "subresource") if name in found}
    told["conflicts"] = [shown_change(one) for one in found["conflicts"]]
    told["changes"] = [shown_change(one) for one in found["changes"]]
    told["notProved"] = {"server": found["server"]}
    return told
