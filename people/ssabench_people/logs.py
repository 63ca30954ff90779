"""The history, told: what each command did, who changed one field, and which fields two managers took from each other."""
from .answers import change_parts, owner_part, print_value, shown_change, shown_value, who
from .bench import Bench
from .changes import owner_of, sets
from .along import Finder
from .elements import way_of
from .history import heading, walked
from .refusal import Refusal
from .report import counted
from .terminal import say
from .ways import followed


def do_log(args):
    bench = Bench(args.bench)
    first, steps = walked(bench)
    if args.path is not None:
        return _log_of_path(bench, first, steps, args)
    if args.fights:
        return _log_of_fights(steps, args)
    if args.output:
        told = [step.label | {"changes": [shown_change(one) for one in step.changes.all()]} for step in steps]
        past, future = ([one for one, step in zip(told, steps) if step.undone == undone] for undone in (False, True))
        print_value({"done": "log", "past": past, "future": future}, args.output)
        return 0
    for step in steps:
        say((heading(step), "head"))
        for change in step.changes.all():
            say("  ", *change_parts(change))
    if not steps:
        say("no command yet")
    return 0


def _path_of(bench, first, steps, way):
    """The path that a way leads to in the latest object of the history that has it."""
    refusal = None
    for shown in [*(step.changes.after.whole for step in reversed(steps)), first]:
        try:
            return followed(bench.root, shown, way).texts
        except Refusal as fault:
            refusal = refusal or fault
    raise refusal


def _log_of_path(bench, first, steps, args):
    """Each command that changed a field, or who owns it, with what it was and became."""
    path = _path_of(bench, first, steps, args.path)
    began = {"value": Finder(bench.root, first).value(path), "owners": _owners(first, path)}
    found = [(step, told) for step in steps for told in [_of_path(step, path)] if told]
    if args.output:
        commands = [step.label | ({"undone": True} if step.undone else {}) | told for step, told in found]
        print_value({"done": "log", "path": list(path), "began": _there(began), "commands": commands}, args.output)
        return 0
    say((way_of(path), "head"))
    say("  at first ", _value(began["value"]), ", owned by ", owner_part(began["owners"]))
    for step, told in found:
        value = [_value(told["from"]), " -> ", _value(told["to"])] if told["changed"] else [_value(told["to"])]
        taken = [", taken from ", owner_part(told["takenFrom"])] if told.get("takenFrom") else []
        say("  ", (heading(step), "head"), ": ", *value, *taken, ", owned by ", owner_part(told["owners"]))
    return 0


def _value(value):
    return ("nothing", "nobody") if value is None else shown_value(value)


def _there(told):
    return {name: value for name, value in told.items() if value is not None}


def _owners(shown, path):
    return [owner for owner, paths in sets(shown) if path in paths]


def _of_path(step, path):
    """What a command did to a place; None where it changed neither the value nor who owns it."""
    changes = step.changes
    before, after = (part.value(path) for part in (changes.before, changes.after))
    was, owners = (_owners(part.whole, path) for part in (changes.before, changes.after))
    size = len(path)
    touched = any(one[:size] == path or path[: len(one)] == one for ways in changes.compared.values() for one in ways)
    if not touched and was == owners:
        return None
    taken = changes.losers(path)
    return {"from": before, "to": after, "changed": touched, "owners": owners} | ({"takenFrom": taken} if taken else {})


def fights(steps):
    """The fields that two owners took from each other: by path and the two, the takes in their order. A take is a command by which
    another loses the field, changed, removed or taken as it is, and one that sets again what another removed."""
    takes, removed_by = {}, {}
    for step in steps:
        if step.undone or step.actor is None:
            continue
        changes = step.changes
        removed = changes.compared["removed"]
        for path in sorted(changes.lost() | changes.compared["added"].keys()):
            against = changes.losers(path)
            if path in changes.compared["added"] and removed_by.get(path) not in (None, step.actor):
                against = [*against, removed_by[path]]
            for other in against:
                takes.setdefault((path, _pair(step.actor, other)), []).append((step, other))
        removed_by.update((path, step.actor) for path in removed)
    both = {place: found for place, found in takes.items() if len({who(other) for _, other in found}) == 2}
    return {place: found for place, found in both.items() if not _stands_below(place, both)}


def _pair(*owners):
    return tuple(sorted(who(owner) for owner in owners))


def _stands_below(place, among):
    """Whether a place above this one is told of the same two."""
    path, pair = place
    return any((path[:size], pair) in among for size in range(1, len(path)))


def _log_of_fights(steps, args):
    found = fights(steps)
    if args.output:
        told = [
            {
                "path": list(path),
                "between": [owner_of(other) for other in _both(takes)],
                "takes": [step.label | {"takenFrom": other} for step, other in takes],
            }
            for (path, _), takes in found.items()
        ]
        print_value({"done": "log", "fights": told}, args.output)
        return 0
    for (path, pair), takes in found.items():
        say((way_of(path), "head"), ": ", (" and ".join(pair), "owner"), f", {counted(len(takes), 'time')}")
        for step, other in takes:
            before, after = step.changes.before.value(path), step.changes.after.value(path)
            say("  ", heading(step), ": ", _value(before), " -> ", _value(after), ", taken from ", owner_part([other]))
    if not found:
        say("no field was taken from each other by two managers")
    return 0


def _both(takes):
    """The two owners of a fight, who took first before the other."""
    (step, other) = takes[0]
    return [step.actor, other]
