"""The words that look at a bench: the object, and who owns what. `logs` has the one that tells the history."""
import difflib

from . import engine
from .along import Along
from .answers import object_name, owner_part, print_value, shown_value, who
from .bench import Bench
from .changes import sets
from .documents import compact
from .elements import way_of
from .refusal import Refusal
from .report import counted, line
from .terminal import say, table
from .ways import followed


def do_show(args):
    shown = Bench(args.bench).live()
    if args.output == "name":
        print(object_name(shown))
        return 0
    if not args.show_managed_fields:
        shown["metadata"].pop("managedFields", None)
    print_value(shown, args.output or "yaml")
    return 0


def do_owners(args):
    if args.path is not None and (args.manager is not None or args.ways):
        raise Refusal("--manager and --ways are of all fields: they take no PATH", 2)
    bench = Bench(args.bench)
    live = bench.live()
    if args.path is None:
        return _all_owners(bench, live, args)
    here = followed(bench.root, live, args.path)
    owners = [] if here.is_nobodys else engine.asked("owners", args.bench, compact(here.path))["owners"]
    below = _owned_below(live, here.texts)
    if args.output:
        counts = [{"owner": owner, "fields": count} for owner, count in below]
        print_value({"done": "owners", "path": list(here.texts), "owners": owners} | ({"below": counts} if below else {}), args.output)
        return 0
    for owner in owners:
        say((who(owner), "owner"))
    for owner, count in below:
        say((who(owner), "owner"), f": {counted(count, 'field')} below")
    if not owners and not below:
        say(("nobody", "nobody"))
    return 0


def _owned_below(live, texts):
    """Each owner of something below a path, with how many places."""
    counts = [(owner, sum(1 for path in paths if path[: len(texts)] == texts and len(path) > len(texts))) for owner, paths in sets(live)]
    return [(owner, count) for owner, count in counts if count]


class Row:
    """A line of the tree: a place, what is below it, and who owns it."""

    def __init__(self, here, depth, owned):
        self.here = here
        self.depth = depth
        self.owners = [owner for owner, paths in owned if here.texts in paths]
        self.below = here.children()

    @property
    def is_leaf(self):
        return not self.below

    def is_of(self, manager):
        return any(owner["manager"] == manager for owner in self.owners)


def _rows(here, depth, owned):
    row = Row(here, depth, owned)
    if not here.is_nobodys or row.below:
        yield row
    for child in row.below:
        yield from _rows(child, depth + 1, owned)


def _all_owners(bench, live, args):
    """The object as a tree, or each field by its way: its value, and who owns it."""
    rows = list(_rows(Along(bench.root, live), -1, sets(live)))[1:]
    if args.manager is not None:
        _tell_unknown(live, args.manager)
        rows = _of_manager(rows, args.manager)
    told = [row for row in rows if (row.is_leaf or row.owners) and (args.manager is None or row.is_of(args.manager))]
    if args.output:
        print_value({"done": "owners", "fields": [_told(row) for row in told]}, args.output)
    elif args.ways:
        table([(row.here.way, *_cells(row)) for row in told])
    else:
        table([("  " * row.depth + way_of(row.here.texts[-1:]).removeprefix("."), *_cells(row)) for row in rows])
    return 0


def _tell_unknown(live, manager):
    """Says of a manager that owns nothing that it does, and who else may be meant."""
    names = list(dict.fromkeys(owner["manager"] for owner, _ in sets(live)))
    if manager not in names:
        near = difflib.get_close_matches(manager, names, n=1)
        line(f"{manager} owns nothing{'; ' + near[0] + '?' if near else ''}")


def _of_manager(rows, manager):
    """The rows that a manager owns, and those above them."""
    kept, depth = [], 0
    for row in reversed(rows):
        if row.is_of(manager) or row.depth < depth:
            kept.append(row)
            depth = row.depth
    return kept[::-1]


def _told(row):
    value = {"value": row.here.value} if row.is_leaf else {}
    return {"path": list(row.here.texts), "owners": row.owners} | value


def _cells(row):
    value = shown_value(row.here.value) if row.is_leaf else ""
    return value, (owner_part(row.owners) if row.owners or row.is_leaf else "")
