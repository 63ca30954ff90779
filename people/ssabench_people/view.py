"""The word that writes a page: the object with who owns what, its history, and what an apply would do."""
import json
import os
import sys

from . import engine
from .along import Along
from .answers import change_parts, object_name, who
from .bench import Bench
from .changes import sets
from .documents import compact
from .elements import way_of, way_of_name
from .explain import NOT_PROVED, explained_files
from .history import heading, walked
from .refusal import Refusal
from .report import counted, line
from .terminal import plain

MOST_BYTES = 30_000_000  # of all objects of the history together, by the size of the present one
TEMPLATES = os.path.join(os.path.dirname(os.path.realpath(__file__)), "templates")


class Nodes:
    """The trees of a bench's objects, equal parts once.

    A node is a list: its part of the way, its value as a text or None where it is a branch, the numbers of its owners, its
    children's numbers, and whether it is an item of a list.
    """

    def __init__(self, root):
        self.root = root
        self.nodes, self.numbers, self.managers = [], {}, {}
        self.by_name = {}  # of a node that was asked for children: their numbers by their names

    def manager(self, owner):
        return self.managers.setdefault(who(owner), len(self.managers))

    def child(self, number, name):
        """The number of a node's child; None where it has none of the name."""
        if number not in self.by_name:
            self.by_name[number] = {self.nodes[child][0]: child for child in self.nodes[number][3]}
        return self.by_name[number].get(name)

    def tree(self, shown, before=None):
        """The number of an object's root. `before` is the object and the tree before, with what was touched since."""
        owned = [(self.manager(owner), paths) for owner, paths in sets(shown)]
        return self._node(Along(self.root, shown), "", owned, before)

    def _node(self, here, part, owned, before):
        if before is not None and before.stays(here):
            return before.number
        owners = tuple(number for number, paths in owned if here.texts in paths)
        children = here.children()
        if not children and not here.is_nobodys:
            return self._number(part, compact(here.value), owners, (), here)
        found = [(way_of(child.texts[-1:]), child) for child in children]
        found += [(way_of_name(name), value) for name, value in self._plain(here).items()]
        if isinstance(here.value, dict):
            found.sort(key=lambda pair: pair[0])
        numbers = []
        for name, child in found:
            if isinstance(child, Along):
                numbers.append(self._node(child, name, owned, before and before.below(name)))
            else:
                numbers.append(self._number(name, compact(child), (), (), None))
        return self._number(part, None, owners, tuple(numbers), here)

    def _plain(self, here):
        """What stands at the root and in metadata beside the schema's fields."""
        if not here.is_nobodys:
            return {}
        return {name: value for name, value in here.value.items() if name != "managedFields" and here.step(f"f:{name}") is None}

    def _number(self, part, value, owners, children, here):
        is_item = here is not None and bool(here.texts) and here.texts[-1][:2] != "f:"
        node = (part, value, owners, children, int(is_item))
        if node not in self.numbers:
            self.numbers[node] = len(self.nodes)
            self.nodes.append(node)
        return self.numbers[node]


class Before:
    """A part of the tree before a command, for what stays as it was."""

    def __init__(self, nodes, number, changes, touched):
        self.nodes, self.number, self.changes, self.touched = nodes, number, changes, touched

    def stays(self, here):
        if here.texts in self.touched:
            return False
        value = self.changes.before.value(here.texts)
        return value is not None and value == here.value and type(value) is type(here.value)

    def below(self, name):
        number = self.nodes.child(self.number, name)
        return None if number is None else Before(self.nodes, number, self.changes, self.touched)


def touched_by(changes):
    """The places that a command touches, and all above them."""
    paths = {path for ways in changes.compared.values() for path in ways}
    before, after = dict_of(changes.sets_before), dict_of(changes.sets_after)
    for owner in before.keys() | after.keys():
        paths |= before.get(owner, frozenset()) ^ after.get(owner, frozenset())
    return {path[:size] for path in paths for size in range(len(path) + 1)}


def dict_of(owned):
    return {who(owner): paths for owner, paths in owned}


def page_data(bench, args):
    """What the page has to show, as a value of JSON."""
    live = bench.live()
    first, steps = walked(bench, max(1, MOST_BYTES // len(compact(live))))
    log = engine.asked("log", bench.name)
    left_out = len(log["past"]) + len(log["future"]) - len(steps)
    if left_out:
        line(f"{counted(left_out, 'earlier command')} left out: the page would have more than {MOST_BYTES} bytes of objects")
    nodes = Nodes(bench.root)
    states = [nodes.tree(first)]
    told = []
    for step in steps:
        before = Before(nodes, states[-1], step.changes, touched_by(step.changes))
        states.append(nodes.tree(step.changes.after.whole, before))
        told.append({"heading": heading(step), "undone": step.undone, "changes": [_shown(change) for change in step.changes.all()]})
    return {
        "object": object_name(live),
        "managers": list(nodes.managers),
        "nodes": nodes.nodes,
        "states": states,
        "steps": told,
        "leftOut": left_out,
        "present": sum(1 for step in steps if not step.undone),
        "manifests": _manifests(args) if args.files else [],
    }


def _shown(change):
    parts = change_parts(change)
    return {"what": change["what"], "way": change["way"], "told": "".join(plain(part) for part in parts[2:]).lstrip(":, ")}


def _manifests(args):
    found = explained_files(args)
    return [
        {
            "object": one["object"],
            "manager": one["manager"] + (f" through {one['subresource']}" if "subresource" in one else ""),
            "conflicts": [
                {"way": conflict["way"], "owner": who(conflict["owner"]), "from": _text(conflict["from"]), "to": _text(conflict["to"])}
                for conflict in one["conflicts"]
            ],
            "changes": [_shown(change) for change in one["changes"]],
            "server": [told["told"] for told in one["server"]],
        }
        for one in found
    ]


def _text(value):
    return "nothing" if value is None else compact(value)


def do_view(args):
    if sys.stdout.isatty():
        raise Refusal(f"view writes a page, which is no text for a terminal: kubectl-ssabench view {args.bench} > bench.html", 2)
    try:
        import jinja2
    except ImportError as missing:
        raise Refusal("view needs the Python library jinja2: apt-get install python3-jinja2", 3) from missing
    bench = Bench(args.bench)
    data = page_data(bench, args)
    loader = jinja2.FileSystemLoader(TEMPLATES)
    page = jinja2.Environment(loader=loader, autoescape=True, trim_blocks=True, lstrip_blocks=True).get_template("bench.html")
    text = json.dumps(data, ensure_ascii=False, separators=(",", ":")).replace("<", "\\u003c").replace("\u2028", "\\u2028")
    print(page.render(object=data["object"], data=text, not_proved=NOT_PROVED, manifests=data["manifests"]))
    return 0
