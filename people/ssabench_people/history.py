"""A walk over a bench's history, on copies of it: each command with what it changed."""
from dataclasses import dataclass

from . import engine
from .changes import Changes, acting
from .refusal import Refusal

WALKER = {"at": "2000-01-01T00:00:00Z", "do": "update", "manager": "walk"}


@dataclass
class Step:
    """A command of the history: its label, whether it was undone, and its changes."""

    label: dict
    undone: bool
    changes: Changes

    @property
    def actor(self):
        return self.changes.actor


def label_line(label):
    """A command in a line: when, what, by whom."""
    by = f" by {label['manager']}" if "manager" in label else ""
    by += f" through {label['subresource']}" if "subresource" in label else ""
    forced = ", by force" if label.get("force") else ""
    return f"{label.get('at', '')} {label['do']}{by}{forced}".lstrip()


def heading(step):
    """A step in a line."""
    return label_line(step.label) + (" (undone)" if step.undone else "")


def walked(bench, most=None):
    """The first object of a bench's history, and its commands from the first to the last, the undone ones among them; with `most`
    so many of the latest commands, and the object before them."""
    log = engine.asked("log", bench.name)
    labels = log["past"] + log["future"]
    left_out = max(0, len(labels) - most) if most is not None else 0
    done, labels = len(log["past"]) - left_out, labels[left_out:]
    objects = _objects(bench, len(log["future"]), len(labels))
    shown = [bench.shown(value) for value in objects]
    steps, reordered = [], bench.reordered()[left_out:]
    for number, reply in enumerate(_comparisons(bench, objects, labels)):
        changes = Changes(bench.root, shown[number], shown[number + 1], acting(labels[number]), reply, reordered[number])
        steps.append(Step(labels[number], number >= done, changes))
    return shown[0], steps


def _objects(bench, undone, commands):
    """The objects between the commands, the first one first, as the bench has them."""
    show = {"do": "show", "managed": True}
    with bench.copied() as twin:
        replies = engine.in_session(twin.name, [{"do": "redo"}] * undone + [show] + [{"do": "undo"}, show] * commands)
    return [_done(reply)["object"] for reply in replies if reply.get("done") == "show"][::-1]


def _comparisons(bench, objects, labels):
    """What the proved program says that each command added, modified and removed: asked on a bench apart, which is led from object
    to object by updates."""
    first, *others = [_without_managers(value) for value in objects]
    commands = []
    for label, value in zip(labels, others):
        part = {"subresource": label["subresource"]} if "subresource" in label else {}
        commands.append(WALKER | part | {"object": value})
    with bench.made_of(first) as twin:
        return [_done(reply) for reply in engine.in_session(twin.name, commands)]


def _without_managers(value):
    return value | {"metadata": {name: part for name, part in value["metadata"].items() if name != "managedFields"}}


def _done(reply):
    if "fault" in reply:
        raise Refusal(f"the history can't be walked: {reply['fault']} {reply['name']}", 3)
    return reply
