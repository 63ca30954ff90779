"""What is not as it was: a line for each topmost place, and a last line with counts.

`Report.add` takes the way to a place, what is told of it, and under which count it falls. A loss is what a bench is refused for,
unless losses are allowed.
"""
import sys

COUNTS = (  # the order of the last line, with its words for one and for more
    ("text", "place stands as the text of its JSON", "places stand as the texts of their JSON"),
    ("open", "of these owned as one, on a server part by part", "of these owned as one, on a server part by part"),
    ("whole", "list of items that a server takes whole", "lists of items that a server takes whole"),
    ("null", "null taken as absent", "nulls taken as absent"),
    ("filled", "value filled in", "values filled in"),
    ("kept", "field of a server's own kept beside the bench", "fields of a server's own kept beside the bench"),
    ("coarse", "owned path that became the place above it", "owned paths that became the places above them"),
    ("moved", "entry changed", "entries changed"),
    ("time", "entry without a time", "entries without a time"),
    ("path", "owned path left out", "owned paths left out"),
    ("entry", "entry left out", "entries left out"),
    ("value", "value left out", "values left out"),
)
LOSSES = ("path", "entry", "value")


class Report:
    """The lines of one word, in the order in which they came up, equal ones once with their number."""

    def __init__(self, out=None, leaves_out=False):
        self.out = out or sys.stderr
        self.leaves_out = leaves_out  # whether what the schema hasn't is left out, and not for the proved program to refuse
        self.lines = {}  # (way, what) -> [count, how often]

    def add(self, way, what, count, often=1):
        held = self.lines.setdefault((way, what), [count, 0])
        held[1] += often

    def total(self, *counts):
        return sum(often for count, often in self.lines.values() if count in counts)

    @property
    def losses(self):
        return self.total(*LOSSES)

    def tell(self, without=()):
        """Prints the lines, but those of the counts that are left out, and the counts."""
        shown = {place: held for place, held in self.lines.items() if held[0] not in without}
        for (way, what), (count, often) in shown.items():
            times = f" ({often} times)" if often > 1 and count not in ("path", "entry", "moved", "kept") else ""
            line(f"{way}: {what}{times}", self.out)
        parts = []
        for name, one, more in COUNTS:
            own = ("text", "open") if name == "text" and "text" not in without else (name,)
            places = name in ("text", "open", "whole")
            number = sum(1 if places else often for count, often in shown.values() if count in own)
            if number:
                parts.append(f"{number} {one if number == 1 else more}")
        if parts:
            line(", ".join(parts), self.out)


def counted(number, thing):
    """A number of things, in words."""
    return f"{number} {thing}{'' if number == 1 else 's'}"


def line(text, out=None):
    """A line for people on standard error."""
    print(f"kubectl-ssabench: {text}", file=out or sys.stderr)
