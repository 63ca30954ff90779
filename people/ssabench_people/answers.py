"""What is printed: the proved program's replies with paths and values as servers and people write them."""
import json

from .along import place_at, value_at
from .documents import compact, shown_name, to_yaml
from .elements import bench_way, told_paths, way_of, without_stand_ins
from .migration import client_side_appliers
from .report import line
from .turning import PART_BY_PART

MOST_LINES = 20
WAYS_OUT = (
    "apply again with --force-conflicts to take these fields over, without them to leave them to their managers, "
    "or with their live values to own them together"
)
SAID = {
    2: "a null",
    3: "a number that is no whole one of 64 bits",
    20: "no such field",
    21: "a value of another type",
    22: "an item without one of its keys",
    23: "an item that an earlier one equals",
    24: "more than 20,000 paths",
    40: "an owned path that is not there",
    61: "a manifest has no managedFields",
    63: "the history is full",
    64: "nothing to undo",
    65: "nothing to redo",
}


def turned_reply(root, reply):
    """The reply with each path as servers write it."""
    turned = dict(reply)
    for name in ("added", "modified", "removed"):
        if name in turned:
            turned[name] = [texts for texts, _ in told_paths(root, turned[name])]
    if "path" in turned:
        turned["path"] = next((texts for texts, _ in told_paths(root, [turned["path"]])), [])
    if "conflicts" in turned:
        turned["conflicts"] = [
            {**conflict, "fields": [texts for texts, _ in told_paths(root, conflict["fields"])]}
            for conflict in turned["conflicts"]
        ]
    return turned


def print_value(value, form):
    """Prints a value as JSON or YAML."""
    print(json.dumps(value, ensure_ascii=False, indent=2, sort_keys=True) if form == "json" else to_yaml(value).rstrip("\n"))


def object_name(value):
    group = value["apiVersion"].rpartition("/")[0]
    kind = value["kind"].lower()
    return f"{kind}{'.' if group else ''}{group}/{value['metadata']['name']}"


def who(owner):
    """A manager with its operation, and the part through which it acts where that is a subresource."""
    part = f" through {owner['subresource']}" if owner.get("subresource") else ""
    return f"{owner['manager']} ({owner['operation']}{part})"


def change_parts(change):
    """A change as the parts of a line."""
    what = change["what"]
    parts = [(f"{what:<8} ", what), change["way"]]
    if what == "modified":
        parts.append(f": {shown_value(change['from'])} -> {shown_value(change['to'])}")
    elif what in ("added", "removed"):
        parts.append(f": {shown_value(change['to' if what == 'added' else 'from'])}")
    elif what == "reordered":
        parts.append(f": {', '.join(way_of((item,)) for item in change['items'])}")
    for name, words in (("with", "with"), ("takenFrom", "taken from")):
        if change.get(name):
            parts += [f", {words} ", owner_part(change[name])]
    if change.get("goes"):
        parts.append(f": {shown_value(change['from'])}, goes")
    elif what == "given up":
        parts += [": stays for " if change["keptBy"] else ", stays, owned by ", owner_part(change["keptBy"])]
    if what == "claimed" and not change.get("takenFrom"):
        parts += [", owned by ", owner_part([]), " before"]
    return parts


def owner_part(owners):
    """Owners, or nobody, as a part of a line."""
    return (", ".join(who(owner) for owner in owners), "owner") if owners else ("nobody", "nobody")


def shown_change(change):
    """A change as it stands in JSON."""
    return {name: part for name, part in change.items() if name != "way"}


def said(reply):
    """A refusal's name in words."""
    return f"{SAID[reply['fault']]} ({reply['name']})" if reply["fault"] in SAID else reply["name"]


def tell_refusal(root, name, reply, lines):
    """Where and why the proved program refused a file, in its own words, where it has some."""
    source = shown_name(name)
    if reply is not None and "path" in reply:
        line(f"{source}: {_way_and_words(root, source, reply, lines)}")
        return
    for told in lines:
        at = f"{source}: at "
        is_bare = reply is not None and reply["fault"] in SAID and told.startswith(at)
        line(without_stand_ins(f"{source}: {told.removeprefix(at)}: {said(reply)}" if is_bare else told))
    if reply is not None and not lines:
        line(f"{source}: {said(reply)}")


def _way_and_words(root, source, reply, lines):
    """The way to what was refused, and why, of a refusal with a path. The program's line begins with that path as the bench has it,
    and may lead on from its end."""
    way = next((way for _, way in told_paths(root, [reply["path"]])), "")
    begins = f"{source}: {bench_way(reply['path'])}"
    found = next((told.removeprefix(begins) for told in lines if told.startswith(begins)), None)
    if found is None:
        return f"{way or 'the object'}: {said(reply)}"
    return way + without_stand_ins(found) if way else without_stand_ins(found).removeprefix(": ")


def shown_value(value):
    """A value in a line for people: scalars whole, all else cut after some letters."""
    text = compact(value)
    return text if len(text) <= 60 else f"{text[:57]}.."


def tell_conflicts(root, conflicts, live, manifest, applier):
    """A line for each field in conflict, with both values, and the ways out."""
    fields = [(conflict, *told) for conflict in conflicts for told in told_paths(root, conflict["fields"])]
    for conflict, texts, way in fields[:MOST_LINES]:
        is_now, will_be = value_at(root, live, texts), value_at(root, manifest, texts)
        line(f"conflict with {who(conflict)}: {way} is {shown_value(is_now)}, configured as {shown_value(will_be)}")
        if isinstance(is_now, dict) and isinstance(will_be, dict) and place_at(root, live, texts).kind == "json":
            line(f"{way} is {PART_BY_PART}: there only what differs in both can conflict")
    if len(fields) > MOST_LINES:
        line(f"and {len(fields) - MOST_LINES} fields more")
    tell_client_side(conflicts, live, applier)
    line(WAYS_OUT)


def tell_client_side(conflicts, live, applier):
    """What a server does with who wrote by client-side apply."""
    writers = client_side_appliers(live["metadata"].get("managedFields") or [])
    for conflict in conflicts:
        if conflict["operation"] == "Update" and conflict["manager"] in writers:
            takes = "is no conflict on a server where it stands in the last-applied annotation as it is live, and is taken by force"
            told = takes if applier == "kubectl" else "is a conflict on a server too, but not for the manager kubectl"
            line(
                f"{conflict['manager']} wrote by client-side apply: what it owns {told}; kubectl makes its fields the applier's "
                "before it applies, as open does with --migrate"
            )
