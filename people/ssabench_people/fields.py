"""Sets of paths as FieldsV1 writes them. A set here is a dict of dicts: each element's text with what is below; `.` says that
the place itself is in the set."""


def is_set(fields):
    """Whether a value has the shape of a set: objects all the way down, that of `.` being empty."""
    return isinstance(fields, dict) and all(
        below == {} if text == "." else is_set(below) for text, below in fields.items()
    )


def said_paths(fields):
    """The paths of a set, as tuples of element texts; none where it has not the shape of one."""
    found = []

    def walk(node, path):
        for text, below in node.items():
            if text == ".":
                found.append(path)
            elif not below:
                found.append((*path, text))
            else:
                walk(below, (*path, text))

    if is_set(fields):
        walk(fields, ())
    return found


def written(paths):
    """The FieldsV1 of a set of paths, which has one writing."""
    root = {}
    for path in paths:
        node = root
        for text in path:
            node = node.setdefault(text, {})
        node["."] = {}
    return _short(root)


def _short(node):
    below = {text: _short(child) for text, child in node.items() if text != "."}
    if not below:
        return {}
    return below | ({".": {}} if "." in node else {})
