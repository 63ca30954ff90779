"""A walk along the elements of a path: through the schema's places, the value there, and the path on the bench."""
from .documents import compact
from .elements import bench_first, key_text, named_keys, read, value_text, way_of_name
from .places import OTHERS, STATUS


class Along:
    """A place along the way, `value` being what stands there. Begins at the root of an object."""

    def __init__(self, place, value, path=(), way="", schema_way="", is_whole=False, own_text=None):
        self.place = place
        self.value = value
        self.texts = ()  # the path as servers write it
        self.own_text = own_text  # the last element of it, where it isn't the one that was asked for
        self.path = path  # on the bench; None at metadata, whose members stand in two fields of the root
        self.way = way  # as people read it
        self.schema_way = schema_way  # the same with `[]` for any item and `.*` for any entry
        self.is_whole = is_whole  # an item that a server takes as one
        self._items = None  # of a list whose items were asked for: each by the compact text of its keys, or of itself

    @property
    def is_nobodys(self):
        """Whether it is the object itself, or its metadata: places that nobody owns on a bench."""
        return self.path is None or self.path == ()

    def knows(self, text):
        """Whether the schema has a place under an element."""
        said = read(text)
        if said is None:
            return False
        if said[0] == "f":
            return not self.place.is_list and self.place.child(said[1])[0] is not None
        return self.place.kind == {"k": "map", "v": "set"}[said[0]]

    def way_of(self, text):
        """The way to the place under an element, also where there is none."""
        said = read(text)
        if said is None:
            return f"{self.way}[{text}]"
        letter, named = said
        if letter == "f":
            return self.way + way_of_name(named)
        parts = [f"{name}={compact(value)}" for name, value in named.items()] if letter == "k" else [f"={compact(named)}"]
        return f"{self.way}[{','.join(parts)}]"

    def step(self, text):
        """The place under an element; None where the schema hasn't it, or it isn't there."""
        found = self._step(text) if self.knows(text) else None
        return found and found.at_text(self, text)

    def _step(self, text):
        letter, said = read(text)
        if letter == "f":
            return self._field(said)
        if not isinstance(self.value, list):
            return None
        if letter == "v":
            return self._item(said) if compact(said) in self._known_items() else None
        keys = {name: said.get(name, self.place.fill.get(name)) for name in self.place.keys}
        if any(value is None for value in keys.values()) or set(said) - set(keys):
            return None
        item = self._known_items().get(compact(keys))
        return None if item is None else self._item(item, keys)

    def _known_items(self):
        """The items of a list by what they are known by; of equal ones the first."""
        if self._items is None:
            self._items = {}
            for item in self.value:
                known = item if self.place.kind == "set" else named_keys(self.place, item) if isinstance(item, dict) else None
                if known is not None:
                    self._items.setdefault(compact(known), item)
        return self._items

    def _item(self, item, keys=None):
        """The place of an item of a map list, known by its keys, or of a set."""
        text = "v:" + compact(item) if keys is None else "k:" + compact(keys)
        bench_text = value_text(self.place, item) if keys is None else key_text(self.place, keys)
        parts = [f"={compact(item)}"] if keys is None else [f"{name}={compact(value)}" for name, value in sorted(keys.items())]
        way = f"{self.way}[{','.join(parts)}]"
        return Along(self.place.item, item, (*self.path, bench_text), way, f"{self.schema_way}[]", self.place.whole_items, text)

    def _field(self, name):
        if not isinstance(self.value, dict) or name not in self.value:
            return None
        place, is_other = self.place.child(name)
        if self.path is None:
            path = tuple(bench_first(name))
        elif self.path == () and name == "metadata":
            path = None
        elif self.path == () and name == "status" and self.place.plain_status:
            path = ("f:" + STATUS,)
        else:
            path = (*self.path, *(["f:" + OTHERS] if is_other else []), "f:" + name)
        named = name if not is_other and self.place.kind == "record" else "*"
        return Along(place, self.value[name], path, self.way + way_of_name(name), f"{self.schema_way}.{named}")

    def children(self):
        """The places below that stand there: fields, entries and items; none of a place that is owned as one."""
        if self.place.is_leaf or self.is_whole:
            return []
        found = []
        if isinstance(self.value, dict):
            named = ((f"f:{name}", self._field(name)) for name in self.value if self.place.child(name)[0] is not None)
            found = [here.at_text(self, text) for text, here in named if here is not None]
        elif self.place.kind == "set" and isinstance(self.value, list):
            found = [self._item(item).at_text(self) for item in self.value]
        elif self.place.kind == "map" and isinstance(self.value, list):
            named = ((item, named_keys(self.place, item)) for item in self.value if isinstance(item, dict))
            found = [self._item(item, keys).at_text(self) for item, keys in named if keys is not None]
        return [child for child in found if child.value is not None]

    def at_text(self, above, text=None):
        """This place with its path, which ends at an element's text, or at the place's own."""
        self.texts = (*above.texts, self.own_text or text)
        return self

    def all_paths(self):
        """The path of the place, and of each field of it that is there."""
        fields = self.value.items() if isinstance(self.value, dict) else ()
        there = [name for name, value in fields if value is not None and self.place.child(name)[0]]
        return [self.path, *(self._field(name).path for name in there)]


class Finder:
    """Finds places of an object by their paths as servers write them, each step of a path taken once."""

    def __init__(self, root, value):
        self.whole = value
        self._found = {(): Along(root, value)}

    def at(self, texts):
        """The place at a path; None where nothing stands there."""
        if texts not in self._found:
            above = self.at(texts[:-1])
            self._found[texts] = above and above.step(texts[-1])
        return self._found[texts]

    def value(self, texts):
        here = self.at(texts)
        return here and here.value


def value_at(root, value, texts):
    """What stands in an object at a path as servers write it; None where nothing does."""
    return Finder(root, value).value(tuple(texts))


def place_at(root, value, texts):
    """The place of a path that stands in an object; None where nothing does."""
    here = Finder(root, value).at(tuple(texts))
    return here and here.place
