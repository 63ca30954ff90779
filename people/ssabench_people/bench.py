"""A bench: its file, and the file of its places beside it.

`NAME.places.json` holds what the bench's file doesn't: what each place of the schema is, what a server keeps of its own in
metadata, and the digest of the bench's schema, by which the two are one's.
"""
import contextlib
import copy
import hashlib
import itertools
import json
import os
import shutil
import tempfile

from . import engine, places
from .documents import compact
from .objects import from_bench_object
from .ownership import shown_entry
from .refusal import Refusal

FORMAT = 2


def places_name(name):
    """The file of places beside a bench's file, or beside the one that a link leads to."""
    return f"{os.path.realpath(name) if os.path.islink(name) else name}.places.json"


class Bench:
    """An open bench."""

    def __init__(self, name):
        self.name = name
        try:
            with open(places_name(name), encoding="utf-8") as file:
                told = json.load(file)
            if not _is_taken(told):
                raise Refusal(f"{places_name(name)}: format {told['format']} is not this program's", 3)
            self.kept = told["kept"]
            self.root = places.from_json(told["places"])
            schema = told["schema"]
        except OSError as fault:
            there = f"{places_name(name)} is missing, which the word open makes" if os.path.exists(name) else "the word open makes a bench"
            raise Refusal(f"cannot read {name}: {there}", 3) from fault
        except (ValueError, KeyError, TypeError) as fault:
            raise Refusal(f"{places_name(name)}: not what the word open writes", 3) from fault
        if _schema_of(name) not in (None, schema):
            engine.asked("show", name)  # which ends here where the file is none of a bench
            raise Refusal(f"{places_name(name)} is another bench's: {name} has another schema", 3)

    def live(self):
        """The object, with its managers' entries, as a server shows them."""
        return self.shown(engine.asked("show", self.name, "--show-managed-fields")["object"])

    def shown(self, value):
        """An object of the bench, with its managers' entries, as a server shows them."""
        shown, entries = from_bench_object(self.root, value, self.kept)
        if entries:
            shown["metadata"]["managedFields"] = [shown_entry(self.root, entry) for entry in entries]
        return shown

    def reordered(self):
        """For each command of the history, from the first to the last, the paths of the lists whose items it put in another order,
        as the records in the bench's file tell them."""
        past, found = self._orders()
        return found[:past][::-1] + found[past:]

    def last_reordered(self):
        """The same of the command that was given last."""
        return self._orders(1)[1][0]

    def _orders(self, most=None):
        """How many commands can be undone, and of each record, or so many, the paths of the lists that it put in another order. The
        records of what can be undone come first, the latest before the others."""
        try:
            with open(self.name, encoding="utf-8") as file:
                past = json.loads(file.readline())["past"]
                records = itertools.islice(file, 2, None if most is None else 2 + most)
                return past, [[path for path, _ in json.loads(line)["record"]["order"]] for line in records]
        except (OSError, ValueError, KeyError, TypeError) as fault:
            raise Refusal(f"{self.name}: not a bench's file as this program reads it", 3) from fault

    @contextlib.contextmanager
    def copied(self):
        """The same bench in a copy of its file, for what is to change nothing."""
        with tempfile.TemporaryDirectory(prefix="ssabench-") as folder:
            twin = copy.copy(self)
            twin.name = os.path.join(folder, "bench")
            try:
                shutil.copyfile(self.name, twin.name)
            except OSError as fault:
                raise Refusal(f"cannot read {self.name}", 3) from fault
            yield twin

    @contextlib.contextmanager
    def made_of(self, value):
        """A bench apart, of the same schema, with an object of the bench and no history."""
        with tempfile.TemporaryDirectory(prefix="ssabench-") as folder:
            twin = copy.copy(self)
            twin.name = os.path.join(folder, "bench")
            status, reply, lines = make(twin.name, self.root, value, self.kept)
            if status != 0:
                raise Refusal("; ".join(lines) or reply["name"], status)
            yield twin


def _is_taken(told):
    """Whether what stands beside a bench is of this form, or of the one before, where that says the same: it had no place of its
    own for a status that is written with all else."""
    return told["format"] == FORMAT or told["format"] == 1 and (told["statusApart"] or "status" not in told["places"]["fields"])


def _schema_of(name):
    """The digest of the schema that stands in a bench's file; None where none can be read, which the proved program tells."""
    try:
        with open(name, "rb") as file:
            file.readline()
            return _digest(file.readline().rstrip(b"\n"))
    except OSError:
        return None


def _digest(text):
    return hashlib.sha256(text).hexdigest()


def make(name, root, value, kept, source="the object"):
    """Makes a bench of an object of the bench, which came from `source`. Gives the status, the reply and the lines of the proved
    program; neither file is touched where it refuses."""
    folder = os.path.dirname(os.path.realpath(name))
    schema = places.engine_root(root)
    told = {"format": FORMAT, "kept": kept, "places": places.to_json(root)}
    told["schema"] = _digest(compact(schema).encode("utf-8"))
    try:
        made = tempfile.mkdtemp(prefix=".ssabench-", dir=folder)
    except OSError as fault:
        raise Refusal(f"cannot write {name}", 3) from fault
    try:
        paths = {part: os.path.join(made, part) for part in ("schema.json", "object.json", "places.json")}
        for part, content in (("schema.json", schema), ("object.json", value), ("places.json", told)):
            with open(paths[part], "w", encoding="utf-8") as file:
                json.dump(content, file, ensure_ascii=False, sort_keys=True)
        status, reply, lines = engine.called("init", paths["schema.json"], paths["object.json"], name)
        if status == 0:
            os.replace(paths["places.json"], places_name(name))
        named = [line.replace(paths["object.json"], source).replace(paths["schema.json"], "the schema") for line in lines]
        return status, reply, named
    except OSError as fault:
        raise Refusal(f"cannot write {name}", 3) from fault
    finally:
        shutil.rmtree(made, ignore_errors=True)


def with_file(value, source, call):
    """What `call` gives, the status, the reply and the lines of the proved program, with the name of a file that holds the value,
    which came from `source`."""
    with tempfile.TemporaryDirectory(prefix="ssabench-") as folder:
        path = os.path.join(folder, "manifest.json")
        with open(path, "w", encoding="utf-8") as file:
            json.dump(value, file, ensure_ascii=False)
        status, reply, lines = call(path)
        return status, reply, [line.replace(path, source) for line in lines]
