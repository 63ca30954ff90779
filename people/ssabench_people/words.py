"""The words: what each takes, and by which module and function it is done, which is loaded when the word is given."""
import argparse
import importlib
import os
import sys

from . import engine
from .refusal import Refusal
from .report import line

STATUSES = "statuses: 0 done; 1 refused, or something would be lost; 2 other words; 3 a file, or the proved program"
OBJECT = "the object, in YAML or JSON; - is standard input"
FILE = "a manifest, in YAML or JSON; - is standard input; of more documents or files each, in their order"
FORMS = ("json", "yaml")
EXAMPLES = {
    "open": "open --schema apps.json -f live.yaml web.bench",
    "apply": "apply -f manifest.yaml --field-manager autoscaler --dry-run web.bench",
    "update": "update -f edited.yaml --field-manager kubectl-edit web.bench",
    "diff": "diff -f manifest.yaml --field-manager team web.bench",
    "explain": "explain -f manifest.yaml --field-manager team web.bench",
    "strip": "strip web.bench",
    "undo": "undo web.bench",
    "redo": "redo web.bench",
    "show": "show --show-managed-fields -o yaml web.bench",
    "owners": "owners web.bench .spec.template.spec.containers[name=nginx].image",
    "view": "view -f manifest.yaml --field-manager team web.bench > web.html",
    "log": "log --path .spec.replicas web.bench",
}


class Words:
    """The words, added one after the other."""

    def __init__(self):
        told = "A workbench for Server-Side Apply."
        self.top = argparse.ArgumentParser(prog="kubectl-ssabench", description=told, epilog=STATUSES, allow_abbrev=False)
        self.top.add_argument("--version", action=Version, nargs=0, help="which proved program answers")
        self.words = self.top.add_subparsers(dest="word", required=True, metavar="WORD")

    def add(self, name, told, do, forms=(), aliases=(), statuses=STATUSES):
        ends = f"example:\n  kubectl-ssabench {EXAMPLES[name]}\n\n{statuses}"
        how = {"formatter_class": argparse.RawDescriptionHelpFormatter, "allow_abbrev": False}
        word = self.words.add_parser(name, help=told, description=told, epilog=ends, aliases=aliases, **how)
        word.set_defaults(do=do, does=name, output=None, dry_run="none")
        word.add_argument("bench", metavar="BENCH", help="the bench's file")
        if forms:
            word.add_argument("-o", "--output", choices=forms, help="the form of what is printed")
        return word

    def add_of_file(self, name, told, do, field_manager, forms=(), aliases=(), statuses=STATUSES):
        word = self.add(name, told, do, forms, aliases, statuses)
        word.add_argument("-f", "--filename", dest="files", action="append", required=True, metavar="FILE", help=FILE)
        word.add_argument("--field-manager", default=field_manager, metavar="NAME", help=f"who does it ({field_manager})")
        word.add_argument("--subresource", choices=("status",), help="the part of the object that it is done through")
        word.add_argument("--at", metavar="MOMENT", help="the moment, as 2024-05-01T10:00:00Z; now, where none is given")
        return word


class Version(argparse.Action):
    """Prints which proved program is called."""

    def __call__(self, *_):
        print(engine.version())
        sys.exit(0)


def dry_run(word):
    told = "say what it would do, and change nothing; `=server` may be left out"
    word.add_argument("--dry-run", choices=("none", "server"), help=told)


def parser():
    words = Words()
    _add_open(words)
    apply = words.add_of_file("apply", "A manager applies a manifest.", "commands.do_command", "kubectl", (*FORMS, "name"))
    statuses = "statuses: 0 nothing; 1 something; 2 and 3 refused"
    diff = words.add_of_file("diff", "What an apply would change.", "commands.do_diff", "kubectl", FORMS, statuses=statuses)
    diff.add_argument("--show-managed-fields", action="store_true", help="with the managers' entries")
    told = "What an apply would do, field by field, and what a server would do otherwise."
    explain = words.add_of_file("explain", told, "explain.do_explain", "kubectl", FORMS)
    explain.add_argument("--migrate", action="store_true", help="as after kubectl's migration from client-side apply")
    for word in (apply, diff, explain):
        word.set_defaults(does="apply")
        word.add_argument("--force-conflicts", action="store_true", help="take the fields that others own")
        word.add_argument("--server-side", action="store_true", help="as kubectl's; nothing else is done here")
    dry_run(apply)
    update = words.add_of_file(
        "update", "A manager replaces the object.", "commands.do_command", "kubectl-replace", (*FORMS, "name"), aliases=("replace",)
    )
    dry_run(update)
    dry_run(words.add("strip", "Forget all managers.", "commands.do_strip", FORMS))
    words.add("undo", "Go back over a command.", "commands.do_turn", FORMS)
    words.add("redo", "Go on over an undone command.", "commands.do_turn", FORMS)
    show = words.add("show", "The object.", "looks.do_show", (*FORMS, "name"))
    show.add_argument("--show-managed-fields", action="store_true", help="with its managers' entries")
    owners = words.add("owners", "Who owns a field, or each.", "looks.do_owners", FORMS)
    owners.add_argument("path", nargs="?", metavar="PATH", help="the way to the field; all fields, where none is given")
    owners.add_argument("--ways", action="store_true", help="each field by its whole way, in place of a tree")
    owners.add_argument("--manager", metavar="NAME", help="of all fields those that a manager owns")
    log = words.add("log", "What each command of the history did.", "logs.do_log", FORMS)
    which = log.add_mutually_exclusive_group()
    which.add_argument("--path", metavar="PATH", help="who changed this field, when, from what to what")
    which.add_argument("--fights", action="store_true", help="the fields that two managers took from each other")
    _add_view(words)
    return words.top


def _add_view(words):
    view = words.add("view", "A page of the object, who owns what, and the history, as HTML.", "view.do_view")
    told = "a manifest that is explained beside the object"
    view.add_argument("-f", "--filename", dest="files", action="append", metavar="FILE", help=told)
    view.add_argument("--field-manager", default="kubectl", metavar="NAME", help="who would apply it (kubectl)")
    view.add_argument("--subresource", choices=("status",), help="the part of the object that it would be applied through")
    view.set_defaults(does="apply", at=None, force_conflicts=False, migrate=False)


def _add_open(words):
    word = words.add("open", "Make a bench of a schema and an object.", "opening.do_open", FORMS)
    schema = "a CustomResourceDefinition or an OpenAPI document, in YAML or JSON; - is standard input"
    word.add_argument("--schema", action="append", required=True, metavar="FILE", help=schema)
    word.add_argument("--kind", help="the kind, where it isn't the object's")
    word.add_argument("--version", help="the version of the schema, where it isn't the object's")
    word.add_argument("-f", "--filename", dest="file", required=True, metavar="OBJECT", help=OBJECT)
    word.add_argument("--drop", action="store_true", help="leave out what the bench can't take")
    word.add_argument("--same-schema", action="store_true", help="take entries of other versions as of the object's")
    word.add_argument("--migrate", action="store_true", help="make who wrote by client-side apply the applier")
    word.add_argument("--field-manager", default="kubectl", metavar="NAME", help="the applier that --migrate makes (kubectl)")
    word.add_argument("--force", action="store_true", help="replace a bench that is there")


def main(words):
    if words[:1] == ["help"]:
        words = [*words[1:2], "--help"]
    try:
        args = parser().parse_args(["--dry-run=server" if word == "--dry-run" else word for word in words])
        module, name = args.do.split(".")
        return getattr(importlib.import_module(f".{module}", __package__), name)(args)
    except Refusal as refusal:
        line(refusal.sentence)
        return refusal.status
    except RecursionError:
        line("a value is nested too deep")
        return 1
    except KeyboardInterrupt:
        return 130
    except BrokenPipeError:
        os.dup2(os.open(os.devnull, os.O_WRONLY), sys.stdout.fileno())
        return 3
