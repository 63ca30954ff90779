"""The proved program: where it is found, and its calls. Every verdict, conflict, owner and comparison is its reply."""
import functools
import json
import os
import shutil
import subprocess

from .refusal import Refusal
from .report import line

HERE = os.path.dirname(os.path.dirname(os.path.realpath(__file__)))
LAUNCHER = os.path.join(os.path.dirname(HERE), "ssabench")  # the repository's own, which may prove and build the program first
PATIENCE = 10  # seconds until it is told that it does


@functools.cache
def program():
    """The path of the proved program: as SSABENCH says, or beside this one, or in the folder above, or on the path."""
    named = os.environ.get("SSABENCH")
    beside = [os.path.join(HERE, "ssabench"), LAUNCHER]
    found = next((path for path in beside if os.path.isfile(path) and os.access(path, os.X_OK)), None)
    path = named or found or shutil.which("ssabench")
    if path is None:
        raise Refusal("the program ssabench is neither beside this one nor on the path; SSABENCH can name it", 3)
    return path


def _run(*words, given=None):
    """A call's status, and what it prints on standard output and on standard error."""
    how = {"stdout": subprocess.PIPE, "stderr": subprocess.PIPE, "text": True, "encoding": "utf-8"}
    try:
        with subprocess.Popen([program(), *words], stdin=subprocess.DEVNULL if given is None else subprocess.PIPE, **how) as process:
            try:
                out, err = process.communicate(given, timeout=PATIENCE if program() == LAUNCHER else None)
            except subprocess.TimeoutExpired:
                told = "where no program stands that was built of its sources, it is proved and built first, in an hour or more"
                line(f"{LAUNCHER} is at work: {told}; SSABENCH can name one")
                out, err = process.communicate()
            return process.returncode, out, err
    except OSError as fault:
        raise Refusal(f"cannot run {program()}: {fault.strerror}", 3) from fault
    except UnicodeDecodeError as fault:
        raise Refusal(f"{program()} printed no UTF-8", 3) from fault


def _read(text):
    try:
        return json.loads(text)
    except ValueError as fault:
        raise Refusal(f"{program()} printed a reply that is none", 3) from fault


def version():
    """The proved program's name and version, and where it stands."""
    status, out, err = _run("--version")
    if status != 0:
        raise Refusal(err.strip() or f"{program()} ended with status {status}", 3)
    return f"{out.strip()}, {program()}"


def called(*words):
    """A call's status, its reply (None where it printed none) and its lines for people, without the program's name."""
    status, out, err = _run(*words)
    reply = _read(out) if out.strip().startswith("{") else None
    return status, reply, [told.removeprefix("ssabench: ") for told in err.splitlines()]


def asked(*words):
    """The reply to a call that is not to be refused. Where it is, this word ends as the program did."""
    status, reply, lines = called(*words)
    if status != 0:
        named = [f"{reply['fault']} {reply['name']}"] if reply else []
        raise Refusal("; ".join(lines + named) or f"ssabench ended with status {status}", status)
    return reply


def in_session(bench, commands):
    """The replies to the commands of a session on a bench, one each; a refusal is among them as it is."""
    lines = "".join(json.dumps(command, ensure_ascii=False) + "\n" for command in commands)
    status, out, err = _run("session", bench, given=lines)
    replies = [_read(reply) for reply in out.splitlines()]
    if status != 0 or len(replies) != len(commands):
        raise Refusal(err.strip() or f"ssabench ended with status {status}", status or 3)
    return replies
