"""What the scripts of hostile use share: processes, their results, and the sample's lines and files.

The programs run in a scratch folder in memory where there is one, so that waiting for a device costs nothing.
"""
import json, multiprocessing, os, resource, shutil, subprocess, sys, tempfile

HERE = os.path.dirname(os.path.abspath(__file__))
DATA = HERE + '/hostile_data'
NO_MEMORY = b'{"fault":5,"name":"OutOfMemory"}\n'


def program_of(argv, doc):
    """The program that is the only word, by its whole path."""
    if len(argv) != 2 or not os.access(argv[1], os.X_OK):
        sys.exit(doc)
    return os.path.abspath(argv[1])


def scratch():
    """A folder that is removed at the end."""
    return tempfile.TemporaryDirectory(dir='/dev/shm' if os.access('/dev/shm', os.W_OK) else None)


def shim_of(folder, name):
    """The library of a C source beside this file, which takes the place of calls of the C library; None without gcc."""
    if shutil.which('gcc') is None:
        return None
    made = '%s/%s.so' % (folder, name)
    subprocess.run(['gcc', '-O1', '-shared', '-fPIC', '-o', made, '%s/%s.c' % (HERE, name), '-ldl'], check=True)
    return made


def run(words, given=b'', env=None, before=None, folder='.', timeout=300):
    """The status (negative for a signal), what was printed and what was told by a process with this input."""
    with open('%s/given' % folder, 'wb') as file:
        file.write(given)
    with open('%s/given' % folder, 'rb') as reader, open('%s/printed' % folder, 'w+b') as writer, open('%s/told' % folder, 'w+b') as errors:
        made = subprocess.Popen(words, stdin=reader, stdout=writer, stderr=errors, env=env, preexec_fn=before, close_fds=before is not None)
        status = made.wait(timeout)
        writer.seek(0)
        errors.seek(0)
        return status, writer.read(), errors.read()


def read(name):
    with open(name, 'rb') as file:
        return file.read()


def read_if_there(name):
    return read(name) if os.path.lexists(name) else None


def write(name, text):
    with open(name, 'wb') as file:
        file.write(text)


def text(value):
    """The compact text of a value, members by their names."""
    return json.dumps(value, separators=(',', ':'), sort_keys=True, ensure_ascii=False)


def moment(number):
    return '2024-05-01T10:%02d:%02dZ' % (number // 60 % 60, number % 60)


def obj(spec=None):
    made = {'apiVersion': 'example.com/v1', 'kind': 'App', 'metadata': {'name': 'web'}}
    if spec is not None:
        made['spec'] = spec
    return made


def apply(who, number, shown, force=False):
    """The line of an apply."""
    return text({'at': moment(number), 'do': 'apply', 'force': force, 'manager': who, 'object': shown})


def update(who, number, shown):
    return text({'at': moment(number), 'do': 'update', 'manager': who, 'object': shown})


def done(added, managers, modified, removed, word='apply'):
    """The reply to an accepted command."""
    return text({'added': added, 'done': word, 'managers': managers, 'modified': modified, 'removed': removed})


def lines(all_lines):
    return ''.join(line + '\n' for line in all_lines).encode()


def fault(number, name):
    return b'{"fault":%d,"name":"%s"}\n' % (number, name.encode())


def taken(name):
    """What is told of a bench whose draft is there."""
    return ('ssabench: %s.new is there: another call is at work on %s, or one broke off; if none is, remove it\n' % (name, name)).encode()


def in_parallel(function, items, setup=None, given=(), chunk=16):
    """What a function gives for each item, in the items' order, on all processors."""
    with multiprocessing.get_context('fork').Pool(os.cpu_count(), setup, given) as pool:
        return pool.map(function, items, chunk)


class Checks:
    """Counts what was looked at, and tells what is wrong."""

    def __init__(self):
        self.seen = 0
        self.wrong = 0

    def that(self, holds, said):
        self.seen += 1
        if not holds:
            self.wrong += 1
            if self.wrong <= 20:
                print('wrong: ' + said)
        return holds
