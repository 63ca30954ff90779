"""What hostile_names and hostile_modes share: a folder of its own for each case, its bench, and what a call does there."""
import os, shutil, stat, subprocess, sys

from hostile_common import DATA, apply, in_parallel, lines, moment, obj, program_of, read, run, scratch, shim_of, text, write

HERE = {}
AT = ['--at', moment(11), '--field-manager', 'one']
# The words that may save, on a bench of this name, and what they are given.
SAVING = {
    'init': lambda name: ['init', 'schema.json', 'object.json', name],
    'apply': lambda name: ['apply', name, 'one.json'] + AT,
    'update': lambda name: ['update', name, 'one.json'] + AT,
    'strip': lambda name: ['strip', name],
    'undo': lambda name: ['undo', name],
    'redo': lambda name: ['redo', name],
    'session': lambda name: ['session', name],
}
GIVEN = {'session': lines([apply('sitter', 15, obj({'hosts': ['g']}))])}
LOOKS = {'show': lambda name: ['show', name], 'owners': lambda name: ['owners', name, '["f:spec","f:replicas"]'], 'log': lambda name: ['log', name]}
# The bench that each case finds: two commands in the past, one in the future.
BEGUN = [apply('m1', 1, obj({'replicas': 3})), apply('m2', 2, obj({'hosts': ['a', 'b'], 'replicas': 3})), apply('m3', 3, obj({'image': 'i'})), '{"do":"undo"}']
NOBODY = 65534
LATE = 'no end within the seconds that it has'


class Place:
    """The folder of a case, with a bench, and files for the words."""

    def __init__(self, name):
        self.folder = '%s/%s' % (HERE['folder'], name)
        self.found = []
        shutil.copytree(HERE['files'], self.folder)
        os.chmod(self.folder, 0o755)
        self.afresh()

    def afresh(self, mode=0o644, owner=-1, group=-1):
        """Makes the bench what it was, with this mode and these owners."""
        if os.path.lexists(self.path('web.bench')):
            os.remove(self.path('web.bench'))
        shutil.copyfile(HERE['bench'], self.path('web.bench'))
        os.chown(self.path('web.bench'), owner, group)
        os.chmod(self.path('web.bench'), mode)

    def path(self, name):
        return '%s/%s' % (self.folder, name)

    def call(self, words, given=b'', env=None, before=None, seconds=10, out=subprocess.PIPE):
        """The status, what was printed and what was told, or that it came to no end."""
        # (the input is a pipe, so that a name that leads to it leads to no plain file)
        process = subprocess.Popen([HERE['program']] + words, stdin=subprocess.PIPE, stdout=out, stderr=subprocess.PIPE, cwd=self.folder,
                                   env=dict(os.environ, **(env or {})), preexec_fn=before)
        try:
            printed, told = process.communicate(given, seconds)
        except subprocess.TimeoutExpired:
            process.kill()
            process.communicate()
            return LATE
        return process.returncode, printed or b'', told

    def save(self, word, name='web.bench', **how):
        """What a word that may save gives on a bench of this name."""
        return self.call(SAVING[word](name), GIVEN.get(word, b''), **how)

    def same(self, what, got, want):
        """Notes that something is not as wanted."""
        if got != want:
            self.found.append('%s: %s and not %s' % (what, got, want))
        return got == want

    def files(self):
        """All that stands in the folder, each name with what it is, its mode, its owners, its place on the device and its content."""
        found = {}
        for folder, folders, names in os.walk(self.folder):
            for name in folders + names:
                path = '%s/%s' % (folder, name)
                at = os.lstat(path)
                content = os.readlink(path) if stat.S_ISLNK(at.st_mode) else read(path) if stat.S_ISREG(at.st_mode) else b''
                found[path[len(self.folder) + 1:]] = (at.st_mode, at.st_uid, at.st_gid, at.st_ino, content)
        return found

    def refuses(self, what, want, words, given=b'', **how):
        """A call that gives this, after which all in the folder is as it was."""
        before = self.files()
        got = self.call(words, given, **how)
        is_right = self.same(what, got, want)
        after = self.files()
        self.same(what + ': names that are other files now', sorted(name for name in {**before, **after} if before.get(name) != after.get(name)), [])
        return is_right or got != LATE

    def each_refuses(self, want, name='web.bench', words=SAVING, **how):
        """Each word gives this, and all is as it was. After one without end the others are not tried."""
        for word in words:
            if not self.refuses(word, want, words[word](name), GIVEN.get(word, b''), seconds=3, **how):
                break


def told(line):
    """What a call gives that tells this alone."""
    return 3, b'', b'ssabench: ' + (line if isinstance(line, bytes) else line.encode()) + b'\n'


def plain(word):
    """What a word gives on a bench that nothing is special of, and the bench then."""
    if word not in HERE['plain']:
        place = Place('plain-%d-%s' % (os.getpid(), word))
        HERE['plain'][word] = place.save(word), read(place.path('web.bench'))
        shutil.rmtree(place.folder)
    return HERE['plain'][word]


def as_nobody(groups=()):
    """Makes a process that of a user who owns nothing."""
    def change():
        os.setgroups(list(groups))
        os.setgid(NOBODY)
        os.setuid(NOBODY)
    return change


def case_of(cases):
    """What makes a function of a place one of the cases: what it finds wrong is the place's, a text says why it is skipped."""
    def case(said):
        def add(function):
            def tried(name):
                place = Place(name)
                return function(place) or place.found
            cases.append((said, tried))
            return function
        return add
    return case


def begin(here):
    HERE.update(here, plain={})


def tried(number):
    """What is wrong with a case, or the word why it is skipped."""
    try:
        return HERE['cases'][number][1](str(number))
    except OSError as fault:
        return ['a file is not there, or not as it was: %s' % fault]


def tell_cases(doc, cases):
    """Tries each case, prints a line for each, and last how many were wrong; whether one was."""
    program = program_of(sys.argv, doc)
    with scratch() as folder:
        # (a copy, since a user who owns nothing shall run it too)
        os.chmod(folder, 0o755)
        here = {'folder': folder, 'files': folder + '/files', 'bench': folder + '/bench', 'program': folder + '/program'}
        shutil.copyfile(program, here['program'])
        os.chmod(here['program'], 0o755)
        os.mkdir(here['files'])
        for name, content in (('schema', read(DATA + '/schema.json')), ('object', read(DATA + '/object.json')), ('one', text(obj({'hosts': ['c'], 'replicas': 3})).encode()),
                              ('nine', text(obj({'replicas': 9})).encode()), ('cut', b'{x')):
            write('%s/%s.json' % (here['files'], name), content)
            os.chmod('%s/%s.json' % (here['files'], name), 0o644)
        made = run([program, 'init', DATA + '/schema.json', DATA + '/object.json', here['bench']], folder=folder)
        begun = run([program, 'session', here['bench']], lines(BEGUN), folder=folder)
        if made[0] != 0 or begun[0] != 0 or b'fault' in begun[1]:
            sys.exit('no bench is made: %s %s' % (made, begun))
        here['shim'] = shim_of(folder, 'refuse_call')
        here['cases'] = cases
        begin(here)
        found = in_parallel(tried, range(len(cases)), begin, (here,), 1)
    wrong = skipped = 0
    for (said, _), it in zip(cases, found):
        wrong += isinstance(it, list) and bool(it)
        skipped += isinstance(it, str)
        print('%s: %s' % ('skipped' if isinstance(it, str) else 'wrong' if it else 'right', said + (', ' + it if isinstance(it, str) else '')))
        for line in it[:4] if isinstance(it, list) else ():
            print('    ' + line[:600])
    print('%d cases, %d skipped: %d wrong' % (len(cases), skipped, wrong))
    return wrong > 0
