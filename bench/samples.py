"""What the benchmarks apply: schemas, objects and lines of commands, the program that they run, and how its instructions are counted."""
import json, os, random, subprocess, sys, threading, time

sys.dont_write_bytecode = True
from unsaved import feed, unsaved

TOP = os.path.dirname(os.path.dirname(os.path.abspath(__file__)))
MOMENT = '2024-05-01T10:00:01Z'
TEXT = {'type': 'string'}
SCHEMA = {'type': 'object', 'properties': {
    'env': {'type': 'object', 'additionalProperties': TEXT},
    'hosts': {'type': 'array', 'items': TEXT, 'x-kubernetes-list-type': 'set'},
    'image': TEXT,
    'ports': {
        'type': 'array', 'x-kubernetes-list-type': 'map', 'x-kubernetes-list-map-keys': ['name'],
        'items': {'type': 'object', 'properties': {'name': TEXT, 'port': {'type': 'integer'}, 'proto': TEXT}},
    },
}}
UNDO = '{"do":"undo"}\n'
REDO = '{"do":"redo"}\n'

# The allocator's tunables are those with which ./ssabench launches the program.
with open(TOP + '/ssabench') as script:
    os.environ.setdefault('GLIBC_TUNABLES', next(it.partition('=')[2].strip() for it in script if it.startswith('tunables=')))


def program_of(given=None):
    """The program that is given, by its whole path, or the one that ./ssabench runs."""
    return os.path.abspath(given or TOP + '/' + subprocess.check_output([TOP + '/tools/launch', 'find'], text=True).strip())


def compact(value):
    return json.dumps(value, separators=(',', ':'), sort_keys=True)


def whole(fields, labels=None):
    """The object with these fields."""
    about = {'name': 'web', **({'labels': labels} if labels else {})}
    return {'apiVersion': 'example.com/v1', 'kind': 'App', 'metadata': about, **fields}


def line(word, manager, value, force=False):
    command = {'at': MOMENT, 'do': word, 'manager': manager, 'object': value}
    return compact({**command, 'force': True} if force else command) + '\n'


def new_bench(program, folder, schema=None, depth=None):
    """A bench of the bare object under a schema, in a folder of its own."""
    os.makedirs(folder, exist_ok=True)
    names = [folder + '/schema.json', folder + '/object.json']
    for name, value in zip(names, (schema or SCHEMA, whole({}))):
        with open(name, 'w') as file:
            file.write(compact(value))
    words = ['--depth', str(depth)] if depth else []
    subprocess.run([program, 'init', *words, *names, folder + '/bench'], check=True, stdout=subprocess.DEVNULL)
    return folder + '/bench'


# ---- objects whose paths are mostly those of one list or map ----

def fields_of(shape, paths, change=None, fewer=0):
    """The object with so many paths, `image` among them; with one of them changed or given up, or so many items or entries fewer."""
    count = (paths - 2) // 4 if shape == 'ports' else paths - 2
    middle = count // 2
    names = ['item-%07d' % (n if shape == 'env' else n * 7919 % count) for n in range(count)]
    fields = {'image': 'a'}
    if shape == 'hosts':
        fields[shape], place, name = names, fields, 'image'
    elif shape == 'env':
        fields[shape] = {name: 'v' for name in names}
        place, name = fields[shape], names[middle]
    else:
        fields[shape] = [{'name': name, 'port': n, 'proto': 'TCP'} for n, name in enumerate(names)]
        place, name = fields[shape][middle], 'proto'
    if change == 'changed':
        place[name] = 'b'
    elif change == 'given up':
        del place[name]
    for name in names[middle:middle + fewer]:
        del fields[shape][name if shape == 'env' else middle]
    return whole(fields)


# ---- small sessions ----

def small_schema():
    with open(TOP + '/examples/merged_lists/schema.json') as file:
        return json.load(file)


class Small:
    """Lines of sessions on a small object: appliers of parts that overlap, who leave fields out and change them, with force or
    without, updates of the whole object, and undo and redo. The first line, which no undo reaches, gives the object something in each
    list and map, which nobody takes away, so that none is ever empty; and no applier gives an item of the map list up."""
    def __init__(self, seed):
        self.random = random.Random(seed)
        self.applied = {}

    def value(self, *values):
        return self.random.choice(values)

    def some(self, names):
        return [name for name in names if self.random.random() < 0.6]

    def part(self, applier):
        """What an applier's configuration is this time."""
        spec, labels = {}, None
        if applier in ('team', 'release'):
            spec['image'] = self.value('web:1', 'web:1', 'web:2')
            spec['env'] = {name: self.value('on', 'on', 'off') for name in self.some(['DEBUG', 'TRACE', 'CACHE', 'COLOR'])}
            spec['args'] = self.value(['--serve'], ['--serve'], ['--serve', '--verbose'])
            labels = {name: self.value('web', 'web', 'shop') for name in self.some(['app', 'part', 'tier'])}
        if applier in ('team', 'scaler'):
            spec['replicas'] = self.value(2, 2, 3, 5)
        if applier in ('platform', 'gateway'):
            spec['hosts'] = ['%s.example.com' % name for name in self.some('abcdef')]
            spec['ports'] = [{'name': name, 'port': self.value(80, 80, 8080), 'proto': 'TCP'} for name in ('http', applier)]
            spec['limits'] = {'cpu': self.value(1, 1, 2), 'memory': 512}
        kept = self.some(spec) + ['ports']
        return {name: spec[name] for name in spec if name in kept and spec[name]}, labels if self.random.random() < 0.7 else None

    def object_of(self, parts):
        """The object with all parts, one over the other."""
        spec, labels = {}, {}
        for own, own_labels in parts:
            labels.update(own_labels or {})
            for name, value in own.items():
                if name == 'env':
                    spec[name] = {**spec.get(name, {}), **value}
                elif name == 'hosts':
                    spec[name] = spec.get(name, []) + [it for it in value if it not in spec.get(name, [])]
                elif name == 'ports':
                    spec[name] = list({it['name']: it for it in spec.get(name, []) + value}.values())
                else:
                    spec[name] = value
        return whole({'spec': spec} if spec else {}, labels)

    def first(self):
        base = {'args': ['--serve'], 'env': {'BASE': 'on'}, 'hosts': ['base.example.com'], 'image': 'web:1', 'limits': {'cpu': 1, 'memory': 512},
                'ports': [{'name': 'base', 'port': 443, 'proto': 'TCP'}], 'replicas': 2}
        self.applied['base'] = base, {'base': 'web'}
        return line('apply', 'base', self.object_of([self.applied['base']]))

    def lines(self, count):
        given = [self.first()]
        while len(given) < count:
            chance = self.random.random()
            if chance < 0.6:
                applier = self.value('team', 'release', 'scaler', 'platform', 'gateway')
                part = self.part(applier)
                is_forced = self.random.random() < 0.4
                if is_forced:
                    self.applied[applier] = part
                given.append(line('apply', applier, self.object_of([part]), is_forced))
            elif chance < 0.75:
                given.append(line('update', self.value('operator', 'editor'), self.updated()))
            elif chance < 0.95:
                # A forced apply is never refused, so the undo takes it back and nothing before it.
                part = self.part('team')
                given += [line('apply', 'team', self.object_of([part]), True), UNDO]
                if self.random.random() < 0.5:
                    given.append(REDO)
                    self.applied['team'] = part
            else:
                given.append('{"do":"show"}\n')
        return given[:count]

    def updated(self):
        """The object as it is, as far as was told here, with something changed."""
        base = self.applied['base']
        own = {'replicas': self.value(2, 4, 6)}, {'tier': self.value('web', 'shop')}
        env = {'env': {'CACHE': self.value('on', 'off')}}, None
        return self.object_of([base] + [it for name, it in self.applied.items() if name != 'base'] + [self.value(own, env)])


# ---- sessions that are held while they are looked at ----

class Session:
    """A session on a bench, which is killed at its end, so that nothing is saved."""
    def __init__(self, program, bench):
        self.bench = bench
        self.process = subprocess.Popen([program, 'session', bench], stdin=subprocess.PIPE, stdout=subprocess.PIPE, stderr=subprocess.DEVNULL)

    def answered(self, lines, may_refuse=False):
        """Gives it lines and waits for their replies."""
        for it in lines:
            self.process.stdin.write(it.encode())
            self.process.stdin.flush()
            reply = self.process.stdout.readline()
            if not reply.startswith(b'{') or b'"fault"' in reply and not may_refuse:
                sys.exit('a command was refused: ' + reply.decode()[:300])

    def memory(self, which='VmHWM'):
        """The greatest memory of the process so far, in bytes, or with VmPeak its greatest address space."""
        with open('/proc/%d/status' % self.process.pid) as status:
            return next(int(it.split()[1]) * 1024 for it in status if it.startswith(which + ':'))

    def spent(self):
        """The seconds of processor time that it took so far."""
        return time.clock_gettime_ns((~self.process.pid << 3) | 2) / 1e9  # its CLOCK_PROCESS_CPUTIME_ID, seen from here

    def end(self):
        self.process.kill()
        self.process.communicate()
        os.remove(self.bench + '.new')


# ---- instructions, which whatever else runs doesn't change ----

def whole_session(words, lines, is_saved=False):
    """The instructions that a session of these lines takes, which is saved only where that is to be counted too, and its replies."""
    bench, given = words[-1], ''.join(lines).encode()
    counting = ['valgrind', '--tool=callgrind', '--callgrind-out-file=/dev/null', '--log-file=' + bench + '.counted'] + words
    if is_saved:
        told = subprocess.run(counting, input=given, stdout=subprocess.PIPE, stderr=subprocess.DEVNULL, check=True).stdout
    else:
        told, _ = unsaved(counting, given, subprocess.DEVNULL)
    with open(bench + '.counted') as file:
        spent = next(int(it.split()[-1]) for it in file if 'Collected' in it)
    os.remove(bench + '.counted')
    return spent, told.decode().splitlines()


def each_line(words, first, lines):
    """The instructions that each of these lines takes in a session behind the first ones, from the reply before it to its own. None of
    them may be refused, and each reply has to be short enough for one write. The session is killed, so that nothing is saved."""
    counts = words[-1] + '.counts'
    counting = ['valgrind', '--tool=callgrind', '--dump-before=write', '--callgrind-out-file=' + counts, '--log-file=/dev/null'] + words
    process = subprocess.Popen(counting, stdin=subprocess.PIPE, stdout=subprocess.PIPE, stderr=subprocess.DEVNULL)
    feeding = threading.Thread(target=feed, args=(process.stdin, ''.join(first + lines).encode()))
    feeding.start()
    for _ in first + lines:
        reply = process.stdout.readline()
        if not reply.startswith(b'{') or b'"fault"' in reply:
            sys.exit('a command was refused: ' + reply.decode()[:300])
    feeding.join()
    process.kill()
    process.communicate()
    os.remove(words[-1] + '.new')
    # (a dump is made before each write; the first lines may have more of them than replies)
    names = sorted((it for it in os.listdir(os.path.dirname(counts)) if it.startswith(os.path.basename(counts) + '.')), key=lambda it: int(it.split('.')[-1]))
    spent = []
    for name in names:
        with open('%s/%s' % (os.path.dirname(counts), name)) as file:
            spent.append(next(int(it.split()[1]) for it in file if it.startswith('totals:')))
        os.remove('%s/%s' % (os.path.dirname(counts), name))
    return spent[-len(lines):]
