"""What a run met, kind by kind, and which kinds it has to meet."""
import json, re

from .benches import MOST_DEPTH, read_object
from .bodies import DICT, METADATA, is_leaf, points
from .files import FORMATS, WITH_PARTS, WRITTEN
from .operations import Act, owned_by
from .paths import is_item
from .tables import Key, part_members
from .values import NAMES, text

FIELDS = ('annotations', 'finalizers', 'labels', 'args', 'env', 'groups', 'hosts', 'limits', 'numbers', 'parts', 'ports', 'spec', 'status')
DEEDS = ('apply', 'forced apply', 'update')
LENGTHS = (1, 2, 7, 128)
COMMANDS = (*DEEDS, 'strip', 'undo', 'redo')
LOOKS = ('show', 'show managed', 'owners', 'log')
RECORD = ('changed', 'cut', 'gone', 'here', 'leaves', 'order', 'put', 'gain', 'lose', 'time', 'put at a place', 'order inside an item',
          'put with all below')
# What no run meets: want of memory, devices that fail, and files of 64 MB are the matter of hostile use.
REFUSALS = tuple(NAMES.values())
BODY = ('nested lists', 'atomic lists', 'atomic maps', 'empty sets', 'empty maps', 'empty records', 'empty map lists', 'entries of maps',
        'items of two keys', 'names that need escapes', 'texts ordered otherwise than their values', 'owned branches', 'shared paths')
DONE = ('a repeated apply', 'only an order changed', 'an apply of an order alone', 'a moment kept', 'a moment renewed',
        'a manager leaves', 'a manager is new', 'force takes some and leaves some', 'given up and kept by another', 'given up and gone',
        'a key field given up stays', 'an emptied parent goes', 'a given-up branch')
ORDERS = ('configured in another order', 'inside an item in another order', 'some left out in another order',
          'new ones among others in another order', 'updated in another order', 'a map list in another order',
          'many in another order', 'others between those in another order')
PARTS = ('an apply through status', 'an update through status', 'one name through both parts', 'a conflict with the other part of a name',
         'an entry that owns outside its part', 'owned outside the part and kept', 'an update with another status than the live one',
         'an update through status with another rest than the live one', 'an apply through status without a status',
         'an apply of a status that is not its part')
FILES = tuple('format %d: %s' % (number, it) for number in sorted(FORMATS) for it in (
    'a file', 'taken', *(('refused',) if number not in WITH_PARTS else ()), *(('taken with another depth',) if number != WRITTEN else ()),
    'a changed file is taken', 'a changed file is refused'))
DEPTHS = ('a state forgotten', 'a future cut and nothing forgotten at the depth', 'a file as long as its depth', 'a file longer than its depth',
          'a depth of 1', 'a depth of 1,000')
CALLS = ('init', 'session', *(word + ' by words' for word in ('apply', 'update', 'strip', 'undo', 'redo', 'show', 'owners', 'log')),
         'file', 'a changed file is taken', 'status 0', 'status 1', 'status 3', 'files compared', 'history of 1,000')
# What the stories of each seed have to meet, and what all stories together.
OF_EACH_SEED = (*COMMANDS, 'accepted', 'Conflict', 'undone', 'redone', 'NothingToUndo', 'NothingToRedo', 'TooManyManagers',
         *DEPTHS[:2], 'places', 'entries', 'owned paths', *LOOKS, *RECORD, *BODY, *DONE, *ORDERS, *PARTS,
         *('%s: %s' % (deed, it) for deed in DEEDS for it in (*FIELDS, *('a name of %d' % length for length in LENGTHS))))
ALL = tuple(dict.fromkeys((*OF_EACH_SEED, *REFUSALS, *CALLS, *FILES, *DEPTHS)))
GROUPS = {'commands': (*COMMANDS, *LOOKS), 'answers': ('accepted', 'undone', 'redone', *REFUSALS), 'states': ('places', 'entries', 'owned paths'),
          'bodies and tables': BODY, 'what commands did': DONE, 'orders': ORDERS, 'parts': PARTS, 'formats': FILES, 'depths': DEPTHS, 'records': RECORD, 'calls': CALLS}
FIRST = (*COMMANDS, 'accepted', 'undone', 'redone', 'Conflict', 'TooManyManagers', 'a state forgotten', 'NothingToUndo', 'NothingToRedo',
         'places', 'entries', 'owned paths')


class Tally:
    def __init__(self):
        self.counts = {}

    def add(self, kind, number=1):
        if number:
            self.counts[kind] = self.counts.get(kind, 0) + number

    def join(self, counts):
        for kind, number in counts.items():
            self.add(kind, number)

    def missing(self, kinds):
        return [kind for kind in kinds if kind not in self.counts]

    def line_of_seed(self, seed):
        contents = sum(': ' in kind for kind in self.counts)
        counts = ', '.join('%s %d' % (kind, self.counts.get(kind, 0)) for kind in FIRST)
        return 'seed %s: %s, commands with contents %d' % (seed, counts, contents)

    def line(self, given, said, before, bench):
        """A line of a session, its reply, the state before it, and the bench after it."""
        try:
            command = json.loads(given)
        except ValueError:
            command = {}
        self.answered(command if isinstance(command, dict) else {}, json.loads(said), before, bench)

    def call(self, word, given, outcome, before, bench):
        self.add(word + ' by words')
        said = json.loads(outcome.printed) if outcome.printed else {}
        command = {'do': word, 'managed': word == 'show' and given[0], 'force': word == 'apply' and given[4]}
        if word in ('apply', 'update'):
            command |= {'manager': given[2], **part_members(given[3])}
            command |= {'object': json.loads(given[0])} if 'done' in said else {}
        self.answered(command, said, before, bench)

    def outcome(self, word, outcome):
        self.add(word, word in CALLS)
        self.add('status %s' % outcome.status)
        told = re.match(rb'\{(?:"depth":\d+,)?"format":(\d)', outcome.file) if word == 'file' else None
        if told:
            self.add('format %s: a file' % told[1].decode())
        if word in ('init', 'file') and outcome.printed.startswith(b'{"fault":'):
            self.add(json.loads(outcome.printed)['name'])
        if outcome.status == 3 and outcome.printed:
            self.add(json.loads(outcome.printed)['name'])
        if word == 'session' and outcome.status == 0:
            self.add('files compared')
            self.file(outcome.file)

    def file(self, given):
        for line in given.split(b'\n')[3:-1]:
            told = json.loads(line).get('record', {})
            for member in told:
                self.add(member, len(told[member]))
            for it in told.get('changed', ()):
                for member in ('gain', 'lose', 'time'):
                    self.add(member, bool(it.get(member)))
            for it in told.get('put', ()):
                self.add('put at a place', len(it) == 3)
                self.add('put with all below', bool(it[1]) and isinstance(it[1], dict))
            self.add('order inside an item', sum(any(is_item(element) for element in it[0]) for it in told.get('order', ())))
        self.add('history of 1,000', given.count(b'\n') == 1_003)

    def answered(self, command, said, before, bench):
        word = command.get('do') if isinstance(command.get('do'), str) else ''
        deed = 'forced apply' if word == 'apply' and command.get('force') is True else word
        if word in ('apply', 'update', 'strip', 'undo', 'redo'):
            self.add(deed)
        if 'fault' in said:
            self.add(said['name'])
            self.add('a conflict with the other part of a name', any(
                it['manager'] == command['manager'] and it.get('subresource') != command.get('subresource') for it in said.get('conflicts', ())))
            return
        if word in LOOKS:
            self.look('show managed' if command.get('managed') is True else word, bench.state())
            return
        self.add({'undo': 'undone', 'redo': 'redone'}.get(word, 'accepted'))
        if word in ('apply', 'update', 'strip'):
            self.kept(bench)
        if word in ('apply', 'update'):
            self.contents(deed, command)
            self.changed(word, command, said, before, bench)

    def kept(self, bench):
        """What an accepted command did to the history."""
        self.add('a state forgotten', bench.has_forgotten)
        self.add('a future cut and nothing forgotten at the depth', bench.has_cut and bench.is_full() and not bench.has_forgotten)
        self.add('a depth of 1', bench.depth == 1)
        self.add('a depth of 1,000', bench.depth == MOST_DEPTH)

    def contents(self, deed, command):
        given = command['object']
        for name in (*given, *given['metadata']):
            self.add('%s: %s' % (deed, name), name in FIELDS)
        self.add('%s: a name of %d' % (deed, len(command['manager'])), len(command['manager']) in LENGTHS)

    def look(self, word, state):
        """A look that was answered; the object with its managers tells the whole state."""
        self.add(word)
        if word != 'show managed':
            return
        body, table = state
        self.add('places', len(body))
        self.add('entries', len(table))
        self.add('owned paths', sum(len(row.owned) for row in table))
        parents = {path[:-1] for path in body if path}
        own = points(body)
        for path, there in body.items():
            if isinstance(there, tuple):
                self.add('nested lists', any(map(is_item, path)))
                numbers = [json.loads(it[2:]) for it in there if it.startswith('v:')]
                self.add('texts ordered otherwise than their values', sorted(numbers) != sorted(numbers, key=text))
            elif is_leaf(there):
                self.add('atomic lists', there.startswith('['))
                self.add('atomic maps', there.startswith('{'))
            self.add('entries of maps', bool(path) and body[path[:-1]] is DICT)
            if path and path not in parents and not is_leaf(there):
                self.add(self.empty(path, there))
            self.add('items of two keys', bool(path) and path[-1].startswith('k:') and len(json.loads(path[-1][2:])) > 1)
            self.add('names that need escapes', bool(path) and '\\' in text(path[-1][2:] if not is_item(path[-1]) else ''))
        self.add('an entry that owns outside its part', sum(not Act(row.key, '').has(path) for row in table for path in row.owned))
        self.add('owned branches', sum(path not in own for row in table for path in row.owned))
        owned = [path for row in table for path in row.owned]
        self.add('shared paths', len(owned) - len(set(owned)))

    def empty(self, path, there):
        if isinstance(there, tuple):
            return 'empty map lists' if path[-1] in ('f:ports', 'f:groups', 'f:rows') else 'empty sets'
        return 'empty maps' if there is DICT else 'empty records'

    def changed(self, word, command, said, before, bench):
        """What an accepted apply or update did."""
        after, given = bench.state(), read_object(bench.kind, command['object'], bench.identity).body
        key = Key(command['manager'], word.capitalize(), command.get('subresource', ''))
        self.parts(word, key, given, before, after)
        old, new = ({row.key: row for row in state.table} for state in (before, after))
        mine, now = old.get(key), new.get(key)
        self.add('a repeated apply', before == after)
        is_order = before.body != after.body and before.table == after.table and not any(
            said[name] for name in ('added', 'modified', 'removed'))
        self.add('only an order changed', is_order)
        self.add('an apply of an order alone', is_order and word == 'apply')
        if mine and now:
            self.add('a moment kept' if mine.at == now.at else 'a moment renewed')
        self.add('a manager leaves', len(old.keys() - new.keys()))
        self.add('a manager is new', len(new.keys() - old.keys()))
        for row in before.table:
            taken = row.key != key and row.key in new and row.owned - new[row.key].owned
            self.add('force takes some and leaves some', bool(taken) and command.get('force') is True)
        if word == 'apply':
            self.given_up(mine.owned - (now.owned if now else set()) if mine else set(), before, after)
        for path, there in after.body.items():
            if isinstance(there, tuple) and isinstance(before.body.get(path), tuple):
                self.order(word, path, before.body[path], given.get(path, ()))

    def parts(self, word, key, given, before, after):
        """What an accepted apply or update did with the parts of the object."""
        act, live = Act(key, ''), before.body
        outside = {path: there for path, there in given.items() if not act.has(path)}
        self.add('an %s through status' % word, bool(key.part))
        self.add('one name through both parts', len({row.key.part for row in after.table if row.key.name == key.name}) > 1)
        rows = [owned_by(state.table, key) for state in (before, after)]
        self.add('owned outside the part and kept', any(not act.has(path) for path in rows[0] & rows[1]))
        if word == 'update':
            is_other = outside != {path: there for path, there in live.items() if not act.has(path)}
            self.add('an update %s than the live one' % ('through status with another rest' if key.part else 'with another status'), is_other)
        elif key.part:
            self.add('an apply through status without a status', len(given) > 1 and len(outside) == len(given))
        else:
            self.add('an apply of a status that is not its part', bool(outside))

    def given_up(self, paths, before, after):
        others = {path for row in after.table for path in row.owned}
        own = points(before.body)
        for path in paths:
            self.add('given up and kept by another', path in after.body and path in others)
            self.add('given up and gone', path not in after.body)
            self.add('a key field given up stays', path in after.body and path not in others and len(path) > 1 and path[-2].startswith('k:'))
            self.add('a given-up branch', path not in own)
            above = path[:-1]
            self.add('an emptied parent goes', path not in after.body and above not in after.body and above not in paths and above != METADATA)

    def order(self, word, path, live, given):
        """How the order in which a list was given stands to the live one."""
        common = set(live) & set(given)
        ours, theirs = [it for it in given if it in common], [it for it in live if it in common]
        if ours == theirs:
            return
        if word == 'update':
            self.add('updated in another order')
        else:
            self.add('configured in another order')
            self.add('some left out in another order', len(theirs) < len(live))
            between = live[live.index(theirs[0]):live.index(theirs[-1])]
            self.add('others between those in another order', not common.issuperset(between))
            self.add('many in another order', len(live) > 8)
            self.add('new ones among others in another order', len(given) > len(ours) and given[-1] in common)
        self.add('inside an item in another order', any(map(is_item, path)))
        self.add('a map list in another order', given[0].startswith('k:'))
