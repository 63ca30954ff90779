"""The kinds of stories that are drawn, and how many of each for a seed."""
import json

from .benches import MOST_DEPTH, read_object
from .bodies import value_at
from .dice import Dice
from .drawn_commands import (bad_line, identified, moment, new_value, of_crowd, owned_value, some_change, some_command, some_deed,
                             some_path, with_entries)
from .drawn_schemas import EVERY_KIND, some_schema
from .drawn_values import led, permuted, spelled, spoiled, spoiled_bytes
from .files import FORMATS, WRITTEN, can_tell, depth_of, file_text
from .play import Play
from .schemas import read_schema
from .values import text

IDENTITIES = (('v1', 'K', 'n'), ('v1', 'K', 'n'), ('example.com/v1', 'App', 'web', 'space'), ('é', '"', '\\', '\n'))
DRAWN, CROWD, MOST_FILLING, MOST_MOVES, SAVE_EVERY = 900, 80, 3_000, 1_001, 300
DAMAGED_FILES = 8
SHOW = {'do': 'show', 'managed': True}


def give(dice, play, command):
    """A line of a session, and then the object with its managers."""
    said = play.step('line', spelled(dice, command))
    play.step('line', text(SHOW).encode())
    if dice.one_in(5):
        play.step('line', text({'do': 'owners', 'path': some_path(dice, play.bench())}).encode())
    if dice.one_in(40):
        play.step('line', b'{"do":"log"}')
        play.step('line', b'{"do":"show"}')
    return said


def begin(dice, play, schema, identity, managers, depth=MOST_DEPTH):
    kind = read_schema(schema)
    given = identified(new_value(dice, kind, 2), identity)
    if managers:
        given = with_entries(dice, given, read_object(kind, {**given}).body, managers)
    play.step('init', text(schema).encode(), text(given).encode(), *deep(depth))


def deep(depth):
    """A depth as a step tells it: the greatest is told by none."""
    return (depth,) if depth != MOST_DEPTH else ()


def some_depth(dice):
    """A small one mostly, so that a short story forgets."""
    return dice.pick((1, 1, 2, 3, 5, 8, 999, MOST_DEPTH))


def great(dice, play):
    """A history up to its depth and beyond it, with more managers than a table takes, and all of it back and forth."""
    begin(dice, play, EVERY_KIND, IDENTITIES[0], 0)
    step = 0
    for make, times in ((some_command, DRAWN), (None, CROWD), (some_change, MOST_FILLING)):
        for _ in range(times):
            if play.bench().is_full():
                break
            give(dice, play, make(dice, play.bench(), step) if make else of_crowd(play.bench(), step))
            step += 1
            if step % SAVE_EVERY == 0:
                play.step('save')
    for word in ('strip', 'update', 'apply'):
        give(dice, play, {'do': 'strip'} if word == 'strip' else some_deed(dice, play.bench(), word, False, step))
    play.step('save')
    for word in ('undo', 'redo'):
        for number in range(MOST_MOVES):
            give(dice, play, {'do': word})
            if number == MOST_MOVES // 2:
                play.step('save')


def full(dice, play):
    """A history up to its depth without subresources, as a file of each format."""
    begin(dice, play, EVERY_KIND, IDENTITIES[0], 0)
    for step in range(MOST_FILLING):
        if play.bench().is_full():
            break
        play.step('line', text(plain(some_change(dice, play.bench(), step))).encode())
    play.close()
    bench = play.bench()
    for number, given in in_each_format(bench):
        opened(play, bench, number, given)
        play.step('line', b'{"do":"undo"}')


def small(dice, play):
    """A few commands on a schema that is drawn, some of them spoiled, on an object with managers of its own."""
    schema = EVERY_KIND if dice.one_in(3) else some_schema(dice)
    begin(dice, play, schema, dice.pick(IDENTITIES), dice.below(6), some_depth(dice))
    for step in range(10 + dice.below(30)):
        if play.bench() is None:
            return
        if dice.one_in(6):
            play.step('line', bad_line(dice, play.bench(), step))
        give(dice, play, some_command(dice, play.bench(), step))
        if dice.one_in(12):
            play.step('save')
    play.step('last', b'{"do":"log"}')


def crowded(dice, play):
    """A table that is nearly full, or would be more than full."""
    begin(dice, play, EVERY_KIND, IDENTITIES[0], 62 + dice.below(4))
    for step in range(12):
        if play.bench() is None:
            return
        give(dice, play, some_command(dice, play.bench(), step))


def long_lists(dice, play):
    """Lists of many items, nested ones too, configured and updated in other orders, with some left out and new ones among them."""
    begin(dice, play, EVERY_KIND, IDENTITIES[0], 0)
    names, numbers = ['h%02d' % number for number in range(24)], range(20, 36)
    rows = [{'id': number, 'marks': dice.some(numbers, 3), 'on': dice.one_in(2)} for number in numbers[:10]]
    value = {'hosts': dice.shuffled(names), 'numbers': dice.shuffled(numbers),
             'ports': [{'name': dice.pick('ab'), 'port': number, 'proto': dice.pick('xy')} for number in dice.shuffled(numbers)],
             'groups': [{'name': name, 'hosts': dice.some(names), 'rows': rows} for name in names[:2]]}
    for step in range(12):
        if step:
            value = value_at(play.bench().state().body) if dice.one_in(2) else owned_value(play.bench(), 'a')
        given = identified(dice.pick((led, led, permuted))(dice, play.bench().kind, value), IDENTITIES[0])
        word = dice.pick(('apply', 'apply', 'apply', 'update'))
        give(dice, play, {'at': moment(step), 'do': word, 'manager': dice.pick(('a', 'm2')), 'object': given})
        for word in dice.some(('undo', 'redo'), 5):
            give(dice, play, {'do': word})


def words(dice, play):
    """Each command a call of its own."""
    begin(dice, play, EVERY_KIND if dice.one_in(2) else some_schema(dice), dice.pick(IDENTITIES), dice.below(4), some_depth(dice))
    for step in range(8 + dice.below(8)):
        if play.bench() is None:
            return
        command = some_command(dice, play.bench(), step)
        if command['do'] in ('apply', 'update'):
            command_by_words(dice, play, command)
        else:
            play.step('ask', command['do'])
        play.step('ask', 'show', not dice.one_in(8))
        if dice.one_in(3):
            path = some_path(dice, play.bench())
            path = text(path) if not dice.one_in(4) else dice.pick((' ["f:spec"]', '[1]', 'x', 'null', '[null]', '[1.5]', '{}', '["q", 1]'))
            play.step('ask', 'owners', path)
        if dice.one_in(6):
            play.step('ask', 'log')


def command_by_words(dice, play, command):
    given = spelled(dice, command['object'])
    if dice.one_in(6):
        given = spoiled_bytes(dice, given) if dice.one_in(2) else text(spoiled(dice, command['object'])).encode()
    at = command['at'] if not dice.one_in(12) else dice.pick(('', 'x', '1969-12-31T23:59:59Z', '2024-02-30T00:00:00Z', '2024-02-29T23:59:59Z'))
    force = (command.get('force', False),) if command['do'] == 'apply' else ()
    play.step('ask', command['do'], given, at, command['manager'], command.get('subresource', ''), *force)


def starts(dice, play):
    """Schemas and objects with something in them that may be wrong, each to make a bench of."""
    schema = EVERY_KIND if dice.one_in(2) else some_schema(dice)
    kind, identity = read_schema(schema), dice.pick(IDENTITIES)
    for _ in range(25):
        given = identified(new_value(dice, kind, 2), identity)
        files = [schema, with_entries(dice, given, read_object(kind, given).body, dice.below(5))]
        place = 0 if dice.one_in(3) else 1
        if place and files[1]['metadata']['managedFields'] and dice.one_in(2):
            entries = files[1]['metadata']['managedFields']
            files[1] = {**given, 'metadata': {**given['metadata'], 'managedFields': spoiled(dice, entries)}}
        else:
            files[place] = spoiled(dice, files[place])
        texts = [text(it).encode() for it in files]
        if dice.one_in(8):
            texts[place] = spoiled_bytes(dice, texts[place])
        if play.step('init', *texts).status == 0:
            play.step('line', text(SHOW).encode())


def damaged(dice, play):
    """The file of a bench with a history, damaged byte by byte or with something invented in a line, taken and saved."""
    begin(dice, play, EVERY_KIND if dice.one_in(2) else some_schema(dice), dice.pick(IDENTITIES), dice.below(5), some_depth(dice))
    if play.bench() is None:
        return
    for step in range(2 + dice.below(6)):
        give(dice, play, some_command(dice, play.bench(), step))
    play.step('save')
    play.close()
    good = play.desk.file if not dice.one_in(3) else file_text(play.bench(), 2)
    for _ in range(30):
        given = spoiled_bytes(dice, good) if dice.one_in(4) else invented(dice, good)
        play.step('file', given)
        if dice.one_in(6):
            play.step('ask', 'log')
        for word in dice.some(('undo', 'redo')):
            play.step('line', text({'do': word}).encode())
        play.step('line', text(SHOW).encode())
        if play.tally and play.bench() and given != good:
            play.tally.add('a changed file is taken')


def plain(command):
    """The command without a subresource."""
    return {name: it for name, it in command.items() if name != 'subresource'}


def in_each_format(bench):
    return [(number, file_text(bench, number)) for number in sorted(FORMATS)]


def opened(play, bench, number, given):
    """Takes the file of a bench in a format: whether it is taken, as that bench. It is where the format can tell the bench."""
    play.step('file', given)
    taken = play.bench()
    if (taken is not None) != can_tell(bench, number) or taken and not taken.is_same(bench, depth_of(bench, number)):
        raise AssertionError('a file of format %d is not taken as its bench' % number)
    if play.tally:
        play.tally.add('format %d: %s' % (number, 'taken' if taken else 'refused'))
        play.tally.add('format %d: taken with another depth' % number, bool(taken) and taken.depth != bench.depth)
    return taken is not None


def formats(dice, play):
    """A bench with a history, in half of the stories without subresources and in some of another depth, saved in each format: each file is
    taken as the bench, goes on as it does, and is damaged; or is refused, or taken with the greatest depth, where its format cannot tell
    the bench."""
    is_plain = dice.one_in(2)
    depth = some_depth(dice) if dice.one_in(3) else MOST_DEPTH
    begin(dice, play, EVERY_KIND if dice.one_in(2) else some_schema(dice), dice.pick(IDENTITIES), dice.below(3 if is_plain else 5), depth)
    if play.bench() is None:
        return
    for step in range(1 + dice.below(10)):
        command = some_command(dice, play.bench(), step)
        give(dice, play, plain(command) if is_plain else command)
    for word in dice.some(('undo', 'undo', 'undo', 'redo')):
        give(dice, play, {'do': word})
    play.close()
    bench = play.bench()
    for number, given in in_each_format(bench):
        if opened(play, bench, number, given):
            play.step('ask', 'log')
            for word in dice.some(('undo', 'redo', 'undo')):
                give(dice, play, {'do': word})
            give(dice, play, some_command(dice, play.bench(), 20))
            play.step('save')
        damaged_in_format(dice, play, number, given)
    for depth in (len(bench.labels), len(bench.labels) - 1, 0):
        told_depth(play, file_text(bench, WRITTEN), depth)


def told_depth(play, given, depth):
    """The file with another depth, which may be less than it has commands."""
    first, rest = given.split(b'\n', 1)
    play.step('file', text({**json.loads(first), 'depth': depth}).encode() + b'\n' + rest)
    play.step('line', b'{"do":"strip"}')
    play.step('line', b'{"do":"log"}')
    if play.tally:
        play.tally.add('a file %s' % ('as long as its depth' if play.bench() else 'longer than its depth'))


def older(dice, play):
    """A bench with a history, mostly without subresources, saved in the older formats and in its own: each file is taken, and goes on as the
    bench does, or is refused where its format cannot tell the bench."""
    # Where it is stripped at the end, the present state has no managers: all else may still tell of a subresource.
    is_stripped = dice.one_in(3)
    begin(dice, play, EVERY_KIND, dice.pick(IDENTITIES), 4 if is_stripped else dice.below(3))
    if play.bench() is None:
        return
    for step in range(1 + dice.below(8)):
        command = some_command(dice, play.bench(), step)
        give(dice, play, plain(command) if is_stripped or not dice.one_in(8) else command)
    if is_stripped:
        give(dice, play, {'do': 'strip'})
    play.close()
    bench = play.bench()
    for number, given in in_each_format(bench):
        is_taken = opened(play, bench, number, given)
        for word in dice.some(('undo', 'redo', 'undo')):
            play.step('line', text({'do': word}).encode())
        if is_taken:
            give(dice, play, some_command(dice, play.bench(), 20))


def damaged_in_format(dice, play, number, good):
    for _ in range(DAMAGED_FILES):
        given = spoiled_bytes(dice, good) if dice.one_in(4) else invented(dice, good)
        play.step('file', given)
        play.step('ask', 'log')
        play.step('line', text(SHOW).encode())
        if play.tally and given != good:
            play.tally.add('format %d: a changed file %s' % (number, 'is taken' if play.bench() else 'is refused'))


def invented(dice, given):
    """A bench's file with a line that tells something else."""
    lines = given.split(b'\n')[:-1]
    place = dice.below(len(lines)) if len(lines) < 4 or dice.one_in(6) else 3 + dice.below(len(lines) - 3)
    how = dice.below(12)
    if how == 0:
        lines[place:place + 1] = []
    elif how == 1:
        lines[place:place] = [lines[place]]
    elif how == 2:
        other = dice.below(len(lines))
        lines[place], lines[other] = lines[other], lines[place]
    else:
        value = json.loads(lines[place])
        if 'record' in value and not dice.one_in(6):
            value = {**value, 'record': spoiled_record(dice, value['record'])}
        else:
            value = spoiled(dice, value)
        lines[place] = text(value).encode()
    return b''.join(line + b'\n' for line in lines)


def spoiled_record(dice, record):
    """A record of which one member tells something else: mostly one that tells something."""
    told = [name for name in sorted(record) if record[name]]
    if not told or dice.one_in(8):
        return spoiled(dice, record)
    name = dice.pick(told)
    how = dice.below(4)
    if how == 0:
        return {**record, name: dice.shuffled(record[name])}
    if how == 1:
        return {**record, name: record[name][:-1]}
    return {**record, name: spoiled(dice, record[name])}


def limits(dice, play):
    """Objects as large as they may be and larger, lines that are too long, and values that nest too deep."""
    start = identified({}, IDENTITIES[0])
    for depth in (32, 33):
        schema = {'type': 'object'}
        for _ in range(depth - 1):
            schema = {'properties': {'a': schema}, 'type': 'object'}
        play.step('init', text(schema).encode(), text(start).encode())
    play.step('init', text(EVERY_KIND).encode(), text(start).encode())
    many = ['h%05d' % number for number in range(19_999)]
    for number, (hosts, spec) in enumerate(((many, {}), (many[:-1], {}), (many[:-1], {'size': 9}), (many[5:], {'size': 9}))):
        value = {'hosts': hosts, **({'spec': spec} if spec else {})}
        command = {'at': moment(number), 'do': dice.pick(('apply', 'update')), 'manager': 'a', 'object': identified(value, IDENTITIES[0])}
        play.step('line', text(command).encode())
    for manager, spec in (('m2', {'size': 9}), ('m2', {})):
        command = {'at': moment(9), 'do': 'apply', 'manager': manager, 'object': identified({'hosts': ['one'], 'spec': spec}, IDENTITIES[0])}
        play.step('line', text(command).encode())
    long = b'{"do":"undo"}' + b' ' * 1_048_564
    for line in (long, long[:-1], b'[' * 127 + b']' * 127, b'[' * 128 + b']' * 128, b'{"do":' * 200):
        play.step('line', line)
    play.step('ask', 'apply', text(start).encode() + b' ' * 1_048_576, moment(1), 'a', '', False)
    play.step('ask', 'log')


# How many stories of each kind are drawn for a seed; those of limits are the same for all.
STORIES = {great: 1, full: 1, small: 100, crowded: 6, long_lists: 4, words: 16, starts: 30, damaged: 24, formats: 24, older: 24}


def jobs(seeds, times):
    """All stories, the longest first: the kind, the seed and a number."""
    found = [(kind.__name__, seed, number) for kind, count in STORIES.items() for seed in seeds
             for number in range(count * times if count > 1 else 1)]
    return [('limits', seeds[0], 0)] + found


def drawn(job, tally):
    """A story that is played."""
    name, seed, number = job
    play = Play(tally)
    {kind.__name__: kind for kind in (limits, *STORIES)}[name](Dice(name, seed, number), play)
    play.close()
    return play
