"""Runs: stories drawn and compared on all processors, what was met told, and what differs shrunk."""
import argparse, multiprocessing, os, sys, tempfile, time

from .program import Program
from .shrink import Shrinker, told
from .stories import drawn, jobs
from .tally import ALL, OF_EACH_SEED, GROUPS, Tally

MOST_TOLD, MOST_TRIES = 3, 1_500
here = {}


def scratch():
    """A folder that is removed at the end, in memory where there is one."""
    return tempfile.TemporaryDirectory(dir='/dev/shm' if os.access('/dev/shm', os.W_OK) else None)


def begin(name, folder):
    made = os.path.join(folder, str(os.getpid()))
    os.mkdir(made)
    here['program'] = Program(name, made)


def compared(job):
    """A story's steps, its difference, and what was met in it."""
    tally = Tally()
    try:
        made = drawn(job, tally)
        found = here['program'].difference(made.calls)
    except Exception as broken:
        raise RuntimeError('%s, seed %d, number %d: the plain engine broke off' % job) from broken
    return job, made.steps if found else None, found, tally.counts


def words(given):
    parser = argparse.ArgumentParser(prog='tools/plain', description='Compares the built program with the plain engine on drawn stories.')
    parser.add_argument('program')
    parser.add_argument('--seed', type=int, action='append', help='a seed in place of 1, 2 and 3; may be given more than once')
    parser.add_argument('--long', action='store_true', help='ten times as many of the short stories')
    parser.add_argument('--seconds', type=int, default=0, help='goes on with further seeds until so many seconds are over')
    parser.add_argument('--jobs', type=int, default=os.cpu_count(), help='how many stories at a time')
    parser.add_argument('--only', help='one kind of stories alone; then it is not asked that each thing is met')
    return parser.parse_args(given)


def batches(call, begun):
    """The stories of the seeds, and while there is time left those of one seed more."""
    seeds, times = call.seed or [1, 2, 3], 10 if call.long else 1
    yield jobs(seeds, times)
    further = max(seeds)
    while time.monotonic() - begun < call.seconds:
        further += 1
        yield jobs([further], times)


def run(call, begun):
    """The tallies of each seed, and what differed."""
    tallies, differing = {}, []
    with scratch() as folder, multiprocessing.get_context('fork').Pool(call.jobs, begin, (call.program, folder)) as pool:
        for batch in batches(call, begun):
            chosen = [job for job in batch if call.only in (None, job[0])]
            for job, steps, found, counts in pool.imap_unordered(compared, chosen):
                tallies.setdefault(job[1], Tally()).join(counts)
                if found:
                    differing.append((job, steps, found))
                if len(differing) == MOST_TOLD:
                    return tallies, differing
    return tallies, differing


def main(given):
    call, begun = words(given), time.monotonic()
    call.program = os.path.abspath(call.program)
    if not os.access(call.program, os.X_OK):
        sys.exit('tools/plain: no program ' + call.program)
    tallies, differing = run(call, begun)
    whole = Tally()
    for seed in sorted(tallies):
        whole.join(tallies[seed].counts)
        print(tallies[seed].line_of_seed(seed))
    for name, kinds in GROUPS.items():
        print('%s: %s' % (name, ', '.join('%s %d' % (kind, whole.counts.get(kind, 0)) for kind in kinds)))
    for job, steps, found in differing:
        with scratch() as folder:
            print(told(job, *Shrinker(Program(call.program, folder), MOST_TRIES).shrink(steps, found)))
    missing = whole.missing(ALL) + ['%s in seed %s' % (it, seed) for seed in tallies for it in tallies[seed].missing(OF_EACH_SEED)]
    if call.only:
        missing, met = [], 'not asked whether all were met'
    else:
        met = 'not all met' if missing else 'all met'
    if missing and not differing:
        print('not met: ' + ', '.join(missing))
    print('%d seeds, %d kinds of things, %s, differences: %d, seconds: %d' % (
        len(tallies), len(ALL), met, len(differing), time.monotonic() - begun))
    return 1 if missing or differing else 0
