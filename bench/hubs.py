#!/usr/bin/env python3
"""Times breadth-first search on stars: one vertex, the hub, with very many contacts.

    bench/hubs.py [--program PATH] [--peer PATH] [--contacts N[,N..]] [--shapes SHAPE[,SHAPE..]]
                  [--repeat N] [--limit SECONDS] [--seed N]
    bench/hubs.py --text SHAPE [--contacts N] [--seed N]

A star of N contacts has the source v0, the hub v1 and N vertices around the hub. All live over the whole
horizon of 1,000,000,000 instants. An edge leads from the source to each of the N at all instants, and one
from each of the N to the hub over the interval of a contact; so in one superstep the hub has N messages.
The shapes say which intervals the contacts have, in no order:

    long    begin in the first half and end in the second: in the middle all of them hold
    short   about one holds at each instant
    mixed   half of them are long and half are short: the short ones come and go among the long ones

`bfs --source v0` runs on each star. A line gives the processor seconds and the peak memory in MB of 2^20
bytes, each the least of N runs (--repeat, else 3); with --peer another program runs in turn with this one. (A peak
below that of this script itself, about 16 MB, is not seen: it is told as that.)
What the report has to be is known, so each run's bytes are compared with it: `right`, or OTHER BYTES. A run that
takes more processor seconds than the limit (--limit, else 600) is ended and told as OVER. Where several numbers of
contacts are given, one more line for each shape has the power with which the time of the program grows from the first to
the last that were `right`.
The exit code is 1 where a run of the program was not `right`. With --text nothing is run: the text of one star
is written to standard output.
"""
import argparse
import filecmp
import math
import multiprocessing
import os
import random
import resource
import signal
import subprocess
import sys
import tempfile

from programs import BUILT, runnable

HORIZON = 1_000_000_000
MOST = 1_048_574                                          # a text has at most 1,048,576 vertices


def long_contact(draw, count):
    middle = HORIZON // 2
    return draw.randrange(middle), middle + 1 + draw.randrange(middle)


def short_contact(draw, count):
    span = 1 + draw.randrange(max(1, 2 * HORIZON // count - 1))
    begin = draw.randrange(max(1, HORIZON - span))
    return begin, min(begin + span, HORIZON)


def mixed_contact(draw, count):
    return draw.choice((long_contact, short_contact))(draw, count)


SHAPES = {'long': long_contact, 'short': short_contact, 'mixed': mixed_contact}


def contacts_of(shape, count, seed):
    draw = random.Random(seed)
    return [SHAPES[shape](draw, count) for _ in range(count)]


def write_text(out, contacts):
    out.write('graph 1 %d\n' % HORIZON)
    for v in range(len(contacts) + 2):
        out.write('v v%d 0 %d\n' % (v, HORIZON))
    for k in range(len(contacts)):
        out.write('e e%d v0 v%d 0 %d\n' % (k, k + 2, HORIZON))
    for k, (a, b) in enumerate(contacts):
        out.write('e e%d v%d v1 %d %d\n' % (len(contacts) + k, k + 2, a, b))
    out.write('end\n')


def counts_of(contacts):
    """How many contacts hold, as maximal runs (a, b, number) over the horizon."""
    moves = {0: 0, HORIZON: 0}
    for a, b in contacts:
        moves[a] = moves.get(a, 0) + 1
        moves[b] = moves.get(b, 0) - 1
    ends, runs, held = sorted(moves), [], 0
    for a, b in zip(ends, ends[1:]):
        held += moves[a]
        if runs and runs[-1][2] == held:
            runs[-1] = (runs[-1][0], b, held)
        else:
            runs.append((a, b, held))
    return runs


def write_answer(out, contacts):
    """The report: the hub is two edges from the source where a contact holds. Its notes are all the same, so it is called
    once for each run of equally many contacts; each other vertex is called at most once in a superstep."""
    runs = counts_of(contacts)
    called = sum(1 for _, _, held in runs if held)
    out.write('graphite bfs steps 4 calls %d\n' % (len(contacts) + 2 + len(contacts) + called))
    out.write('v0 0 %d 0\n' % HORIZON)
    begin = 0
    for (_, b, held), after in zip(runs, runs[1:] + [None]):
        if after is None or (after[2] > 0) != (held > 0):
            out.write('v1 %d %d %s\n' % (begin, b, '2' if held else 'none'))
            begin = b
    for k in range(len(contacts)):
        out.write('v%d 0 %d 1\n' % (k + 2, HORIZON))
    out.write('end\n')


def write_both(text, answer, shape, count, seed):
    contacts = contacts_of(shape, count, seed)
    with open(text, 'w') as out:
        write_text(out, contacts)
    with open(answer, 'w') as out:
        write_answer(out, contacts)


def make(*given):
    """Makes text and answer in a process of its own: the memory of this one counts in the peak of those that it starts."""
    maker = multiprocessing.Process(target=write_both, args=given)
    maker.start()
    maker.join()
    if maker.exitcode != 0:
        sys.exit('the text could not be made')


def run(program, files, limit):
    """Processor seconds, peak memory in MB, and what became of one run."""
    text, answer, report = files
    with open(text, 'rb') as given, open(report, 'wb') as taken:
        child = subprocess.Popen([program, 'bfs', '--source', 'v0'], stdin=given, stdout=taken)
        resource.prlimit(child.pid, resource.RLIMIT_CPU, (limit, limit + 1))
        _, status, usage = os.wait4(child.pid, 0)
        child.returncode = os.waitstatus_to_exitcode(status)
    if child.returncode == -signal.SIGXCPU:
        told = 'OVER'
    elif child.returncode != 0:
        told = 'EXIT CODE %d' % child.returncode
    else:
        told = 'right' if filecmp.cmp(report, answer, shallow=False) else 'OTHER BYTES'
    return max(usage.ru_utime + usage.ru_stime, 0.001), usage.ru_maxrss / 1024, told


def best(programs, files, repeat, limit):
    """For each program, run in turn, the least seconds, the least peak, and what became of its last run: none comes after
    one that was not right."""
    runs = [[] for _ in programs]
    for _ in range(repeat):
        for program, own in zip(programs, runs):
            if all(told == 'right' for _, _, told in own):
                own.append(run(program, files, limit))
    return [(min(seconds for seconds, _, _ in own), min(peak for _, peak, _ in own), own[-1][2]) for own in runs]


def line_of(args, shape, count, files):
    """The line on one star, with the seconds and what became of the runs of the program."""
    make(files[0], files[1], shape, count, args.seed)
    programs = [args.program] + ([args.peer] if args.peer else [])
    tried = best(programs, files, args.repeat, args.limit)
    line = '%-6s %9d contacts  %6.1f MB text  %8.2f s  %6.0f MB  %s' % ((shape, count, os.path.getsize(files[0]) / 1e6) + tried[0])
    if args.peer:
        line += '   peer %8.2f s  %6.0f MB  %s' % tried[1]
        line += '   ratios %.2f %.2f' % tuple(own / other for own, other in zip(tried[0][:2], tried[1][:2]))
    return line, tried[0][0], tried[0][2]


def counts(words):
    found = [int(word) for word in words.split(',')]
    if not all(1 <= count <= MOST for count in found):
        raise argparse.ArgumentTypeError('a star has 1 to %d contacts' % MOST)
    return found


def shapes(words):
    found = words.split(',')
    if not all(shape in SHAPES for shape in found):
        raise argparse.ArgumentTypeError('the shapes are %s' % ', '.join(SHAPES))
    return found


def main():
    ask = argparse.ArgumentParser(description=__doc__, formatter_class=argparse.RawDescriptionHelpFormatter)
    ask.add_argument('--program', type=runnable, default=BUILT)
    ask.add_argument('--peer', type=runnable)
    ask.add_argument('--contacts', type=counts, default=[100_000], metavar='N[,N..]')
    ask.add_argument('--shapes', type=shapes, default=list(SHAPES), metavar='SHAPE[,SHAPE..]')
    ask.add_argument('--repeat', type=int, default=3, metavar='N')
    ask.add_argument('--limit', type=int, default=600, metavar='SECONDS')
    ask.add_argument('--seed', type=int, default=1, metavar='N')
    ask.add_argument('--text', choices=SHAPES, metavar='SHAPE')
    args = ask.parse_args()
    if args.text:
        write_text(sys.stdout, contacts_of(args.text, args.contacts[0], args.seed))
        return 0
    wrong = False
    with tempfile.TemporaryDirectory() as folder:
        files = [os.path.join(folder, name) for name in ('text', 'answer', 'report')]
        for shape in args.shapes:
            times = []
            for count in args.contacts:
                line, seconds, told = line_of(args, shape, count, files)
                print(line, flush=True)
                if told == 'right':
                    times.append((count, seconds))
                else:
                    wrong = True
            if len(times) > 1:
                (n, s), (m, t) = times[0], times[-1]
                print('%-6s power from %d to %d: %.2f' % (shape, n, m, math.log(t / s) / math.log(m / n)), flush=True)
    return 1 if wrong else 0


if __name__ == '__main__':
    sys.exit(main())
