#!/usr/bin/env python3
"""Times the programs of journeys beside other programs, on one processor.

    bench/journeys.py --peer PATH --make PATH [--scan PATH] [--program PATH] [--edges N[,N..]] [--runs N]
                      [--only WORD[,WORD..]] [--paths] [--processor N] [--folder PATH]

For each number of edges (200,000 and 1,000,000 where none is given) the program at --make writes a text of each shape:
`made`, `timetable`, `contacts` and `supply`, of the sizes in `SHAPES`. The built program, the one at --peer, which takes
the same words, and for `earliest` the one at --scan, which tells the arrival at each vertex alone, run the programs of
journeys on it, in turn, --runs times. The source is that of the edge that lives longest among the first 1,000; the
window of `fastest` ends with its first departure, and has as many instants as `WINDOWS` says. The target is that of the last edge.

Prints a table: the least processor seconds and the least peak memory, in MB of 2^20 bytes, of the runs of each, and
whether all told the same (the peer byte for byte, the scan each arrival). With --only these programs are run, on every
shape, and every program on these shapes. With --paths they tell written journeys too, and no scan is run. Texts are kept in --folder where it is given, and used again. The exit code is 1
where something was told otherwise.

Without --program it is bin/graphite, which is brought up to date first; what is timed then is the file that it starts. A
peak below that of this script, some 15 MB, shows as that.
"""
import argparse
import filecmp
import os
import subprocess
import sys
import tempfile

from programs import BUILT, SCRIPT, runnable

JOURNEYS = ['reach', 'earliest', 'cheapest', 'fastest', 'latest']
# How many instants `fastest` is asked for. Each can be the value of a piece at each vertex, so where edges live long a report
# grows with the window.
WINDOWS = {'made': 16, 'timetable': 4096, 'contacts': 4096, 'supply': 16}
SHAPES = {
    'made': lambda edges: [max(2, edges // 10), edges, 1_000_000_000],
    'timetable': lambda edges: [max(16, edges // 200), max(2, edges // 2500), edges],
    'contacts': lambda edges: [max(40, edges // 50), edges],
    'supply': lambda edges: [max(20, edges // 20), edges],
}


def built(path):
    """The program to time: that at the path, or the one that bin/graphite starts, which is proved and built if need be."""
    if path:
        return path
    if subprocess.run([SCRIPT], stdin=subprocess.DEVNULL, stdout=subprocess.DEVNULL).returncode == 70:
        sys.exit('the program could not be built')
    return BUILT


def text_of(make, folder, shape, edges):
    """The path of the text of a shape with so many edges, which is written where it is not there yet."""
    path = os.path.join(folder, '%s-%d.graph' % (shape, edges))
    if not os.path.exists(path):
        with open(path + '.new', 'wb') as out:
            subprocess.run([make, shape, '1'] + [str(n) for n in SHAPES[shape](edges)], stdout=out, check=True)
        os.rename(path + '.new', path)
    return path


def edges_in(path):
    """The edge that lives longest among the first 1,000, and the last one."""
    first, last = [], None
    with open(path, 'rb') as text:
        for line in text:
            if line.startswith(b'e '):
                last = line
                if len(first) < 1000:
                    first.append(line.split())
            elif last and line.startswith(b'p'):
                break
    return max(first, key=lambda edge: int(edge[5]) - int(edge[4])), last.split()


def words_of(program, shape, text):
    """The words of a program of journeys on a text."""
    edge, last = edges_in(text)
    if program == 'latest':
        return [program, '--target', last[3].decode()]
    words = [program, '--source', edge[2].decode()]
    if program == 'fastest':
        # the last instant of the window is that of the departure, where that fits
        end = max(int(edge[4]) + 1, WINDOWS[shape])
        words += ['--from', str(end - WINDOWS[shape]), '--until', str(end)]
    return words


def run(line, text, out):
    """Processor seconds and peak memory in MB of one run."""
    with open(text, 'rb') as given, open(out, 'wb') as taken:
        child = subprocess.Popen(line, stdin=given, stdout=taken)
        _, status, usage = os.wait4(child.pid, 0)
    child.returncode = os.waitstatus_to_exitcode(status)
    if child.returncode != 0:
        sys.exit('%s ended with exit code %d' % (' '.join(line), child.returncode))
    return usage.ru_utime + usage.ru_stime, usage.ru_maxrss / 1024


def arrivals(path, fields):
    """The number at the end of each line of so many fields, by vertex."""
    with open(path, 'rb') as report:
        lines = [line.split() for line in report]
    return {line[0]: line[-1] for line in lines[1:] if len(line) == fields and line[-1] != b'none'}


def agree(outs):
    if not filecmp.cmp(outs['program'], outs['peer'], shallow=False):
        return False
    return 'scan' not in outs or arrivals(outs['program'], 4) == arrivals(outs['scan'], 2)


def row(programs, words, text, runs, folder):
    """The least times and peaks of each program on a text, and whether all told the same."""
    whos = [who for who in programs if who != 'scan' or words[0] == 'earliest']
    outs = {who: os.path.join(folder, 'out-' + who) for who in whos}
    measured = {who: [] for who in whos}
    for _ in range(runs):
        for who in whos:
            measured[who].append(run([programs[who]] + words, text, outs[who]))
    least = {who: tuple(min(values) for values in zip(*measured[who])) for who in whos}
    return least, agree(outs)


def table(programs, args, folder):
    print('| text | program | time | peer | scan | peak | peer | scan | told |\n|---|---|---|---|---|---|---|---|---|', flush=True)
    all_same = True
    for edges in (int(n) for n in args.edges.split(',')):
        for shape in SHAPES:
            only = args.only.split(',') if args.only else JOURNEYS
            for program in (p for p in JOURNEYS if p in only or shape in only):
                text = text_of(args.make, args.folder or folder, shape, edges)
                words = words_of(program, shape, text) + (['--report', 'paths'] if args.paths else [])
                least, same = row(programs, words, text, args.runs, folder)
                all_same = all_same and same
                whos = [least.get(who) for who in ('program', 'peer', 'scan')]
                cells = ['%.2f' % w[0] if w else '' for w in whos] + ['%.0f' % w[1] if w else '' for w in whos]
                print('| {}, {:,} edges | `{}` | {} | {} |'.format(
                    shape, edges, program, ' | '.join(cells), 'the same' if same else 'OTHERWISE'), flush=True)
    return all_same


def main():
    ask = argparse.ArgumentParser(description=__doc__, formatter_class=argparse.RawDescriptionHelpFormatter)
    ask.add_argument('--program', type=runnable)
    ask.add_argument('--peer', type=runnable, required=True)
    ask.add_argument('--scan', type=runnable)
    ask.add_argument('--make', type=runnable, required=True)
    ask.add_argument('--edges', default='200000,1000000')
    ask.add_argument('--runs', type=int, default=3)
    ask.add_argument('--only')
    ask.add_argument('--paths', action='store_true')
    ask.add_argument('--processor', type=int, default=max(os.sched_getaffinity(0)))
    ask.add_argument('--folder')
    args = ask.parse_args()
    programs = {'program': built(args.program), 'peer': args.peer}
    if args.scan and not args.paths:
        programs['scan'] = args.scan
    # whatever is started from here on stays on this processor
    os.sched_setaffinity(0, {args.processor})
    with tempfile.TemporaryDirectory() as folder:
        return 0 if table(programs, args, folder) else 1


if __name__ == '__main__':
    sys.exit(main())
