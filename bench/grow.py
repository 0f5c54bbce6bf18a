#!/usr/bin/env python3
"""Times the built program on graph texts of growing size, and says how its time grows.

    bench/grow.py [--words 'degree'] [--properties] [--program PATH] [--peer PATH]
                  [--edges N[,N..]] [--repeat N] [--seed N]
    bench/grow.py [--words 'bfs --source central'] [--program PATH] [--peer PATH] [--repeat N] TEXT..

For each number of edges N a text of N vertices and N edges is made, on a horizon of 1,000,000,000
instants: lives and edges are spread at random. With --properties each vertex has a property and each
edge two, on its whole life. The program runs the words on it, pinned to one processor. A line gives
the least wall time and the peak memory; with --peer another program is run on the same text, and the
line says whether its bytes are the same. The last line is the exponent with which the time grows from
the first N to the last. Where files with texts are given, these are run in place of texts that are made.
"""
import argparse
import filecmp
import math
import os
import random
import subprocess
import sys
import tempfile
import time

from programs import BUILT, runnable

HORIZON = 1_000_000_000


def make_text(path, count, seed, properties):
    draw = random.Random(seed)
    middle = HORIZON // 2
    lives, spans = [], []
    with open(path, 'w') as out:
        out.write('graph 1 %d\n' % HORIZON)
        for v in range(count):
            life = (draw.randrange(middle), middle + draw.randrange(HORIZON - middle + 1))
            life = (life[0], max(life[1], middle + 1))
            lives.append(life)
            out.write('v v%d %d %d\n' % (v, life[0], life[1]))
        for e in range(count):
            u, w = draw.randrange(count), draw.randrange(count)
            first, last = max(lives[u][0], lives[w][0]), min(lives[u][1], lives[w][1])
            a = first + draw.randrange(last - first)
            b = a + 1 + draw.randrange(last - a)
            spans.append((a, b))
            out.write('e e%d v%d v%d %d %d\n' % (e, u, w, a, b))
        if properties:
            for v, (a, b) in enumerate(lives):
                out.write('pv v%d size %d %d %d\n' % (v, a, b, draw.randrange(1000)))
            for e, (a, b) in enumerate(spans):
                out.write('pe e%d time %d %d %d\n' % (e, a, b, 1 + draw.randrange(4)))
                out.write('pe e%d cost %d %d %d\n' % (e, a, b, draw.randrange(10)))
        out.write('end\n')


def run(program, words, text, out):
    """Wall seconds and peak memory in MB of one run."""
    with open(text, 'rb') as given, open(out, 'wb') as taken:
        start = time.monotonic()
        child = subprocess.Popen([program] + words, stdin=given, stdout=taken)
        os.sched_setaffinity(child.pid, {min(os.sched_getaffinity(0))})
        _, status, usage = os.wait4(child.pid, 0)
        child.returncode = os.waitstatus_to_exitcode(status)
        if child.returncode != 0:
            sys.exit('%s ended with status %d' % (program, child.returncode))
        return time.monotonic() - start, usage.ru_maxrss / 1024


def best(program, words, text, out, repeat):
    runs = [run(program, words, text, out) for _ in range(repeat)]
    return min(seconds for seconds, _ in runs), min(peak for _, peak in runs)


def line_of(args, text, out, other):
    """The line on one text, and the time of the program."""
    words = args.words.split()
    seconds, peak = best(args.program, words, text, out, args.repeat)
    line = '%6.1f MB text  %6.2f s  %6.0f MB' % (os.path.getsize(text) / 1e6, seconds, peak)
    if args.peer:
        peer_seconds, peer_peak = best(args.peer, words, text, other, args.repeat)
        same = filecmp.cmp(out, other, shallow=False)
        line += '   peer %6.2f s  %6.0f MB   ratios %.2f %.2f   %s' % (
            peer_seconds, peer_peak, seconds / peer_seconds, peak / peer_peak,
            'same bytes' if same else 'OTHER BYTES')
    return line, seconds


def main():
    ask = argparse.ArgumentParser(description=__doc__, formatter_class=argparse.RawDescriptionHelpFormatter)
    ask.add_argument('--program', type=runnable, default=BUILT)
    ask.add_argument('--words', default='degree')
    ask.add_argument('--properties', action='store_true')
    ask.add_argument('--peer', type=runnable)
    ask.add_argument('--edges', default='125000,250000,500000,1000000')
    ask.add_argument('--repeat', type=int, default=3)
    ask.add_argument('--seed', type=int, default=1)
    ask.add_argument('texts', nargs='*', metavar='TEXT')
    args = ask.parse_args()
    times = []
    with tempfile.TemporaryDirectory() as folder:
        text, out, other = (os.path.join(folder, name) for name in ('text', 'out', 'other'))
        for given in args.texts:
            print('%s  %s' % (os.path.basename(given), line_of(args, given, out, other)[0]), flush=True)
        for count in [] if args.texts else (int(n) for n in args.edges.split(',')):
            make_text(text, count, args.seed, args.properties)
            line, seconds = line_of(args, text, out, other)
            times.append((count, seconds))
            print('%9d edges  %s' % (count, line), flush=True)
    if len(times) > 1:
        (n, s), (m, t) = times[0], times[-1]
        print('exponent from %d to %d: %.2f' % (n, m, math.log(t / s) / math.log(m / n)))


if __name__ == '__main__':
    main()
