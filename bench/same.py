#!/usr/bin/env python3
"""Compares the built program with another one, byte by byte, on made texts of five shapes, and on `made`.

    bench/same.py --peer PATH --make PATH [--program PATH] [--texts N] [--lists N] [--edges N] [--made N]
    bench/same.py --peer PATH --texts 0 --made N [--program PATH] [--first N]

For each shape and each of N seeds there is a text. Four shapes are written by the program at --make: `made` (lives and
edges spread at random), `timetable` (edges of one instant, in epoch milliseconds), `contacts` (short edges) and `supply`
(long edges with costs that change). It is called with the shape, the seed, and the sizes (`made SEED VERTICES EDGES
HORIZON`, `timetable SEED STOPS LINES EDGES`, `contacts SEED PEOPLE EDGES`, `supply SEED SITES EDGES`). The fifth, `town`,
is made here: stops that open and close, and lines of which the times and the costs change, in minutes or in epoch
milliseconds.

Both programs run on each text the six programs of snapshots, with keys that it has and has not, also with few supersteps;
and as many lists of words as --lists says for a program of journeys, from the ends of its edges, with windows and instants
near those of its edges, half of them with written journeys. A line a shape says how many runs gave the same bytes and exit code, and how many of them ended
with which; the exit code is 0 where all were the same. The program is bin/graphite where no path is given.

With --made N there is one more line: N sets of options of `made` (from number --first on), each with the eleven programs.
The first sets are those at the ends: the least and the greatest seed, no vertex, one vertex, no edge, the horizons 1, 2 and
17,592,186,044,416; the others are drawn. `rank` has at most 60 vertices and 200 edges, since its time grows with the
number of vertices times that of instants of change. The standard input of the program is to play no part: it is in turn
a pipe that is closed, a pipe with bytes, all of which have to be there afterwards, and a folder, which cannot be read.
"""
import argparse
import collections
import os
import random
import subprocess
import sys

from programs import SCRIPT, runnable

SNAPSHOTS = ['degree', 'bfs', 'components', 'max', 'distance', 'rank']
JOURNEYS = ['reach', 'earliest', 'cheapest', 'fastest', 'latest']
LAST = 17_592_186_044_416
# Sets of options of `made`: the seed, the vertices, the edges and the horizon.
ENDS = [
    (0, 0, 0, 1), (2 ** 64 - 1, 0, 0, LAST), (7, 1, 0, 1), (7, 1, 5, 1), (0, 1, 5, LAST), (2 ** 64 - 1, 2, 9, 2),
    (2 ** 63, 2000, 5000, LAST), (2 ** 63 - 1, 2000, 0, 2), (2 ** 64 - 1, 2000, 5000, 1), (0, 2000, 5000, 2),
    (1, 2000, 1, 3), (2 ** 32, 3, 5000, 4096), (2 ** 32 - 1, 3, 5000, 4097), (2 ** 64 - 2, 60, 200, LAST - 1), (2, 2, 5000, 4),
]
# What standard input is, since it is to play no part.
INPUTS = ['closed', 'bytes', 'folder']


def sizes(shape, edges, draw):
    if shape == 'made':
        return [max(2, edges // 10), edges, draw.choice([10, 1000, 1_000_000])]
    if shape == 'timetable':
        return [max(4, edges // 20), 4, edges]
    if shape == 'contacts':
        return [max(2, edges // 20), edges]
    return [max(2, edges // 10), edges]


def parts(draw, first, end):
    """An interval, cut at a few instants."""
    cuts = sorted({first, end, *(draw.randrange(first, end) for _ in range(draw.randrange(3)))})
    return zip(cuts, cuts[1:])


def town(draw, edges):
    """The text of a town: stops that open and close, and lines of which the times and the costs change."""
    unit, base = draw.choice([(1, 0), (60_000, 1_700_000_000_000)])
    open_at, closed_at = base + 10 * unit, base + 90 * unit
    horizon = base + 100 * unit
    lines, lives, properties = ['graph 1 %d' % horizon], [], []
    for v in range(max(2, edges // 5)):
        lives.append((draw.choice([0, base, draw.randrange(base, open_at + 1)]),
                      draw.choice([horizon, draw.randrange(closed_at, horizon + 1)])))
        lines.append('v stop%d %d %d' % (v, *lives[v]))
    for e in range(edges):
        start, target = draw.randrange(len(lives)), draw.randrange(len(lives))
        a = draw.randrange(open_at, closed_at)
        b = draw.choice([a + 1, draw.randrange(a + 1, closed_at + 1)])
        lines.append('e line%d stop%d stop%d %d %d' % (e, start, target, a, b))
        for key, least, most in (('time', 1, 20 * unit), ('cost', 0, 9)):
            for c, d in parts(draw, a, b):
                if draw.random() < 0.8:
                    properties.append('pe line%d %s %d %d %d' % (e, key, c, d, draw.randint(least, most)))
    return '\n'.join(lines + properties + ['end', '']).encode()


def made_text(make, shape, seed, edges, draw):
    """A text, and what it was made of."""
    if shape == 'town':
        return town(draw, edges), 'town %d' % seed
    line = [make, shape, str(seed)] + [str(n) for n in sizes(shape, edges, draw)]
    return subprocess.run(line, stdout=subprocess.PIPE, check=True).stdout, ' '.join(line[1:])


def snapshot_words(lines, draw):
    sources = [line[2] for line in lines if line[0] == 'e'] or [line[1] for line in lines if line[0] == 'v']
    keys = sorted({line[2] for line in lines if line[0] == 'pv'}) + ['height']
    source, key = draw.choice(sources), draw.choice(keys)
    steps = str(draw.randrange(1, 6))
    yield ['degree']
    for words in (['bfs', '--source', source], ['components'], ['max', '--key', key], ['distance', '--source', source], ['rank']):
        yield words
        yield words + ['--steps', steps]


def instant(lines, draw):
    """An instant at which something begins or ends, or one beside it."""
    ends = [int(t) for line in lines if line[0] in 'ev' and line[0] != 'end' for t in line[-2:]]
    return max(0, draw.choice(ends) + draw.choice([-1, 0, 0, 1, 7]))


def fastest_window(edge, draw):
    """A window about the first departure of an edge; now and then one that is longer than is answered."""
    first = max(0, int(edge[4]) - draw.choice([0, 1, 5, 300]))
    return ['--from', str(first), '--until', str(first + draw.choice([1, 2, 10, 60, 600, 4096, 4097]))]


def window(lines, edge, draw):
    first, end = sorted([draw.choice([int(edge[4]), instant(lines, draw)]), instant(lines, draw)])
    words = ['--from', str(first)] if draw.random() < 0.5 else []
    return words + (['--until', str(end)] if draw.random() < 0.4 else [])


def journey_words(lines, draw):
    edge = draw.choice([line for line in lines if line[0] == 'e'])
    program = draw.choice(JOURNEYS)
    words = [program, '--target', edge[3]] if program == 'latest' else [program, '--source', draw.choice([edge[2], edge[2], edge[3]])]
    words += fastest_window(edge, draw) if program == 'fastest' else window(lines, edge, draw)
    if draw.random() < 0.3:
        words += ['--steps', str(draw.choice([1, 2, 3, 5, 8, 13, 30]))]
    return words + report_words(lines, draw)


def report_words(lines, draw):
    path = ['--path', draw.choice([line for line in lines if line[0] == 'v'])[1]]
    at = ['--at', str(instant(lines, draw))]
    return draw.choice([[], ['--report', 'sums'], at, ['--report', 'paths'], ['--report', 'paths'], path + at])


def answer(program, words, text):
    done = subprocess.run([program] + words, input=text, stdout=subprocess.PIPE)
    return done.returncode, done.stdout


def made_set(number):
    """The set of options with a number."""
    if number < len(ENDS):
        return ENDS[number]
    draw = random.Random('set %d' % number)
    vertices = draw.choice([1, draw.randrange(1, 10), draw.randrange(1, 100), draw.randrange(1, 2001)])
    edges = draw.choice([0, draw.randrange(20), draw.randrange(500), draw.randrange(5001)])
    horizon = draw.choice([1, 2, draw.randrange(1, 20), draw.randrange(1, 5000), 10 ** draw.randrange(14), draw.randrange(1, LAST + 1),
                           LAST - draw.randrange(3)])
    return draw.choice([0, 2 ** 64 - 1, draw.getrandbits(8), draw.getrandbits(32), draw.getrandbits(64)]), vertices, edges, horizon


def made_words(numbers, program):
    """The words of `made`, with its options in any order and both forms."""
    seed, vertices, edges, horizon = numbers
    if program == 'rank':
        vertices, edges = min(vertices, 60), min(edges, 200)
    options = [('seed', seed), ('vertices', vertices), ('edges', edges), ('horizon', horizon), ('of', program)]
    draw = random.Random(str(options))
    draw.shuffle(options)
    words = ['made']
    for option, value in options:
        words += ['--%s=%s' % (option, value)] if draw.random() < 0.3 else ['--' + option, str(value)]
    return words


def answer_beside(program, words, kind):
    """The exit code, the output, and whether standard input was left as it was."""
    if kind == 'folder':
        source, given = os.open('/', os.O_RDONLY), b''
    else:
        given = b'' if kind == 'closed' else b'graph 1 10\nv v0 0 10\nend\n\xff\x00' * 300
        source, end = os.pipe()
        os.write(end, given)
        os.close(end)
    try:
        done = subprocess.run([program] + words, stdin=source, stdout=subprocess.PIPE)
        left = b'' if kind == 'folder' else os.read(source, len(given) + 1)
    finally:
        os.close(source)
    return (done.returncode, done.stdout), left == given


def same_made(args):
    """Compares the two programs on sets of options of `made`; how many runs were the same, and the exit codes."""
    same, codes = 0, collections.Counter()
    for number in range(args.first, args.first + args.made):
        for program in SNAPSHOTS + JOURNEYS:
            words = made_words(made_set(number), program)
            kind = INPUTS[sum(codes.values()) % len(INPUTS)]
            own, is_left = answer_beside(args.program, words, kind)
            codes[own[0]] += 1
            is_same = own == answer(args.peer, words, b'')
            same += is_same and is_left
            if not (is_same and is_left):
                print('%s: set %d, input %s | %s' % ('INPUT TAKEN' if is_same else 'DIFFERENT', number, kind, ' '.join(words)))
    return same, codes


def is_all(told, same, codes):
    """Prints how many runs were the same; whether all were."""
    runs = sum(codes.values())
    ends = ', '.join('%d with exit code %d' % (codes[code], code) for code in sorted(codes))
    print('%s, %d of %d runs the same; %s' % (told, same, runs, ends), flush=True)
    return same == runs


def main():
    ask = argparse.ArgumentParser(description=__doc__, formatter_class=argparse.RawDescriptionHelpFormatter)
    ask.add_argument('--program', type=runnable, default=SCRIPT)
    ask.add_argument('--peer', type=runnable, required=True)
    ask.add_argument('--make', type=runnable)
    ask.add_argument('--texts', type=int, default=20)
    ask.add_argument('--lists', type=int, default=10)
    ask.add_argument('--edges', type=int, default=300)
    ask.add_argument('--made', type=int, default=0)
    ask.add_argument('--first', type=int, default=0)
    args = ask.parse_args()
    if args.texts and not args.make:
        ask.error('--make is wanted, but for --texts 0')
    all_same = True
    for shape in ('made', 'timetable', 'contacts', 'supply', 'town') if args.texts else ():
        same, codes = 0, collections.Counter()
        for seed in range(1, args.texts + 1):
            draw = random.Random('%s %d' % (shape, seed))
            text, origin = made_text(args.make, shape, seed, args.edges, draw)
            lines = [line.split() for line in text.decode().splitlines()]
            lists = list(snapshot_words(lines, draw)) + [journey_words(lines, draw) for _ in range(args.lists)]
            for words in lists:
                own = answer(args.program, words, text)
                codes[own[0]] += 1
                if own == answer(args.peer, words, text):
                    same += 1
                else:
                    print('DIFFERENT: %s | %s' % (origin, ' '.join(words)))
        all_same = is_all('%s: %d texts' % (shape, args.texts), same, codes) and all_same
    if args.made:
        all_same = is_all('the program `made`: %d sets' % args.made, *same_made(args)) and all_same
    return 0 if all_same else 1


if __name__ == '__main__':
    sys.exit(main())
