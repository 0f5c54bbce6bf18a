#!/usr/bin/env python3
"""Compares the answers of the built program to lists of words with those of another one, byte by byte.

    bench/words.py --peer PATH [--program PATH] [--lists N] [--seed N]

N lists of words are drawn: a program's word or another one, and then options and values, right and wrong, in both
forms and in any order. Both programs are given them with the same small text, which `made` is not to look at. Prints each list that is answered
differently, and how many ended with each exit code; the exit code is 0 where all answers are the same. The program is
bin/graphite where no path is given.
"""
import argparse
import collections
import random
import subprocess
import sys

from programs import SCRIPT, runnable


TEXT = b'''graph 1 5000
v a 0 10
v b 0 5000
v c 2 8
v -x 1 4
e ab a b 0 5
e bc b c 3 7
pv a load 0 4 7
pv b load 2 6 3
pe ab cost 1 3 4
pe bc time 5 7 2
end
'''

SNAPSHOTS = ['degree', 'bfs', 'components', 'max', 'distance', 'rank']
JOURNEYS = ['reach', 'earliest', 'cheapest', 'fastest', 'latest']
MADE = ['seed', 'vertices', 'edges', 'horizon', 'of']
PROGRAMS = SNAPSHOTS + JOURNEYS + ['show', 'made', 'made']
WANTED = {'max': ['key'], **{program: ['source'] for program in ['bfs', 'distance'] + JOURNEYS},
          'fastest': ['source', 'until'], 'latest': ['target'], 'made': MADE}
OTHERS = ['', 'Degree', 'bf', 'help', '--help', '-h', '-', '--', 'a', '--version']
VALUES = {
    'source': ['a', 'b', '-x', 'z', '', '-', '--', '--steps'],
    'target': ['c', 'b', 'a', '-x', 'z', '', '-', 'sink'],
    'key': ['load', 'none', '', '-', 'cost'],
    'from': ['0', '2', '4', '9', '904', '5000', '17592186044416', '17592186044417', '01', '', '-1', 'a'],
    'until': ['10', '5', '4', '1', '0', '4096', '4097', '5000', '5001', '17592186044416', '17592186044417', '010', '', '+5'],
    'steps': ['4', '2', '3', '1', '30', '0', '01', '2097152', '2097153', '-1', '+1', '', '1 ', 'a', '99999999999999999999'],
    'report': ['sums', 'intervals', 'paths', 'Intervals', 'path', '', 'sum'],
    'at': ['0', '3', '9', '4999', '5000', '17592186044416', '17592186044417', '03', '', '-3', '18446744073709551616'],
    'path': ['b', 'c', 'a', '-x', 'z', '', '-', '--at'],
    'seed': ['7', '0', '18446744073709551615', '18446744073709551616', '9223372036854775808', '07', '-1', '+7', '', '7 ', 'a'],
    # no 1,000,000 of them, which takes some programs very long
    'vertices': ['10', '3', '40', '1', '0', '00', '010', '1000001', '4294967306', '-1', '+1', '', '1.0', 'a', '99999999999999999999'],
    'edges': ['30', '4', '60', '0', '1', '00', '030', '1000001', '4294967297', '-1', '+1', '', ' 1', 'a', '99999999999999999999'],
    'horizon': ['100', '17592186044416', '2', '1', '3', '0', '0100', '17592186044417', '18446744073709551617', '-1', '+1', '', 'a'],
    'of': SNAPSHOTS + JOURNEYS + ['show', 'made', 'Degree', 'bf', '', '-', '--of', 'degree ', 'check'],
}
STRAYS = ['extra', '-', '--', '--help', '-h', '-V', '--stepsx', '--step', '--source', '--at', '--path', '-at', '--=3', '--from',
          '--until=3', '=', '--of', '--seed=1', '--horizon', '--vertices=0', '--made']


def draw_value(draw, option):
    if option == 'of' and draw.random() < 0.8:
        return draw.choice(SNAPSHOTS + JOURNEYS)
    # made takes five: one that is broken is to be seldom enough that the others matter
    good = draw.random() < (0.93 if option in MADE else 0.8)
    return VALUES[option][0 if good and draw.random() < 0.5 else draw.randrange(3 if good else len(VALUES[option]))]


def draw_words(draw):
    program = draw.choice(PROGRAMS if draw.random() < 0.9 else OTHERS)
    words = [program] if draw.random() < 0.97 else []
    options = [o for o in WANTED.get(program, []) if draw.random() < (0.98 if program == 'made' else 0.9)]
    if program != 'made':
        fitting = ['steps'] + (['from'] if program in JOURNEYS else [])
        fitting += ['until'] if program in JOURNEYS and 'until' not in options else []
        options += draw.sample(fitting, draw.randrange(len(fitting) + 1))
        options += draw.choice([[], ['report'], ['at']] + ([['at', 'path']] if program in JOURNEYS else []))
    # now and then one that does not fit, or that is there already
    options += [draw.choice(list(VALUES)) for _ in range(draw.choice([0, 0, 0, 1]))]
    draw.shuffle(options)
    # a graph of nothing, in which no source is found
    empty = program == 'made' and draw.random() < 0.12
    for option in options:
        value = '0' if empty and option in ('vertices', 'edges') and draw.random() < 0.9 else draw_value(draw, option)
        words += ['--%s=%s' % (option, value)] if draw.random() < 0.4 else ['--' + option, value]
    if draw.random() < (0.06 if program == 'made' else 0.12):
        words.insert(draw.randrange(len(words) + 1), draw.choice(STRAYS))
    return words


def answer(program, words):
    done = subprocess.run([program] + words, input=TEXT, stdout=subprocess.PIPE)
    return done.returncode, done.stdout


def main():
    ask = argparse.ArgumentParser(description='compares the answers of two programs to lists of words')
    ask.add_argument('--program', type=runnable, default=SCRIPT)
    ask.add_argument('--peer', type=runnable, required=True)
    ask.add_argument('--lists', type=int, default=1000)
    ask.add_argument('--seed', type=int, default=1)
    args = ask.parse_args()
    draw = random.Random(args.seed)
    same, codes, made = 0, collections.Counter(), collections.Counter()
    for _ in range(args.lists):
        words = draw_words(draw)
        own, other = answer(args.program, words), answer(args.peer, words)
        same += own == other
        codes[own[0]] += 1
        made[own[0]] += 'made' in words
        if own != other:
            print('DIFFERENT: %r\n  %r\n  %r' % (words, own, other))
    told = ', '.join('%d with exit code %d (%d of them with `made`)' % (codes[code], code, made[code]) for code in sorted(codes))
    print('%d lists of words, %d answered the same; %s' % (args.lists, same, told))
    return 0 if same == args.lists else 1


if __name__ == '__main__':
    sys.exit(main())
