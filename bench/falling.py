#!/usr/bin/env python3
"""Times the reader on properties of one owner and key that come in every order.

    bench/falling.py [--program PATH] [--lines N[,N..]]

For each number of lines N a text of one vertex and N properties of one key is made, whose intervals
rise, fall, come in random order, or come from both ends to the middle; the program writes its canonical
text. A line gives the wall time. The time is to grow little faster than N in each order: the exit code
is 1 where eight times the lines take more than twenty times the time.
"""
import argparse
import random
import subprocess
import sys
import time

from programs import BUILT, runnable


def orders(count):
    rising = list(range(count))
    mixed = rising[:]
    random.Random(1).shuffle(mixed)
    ends = [k // 2 if k % 2 == 0 else count - 1 - k // 2 for k in range(count)]
    return {'rising': rising, 'falling': rising[::-1], 'random': mixed, 'both ends': ends}


def text_of(count, order):
    lines = ['graph 1 %d' % (2 * count), 'v a 0 %d' % (2 * count)]
    lines += ['pv a k %d %d %d' % (2 * k, 2 * k + 1 + k % 2, k % 7) for k in order]
    return ('\n'.join(lines) + '\nend\n').encode()


def seconds(program, text):
    begun = time.time()
    done = subprocess.run([program, 'show'], input=text, stdout=subprocess.PIPE)
    if done.returncode != 0 or done.stdout != text:
        sys.exit('another answer than the text itself: exit code %d' % done.returncode)
    return time.time() - begun


def main():
    ask = argparse.ArgumentParser(description=__doc__, formatter_class=argparse.RawDescriptionHelpFormatter)
    ask.add_argument('--program', type=runnable, default=BUILT)
    ask.add_argument('--lines', default='10000,80000')
    args = ask.parse_args()
    sizes = [int(n) for n in args.lines.split(',')]
    slow = False
    for name in orders(1):
        times = [seconds(args.program, text_of(n, orders(n)[name])) for n in sizes]
        told = ', '.join('%d lines %.2f s' % pair for pair in zip(sizes, times))
        print('%-9s %s' % (name, told))
        steps = zip(zip(sizes, times), zip(sizes[1:], times[1:]))
        slow = slow or any(late > 0.5 and late / max(early, 0.02) > 2.5 * more / fewer for (fewer, early), (more, late) in steps)
    return 1 if slow else 0


if __name__ == '__main__':
    sys.exit(main())
