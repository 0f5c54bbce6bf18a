#!/usr/bin/env python3
"""Runs the built program at each limit and one past it, and on names that are alike, beside another program.

    bench/limits.py [--program PATH] [--peer PATH] [--only WORD[,WORD..]] [--folder PATH]
    bench/limits.py --names N[,N..] [--colliding] [--keys N] [--repeat N] [--program PATH] [--peer PATH] [--only WORD[,WORD..]]

The first form prints a table: what is at its limit or one past it, the size of the text, the exit code, the processor seconds
and the peak memory in MB of 2^20 bytes, of the program and of the one at --peer, and whether the answer is right: the exit
code is the one that the limit wants, a refusal is the one that it wants, and both wrote the same bytes. A text at all limits at
once has 1,048,576 vertices, 2,097,152 edges, 4,194,304 property lines and 268,435,456 bytes. Texts are
written piece by piece to a file in --folder (one of the system's for such files where it is not given), which wants 1 GB. A peak
below that of this script, some 20 MB, shows as that.

With --names there is another table: a text of N vertices, and N edges between them, whose names are of one shape, or a vertex
with so many properties (no more than --keys, 10,000) whose keys are, and the least processor seconds of `degree` on it of --repeat runs (3). The shapes are
random bytes, counting, names that share all but a few bytes at either end, that differ from another one in one byte, that have the
same bytes in another order, and those of one sum if each byte counts 31 or 33 times the one behind it. With --colliding there are names
besides that collide on purpose: the table of names begins to look for all of them at one place. They are found by trying, which wants a C
compiler and a few seconds for 100,000, and the way in which the toolchain's `IndexSet` hashes (its seed is fixed) is written out for it here.
With --only those lines alone whose first column has one of the words.
The exit code is 1 where an answer was not right, or a shape took more than four times the time of random names, and half a second.
"""
import argparse
import filecmp
import os
import random
import subprocess
import sys
import tempfile

from programs import BUILT, runnable

TEXT, VERTICES, EDGES, PROPERTIES = 268_435_456, 1_048_576, 2_097_152, 4_194_304
LINE, NAME, KEY, VALUE, LAST, STEPS, MADE, SEED = 1_024, 64, 32, 2 ** 32 - 1, 2 ** 44, 2_097_152, 1_000_000, 2 ** 64 - 1
BLOCK = 10_000
DONE, WORDS, REFUSED = (0, None), (2, b'refused words\n'), b'refused text line %d rule %d\n'


def numbered(form, count):
    """So many lines of one form, which takes the number of the line."""
    for at in range(0, count, BLOCK):
        yield b''.join(form(k) for k in range(at, min(at + BLOCK, count)))


def padding(size):
    """Comments and blank lines of so many bytes together."""
    long = b'#' * LINE + b'\n'
    for at in range(0, size // len(long), BLOCK // 10):
        yield long * min(BLOCK // 10, size // len(long) - at)
    rest = size % len(long)
    yield b'#' * (rest - 1) + b'\n' if rest else b''


def text_of_size(size):
    head, end = b'graph 1 1\n', b'end\n'
    yield head
    yield from padding(size - len(head) - len(end))
    yield end


def blank_lines(size, head=b'', end=b''):
    yield head
    for at in range(0, size - len(head) - len(end), 1 << 20):
        yield b'\n' * min(1 << 20, size - len(head) - len(end) - at)
    yield end


def vertices(count):
    yield b'graph 1 1\n'
    yield from numbered(lambda k: b'v v%d 0 1\n' % k, count)
    yield b'end\n'


def edges(count):
    yield b'graph 1 1\nv a 0 1\n'
    yield from numbered(lambda k: b'e e%d a a 0 1\n' % k, count)
    yield b'end\n'


def properties(count):
    yield b'graph 1 %d\nv a 0 %d\n' % (count, count)
    yield from numbered(lambda k: b'pv a k %d %d %d\n' % (k, k + 1, k % 7), count)
    yield b'end\n'


def all_at_once():
    """A text at all limits of size; what is left is comments behind its end."""
    size = 0
    owned = PROPERTIES // EDGES
    parts = [[b'graph 1 9\n'], numbered(lambda k: b'v v%d 0 9\n' % k, VERTICES),
             numbered(lambda k: b'e e%d v%d v%d %d 9\n' % (k, k // 2, (k * 7919 + 1) % VERTICES, k % 9), EDGES),
             numbered(lambda k: b'pe e%d %s %d 9 %d\n' % (k // owned, (b'time', b'cost')[k % owned], k // owned % 9, 1 + k % 5), PROPERTIES),
             [b'end\n']]
    for part in parts:
        for piece in part:
            size += len(piece)
            yield piece
    yield from padding(TEXT - size)


def small(*lines):
    return ['\n'.join([*lines, 'end', '']).encode()]


def pair(*lines):
    """A text of two vertices over the greatest horizon, an edge between them, and these lines."""
    return small('graph 1 %d' % LAST, 'v a 0 %d' % LAST, 'v b 0 %d' % LAST, 'e x a b 0 %d' % LAST, *lines)


def refused(line, rule):
    return 1, REFUSED % (line, rule)


def cases_of_texts():
    """What is tried: a name, the words, the text, and the exit code with the whole output that is wanted, where that is told."""
    for words in (['degree'], ['show']):
        yield 'all limits at once', words, all_at_once(), DONE
    yield 'text at 268,435,456 bytes', ['degree'], text_of_size(TEXT), DONE
    yield 'text past, 268,435,457 bytes', ['degree'], text_of_size(TEXT + 1), refused(0, 16)
    yield 'text at 268,435,456 bytes, blank behind its end', ['degree'], blank_lines(TEXT, b'graph 1 1\nend\n'), DONE
    yield 'text at 268,435,456 bytes, a record last', ['degree'], blank_lines(TEXT, b'graph 1 1\nend\n', b'end\n'), refused(TEXT - 15, 15)
    yield 'text at 268,435,456 bytes, all blank', ['degree'], blank_lines(TEXT), refused(TEXT + 1, 14)
    yield 'vertices at 1,048,576', ['degree'], vertices(VERTICES), DONE
    yield 'vertices past, 1,048,577', ['degree'], vertices(VERTICES + 1), refused(VERTICES + 2, 13)
    yield 'edges at 2,097,152', ['degree'], edges(EDGES), DONE
    yield 'edges past, 2,097,153', ['degree'], edges(EDGES + 1), refused(EDGES + 3, 13)
    yield 'property lines at 4,194,304', ['degree'], properties(PROPERTIES), DONE
    yield 'property lines at 4,194,304, used', ['max', '--key', 'k'], properties(PROPERTIES), DONE
    yield 'property lines past, 4,194,305', ['degree'], properties(PROPERTIES + 1), refused(PROPERTIES + 3, 13)


def cases_of_lines():
    for past in (0, 1):
        which = 'past' if past else 'at'
        name, key, line = 'n' * (NAME + past), 'k' * (KEY + past), '#' * (LINE + past)
        yield 'line %s, %d bytes' % (which, len(line)), ['degree'], small('graph 1 1', line), refused(2, 1) if past else DONE
        yield 'name %s, %d bytes' % (which, len(name)), ['show'], small('graph 1 1', 'v %s 0 1' % name), refused(2, 4) if past else DONE
        yield 'name of an edge %s, %d bytes' % (which, len(name)), ['show'], pair('e %s a b 0 1' % name), refused(5, 4) if past else DONE
        yield 'key %s, %d bytes' % (which, len(key)), ['max', '--key', key], pair('pv a %s 0 1 5' % key), refused(5, 4) if past else DONE
        yield ('value %s, %d' % (which, VALUE + past), ['max', '--key', 'k'], pair('pv a k 0 %d %d' % (LAST, VALUE + past)),
               refused(5, 5) if past else DONE)
        yield 'horizon %s, %d' % (which, LAST + past), ['degree'], small('graph 1 %d' % (LAST + past)), refused(1, 5) if past else DONE
        yield ('end of a life %s, %d' % (which, LAST + past), ['show'], small('graph 1 %d' % LAST, 'v a %d %d' % (LAST - 1, LAST + past)),
               refused(2, 5) if past else DONE)
        yield 'begin of a life past, %d' % (LAST + past), ['show'], small('graph 1 %d' % LAST, 'v a %d %d' % (LAST + past, LAST)), refused(2, 5 if past else 6)
    most = pair('pv a k 0 %d %d' % (LAST, VALUE), 'pe x cost 0 %d %d' % (LAST, VALUE), 'pe x time 0 %d %d' % (LAST, VALUE))
    yield 'sum of the greatest values', ['max', '--key', 'k', '--report', 'sums'], most, (0, ''.join(
        ['graphite max steps 3 calls 3\n', *('%s %d %d %d\n' % (v, LAST, LAST, LAST * VALUE) for v in 'ab'), 'end\n']).encode())
    for program in ('distance', 'cheapest', 'earliest'):
        yield 'greatest cost and time', [program, '--source', 'a'], most, DONE


def cases_of_words():
    whole = ['degree', '--at', str(LAST - 1)]
    yield 'at, the last instant', whole, pair(), (0, b'graphite degree steps 0 calls 0\na 1\nb 0\nend\n')
    for words, most in ((['bfs', '--source', 'a', '--steps'], STEPS), (['reach', '--source', 'a', '--steps'], STEPS), (['rank', '--steps'], STEPS)):
        yield 'steps at %d' % most, words + [str(most)], small('graph 1 1', 'v a 0 1'), DONE
        yield 'steps past, %d' % (most + 1), words + [str(most + 1)], small('graph 1 1', 'v a 0 1'), WORDS
    for option in ('--from', '--until', '--at'):
        wanted = DONE if option == '--until' else (3, b'refused query 2\n')
        yield '%s at %d' % (option[2:], LAST), ['earliest', '--source', 'a', option, str(LAST)], pair(), wanted
        yield '%s past, %d' % (option[2:], LAST + 1), ['earliest', '--source', 'a', option, str(LAST + 1)], pair(), WORDS
    made = {'seed': 7, 'vertices': 3, 'edges': 4, 'horizon': 10, 'of': 'degree'}
    for option, most in (('seed', SEED), ('vertices', MADE), ('edges', MADE), ('horizon', LAST)):
        for past in (0, 1):
            given = dict(made, **{option: most + past})
            words = ['made'] + [word for pair_of in given.items() for word in ('--' + pair_of[0], str(pair_of[1]))]
            yield 'made, %s %s' % (option, 'past, %d' % (most + 1) if past else 'at %d' % most), words, [], WORDS if past else DONE
    most = ['made', '--seed', str(SEED), '--vertices', str(MADE), '--edges', str(MADE), '--horizon', str(LAST), '--of']
    for program in ('degree', 'reach'):
        yield 'made, all at their limits, %s' % program, most + [program], [], DONE


def run(program, words, text, out):
    """The exit code, processor seconds and peak memory in MB of one run."""
    with open(text, 'rb') as given, open(out, 'wb') as taken:
        child = subprocess.Popen([program] + words, stdin=given, stdout=taken)
        _, status, usage = os.wait4(child.pid, 0)
    child.returncode = os.waitstatus_to_exitcode(status)
    return child.returncode, usage.ru_utime + usage.ru_stime, usage.ru_maxrss / 1024


def write(path, pieces):
    with open(path, 'wb') as out:
        for piece in pieces:
            out.write(piece)


def is_wanted(code, out, wanted):
    if wanted[1] is None or code != wanted[0]:
        return code == wanted[0]
    with open(out, 'rb') as file:
        return file.read(len(wanted[1]) + 1) == wanted[1]


def verdict(runs, outs, wanted):
    told = [] if is_wanted(runs[0][0], outs[0], wanted) else ['NOT RIGHT, wanted %d %s' % (wanted[0], (wanted[1] or b'').decode().strip())]
    if len(runs) > 1 and (runs[0][0] != runs[1][0] or not filecmp.cmp(*outs, shallow=False)):
        told.append('OTHER BYTES' if runs[0][0] == runs[1][0] else 'OTHER EXIT CODE %d' % runs[1][0])
    return ', '.join(told) or 'right'


def is_asked(args, what):
    return not args.only or any(word in what for word in args.only.split(','))


def limits(args, programs, folder):
    """Prints the table of limits; whether all was right."""
    text, outs = os.path.join(folder, 'text'), [os.path.join(folder, 'out%d' % k) for k in range(len(programs))]
    head = ['what', 'words', 'bytes', 'exit code', 'seconds', 'peer', 'peak', 'peer', 'answer']
    print('| %s |\n|%s' % (' | '.join(head), '---|' * len(head)), flush=True)
    is_right = True
    for cases in (cases_of_texts, cases_of_lines, cases_of_words):
        for what, words, pieces, wanted in cases():
            if not is_asked(args, what):
                continue
            write(text, pieces)
            runs = [run(program, words, text, out) for program, out in zip(programs, outs)]
            told = verdict(runs, outs, wanted)
            is_right = is_right and told == 'right'
            peer = ['%.2f' % runs[1][1], '%.0f' % runs[1][2]] if len(runs) > 1 else ['', '']
            said = ' '.join(words) if len(words) < 8 else words[0]
            print('| %s | `%s` | %s | %d | %.2f | %s | %.0f | %s | %s |' % (
                what, said, '{:,}'.format(os.path.getsize(text)), runs[0][0], runs[0][1], peer[0], runs[0][2], peer[1], told), flush=True)
    return is_right


LETTERS = 'ABCDEFGHIJKLMNOPQRSTUVWXYZabcdefghijklmnopqrstuvwxyz0123456789_.:-'


def random_names(draw, count, size):
    return [''.join(draw.choices(LETTERS, k=size)) for _ in range(count)]


def shuffled(draw, names):
    draw.shuffle(names)
    return names


def one_byte(draw, count, size):
    """Names that differ from one of a few in one byte."""
    few = random_names(draw, 1 + count // (size * 40), size)
    names = set()
    while len(names) < count:
        name, at = draw.choice(few), draw.randrange(size)
        names.add(name[:at] + draw.choice(LETTERS) + name[at + 1:])
    return shuffled(draw, sorted(names))


def anagrams(draw, count, size):
    letters, names = list(LETTERS[:size]), set()
    while len(names) < count:
        draw.shuffle(letters)
        names.add(''.join(letters))
    return shuffled(draw, sorted(names))


def sums(blocks):
    """Names of two blocks, in every order, that are worth the same."""
    def names(draw, count, size):
        width = max(1, (count - 1).bit_length())
        return shuffled(draw, [''.join(blocks[k >> bit & 1] for bit in range(width)) for k in range(count)])
    return names


# Prints so many names of ten letters for which the table begins at one place. A slice is hashed by its length in eight bytes and then byte
# by byte; each write joins the two halves of a product of 128 bits. The table joins the two halves of the hash, and goes by the low bits.
# The state behind all letters but two is kept.
COLLIDING = r'''
#include <stdint.h>
#include <stdio.h>
#include <stdlib.h>
#include <string.h>
static uint64_t put(uint64_t state, uint64_t part, uint64_t size) {
    unsigned __int128 product = (unsigned __int128)(state ^ part) * (0x9e3779b97f4a7c15u ^ 2 * size);
    return (uint64_t)product ^ (uint64_t)(product >> 64);
}
static uint64_t folded(uint64_t hash) { return hash ^ hash >> 32; }
static uint64_t put_byte(uint64_t state, unsigned char byte) { return put(state, byte * 0x010101u, 1); }
int main(int count, char **words) {
    long wanted = atol(words[1]), low = atol(words[2]) - 1;
    const char *letters = words[3];
    int kinds = strlen(letters);
    for (uint64_t k = 0; count == 4 && wanted; k++) {
        char name[11] = {0};
        uint64_t rest = k, state = put(0x243f6a8885a308d3u, 10, 8);
        for (int at = 0; at < 8; at++, rest /= kinds) { name[at] = letters[rest % kinds]; state = put_byte(state, name[at]); }
        for (int i = 0; i < kinds; i++) {
            uint64_t last = put_byte(state, letters[i]);
            for (int j = 0; j < kinds && wanted; j++)
                if (!(folded(put_byte(last, letters[j])) & low)) { name[8] = letters[i]; name[9] = letters[j]; puts(name); wanted--; }
        }
    }
}
'''


def colliding(draw, count, size):
    """Names for which a table of so many names, nine for each of its groups, begins to look in its first group."""
    groups = 1
    while 9 * groups < count:
        groups *= 2
    with tempfile.TemporaryDirectory() as folder:
        source, finder = os.path.join(folder, 'colliding.c'), os.path.join(folder, 'colliding')
        with open(source, 'w') as out:
            out.write(COLLIDING)
        subprocess.run([os.environ.get('CC', 'cc'), '-O2', '-o', finder, source], check=True)
        found = subprocess.run([finder, str(count), str(groups), LETTERS], check=True, stdout=subprocess.PIPE)
    return found.stdout.decode().split()


SHAPES = {
    'random': random_names,
    'random, 12 bytes': lambda draw, count, size: random_names(draw, count, 12),
    'counting': lambda draw, count, size: ['n%d' % k for k in range(count)],
    'counting, in no order': lambda draw, count, size: shuffled(draw, ['n%d' % k for k in range(count)]),
    'counting, falling': lambda draw, count, size: ['n%d' % k for k in reversed(range(count))],
    'a long head in common': lambda draw, count, size: shuffled(draw, ['x' * (size - 8) + '%08d' % k for k in range(count)]),
    'a long tail in common': lambda draw, count, size: shuffled(draw, ['%08d' % k + 'x' * (size - 8) for k in range(count)]),
    'one byte differs': one_byte,
    'the same bytes, in another order': anagrams,
    'one sum, 31 times': sums(('Aa', 'BB')),
    'one sum, 33 times': sums(('Ab', 'BA')),
    'colliding': colliding,
}


def names_text(shape, count):
    """N vertices and N edges between them, named alike; the ends are in no order."""
    draw = random.Random('%s %d' % (shape, count))
    names = SHAPES[shape](draw, count, NAME)
    yield b'graph 1 9\n'
    yield from numbered(lambda k: b'v %s 0 9\n' % names[k].encode(), count)
    yield from numbered(lambda k: b'e %s %s %s 0 9\n' % tuple(name.encode() for name in (names[k], *draw.choices(names, k=2))), count)
    yield b'end\n'


def keys_text(shape, count):
    """A vertex with N properties, whose keys are named alike."""
    names = SHAPES[shape](random.Random('%s %d' % (shape, count)), count, KEY)
    yield b'graph 1 9\nv a 0 9\n'
    yield from numbered(lambda k: b'pv a %s 0 9 %d\n' % (names[k].encode(), k), count)
    yield b'end\n'


def names(args, programs, folder):
    """Prints the table of names; whether no shape was slow."""
    text, outs = os.path.join(folder, 'text'), [os.path.join(folder, 'out%d' % k) for k in range(len(programs))]
    head = ['names', 'number', 'bytes', 'seconds', 'times random', 'peer', 'times random', 'answer']
    print('| %s |\n|%s' % (' | '.join(head), '---|' * len(head)), flush=True)
    is_right = True
    for most in (int(n) for n in args.names.split(',')):
        for kind, make, count in (('names', names_text, most), ('keys', keys_text, min(most, args.keys))):
            first = None
            for shape in SHAPES:
                # the others are measured by the random ones
                if shape != 'random' and not is_asked(args, shape):
                    continue
                if shape == 'colliding' and (kind == 'keys' or not args.colliding):
                    continue
                write(text, make(shape, count))
                tried = [[run(program, ['degree'], text, out) for _ in range(args.repeat)] for program, out in zip(programs, outs)]
                told = verdict([runs[0] for runs in tried], outs, DONE)
                least = [min(seconds for _, seconds, _ in runs) for runs in tried]
                first = first or least
                if least[0] > 4 * first[0] + 0.5:
                    told += ', SLOW'
                is_right = is_right and told == 'right'
                cells = ['%.2f | %.1f' % (own, own / max(rand, 0.01)) for own, rand in zip(least, first)] + ([' | '] if len(least) == 1 else [])
                print('| %s: %s | %s | %s | %s | %s |' % (
                    kind, shape, '{:,}'.format(count), '{:,}'.format(os.path.getsize(text)), ' | '.join(cells), told), flush=True)
    return is_right


def main():
    ask = argparse.ArgumentParser(description=__doc__, formatter_class=argparse.RawDescriptionHelpFormatter)
    ask.add_argument('--program', type=runnable, default=BUILT)
    ask.add_argument('--peer', type=runnable)
    ask.add_argument('--only')
    ask.add_argument('--names')
    ask.add_argument('--colliding', action='store_true')
    # the names of two blocks have two bytes for each bit of the number, and a key has at most 32
    ask.add_argument('--keys', type=int, default=10_000, choices=range(1, 65_537), metavar='N')
    ask.add_argument('--repeat', type=int, default=3)
    ask.add_argument('--folder')
    args = ask.parse_args()
    programs = [os.path.abspath(path) for path in (args.program, args.peer) if path]
    with tempfile.TemporaryDirectory(dir=args.folder) as folder:
        return 0 if (names if args.names else limits)(args, programs, folder) else 1


if __name__ == '__main__':
    sys.exit(main())
