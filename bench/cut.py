#!/usr/bin/env python3
"""Tries the built program where its input is cut or fails and where its output is closed or full, beside another program.

    bench/cut.py --peer PATH --runs LIST [--program PATH] [--stage N] [--big] [--ways WAY[,WAY..]] [--most N]
                 [--large N] [--limit SECONDS]

For each run of a list (bench/worked.py tells its form; those that hold for good, or at the stage N) and each way:

    cut       the input ends after k bytes, for every k: the answer is the other program's for these bytes
    pieces    the input comes in pieces of one byte, and in pieces drawn: a read gives one piece, and the answer is as ever
    reset     k bytes can be read, and then a read fails, once: the other end of the stream is reset
    waiting   k bytes can be read, and then a read fails at each try: it would have to wait
    folder    the input is a folder, so the first read fails
    closed    nobody reads the output, where the program is started with the signal for that ignored and where it is not
    full      the output is a file that takes k bytes, for every k: the last write that fits is short, the next one fails
    device    the output is a device that takes nothing

After a read that failed nothing is to be written and the exit code is 5, but where the input is not asked for (words that are
refused, and `made`): then the answer is as ever. After a write that failed the exit code is 6, and what was written is a prefix of
the right text: exactly the k bytes that had room. A program that a closed output ends by a signal has none of the exit codes,
so 6 is right there too, however it was started. (The signal for a file that is full is ignored here: a program that takes it is ended.)

The same is tried on a text of --large vertices (8,000; 0 for none), of which input and report are longer than one read and one
write. Where there are more than --most places (2,000; 200 for the large text), the first, the last, those about the first
four times 65,536 bytes and some between are taken. A line for each answer that is not right, and one for each way with the number of those that were; the exit
code is 1 where one was not. A run that has not ended after --limit seconds (60) is ended, and is not right.
"""
import argparse
import os
import random
import resource
import socket
import subprocess
import sys
import tempfile
import threading

import worked
from programs import BUILT, runnable

LUMP = 65_536
NO_END = 'no end'


class Trial:
    """One run, as it is tried: two programs, the words, the input, and the right answer to them."""

    def __init__(self, args, folder, words, text, most):
        self.program, self.peer = os.path.abspath(args.program), os.path.abspath(args.peer)
        self.limit, self.words, self.text, self.most = args.limit, words, text, most
        self.given, self.taken = os.path.join(folder, 'given'), os.path.join(folder, 'taken')
        with open(self.given, 'wb') as file:
            file.write(text)
        self.right = self.answer(self.peer, text)
        source = os.open('/', os.O_RDONLY)
        self.unread = self.end(self.start(self.peer, source, subprocess.PIPE))
        os.close(source)

    def start(self, program, source, sink, is_ignored=True):
        return subprocess.Popen([program] + self.words, stdin=source, stdout=sink, restore_signals=not is_ignored)

    def end(self, child, given=None):
        """The exit code and the output of a program that was started."""
        try:
            written, _ = child.communicate(given, timeout=self.limit)
        except subprocess.TimeoutExpired:
            child.kill()
            child.communicate()
            return NO_END, b''
        return child.returncode, written or b''

    def answer(self, program, text):
        return self.end(self.start(program, subprocess.PIPE, subprocess.PIPE), text)

    def after_failed_read(self):
        """What is right where a read fails: nothing and 5, or the answer of a program that does not read."""
        return self.unread if self.unread == self.right else (5, b'')

    def after_failed_write(self, room):
        """What is right where the output takes so many bytes."""
        return (6, self.right[1][:room]) if room < len(self.right[1]) else self.right

    def places(self, length):
        """The places 0 to the length: all, or some of them."""
        if length < self.most:
            return range(length + 1)
        third = self.most // 3
        lumps = {k for lump in range(LUMP, length + 1, LUMP)[:4] for k in (lump - 1, lump, lump + 1) if k <= length}
        drawn = random.Random(length).sample(range(length + 1), third)
        return sorted({*range(third), *range(length + 1 - third, length + 1), *drawn, *lumps})


def fed(trial, kind, pieces, is_reset=False):
    """The answer where the input is a socket that gives these pieces; then it ends, or a read fails once."""
    near, far = socket.socketpair(socket.AF_UNIX, kind)
    if is_reset:
        # an end that is closed with bytes in it that nobody has read resets the other one
        far.send(b'x')

    def feed():
        try:
            for piece in pieces:
                near.sendall(piece)
        except OSError:
            pass                                           # the program has ended without them
        near.close()
    child = trial.start(trial.program, far.fileno(), subprocess.PIPE)
    far.close()
    feeder = threading.Thread(target=feed)
    feeder.start()
    own = trial.end(child)
    feeder.join()
    return own


def cut(trial):
    for k in trial.places(len(trial.text)):
        yield k, trial.answer(trial.program, trial.text[:k]), trial.answer(trial.peer, trial.text[:k])


def pieces(trial):
    draw = random.Random(len(trial.text))
    for most in (1, 9, 2000):
        parts, at = [], 0
        while at < len(trial.text):
            parts.append(trial.text[at:at + draw.randint(1, most)])
            at += len(parts[-1])
        yield 'up to %d' % most, fed(trial, socket.SOCK_SEQPACKET, parts), trial.right


def reset(trial):
    for k in trial.places(len(trial.text)):
        yield k, fed(trial, socket.SOCK_STREAM, [trial.text[:k]], is_reset=True), trial.after_failed_read()


def waiting(trial):
    for k in trial.places(min(len(trial.text), LUMP)):     # a pipe holds no more
        source, end = os.pipe()
        os.set_blocking(source, False)
        os.write(end, trial.text[:k])
        own = trial.end(trial.start(trial.program, source, subprocess.PIPE))
        os.close(source)
        os.close(end)
        yield k, own, trial.after_failed_read()


def folder(trial):
    source = os.open('/', os.O_RDONLY)
    yield 'at once', trial.end(trial.start(trial.program, source, subprocess.PIPE)), trial.after_failed_read()
    os.close(source)


def closed(trial):
    for is_ignored in (True, False):
        left, sink = os.pipe()
        os.close(left)
        with open(trial.given, 'rb') as source:
            child = trial.start(trial.program, source, sink, is_ignored)
        os.close(sink)
        yield 'signal ignored' if is_ignored else 'signal as it is', trial.end(child), trial.after_failed_write(0)


def full(trial):
    soft, hard = resource.getrlimit(resource.RLIMIT_FSIZE)
    for k in trial.places(len(trial.right[1])):
        with open(trial.given, 'rb') as source, open(trial.taken, 'wb') as sink:
            # what is started has the limit of this process, which writes no file meanwhile
            resource.setrlimit(resource.RLIMIT_FSIZE, (k, hard))
            try:
                child = trial.start(trial.program, source, sink)
            finally:
                resource.setrlimit(resource.RLIMIT_FSIZE, (soft, hard))
        code, _ = trial.end(child)
        with open(trial.taken, 'rb') as file:
            yield k, (code, file.read()), trial.after_failed_write(k)


def device(trial):
    with open(trial.given, 'rb') as source, open('/dev/full', 'wb') as sink:
        child = trial.start(trial.program, source, sink)
    yield 'at once', trial.end(child), trial.after_failed_write(0)


WAYS = {'cut': cut, 'pieces': pieces, 'reset': reset, 'waiting': waiting, 'folder': folder, 'closed': closed, 'full': full, 'device': device}


def large_text(count):
    """A text of so many vertices, with two edges from each, whose costs change, to vertices of twice its number."""
    lines = ['graph 1 1000'] + ['v v%d 0 1000' % v for v in range(count)]
    lines += ['e e%d v%d v%d %d 900' % (v, (v - 1) // 2, v, v % 50) for v in range(1, count)]
    lines += ['pe e%d cost %d %d %d' % (v, a, b, 1 + v % 9) for v in range(1, count) for a, b in ((v % 50, 70), (70, 900))]
    return '\n'.join(lines + ['end', '']).encode()


def trials(args, place):
    """The runs of the list, each words and input once, and those of the large text."""
    seen = set()
    for run in worked.runs_of(args.runs, args.stage, args.big):
        words, text = run['words'], worked.input_of(run)
        if (*words, text) not in seen:
            seen.add((*words, text))
            yield Trial(args, place, words, text, args.most)
    if args.large:
        text = large_text(args.large)
        for words in (['degree'], ['show'], ['earliest', '--source', 'v0', '--report', 'paths']):
            yield Trial(args, place, words, text, min(args.most, 200))


def short(answer):
    code, written = answer
    return 'exit code %s, %d bytes %r' % (code, len(written), written[-60:])


def main():
    ask = argparse.ArgumentParser(description=__doc__, formatter_class=argparse.RawDescriptionHelpFormatter)
    ask.add_argument('--program', type=runnable, default=BUILT)
    ask.add_argument('--peer', type=runnable, required=True)
    ask.add_argument('--runs', required=True)
    ask.add_argument('--stage', type=int)
    ask.add_argument('--big', action='store_true')
    ask.add_argument('--ways', default=','.join(WAYS))
    ask.add_argument('--most', type=int, default=2000)
    ask.add_argument('--large', type=int, default=8000)
    ask.add_argument('--limit', type=float, default=60)
    args = ask.parse_args()
    ways = args.ways.split(',')
    counts = {way: [0, 0] for way in ways}
    with tempfile.TemporaryDirectory() as place:
        for trial in trials(args, place):
            for way in ways:
                for at, own, wanted in WAYS[way](trial):
                    counts[way][own != wanted] += 1
                    if own != wanted:
                        print('NOT RIGHT: %s (%d bytes), %s, %s\n  %s\n  wanted %s' % (
                            ' '.join(trial.words), len(trial.text), way, at, short(own), short(wanted)), flush=True)
    for way in ways:
        print('%-8s %6d right, %d not' % (way, *counts[way]))
    return 1 if any(wrong for _, wrong in counts.values()) else 0


if __name__ == '__main__':
    sys.exit(main())
