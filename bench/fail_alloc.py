#!/usr/bin/env python3
"""Lets each request for memory of the built program fail in turn, and says what it answered.

    bench/fail_alloc.py [--program PATH] TEXT WORD..
    bench/fail_alloc.py [--program PATH] [--stage N] [--big] [--most N] --runs LIST

The program is run with the words on the file TEXT once for each request that it makes, and that
request is refused. The answer has to be the run's own, or status 7 with a prefix of its text. With --runs this is done
for each run of a list (bench/worked.py tells its form), whose own answer has to be the one that the list wants: for those that hold
for good, or at the stage N; those with a long input only with --big. Where a run makes more requests than --most (2,000), the first and
the last of these are refused, and others drawn between them, so many together. A line a run that answered otherwise, and one for all;
the exit code is 1 where there was such a run. Needs a C compiler: a small library stands before the system's calls for memory.
"""
import argparse
import collections
import os
import random
import subprocess
import sys
import tempfile

import worked
from programs import BUILT, runnable

OWN, NOTHING, PREFIX, OTHER = 'own answer', 'status 7, nothing written', 'status 7, a prefix written', 'OTHER'
# The calls that ask for memory, but for calloc of the first moment: dlsym asks it itself.
SHIM = r'''
#define _GNU_SOURCE
#include <dlfcn.h>
#include <errno.h>
#include <fcntl.h>
#include <stdio.h>
#include <stdlib.h>
#include <string.h>
#include <unistd.h>
static long refused = -1, count = 0;
static int fails(void) {
    if (refused < 0) { char *text = getenv("REFUSED_REQUEST"); refused = text ? atol(text) : 0; }
    return ++count == refused;
}
void *malloc(size_t size) {
    static void *(*next)(size_t);
    if (!next) next = dlsym(RTLD_NEXT, "malloc");
    if (fails()) { errno = ENOMEM; return 0; }
    return next(size);
}
void *realloc(void *old, size_t size) {
    static void *(*next)(void *, size_t);
    if (!next) next = dlsym(RTLD_NEXT, "realloc");
    if (fails()) { errno = ENOMEM; return 0; }
    return next(old, size);
}
void *calloc(size_t items, size_t size) {
    static void *(*next)(size_t, size_t);
    static int looks = 0;
    if (!next) {
        if (looks) return 0;
        looks = 1;
        next = dlsym(RTLD_NEXT, "calloc");
        looks = 0;
    }
    if (fails()) { errno = ENOMEM; return 0; }
    return next(items, size);
}
int posix_memalign(void **at, size_t align, size_t size) {
    static int (*next)(void **, size_t, size_t);
    if (!next) next = dlsym(RTLD_NEXT, "posix_memalign");
    if (fails()) return ENOMEM;
    return next(at, align, size);
}
void *aligned_alloc(size_t align, size_t size) {
    static void *(*next)(size_t, size_t);
    if (!next) next = dlsym(RTLD_NEXT, "aligned_alloc");
    if (fails()) { errno = ENOMEM; return 0; }
    return next(align, size);
}
__attribute__((destructor)) static void tell(void) {
    char text[32], *path = getenv("REQUESTS_FILE");
    int file = path ? open(path, O_CREAT | O_TRUNC | O_WRONLY, 0600) : -1;
    if (file >= 0 && write(file, text, snprintf(text, sizeof text, "%ld", count)) > 0) close(file);
}
'''


class Refuser:
    """Runs a program with a library before it that refuses one request for memory."""

    def __init__(self, program, folder):
        self.program = os.path.abspath(program)
        source, self.shim, self.told = (os.path.join(folder, name) for name in ('shim.c', 'shim.so', 'told'))
        with open(source, 'w') as file:
            file.write(SHIM)
        subprocess.run(['cc', '-shared', '-fPIC', '-O1', '-fno-builtin', '-o', self.shim, source, '-ldl'], check=True)

    def answer(self, words, text, refused):
        env = dict(os.environ, LD_PRELOAD=self.shim, REQUESTS_FILE=self.told, REFUSED_REQUEST=str(refused))
        child = subprocess.run([self.program] + words, input=text, stdout=subprocess.PIPE, stderr=subprocess.DEVNULL, env=env)
        return child.returncode, child.stdout

    def own(self, words, text):
        """The answer where nothing is refused, and how many requests there were."""
        own = self.answer(words, text, 0)
        with open(self.told) as file:
            return own, int(file.read())

    def kind(self, words, text, refused, own):
        code, written = self.answer(words, text, refused)
        if (code, written) == own:
            return OWN
        if code == 7 and own[1].startswith(written):
            return PREFIX if written else NOTHING
        return OTHER


def chosen(requests, most):
    """The requests to refuse: all, or the first, the last and some between."""
    if requests <= most:
        return range(1, requests + 1)
    third = most // 3
    between = range(third + 1, requests - third + 1)
    drawn = random.Random(requests).sample(between, most - 2 * third)
    return [*range(1, third + 1), *sorted(drawn), *range(requests - third + 1, requests + 1)]


def tried(refuser, words, text, most):
    """The own answer, the number of requests, and how many refusals were answered how; where one was answered otherwise, which."""
    own, requests = refuser.own(words, text)
    kinds = {refused: refuser.kind(words, text, refused, own) for refused in chosen(requests, most)}
    return own, requests, collections.Counter(kinds.values()), [refused for refused in kinds if kinds[refused] == OTHER]


def counts_told(counts):
    return ', '.join('%s %d' % (kind, counts[kind]) for kind in (OWN, NOTHING, PREFIX, OTHER))


def try_list(refuser, runs, most):
    """Tries each run of a list; whether all were right."""
    total, requests, wrong = collections.Counter(), 0, 0
    for run in runs:
        own, count, counts, others = tried(refuser, run['words'], worked.input_of(run), most)
        total += counts
        requests += count
        wanted = worked.is_wanted(run, own)
        if others or not wanted:
            wrong += 1
            print('%s: %s%s' % (worked.told(run), '' if wanted else 'NOT THE WANTED ANSWER; ', counts_told(counts))
                  + (' (the requests %s)' % others[:5] if others else ''), flush=True)
    print('%d runs, %d of them wrong; %d requests, %d refused: %s' % (len(runs), wrong, requests, sum(total.values()), counts_told(total)))
    return wrong == 0


def main():
    ask = argparse.ArgumentParser(description=__doc__, formatter_class=argparse.RawDescriptionHelpFormatter)
    ask.add_argument('--program', type=runnable, default=BUILT)
    ask.add_argument('--runs')
    ask.add_argument('--stage', type=int)
    ask.add_argument('--big', action='store_true')
    ask.add_argument('--most', type=int, default=2000)
    ask.add_argument('text', nargs='?')
    ask.add_argument('words', nargs=argparse.REMAINDER)
    args = ask.parse_args()
    if bool(args.runs) == bool(args.text):
        ask.error('a TEXT with words, or --runs')
    with tempfile.TemporaryDirectory() as folder:
        refuser = Refuser(args.program, folder)
        if args.runs:
            return 0 if try_list(refuser, worked.runs_of(args.runs, args.stage, args.big), args.most) else 1
        with open(args.text, 'rb') as file:
            _, requests, counts, _ = tried(refuser, args.words, file.read(), args.most)
    print('%d requests: %s' % (requests, counts_told(counts)))
    return 1 if counts[OTHER] else 0


if __name__ == '__main__':
    sys.exit(main())
