#!/usr/bin/env python3
"""Runs the gate, and tells what it took for each crate, in processor seconds.

    bench/gate.py [--anew] [NAME..]

Runs `rt ci` (of these crates and those below them, or the gate itself; all from nothing with --anew), passes on what it prints, and
at the end writes a table to standard error: for each crate the functions, tests and edits that the
run names, and the processor seconds of its proof, its tests' proofs and its edits. What was kept from
an earlier run takes no time, so the figures from nothing want a machine with nothing kept. The times are
those of the checker's processes below this run, read from /proc twice a second. The exit code is that of `rt ci`.
"""
import argparse
import collections
import os
import re
import subprocess
import sys
import threading
import time

TOP = os.path.dirname(os.path.dirname(os.path.abspath(__file__)))
TICKS = os.sysconf('SC_CLK_TCK')


def processes():
    """For each process: its parent, its start, its processor seconds, its command and its folder."""
    found = {}
    for name in os.listdir('/proc'):
        if not name.isdigit():
            continue
        try:
            with open('/proc/%s/stat' % name) as file:
                stat = file.read()
            with open('/proc/%s/cmdline' % name, 'rb') as file:
                command = file.read().decode(errors='replace').split('\0')
            folder = os.readlink('/proc/%s/cwd' % name)
        except OSError:
            continue
        fields = stat[stat.rindex(')') + 2:].split()
        seconds = (int(fields[11]) + int(fields[12])) / TICKS
        found[int(name)] = (int(fields[1]), fields[19], seconds, command, folder)
    return found


def is_below(found, pid, top):
    while pid in found and pid != top:
        pid = found[pid][0]
    return pid == top


def sample(top, spent, ended):
    """Notes the processor seconds of each check below a process, until it has ended."""
    while not ended.is_set():
        found = processes()
        for pid, (_, start, seconds, command, folder) in found.items():
            if '--crate-name' in command and is_below(found, pid, top):
                crate = command[command.index('--crate-name') + 1]
                part = 'edits' if '/crates/' not in folder else 'tests' if '--test' in command else 'proof'
                spent[(pid, start)] = (crate, part, seconds)
        time.sleep(0.5)


def counts(lines):
    """What the run says of each crate: its functions and its tests."""
    said, crate = collections.defaultdict(dict), None
    for line in lines:
        head = re.match(r'== (\w+)', line)
        if head:
            crate = head.group(1)
        proved = re.match(r'logic=proved (?:tests=(\d+) )?functions=(\d+)', line)
        if proved and crate:
            key, value = ('tests', proved.group(1)) if proved.group(1) else ('functions', proved.group(2))
            said[crate][key] = int(value)
    return said


def edits_of(crate):
    folder = os.path.join(TOP, 'crates', crate, 'must-fail')
    return len([name for name in os.listdir(folder) if name.endswith('.edit')]) if os.path.isdir(folder) else 0


def main():
    ask = argparse.ArgumentParser(description=__doc__, formatter_class=argparse.RawDescriptionHelpFormatter)
    ask.add_argument('--anew', action='store_true')
    ask.add_argument('names', nargs='*', metavar='NAME')
    args = ask.parse_args()
    begun = time.time()
    run = subprocess.Popen(['rt', 'ci'] + ['--anew'] * args.anew + args.names, cwd=TOP, stdout=subprocess.PIPE, stderr=subprocess.STDOUT, text=True)
    spent, ended, lines = {}, threading.Event(), []
    sampler = threading.Thread(target=sample, args=(run.pid, spent, ended), daemon=True)
    sampler.start()
    for line in run.stdout:
        lines.append(line)
        sys.stdout.write(line)
        sys.stdout.flush()
    status = run.wait()
    ended.set()
    sampler.join()
    total = collections.Counter()
    for crate, part, seconds in spent.values():
        total[crate, part] += seconds
    said = counts(lines)
    out = sys.stderr
    out.write('\n| crate | functions | tests | edits | proof | its tests | its edits | together |\n|---|---|---|---|---|---|---|---|\n')
    for crate in sorted(set(said) | {crate for crate, _ in total}):
        own = [total[crate, part] for part in ('proof', 'tests', 'edits')]
        out.write('| `%s` | %s | %d | %d | %d | %d | %d | %d |\n' % (
            crate, said[crate].get('functions', 'kept'), said[crate].get('tests', 0), edits_of(crate), *own, sum(own)))
    out.write('processor seconds: %d together, %d of the clock\n' % (sum(total.values()), time.time() - begun))
    return status


if __name__ == '__main__':
    sys.exit(main())
