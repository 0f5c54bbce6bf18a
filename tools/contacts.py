#!/usr/bin/env python3
"""Makes a graph text of contacts that were measured in short intervals.

    tools/contacts.py CONTACTS > contacts.graph

A line `t i j` says that i and j were in contact in the interval of 20 seconds (--interval) that ends at second t; further
columns are not read. Each of the two is a vertex that lives all the time. Contacts of one pair that touch or overlap are one,
and that is two edges, one each way, or one edge from i to j with --directed. CONTACTS is a file, or standard input where
none is named.
"""
import argparse
import collections
import re
import sys

from graph_text import EDGES, HORIZON, INPUT, VERTICES, Refused, ascii_of, changes, names, run

NUMBER = re.compile('[0-9]{1,15}')
Contact = collections.namedtuple('Contact', 'start first second number end')


def contacts_of(lines, file):
    """The people in the order in which they come, and the ends of the intervals of each pair, with their lines."""
    people, pairs = {}, collections.defaultdict(dict)
    for line, words in enumerate(lines, 1):
        fields = words.split()
        if not fields or fields[0].startswith('#'):
            continue
        if len(fields) < 3:
            raise Refused('a line wants a second and two names', file, line)
        if not NUMBER.fullmatch(fields[0]):
            raise Refused(f'{ascii_of(fields[0])} is no whole number of seconds', file, line)
        if fields[1] == fields[2]:
            raise Refused(f'{ascii_of(fields[1])} is in contact with itself', file, line)
        pair = tuple(people.setdefault(name, len(people)) for name in fields[1:3])
        pairs[pair][int(fields[0])] = line
    if not pairs:
        raise Refused('there is no contact', file)
    return list(people), pairs


def both_ways(pairs):
    """The pairs with the smaller number first: a contact of i with j is one of j with i."""
    joined = collections.defaultdict(dict)
    for pair, ends in pairs.items():
        joined[min(pair), max(pair)].update(ends)
    return joined


def merged(pairs, interval, origin):
    """The contacts by their starts: those of a pair that touch or overlap are one."""
    contacts = []
    for (first, second), ends in pairs.items():
        spans = []
        for end in sorted(ends):
            if spans and end - interval <= spans[-1][1]:
                spans[-1][1] = end
            else:
                spans.append([end - interval, end])
        contacts += [Contact(start - origin, first, second, number, end - origin)
                     for number, (start, end) in enumerate(spans, 1)]
    return sorted(contacts)


def origin_of(pairs, given, file):
    """The second that is instant 0: 0 itself, or the start of the first interval."""
    end, line = min((end, line) for ends in pairs.values() for end, line in ends.items())
    if given.origin == 'first':
        return end - given.interval
    if end < given.interval:
        raise Refused(f'the interval of {given.interval} seconds begins before second 0', file, line)
    return 0


def lines_of(people, contacts, given):
    """The lines of the graph text. The horizon leaves room for what arrives one instant after the last contact."""
    wanted = dict(enumerate(people))
    vertex, ways = names(wanted), (1,) if given.directed else (1, -1)
    arcs = [(contact, (contact.first, contact.second)[::way]) for contact in contacts for way in ways]
    edges = {(ends, contact.number): f'{vertex[ends[0]]}:{vertex[ends[1]]}:{contact.number}' for contact, ends in arcs}
    edge, horizon = names(edges), 1 + max(contact.end for contact in contacts)
    yield f'# {len(contacts)} contacts of {len(people)} people, in seconds'
    yield from changes(wanted, vertex)
    yield f'graph 1 {horizon}'
    for name in vertex.values():
        yield f'v {name} 0 {horizon}'
    for contact, ends in arcs:
        yield f'e {edge[ends, contact.number]} {vertex[ends[0]]} {vertex[ends[1]]} {contact.start} {contact.end}'
    yield 'end'


def opened(path):
    if path is None:
        return sys.stdin.buffer
    try:
        return open(path, 'rb')
    except OSError as error:
        raise Refused(f'the file cannot be read: {error.strerror}', path) from None


def interval_of(words):
    if not NUMBER.fullmatch(words) or not 1 <= int(words) <= 86_400:
        raise ValueError
    return int(words)


def tool():
    words = argparse.ArgumentParser(description=__doc__, formatter_class=argparse.RawDescriptionHelpFormatter)
    words.add_argument('contacts', nargs='?', help='a file; standard input where none is named')
    words.add_argument('--interval', type=interval_of, default=20,
                       help='seconds of an interval, 1 to 86,400; 20 where not given')
    words.add_argument('--origin', choices=['first', 'keep'], default='first',
                       help='`first`: instants count from the first interval on; `keep`: they are the seconds as given')
    words.add_argument('--directed', action='store_true', help='a contact leads from i to j alone')
    given = words.parse_args()
    file = given.contacts or INPUT
    with opened(given.contacts) as text:
        lines = (line.decode('utf-8', 'surrogateescape') for line in text)
        people, pairs = contacts_of(lines, file)
    origin = origin_of(pairs, given, file)
    contacts = merged(pairs if given.directed else both_ways(pairs), given.interval, origin)
    count = len(contacts) * (1 if given.directed else 2)
    if len(people) > VERTICES or count > EDGES or max(contact.end for contact in contacts) >= HORIZON:
        raise Refused(f'{len(people)} people or {count} edges are more than a graph text has, or the seconds are too late', file)
    return ''.join(line + '\n' for line in lines_of(people, contacts, given))


if __name__ == '__main__':
    run(tool)
