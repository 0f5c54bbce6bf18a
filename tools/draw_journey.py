#!/usr/bin/env python3
"""Draws one written journey as an SVG picture: time to the right, and a row for each stop in the order of the journey.

    bin/graphite earliest --source station --path harbour --at 40 < examples/town.graph > path.report
    tools/draw_journey.py examples/town.graph < path.report > journey.svg

The report comes on standard input, and the graph text that it is of is named. Of a report of paths (`--report paths`) the
journey of one vertex is drawn, which --vertex names; --instant says for which instant, where there are several lines of it.
Waiting is a thick level line, and each step a sloping line with its edge, its departure and arrival, and its cost; the dot
is the instant that the journey is told for.
"""
import argparse
import collections

from graph_text import INPUT, Refused, run
from picture import INK, LETTER, SIZE, TOP, WIDTH, Picture, is_interval, is_number, is_value, report_lines

ROW = 76
WAIT, STEP = '#e0a92e', '#1b6ca8'

Journey = collections.namedtuple('Journey', 'vertex first last value steps')
Step = collections.namedtuple('Step', 'edge source target depart arrive cost')


def is_known(fields):
    """Whether the fields are a line of a report of paths, or of the path of one vertex."""
    if fields[:1] == ['>']:
        return len(fields) == 5 and all(map(is_number, fields[2:]))
    return fields[:1] == ['='] or is_interval(fields) or is_one(fields)


def is_one(fields):
    return len(fields) == 3 and is_number(fields[1]) and is_value(fields[2])


def edges_of(path):
    """Each edge of a graph text with its ends; what is wrong with a text, graphite says."""
    try:
        with open(path, encoding='ascii', errors='replace') as text:
            rows = [line.split() for line in text]
    except OSError as error:
        raise Refused(f'the file cannot be read: {error.strerror}', path) from None
    return {fields[1]: (fields[2], fields[3]) for fields in rows if fields[:1] == ['e'] and len(fields) == 6}


def journeys_of(rows, edges):
    """The journeys of a report, one for each line that has a value."""
    journeys = []
    for number, fields in rows:
        if fields[0] == '>':
            if not journeys or journeys[-1].value == 'none':
                raise Refused('a step stands behind no value', INPUT, number)
            if fields[1] not in edges:
                raise Refused(f'the graph text has no edge {fields[1]!a}', INPUT, number)
            journeys[-1].steps.append(Step(fields[1], *edges[fields[1]], *map(int, fields[2:])))
        elif fields[0] != '=':
            last = int(fields[1]) + 1 if is_one(fields) else int(fields[2])
            journeys.append(Journey(fields[0], int(fields[1]), last, fields[-1], []))
    return journeys


def chosen(journeys, given):
    """The one journey that is asked for."""
    vertices = dict.fromkeys(journey.vertex for journey in journeys)
    if given.vertex is None and len(vertices) > 1:
        raise Refused(f'the report has {len(vertices)} vertices: --vertex says which one is drawn', INPUT)
    those = [journey for journey in journeys if given.vertex in (None, journey.vertex) and journey.value != 'none'
             and (given.instant is None or journey.first <= given.instant < journey.last)]
    if not those:
        raise Refused('the report has no journey for this vertex and instant', INPUT)
    joined(those[0])
    return those[0]


def joined(journey):
    """Refuses steps that do not go on from one another: then the report is of another text."""
    for step, following in zip(journey.steps, journey.steps[1:]):
        if step.target != following.source or step.arrive > following.depart:
            raise Refused(f'{step.edge} and {following.edge} do not join: is the report of this graph text?', INPUT)
    if journey.steps and journey.vertex not in (journey.steps[0].source, journey.steps[-1].target):
        raise Refused(f'the steps do not lead to or from {journey.vertex}: is the report of this graph text?', INPUT)


def waits_of(journey):
    """Where, from when and until when the journey waits: between steps, and from them to the instant that it is told for."""
    steps, instant = journey.steps, journey.first
    waits = [(step.target, step.arrive, following.depart) for step, following in zip(steps, steps[1:])]
    if steps and journey.vertex == steps[-1].target and steps[-1].arrive <= instant:
        waits.append((journey.vertex, steps[-1].arrive, instant))
    elif steps:
        waits.append((journey.vertex, instant, steps[0].depart))
    return [wait for wait in waits if wait[1] < wait[2]]


def draw_step(picture, step):
    """A step, and beside its middle what it is, on the side that has more room."""
    start = picture.x(step.depart), picture.rows[step.source]
    end = picture.x(step.arrive), picture.rows[step.target]
    picture.line(start, end, STEP, 3)
    words = f'{step.edge}, {step.depart} to {step.arrive}, cost {step.cost}'
    x, y = (start[0] + end[0]) / 2, (start[1] + end[1]) / 2 + SIZE / 3
    right = x + 12 + LETTER * len(words) < WIDTH
    picture.words(words, (x + 12 if right else x - 12, y), 'start' if right else 'end', STEP)


def drawn(program, journey):
    stops = [step.source for step in journey.steps[:1]] + [step.target for step in journey.steps] or [journey.vertex]
    instants = [journey.first] + [t for step in journey.steps for t in (step.depart, step.arrive)]
    room = max(1, (max(instants) - min(instants)) // 20)
    picture = Picture(max(0, min(instants) - room), max(instants) + room, list(dict.fromkeys(stops)), ROW)
    words = f'graphite {program}: {journey.vertex} at {journey.first} has {journey.value}'
    picture.words(words, (picture.left, TOP - SIZE), 'start')
    picture.axis()
    for vertex, start, end in waits_of(journey):
        y = picture.rows[vertex]
        picture.line((picture.x(start), y), (picture.x(end), y), WAIT, 8)
    for step in journey.steps:
        draw_step(picture, step)
    picture.dot((picture.x(journey.first), picture.rows[journey.vertex]), INK)
    return picture.text()


def tool():
    words = argparse.ArgumentParser(description=__doc__, formatter_class=argparse.RawDescriptionHelpFormatter)
    words.add_argument('graph', help='the graph text that the report is of')
    words.add_argument('--vertex', help='whose journey is drawn, where the report has several vertices')
    words.add_argument('--instant', type=int, help='an instant of the line that is drawn, which is the first with a value else')
    given = words.parse_args()
    program, rows = report_lines(is_known)
    return drawn(program, chosen(journeys_of(rows, edges_of(given.graph)), given))


if __name__ == '__main__':
    run(tool)
