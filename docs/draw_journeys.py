#!/usr/bin/env python3
"""Draws written journeys as a picture: time to the right, and one line for each vertex over its lifespan.

    bin/graphite earliest --source station --report paths < examples/town.graph | docs/draw_journeys.py examples/town.graph > docs/journeys.svg

reads the graph text that is named, and from standard input a report with written journeys (`--report paths`, or `--path NAME
--at T`); it writes an SVG picture. Behind the graph text stand the names of the vertices whose journeys are drawn; where
there are none, those of all are. A step is a sloping line from where and when it departs to where and when it arrives, with
its edge and the two instants; a step of several journeys is drawn once. Waiting is a thick line along that of the vertex,
and a dot stands for the instant that a journey is told for, with the value.
"""
import argparse
import collections
import math
import sys

COLOURS = ['#1b6ca8', '#b5432a', '#3b7d3a', '#7a4ea3', '#a06a00', '#00767a', '#b0306f', '#555555']
WIDTH, LEFT, RIGHT, TOP, ROW = 960, 110, 40, 50, 100
PARTS = [0.5, 0.4, 0.6, 0.3, 0.7, 0.2, 0.8]  # how far along a step its label may stand
SIZE, LETTER = 13, 7.4  # of a label, in pixels: how high, and how wide a letter at most

Step = collections.namedtuple('Step', 'edge depart arrive')
Journey = collections.namedtuple('Journey', 'vertex instant value steps')


def read_graph(lines):
    """The horizon; each vertex with its lifespan; each edge with its ends."""
    horizon, vertices, edges = 0, {}, {}
    for line in lines:
        fields = line.split()
        if not fields or line.startswith('#'):
            continue
        if fields[0] == 'graph':
            horizon = int(fields[2])
        elif fields[0] == 'v':
            vertices[fields[1]] = (int(fields[2]), int(fields[3]))
        elif fields[0] == 'e':
            edges[fields[1]] = (fields[2], fields[3])
    return horizon, vertices, edges


def read_report(lines):
    """The journeys of a report: of each line with a value, and of the steps behind it."""
    rows = [line.split() for line in lines]
    if not rows or rows[0][:1] != ['graphite'] or rows[-1] != ['end']:
        sys.exit('draw_journeys.py: no whole report on standard input')
    journeys = []
    for fields in rows[1:-1]:
        if fields[0] == '>':
            journeys[-1].steps.append(Step(fields[1], int(fields[2]), int(fields[3])))
        elif fields[0] != '=' and fields[-1] != 'none':
            journeys.append(Journey(fields[0], int(fields[1]), fields[-1], []))
    return journeys


def waits_of(journey, edges):
    """Where and how long the journey waits: between its steps, and between them and the instant that it is told for."""
    steps, waits = journey.steps, []
    for step, following in zip(steps, steps[1:]):
        waits.append((edges[step.edge][1], step.arrive, following.depart))
    if steps and journey.instant >= steps[-1].arrive:
        waits.append((journey.vertex, steps[-1].arrive, journey.instant))
    if steps and journey.instant <= steps[0].depart:
        waits.append((journey.vertex, journey.instant, steps[0].depart))
    return waits


def span_of(journeys, horizon):
    """The instants that are drawn: those of the journeys, and a few before and after."""
    instants = [journey.instant for journey in journeys]
    for journey in journeys:
        instants += [t for step in journey.steps for t in (step.depart, step.arrive)]
    room = max(1, (max(instants) - min(instants)) // 10)
    return max(0, min(instants) - room), min(horizon, max(instants) + room)


def box_of(words, place):
    """What a label covers that has its middle at this place, on the line that it is written on."""
    half = len(words) * LETTER / 2
    return place[0] - half, place[1] - SIZE, place[0] + half, place[1] + 4


class Picture:
    """The parts of a picture, the lines that its labels keep away from, and the boxes that they stand in."""

    def __init__(self, first, last, vertices):
        self.first, self.scale = first, (WIDTH - LEFT - RIGHT) / max(1, last - first)
        self.rows = {name: TOP + ROW * (row + 1) - ROW // 2 for row, name in enumerate(vertices)}
        self.height = TOP + ROW * len(vertices) + 50
        self.parts, self.labels, self.lines, self.boxes = [], [], [], []

    def x(self, instant):
        return LEFT + (instant - self.first) * self.scale

    def line(self, start, end, colour, width):
        places = 'x1="%.1f" y1="%.1f" x2="%.1f" y2="%.1f"' % (start + end)
        self.parts.append(f'<line {places} stroke="{colour}" stroke-width="{width}"/>')

    def head(self, start, end, colour):
        """The head of an arrow, a little before the end of its line."""
        turn = math.degrees(math.atan2(end[1] - start[1], end[0] - start[0]))
        place = 'translate(%.1f %.1f) rotate(%.1f)' % (end + (turn,))
        self.parts.append(f'<path d="M-18 -6 L-5 0 L-18 6 z" transform="{place}" fill="{colour}"/>')

    def keep_free(self, start, end):
        """A line that labels keep away from, as points along it."""
        count = 1 + int(max(abs(end[0] - start[0]), abs(end[1] - start[1])) / 4)
        self.lines.append([(start[0] + (end[0] - start[0]) * n / count, start[1] + (end[1] - start[1]) * n / count)
                           for n in range(count + 1)])

    def dot(self, place):
        self.parts.append('<circle cx="%.1f" cy="%.1f" r="5" fill="#222222"/>' % place)

    def label(self, words, places, colour):
        """Writes the words at the place at which they cover least."""
        place = min(places, key=lambda place: self.covered(box_of(words, place)))
        self.boxes.append(box_of(words, place))
        self.labels.append(
            '<text x="%.1f" y="%.1f" text-anchor="middle" fill="%s">%s</text>' % (place + (colour, words)))

    def covered(self, box):
        left, top, right, bottom = box
        outside = left < 0 or right > WIDTH
        words = sum(left < other[2] and other[0] < right and top < other[3] and other[1] < bottom for other in self.boxes)
        lines = sum(any(left < x < right and top < y < bottom for x, y in line) for line in self.lines)
        return 100 * outside + 10 * words + lines

    def text(self):
        head = f'<svg xmlns="http://www.w3.org/2000/svg" viewBox="0 0 {WIDTH} {self.height}" width="{WIDTH}" ' \
               f'height="{self.height}" font-family="sans-serif" font-size="{SIZE}">'
        halo = '<g stroke="white" stroke-width="4" stroke-linejoin="round" paint-order="stroke">'
        ground = '<rect width="100%" height="100%" fill="white"/>'
        return '\n'.join([head, ground] + self.parts + [halo] + self.labels + ['</g>', '</svg>', ''])


def draw_axis(picture, first, last):
    """The instants below all, at round numbers."""
    unit = 10 ** max(0, math.floor(math.log10(max(1, last - first))) - 1)
    unit *= next(by for by in (1, 2, 5, 10, 20) if (last - first) / (by * unit) <= 16)
    bottom = picture.height - 35
    for instant in range(-(-first // unit) * unit, last + 1, unit):
        x = picture.x(instant)
        picture.line((x, TOP - 15), (x, bottom), '#eeeeee', 1)
        picture.label(str(instant), [(x, bottom + SIZE + 5)], '#555555')


def draw_lives(picture, vertices, first, last):
    """The line of each vertex, with a stroke where its life begins or ends."""
    for name, (start, end) in vertices.items():
        y = picture.rows[name]
        picture.label(name, [(LEFT / 2, y + 4)], '#222222')
        picture.keep_free((picture.x(first), y), (picture.x(last), y))
        if start < last and first < end:
            picture.line((picture.x(max(start, first)), y), (picture.x(min(end, last)), y), '#aaaaaa', 2)
        for edge in (start, end):
            if first <= edge <= last:
                picture.line((picture.x(edge), y - 8), (picture.x(edge), y + 8), '#aaaaaa', 2)


def draw_waits(picture, journeys, edges):
    for vertex, start, end in sorted({wait for journey in journeys for wait in waits_of(journey, edges)}):
        y = picture.rows[vertex]
        picture.line((picture.x(start), y), (picture.x(end), y), '#f0c24b', 7)


def ends_of(picture, step, edges):
    """Where a step begins and ends in the picture."""
    source, target = edges[step.edge]
    return (picture.x(step.depart), picture.rows[source]), (picture.x(step.arrive), picture.rows[target])


def draw_steps(picture, steps, edges):
    """All steps, and then their labels, each beside its own."""
    colours = {name: COLOURS[number % len(COLOURS)] for number, name in enumerate(edges)}
    for step in steps:
        start, end = ends_of(picture, step, edges)
        picture.line(start, end, colours[step.edge], 2.5)
        picture.head(start, end, colours[step.edge])
        picture.keep_free(start, end)
    for step in steps:
        (left, top), (right, bottom) = ends_of(picture, step, edges)
        words = f'{step.edge} {step.depart} to {step.arrive}'
        side = len(words) * LETTER / 2 + 14
        along = [(left + (right - left) * part, top + (bottom - top) * part + 4) for part in PARTS]
        picture.label(words, [(x + to * side, y) for x, y in along for to in (1, -1)], colours[step.edge])


def draw_instants(picture, journeys):
    """A dot for the instant of each journey, with the value."""
    for journey in journeys:
        x, y = picture.x(journey.instant), picture.rows[journey.vertex]
        side = len(journey.value) * LETTER / 2 + 9
        picture.dot((x, y))
        picture.label(journey.value, [(x + to * side, y + by) for by in (-10, 22) for to in (1, -1)], '#222222')


def main():
    words = argparse.ArgumentParser(description=__doc__, formatter_class=argparse.RawDescriptionHelpFormatter)
    words.add_argument('graph', help='the graph text that the report is of')
    words.add_argument('vertices', nargs='*', help='whose journeys are drawn; those of all where none is named')
    given = words.parse_args()
    with open(given.graph, encoding='ascii') as text:
        horizon, vertices, edges = read_graph(text)
    chosen = [journey for journey in read_report(sys.stdin) if not given.vertices or journey.vertex in given.vertices]
    if not chosen:
        sys.exit('draw_journeys.py: the report has no journey of these vertices')
    first, last = span_of(chosen, horizon)
    picture = Picture(first, last, vertices)
    draw_axis(picture, first, last)
    draw_lives(picture, vertices, first, last)
    draw_waits(picture, chosen, edges)
    steps = sorted({step for journey in chosen for step in journey.steps}, key=lambda step: step[1:] + step[:1])
    draw_steps(picture, steps, edges)
    draw_instants(picture, chosen)
    sys.stdout.write(picture.text())


if __name__ == '__main__':
    main()
