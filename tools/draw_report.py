#!/usr/bin/env python3
"""Draws a report of intervals as an SVG picture: a row for each vertex, and a bar for each interval, coloured by its value.

    bin/graphite earliest --source station < examples/town.graph | tools/draw_report.py > town.svg

The report comes on standard input; lines that begin with = or > are passed over. Up to eight values have a colour each; more
have a shade each, from the least to the greatest. `none` is grey. With names of vertices behind it, their rows alone are
drawn.
"""
import argparse
import collections

from graph_text import INPUT, Refused, run
from picture import LETTER, RIGHT, SIZE, TOP, WIDTH, Picture, is_interval, report_lines

NONE = '#c8c8c8'
COLOURS = ['#0072b2', '#e69f00', '#009e73', '#cc79a7', '#56b4e9', '#d55e00', '#f0e442', '#7a5230']
SHADES = [(68, 1, 84), (59, 82, 139), (33, 145, 140), (94, 201, 98), (253, 231, 37)]  # dark is little
STEPS = 5  # values that are told below the shades
ROW = 24

Bar = collections.namedtuple('Bar', 'vertex start end value')


def bars_of(rows):
    """The intervals; the value is None where there is none."""
    return [Bar(fields[0], int(fields[1]), int(fields[2]), None if fields[3] == 'none' else int(fields[3]))
            for _, fields in rows if fields[0] not in '=>']


def is_known(fields):
    return bool(fields) and (fields[0] in ('=', '>') or is_interval(fields))


def cut(bars, first, last):
    """What of the bars lies between two instants."""
    inside = (bar._replace(start=max(bar.start, first), end=min(bar.end, last)) for bar in bars)
    return [bar for bar in inside if bar.start < bar.end]


def shade(part):
    """The colour at a part of the way, 0 to 1, through the shades."""
    place = min(int(part * (len(SHADES) - 1)), len(SHADES) - 2)
    along = part * (len(SHADES) - 1) - place
    return '#%02x%02x%02x' % tuple(round(a + (b - a) * along) for a, b in zip(SHADES[place], SHADES[place + 1]))


def colours_of(values):
    """The colour of each value: one of its own where there are few."""
    if len(values) <= len(COLOURS):
        return dict(zip(values, COLOURS))
    return {value: shade((value - values[0]) / (values[-1] - values[0])) for value in values}


def legend_of(values):
    """What the legend tells: all values where they are few, else some from the least to the greatest."""
    if len(values) <= len(COLOURS):
        return dict(zip(map(str, values), COLOURS))
    steps = range(STEPS)
    return {str(values[0] + (values[-1] - values[0]) * step // (STEPS - 1)): shade(step / (STEPS - 1)) for step in steps}


def draw_legend(picture, values, has_none):
    """Below the axis: a box for each value with the value behind it; a strip of shades where there are many."""
    entries = list(legend_of(values).items()) + [('none', NONE)] * has_none
    x, y = picture.left, picture.bottom + 40
    if len(values) > len(COLOURS):
        picture.words('from the least value to the greatest:', (x, y + 11), 'start')
        y += 20
        for part in range(120):
            picture.box((x + 2 * part, y), 2.2, 12, shade(part / 119))
        y += 20
    wide = 40 + LETTER * max(len(words) for words, _ in entries)
    count = max(1, int((WIDTH - RIGHT - x) / wide))
    for place, (words, colour) in enumerate(entries):
        left, top = x + wide * (place % count), y + 20 * (place // count)
        picture.box((left, top), 14, 14, colour)
        picture.words(words, (left + 19, top + 12), 'start')
    picture.height = y + 20 * -(-len(entries) // count) + 10


def drawn(program, bars, rows):
    first, last = min(bar.start for bar in bars), max(bar.end for bar in bars)
    values = sorted({bar.value for bar in bars if bar.value is not None})
    colours = {None: NONE, **colours_of(values)}
    picture = Picture(first, last, rows, ROW)
    picture.words(f'graphite {program}', (picture.left, TOP - SIZE), 'start')
    picture.axis()
    for bar in bars:
        x, y = picture.x(bar.start), picture.rows[bar.vertex]
        told = f'{bar.vertex} {bar.start} to {bar.end - 1}: {"none" if bar.value is None else bar.value}'
        picture.box((x, y - ROW / 2 + 3), picture.x(bar.end) - x, ROW - 6, colours[bar.value], told)
    draw_legend(picture, values, any(bar.value is None for bar in bars))
    return picture.text()


def tool():
    words = argparse.ArgumentParser(description=__doc__, formatter_class=argparse.RawDescriptionHelpFormatter)
    words.add_argument('vertices', nargs='*', help='whose rows are drawn; those of all where none is named')
    words.add_argument('--from', dest='first', type=int, default=0, help='the first instant that is drawn')
    words.add_argument('--until', dest='last', type=int, help='the instant that the picture ends before')
    given = words.parse_args()
    program, rows = report_lines(is_known)
    bars = bars_of(rows)
    for name in given.vertices:
        if name not in {bar.vertex for bar in bars}:
            raise Refused(f'the report has no vertex {name!a}', INPUT)
    bars = [bar for bar in bars if not given.vertices or bar.vertex in given.vertices]
    bars = cut(bars, given.first, max([given.first] + [bar.end for bar in bars]) if given.last is None else given.last)
    if not bars:
        raise Refused('the report has no interval to draw', INPUT)
    names = list(dict.fromkeys(bar.vertex for bar in bars))
    return drawn(program, bars, names)


if __name__ == '__main__':
    run(tool)
