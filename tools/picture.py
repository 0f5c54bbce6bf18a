"""What the drawing tools share: a picture with time to the right and a row for each vertex."""
import html
import sys

from graph_text import INPUT, Refused

WIDTH, RIGHT, TOP = 960, 30, 40
SIZE, LETTER = 13, 7.5  # of a word, in pixels: how high, and how wide a letter at most
INK, PALE = '#222222', '#dddddd'


def report_lines(known):
    """The lines of a whole report on standard input, each as its number and its fields, without the first and the last."""
    rows = [line.decode('utf-8', 'replace').split() for line in sys.stdin.buffer]
    if not rows or rows[0][:1] == ['refused']:
        raise Refused('there is no report, but ' + (' '.join(rows[0]) if rows else 'nothing'), INPUT)
    if rows[0][:1] != ['graphite'] or len(rows[0]) < 2:
        raise Refused('a report begins with a line `graphite PROGRAM ..`', INPUT, 1)
    if rows[-1] != ['end']:
        raise Refused('the report is not whole: its last line is not `end`', INPUT, len(rows))
    for number, fields in enumerate(rows[1:-1], 2):
        if not known(fields):
            raise Refused(f'{" ".join(fields)!a} is no line of a report of this kind', INPUT, number)
    return rows[0][1], list(enumerate(rows[1:-1], 2))


def is_number(field):
    return field.isascii() and field.isdigit() and len(field) <= 20


def is_value(field):
    return field == 'none' or is_number(field)


def is_interval(fields):
    """Whether the fields are NAME a b VALUE, with a before b."""
    return (len(fields) == 4 and is_number(fields[1]) and is_number(fields[2]) and int(fields[1]) < int(fields[2])
            and is_value(fields[3]))


def escaped(words):
    return html.escape(''.join(letter if letter.isprintable() else '?' for letter in words))


class Picture:
    """The parts of a picture; x goes with time, from `first` to `last`, and a row is a line of the same height."""

    def __init__(self, first, last, rows, row):
        self.first, self.last, self.row = first, max(last, first + 1), row
        self.rows = {name: TOP + row * number + row / 2 for number, name in enumerate(rows)}
        self.left = 20 + LETTER * max(len(name) for name in rows)
        self.bottom = TOP + row * len(rows)
        self.height = self.bottom + 50
        self.parts = []
        for name, y in self.rows.items():
            self.words(name, (self.left - 10, y + 4), 'end')

    def x(self, instant):
        return self.left + (instant - self.first) * (WIDTH - RIGHT - self.left) / (self.last - self.first)

    def line(self, start, end, colour, width):
        places = 'x1="%.1f" y1="%.1f" x2="%.1f" y2="%.1f"' % (*start, *end)
        self.parts.append(f'<line {places} stroke="{colour}" stroke-width="{width}"/>')

    def box(self, place, wide, high, colour, told=''):
        """A filled box; what is told of it shows where the pointer rests on it."""
        places = 'x="%.1f" y="%.1f" width="%.1f" height="%.1f"' % (*place, wide, high)
        self.parts.append(f'<rect {places} fill="{colour}"><title>{escaped(told)}</title></rect>')

    def dot(self, place, colour):
        self.parts.append('<circle cx="%.1f" cy="%.1f" r="5" fill="%s"/>' % (*place, colour))

    def words(self, words, place, anchor='middle', colour=INK):
        self.parts.append('<text x="%.1f" y="%.1f" text-anchor="%s" fill="%s">%s</text>'
                          % (*place, anchor, colour, escaped(words)))

    def axis(self):
        """The instants below all rows, at round numbers, as many as there is room for."""
        room = (WIDTH - RIGHT - self.left) / (LETTER * (len(str(self.last)) + 3))
        step = step_of(self.last - self.first, min(12, max(1, room)))
        for instant in range(-(-self.first // step) * step, self.last + 1, step):
            x = self.x(instant)
            self.line((x, TOP - 5), (x, self.bottom + 5), PALE, 1)
            inside = min(x, WIDTH - 5 - LETTER * len(str(instant)) / 2)
            self.words(str(instant), (inside, self.bottom + 8 + SIZE))

    def text(self):
        head = f'<svg xmlns="http://www.w3.org/2000/svg" viewBox="0 0 {WIDTH} {self.height:.0f}" width="{WIDTH}" ' \
               f'height="{self.height:.0f}" font-family="sans-serif" font-size="{SIZE}">'
        return '\n'.join([head, '<rect width="100%" height="100%" fill="white"/>', *self.parts, '</svg>', ''])


def step_of(span, most):
    """The least of 1, 2, 5, 10, 20, .. that parts the span in no more parts than `most`."""
    step = 1
    while True:
        for by in (1, 2, 5):
            if span <= by * step * most:
                return by * step
        step *= 10
