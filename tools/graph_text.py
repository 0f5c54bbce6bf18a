"""What the tools share: names and limits of the graph text, and how a tool ends."""
import re
import sys
import unicodedata

LONGEST = 64  # bytes of a name
HORIZON, VERTICES, EDGES, PROPERTIES = 2 ** 44, 2 ** 20, 2 ** 21, 2 ** 22
VALUE = 2 ** 32 - 1
FORM = re.compile('[A-Za-z0-9_.:-]{1,%d}' % LONGEST)
INPUT = 'standard input'


class Refused(Exception):
    """Input that is refused: what is wrong with it, and where."""

    def __init__(self, words, file, line=None):
        super().__init__(f'{file}: {words}' if line is None else f'{file}:{line}: {words}')


def ascii_of(words):
    """The words for a comment or a message: short, and without bytes that a graph text refuses."""
    return ascii(words[:80])


def plain(words):
    """The words without accents, with _ in the place of what a name may not have, and not too long."""
    letters = unicodedata.normalize('NFKD', words)
    bare = ''.join(letter for letter in letters if not unicodedata.combining(letter))
    return re.sub('[^A-Za-z0-9_.:-]', '_', bare)[:LONGEST] or '_'


def names(wanted):
    """For each key a name of its own. Words that are a name stay; others are made plain, and numbered where that is taken."""
    given, counts = {}, {}
    for key, words in wanted.items():
        if FORM.fullmatch(words) and words not in counts:
            given[key] = words
            counts[words] = 1
    for key, words in wanted.items():
        if key not in given:
            base = name = plain(words)
            while name in counts:
                counts[base] = counts.get(base, 1) + 1
                suffix = f'.{counts[base]}'
                name = base[:LONGEST - len(suffix)] + suffix
            given[key] = name
            counts[name] = 1
    return given


def changes(wanted, given):
    """A comment for each name that is not what was wanted."""
    return [f'# {given[key]} stands for {ascii_of(words)}' for key, words in wanted.items() if given[key] != words]


def run(tool):
    """Writes the text that the tool makes; or one line that says why not, and then the exit code is 1."""
    try:
        text = tool()
    except Refused as refused:
        sys.exit(str(refused))
    sys.stdout.write(text)
