"""The worked runs of a list: what the scripts that try a program on them read of the list.

A list is a JSON file with a list of objects. Each has `words`, the wanted exit code as `status` and, where all of it is told,
the wanted output as `stdout`. Standard input is `stdin`, one byte a character, or the pieces of `stdin_parts` in turn: a
`text`, a `repeat` so many times (`count`), or `numbered` with each number below `count` in it. `stdin_directory` and
`stdout_full` stand for an input that cannot be read and an output that takes nothing; `big` for a long input. A run holds
from the stage `since` on, and up to `until` where that is there.
"""
import json


def runs_of(path, stage=None, big=False):
    """The runs of a list with an input and an output that work, that hold at a stage, or for good where none is given."""
    with open(path) as file:
        runs = json.load(file)
    found = []
    for run in runs:
        holds = 'until' not in run if stage is None else run['since'] <= stage <= run.get('until', stage)
        if holds and not run.get('stdin_directory') and not run.get('stdout_full') and (big or not run.get('big')):
            found.append(run)
    return found


def input_of(run):
    if 'stdin_parts' not in run:
        return run.get('stdin', '').encode('latin-1')
    pieces = []
    for part in run['stdin_parts']:
        if 'text' in part:
            pieces.append(part['text'].encode('latin-1'))
        elif 'repeat' in part:
            pieces.append(part['repeat'].encode('latin-1') * part['count'])
        else:
            pieces.extend(part['numbered'].encode('latin-1') % k for k in range(part['count']))
    return b''.join(pieces)


def is_wanted(run, answer):
    """Whether an exit code and an output are those that the run tells, as far as it tells them."""
    code, written = answer
    lines = written.split(b'\n')
    return (code == run['status'] and ('stdout' not in run or written == run['stdout'].encode('latin-1'))
            and all(lines[number - 1:number] == [line.encode('latin-1')] for number, line in run.get('lines', [])))


def told(run):
    """How a run is named in what is printed."""
    return ' '.join(repr(word) if ' ' in word or not word else word for word in run['words'])
