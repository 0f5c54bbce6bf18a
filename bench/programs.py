"""The programs that the scripts here run."""
import argparse
import os

TOP = os.path.dirname(os.path.dirname(os.path.abspath(__file__)))
BUILT = os.path.join(TOP, 'crates', 'graphite', 'out', 'graphite')
SCRIPT = os.path.join(TOP, 'bin', 'graphite')


def runnable(path):
    """The type of an option that names a program: a path to one that can be run."""
    if os.path.isfile(path) and os.access(path, os.X_OK):
        return path
    told = 'there is no program %s' % path
    if path == BUILT:
        told += ': bin/graphite and .ci/run build it'
    raise argparse.ArgumentTypeError(told)
