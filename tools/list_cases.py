"""Books to list: the cases `l` of the program `stored`.

Their lines are the vectors', the twelve of document 01, which stand below, and
those of tools/pairs.py. tools/stored.py writes them.
"""

import itertools
import os

import examples
from examples import changed
from pairs import pairs
from told import cases as told_cases

TWELVE_LINES = """\
0 0 0 1 130 1
0 0 1 0 none 0
0 0 1 1 240 2
0 1 0 0 130 1
0 1 1 0 none 0
0 1 1 1 none 0
1 0 0 0 none 0
1 0 0 1 none 0
1 0 1 1 120 1
1 1 0 0 250 2
1 1 0 1 none 0
1 1 1 0 120 1
"""


def bytes_in(folder, name):
    """The bytes of a file."""
    with open(os.path.join(folder, name), "rb") as data:
        return data.read()


def told_lists(folder):
    """The books of the vectors, with their lines."""
    for name in sorted(os.listdir(folder)):
        if name.endswith(".book"):
            lines = bytes_in(folder, name.replace(".book", ".list"))
            yield (bytes_in(folder, name),), lines.decode("ascii")


def of_refused_books():
    """A book for each refusal of books, 1 to 8."""
    q = examples.q()
    yield b""
    yield changed(q, 0, [2])
    yield examples.book([])
    yield q + b"\0"
    yield changed(q, 43, [1])  # company 1 of one station
    yield examples.dear_q()
    yield changed(q, 65, q[61:65])  # the first link twice
    yield changed(q, 106, [5])  # rule 1 for five companies


def cases(folder):
    """Lines, with what is said to each."""
    told = list(told_lists(os.path.join(folder, "pairs"))) + [((examples.two_companies(),), TWELVE_LINES)]
    return told_cases("l", told, pairs, ((book,) for book in itertools.chain([examples.spring()], of_refused_books())))
