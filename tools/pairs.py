"""List the pairs of a book: an independent reading of document 01.

What it is for. The program `pairs` lists the fares between all stations of a
book. This file says the same from document 01's words alone, by
tools/cheapest.py, so that the stored lines of the programs `pairs` and
`stored` do not come from the code that they test. It shares nothing with the
crates.

How to run it. From the repository's root:

    python3 tools/pairs.py < crates/pairs/stdin

Standard input is a book, standard output its lines.

From another script: `pairs(book)` gives the lines as one text.
"""

import itertools
import sys

from cheapest import cheapest
from judge import judge, verdict
from price import Book

# "Input over 65,536 bytes is judged by its first 65,536."
MOST_INPUT = 65536

# "The ride limit is 4."
LIMIT = 4


def line(book, start, goal):
    """The line of a pair of stations."""
    words = cheapest(book, start + goal + (LIMIT,)).split(" ")
    told = (words[1], words[3]) if words[0] == "fare" else ("none", "0")
    return " ".join(map(str, start + goal + told)) + "\n"


def pairs(given):
    """The lines of a book, or the line of its refusal."""
    book = bytes(given[:MOST_INPUT])
    if judge(book):
        return verdict(book) + "\n"
    stations = [(company, n) for company, table in enumerate(Book(book).tables) for n in range(len(table))]
    return "".join(line(book, start, goal) for start, goal in itertools.permutations(stations, 2))


if __name__ == "__main__":
    sys.stdout.write(pairs(sys.stdin.buffer.read()))
