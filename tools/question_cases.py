"""Questions: the cases `q` of the program `stored`.

Their answers are the vectors', document 01's, which stand below, and those of
tools/cheapest.py. tools/stored.py writes them.
"""

import itertools
import os

import examples
from cheapest import cheapest
from judge import book_of
from told import cases as told_cases
from told import vectors


def of_the_outline():
    """The lines of document 01 on book Q and on the books of its other lines, and the spring book."""
    q = examples.q()
    for question, told in (
        ((0, 0, 0, 2, 4), "fare 280 rides 1 0 0 2 full"),
        ((0, 1, 1, 1, 4), "fare 230 rides 2 0 1 2 0 1 0 1 0"),
        ((0, 0, 1, 1, 4), "fare 380 rides 2 0 0 2 0 1 0 1 0"),
        ((0, 0, 2, 0, 4), "fare 530 rides 3 0 0 2 0 1 0 1 0 2 1 0 full"),
        ((0, 0, 2, 0, 2), "refused 12 0"),
        ((0, 0, 2, 0, 3), "fare 530 rides 3 0 0 2 0 1 0 1 0 2 1 0 full"),
        ((0, 0, 2, 1, 4), "refused 12 0"),
        ((0, 2, 1, 1, 4), "refused 12 0"),
        ((1, 1, 0, 0, 4), "fare 400 rides 2 1 1 0 full 0 2 0 full"),
        ((2, 1, 1, 1, 4), "fare 270 rides 2 2 1 0 full 1 0 1 full"),
        ((0, 0, 0, 0, 4), "refused 10 0"),
        ((0, 0, 0, 2, 0), "refused 11 0"),
        ((0, 0, 0, 2, 5), "refused 11 0"),
    ):
        yield (q, bytes(question)), told
    yield (examples.two_ways(), bytes((0, 0, 1, 1, 4))), "fare 260 rides 2 0 0 2 0 1 2 1 0"
    # A search that drops the looped walk for 70 and keeps the next in hand says 200.
    yield (examples.spring(), bytes((0, 0, 2, 1, 4))), "fare 190 rides 2 0 0 3 1 2 2 1 1"


def of_all_pairs():
    """Every pair of stations of the small books, known or not, with every limit."""
    for made in (examples.q(), examples.spring(), examples.two_companies(), examples.two_ways()):
        stations = list(itertools.product(range(4), range(5)))
        for start, goal in itertools.product(stations, repeat=2):
            for limit in range(6):
                if limit == 4 or sum(start + goal) % 9 == limit:
                    yield made, bytes(start + goal + (limit,))


def of_refused_books():
    """A refused book comes before a bad question."""
    for bad in (b"", examples.q()[:100], examples.dear_q()):
        for question in ((0, 0, 0, 2, 4), (9, 9, 9, 9, 9)):
            yield bad, bytes(question)


def asked_of(words):
    """A book in hex digits, and the numbers of a question."""
    digits, *question = words
    return book_of(digits), bytes(map(int, question))


def cases(folder):
    """Lines, with what is said to each."""
    told = itertools.chain(vectors(os.path.join(folder, "questions.txt"), asked_of), of_the_outline())
    return told_cases("q", told, cheapest, itertools.chain(of_all_pairs(), of_refused_books()))
