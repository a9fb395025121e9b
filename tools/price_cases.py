"""Routes to price: the cases `p` of the program `stored`.

Their answers are the vectors', those that follow from document 01 by hand,
which stand below, and those of tools/price.py. tools/stored.py writes them.
"""

import itertools
import os
import random

import examples
from examples import book, both_ways, rule
from price import price
from told import cases as told_cases
from told import vectors


def line(fares, rules):
    """Four companies of two stations in a line, the first with these fares, each linked to the next, and these rules."""
    tables = [both_ways(2, {(0, 1): fare}) for fare in fares + [100] * (4 - len(fares))]
    links = [(k, 1, k + 1, 0) for k in range(3)]
    return book(tables, links, rules)


def along(count):
    """The route along such a line."""
    return bytes(byte for k in range(count) for byte in (k, 0, 1))


def pays(first, m, amount, links=range(3)):
    """A rule for m companies in a row, from this one on."""
    return rule(range(first, first + m), amount, [0], [1], links)


def paid(fare, fares, marks):
    """The answer for a line, where each ride is paid for so."""
    rides = "".join(" %d 0 1 %s" % (k, mark) for k, mark in enumerate(marks))
    return "fare %d rides %d%s" % (fare, len(fares), rides)


def of_the_outline():
    """The cases whose answers follow from document 01 by hand."""
    full = "full"
    hundreds = [100] * 4
    for fares, rules, fare, marks in (
        # "rules of 30 on rides 1–2, 20 on 0–1, 20 on 2–3: fare 360, not 370"
        (hundreds, [pays(1, 2, 30), pays(0, 2, 20), pays(2, 2, 20)], 360, [1, 1, 2, 2]),
        # "Two rides summing to 20 with a rule of 20: fare 20." "Summing to 21: fare 1."
        ([10, 10], [pays(0, 2, 20, [0])], 20, [full, full]),
        ([10, 11], [pays(0, 2, 20, [0])], 1, [0, 0]),
        # Greatest first is wrong also where the greatest run is longer.
        (hundreds, [pays(0, 3, 35), pays(0, 2, 20), pays(2, 2, 20)], 360, [1, 1, 2, 2]),
        (hundreds, [pays(1, 2, 39), pays(0, 2, 20), pays(2, 2, 20)], 360, [1, 1, 2, 2]),
        (hundreds, [pays(1, 2, 41), pays(0, 2, 20), pays(2, 2, 20)], 359, [full, 0, 0, full]),
        # Among equal totals the fewest runs count.
        (hundreds, [pays(0, 2, 20), pays(2, 2, 20), pays(0, 4, 40)], 360, [2, 2, 2, 2]),
        (hundreds, [pays(0, 2, 20), pays(2, 2, 20), pays(1, 3, 40)], 360, [full, 2, 2, 2]),
        (hundreds, [pays(0, 2, 20), pays(2, 2, 20), pays(1, 2, 40)], 360, [full, 2, 2, full]),
        # Then the least list: the first ride, then m, then the rule's number.
        (hundreds, [pays(2, 2, 20), pays(1, 2, 20), pays(0, 2, 20)], 360, [2, 2, 0, 0]),
        (hundreds[:3], [pays(1, 2, 20), pays(0, 2, 20)], 280, [1, 1, full]),
        (hundreds[:3], [pays(0, 3, 20), pays(0, 2, 20)], 280, [1, 1, full]),
        (hundreds[:3], [pays(1, 2, 20), pays(0, 3, 20)], 280, [1, 1, 1]),
        (hundreds[:2], [pays(0, 2, 20), pays(0, 2, 20)], 180, [0, 0]),
        (hundreds[:2], [pays(0, 2, 20), pays(0, 2, 21), pays(0, 2, 21)], 179, [1, 1]),
        # The amount is the rule's even where a cheaper run would earn more.
        ([10, 10, 999, 1], [pays(0, 2, 19), pays(1, 2, 999), pays(2, 2, 999)], 1020 - 999 - 19, [0, 0, 2, 2]),
        # A change that is not permitted, and one that is.
        (hundreds[:3], [pays(0, 3, 20, [0])], 300, [full] * 3),
        (hundreds[:3], [pays(0, 3, 20, [0, 1])], 280, [0] * 3),
    ):
        yield (line(fares, rules), along(len(fares))), paid(fare, fares, marks)
    # One rule pays two runs: A, B, A, B.
    square = both_ways(4, {(0, 1): 100, (2, 3): 100})
    twice = book([square, square], [(0, 1, 1, 0), (0, 2, 1, 1), (0, 3, 1, 2)], [rule([0, 1], 30, [0, 2], [1, 3], [0, 2])])
    told = "fare 340 rides 4 0 0 1 0 1 0 1 0 0 2 3 0 1 2 3 0"
    yield (twice, bytes((0, 0, 1, 1, 0, 1, 0, 2, 3, 1, 2, 3))), told


def of_book_q():
    """Short routes of book Q, good and bad."""
    q = examples.q()
    rides = [bytes(ride) for ride in itertools.product(range(4), range(4), range(4)) if max(ride) < 3 or ride.count(3) == 1]
    for ride in rides:
        yield q, ride
    good = [bytes(ride) for ride in ((0, 0, 1), (0, 0, 2), (0, 1, 2), (1, 0, 1), (1, 1, 0), (2, 0, 1), (2, 1, 0), (0, 2, 0), (0, 2, 1))]
    for count in (2, 3):
        for route in itertools.product(good, repeat=count):
            yield q, b"".join(route)
    a0_to_c0 = bytes((0, 0, 2, 1, 0, 1, 2, 1, 0))
    for length in range(16):
        yield q, (a0_to_c0 + a0_to_c0)[:length]


def of_refused_books():
    """A refused book comes before a bad route."""
    for bad in (b"", examples.q()[:100], examples.dear_q()):
        for route in (b"", bytes((0, 0, 2)), bytes((9, 9, 9))):
            yield bad, route


def of_rules(seed, count):
    """Lines of four rides with many rules and few amounts, so that selections tie."""
    rng = random.Random(seed)
    for _ in range(count):
        fares = [rng.choice((5, 10, 40, 100)) for _ in range(4)]
        rules = []
        for _ in range(rng.randint(2, 8)):
            m = rng.choice((2, 2, 2, 3, 4))
            links = [k for k in range(3) if rng.random() < 0.9]
            rules.append(pays(rng.randint(0, 4 - m), m, rng.choice((10, 10, 20, 20, 30, 40)), links))
        yield line(fares, rules), along(rng.choice((3, 4, 4, 4)))


def cases(folder):
    """Lines, with what is said to each."""
    told = itertools.chain(vectors(os.path.join(folder, "routes.txt")), of_the_outline())
    return told_cases("p", told, price, itertools.chain(of_book_q(), of_refused_books(), of_rules(4, 300)))
