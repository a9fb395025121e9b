"""Price given routes: an independent reading of document 01.

What it is for. The crate `price` prices a given route and is proved to meet
its definitions. This file says the same from document 01's words alone, by
trying every selection of runs, so that the stored answers of the program
`stored` do not come from the code that they test. It shares nothing with the
crates.

How to run it. From the repository's root:

    sed -n s/^p//p crates/stored/stdin | grep -v '<' | python3 tools/price.py

Standard input has a book and a route a line, two hex digits a byte, `-` for
none. Standard output has one answer a line: `fare F rides N`, then for each
ride its three bytes and `full` or the rule's number; or `refused NUMBER PLACE`.

From another script: `price(book, route)` gives that line.
"""

import sys

from judge import answer, book_of, judge, word


class Book:
    """What a good book says."""

    def __init__(self, book):
        _, companies, links, rules = book[:4]
        offsets = [word(book, 4 + 4 * entry) for entry in range(companies + 2)]
        self.tables = []
        for body in offsets[:companies]:
            n = book[body]
            self.tables.append([[word(book, body + 1 + 2 * (i * n + j)) for j in range(n)] for i in range(n)])
        at = offsets[companies]
        self.links = {}
        for number in range(links):
            one, here, other, there = book[at + 4 * number:at + 4 * number + 4]
            self.links[(one, here), (other, there)] = number
            self.links[(other, there), (one, here)] = number
        at = offsets[companies + 1]
        self.rules = [book[at + 33 * number:at + 33 * number + 33] for number in range(rules)]

    def fare(self, ride):
        company, boarding, alighting = ride
        return self.tables[company][boarding][alighting]

    def has(self, ride):
        """Is there such a ride, sold?"""
        company, boarding, alighting = ride
        if company >= len(self.tables):
            return False
        stations = range(len(self.tables[company]))
        return boarding in stations and alighting in stations and boarding != alighting and self.fare(ride) > 0


def ends(ride):
    """The stations of a ride."""
    company, boarding, alighting = ride
    return (company, boarding), (company, alighting)


def first_bad_ride(book, rides):
    """The first bad ride, or None where the route is admissible."""
    met = set()
    for number, ride in enumerate(rides):
        if not book.has(ride):
            return number
        boarding, alighting = ends(ride)
        if number > 0 and (ends(rides[number - 1])[1], boarding) not in book.links:
            return number
        if boarding in met or alighting in met:
            return number
        met |= {boarding, alighting}
    return None


def holds(bits, item):
    """Is an item in a map?"""
    return bits[item // 8] >> item % 8 & 1 == 1


def matches(book, rule, run):
    """Does a rule of 33 bytes match a run?"""
    m = rule[0]
    if len(run) != m or [ride[0] for ride in run] != list(rule[1:1 + m]):
        return False
    if not holds(rule[7:12], run[0][1]) or not holds(rule[12:17], run[-1][2]):
        return False
    for ride, after in zip(run, run[1:]):
        if not holds(rule[17:33], book.links[ends(ride)[1], ends(after)[0]]):
            return False
    return sum(book.fare(ride) for ride in run) > word(rule, 5)


def selections(runs, start):
    """Every list of runs, each beginning where the one before has ended, or after that."""
    yield []
    for run in runs:
        first, m, _ = run
        if first >= start:
            for rest in selections(runs, first + m):
                yield [run] + rest


def best(book, rides):
    """The greatest total, then the fewest runs, then the least list."""
    runs = [
        (first, m, number)
        for first in range(len(rides))
        for m in range(2, min(4, len(rides) - first) + 1)
        for number, rule in enumerate(book.rules)
        if matches(book, rule, rides[first:first + m])
    ]
    ranked = (
        (-sum(word(book.rules[number], 5) for _, _, number in chosen), len(chosen), chosen)
        for chosen in selections(runs, 0)
    )
    total, _, chosen = min(ranked)
    return -total, chosen


def price(book_bytes, route):
    """The line that answers a book and the bytes of a route."""
    refusal = judge(book_bytes)
    if refusal:
        return answer(refusal)
    if len(route) not in (3, 6, 9, 12):
        return answer((14, 0))
    book = Book(bytes(book_bytes))
    rides = [tuple(route[at:at + 3]) for at in range(0, len(route), 3)]
    bad = first_bad_ride(book, rides)
    if bad is not None:
        return answer((14, bad))
    total, chosen = best(book, rides)
    paid = ["full"] * len(rides)
    for first, m, number in chosen:
        paid[first:first + m] = [str(number)] * m
    line = "fare %d rides %d" % (sum(map(book.fare, rides)) - total, len(rides))
    for ride, how in zip(rides, paid):
        line += " %d %d %d %s" % (ride + (how,))
    return line


def main():
    for line in sys.stdin.read().splitlines():
        book, route = line.split(" ")
        print(price(book_of(book), book_of(route)))


if __name__ == "__main__":
    main()
