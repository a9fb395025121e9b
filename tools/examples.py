"""Make the fare books of document 01, and others, as bytes.

What it is for. The cases that the gate runs and the books under examples/
come from here. A book is put together from its parts: tables, links, rules.

How to run it. From the repository's root:

    python3 tools/examples.py q > examples/q.hex

prints a book as one line of hex digits. The names: `q` (book Q), `dear_q`
(book Q with a first fare of 10,000, which is refused), `two_companies` (the
pair lister's example), `two_ways` (a discount makes the dearer of two routes
the cheaper), `spring` (a discount pays a walk that meets a station twice),
`least` (one company of two stations), `largest` (16 companies of 40 stations,
128 links, 32 rules).
"""

import sys

NO_COMPANY = 255


def word(number):
    """A two-byte number, the low byte first; of a greater number what two bytes hold."""
    return bytes((number % 256, number // 256 % 256))


def company(table):
    """The body of a company: n, then the rows of its table."""
    return bytes((len(table),)) + b"".join(word(fare) for row in table for fare in row)


def both_ways(n, fares):
    """A table of n stations; `fares` maps a pair of stations to what holds both ways."""
    table = [[0] * n for _ in range(n)]
    for (one, other), fare in fares.items():
        table[one][other] = table[other][one] = fare
    return table


def bit_map(items, size):
    """A map of so many bytes: item i is bit i mod 8 of byte i / 8."""
    return sum(1 << item for item in set(items)).to_bytes(size, "little")


def rule(companies, amount, boarding, alighting, links):
    """A rule's 33 bytes."""
    named = bytes(companies) + bytes((NO_COMPANY,)) * (4 - len(companies))
    return (
        bytes((len(companies),))
        + named
        + word(amount)
        + bit_map(boarding, 5)
        + bit_map(alighting, 5)
        + bit_map(links, 16)
    )


def assemble(bodies, links, rules):
    """A book of these companies' bodies, links and rules, each given as bytes."""
    parts = list(bodies) + [b"".join(links), b"".join(rules)]
    book = bytes((1, len(bodies), len(links), len(rules)))
    offset = 4 + 4 * len(parts)
    for part in parts:
        book += word(offset) + word(len(part))
        offset += len(part)
    return book + b"".join(parts)


def book(tables, links=(), rules=()):
    """A book of these tables, links of four numbers, and rules of 33 bytes."""
    return assemble([company(table) for table in tables], [bytes(link) for link in links], rules)


def changed(old, at, new):
    """A book with these bytes at an offset."""
    new = bytes(new)
    return old[:at] + new + old[at + len(new):]


def q(first=130):
    """Book Q, with this fare between A0 and A1."""
    return book(
        [
            both_ways(3, {(0, 1): first, (1, 2): 130, (0, 2): 280}),
            both_ways(2, {(0, 1): 120}),
            both_ways(2, {(0, 1): 150}),
        ],
        [(0, 2, 1, 0), (1, 0, 2, 0), (1, 1, 2, 1)],
        [rule([0, 1], 20, [0, 1], [1], [0]), rule([1, 2], 10, [0], [0], [2])],
    )


def dear_q():
    """Book Q with a fare that is too high."""
    return q(10000)


def two_companies():
    """The book of the pair lister's example."""
    return book(
        [both_ways(2, {(0, 1): 130}), both_ways(2, {(0, 1): 120})],
        [(0, 1, 1, 0)],
        [rule([0, 1], 10, [0], [1], [0])],
    )


def two_ways():
    """Routes of 300 less 40 and of 270: by A1-B0 two rides of 135, by A2-B2 two of 150 with a rule of 40 for that link."""
    here, there = both_ways(3, {}), both_ways(3, {})
    here[0][1], here[0][2], there[0][1], there[2][1] = 135, 150, 135, 150
    return book([here, there], [(0, 1, 1, 0), (0, 2, 1, 2)], [rule([0, 1], 40, [0], [1], [1])])


def spring():
    """A book in which a discount for four companies pays a walk through A1 twice, from A0 to C1.

    The walk A0-A1, B0-B1, A2-A1, C0-C1 costs 220 less 150. Cheapest before discounts is A0-A1, C0-C1 for 200. The cheapest route
    is A0-A3, C2-C1 for 230 less 40.
    """
    return book(
        [
            both_ways(4, {(0, 1): 100, (1, 2): 10, (0, 3): 150}),
            both_ways(2, {(0, 1): 10}),
            both_ways(3, {(0, 1): 100, (1, 2): 80}),
        ],
        [(0, 1, 1, 0), (0, 2, 1, 1), (0, 1, 2, 0), (0, 3, 2, 2)],
        [rule([0, 1, 0, 2], 150, [0], [1], [0, 1, 2]), rule([0, 2], 40, [0], [1], [3])],
    )


def least():
    """One company of two stations that sells nothing."""
    return book([both_ways(2, {})])


def one_company(n, fare=100):
    """One company of n stations, with one fare for every ride."""
    return book([[[0 if i == j else fare for j in range(n)] for i in range(n)]])


def largest_parts():
    """The tables, links and rules of the largest book."""
    tables = [
        [[0 if i == j else (c * 1600 + i * 40 + j) % 10000 for j in range(40)] for i in range(40)]
        for c in range(16)
    ]
    links = [(k % 15, k // 15, 15, k * 11 % 40) for k in range(128)]
    rules = [
        rule(
            [(k + i) % 16 for i in range(2 + k % 3)],
            1 + 31 * k,
            range(40),
            range(40) if k % 2 else [],
            range(128),
        )
        for k in range(32)
    ]
    return tables, links, rules


def largest():
    """16 companies of 40 stations, 128 links, 32 rules: 52,860 bytes."""
    return book(*largest_parts())


def line_of(book_bytes):
    """A book as a line of hex digits; `-` is the empty book."""
    return book_bytes.hex() or "-"


NAMED = {f.__name__: f for f in (q, dear_q, two_companies, two_ways, spring, least, largest)}


def main():
    if len(sys.argv) != 2 or sys.argv[1] not in NAMED:
        sys.exit(__doc__)
    print(line_of(NAMED[sys.argv[1]]()))


if __name__ == "__main__":
    main()
