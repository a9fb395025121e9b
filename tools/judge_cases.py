"""Books to judge: the cases `j` of the program `stored`.

Their answers are the vectors', document 01's, which stand below, and those of
tools/judge.py. tools/stored.py writes them.
"""

import itertools
import os

import examples
from examples import assemble, bit_map, book, both_ways, changed, company, rule, word
from judge import verdict
from told import cases as told_cases
from told import vectors


def of_the_outline():
    """The books whose answers document 01 names."""
    pair = both_ways(2, {(0, 1): 9999})
    dear = both_ways(2, {(0, 1): 10000})
    return [
        (examples.q(), "ok"),
        (examples.two_companies(), "ok"),
        (b"", "refused 1 0"),
        (assemble([company([[0]])], [], []), "refused 5 0"),
        (examples.one_company(41), "refused 5 0"),
        (book([pair]), "ok"),
        (book([dear]), "refused 6 %d" % (16 + 1 + 2)),
    ]


def of_numbers():
    """Each limit under "Numbers", met and passed."""
    pair = both_ways(2, {(0, 1): 1})
    line = both_ways(40, {(0, 39): 1})
    many = [(0, k // 40, 1, k % 40) for k in range(129)]
    cheap = rule([0, 1], 1, [], [], [])
    yield examples.least()
    yield book([])
    yield book([pair] * 16)
    yield book([pair] * 17)
    yield examples.one_company(2)
    yield examples.one_company(40)
    yield book([line, line], many[:128])
    yield book([line, line], many)
    yield book([pair, pair], [], [cheap] * 32)
    yield book([pair, pair], [], [cheap] * 33)
    for amount in (0, 1, 999, 1000, 65535):
        yield book([pair, pair], [], [rule([0, 1], amount, [], [], [])])
    for fare in (0, 9999, 10000, 65535):
        yield book([both_ways(2, {(0, 1): fare})])


def of_contents():
    """A wrong offset, length, n or end, alone and beside other faults."""
    q = examples.q()
    for entry in range(5):
        for field in (0, 2):
            at = 4 + 4 * entry + field
            number = q[at] + 256 * q[at + 1]
            for wrong in (0, number - 1, number + 1, number + 256, 65535):
                yield changed(q, at, word(wrong))
    yield q + b"\0"
    yield q + bytes(33)
    yield changed(q, 25, word(7)) + b"\0"  # bytes left over, and a bad diagonal
    yield changed(q, 24, [1]) + b"\0"  # a bad n, and bytes left over
    yield changed(changed(q, 24, [41]), 6, word(20))  # a bad n, and a length that is wrong inside the book
    yield changed(changed(q, 24, [41]), 6, word(65535))  # the same, past the end
    yield changed(changed(q, 24, [41]), 6, word(0))  # the same, of length 0
    yield changed(changed(q, 24, [1]), 8, word(0))  # company 0's n, then company 1's offset
    yield changed(q, 3, [33])[:20]  # too many rules, and contents cut
    yield changed(q, 1, [16])[:75]  # contents cut by one byte
    none = examples.least()
    yield changed(none, 8, word(26))  # no links, and their offset is wrong
    yield changed(none, 12, word(24))  # no rules, and their offset is wrong
    yield changed(none, 10, word(4))  # no links, and their length is not 0
    full = examples.one_company(40)
    yield changed(full, 4, word(65535))  # offset and length together pass 65,535
    yield changed(full, 6, word(65535))


def of_bodies():
    """Bad entries, links and rules, alone and in the outline's order."""
    pair, three = both_ways(2, {(0, 1): 120}), both_ways(3, {(0, 1): 130})
    diagonal, dear = [[0, 1], [1, 1]], [[0, 10000], [1, 256]]
    good, other = (0, 1, 1, 1), (0, 1, 1, 0)
    yield book([pair, diagonal, dear], [(1, 0, 0, 0)], [bytes(33)])
    yield book([pair, pair], [(1, 0, 0, 0)], [bytes(33)])
    yield book([dear])
    for links in (
        [good, other, good],
        [good, good, good],
        [good, other, (1, 1, 0, 1)],  # the same stations, the greater company first
        [(0, 2, 1, 1), (0, 2, 1, 1)],  # a bad link twice
        [good, (0, 1, 0, 0)],
        [good, (1, 0, 2, 0)],
        [good, (0, 1, 1, 2)],
        [good, (0, 2, 1, 1)],
        [good, (255, 0, 255, 0)],
        [good, (0, 0, 255, 0)],
        [other, good, (0, 0, 1, 0), (0, 0, 1, 1), other, good],
    ):
        yield book([pair, pair], links)
    base = rule([0, 1], 10, [0, 2], [1], [0])
    rules = [
        base,
        changed(base, 0, [0]),
        changed(base, 0, [1]),
        changed(base, 0, [3]),
        changed(base, 0, [5]),
        changed(base, 0, [255]),
        changed(base, 3, [0]),  # the rest is not 255
        changed(base, 4, [254]),
        changed(base, 1, [1]),  # neighbours the same
        changed(base, 2, [3]),  # a company that does not exist
        changed(base, 1, [255]),
        changed(base, 7, bit_map([3], 5)),  # boarding: company 0 has 3 stations
        changed(base, 7, bit_map([39], 5)),
        changed(base, 12, bit_map([2], 5)),  # alighting: company 1 has 2 stations
        changed(base, 17, bit_map([2], 16)),  # links: there are 2
        changed(base, 17, bit_map([127], 16)),
        changed(base, 7, bytes(26)),  # empty maps
        rule([0, 1, 0], 10, [2], [2], [1]),
        rule([1, 0, 1], 10, [1], [2], [1]),  # the last company is company 1, of 2 stations
        rule([0, 1, 0, 1], 10, [2], [1], [0, 1]),
        rule([0, 1, 2, 2], 10, [], [], []),
        rule([2, 1, 0], 10, [1], [2], []),
        rule([2, 1, 0], 10, [2], [2], []),
    ]
    for bad in rules:
        yield book([three, pair, pair], [good, other], [base, bad, base])
    yield book([three, pair, pair], [good, other], [base, rules[1], rules[2]])


def of_book_q():
    """Every beginning of book Q, and Q with each byte changed to a few telling values."""
    q = examples.q()
    for end in range(len(q)):
        yield q[:end]
    for at, old in enumerate(q):
        values = {0, 1, 255, (old + 1) % 256, (old - 1) % 256, old ^ 128} - {old}
        for new in sorted(values):
            yield changed(q, at, [new])


def of_the_largest():
    """The largest book, good and with a fault in its last entry, link and rule."""
    tables, links, rules = examples.largest_parts()
    largest = book(tables, links, rules)
    last = len(largest) - 32 * 33 - 128 * 4
    yield largest
    yield changed(largest, last - 2, word(1))
    yield book(tables, links[:-1] + links[:1], rules)
    yield book(tables, links, rules[:-1] + [changed(rules[-1], 5, word(1000))])
    yield largest + b"\0"


def cases(folder):
    """Lines, with what is said to each."""
    others = itertools.chain(of_numbers(), of_contents(), of_bodies(), of_book_q(), of_the_largest())
    told = itertools.chain(vectors(os.path.join(folder, "books.txt")), (((b,), said) for b, said in of_the_outline()))
    return told_cases("j", told, verdict, ((b,) for b in others))
