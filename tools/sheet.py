"""Judge sheets, and turn books into sheets and sheets into books: an independent reading of document 01.

What it is for. The crate `sheet` reads a book into a sheet and writes a
sheet's book, and is proved to meet its definitions. This file says the same
from document 01's words alone, in another language and in another way, so
that the stored answers of the program `stored` do not come from the code that
they test. It shares nothing with the crates.

How to run it. From the repository's root:

    python3 tools/sheet.py < examples/q.hex

Standard input has one book a line, two hex digits a byte. Standard output has
one sheet a line, its numbers with spaces between them.

From another script: `judge_sheet(numbers)` gives `None` for a good sheet, or
the pair (number, place) of its first refusal; `sheet_of(book)` the numbers of
a good book; `book_of(numbers)` the book of a good sheet.
"""

import sys

from examples import assemble, company, word
from judge import COMPANIES, COMPANIES_OF_A_RULE, DISCOUNTS, HIGHEST_FARE, LINKS, RULES, STATIONS

RULE_NUMBERS = 32
LINK_NUMBERS = 4


def split(numbers):
    """The tables with where each begins, the links and the rules of a sheet; or its refusal."""
    if len(numbers) < 3:
        return (1, 0), None
    companies, links, rules = numbers[:3]
    if companies not in COMPANIES or links not in LINKS or rules not in RULES:
        return (3, 0), None
    at, tables = 3, []
    for company_number in range(companies):
        if at >= len(numbers):
            return (1, 0), None
        n = numbers[at]
        if n not in STATIONS:
            return (5, company_number), None
        if at + 1 + n * n > len(numbers):
            return (1, 0), None
        tables.append((at + 1, [numbers[at + 1 + n * i : at + 1 + n * i + n] for i in range(n)]))
        at += 1 + n * n
    if len(numbers) - at != LINK_NUMBERS * links + RULE_NUMBERS * rules:
        return (1, 0), None
    rest = numbers[at:]
    parted_links = [tuple(rest[4 * k : 4 * k + 4]) for k in range(links)]
    rest = rest[LINK_NUMBERS * links :]
    parted_rules = [rest[RULE_NUMBERS * k : RULE_NUMBERS * k + RULE_NUMBERS] for k in range(rules)]
    return None, (tables, parted_links, parted_rules)


def bad_map(numbers, items):
    """Whether a map has a number that is no byte, or an item beyond its items."""
    if any(number > 255 for number in numbers):
        return True
    return int.from_bytes(bytes(numbers), "little") >> items != 0


def bad_rule(numbers, sizes, links):
    """Whether a rule's 32 numbers break a rule for rules."""
    rides, named, amount, maps = numbers[0], numbers[1:5], numbers[5], numbers[6:]
    if rides not in COMPANIES_OF_A_RULE or amount not in DISCOUNTS:
        return True
    if any(c >= len(sizes) for c in named[:rides]) or any(c != 255 for c in named[rides:]):
        return True
    if any(one == other for one, other in zip(named[: rides - 1], named[1:rides])):
        return True
    last = named[rides - 1]
    return bad_map(maps[:5], sizes[named[0]]) or bad_map(maps[5:10], sizes[last]) or bad_map(maps[10:], links)


def judge_sheet(numbers):
    """`None` for a good sheet, else the number and place of its first refusal."""
    refusal, parts = split(numbers)
    if refusal:
        return refusal
    tables, links, rules = parts
    for start, table in tables:
        for i, row in enumerate(table):
            for j, fare in enumerate(row):
                if fare > (0 if i == j else HIGHEST_FARE):
                    return 6, start + len(table) * i + j
    sizes = [len(table) for _, table in tables]
    for k, (one, boarding, other, alighting) in enumerate(links):
        if not one < other < len(sizes) or boarding >= sizes[one] or alighting >= sizes[other] or links[k] in links[:k]:
            return 7, k
    for k, rule in enumerate(rules):
        if bad_rule(rule, sizes, len(links)):
            return 8, k
    return None


def rule_bytes(numbers):
    """A rule's 33 bytes from its 32 numbers."""
    return bytes(numbers[:5]) + word(numbers[5]) + bytes(numbers[6:])


def book_of(numbers):
    """The book of a good sheet."""
    tables, links, rules = split(numbers)[1]
    return assemble([company(table) for _, table in tables], [bytes(link) for link in links], [rule_bytes(rule) for rule in rules])


def sheet_of(book):
    """The sheet of a good book."""
    companies, links, rules = book[1:4]
    numbers, at = [companies, links, rules], 4 + 4 * (companies + 2)
    for _ in range(companies):
        n = book[at]
        entries = book[at + 1 : at + 1 + 2 * n * n]
        numbers += [n] + [low + 256 * high for low, high in zip(entries[::2], entries[1::2])]
        at += 1 + 2 * n * n
    numbers += book[at : at + 4 * links]
    at += 4 * links
    for k in range(rules):
        rule = book[at + 33 * k : at + 33 * k + 33]
        numbers += list(rule[:5]) + [rule[5] + 256 * rule[6]] + list(rule[7:])
    return numbers


if __name__ == "__main__":
    for line in sys.stdin:
        print(*sheet_of(bytes.fromhex(line.strip())))
