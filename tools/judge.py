"""Judge fare books: an independent reading of document 01.

What it is for. The crate `book` judges a fare book and is proved to meet its
definitions. This file says the same from document 01's words alone, in
another language and in another way, so that the stored answers of the
program `stored` do not come from the code that they test. It shares nothing
with the crates.

How to run it. From the repository's root:

    python3 tools/judge.py < examples/q.hex

Standard input has one book a line, two hex digits a byte, `-` for an empty
book. Standard output has one answer a line: `ok`, or `refused NUMBER PLACE`.

From another script: `judge(book)` gives `None` for a good book, or the pair
(number, place) of its first refusal; `verdict(book)` gives the line.
"""

import sys

# "Numbers": the limits, both ends included.
COMPANIES = range(1, 16 + 1)
STATIONS = range(2, 40 + 1)
LINKS = range(0, 128 + 1)
RULES = range(0, 32 + 1)
COMPANIES_OF_A_RULE = range(2, 4 + 1)
HIGHEST_FARE = 9999
DISCOUNTS = range(1, 999 + 1)

LAYOUT = 1
LINK_BYTES = 4
RULE_BYTES = 33


def word(book, at):
    """A two-byte number, the low byte first."""
    return book[at] + 256 * book[at + 1]


def body_bytes(n):
    """The length of a company's body: one byte n, then n * n two-byte entries."""
    return 1 + 2 * n * n


def judge_contents(book, companies, links, rules):
    """Refusals 4 and 5, company by company, then the links' and the rules' entries."""
    end = 4 + 4 * (companies + 2)
    for company in range(companies):
        offset = word(book, 4 + 4 * company)
        length = word(book, 4 + 4 * company + 2)
        if offset != end or length == 0 or offset + length > len(book):
            return 4, company
        n = book[offset]
        if n not in STATIONS:
            return 5, company
        if length != body_bytes(n):
            return 4, company
        end = offset + length
    for entry, wanted in (
        (companies, LINK_BYTES * links),
        (companies + 1, RULE_BYTES * rules),
    ):
        offset = word(book, 4 + 4 * entry)
        length = word(book, 4 + 4 * entry + 2)
        if offset != end or offset + length > len(book) or length != wanted:
            return 4, entry
        end = offset + length
    if end != len(book):
        return 4, companies + 1
    return None


def judge_tables(book, bodies):
    """Refusal 6: the first entry that is above 9,999, or not 0 on the diagonal."""
    for body in bodies:
        n = book[body]
        for boarding in range(n):
            for alighting in range(n):
                at = body + 1 + 2 * (boarding * n + alighting)
                fare = word(book, at)
                if fare > HIGHEST_FARE or (boarding == alighting and fare != 0):
                    return 6, at
    return None


def judge_links(links, stations):
    """Refusal 7: the first link that is bad, or that stood before."""
    seen = set()
    for number, link in enumerate(links):
        first, boarding, second, alighting = link
        # The first company is less than the second, so the first exists too.
        if not first < second < len(stations):
            return 7, number
        if boarding >= stations[first] or alighting >= stations[second]:
            return 7, number
        if link in seen:
            return 7, number
        seen.add(link)
    return None


def beyond(bits, items):
    """Is a bit of this map set that is beyond the last of so many items?"""
    return int.from_bytes(bits, "little") >> items != 0


def bad_rule(rule, stations, links):
    """Is this rule of 33 bytes wrong in any of its parts?"""
    m = rule[0]
    if m not in COMPANIES_OF_A_RULE:
        return True
    named, rest = rule[1:1 + m], rule[1 + m:5]
    if any(company >= len(stations) for company in named):
        return True
    if any(left == right for left, right in zip(named, named[1:])):
        return True
    if any(byte != 255 for byte in rest):
        return True
    if word(rule, 5) not in DISCOUNTS:
        return True
    return (
        beyond(rule[7:12], stations[named[0]])
        or beyond(rule[12:17], stations[named[-1]])
        or beyond(rule[17:33], links)
    )


def judge(book):
    """None for a good book, or (number, place) of its first refusal."""
    book = bytes(book)
    if len(book) < 4:
        return 1, 0
    layout, companies, links, rules = book[:4]
    if layout != LAYOUT:
        return 2, 0
    if companies not in COMPANIES or links not in LINKS or rules not in RULES:
        return 3, 0
    if len(book) < 4 + 4 * (companies + 2):
        return 1, 0

    refusal = judge_contents(book, companies, links, rules)
    if refusal:
        return refusal

    offsets = [word(book, 4 + 4 * entry) for entry in range(companies + 2)]
    bodies = offsets[:companies]
    stations = [book[body] for body in bodies]
    link_list = [
        tuple(book[at:at + LINK_BYTES])
        for at in range(offsets[-2], offsets[-2] + LINK_BYTES * links, LINK_BYTES)
    ]
    rule_list = [
        book[at:at + RULE_BYTES]
        for at in range(offsets[-1], offsets[-1] + RULE_BYTES * rules, RULE_BYTES)
    ]

    refusal = judge_tables(book, bodies) or judge_links(link_list, stations)
    if refusal:
        return refusal
    for number, rule in enumerate(rule_list):
        if bad_rule(rule, stations, links):
            return 8, number
    return None


def answer(refusal):
    """The line that says what `judge` answered."""
    if refusal is None:
        return "ok"
    return "refused %d %d" % refusal


def verdict(book):
    """The line that answers a book."""
    return answer(judge(book))


def book_of(line):
    """The book that a line of hex digits says."""
    return b"" if line == "-" else bytes.fromhex(line)


def main():
    for line in sys.stdin.read().split():
        print(verdict(book_of(line)))


if __name__ == "__main__":
    main()
