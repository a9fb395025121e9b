"""Books to read and sheets to write: the cases `r` and `w` of the program `stored`.

Their answers are those of tools/judge.py and tools/sheet.py, once these agree
with every vector. tools/stored.py writes them.
"""

import os
import zlib

import examples
from examples import both_ways, rule
from judge import answer, judge, verdict
from sheet import book_of, judge_sheet, sheet_of
from told import agree, digits_of, vectors

# What stands in a lent list before anything is written.
BYTE = 165

def numbers_of(data):
    """A sheet's numbers from bytes, the high byte first, as a line of the input has them."""
    return [256 * high + low for high, low in zip(data[::2], data[1::2])]


def big(numbers):
    """A sheet's numbers as bytes, the high byte first."""
    return b"".join(x.to_bytes(2, "big") for x in numbers)


def little(numbers):
    """A sheet's numbers as bytes, the low byte first, as the sum takes them."""
    return b"".join(x.to_bytes(2, "little") for x in numbers)


def lines(kind, given, refusal, result, unit):
    """The cases of one book or sheet: room that fits, is one short and is larger."""
    need = len(result) // unit if result is not None else 40
    for room in (need, need - 1, need + 9):
        lent = bytes((BYTE,)) * (room * unit)
        if refusal is None and room >= need:
            said, after = "wrote %d" % need, result + lent[len(result) :]
        else:
            said, after = answer(refusal or (13, 0)), lent
        yield "%s%d:%s" % (kind, room, digits_of(given)), "%s %d %s" % (said, zlib.adler32(after), "lost" if refusal else "back")
        if refusal:
            return


def of_book(book):
    """The cases of reading a book."""
    refusal = judge(book)
    return lines("r", book, refusal, None if refusal else little(sheet_of(book)), 2)


def of_sheet(numbers):
    """The cases of writing a sheet."""
    refusal = judge_sheet(numbers)
    return lines("w", big(numbers), refusal, None if refusal else book_of(numbers), 1)


def longest():
    """A book of 52,860 bytes that repeats itself."""
    table = [[0 if i == j else 9999 for j in range(40)] for i in range(40)]
    links = [(k // 40, k % 40, 15, k % 40) for k in range(128)]
    return examples.book([table] * 16, links, [rule([0, 15, 0, 15], 999, range(40), range(40), range(128))] * 32)


def changed(numbers, at, new):
    return numbers[:at] + [new] + numbers[at + 1 :]


def of_limits():
    """Sheets at each limit, each number of Q's sheet changed, and each way to be too long or too short."""
    q = sheet_of(examples.q())
    pair = both_ways(2, {(0, 1): 1})
    for at in range(3):
        for new in (0, 1, 2, 16, 17, 32, 33, 128, 129, 255, 256, 257, 65535):
            yield changed(q, at, new)
    for at in range(3, len(q)):
        for new in (0, 1, 255, 256, 257, 40, 41, 9999, 10000, 65535):
            yield changed(q, at, new)
    for end in range(len(q)):
        yield q[:end]
    yield q + [0]
    yield q + [0] * 32
    yield changed(q, 3, 1)[:4]  # a bad n, and its fares missing
    yield changed(changed(q, 4, 1), 3 + 10, 41)  # company 0's diagonal, and company 1's n
    yield changed(changed(q, 4, 1), len(q) - 1, 256)  # an entry before a rule
    yield changed(changed(q, 23, 9), len(q) - 1, 256)  # a link before a rule
    for n in (2, 40):
        yield sheet_of(examples.one_company(n))
    yield sheet_of(examples.book([pair] * 16))
    yield sheet_of(examples.book([pair, pair], [], [rule([0, 1], 1, [], [], [])] * 32))


def written(sheet):
    """The line that says what a sheet, its numbers as bytes, is written as."""
    numbers = numbers_of(sheet)
    refusal = judge_sheet(numbers)
    if refusal:
        return answer(refusal)
    assert sheet_of(book_of(numbers)) == numbers
    return book_of(numbers).hex()


def cases(folder):
    """Lines, with what is said to each."""
    told_books, told_sheets = (list(vectors(os.path.join(folder, name))) for name in ("books.txt", "sheets.txt"))
    agree(told_books, verdict)
    agree(told_sheets, written)
    assert len(sheet_of(examples.q())) == 99
    assert len(longest()) == 52860 and len(sheet_of(longest())) == 27155
    found = {}
    for book in [book for (book,), _ in told_books] + [b"", examples.q(), examples.two_companies(), longest()]:
        found.update(of_book(book))
    sheets = [numbers_of(sheet) for (sheet,), _ in told_sheets] + [sheet_of(examples.q()), sheet_of(longest())]
    for numbers in sheets + list(of_limits()):
        found.update(of_sheet(numbers))
    return found
