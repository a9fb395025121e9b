"""What the scripts of stored cases share.

What it is for. A case is a line that the program `stored` is run on, and what
it must say to it. What is asked is a tuple of byte strings: a book, or a book
and a route or a question. Some answers are told, by the vectors or by hand;
`find` says the others, and has to say the same where an answer is told.

How to use it, from another script. `vectors(path)` gives what a file of vectors
asks and tells; `cases(letter, told, find, others)` gives lines with what is
said to them.
"""

import sys

from judge import book_of

# A list of more bytes is written with repeats, so that what git keeps stays small.
LONG = 32


def bytes_asked(words):
    """What is asked where each word has hex digits."""
    return tuple(map(book_of, words))


def vectors(path, asked_of=bytes_asked):
    """What a file of vectors asks, and tells."""
    with open(path, encoding="ascii") as lines:
        for line in lines:
            words, said = line.rstrip("\n").split(" = ")
            yield asked_of(words.split(" ")), said


def repeats(data):
    """Hex digits, with `<D,L>` for L bytes like those that begin D bytes before."""
    out, at, seen = [], 0, {}
    while at < len(data):
        key = data[at : at + 8]
        before = seen.get(key)
        long = 0
        while before is not None and at + long < len(data) and data[before + long] == data[at + long]:
            long += 1
        if long < 16:
            long = 1
            out.append("%02x" % data[at])
        else:
            out.append("<%d,%d>" % (at - before, long))
        for i in range(at, at + long):
            seen[data[i : i + 8]] = i
        at += long
    return "".join(out)


def digits_of(data):
    """Bytes as a line has them; `-` stands for none."""
    return repeats(data) if len(data) > LONG else data.hex() or "-"


def line_of(letter, asked):
    """What is asked, as a line."""
    return letter + " ".join(map(digits_of, asked))


def agree(told, find):
    """Ends the script where `find` says other than was told."""
    wrong = 0
    for asked, said in told:
        found = find(*asked)
        if found != said:
            wrong += 1
            print("%s: told %s, found %s" % (line_of("", asked), said, found))
    if wrong:
        sys.exit("%d answers differ: nothing is written" % wrong)


def cases(letter, told, find, others):
    """The lines of what was told, once `find` says the same, and of the others, with what is said to each."""
    told = list(told)
    agree(told, find)
    found = {line_of(letter, asked): said for asked, said in told}
    for asked in others:
        line = line_of(letter, asked)
        if line not in found:
            found[line] = find(*asked)
    return found
