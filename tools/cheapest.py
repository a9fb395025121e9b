"""Find cheapest routes: an independent reading of document 01.

What it is for. The crate `search` finds the cheapest route and is proved to
meet its definitions. This file says the same from document 01's words alone:
it makes every admissible route from a station within the limit, prices each,
and takes the least. So the stored answers of the program `stored` do not come
from the code that they test. It shares nothing with the crates.

How to run it. From the repository's root:

    sed -n s/^q//p crates/stored/stdin | grep -v '<' | python3 tools/cheapest.py

Standard input has a book and a question a line, two hex digits a byte, `-`
for none. A question is five bytes: company and station of both ends, and the
limit. Standard output has one answer a line, as tools/price.py gives them.

From another script: `cheapest(book, question)` gives that line.
"""

import sys

from judge import answer, book_of, judge
from price import Book, best, ends, first_bad_ride, price


def routes(book, start, limit, route=()):
    """Every admissible route from a station of at most so many rides."""
    company, boarding = start
    for alighting in range(len(book.tables[company])):
        longer = route + ((company, boarding, alighting),)
        if first_bad_ride(book, longer) is not None:
            continue
        yield longer
        if len(longer) < limit:
            for here, there in book.links:
                if here == (company, alighting):
                    yield from routes(book, there, limit, longer)


def fare(book, route):
    """What a route costs with its best discounts."""
    return sum(map(book.fare, route)) - best(book, route)[0]


def known(book, station):
    company, number = station
    return company < len(book.tables) and number < len(book.tables[company])


def cheapest(book_bytes, question):
    """The line that answers a book and the five bytes of a question."""
    refusal = judge(book_bytes)
    if refusal:
        return answer(refusal)
    book = Book(bytes(book_bytes))
    start, goal, limit = tuple(question[:2]), tuple(question[2:4]), question[4]
    if not known(book, start):
        return answer((9, 0))
    if not known(book, goal):
        return answer((9, 1))
    if start == goal:
        return answer((10, 0))
    if not 1 <= limit <= 4:
        return answer((11, 0))
    found = [
        (fare(book, route), len(route), bytes(byte for ride in route for byte in ride))
        for route in routes(book, start, limit)
        if ends(route[-1])[1] == goal
    ]
    if not found:
        return answer((12, 0))
    return price(book_bytes, min(found)[2])


def main():
    for line in sys.stdin.read().splitlines():
        book, question = line.split(" ")
        print(cheapest(book_of(book), book_of(question)))


if __name__ == "__main__":
    main()
