"""Write what the programs `stored` and `pairs` are run on in the gate, and what they must print.

What it is for. `rt ci` runs a program on crates/PROGRAM/stdin and compares what
it prints with crates/PROGRAM/stdout. No answer comes from the crates: those of
the vectors are the vectors' own, those that document 01 names are written in
the scripts *_cases.py, and all others come from tools/judge.py, sheet.py,
price.py, cheapest.py and pairs.py, once these agree with every answer told.

How to run it. From the repository's root, with the folder of the vectors:

    python3 tools/stored.py ../shared/vectors

It prints how many cases of each sort it wrote.
"""

import os
import sys

import examples
import judge_cases
import list_cases
import price_cases
import question_cases
import sheet_cases
from pairs import pairs

ROOT = os.path.dirname(os.path.dirname(os.path.abspath(__file__)))


def write(program, asked, said):
    """Writes what a program is run on and what it must print, each as bytes."""
    for name, data in (("stdin", asked), ("stdout", said)):
        with open(os.path.join(ROOT, "crates", program, name), "wb") as out:
            out.write(data)


def main():
    if len(sys.argv) != 2:
        sys.exit(__doc__)
    asked, said = [], []
    for script in (judge_cases, sheet_cases, price_cases, question_cases, list_cases):
        cases = script.cases(sys.argv[1])
        print("%s: %d cases" % (script.__name__, len(cases)))
        asked += cases.keys()
        said += cases.values()
    write("stored", *("".join(line.rstrip("\n") + "\n" for line in lines).encode("ascii") for lines in (asked, said)))
    q = examples.q()
    write("pairs", q, pairs(q).encode("ascii"))


if __name__ == "__main__":
    main()
