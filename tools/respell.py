#!/usr/bin/env python3
"""Respells the repository's own definitions and lemmas: words in snake case, as today's Rattle spells them.

usage: python3 tools/respell.py        at the top of the repository, once, after /opt/rattle/port/port.py

A word in camel case, as headerCheck, becomes header_check, in every .antt file, every .rt file and every must-fail edit. A dash in the
name of a definition or a lemma of a file of specs/ or proofs/, also of one in a section or behind a where, becomes an underscore, but
behind a function of std that is the outer call of the lemma's left side, as in length-words. A lemma that would get the name of a
definition gets that name with _lem behind it. Names of src/, strings, inputs and outputs have no such words. Where two names of one file
would fall together the script stops.
"""

import os
import re
import sys

OUTER = {"length", "take", "drop", "sum", "get_or"}
WORD = re.compile(r"[^\s(){}\[\].,;:\"`]+")
CAMEL = re.compile(r"(?<![A-Za-z0-9_'])[a-z][A-Za-z0-9_]*[a-z0-9][A-Z][A-Za-z0-9_]*(?![A-Za-z0-9_'])")
DEFINED = re.compile(r"^(?:infix[lr]? \d+ )?(?:(?:abbrev|unfoldable) )?(?:pub )?(?:(?:data|record|ruleset|abbrev) )?(?:pub )?([^\s:(){}=]+)")
SKIP = ("use ", "pub use ", "mod ", "pub mod ", "module ", "unfolding ", "--", " ", "\n", "infix")


def files():
    for top, folders, names in os.walk("crates"):
        folders[:] = sorted(f for f in folders if f != "out")
        for name in sorted(names):
            if name.endswith((".antt", ".rt", ".edit")):
                yield os.path.join(top, name)


def snake(word):
    word = word.replace("getD", "get_or")
    return re.sub(r"([a-z0-9])([A-Z])", lambda m: m.group(1) + "_" + m.group(2).lower(), word)


def shared(path):
    """Whether a path is a file of specs/ or of lemmas, and not of one function's proof."""
    return re.match(r"crates/\w+/(specs|proofs)/\w+\.antt$", path) is not None


def defined(texts):
    """The names that the files of specs/ and of lemmas define at their left edge, or as a field or a constructor."""
    found = set()
    for path, text in texts.items():
        if shared(path):
            for line in text.splitlines(True):
                m = None if line.startswith(SKIP) else DEFINED.match(line)
                if m:
                    found.add(m.group(1))
                m = re.match(r" +(?:pub )?([^\s({:]\S*) :", line)
                if m:
                    found.add(m.group(1))
    return found


def table(texts):
    """From each dashed name to its new one."""
    names = defined(texts)
    plain = {snake(n) for n in names if "-" not in n}
    new = {}
    for name in sorted(n for n in names if "-" in n):
        first, rest = snake(name).split("-", 1)
        rest = rest.replace("-", "_")
        to = first + ("-" if first in OUTER and rest in plain else "_") + rest
        new[name] = to + "_lem" if to in plain else to
    return new


def respelled(path, text, dashed):
    out = []
    for line in text.splitlines(True):
        line = CAMEL.sub(lambda m: snake(m.group(0)), line)
        if path.endswith(".antt"):
            code, mark, comment = line.partition("--") if re.search(r"(^|\s)--(\s|$)", line) else (line, "", "")
            use = re.match(r"(pub )?use ", code)
            code = re.sub(r"(\.?)([^\s(){}\[\].,;:\"`]+)", lambda m: m.group(0) if m.group(1) and not use else m.group(1) + dashed.get(m.group(2), m.group(2)), code)
            comment = re.sub(r"`([^`\s]+)`", lambda m: "`" + dashed.get(m.group(1), m.group(1)) + "`", comment)
            line = code + mark + comment
        out.append(line)
    return "".join(out)


def together(old, dashed):
    """Pairs of different words of a file that have become one."""
    before = {}
    # a path of modules, a field after a dot and a comment name nothing of this file
    for word in set(WORD.findall(re.sub(r"\.[^\s(){}.,;]+|(?m:^|\s)-- .*", "", old))):
        to = dashed.get(snake(word), dashed.get(word, snake(word) if re.fullmatch(r"[a-z][A-Za-z0-9_◌]*", word) else word))
        before.setdefault(to, set()).add(word)
    return [(to, words) for to, words in before.items() if len(words) > 1]


def main():
    texts = {}
    for path in files():
        with open(path, encoding="utf-8") as f:
            texts[path] = f.read()
    dashed = table(texts)
    # camel parts of dashed names are respelled before the table is asked
    dashed = {snake(k): v for k, v in dashed.items()}
    bad = 0
    for path, text in texts.items():
        if path.endswith(".antt"):
            for to, words in together(text, dashed):
                print(f"{path}: {', '.join(sorted(words))} would all be {to}", file=sys.stderr)
                bad += 1
    if bad:
        return 1
    for path, text in texts.items():
        new = respelled(path, text, dashed)
        if new != text:
            with open(path, "w", encoding="utf-8") as f:
                f.write(new)
    return 0


if __name__ == "__main__":
    sys.exit(main())
