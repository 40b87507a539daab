#!/usr/bin/env python3
"""Brings the names of this repository's definitions and lemmas to one spelling: words in snake case, types and facts in upper camel case.

usage: python3 tools/respell.py [ROOT]     once, behind the toolchain's own script

A name with dashes that some .antt file of the repository defines (a definition, a lemma, a record, a constructor or a field) gets its new
spelling wherever it stands in .antt, .rt and .edit files, outside of comments and texts, and between backticks in comments and in *.md.
Names that the toolchain makes (of goals, of steps) and functions of src/ keep theirs. It stops where two names would fall together.
"""

import collections
import os
import re
import sys

ROOT = sys.argv[1] if len(sys.argv) > 1 else "."
WORD = r"[^\W\d][\w'₀-₉]*(?:-[\w'₀-₉]+)*"
DECLARES = re.compile(r"^\s*(?:(?:pub|abbrev|unfoldable|private)\s+)*(" + WORD + r")\s*(?:\(.*\)\s*|\{.*\}\s*)?:\s")
TYPE = re.compile(r"^\s*(?:pub\s+)?(?:data|record)\s+(" + WORD + ")")
GOAL = re.compile(r":\s*goal\.")
# Where the plain rule would give a name that is taken.
BY_HAND = {"bit-or": "bit_or_lem"}


def files(*ends):
    for top in ("crates", "docs", "README.md"):
        path = os.path.join(ROOT, top)
        if os.path.isfile(path):
            if path.endswith(ends):
                yield path
            continue
        for folder, dirs, names in os.walk(path):
            dirs[:] = sorted(d for d in dirs if d not in ("out", "target"))
            for name in sorted(names):
                if name.endswith(ends):
                    yield os.path.join(folder, name)


def text_of(path):
    with open(path, encoding="utf-8") as f:
        return f.read()


def spelled(name):
    """The new spelling of a name with dashes."""
    if name in BY_HAND:
        return BY_HAND[name]
    parts = name.split("-")
    if name[0].isupper():
        return parts[0] + "".join(p[0].upper() + p[1:] for p in parts[1:])
    return "_".join(parts)


def declared():
    """The names with dashes that the repository defines, and all names that it defines."""
    dashed, every = set(), set()
    for path in files(".antt"):
        for line in text_of(path).split("\n"):
            if line.lstrip().startswith("--"):
                continue
            m = TYPE.match(line) or DECLARES.match(line)
            if m and not GOAL.search(line):
                every.add(m[1])
                if "-" in m[1]:
                    dashed.add(m[1])
    return dashed, every


def respell(text, names, comment):
    """The text with each name respelled outside of texts and comments; there only between backticks."""
    def word(m):
        return names.get(m[0], m[0])

    def quoted(m):
        return re.sub(r"(?<![\w'-])" + WORD, word, m[0])

    out = []
    for line in text.split("\n"):
        at = comment_at(line, comment)
        code, said = line[:at], line[at:]
        pieces = re.split(r'("(?:[^"\\]|\\.)*")', code)
        pieces = [p if i % 2 else re.sub(r"(?<![\w'-])" + WORD, word, p) for i, p in enumerate(pieces)]
        out.append("".join(pieces) + re.sub(r"`[^`]*`", quoted, said))
    return "\n".join(out)


def comment_at(line, comment):
    """Where a line's comment begins: behind its end if it has none; a page of prose is comment from its start."""
    if comment is None:
        return 0
    inside = False
    for i, c in enumerate(line):
        if c == '"' and (i == 0 or line[i - 1] != "\\"):
            inside = not inside
        elif not inside and line.startswith(comment, i) and (comment == "//" or i == 0 or line[i - 1] == " "):
            return i
    return len(line)


def main():
    dashed, every = declared()
    names = {name: spelled(name) for name in sorted(dashed)}
    taken = collections.defaultdict(list)
    for old, new in names.items():
        taken[new].append(old)
    bad = [f"{new}: {', '.join(old)}" for new, old in taken.items() if len(old) > 1 or new in every]
    if bad:
        print("fall together:\n  " + "\n  ".join(bad))
        raise SystemExit(1)
    changed = 0
    for path in files(".antt", ".rt", ".edit", ".md"):
        comment = "--" if path.endswith(".antt") else "//" if path.endswith((".rt", ".edit")) else None
        old = text_of(path)
        new = respell(old, names, comment)
        if new != old:
            changed += 1
            with open(path, "w", encoding="utf-8") as f:
                f.write(new)
    print(f"{len(names)} names respelled in {changed} files")


main()
