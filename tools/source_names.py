#!/usr/bin/env python3
"""Gives the goals and steps that proof files cite the spelling of the source: `returns-in-err-n` becomes `returns-in_err-n`.

usage: python3 tools/source_names.py CRATE ..     at the top, once

Only files below proofs/ that belong to a function are changed, and no name that they import from a library.
"""

import os
import re
import sys

TOKEN = re.compile(r"(?<![\w'-])[^\W\d][\w'₀-₉]*(?:-[\w'₀-₉]+)+")
WORDS = set(
    "in_ok in_err in_default In_ok In_err In_default yielded_by slice_bounds offset_bounds overflow_add overflow_sub overflow_mul "
    "overflow_shl overflow_cast overflow_step nonzero_div nonzero_rem invariant_of type_inv deref_mut from_residual".split()
)
LIBRARY = re.compile(r"^use (?:Rattle\.std|borrow|denote|lib|mathlib|Prim)\b.*\{(.*)\}")


def idents():
    found = set(WORDS)
    for folder, _, names in os.walk("crates"):
        if os.sep + "src" not in folder:
            continue
        for name in names:
            if name.endswith(".rt"):
                with open(os.path.join(folder, name), encoding="utf-8") as f:
                    found.update(w for w in re.findall(r"[a-z]\w*", f.read()) if "_" in w.strip("_"))
    return found


def respelled(token, known):
    parts = token.split("-")
    out, i = [], 0
    while i < len(parts):
        for j in range(len(parts), i + 1, -1):
            word = "_".join(parts[i:j])
            if word in known:
                out.append(word)
                i = j
                break
        else:
            out.append(parts[i])
            i += 1
    return "-".join(out)


def main():
    known = idents()
    for crate in sys.argv[1:]:
        top = os.path.join("crates", crate, "proofs")
        for folder, _, names in os.walk(top):
            if folder == top:
                continue
            for name in sorted(names):
                path = os.path.join(folder, name)
                with open(path, encoding="utf-8") as f:
                    old = f.read()
                kept = set()
                for line in old.split("\n"):
                    m = LIBRARY.match(line)
                    if m:
                        kept.update(x.strip().split(" as ")[0] for x in m[1].split(","))
                new = TOKEN.sub(lambda m: m[0] if m[0] in kept else respelled(m[0], known), old)
                if new != old:
                    with open(path, "w", encoding="utf-8") as f:
                        f.write(new)


main()
