#!/usr/bin/env python3
"""Prints the places of src/ that may want another form, one kind after the other, and how many of each there are.

    python3 tools/places.py [COMMIT]        of a commit, or of the files as they stand
    python3 tools/places.py --count [COMMIT]  the numbers alone

It goes by text: a hit is a place to look at, not a fault.
"""
import re
import subprocess
import sys
from collections import defaultdict


def git(*words):
    return subprocess.run(("git",) + words, capture_output=True, text=True, check=True).stdout


def sources(commit, ending):
    """The files of crates/ with such an ending, as pairs of path and text."""
    if commit:
        names = git("ls-tree", "-r", "--name-only", commit, "crates").split("\n")
        read = lambda name: git("show", f"{commit}:{name}")
    else:
        names = git("ls-files", "-co", "--exclude-standard", "crates").split("\n")
        read = lambda name: open(name).read()
    for name in names:
        if name.endswith(ending):
            try:
                yield name, read(name)
            except FileNotFoundError:
                pass


def lines_like(files, *patterns):
    """Places of lines that one of the patterns fits."""
    for name, text in files:
        for number, line in enumerate(text.split("\n"), 1):
            code = line.split("//")[0]
            if any(re.search(p, code) for p in patterns):
                yield f"{name}:{number}: {line.strip()}"


FUNCTION = re.compile(r"^( *)(?:pub(?:\(crate\))? )?(?:extern \"C\" )?fn (\w+)(?:<[^(]*>)?\(([^)]*)\)([^{;]*)", re.M)


def functions(files):
    """Each function: path, line, name, parameters, and what stands between them and the body."""
    for name, text in files:
        for found in FUNCTION.finditer(text):
            yield name, text.count("\n", 0, found.start()) + 1, found[2], found[3], found[4]


def flags(files):
    """Functions that answer a bool and fill something that is lent to them."""
    for name, number, word, given, rest in functions(files):
        if re.match(r"\s*-> (Result<)?bool", rest) and "&mut" in given.replace("&mut self", ""):
            yield f"{name}:{number}: {word}"


def numbers_for_kinds(files):
    yield from lines_like(
        files, r"Refused\(\d", r"^\s*\d+ => (self\.\w+_fault|Refusal)", r"kind: u\d+", r"field: u8", r"present: u32", r"pub stopped: u32", r"\bput_field\(i, \d", r"fn \w+\(\) -> u8$"
    )


def facts(files):
    """Clauses, and pairs of parameters, that three functions or more have."""
    clauses, pairs = defaultdict(list), defaultdict(list)
    for name, number, word, given, rest in functions(files):
        for clause in set(re.findall(r"(?:requires|ensures)(?: \w+)? \{ (.*) \}$", rest_of(files, name, number), re.M)):
            for part in clause.split(" × ") if clause.startswith("(") else [clause]:
                clauses[part.strip("() ")].append(word)
        sorts = [" ".join(p.split(":")[1].split()) for p in given.split(",") if ":" in p]
        for i, one in enumerate(sorts):
            for other in sorts[i + 1 :]:
                if not re.search(r"[A-Z]\w*$", one) or not re.search(r"[A-Z]\w*$|&mut \[u8\]$", other) or "Global" in one + other or "String" in one + other:
                    continue
                pairs[f"{one}, {other}"].append(f"{name}:{number} {word}")
    for what in (clauses, pairs):
        for key, users in sorted(what.items(), key=lambda pair: -len(pair[1])):
            if len(users) >= 3:
                yield f"{len(users)} functions: {key}"


TEXTS = {}


def rest_of(files, name, number):
    """From a function's line on, up to its body."""
    text = TEXTS.setdefault(name, dict(files)[name].split("\n"))
    taken = []
    for line in text[number - 1 :]:
        taken.append(line)
        if line.strip() in ("{", "{}") or line.endswith("{") and "ensures" not in line and "requires" not in line:
            break
        if line.endswith(";"):
            break
    return "\n".join(taken)


def twins(files):
    """Functions of one name in two files, and types of one name."""
    places = defaultdict(list)
    for name, number, word, _, _ in functions(files):
        places[word].append(f"{name}:{number}")
    for name, text in files:
        for found in re.finditer(r"^(?:pub )?(?:struct|enum) (\w+)", text, re.M):
            places[found[1]].append(f"{name}:{text.count(chr(10), 0, found.start()) + 1}")
    for word, where in sorted(places.items()):
        if len(where) > 1 and word not in ("main", "new", "from", "fmt"):
            yield f"{word}: {', '.join(where)}"


def lengths(files):
    """Structs that hold an array or a slice, and a length or an index beside it; lists that are lent to be filled."""
    for name, text in files:
        for found in re.finditer(r"struct (\w+)[^{]*\{([^}]*)\}", text):
            if re.search(r"\[[^\]]+; ?\d+\]", found[2]) and re.search(r"\blen: ", found[2]):
                yield f"{name}:{text.count(chr(10), 0, found.start()) + 1}: {found[1]}"
    yield from lines_like(files, r": &mut Vec<", r": &mut Request\b", r": &mut Chain\b")


def answers(files):
    for name, text in files:
        if "/proofs/" in name:
            count = len(re.findall(r"^pub \S+ : goal\.", text, re.M))
            if count:
                yield f"{name}: {count}"


def main():
    words = [w for w in sys.argv[1:] if w != "--count"]
    commit = words[0] if words else None
    src = [f for f in sources(commit, ".rt")]
    proofs = [f for f in sources(commit, ".antt")]
    kinds = [
        ("1 own enums", lines_like(src, r"^(pub )?enum ")),
        ("1 a flag beside what is filled", flags(src)),
        ("1 numbers for kinds or refusals", numbers_for_kinds(src)),
        ("2 one name in two places", twins(src)),
        ("3 loops and calls that count by hand", lines_like(src, r"\bwhile\b", r"for \w+ in 0\.\.", r"^\s*\w+ [+-]= 1;", r"- 1, (n|m|out|table)", r", n - 1,", r"left - 1")),
        ("4 conversions, comparisons, copies and printing by hand", lines_like(src, r"fn (copy\w*|copied|is_as|same|is|in_words|numbers_of|read_state|write_state|read_from|write_to|table_of|region_of|print|write_\w+|count_up|is_served|is_stopped|is_anew|is_refused)\b", r"report::lines|lines::\w+\(out")),
        ("5 facts and parameters of three functions or more", facts(src)),
        ("6 buffers with a length beside, lists lent to be filled", lengths(src)),
        ("7 a switch on which step to run", lines_like(src, r"match r\.below", r"mark: Mark", r"match self\.below", r"match .*random.*below")),
        ("8 answers in proof files", answers(proofs)),
    ]
    for title, places in kinds:
        found = list(places)
        count = sum(int(f.rsplit(": ", 1)[1]) for f in found) if title.startswith("8") else len(found)
        print(f"{title}: {count}")
        if "--count" not in sys.argv:
            for place in found:
                print(f"    {place}")


main()
