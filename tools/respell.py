#!/usr/bin/env python3
"""Brings the names of this repository's own definitions and lemmas to snake case.

usage: python3 tools/respell.py [--anyway] [FOLDER]    (FOLDER: the top of a checkout; nothing: here)

Run once, after port.py and before anything is proved. It goes over specs/ and proofs/, the clauses of src/ and the
edits. Types, facts and modules are in upper camel case already and stay; so do the names of src/, the goals and steps
that Rattle names, and what a file imports from another library under the same spelling. It prints the words
of a file that would fall together, and then changes nothing, unless it is told --anyway.
"""
import os
import re
import sys

BREAK = r"\s(){}\[\];,.:«»⌜⌝@\"|"
WORD = re.compile(rf"[^{BREAK}]+")
SIGNATURE = re.compile(r"^[ \t]*(?:mutual )?(?:(?:abbrev|unfoldable|pub) )*([^\s(){};,.:]+(?: [^\s(){};,.:]+)*) : (.*)$", re.M)
IMPORT = re.compile(r"^(?:ghost )?(?:pub )?use ([^\s{;]+?)\.?(?:\{([^}]*)\}|(?= as |;|$))", re.M)


def snake(name):
    name = re.sub(r"(?<=[a-z0-9])([A-Z])(?=[a-z]|$)", lambda m: "_" + m.group(1).lower(), name)
    return name.replace("-", "_")


def is_old(name):
    if len(name) < 3 or not re.match(r"[a-z]", name):
        return False
    return bool(re.search(r"[a-z0-9][A-Z][a-z]|\w-\w|[a-z]-\d", name))


def files(top):
    for folder, dirs, names in os.walk(os.path.join(top, "crates")):
        dirs[:] = sorted(d for d in dirs if d not in ("out", "data"))
        for n in sorted(names):
            if n.endswith((".antt", ".rt", ".edit")):
                yield os.path.join(folder, n)


def read(path):
    with open(path, encoding="utf-8") as f:
        return f.read()


def own_crates(top):
    return {n for n in os.listdir(os.path.join(top, "crates"))}


def foreign(text, own):
    """The names that a file takes from a library that is not of this repository."""
    found = set()
    for m in IMPORT.finditer(text):
        parts = m.group(1).split(".")
        if len(parts) > 1 and parts[0] == "Rattle" and parts[1] in own:
            continue
        for item in (m.group(2) or "").split(","):
            found.update(item.split())
    return found


def defined(top):
    names = {}
    for path in files(top):
        if not path.endswith(".antt"):
            continue
        for m in SIGNATURE.finditer(read(path)):
            if m.group(2).startswith("goal."):
                continue
            for n in m.group(1).split():
                names.setdefault(n, set()).add(os.path.relpath(path, top))
    return names


# Lemmas about a definition of the same spelling.
LEMMAS = ["all-rows", "first-index", "free-number", "lines-before", "spent-after"]


def clash(text, turned, skip):
    """The words of one file that would fall together. A function of src/ may have the name of its definition."""
    by_new = {}
    text = re.sub(r"^use \S+\.(?:Goals|Given)\b.*$", "", text, flags=re.M)
    for n in set(WORD.findall(text)):
        by_new.setdefault(n if n in skip else turned.get(n, n), set()).add(n)
    return {new: old for new, old in by_new.items() if len(old) > 1}


def respell(text, turned, skip, comment):
    lines = []
    for line in text.split("\n"):
        at = line.find(comment)
        code, rest = (line, "") if at < 0 else (line[:at], line[at:])
        code = WORD.sub(lambda m: m.group(0) if m.group(0) in skip else turned.get(m.group(0), m.group(0)), code)
        rest = WORD.sub(lambda m: m.group(0) if "-" in m.group(0) else turned.get(m.group(0), m.group(0)), rest)
        lines.append(code + rest)
    return "\n".join(lines)


def main():
    top = next((a for a in sys.argv[1:] if a != "--anyway"), ".")
    own = own_crates(top)
    names = defined(top)
    turned = {n: snake(n) for n in names if is_old(n)}
    turned.update({n: snake(n) + "_lem" for n in LEMMAS if n in names})
    together = 0
    for path in (p for p in files(top) if p.endswith(".antt")):
        text = read(path)
        for new, old in sorted(clash(text, turned, foreign(text, own)).items()):
            together += 1
            print(f"{os.path.relpath(path, top)}: {new}: " + ", ".join(sorted(old)))
    if together and "--anyway" not in sys.argv:
        raise SystemExit(1)
    count = 0
    for path in files(top):
        text = read(path)
        skip = foreign(text, own)
        new = respell(text, turned, skip, "--" if path.endswith(".antt") else "//")
        if new != text:
            count += 1
            with open(path, "w", encoding="utf-8") as f:
                f.write(new)
    print(f"{len(turned)} names, {count} files")


if __name__ == "__main__":
    main()
