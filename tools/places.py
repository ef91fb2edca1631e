#!/usr/bin/env python3
"""Lists the places where the source may have an older form than Rattle allows.

    tools/places.py [FOLDER]      the places of each point, with their counts
    tools/places.py -c [FOLDER]   the counts alone

It goes by text: a place that it lists is one to read, not yet one to change.
"""
import difflib
import glob
import re
import sys

# what a function's head or body has, and the name under which it is counted
POINTS = {
    "1 enums of one's own": [r"^ *(?:pub )?enum \w+"],
    "1 a number for a kind or a refusal": [
        r"\b(?:number|function|code|kind|status): u(?:8|16|32|64|size)\b",
        r"\bRefused\(u8\)",
        r"\) -> u8\b",
    ],
    "1 a match or an if that does what a method of Option or Result does": [
        r"match [^{};]+\{\s*(?:Ok|Some)\((\w+|\(\))\) => (?:Ok|Some|Err|\1)\b[^{}]*?\n *(?:Err|None)[^{}]*?\n *\}",
        r"match [^{};]+\{\s*None => [^{}]*?\n *Some\(\w+\) => [^{}]*?\n *\}",
        r"if [^{}]+\{\s*Some\([^{}]*\)\s*\} else \{\s*None\s*\}",
        r"let Some\(\w+\) = [^;]+? else \{\s*return None;\s*\};",
        r"let (\w+) = [^;]+\?;\s*Ok\(\1\)",
    ],
    "3 a loop that counts by hand": [
        r"for _\w* in [^{]*\.\.",
        r"for (\w+) in [^{]*\.\.[^{]*\{[^}]*\[\1\]",
        r"\bwhile\b",
        r"\w \+= (?:1|2|17);",
    ],
    "4 an operator, a comparison, a conversion or a printing by hand": [
        r"fn (?:neg|add|sub|mul|div)\(self",
        r"fn (?:number|name_of|\w+_of|\w*capital\w*|\w*text|is_newest|is_for|origin|or_origin)\(",
        r"(?:x|y): 0\.0,\s*(?:y|next)",
    ],
    "5 parameters that travel together": [
        r"fn \w+(?:<[^{;]*?>)?\([^)]*\btable: &[^)]*\bhead: &",
        r"fn \w+(?:<[^{;]*?>)?\([^)]*\b(?:text|job): &[^)]*\b(?:end: usize|line: Line)",
        r"fn \w+(?:<[^{;]*?>)?\([^)]*\bspace: &[^)]*\bmaximum: f64[^)]*\blayer: Layer",
        r"fn \w+(?:<[^{;]*?>)?\([^)]*\bcells: &[^)]*\b(?:this|start): usize",
    ],
    "5 a fact in a requires of three or more functions": [
        r"requires[^{]*\{[^}]*\bChecked\b",
        r"requires[^{]*\{[^}]*≤ 65535",
        r"requires[^{]*\{[^}]*2 \* length",
        r"\bInside \w+\.now",
    ],
    "6 a length or an index beside a buffer": [
        r"fn \w+(?:<[^{;]*?>)?\([^)]*&(?:mut |'a )*\[\w+\][^)]*\b(?:start|this|other|at|stop): usize",
        r"\w\[(?:\w+(?:\.\w+)*) [+-] [^\]]+\]",
        r"\bfn find\(",
    ],
    "7 a switch on a step, or a step that could be handed in": [
        r"fn (?:in_layer|at_place)[^{]*\{[^{}]*match",
        r"fn \w+_term\(",
        r"fn (?:host|plane)_question\(",
        r"fn (?:measure|ask|total)<",
    ],
}


def sources(folder):
    for path in sorted(glob.glob(f"{folder}/crates/*/src/**/*.rt", recursive=True)):
        if "/out/" not in path:
            with open(path, encoding="utf-8") as file:
                yield path[len(folder) + 1 :], re.sub(r"^ *//.*", "", file.read(), flags=re.M)


def shape(text):
    """The function's words, where names, types, numbers and texts of one kind are one word."""
    text = re.sub(r"(?:requires|ensures)[^{]*\{.*?\}\n", "", text, flags=re.S)
    kept = {"fn", "for", "in", "if", "else", "while", "match", "let", "mut", "return", "Ok", "Err", "Some", "None"}
    words = re.findall(r'"[^"]*"|\w+|[^\w\s]', text)
    return [
        w if w in kept or not re.match(r'[\w"]', w) else "T" if w[0].isupper() else "0" if w[0].isdigit() else "a"
        for w in words
    ]


def twins(folder):
    """The pairs of functions of nine tenths the same shape, in sources that are no tests."""
    functions = []
    for path, text in sources(folder):
        if "/checks/" in path:
            continue
        for match in re.finditer(r"^( *)(?:pub(?:\(crate\))? )?fn (\w+).*?\n\1\}$", text, re.M | re.S):
            words = shape(match.group(0))
            if len(words) >= 24:
                line = text.count("\n", 0, match.start()) + 1
                functions.append((path, line, match.group(2), words))
    for i, (path, line, name, words) in enumerate(functions):
        for other in functions[i + 1 :]:
            if difflib.SequenceMatcher(None, words, other[3], autojunk=False).ratio() >= 0.9:
                yield path, line, f"{name} ~ {other[2]} ({other[0]}:{other[1]})"


def places(folder, patterns):
    found = set()
    for path, text in sources(folder):
        for pattern in patterns:
            for match in re.finditer(pattern, text, re.M):
                line = text.count("\n", 0, match.start()) + 1
                found.add((path, line, match.group(0).split("\n")[0].strip()))
    return sorted(found)


def main():
    arguments = sys.argv[1:]
    short = "-c" in arguments
    folder = next((a for a in arguments if a != "-c"), ".").rstrip("/")
    for point, patterns in POINTS.items():
        found = places(folder, patterns)
        print(f"{len(found):4} {point}")
        if not short:
            for path, line, text in found:
                print(f"       {path}:{line}: {text}")
    found = sorted(twins(folder))
    print(f"{len(found):4} 2 pairs of functions of one shape")
    if not short:
        for path, line, text in found:
            print(f"       {path}:{line}: {text}")
    answers = [
        len(re.findall(r"^pub \S+ : goal\.", open(path, encoding="utf-8").read(), re.M))
        for path in glob.glob(f"{folder}/crates/*/proofs/**/Answers.antt", recursive=True)
    ]
    print(f"{sum(answers):4} 8 answers in {len(answers)} files")


if __name__ == "__main__":
    main()
