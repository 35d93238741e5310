#!/usr/bin/env python3
"""Lists what may be written in today's forms, point by point, in the sources below a folder.

    tools/places.py [FOLDER] [-v]

Prints, for each of eight patterns of older forms (docs/DESIGN-PASS.md says what each place is), how many places it finds; -v prints the places too. A pattern finds more
than what is to be changed (a loop over values is no loop over an index), and the page says what each place is.
"""
import difflib
import itertools
import re
import sys
from collections import Counter
from pathlib import Path

FUNCTION = re.compile(r"^ *(?:pub(?:\(crate\))? )?fn (\w+)[^{;]*?\((.*?)\)", re.S | re.M)
COUNT = re.compile(r"\b(?:n|p|offs|rows|count|depth|at|end|most|len|start): usize")
SLICE = re.compile(r"&(?:mut )?\[")


def functions(text):
    """Each function: name, parameters, body."""
    found = list(FUNCTION.finditer(text))
    for m, after in zip(found, [*found[1:], None]):
        part = text[m.end() : after.start() if after else len(text)]
        body = re.search(r"\{\n(.*)^ *\}", part, re.S | re.M)
        yield m.group(1), m.group(2), body.group(1) if body else ""


def lines(sources, pattern, but=None):
    found = []
    for path, text in sources:
        for number, line in enumerate(text.split("\n"), 1):
            code = line.split("//")[0]
            if re.search(pattern, code) and not (but and re.search(but, code)):
                found.append(f"{path}:{number}: {line.strip()}")
    return found


def options(sources):
    """Enums with a case that holds nothing beside one that holds something; a flag as a field; a number for a kind."""
    found = []
    for path, text in sources:
        for m in re.finditer(r"enum (\w+)[^{]*\{(.*?)\n\}", text, re.S):
            cases = [c for c in re.findall(r"^    (\w+.*)$", m.group(2), re.M)]
            bare = [c for c in cases if re.fullmatch(r"\w+,", c)]
            if bare and len(cases) > len(bare) and len(cases) <= 4:
                found.append(f"{path}: enum {m.group(1)}")
    found += lines(sources, r"\b(kind|state|area|side|letter): (u8|u64|usize)\b")
    found += lines(sources, r"\bwhole: bool")
    return found


def twins(sources):
    """Pairs of functions whose bodies are nearly the same."""
    bodies = []
    for path, text in sources:
        for name, _, body in functions(text):
            tokens = re.findall(r"\w+|[^\w\s]", body)
            if len(tokens) >= 12:
                bodies.append((f"{path}: {name}", tokens))
    found = []
    for (a, x), (b, y) in itertools.combinations(bodies, 2):
        if min(len(x), len(y)) / max(len(x), len(y)) > 0.6 and difflib.SequenceMatcher(None, x, y, False).ratio() >= 0.8:
            found.append(f"{a} | {b}")
    return found


def repeated(sources):
    """Clauses that stand in three or more contracts, whatever their names."""
    count = Counter()
    for _, text in sources:
        for m in re.finditer(r"^ *(requires|ensures)(?: \w+)? (\{.*\})$", text, re.M):
            count[f"{m.group(1)} {m.group(2)}"] += 1
    return [f"{n} times: {clause}" for clause, n in count.most_common() if n >= 3]


def together(sources):
    """Functions that take a slice and a count of what is in it."""
    return [f"{path}: {name}" for path, text in sources for name, params, _ in functions(text) if SLICE.search(params) and COUNT.search(params)]


def main():
    root = Path(next((a for a in sys.argv[1:] if a != "-v"), "."))
    sources = [(str(p.relative_to(root)), p.read_text()) for p in sorted(root.glob("crates/*/src/*.rt"))]
    points = {
        "1 options, flags, numbers for kinds": options(sources),
        "2 twins": twins(sources),
        "3 loops over a range, while, loop": lines(sources, r"\bfor \w+ in [^{]*\.\.|\b(while|loop)\b .*\{|\bloop \{"),
        "4 conversion and printing by hand": lines(sources, r"fn (word|name|number|byte|line|blank|digit|byte_of|bytes_of|order_of|text_of|word_of|write_decimal|sizes_of|items_of|put_\w+|after|refusal|ternary_mark|value_mark|is_on|repeated|full_word|in_hand)\b"),
        "5 clauses in three or more contracts": repeated(sources),
        "6 a slice and a count beside it": together(sources),
        "7 a switch on which step to run": lines(sources, r"match (letter|sought|self|along|side)\b", r"match self \{$") + lines(sources, r"enum (Sought|Direction)\b"),
    }
    for name, found in points.items():
        print(f"{len(found):4}  {name}")
        if "-v" in sys.argv:
            for place in found:
                print(f"        {place}")
    proofs = [p for p in root.glob("crates/*/proofs/**/*.antt")]
    print(f"{sum(len(p.read_text().split(chr(10))) - 1 for p in proofs):4}  8 lines of proofs, in {len(proofs)} files")


main()
