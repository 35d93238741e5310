#!/usr/bin/env python3
"""Checks the tools and what they write: that the second program does what was worked out by hand, on areas of any length too, that the maker
of sheets says which line is wrong, that every example's sheet and lines are those of its text, and that the programs trials and area_trials
have the cases and the output that the tools write for them.

    python3 tools/check.py            ends with the number of checks, or with what is wrong and status 1
    python3 tools/check.py --write    first makes the sheet and the lines of every example, and the cases of both programs, anew
"""
import os
import sys

sys.dont_write_bytecode = True

import area_cases  # noqa: E402
import cases  # noqa: E402
import reference  # noqa: E402
import sheet  # noqa: E402
from reference import DC, NONE, ON, TERNARY, WORD, Areas, Card, Refused, Table  # noqa: E402

TOP = os.path.join(os.path.dirname(os.path.abspath(__file__)), "..")
EXAMPLES = os.path.join(TOP, "examples")
done = 0


def same(what, found, expected):
    global done
    done += 1
    if found != expected:
        sys.exit(f"check.py: {what}: {found!r} in place of {expected!r}")


def answer(call, *arguments):
    """What a call answers: the session's numbers, or number, layer and places of its refusal."""
    try:
        made = call(*arguments)
    except Refused as refused:
        return (refused.number, refused.layer, refused.first, refused.second)
    return vars(made)


def values(*items):
    return frozenset(items)


def held_as(areas):
    """All that the areas hold, to compare."""
    return {name: [item.fields() if isinstance(item, Card) else item for item in side] for name, side in vars(areas).items()}


def changed(before, areas):
    """The sides of the areas that are not as they were."""
    return sorted(name for name, side in held_as(areas).items() if side != before[name])


JUNK = values(0, 1, 7)
CARD = (9, 8, 7, True, True, True)


def areas_of(p, universe=None, table=(4, 4), off=20, solution=(4, 4), work=(30, 30)):
    """Areas of so many cubes of p parts and so many cards or numbers, all of them full of something."""
    areas = Areas(universe=p if universe is None else universe, table=table[0] * p, rows=table[1], off=off * p, solution=solution[0] * p,
                  cards=solution[1], work=work[0] * p, numbers=work[1], line=5, part=JUNK)
    areas.rows = [Card(*CARD) for _ in areas.rows]
    areas.cards = [Card(*CARD) for _ in areas.cards]
    areas.numbers = [6] * len(areas.numbers)
    areas.line = [5] * len(areas.line)
    return areas


# ---------------------------------------------------------------- kinds, cubes, text


def check_kinds():
    same("word 0", WORD.make(0), NONE)
    same("word with the lowest and the highest bit", WORD.make(1 << 63 | 1), values(0, 63))
    for word, made in ((0, NONE), (1, values(0)), (2, values(1)), (3, values(0, 1)), (4, NONE), (6, values(1)), (1 << 63 | 1, values(0))):
        same(f"ternary word {word}", TERNARY.make(word), made)


def ternary_cube(text):
    return tuple(TERNARY.make(cases.MARKS[mark]) for mark in text)


def check_cubes():
    cubes = {text: tuple(frozenset(v for v in (0, 1) if part[v] == "1") for part in text.split()) for text in (
        "11 11 11 11", "01 01 11 10", "10 11 11 11", "01 10 11 11", "01 01 11 01")}
    same("the worked cut", reference.cut(cubes["11 11 11 11"], cubes["01 01 11 10"]),
         [cubes["10 11 11 11"], cubes["01 10 11 11"], cubes["01 01 11 01"]])
    same("a cut by what does not meet", reference.cut(ternary_cube("0-"), ternary_cube("1-")), [ternary_cube("0-")])
    same("a cut by what covers", reference.cut(ternary_cube("0-"), ternary_cube("--")), [])
    same("the worked rest", reference.rest(ternary_cube("---"), [ternary_cube(t) for t in ("000", "001", "011", "111")]),
         [ternary_cube(t) for t in ("10-", "110", "010")])
    same("the rest of a cube with an empty part", reference.rest(ternary_cube("~-"), [ternary_cube("--")]), [ternary_cube("~-")])
    same("the same in turn", list(reference.rest_in_turn(ternary_cube("~-"), [ternary_cube("--")])), [ternary_cube("~-")])
    universe = tuple(frozenset(range(n)) for n in (3, 4, 1))
    same("a word cube", reference.cube_text(WORD, universe, (values(0, 2), NONE, values(0))), "101 0000 1")
    same("a ternary cube", reference.cube_text(TERNARY, ternary_cube("---0"), ternary_cube("01~0")), "01~0")


def check_rests():
    """On small tables: both ways to the off list agree, and it holds each vertex of the universe as often as the rows say, once or not at all."""
    chance = cases.Chance(3)
    for _ in range(300):
        p = 1 + chance.below(3)
        universe = tuple(frozenset(range(1 + chance.below(3))) for _ in range(p))
        rows = [tuple(WORD.make(chance.below(8)) & part or part for part in universe) for _ in range(chance.below(6))]
        plain = reference.rest(universe, rows)
        same("rest in turn", list(reference.rest_in_turn(universe, rows)), plain)
        vertices = [()]
        for part in universe:
            vertices = [v + (x,) for v in vertices for x in part]
        for v in vertices:
            inside = [all(x in part for x, part in zip(v, cube)) for cube in plain]
            is_off = not any(all(x in part for x, part in zip(v, row)) for row in rows)
            same("a vertex in the off list", sum(inside), 1 if is_off else 0)


# ---------------------------------------------------------------- Begin, Add, Open on areas of any length


def check_begin():
    sizes = [3, 64, 1, 2] + [2] * 12
    for p in (0, 17, 18, 2 ** 64 - 1):
        same(f"{p} parts", answer(reference.begin, WORD, areas_of(16), p, sizes), (6, "table", p, 0))
    same("a size of 0", answer(reference.begin, WORD, areas_of(16), 16, [1, 1, 0, 65] + [1] * 12), (6, "table", 2, 0))
    same("a size of 65", answer(reference.begin, WORD, areas_of(16), 2, [1, 65] + [0] * 14), (6, "table", 1, 65))
    same("sizes past p", answer(reference.begin, WORD, areas_of(1), 1, [64] + [0] * 15), {"p": 1, "rows": 0})
    same("a ternary size of 3", answer(reference.begin, TERNARY, areas_of(4), 4, [2, 1, 3, 2] + [2] * 12), (6, "table", 2, 3))
    same("shape before area", answer(reference.begin, WORD, areas_of(1, universe=0), 1, [0] * 16), (6, "table", 0, 0))
    for has in range(4):
        areas = areas_of(4, universe=has)
        before = held_as(areas)
        same(f"4 parts in {has}", answer(reference.begin, WORD, areas, 4, sizes), (8, "table", 1, 4))
        same("nothing is written", changed(before, areas), [])
    areas = areas_of(4, universe=6)
    before = held_as(areas)
    same("begin", answer(reference.begin, WORD, areas, 4, sizes), {"p": 4, "rows": 0})
    same("the universe", areas.universe, [values(0, 1, 2), values(*range(64)), values(0), values(0, 1), JUNK, JUNK])
    same("what begin writes", changed(before, areas), ["universe"])


def begun(p, **lengths):
    areas = areas_of(p, **lengths)
    areas.universe[:p] = [values(0, 1)] * min(p, len(areas.universe))
    return areas


def check_add():
    words = [1, 2] + [0] * 14
    same("universe one short", answer(reference.add, WORD, begun(2, universe=1), Table(2, 0), ON, words), (8, "table", 1, 2))
    same("universe of length 0", answer(reference.add, WORD, begun(2, universe=0), Table(2, 0), ON, words), (8, "table", 1, 2))
    for table in ((2, 9), (9, 2), (2, 2)):
        same("table one short of its rows", answer(reference.add, WORD, begun(2, table=table), Table(2, 3), ON, words), (8, "table", 2, 3))
        same("table filled", answer(reference.add, WORD, begun(2, table=table), Table(2, 2), ON, words), (12, "table", 2, 0))
    same("table of length 0, no row", answer(reference.add, WORD, begun(2, table=(0, 0)), Table(2, 0), ON, words), (12, "table", 0, 0))
    same("area before empty", answer(reference.add, WORD, begun(2, table=(2, 9)), Table(2, 3), ON, [0] * 16), (8, "table", 2, 3))
    same("empty before full", answer(reference.add, WORD, begun(2, table=(0, 0)), Table(2, 0), ON, [1] + [0] * 15), (9, "table", 1, 0))
    same("empty before outside", answer(reference.add, WORD, begun(2), Table(2, 0), ON, [4] + [0] * 15), (9, "table", 1, 0))
    same("outside", answer(reference.add, WORD, begun(2), Table(2, 0), ON, [3, 1 << 63 | 1 << 40] + [0] * 14), (10, "table", 1, 40))
    areas = begun(2)
    areas.universe[0] = values(1, 5)
    same("a universe with gaps", answer(reference.add, WORD, areas, Table(2, 0), ON, [0b101010, 1] + [0] * 14), (10, "table", 0, 3))
    areas = begun(2)
    before = held_as(areas)
    same("a DC row", answer(reference.add, WORD, areas, Table(2, 1), DC, words), {"p": 2, "rows": 2})
    same("the rows", areas.table, [JUNK, JUNK, values(0), values(1)] + [JUNK] * 4)
    same("the cards", held_as(areas)["rows"], [CARD, (1, 0, 1, False, False, False), CARD, CARD])
    same("what add writes", changed(before, areas), ["rows", "table"])
    areas.rows[1].kind = 77
    same("a repeat of another kind", answer(reference.add, WORD, areas, Table(2, 2), ON, words), {"p": 2, "rows": 3})
    areas.rows[2].kind = 1
    before = held_as(areas)
    same("a repeat, by a card of kind 77", answer(reference.add, WORD, areas, Table(2, 3), DC, words), (11, "table", 1, 1))
    same("nothing is written", changed(before, areas), [])
    areas = begun(1, table=(600, 600))
    areas.universe[0] = values(*range(64))
    same("row 513", answer(reference.add, WORD, areas, Table(1, 512), ON, [1 << 50] + [0] * 15), (12, "table", 512, 0))
    same("row 512", answer(reference.add, WORD, areas, Table(1, 511), ON, [1 << 50] + [0] * 15), {"p": 1, "rows": 512})


def opened_areas(**lengths):
    """Three parts of two values; rows 0 ON 0--, 1 DC (by a kind of 5) -1-, 2 ON --0. Cutting leaves 101 alone."""
    areas = begun(3, table=lengths.pop("table", (4, 5)), **lengths)
    for i, (text, number) in enumerate((("0--", 0), ("-1-", 5), ("--0", 0))):
        if len(areas.table) >= 3 * i + 3:
            areas.table[3 * i:3 * i + 3] = ternary_cube(text)
        if i < len(areas.rows):
            areas.rows[i] = Card(number, 4, 3, True, False, True)
    return areas


def check_open():
    table = Table(3, 3)
    for lengths, refusal in (
        ({"universe": 2}, (8, "engine", 1, 3)),
        ({"universe": 0, "table": (0, 0)}, (8, "engine", 1, 3)),
        ({"table": (2, 3)}, (8, "engine", 2, 3)),
        ({"table": (3, 2)}, (8, "engine", 2, 3)),
        ({"table": (0, 0), "solution": (0, 0)}, (8, "engine", 2, 3)),
        ({"solution": (1, 2)}, (8, "engine", 4, 2)),
        ({"solution": (2, 1)}, (8, "engine", 4, 2)),
        ({"solution": (0, 0), "work": (0, 0)}, (8, "engine", 4, 2)),
        ({"work": (6, 7)}, (8, "engine", 5, 7)),
        ({"work": (7, 6)}, (8, "engine", 5, 7)),
        ({"work": (0, 0), "off": 0}, (8, "engine", 5, 7)),
    ):
        areas = opened_areas(**lengths)
        before = held_as(areas)
        same(f"open with {lengths}", answer(reference.open_table, areas, table), refusal)
        same("nothing is written", changed(before, areas), [])
    check_opened(table)
    check_off(table)


def check_opened(table):
    areas = opened_areas(table=(3, 3), solution=(3, 2), work=(9, 7), off=2)
    areas.work.append(JUNK)
    before = held_as(areas)
    same("open", answer(reference.open_table, areas, table), {"p": 3, "rows": 3, "off": 1, "count": 2})
    same("the off area", areas.off, list(ternary_cube("101")) + [JUNK] * 3)
    same("the solution", areas.solution, list(ternary_cube("0--") + ternary_cube("--0")) + [JUNK] * 3)
    same("its cards", held_as(areas)["cards"], [(0, 0, 0, False, False, False)] * 2)
    same("the work area", areas.work, [NONE] * 21 + [JUNK] * 7)
    same("its numbers", areas.numbers, [0] * 7)
    same("what open writes", changed(before, areas), ["cards", "numbers", "off", "solution", "work"])
    areas = opened_areas(work=(7, 9), solution=(2, 4))
    same("open", answer(reference.open_table, areas, table), {"p": 3, "rows": 3, "off": 1, "count": 2})
    same("numbers past the area", areas.numbers, [0] * 7 + [6] * 2)
    same("cards past the count", held_as(areas)["cards"], [(0, 0, 0, False, False, False)] * 2 + [CARD] * 2)
    areas = begun(2, table=(0, 0), solution=(0, 0), work=(1, 1), off=1)
    areas.universe[1] = NONE
    same("a universe with an empty part", answer(reference.open_table, areas, Table(2, 0)), {"p": 2, "rows": 0, "off": 1, "count": 0})
    same("its off list", areas.off, [values(0, 1), NONE])


def check_off(table):
    for parts, most in ((0, 0), (2, 0)):
        areas = opened_areas(off=0)
        areas.off = [JUNK] * parts
        before = held_as(areas)
        same(f"an off area of {parts} parts", answer(reference.open_table, areas, table), (13, "engine", most, 0))
        same("what stays", changed(before, areas), ["numbers", "work"])
    areas = begun(3, table=(1, 1), solution=(1, 1), work=(4, 3), off=2)
    areas.table = list(ternary_cube("000"))
    areas.rows = [Card()]
    before = held_as(areas)
    same("three off cubes where two fit", answer(reference.open_table, areas, Table(3, 1)), (13, "engine", 2, 0))
    same("those that fit", areas.off, list(ternary_cube("1--") + ternary_cube("01-")))
    same("the work area", (areas.work, areas.numbers), ([NONE] * 9 + [JUNK] * 3, [0] * 3))
    same("what stays", changed(before, areas), ["numbers", "off", "work"])
    for nine, found in ((0, {"p": 11, "rows": 512, "off": 4096, "count": 512}), (1, (13, "engine", 4096, 0))):
        areas = begun(11, table=(512, 512), solution=(512, 512), work=(5121, 5121), off=5000)
        areas.universe = [values(*range(64)), values(*range(8))] + [values(0, 1)] * 9
        for i in range(512):
            last = values(0) if i < nine else values(0, 1)
            areas.table[11 * i:11 * i + 11] = [values(i // 8), values(i % 8)] + [values(0)] * 8 + [last]
            areas.rows[i] = Card()
        same(f"{4096 + nine} off cubes", answer(reference.open_table, areas, Table(11, 512)), found)


# ---------------------------------------------------------------- sheets from texts

TEXTS = [
    ("", b""),
    ("# nothing\n\n", b""),
    ("kind ternary\npart 2 # a\npart 2 2\non 000\non 001\non 011\non 111\nopen\n", cases.FIRST + b"O"),
    ("kind 7", b"K\7"),
    ("kind word\npart 3 0x40\nvalue 1 {0,3..5,63}\nvalue 255 18446744073709551615\nadd dc\nadd on",
     cases.words_of(3, 64) + cases.value(1, 1 << 63 | 0b111001) + cases.value(255, 2 ** 64 - 1) + b"DF"),
    ("kind word\npart 3 64\non 011 *\ndc {} 0xF\non { 1 , 2 } {0 .. 1}",
     cases.words_of(3, 64) + cases.value(0, 6) + b"F" + cases.value(0, 0) + cases.value(1, 15) + b"D" + cases.row([6, 3])),
    ("kind ternary\npart 2 2 2 2\ndc 0 1 -~\non *1**\non ****", cases.ternary(4) + cases.row([1, 2, 3, 0], b"D") + cases.value(1, 2) + b"FF"),
    ("bytes 4b 01 ff\nopen", b"K\1\xffO"),
]

WRONG = [
    ("kind", 1), ("kind ternery", 1), ("kind 256", 1), ("kind word word", 1), ("\n\npart", 3), ("part 300", 1), ("part 2 two", 1), ("on 00", 1),
    ("kind 2\npart 2\non 0", 3), ("kind ternary\npart 2 2\non 000", 3), ("kind ternary\npart 2 2\n\n# a\non 0\n", 5),
    ("kind ternary\npart 2\non 2", 3),
    ("kind ternary\npart 2\non {0}", 3), ("kind word\npart 3 3\non {0}", 3), ("kind word\npart 3\non {64}", 3), ("kind word\npart 3\non {2..1}", 3),
    ("kind word\npart 3\non {1..2..3}", 3), ("kind word\npart 3\non {0,}", 3), ("kind word\npart 3\non {0", 3), ("kind word\npart 3\non 10", 3),
    ("kind word\npart 3\non 5", 3), ("kind word\npart 3\non 0x10000000000000000", 3), ("value 0", 1), ("value 256 0", 1), ("value 0 -", 1),
    ("value 0 18446744073709551616", 1), ("add", 1), ("add off", 1), ("open 1", 1), ("bytes", 1), ("bytes 4", 1), ("bytes 4b0", 1), ("expand 2", 1),
]


def check_sheets():
    for text, expected in TEXTS:
        same(f"the sheet of {text!r}", sheet.make(text), expected)
    same("the length of the first sheet", len(sheet.make(TEXTS[2][0])), 133)
    for text, line in WRONG:
        try:
            found = sheet.make(text)
        except sheet.Wrong as wrong:
            found = wrong.line
        same(f"the line that is wrong in {text!r}", found, line)


# ---------------------------------------------------------------- examples

# The examples whose lines were worked out by hand.
BY_HAND = {
    "first": "O 4 3\n",
    "words": "O 3 5\n",
    "free": "O 4 2\n",
    "refused-misplaced": "refused 4 misplaced sheet at 27 80 2\n",
    "refused-cut": "refused 3 cut sheet at 6 86 4\n",
    "refused-shape": "refused 6 shape table at 4 1 3\n",
    "refused-area": "refused 8 area table at 20 1 9\n",
    "refused-outside": "refused 10 outside table at 26 1 4\n",
    "refused-repeat": "refused 11 repeat table at 89 1 0\n",
    "refused-after-open": "O 1 2\nrefused 4 misplaced sheet at 28 70 3\n",
}


def example(name, ending, mode="rb", content=None):
    with open(os.path.join(EXAMPLES, name + ending), mode) as file:
        return file.read() if content is None else file.write(content)


def check_examples(write):
    names = sorted(name[:-4] for name in os.listdir(EXAMPLES) if name.endswith(".txt"))
    same("examples worked out by hand that are there", sorted(set(BY_HAND) - set(names)), [])
    for name in names:
        made = sheet.make(example(name, ".txt").decode())
        lines = "".join(line + "\n" for line in reference.run(made))
        same(f"example {name} by hand", lines, BY_HAND.get(name, lines))
        if write:
            example(name, ".sheet", "wb", made)
            example(name, ".out", "wb", lines.encode())
        same(f"examples/{name}.sheet", example(name, ".sheet"), made)
        same(f"examples/{name}.out", example(name, ".out").decode(), lines)


# ---------------------------------------------------------------- the cases of trials and area_trials


def check_file(name, text, write):
    """A file of a crate is what a tool writes. What differs is not printed: it is long."""
    path = os.path.join(TOP, "crates", *name.split("/"))
    if write:
        with open(path, "wb") as file:
            file.write(text.encode())
    with open(path, "rb") as file:
        same(f"crates/{name} is what the tools write", file.read() == text.encode(), True)


def check_cases(write):
    """The cases of trials hold every refusal that a sheet can come to, and stay within their size."""
    found, written = set(), []
    for label, made, lines in cases.cases():
        written.append(cases.case_line(made, lines) + "\n")
        found |= {line.split()[2] for line in lines.split("/") if line.startswith("refused")}
    same("refusals in the cases", sorted(found), sorted(set(reference.NAMES.values()) - {"limit", "foreign"}))
    text = "".join(written)
    same("cases under 400 KB", len(text) < 400_000, True)
    check_file("trials/stdin", text, write)
    check_file("trials/stdout", f"{len(written)} cases, 0 wrong\n", write)


def check_area_cases(write):
    """The cases of area_trials hold every refusal that Begin, Add and Open can come to, and stay within their size."""
    made = list(area_cases.cases())
    found = {tuple(answer.split()[1:3]) for _, run in made for answer in run.answers if answer.startswith("refused")}
    expected = {("6", "table"), ("8", "table"), ("8", "engine"), ("9", "table"), ("10", "table"), ("11", "table"), ("12", "table"), ("13", "engine")}
    same("refusals in the cases on areas", sorted(found), sorted(expected))
    text, output = area_cases.input_of(made), area_cases.output_of(made)
    same("cases on areas under 300 KB", len(text) + len(output) < 300_000, True)
    check_file("area_trials/stdin", text, write)
    check_file("area_trials/stdout", output, write)


def main(words):
    if words not in ([], ["--write"]):
        sys.stderr.write("usage: check.py [--write]\n")
        return 2
    for check in (check_kinds, check_cubes, check_rests, check_begin, check_add, check_open, check_sheets):
        check()
    for check in (check_examples, check_cases, check_area_cases):
        check(bool(words))
    print(f"{done} checks of tools and examples")
    return 0


if __name__ == "__main__":
    sys.exit(main(sys.argv[1:]))
