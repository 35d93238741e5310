#!/usr/bin/env python3
"""Writes the cases of the program area_trials, which makes calls of the library on areas of any length, and what it must print.

    python3 tools/area_cases.py --cases       its standard input, a line for each case
    python3 tools/area_cases.py --expected    its standard output
    python3 tools/area_cases.py --labels      the number of each case and what it is for

How a case is written is said in crates/area_trials/src/main.rt. What must be printed comes from tools/reference.py. For the cases by plan the
answers are written here as well, worked out by hand, and the program ends with a complaint where the two differ. The list is the same in every
run: the cases by chance come from a generator with a fixed seed.
"""
import sys

sys.dont_write_bytecode = True

import reference  # noqa: E402
from cases import Chance  # noqa: E402
from reference import DC, ON, Areas, Card, Refused  # noqa: E402

KINDS = (reference.WORD, reference.TERNARY)
WORD, TERNARY = 0, 1
SIDES = ("universe", "table", "rows", "off", "solution", "cards", "work", "numbers")
ALL = 2 ** 64 - 1
SHOW = ("S",)


# ---------------------------------------------------------------- commands


def lengths(p, universe=None, table=(4, 4), off=6, solution=(3, 3), work=(9, 9), more=0):
    """The lengths of the sides: so many cubes of p parts, `more` parts behind them, and so many cards or numbers."""
    return (p if universe is None else universe, table[0] * p + more, table[1], off * p + more, solution[0] * p + more, solution[1],
            work[0] * p + more, work[1])


def begin(p, *sizes):
    return ("B", p, len(sizes), *sizes)


def on(*words):
    return ("A", ON, len(words), *words)


def dc(*words):
    return ("A", DC, len(words), *words)


OPEN = ("O",)


def lend(side, n):
    return ("L", SIDES.index(side), n)


def universe(place, word):
    return ("U", place, word)


def table(place, word):
    return ("T", place, word)


def kind(place, number):
    return ("C", place, number)


MARKS = {"0": 1, "1": 2, "-": 3, "~": 0}


def words(text):
    return [MARKS[mark] for mark in text]


def shown(commands):
    """The commands, with the sides shown after each call."""
    made = []
    for command in commands:
        made.append(command)
        if command[0] in "BAO":
            made.append(SHOW)
    return made


class Case:
    """A case: the kind of part, the lengths of the sides, the commands; whether sides are printed by their sums."""

    def __init__(self, label, number, sides, commands, answers=None, sums=False):
        self.label, self.number, self.sides, self.sums = label, number, sides, sums
        self.commands = commands if sums else shown(commands)
        self.answers = answers

    def line(self):
        items = [self.number, int(self.sums), *self.sides]
        for command in self.commands:
            items.extend(command)
        return " ".join(str(item) for item in items)


# ---------------------------------------------------------------- what is printed


def junk_areas(kind_of_part, sides):
    """Areas of these lengths, full of something: as the program fills them."""
    areas = Areas()
    for side, (name, n) in enumerate(zip(SIDES, sides)):
        if name in ("rows", "cards"):
            made = [Card(k % 3, k + 10, k + 20, k % 2 == 0, k % 4 < 2, k % 8 < 4) for k in range(n)]
        elif name == "numbers":
            made = [k + 30 for k in range(n)]
        else:
            made = [kind_of_part.make(1 + (7 * k + 3 * side) % 250) for k in range(n)]
        setattr(areas, name, made)
    return areas


def numbers_of(side):
    """The numbers that a side is printed by."""
    made = []
    for item in side:
        if isinstance(item, Card):
            made += [item.kind, item.weight, item.place, item.taken | item.tried << 1 | item.out << 2]
        elif isinstance(item, frozenset):
            made.append(sum(1 << v for v in item))
        else:
            made.append(item)
    return made


def sum_of(numbers):
    made = 0
    for number in numbers:
        made = (made * 1_000_003 + number + 1) % 2 ** 64
    return made


class Run:
    """A run of a case."""

    def __init__(self, case):
        self.kind = KINDS[case.number]
        self.sums = case.sums
        self.areas = junk_areas(self.kind, case.sides)
        self.lent = dict(zip(SIDES, case.sides))
        self.table = None
        self.seen = self.images()
        self.words = []     # of the line that is being made
        self.answers = []   # all of them
        self.lines = []

    def images(self):
        return {name: numbers_of(getattr(self.areas, name)) for name in SIDES}

    def call(self, call, *arguments):
        """Makes a call on what is lent of the areas."""
        lent = Areas()
        for name in SIDES:
            side = getattr(self.areas, name)
            setattr(lent, name, side if self.lent[name] >= len(side) else side[:self.lent[name]])
        try:
            return call(lent, *arguments)
        finally:
            for name in SIDES:
                side = getattr(self.areas, name)
                if getattr(lent, name) is not side:
                    side[:self.lent[name]] = getattr(lent, name)

    def say(self, text):
        self.words.append(text)
        self.answers.append(text)

    def refused(self, refused):
        rows = self.table.rows if self.table else 0
        self.say(f"refused {refused.number} {refused.layer} {refused.first} {refused.second} with {rows}")

    def do_begin(self, p, n, *sizes):
        self.table = None
        try:
            self.table = self.call(lambda areas: reference.begin(self.kind, areas, p, list(sizes) + [0] * (16 - n)))
            self.say(f"begun {self.table.rows}")
        except Refused as refused:
            self.refused(refused)

    def do_add(self, mark, n, *row):
        if self.table is None:
            self.say("no table")
            return
        try:
            self.table = self.call(lambda areas: reference.add(self.kind, areas, self.table, mark, list(row) + [0] * (16 - n)))
            self.say(f"added {self.table.rows}")
        except Refused as refused:
            self.refused(refused)

    def do_open(self):
        if self.table is None:
            self.say("no table")
            return
        try:
            session = self.call(lambda areas: reference.open_table(areas, self.table))
            self.table = None
            self.say(f"opened {session.count} {session.off}")
        except Refused as refused:
            self.refused(refused)

    def do_lend(self, side, n):
        self.lent[SIDES[side]] = n

    def do_universe(self, place, word):
        self.areas.universe[place] = self.kind.make(word)

    def do_table(self, place, word):
        self.areas.table[place] = self.kind.make(word)

    def do_kind(self, place, number):
        self.areas.rows[place].kind = number

    def do_show(self):
        now = self.images()
        for name in SIDES:
            if now[name] != self.seen[name]:
                shown_as = ["sum %x" % sum_of(now[name])] if self.sums else ["%x" % number for number in now[name]]
                self.words.append(" ".join(["|", name, *shown_as]))
        self.lines.append("".join(" " + word for word in self.words))
        self.words = []
        self.seen = now


COMMANDS = {
    "B": Run.do_begin, "A": Run.do_add, "O": Run.do_open, "L": Run.do_lend, "U": Run.do_universe, "T": Run.do_table, "C": Run.do_kind,
    "S": Run.do_show,
}


def run(case):
    made = Run(case)
    for letter, *numbers in case.commands:
        COMMANDS[letter](made, *numbers)
    return made


# ---------------------------------------------------------------- by plan


def refused(number, layer, first, second, rows=0):
    return f"refused {number} {layer} {first} {second} with {rows}"


def begins():
    """Begin: shapes, and universes of many lengths."""
    def case(label, number, has, p, sizes, answer):
        return Case(label, number, (has, 2, 1, 2, 2, 1, 2, 1), [begin(p, *sizes)], [answer])

    for p in (0, 17, 18, 2 ** 32 + 1, 2 ** 63, ALL):
        yield case(f"{p} parts", WORD, 18, p, [2] * 16, refused(6, "table", p, 0))
    yield case("no part, no universe", TERNARY, 0, 0, [], refused(6, "table", 0, 0))
    for number, most in ((WORD, 64), (TERNARY, 2)):
        for size in (1, most):
            yield case(f"a size of {size}", number, 3, 2, [most, size], "begun 0")
        for size in (0, most + 1, 256 + most, 2 ** 32 + 1, ALL):
            yield case(f"a size of {size}", number, 3, 2, [most, size], refused(6, "table", 1, size))
            yield case(f"a size of {size} past the parts", number, 3, 2, [1, most, size], "begun 0")
        yield case("sixteen parts", number, 16, 16, [1, 2] * 7 + [most, 1], "begun 0")
        yield case("sixteen parts and more", number, 18, 16, [most, 1] * 8, "begun 0")
        yield case("sixteen parts in fifteen", number, 15, 16, [2] * 16, refused(8, "table", 1, 16))
        yield case("the sixteenth size", number, 16, 16, [1] * 15 + [most + 1], refused(6, "table", 15, most + 1))
    yield case("the lowest of two wrong sizes", WORD, 16, 16, [1, 1, 0, 65] + [1] * 12, refused(6, "table", 2, 0))
    yield case("many sizes", WORD, 16, 16, [3, 64, 63, 1, 33, 32, 31, 2, 62, 48, 47, 16, 17, 8, 7, 4], "begun 0")
    yield case("shape before area", WORD, 0, 1, [0], refused(6, "table", 0, 0))
    for has in range(4):
        yield case(f"4 parts in {has}", WORD, has, 4, [3, 64, 1, 2], refused(8, "table", 1, 4))
    for has in (4, 6):
        yield case(f"4 parts in {has}", WORD, has, 4, [3, 64, 1, 2], "begun 0")
    yield Case("begun again, with fewer parts and in less", WORD, (5, 0, 0, 0, 0, 0, 0, 0),
               [begin(5, 5, 6, 7, 8, 9), begin(2, 3, 4), lend("universe", 2), begin(3, 1, 1, 1), begin(2, 1, 1)],
               ["begun 0", "begun 0", refused(8, "table", 1, 3), "begun 0"])
    yield Case("all of length 0", WORD, (0,) * 8, [begin(1, 1), on(1), OPEN], [refused(8, "table", 1, 1), "no table", "no table"])


def adds():
    """Add: what is refused, in which order, and what is written."""
    two = begin(2, 2, 2)
    for has in (0, 1):
        yield Case(f"a universe of {has}", WORD, lengths(2), [two, lend("universe", has), on(1, 2), lend("universe", 2), on(1, 2)],
                   ["begun 0", refused(8, "table", 1, 2), "added 1"])
    for parts, cards in ((4, 9), (5, 9), (18, 2), (4, 2)):
        rows = [two, on(1, 1), on(1, 2), lend("table", parts), lend("rows", cards), on(2, 1)]
        yield Case(f"two rows, {parts} parts and {cards} cards", WORD, lengths(2, table=(9, 9)), rows,
                   ["begun 0", "added 1", "added 2", refused(12, "table", 2, 0, 2)])
    for parts, cards in ((4, 9), (5, 9), (18, 2), (5, 2), (0, 9), (18, 0), (0, 0), (1, 1)):
        rows = [two, on(1, 1), on(1, 2), dc(2, 1), lend("table", parts), lend("rows", cards), on(2, 2), on(0, 4), lend("table", 18),
                lend("rows", 9), on(2, 2)]
        yield Case(f"three rows, {parts} parts and {cards} cards", WORD, lengths(2, table=(9, 9)), rows,
                   ["begun 0", "added 1", "added 2", "added 3", refused(8, "table", 2, 3, 3), refused(8, "table", 2, 3, 3), "added 4"])
    for number in (WORD, TERNARY):
        for parts, cards in ((0, 0), (1, 1), (2, 0), (0, 1)):
            yield Case(f"no room for a row: {parts} parts and {cards} cards", number, (2, parts, cards, 2, 2, 1, 2, 1), [two, on(1, 2), OPEN],
                       ["begun 0", refused(12, "table", 0, 0), "opened 0 1"])
        yield Case("universe before table", number, lengths(2), [two, on(1, 1), lend("universe", 1), lend("table", 1), on(1, 2)],
                   ["begun 0", "added 1", refused(8, "table", 1, 2, 1)])
        yield Case("empty before full", number, lengths(2, table=(0, 0)), [two, on(1), on(0, 1), on()],
                   ["begun 0", refused(9, "table", 1, 0), refused(9, "table", 0, 0), refused(9, "table", 0, 0)])
        yield Case("outside before full", number, lengths(2, table=(0, 0)), [begin(2, 2, 1), on(1, 3)],
                   ["begun 0", refused(10, "table", 1, 1)])
        yield Case("repeat before full", number, lengths(2, table=(1, 1)), [two, on(1, 2), on(1, 2), dc(1, 2)],
                   ["begun 0", "added 1", refused(11, "table", 0, 0, 1), refused(12, "table", 1, 0, 1)])
    yield Case("empty before outside", WORD, lengths(2), [two, on(4, 0), on(4, 4)], ["begun 0", refused(9, "table", 1, 0), refused(10, "table", 0, 2)])
    yield Case("outside, the lowest value", WORD, lengths(2), [two, on(3, 1 << 63 | 1 << 40), on(3, 1 << 63), dc(ALL, 1)],
               ["begun 0", refused(10, "table", 1, 40), refused(10, "table", 1, 63), refused(10, "table", 0, 2)])
    yield Case("outside before repeat", WORD, lengths(2), [two, on(1, 1), table(1, 4), on(1, 4), universe(1, 4), on(1, 4), on(1, 1)],
               ["begun 0", "added 1", refused(10, "table", 1, 2, 1), refused(11, "table", 0, 0, 1), refused(10, "table", 1, 0, 1)])
    yield Case("a universe with gaps", WORD, lengths(2), [two, universe(0, 0b100010), on(0b101010, 1), on(0b100010, 1), on(1, 1)],
               ["begun 0", refused(10, "table", 0, 3), "added 1", refused(10, "table", 0, 0, 1)])
    yield Case("a universe with an empty part", TERNARY, lengths(2), [two, universe(1, 0), on(1, 2), on(1, 0)],
               ["begun 0", refused(10, "table", 1, 1), refused(9, "table", 1, 0)])
    yield Case("words past the parts, and bits past the most", TERNARY, lengths(2), [two, on(5, ALL, ALL, 0, 7), on(1, 3), dc(ALL - 2, 3)],
               ["begun 0", "added 1", refused(11, "table", 0, 0, 1), "added 2"])
    yield Case("nothing but bits past the most", TERNARY, lengths(2), [two, on(ALL - 3, 1), on(1, 4)],
               ["begun 0", refused(9, "table", 0, 0), refused(9, "table", 1, 0)])
    yield Case("what is written, and what stays", WORD, lengths(2, more=1), [two, on(1, 2), dc(2, 1), on(3, 3)],
               ["begun 0", "added 1", "added 2", "added 3"])
    yield Case("kinds by the cards", WORD, lengths(2, table=(6, 6)),
               [two, on(1, 2), kind(0, 77), on(1, 2), kind(1, 255), on(1, 2), dc(1, 2), kind(2, 1), kind(0, 0), dc(1, 2), on(1, 2)],
               ["begun 0", "added 1", "added 2", "added 3", refused(11, "table", 0, 1, 3), refused(11, "table", 1, 1, 3),
                refused(11, "table", 0, 0, 3)])
    yield Case("the first of two repeats", WORD, lengths(2), [two, on(1, 1), on(1, 2), on(2, 2), table(4, 1), on(1, 2), dc(1, 2), on(2, 2)],
               ["begun 0", "added 1", "added 2", "added 3", refused(11, "table", 1, 0, 3), "added 4", refused(12, "table", 4, 0, 4)])
    yield Case("the same behind the rows is no repeat", WORD, lengths(2), [two, table(2, 1), table(3, 2), kind(1, 0), on(2, 2), on(1, 2), on(1, 2)],
               ["begun 0", "added 1", "added 2", refused(11, "table", 1, 0, 2)])
    yield Case("a row that is no longer there", WORD, lengths(2), [two, on(1, 2), table(0, 3), on(1, 2)], ["begun 0", "added 1", "added 2"])
    for number in (WORD, TERNARY):
        row = [1, 2] * 8
        yield Case("sixteen parts", number, lengths(16, table=(2, 3), off=3, solution=(1, 1), work=(16, 16), more=15),
                   [begin(16, *[2] * 16), on(*row[:15]), on(*row), dc(*row), on(*[3] * 16), OPEN],
                   ["begun 0", refused(9, "table", 15, 0), "added 1", "added 2", refused(12, "table", 2, 0, 2), refused(8, "engine", 5, 31, 2)])
        yield Case("one part", number, lengths(1, table=(3, 2)), [begin(1, 2), on(2), on(1), on(3), OPEN],
                   ["begun 0", "added 1", "added 2", refused(12, "table", 2, 0, 2), "opened 2 0"])


# Three parts of two values; rows 0 ON 0--, 1 DC -1-, 2 ON --0. Cutting leaves 101 alone. Work needs 1 + 2 x 3 cubes.
THREE = [begin(3, 2, 2, 2), on(*words("0--")), dc(*words("-1-")), on(*words("--0"))]
FILLED = ["begun 0", "added 1", "added 2", "added 3"]


def opens():
    """Open: areas that are too short, and what is written."""
    def case(label, number, change, *answers, sides=lengths(3, table=(4, 5), off=3, work=(8, 9))):
        return Case(label, number, sides, THREE + change, FILLED + list(answers))

    for number in (WORD, TERNARY):
        yield case("enough", number, [OPEN, OPEN, on(1, 1, 1)], "opened 2 1", "no table", "no table")
    for lent, area, needed in (
        ([("universe", 2)], 1, 3),
        ([("universe", 0), ("table", 0), ("rows", 0), ("solution", 0), ("cards", 0), ("work", 0), ("numbers", 0), ("off", 0)], 1, 3),
        ([("table", 8)], 2, 3),
        ([("rows", 2)], 2, 3),
        ([("table", 0)], 2, 3),
        ([("rows", 0), ("solution", 0), ("work", 0), ("off", 0)], 2, 3),
        ([("solution", 5)], 4, 2),
        ([("cards", 1)], 4, 2),
        ([("solution", 0)], 4, 2),
        ([("cards", 0), ("work", 0), ("off", 0)], 4, 2),
        ([("work", 20)], 5, 7),
        ([("numbers", 6)], 5, 7),
        ([("work", 0)], 5, 7),
        ([("numbers", 0), ("off", 0)], 5, 7),
    ):
        sides = lengths(3, table=(4, 5), off=3, work=(8, 9))
        change = [lend(side, n) for side, n in lent] + [OPEN] + [lend(side, sides[SIDES.index(side)]) for side, _ in lent] + [OPEN]
        label = "short: " + ", ".join(f"{side} {n}" for side, n in lent)
        yield case(label, WORD, change, refused(8, "engine", area, needed, 3), "opened 2 1")
        yield case(label, TERNARY, change, refused(8, "engine", area, needed, 3), "opened 2 1")
    for number in (WORD, TERNARY):
        for parts in (0, 1, 2):
            yield case(f"an off area of {parts} parts", number, [lend("off", parts), OPEN, lend("off", 3), OPEN],
                       refused(13, "engine", 0, 0, 3), "opened 2 1")
        # Each side just long enough, then a part, a card or a number more.
        yield case("just enough", number, [OPEN], "opened 2 1", sides=(3, 9, 3, 3, 6, 2, 21, 7))
        yield case("a part more", number, [OPEN], "opened 2 1", sides=(4, 10, 3, 4, 7, 2, 22, 7))
        yield case("a card more", number, [OPEN], "opened 2 1", sides=(3, 9, 4, 3, 6, 3, 21, 8))
        yield case("more parts than cards", number, [OPEN], "opened 2 1", sides=(5, 20, 3, 8, 20, 2, 29, 7))
        yield case("more cards than parts", number, [OPEN], "opened 2 1", sides=(5, 11, 6, 8, 8, 5, 23, 12))
    yield case("which rows are ON is read from the cards", WORD, [kind(0, 5), kind(1, 0), kind(2, 200), OPEN], "opened 1 1")
    yield case("no row is ON", WORD, [kind(0, 255), kind(2, 2), lend("solution", 0), lend("cards", 0), OPEN], "opened 0 1")
    yield case("every row is ON", WORD, [kind(1, 0), lend("cards", 2), OPEN, lend("cards", 3), OPEN], refused(8, "engine", 4, 3, 3), "opened 3 1")
    yield case("a row with an empty part", WORD, [table(4, 0), OPEN], "opened 2 1")
    yield case("a row with values that the universe lacks", WORD, [table(3, 0xF2), table(4, 0xF2), OPEN], "opened 2 1")
    yield case("a row outside the universe", WORD, [table(3, 0xF0), OPEN], "opened 2 1")
    yield case("a row that is there twice", TERNARY, [table(3, 1), table(4, 3), OPEN], "opened 2 1")
    yield case("a row that holds all", TERNARY, [table(6, 3), table(7, 3), table(8, 3), lend("off", 0), OPEN], "opened 2 0")
    yield case("a universe with gaps", WORD, [universe(0, 0xC2), universe(1, 6), OPEN], "opened 2 2")
    yield case("a universe with an empty part", WORD, [universe(1, 0), OPEN], "opened 2 1")
    yield case("a universe with no value at all", TERNARY, [universe(0, 0), universe(1, 0), universe(2, 0), OPEN], "opened 2 1")
    for number in (WORD, TERNARY):
        yield Case("no row, least areas", number, (2, 0, 0, 2, 0, 0, 2, 1), [begin(2, 2, 2), OPEN], ["begun 0", "opened 0 1"])
        yield Case("no row, an empty part", number, (2, 0, 0, 2, 0, 0, 2, 1), [begin(2, 2, 2), universe(1, 0), OPEN], ["begun 0", "opened 0 1"])
        yield Case("no row, work one short", number, (2, 0, 0, 2, 0, 0, 1, 1), [begin(2, 2, 2), OPEN], ["begun 0", refused(8, "engine", 5, 1)])
        yield Case("no row, no number", number, (2, 0, 0, 2, 0, 0, 2, 0), [begin(2, 2, 2), OPEN], ["begun 0", refused(8, "engine", 5, 1)])
        yield Case("one part", number, (1, 2, 2, 1, 2, 2, 1, 1), [begin(1, 2), on(1), OPEN], ["begun 0", "added 1", "opened 1 1"])
        yield Case("sixteen parts", number, lengths(16, table=(1, 1), off=16, solution=(1, 1), work=(16, 16)),
                   [begin(16, *[2] * 16), on(*[1] * 16), lend("off", 255), OPEN, lend("off", 256), OPEN],
                   ["begun 0", "added 1", refused(13, "engine", 15, 0, 1), "opened 1 16"])
        three = [begin(3, 2, 2, 2), on(1, 1, 1)]
        yield Case("three off cubes where two fit", number, lengths(3, table=(1, 1), off=3, solution=(2, 2), work=(4, 3)),
                   three + [lend("off", 8), OPEN, lend("off", 9), OPEN], ["begun 0", "added 1", refused(13, "engine", 2, 0, 1), "opened 1 3"])
        yield Case("rows after a refusal", number, lengths(3, table=(3, 3), off=3, solution=(2, 2), work=(7, 7)),
                   three + [lend("off", 3), OPEN, dc(*words("1--")), OPEN, on(*words("-1-")), lend("off", 9), OPEN],
                   ["begun 0", "added 1", refused(13, "engine", 1, 0, 1), "added 2", refused(13, "engine", 1, 0, 2), "added 3", "opened 2 1"])
        yield Case("a second table in the same areas", number, lengths(3, table=(3, 3), off=4, solution=(2, 2), work=(7, 7)),
                   three + [OPEN, begin(2, 2, 1), on(2, 1), on(2, 1), OPEN],
                   ["begun 0", "added 1", "opened 1 3", "begun 0", "added 1", refused(11, "table", 0, 0, 1), "opened 1 1"])


def largest():
    """512 rows, and 4,096 off cubes."""
    rows = [on(i) if i % 3 else dc(i) for i in range(1, 513)]
    yield Case("row 513", WORD, lengths(1, table=(600, 600), off=2, solution=(400, 400), work=(2, 2)),
               [begin(1, 10), *rows[:511], SHOW, rows[511], SHOW, on(513), dc(513), on(5), on(), on(1 << 10), SHOW, lend("table", 511),
                on(513), OPEN, lend("table", 512), on(513), SHOW, OPEN, SHOW],
               ["begun 0", *[f"added {i}" for i in range(1, 513)], refused(12, "table", 512, 0, 512), refused(12, "table", 512, 0, 512),
                refused(11, "table", 4, 0, 512), refused(9, "table", 0, 0, 512), refused(10, "table", 0, 10, 512),
                refused(8, "table", 2, 512, 512), refused(8, "engine", 2, 512, 512), refused(12, "table", 512, 0, 512), "opened 342 0"],
               sums=True)
    rows = [on(1 << i // 8, 1 << i % 8, *[1] * 8, 3) for i in range(512)]
    # Eight off cubes from each row, one more from a row whose last part is not whole.
    yield Case("4,096 and 4,097 off cubes", WORD, lengths(11, table=(512, 512), off=5000, solution=(512, 512), work=(5121, 5121)),
               [begin(11, 64, 8, *[2] * 9), *rows, SHOW, table(10, 1), SHOW, OPEN, SHOW, lend("work", 5121 * 11 - 1), OPEN,
                lend("work", 5121 * 11), table(10, 3), lend("off", 4096 * 11 - 1), OPEN, SHOW, lend("off", 5000 * 11), OPEN, SHOW],
               ["begun 0", *[f"added {i}" for i in range(1, 513)], refused(13, "engine", 4096, 0, 512), refused(8, "engine", 5, 5121, 512),
                refused(13, "engine", 4095, 0, 512), "opened 512 4096"], sums=True)


# ---------------------------------------------------------------- by chance


def near(chance, n):
    """A length about as long as it has to be."""
    return max(0, n + chance.of((-1, 0, 0, 0, 0, 0, 0, 0, 0, 1, 1, 2)))


def chance_word(chance, size, thin):
    """A set in a part, mostly one that Add takes; a thin one has a value alone."""
    if chance.once_in(60):
        return chance.of((0, chance.word(), ALL))
    whole = (1 << size) - 1
    if chance.once_in(4):
        return whole
    return not thin and chance.word() & whole or 1 << chance.below(size)


def chance_row(chance, sizes, thin):
    return chance.of((on, on, dc))(*[chance_word(chance, size, thin) for size in sizes])


def chance_poke(chance, p, rows, sides):
    """Something that no call wrote."""
    what = chance.below(3)
    if what == 0 and sides[0]:
        return universe(chance.below(min(p, sides[0])), chance.of((0, 1, 2, 3, 5, 7, chance.word())))
    if what == 1 and rows and rows * p <= sides[1]:
        return table(chance.below(rows * p), chance.of((0, 1, 2, 3, 7, chance.word())))
    if rows and rows <= sides[2]:
        return kind(chance.below(rows), chance.of((0, 0, 1, 2, 255)))
    return SHOW  # there is nothing to write


def chance_table(chance, sizes, wanted, sides):
    """The commands of a table."""
    p = len(sizes)
    thin = not chance.once_in(3)
    made = [begin(p, *sizes)]
    rows = []
    for _ in range(wanted):
        if rows and chance.once_in(12):
            rows.append(chance.of(rows))
        else:
            rows.append(chance_row(chance, sizes, thin))
        made.append(rows[-1])
        if chance.once_in(8):
            made.append(chance_poke(chance, p, len(rows), sides))
    return made


def by_chance():
    chance = Chance(64)
    for _ in range(100):
        number = chance.below(2)
        p = chance.of((1, 2, 2, 3, 3, 4, 4, 5))
        sizes = [chance.of((2, 2, 2, 1) if number == TERNARY else (1, 2, 3, 3, 4, 6, 64)) for _ in range(p)]
        wanted = 1 + chance.below(7)
        need = 1 + (p - 1) * wanted
        extra = [chance.below(p) if chance.once_in(3) else 0 for _ in range(4)]
        sides = (near(chance, p), near(chance, wanted) * p + extra[0], near(chance, wanted), (1 + chance.below(12)) * p + extra[1],
                 near(chance, wanted) * p + extra[2], near(chance, wanted), near(chance, need) * p + extra[3], near(chance, need))
        commands = chance_table(chance, sizes, wanted, sides)
        if chance.once_in(3):
            side = chance.below(8)
            commands += [lend(SIDES[side], chance.below(sides[side] + 1)), OPEN, lend(SIDES[side], sides[side])]
        commands.append(OPEN)
        if chance.once_in(8):
            commands += chance_table(chance, [1 + chance.below(2) for _ in range(1 + chance.below(3))], 2, sides) + [OPEN]
        yield Case("by chance", number, sides, commands)


# ---------------------------------------------------------------- all


def cases():
    """Every case with its run."""
    for source in (begins, adds, opens, largest, by_chance):
        for case in source():
            made = run(case)
            if case.answers is not None and made.answers != case.answers:
                sys.exit(f"area_cases.py: {case.label}: by hand {case.answers}, by the reference {made.answers}")
            yield case, made


def input_of(made):
    """The standard input of area_trials."""
    return "".join(case.line() + "\n" for case, _ in made)


def output_of(made):
    """Its standard output."""
    return "".join(f"{number}:{line}\n" for number, (_, run_of) in enumerate(made, 1) for line in run_of.lines)


def main(options):
    if options == ["--cases"]:
        sys.stdout.write(input_of(cases()))
    elif options == ["--expected"]:
        sys.stdout.write(output_of(cases()))
    elif options == ["--labels"]:
        for number, (case, _) in enumerate(cases(), 1):
            print(number, case.label)
    else:
        sys.stderr.write("usage: area_cases.py --cases | --expected | --labels\n")
        return 2
    return 0


if __name__ == "__main__":
    sys.exit(main(sys.argv[1:]))
