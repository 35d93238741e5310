#!/usr/bin/env python3
"""A second program for the bench, to compare the first with.

    python3 tools/reference.py [--off] [FILE]

reads the sheet FILE (standard input where FILE is '-' or left out) and prints the lines that the bench must print for it. With --off it
prints the cubes of the off list in place of the lines, one a line; nothing where the sheet does not get as far.

It follows docs/RULES.md and has no code in common with the crates. It goes for plainness: a part is a Python set of values, a
cube a tuple of them, and a list of cubes a list, up to the point where something lies in an area.

From the bottom up: kinds of part, cubes, refusals, areas, the calls Begin, Add and Open, and the bench. A new call is a function on areas
beside these three; a new command is a method of Bench and a line in COMMANDS.
"""
import itertools
import sys

# ---------------------------------------------------------------- kinds of part


class Kind:
    """A kind of part: how many values a set of it can have at the most. A set is a frozenset of values below that."""

    def __init__(self, name, most):
        self.name = name
        self.most = most

    def make(self, word):
        """The values below the most whose bits are set in a 64-bit word."""
        return frozenset(v for v in range(self.most) if word >> v & 1)


WORD = Kind("word", 64)
TERNARY = Kind("ternary", 2)

NONE = frozenset()
TERNARY_MARKS = {frozenset(): "~", frozenset([0]): "0", frozenset([1]): "1", frozenset([0, 1]): "-"}


def cube_text(kind, universe, cube):
    """A cube as it prints, without a newline."""
    if kind.most == 2:
        return "".join(TERNARY_MARKS[part] for part in cube)
    return " ".join("".join("1" if v in part else "0" for v in sorted(whole)) for whole, part in zip(universe, cube))


# ---------------------------------------------------------------- cubes


def covers(a, b):
    """Each part of b lies within that part of a."""
    return all(y <= x for x, y in zip(a, b))


def meets(a, b):
    """The cubes share a value in every part."""
    return not any(x.isdisjoint(y) for x, y in zip(a, b))


def cut(a, b):
    """What is left of a outside b, in pieces, one for each part in which something is left."""
    if not meets(a, b):
        return [a]
    made = []
    for k in range(len(a)):
        piece = tuple(x & y for x, y in zip(a[:k], b[:k])) + (a[k] - b[k],) + a[k + 1:]
        if all(piece):
            made.append(piece)
    return made


def rest(c, rows):
    """The rest of a cube against a list, by its definition."""
    if not rows:
        return [c]
    return [last for piece in cut(c, rows[0]) for last in rest(piece, rows[1:])]


def rest_in_turn(c, rows, at=0):
    """The same cubes in the same order, one at a time. Nothing is left of a piece that meets a row and lies within it: such a piece is not
    followed, since its pieces can be very many. That the two agree is tested."""
    if any(covers(row, c) and meets(row, c) for row in rows[at:]):
        return
    while at < len(rows) and not meets(c, rows[at]):
        at += 1
    if at == len(rows):
        yield c
        return
    for piece in cut(c, rows[at]):
        yield from rest_in_turn(piece, rows, at + 1)


# ---------------------------------------------------------------- refusals

NAMES = {
    1: "long", 2: "unknown", 3: "cut", 4: "misplaced", 5: "operand", 6: "shape", 7: "limit", 8: "area", 9: "empty", 10: "outside",
    11: "repeat", 12: "full", 13: "off", 14: "foreign",
}


class Refused(Exception):
    """A refusal: its number, the layer that refuses, and both places."""

    def __init__(self, number, layer, first, second):
        super().__init__(number, layer, first, second)
        self.number, self.layer, self.first, self.second = number, layer, first, second

    def line(self, at):
        return f"refused {self.number} {NAMES[self.number]} {self.layer} at {at} {self.first} {self.second}"


# ---------------------------------------------------------------- areas

ON, DC = 0, 1


class Card:
    """What lies beside a cube of table or solution."""

    def __init__(self, kind=0, weight=0, place=0, taken=False, tried=False, out=False):
        self.kind, self.weight, self.place = kind, weight, place
        self.taken, self.tried, self.out = taken, tried, out

    def fields(self):
        return (self.kind, self.weight, self.place, self.taken, self.tried, self.out)

    def __eq__(self, other):
        return isinstance(other, Card) and self.fields() == other.fields()

    def __repr__(self):
        return f"Card{self.fields()}"


class Areas:
    """The lent memory. Parts lie flat, one after another, and each side of an area has a length of its own."""

    def __init__(self, universe=0, table=0, rows=0, off=0, solution=0, cards=0, work=0, numbers=0, line=0, part=NONE):
        self.universe = [part] * universe       # area 1, in parts
        self.table = [part] * table             # area 2
        self.rows = [Card() for _ in range(rows)]
        self.off = [part] * off                 # area 3
        self.solution = [part] * solution       # area 4
        self.cards = [Card() for _ in range(cards)]
        self.work = [part] * work               # area 5
        self.numbers = [0] * numbers
        self.line = [0] * line                  # area 6, in bytes

    @classmethod
    def for_bench(cls, p):
        """The bench's areas for a sheet of p parts: 8 parts, 32 rows, 128 off cubes, 32 solution cubes, and enough work and line."""
        return cls(universe=8, table=32 * p, rows=32, off=128 * p, solution=32 * p, cards=32, work=449 * p, numbers=449, line=1040)


def length(p, parts, beside=None):
    """How many cubes of p parts an area has, with what lies beside them."""
    cubes = len(parts) // p
    return cubes if beside is None else min(cubes, len(beside))


def cube_at(p, parts, i):
    return tuple(parts[i * p:i * p + p])


def put_cube(p, parts, i, cube):
    parts[i * p:i * p + p] = cube


def need(layer, area, has, needed):
    if has < needed:
        raise Refused(8, layer, area, needed)


# ---------------------------------------------------------------- the calls

ROWS_MOST = 512
OFF_MOST = 4096


class Table:
    """A table that is being filled."""

    def __init__(self, p, rows):
        self.p, self.rows = p, rows


class Session:
    """A session that is open."""

    def __init__(self, p, rows, off, count):
        self.p, self.rows, self.off, self.count = p, rows, off, count


def begin(kind, areas, p, sizes):
    """Begin: writes the universe from p and sixteen sizes."""
    if not 1 <= p <= 16:
        raise Refused(6, "table", p, 0)
    for k in range(p):
        if not 1 <= sizes[k] <= kind.most:
            raise Refused(6, "table", k, sizes[k])
    need("table", 1, len(areas.universe), p)
    for k in range(p):
        areas.universe[k] = frozenset(range(sizes[k]))
    return Table(p, 0)


def add(kind, areas, table, mark, words):
    """Add: one row more, from the first p of sixteen words; mark is ON or DC."""
    p, rows = table.p, table.rows
    has = length(p, areas.table, areas.rows)
    need("table", 1, len(areas.universe), p)
    need("table", 2, has, rows)
    row = tuple(kind.make(word) for word in words[:p])
    for k in range(p):
        if not row[k]:
            raise Refused(9, "table", k, 0)
    for k in range(p):
        beyond = row[k] - areas.universe[k]
        if beyond:
            raise Refused(10, "table", k, min(beyond))
    for i in range(rows):
        if (areas.rows[i].kind == ON) == (mark == ON) and cube_at(p, areas.table, i) == row:
            raise Refused(11, "table", i, mark)
    if rows >= ROWS_MOST or rows >= has:
        raise Refused(12, "table", rows, 0)
    put_cube(p, areas.table, rows, row)
    areas.rows[rows] = Card(kind=mark, place=rows)
    return Table(p, rows + 1)


def clear_work(p, areas):
    for i in range(length(p, areas.work, areas.numbers)):
        put_cube(p, areas.work, i, (NONE,) * p)
        areas.numbers[i] = 0


def open_table(areas, table):
    """Open: makes the off list, and the solution from the ON rows."""
    p, rows = table.p, table.rows
    need("engine", 1, len(areas.universe), p)
    need("engine", 2, length(p, areas.table, areas.rows), rows)
    on = [i for i in range(rows) if areas.rows[i].kind == ON]
    need("engine", 4, length(p, areas.solution, areas.cards), len(on))
    need("engine", 5, length(p, areas.work, areas.numbers), 1 + (p - 1) * rows)
    most = min(OFF_MOST, length(p, areas.off))
    cubes = [cube_at(p, areas.table, i) for i in range(rows)]
    found = list(itertools.islice(rest_in_turn(cube_at(p, areas.universe, 0), cubes), most + 1))
    for i, cube in enumerate(found[:most]):
        put_cube(p, areas.off, i, cube)
    clear_work(p, areas)
    if len(found) > most:
        raise Refused(13, "engine", most, 0)
    for place, i in enumerate(on):
        put_cube(p, areas.solution, place, cubes[i])
        areas.cards[place] = Card()
    return Session(p, rows, len(found), len(on))


# ---------------------------------------------------------------- the bench

SHEET_MOST = 4096
PARTS_MOST = 16


class Bench:
    """What the bench keeps between the commands of a sheet."""

    def __init__(self):
        self.state = 0
        self.kind = None
        self.sizes = []
        self.areas = None
        self.table = None
        self.session = None
        self.words = None

    def universe_words(self):
        return [(1 << size) - 1 for size in self.sizes] + [0] * (16 - len(self.sizes))

    def begin_table(self):
        """The first V, F, D or O begins the table."""
        if self.table is None:
            self.areas = Areas.for_bench(max(1, len(self.sizes)))
            self.table = begin(self.kind, self.areas, len(self.sizes), self.sizes + [0] * (16 - len(self.sizes)))
            self.words = self.universe_words()

    def do_kind(self, operands):
        if operands[0] > 1:
            raise Refused(5, "sheet", operands[0], 0)
        self.kind = (WORD, TERNARY)[operands[0]]
        self.state = 1

    def do_part(self, operands):
        size = operands[0]
        if len(self.sizes) == PARTS_MOST:
            raise Refused(6, "table", PARTS_MOST + 1, 0)
        if not 1 <= size <= self.kind.most:
            raise Refused(6, "table", len(self.sizes), size)
        self.sizes.append(size)

    def do_value(self, operands):
        part = operands[0]
        if part >= len(self.sizes):
            raise Refused(5, "sheet", part, 0)
        self.begin_table()
        self.words[part] = int.from_bytes(operands[1:9], "big")
        self.state = 2

    def do_add(self, mark):
        self.begin_table()
        self.table = add(self.kind, self.areas, self.table, mark, self.words)
        self.words = self.universe_words()
        self.state = 2

    def do_on(self, operands):
        self.do_add(ON)

    def do_dc(self, operands):
        self.do_add(DC)

    def do_open(self, operands):
        self.begin_table()
        self.session = open_table(self.areas, self.table)
        self.state = 3
        return f"O {self.session.count} {self.session.off}"


# Each command's letter, how many bytes its operands have, the states that allow it, and what it does.
COMMANDS = {
    "K": (1, (0,), Bench.do_kind),
    "P": (1, (1,), Bench.do_part),
    "V": (9, (1, 2), Bench.do_value),
    "F": (0, (1, 2), Bench.do_on),
    "D": (0, (1, 2), Bench.do_dc),
    "O": (0, (1, 2), Bench.do_open),
}


def one_command(bench, sheet, at):
    """Does the command at an offset; answers the offset after it and the line that it prints, or None."""
    byte = sheet[at]
    if chr(byte) not in COMMANDS:
        raise Refused(2, "sheet", byte, 0)
    width, states, action = COMMANDS[chr(byte)]
    operands = sheet[at + 1:at + 1 + width]
    if len(operands) < width:
        raise Refused(3, "sheet", byte, len(operands))
    if bench.state not in states:
        raise Refused(4, "sheet", byte, bench.state)
    return at + 1 + width, action(bench, operands)


def run(sheet, bench=None):
    """The lines for a sheet, without newlines."""
    bench = bench or Bench()
    lines = []
    at = 0
    try:
        if len(sheet) > SHEET_MOST:
            raise Refused(1, "sheet", 0, 0)
        while at < len(sheet):
            after, line = one_command(bench, sheet, at)
            if line is not None:
                lines.append(line)
            at = after
    except Refused as refused:
        lines.append(refused.line(at))
    return lines


def off_cubes(sheet):
    """The off list of a sheet that opens a table, as its cubes print."""
    bench = Bench()
    run(sheet, bench)
    if bench.session is None:
        return []
    p = bench.session.p
    universe = cube_at(p, bench.areas.universe, 0)
    return [cube_text(bench.kind, universe, cube_at(p, bench.areas.off, i)) for i in range(bench.session.off)]


def main(words):
    off = "--off" in words
    files = [word for word in words if word != "--off"]
    if len(files) > 1 or any(word.startswith("--") for word in files):
        sys.stderr.write("usage: reference.py [--off] [FILE]\n")
        return 2
    if files and files[0] != "-":
        try:
            with open(files[0], "rb") as file:
                sheet = file.read()
        except OSError as trouble:
            sys.stderr.write(f"reference.py: {trouble}\n")
            return 2
    else:
        sheet = sys.stdin.buffer.read()
    for line in off_cubes(sheet) if off else run(sheet):
        print(line)
    return 0


if __name__ == "__main__":
    sys.exit(main(sys.argv[1:]))
