#!/usr/bin/env python3
"""Writes test cases for the bench to standard output.

    python3 tools/cases.py [--labels]

A case is one line, HEX|LINES: the sheet in hexadecimal digits (none for the empty sheet), and the lines that the bench must print for it,
joined by '/' (nothing where it prints none). With --labels a third field says what the case is for.

The lines come from tools/reference.py. For the cases in BY_HAND they are written here as well, worked out by hand, and the program ends with
a complaint where the two differ. The list is the same in every run: the random cases come from a generator of our own with a fixed seed.
"""
import sys

sys.dont_write_bytecode = True

import reference  # noqa: E402

WORD, TERNARY = 0, 1
UNKNOWN_HERE = b"XRSIZMLQ"  # letters of calls that are not built yet


# ---------------------------------------------------------------- sheets, command by command


def kind(number):
    return b"K" + bytes([number])


def parts(*sizes):
    return b"".join(b"P" + bytes([size]) for size in sizes)


def value(part, word):
    return b"V" + bytes([part]) + word.to_bytes(8, "big")


def row(words, letter=b"F"):
    """A row; None leaves the part as it is."""
    return b"".join(value(k, word) for k, word in enumerate(words) if word is not None) + letter


MARKS = {"0": 1, "1": 2, "-": 3, "~": 0, "*": None}


def marks(text, letter=b"F"):
    """A ternary row by its marks."""
    return row([MARKS[mark] for mark in text], letter)


def ternary(p):
    return kind(TERNARY) + parts(*[2] * p)


def words_of(*sizes):
    return kind(WORD) + parts(*sizes)


FIRST = ternary(3) + marks("000") + marks("001") + marks("011") + marks("111")


def stripes(size, rows, p, wide=0):
    """A word table of p parts, the first of this size and the others of two values: row i has the value i alone in the first part, and 0 alone
    in the others, but for the first `wide` rows, whose last part is whole.

    Its off list is known: from each row come p - 1 cubes, one for each part but the first, less the last where it is whole; and one more
    cube with the values of the first part that no row has, if there are any."""
    sheet = words_of(size, *[2] * (p - 1))
    for i in range(rows):
        sheet += row([1 << i] + [1] * (p - 2) + [None if i < wide else 1])
    return sheet


# ---------------------------------------------------------------- worked out by hand

BY_HAND = [
    ("the empty sheet", b"", ""),
    ("four ON rows and three off cubes", FIRST + b"O", "O 4 3"),
    ("no row: the universe is the off list", ternary(3) + b"O", "O 0 1"),
    ("no part at all, where the table begins", kind(TERNARY) + b"O", "refused 6 shape table at 2 0 0"),
    ("no part at all, and a row", kind(WORD) + b"F", "refused 6 shape table at 2 0 0"),
    ("a call that is not built yet", kind(TERNARY) + b"L", "refused 2 unknown sheet at 2 76 0"),
    ("open before a kind", b"O", "refused 4 misplaced sheet at 0 79 0"),
    ("no such command", kind(TERNARY) + b"A", "refused 2 unknown sheet at 2 65 0"),
    ("a value cut after three operand bytes", ternary(1) + b"V\0\0\0", "refused 3 cut sheet at 4 86 3"),
    ("a second kind", kind(TERNARY) + kind(WORD), "refused 4 misplaced sheet at 2 75 1"),
    ("a part after a row", ternary(1) + marks("0") + parts(2), "refused 4 misplaced sheet at 15 80 2"),
    ("no such kind", kind(2), "refused 5 operand sheet at 0 2 0"),
    ("no such part", ternary(3) + value(3, 1), "refused 5 operand sheet at 8 3 0"),
    ("no part at all, so no such part", kind(WORD) + value(0, 1), "refused 5 operand sheet at 2 0 0"),
    ("a seventeenth part", kind(WORD) + parts(*[2] * 17), "refused 6 shape table at 34 17 0"),
    ("a word part of 64 values", words_of(64) + b"O", "O 0 1"),
    ("a word part of 65 values", words_of(3, 65), "refused 6 shape table at 4 1 65"),
    ("a ternary part of two values", ternary(1) + b"O", "O 0 1"),
    ("a ternary part of three values", kind(TERNARY) + parts(3), "refused 6 shape table at 2 0 3"),
    ("nine parts", ternary(9) + b"O", "refused 8 area table at 20 1 9"),
    ("a part with no value", ternary(3) + marks("0~~"), "refused 9 empty table at 38 1 0"),
    ("a value that the universe lacks", words_of(3, 4) + row([0b101, 0b110000]), "refused 10 outside table at 26 1 4"),
    ("the same row again", ternary(2) + marks("0-") + marks("-1", b"D") + marks("-1") + marks("-1", b"D"),
     "refused 11 repeat table at 89 1 1"),
    ("a thirty-third row", words_of(64) + b"".join(row([1 << i]) for i in range(33)), "refused 12 full table at 366 32 0"),
    ("128 off cubes", stripes(32, 32, 5) + b"O", "O 32 128"),
    ("129 off cubes", stripes(33, 32, 5) + b"O", "refused 13 off engine at 1644 128 0"),
    ("129 off cubes but for one whole part", stripes(33, 32, 5, wide=1) + b"O", "O 32 128"),
    ("4,096 bytes", words_of(2) + value(0, 1) * 409 + b"FO", "O 1 1"),
    ("4,097 bytes", words_of(2) + value(0, 1) * 409 + b"FOO", "refused 1 long sheet at 0 0 0"),
    ("a second open", ternary(1) + b"OO", "O 0 1/refused 4 misplaced sheet at 5 79 3"),
    ("a row added to an open session", FIRST + b"OF", "O 4 3/refused 4 misplaced sheet at 133 70 3"),
    ("all is held: no off cube", ternary(2) + marks("--") + b"O", "O 1 0"),
    ("a row ON and DC", ternary(2) + marks("01") + marks("01", b"D") + b"O", "O 1 2"),
]


# ---------------------------------------------------------------- by plan

COMMANDS = {
    "K": [kind(WORD), kind(TERNARY), kind(2), kind(255)],
    "P": [parts(1), parts(2), parts(0), parts(3), parts(255)],
    "V": [value(0, 1), value(1, 0), value(9, 3), value(255, 2 ** 64 - 1)],
    "F": [b"F"],
    "D": [b"D"],
    "O": [b"O"],
}

STATES = {
    "state 0": b"",
    "state 1, no part": kind(TERNARY),
    "state 1, ternary": ternary(2),
    "state 1, word": words_of(3, 64),
    "state 2 by V": ternary(2) + value(0, 1),
    "state 2 by F": ternary(2) + marks("01"),
    "state 2 by D": words_of(3, 64) + row([1, 2], b"D"),
    "state 3": ternary(2) + marks("01") + b"O",
    "state 3, no row": words_of(3, 64) + b"O",
}


def planned():
    """Cases by plan, as pairs of a label and a sheet."""
    for byte in range(256):
        yield f"byte {byte} first", bytes([byte]) + bytes(9)
    for where, before in STATES.items():
        for letter, commands in COMMANDS.items():
            for command in commands:
                yield f"{letter} in {where}", before + command
                yield f"{letter} in {where}, then O", before + command + b"O"
            for present in range(len(commands[0]) - 1):
                yield f"{letter} cut after {present} in {where}", before + commands[0][:1 + present]
        for byte in UNKNOWN_HERE + b"\0\xff kpvfdo":
            yield f"unknown {byte} in {where}", before + bytes([byte])
            yield f"unknown {byte} with operands in {where}", before + bytes([byte, 0, 1, 0])

    for number in (WORD, TERNARY):
        most = 64 if number == WORD else 2
        for size in (0, 1, 2, 3, 63, 64, 65, 66, 128, 255):
            yield f"kind {number}, size {size}", kind(number) + parts(size) + b"O"
            yield f"kind {number}, size {size} third", kind(number) + parts(1, most, size) + b"O"
            yield f"kind {number}, size {size} sixteenth", kind(number) + parts(*[1] * 15, size) + b"O"
            yield f"kind {number}, size {size} seventeenth", kind(number) + parts(*[1] * 16, size) + b"O"
        for p in range(19):
            before = kind(number) + parts(*[2] * p)
            for letter in (b"O", b"F", b"D", b"FO", b"DO"):
                yield f"kind {number}, {p} parts, {letter.decode()}", before + letter
            for part in sorted({0, max(0, p - 1), p, p + 1, 15, 16, 255}):
                yield f"kind {number}, {p} parts, part {part}", before + value(part, 1) + b"FO"

    yield from refused_rows()
    yield from many_rows()
    yield from long_sheets()


def refused_rows():
    """Rows that Add refuses, and which of several reasons comes first."""
    for p in range(1, 9):
        for part in range(p):
            words = [1] * p
            words[part] = 0
            yield f"part {part} of {p} empty", ternary(p) + row(words)
            words[part] = 0xFFFFFFFFFFFFFFFC
            yield f"part {part} of {p} empty but for bits past the kind's", ternary(p) + row(words, b"D")
            words[part] = 1 << 5 | 1 << 40
            yield f"part {part} of {p} outside", words_of(*[5] * p) + row(words)
    for size in (1, 2, 31, 32, 33, 62, 63):
        for v in sorted({size, min(63, size + 1), 63}):
            yield f"value {v} of {size}", words_of(size) + row([1 << v | 1]) + b"O"
            yield f"value {v} and above of {size}", words_of(size) + row([(1 << 64) - (1 << v)], b"D") + b"O"
    yield "every value of 64", words_of(64) + row([2 ** 64 - 1]) + b"O"
    yield "no value of 64", words_of(64) + row([0]) + b"O"
    for v in (0, 1, 31, 32, 62, 63):
        yield f"value {v} of 64", words_of(64) + row([1 << v]) + b"O"
    for text in ("0", "1", "-", "~"):
        yield f"ternary part of size 1, {text}", kind(TERNARY) + parts(1) + marks(text) + b"O"
        yield f"ternary part of size 1 second, {text}", kind(TERNARY) + parts(2, 1) + marks("0" + text, b"D") + b"O"
    for word in (4, 5, 6, 7, 1 << 63, 1 << 63 | 2):
        yield f"ternary word {word}", ternary(1) + row([word]) + b"O"
    yield "empty behind outside", words_of(2, 2) + row([4, 0])
    yield "outside behind empty", words_of(2, 2) + row([0, 4])
    yield "outside and once there", words_of(2) + row([1]) + row([5])
    yield "value set twice", ternary(2) + value(0, 0) + value(0, 1) + b"FO"
    yield "value set twice, the other way", ternary(2) + value(0, 1) + value(0, 0) + b"FO"
    yield "a row in hand is forgotten", ternary(2) + marks("01") + value(0, 0) + b"O"
    yield "a row in hand is the universe again after F", ternary(2) + marks("01") + b"FO"
    yield "a row in hand is the universe again after D", ternary(2) + marks("01", b"D") + b"DO"
    yield "a row of the universe", ternary(2) + b"FF"
    yield "a row of the universe, DC", ternary(2) + b"DD"
    yield "a row of the universe, both", ternary(2) + b"FDO"
    yield "a repeat written otherwise", ternary(2) + row([1, 2]) + row([1 << 9 | 1, 1 << 60 | 2]) + b"O"
    for first in (b"F", b"D"):
        for second in (b"F", b"D"):
            for third in (b"F", b"D"):
                yield "repeats and kinds", ternary(2) + marks("0-", first) + marks("10", second) + marks("0-", third) + marks("10", third) + b"O"


def many_rows():
    """Tables at the bench's lengths."""
    for letter in (b"F", b"D"):
        rows = b"".join(row([1 << i], letter) for i in range(32))
        yield "thirty-two rows", words_of(64) + rows + b"O"
        yield "thirty-two rows that hold all", words_of(32) + rows + b"O"
        for last in (b"F", b"D"):
            yield "thirty-third row", words_of(64) + rows + row([1 << 40], last) + b"O"
            yield "thirty-third row, there already", words_of(64) + rows + row([1 << 31], last) + b"O"
            yield "thirty-third row, empty", words_of(64) + rows + row([0], last) + b"O"
            yield "thirty-third row, outside", words_of(63) + rows + row([1 << 63], last) + b"O"
    for p in (1, 2, 5, 8):
        yield f"the universe only, {p} parts", ternary(p) + b"FO"
        yield f"no row, {p} parts", words_of(*[64] * p) + b"O"
    yield "stripes, 127", stripes(32, 32, 5, wide=1) + b"O"
    yield "stripes, 65", stripes(17, 16, 5) + b"O"
    yield "many pieces on the way, none at the end", stripes(33, 31, 6) + b"FO"
    yield "many pieces on the way, few at the end", stripes(33, 31, 6) + row([None] * 5 + [1], b"D") + b"O"
    yield "ternary, 128 off cubes", ternary(8) + b"".join(marks(text.replace("-", "*")) for text in TERNARY_128) + b"O"
    yield "words of two values, 128 off cubes", words_of(*[2] * 8) + b"".join(marks(text.replace("-", "*")) for text in TERNARY_128) + b"O"


# 32 rows that leave 128 cubes, found by trying. With eight parts of two values there is no table that leaves more: no two cubes of an off list
# share a vertex in all parts but the last, since what is cut away in the last part is gone.
TERNARY_128 = (
    "10011110 -1111100 -0101010 ---10100 ---00000 -010-0-0 -----000 -----100 "
    "0-00-010 -1-01-10 --1-0-00 -11-10-0 10110100 -000-1-0 1100-1-0 00---010 "
    "--100-10 -00--0-0 -1--0-10 00-1-0-0 1-010-10 1---1-10 11011-00 10----00 "
    "0-0001-0 -01---10 --010-10 0-----00 -1110-10 01--0-10 01--1--0 ---0--10"
).split()


def long_sheets():
    """Sheets about as long as a sheet may be."""
    fill = words_of(2) + value(0, 1) * 408
    yield "4,096 bytes, the last command cut", fill + value(0, 1) + b"VV"
    yield "4,096 bytes, refused at the start", b"A" * 4096
    yield "4,096 bytes, refused at the end", fill + value(0, 1) + b"OO"
    yield "4,097 bytes, refused at the start", b"A" * 4097


# ---------------------------------------------------------------- by chance


class Chance:
    """Numbers by chance, the same ones in every run (the splitmix64 generator)."""

    def __init__(self, seed):
        self.state = seed

    def word(self):
        self.state = (self.state + 0x9E3779B97F4A7C15) % 2 ** 64
        z = self.state
        z = (z ^ z >> 30) * 0xBF58476D1CE4E5B9 % 2 ** 64
        z = (z ^ z >> 27) * 0x94D049BB133111EB % 2 ** 64
        return z ^ z >> 31

    def below(self, n):
        return self.word() % n

    def of(self, items):
        return items[self.below(len(items))]

    def once_in(self, n):
        return self.below(n) == 0


def chance_set(chance, size):
    """A set in a part, mostly one that Add takes; None for the part as it is."""
    whole = (1 << size) - 1
    if chance.once_in(4):
        return None
    if chance.once_in(120):
        return 0
    if chance.once_in(120):
        return chance.word()
    word = chance.word() & whole
    if chance.once_in(2):
        word &= chance.word()
    return word or 1 << chance.below(size)


def chance_table(chance, number, p, rows, sizes):
    """A table by chance, command by command."""
    made = [kind(number)] + [parts(size) for size in sizes[:p]]
    for _ in range(rows):
        for part in range(p):
            word = chance_set(chance, sizes[part])
            if word is not None:
                made.append(value(part, word))
        made.append(chance.of([b"F", b"F", b"D"]))
    return made + [b"O"]


def chance_sizes(chance, number):
    if number == TERNARY:
        return [chance.of([2, 2, 2, 2, 2, 2, 2, 1]) for _ in range(16)]
    return [chance.of([1, 2, 2, 3, 3, 4, 5, 8, 17, 33, 63, 64]) for _ in range(16)]


def mutated(chance, sheet):
    """A sheet with one thing wrong, or two."""
    sheet = bytearray(sheet)
    for _ in range(1 + chance.below(2)):
        at = chance.below(len(sheet) + 1)
        what = chance.below(6)
        if what == 0:
            sheet[at:at + 1] = bytes([chance.below(256)])
        elif what == 1:
            sheet[at:at + 1] = b""
        elif what == 2:
            sheet[at:at] = bytes([chance.of(list(b"KPVFDOXRSIZMLQ"))])
        elif what == 3:
            del sheet[at:]
        elif what == 4:
            sheet[at:at + 1] = bytes([chance.below(4)])
        else:
            sheet[at:at] = sheet[chance.below(len(sheet) + 1):][:1 + chance.below(12)]
    return bytes(sheet)


def by_chance():
    """Cases by chance, as pairs of a label and a sheet."""
    chance = Chance(1974)
    for number in (WORD, TERNARY):
        for _ in range(150):
            p = 1 + chance.below(4)
            made = chance_table(chance, number, p, chance.below(7), chance_sizes(chance, number))
            yield "a small table by chance", b"".join(made)
        for _ in range(12):
            p = 5 + chance.below(4)
            made = chance_table(chance, number, p, 4 + chance.below(10), chance_sizes(chance, number))
            yield "a table by chance", b"".join(made)
        for _ in range(4):
            p = 2 + chance.below(4)
            made = chance_table(chance, number, p, 28 + chance.below(6), chance_sizes(chance, number))
            yield "a table of many rows by chance", b"".join(made)
    for _ in range(8):
        made = [ternary(8)] + [marks("".join(chance.of("01") for _ in range(8)), chance.of([b"F", b"D"])) for _ in range(8 + chance.below(16))]
        yield "vertices by chance", b"".join(made) + b"O"
    for _ in range(100):
        yield "bytes by chance", bytes(chance.below(256) for _ in range(1 + chance.below(24)))
    for _ in range(200):
        letters = list(b"KPVFDO\0\1\2\3")
        yield "letters by chance", kind(chance.below(2)) + bytes(chance.of(letters) for _ in range(1 + chance.below(40)))
    for _ in range(100):
        commands = [kind(chance.below(2)), parts(1), parts(2), parts(2), value(0, 1), value(1, 2), b"F", b"D", b"O"]
        yield "commands by chance", commands[0] + b"".join(chance.of(commands) for _ in range(chance.below(16)))
    for _ in range(300):
        number = chance.below(2)
        made = chance_table(chance, number, 1 + chance.below(3), 1 + chance.below(3), chance_sizes(chance, number))
        yield "a table with a slip", mutated(chance, b"".join(made))


# ---------------------------------------------------------------- all


def checked_by_hand():
    for label, sheet, expected in BY_HAND:
        found = "/".join(reference.run(sheet))
        if found != expected:
            sys.exit(f"cases.py: {label}: by hand '{expected}', by the reference '{found}'")
        yield label, sheet


def cases():
    """Every case once, as label, sheet and lines."""
    seen = set()
    for source in (checked_by_hand, planned, by_chance):
        for label, sheet in source():
            if sheet not in seen:
                seen.add(sheet)
                yield label, sheet, "/".join(reference.run(sheet))


def case_line(sheet, lines):
    """A case as it is written, without a newline."""
    return f"{sheet.hex()}|{lines}"


def main(words):
    if words not in ([], ["--labels"]):
        sys.stderr.write("usage: cases.py [--labels]\n")
        return 2
    for label, sheet, lines in cases():
        print(case_line(sheet, lines) + (f"|{label}" if words else ""))
    return 0


if __name__ == "__main__":
    sys.exit(main(sys.argv[1:]))
