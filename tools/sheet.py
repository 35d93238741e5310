#!/usr/bin/env python3
"""Makes a sheet, the bytes that the bench reads, from a text that people read.

    python3 tools/sheet.py TEXT [-o SHEET]

TEXT is a file, or '-' for standard input; without -o the bytes go to standard output. Where the text is wrong, nothing is written: the
program prints TEXT:LINE: and what is wrong there, and ends with status 1.

A line of the text is one command; '#' starts a comment, and empty lines say nothing.

    kind word | ternary | NUMBER    the kind of part (a number is the byte itself)
    part SIZE ...                   a part of this size; several sizes make several parts
    on ROW                          an ON row: a value command for each part of it, then the command that adds it
    dc ROW                          the same for a DC row
    value PART SET                  one part of the row in hand
    add on | dc                     adds the row in hand
    open                            opens the table
    bytes HEX ...                   these bytes, two hexadecimal digits each, put into the sheet as they are

A ROW of a ternary sheet is a mark for each part, 0, 1, - (both values) or ~ (none), with or without spaces: 00-. A ROW of a word sheet is a
SET for each part, with spaces between. In both, * in a part's turn leaves the part as it is, with no value command for it.

A SET is {0,3,5}, or with a range {0..3,7}, or {} for none; or a word in which bit v stands for the value v, as 0x1f; or, in a row, the marks
with which a word cube prints, 0 or 1 for each value from 0 up, as many as the part has: 1101. In a value command a plain number is the word
too, so there 5 is the same as 0x5 and {0,2}.

NUMBER, SIZE and PART are 0 to 255, plain or as 0x1f. The text may well make a sheet that the bench refuses: only what cannot be read is
wrong. Rows go by the kind and part lines above them; what a bytes line puts into the sheet is not looked at.
"""
import re
import sys


class Wrong(Exception):
    """The text is wrong in a line."""

    def __init__(self, line, what):
        super().__init__(line, what)
        self.line, self.what = line, what


class Bad(Exception):
    """A line is wrong."""


NUMBER = re.compile(r"0x[0-9a-fA-F]+|[0-9]+")
TOKEN = re.compile(r"\{[^{}]*\}|[^\s{}]+|\S")
TERNARY_WORDS = {"0": 1, "1": 2, "-": 3, "~": 0}
KINDS = {"word": 0, "ternary": 1}


def number(text, most, what):
    if not NUMBER.fullmatch(text):
        raise Bad(f"{what} is a number, not '{text}'")
    value = int(text, 16) if text.startswith("0x") else int(text)
    if value > most:
        raise Bad(f"{what} is at most {most}, not {text}")
    return value


def set_word(text):
    """The word of a set that is written with braces."""
    word = 0
    inner = text[1:-1].strip()
    for item in inner.split(",") if inner else []:
        ends = [number(end.strip(), 63, "a value") for end in item.split("..")]
        if len(ends) > 2:
            raise Bad(f"'{item.strip()}' is no value and no range of values")
        if ends[-1] < ends[0]:
            raise Bad(f"the range '{item.strip()}' is empty")
        for v in range(ends[0], ends[-1] + 1):
            word |= 1 << v
    return word


def is_set(token):
    return token.startswith("{") and token.endswith("}") and len(token) > 1


def word_part(token, size, part):
    """The word of one part in a row of a word sheet."""
    if is_set(token):
        return set_word(token)
    if token.startswith("0x"):
        return number(token, 2 ** 64 - 1, "a word")
    if not re.fullmatch("[01]+", token):
        raise Bad(f"part {part}: '{token}' is no set; write {{0,2}}, 0x5, marks such as 101, or *")
    if len(token) != size:
        raise Bad(f"part {part} has {size} values, and '{token}' has {len(token)} marks")
    return sum(1 << v for v, mark in enumerate(token) if mark == "1")


class Maker:
    """The sheet so far, and what the rows go by."""

    def __init__(self):
        self.sheet = bytearray()
        self.kind = None
        self.sizes = []

    def put_value(self, part, word):
        self.sheet += b"V" + bytes([part]) + word.to_bytes(8, "big")

    def do_kind(self, tokens):
        if len(tokens) != 1:
            raise Bad("kind wants one word: word, ternary or a number")
        kind = KINDS[tokens[0]] if tokens[0] in KINDS else number(tokens[0], 255, "a kind")
        self.kind = kind
        self.sheet += b"K" + bytes([kind])

    def do_part(self, tokens):
        if not tokens:
            raise Bad("part wants a size")
        sizes = [number(token, 255, "a size") for token in tokens]
        for size in sizes:
            self.sizes.append(size)
            self.sheet += b"P" + bytes([size])

    def row_words(self, tokens):
        """The word of each part of a row, None where the part is left as it is."""
        if self.kind == 1:
            marks = "".join(tokens)
            for mark in marks:
                if mark not in "01-~*":
                    raise Bad(f"'{mark}' is no mark; a ternary row has 0, 1, -, ~ and *")
            self.check_parts(len(marks))
            return [TERNARY_WORDS.get(mark) for mark in marks]
        if self.kind == 0:
            self.check_parts(len(tokens))
            return [None if token == "*" else word_part(token, size, part)
                    for part, (token, size) in enumerate(zip(tokens, self.sizes))]
        if self.kind is None:
            raise Bad("a row comes after a kind")
        raise Bad(f"kind {self.kind} has no rows that can be read; use value and add")

    def check_parts(self, has):
        if has != len(self.sizes):
            raise Bad(f"the row has {has} part{'s' * (has != 1)}, the sheet {len(self.sizes)}")
        if has > 256:
            raise Bad("a row of more than 256 parts cannot be written")

    def put_row(self, tokens, letter):
        for part, word in enumerate(self.row_words(tokens)):
            if word is not None:
                self.put_value(part, word)
        self.sheet += letter

    def do_on(self, tokens):
        self.put_row(tokens, b"F")

    def do_dc(self, tokens):
        self.put_row(tokens, b"D")

    def do_value(self, tokens):
        if len(tokens) != 2:
            raise Bad("value wants a part number and a set")
        part = number(tokens[0], 255, "a part number")
        self.put_value(part, set_word(tokens[1]) if is_set(tokens[1]) else number(tokens[1], 2 ** 64 - 1, "a word"))

    def do_add(self, tokens):
        if tokens not in (["on"], ["dc"]):
            raise Bad("add wants on or dc")
        self.sheet += {"on": b"F", "dc": b"D"}[tokens[0]]

    def do_open(self, tokens):
        if tokens:
            raise Bad("open stands alone")
        self.sheet += b"O"

    def do_bytes(self, tokens):
        if not tokens:
            raise Bad("bytes wants bytes")
        for token in tokens:
            if not re.fullmatch("[0-9a-fA-F]{2}", token):
                raise Bad(f"a byte is two hexadecimal digits, not '{token}'")
        self.sheet += bytes(int(token, 16) for token in tokens)


COMMANDS = {
    "kind": Maker.do_kind,
    "part": Maker.do_part,
    "on": Maker.do_on,
    "dc": Maker.do_dc,
    "value": Maker.do_value,
    "add": Maker.do_add,
    "open": Maker.do_open,
    "bytes": Maker.do_bytes,
}


def make(text):
    """The sheet for a text; Wrong where it cannot be read."""
    maker = Maker()
    for at, line in enumerate(text.split("\n"), 1):
        tokens = TOKEN.findall(line.split("#", 1)[0])
        if not tokens:
            continue
        try:
            if tokens[0] not in COMMANDS:
                raise Bad(f"no such command as '{tokens[0]}'; there are {', '.join(COMMANDS)}")
            COMMANDS[tokens[0]](maker, tokens[1:])
        except Bad as bad:
            raise Wrong(at, str(bad)) from None
    return bytes(maker.sheet)


def read_text(name):
    if name == "-":
        raw = sys.stdin.buffer.read()
    else:
        with open(name, "rb") as file:
            raw = file.read()
    return raw.decode("utf-8", errors="replace")


def write_sheet(name, sheet):
    if name is None:
        sys.stdout.buffer.write(sheet)
    else:
        with open(name, "wb") as file:
            file.write(sheet)


def main(words):
    if len(words) == 3 and words[1] == "-o":
        text_name, sheet_name = words[0], words[2]
    elif len(words) == 1 and words[0] not in ("-o", "-h", "--help"):
        text_name, sheet_name = words[0], None
    else:
        sys.stderr.write("usage: sheet.py TEXT [-o SHEET]\n")
        return 2
    try:
        sheet = make(read_text(text_name))
        write_sheet(sheet_name, sheet)
    except Wrong as wrong:
        sys.stderr.write(f"{text_name}:{wrong.line}: {wrong.what}\n")
        return 1
    except OSError as trouble:
        sys.stderr.write(f"sheet.py: {trouble}\n")
        return 2
    return 0


if __name__ == "__main__":
    sys.exit(main(sys.argv[1:]))
