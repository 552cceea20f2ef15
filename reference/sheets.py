"""Makers of sheets. Each is given dice and answers the bytes of a sheet."""

LONGEST_TEXT = 65535
LAST_COLUMN = 4095
LINE_ENDS = [b"\n", b"\r\n", b"\r", b"\x0c", b"\n\r", b"\r\r\n", b"\r\n\n", b"\x0c\r", b"\n\x0c"]
BLANKS = [b" ", b"  ", b"\t", b" \t", b"\t ", b"       \t", b"        \t"]
KEYWORDS = [b"let", b"in", b"where", b"of", b"do"]
NEAR_KEYWORDS = [b"Let", b"let'", b"lets", b"_in", b"in2", b"IN", b"wher", b"where'", b"o", b"off", b"doo", b"d", b"DO"]
SIGNS = [bytes([byte]) for byte in b"{};()=,+-*/"]
NUMBERS = [b"0", b"12", b"3.5", b"007", b"1.", b".5", b"1.5.6", b"1..2", b"12ab", b"1.e", b"9'", b"1.2.", b"4.x"]
STRANGE = [bytes([byte]) for byte in b"?!'.\"#$%&:<>@[\\]^`|~\x00\x0b\x1f\x7f\x80\xa0\xc3\xff"]


def name(dice):
    first = "abcxyzABZ_"
    length = dice.choice([0, 0, 1, 2, 3, 6])
    return (dice.choice(first) + "".join(dice.choice(first + "09'") for _ in range(length))).encode()


def expression(dice, depth):
    if depth <= 0 or dice.random() < 0.4:
        number = b"%d" % dice.randrange(1000)
        return dice.choice([name(dice), number, number + b".%d" % dice.randrange(90)])
    sort = dice.randrange(4)
    inner = expression(dice, depth - 1)
    if sort == 0:
        return inner + b" " + dice.choice([b"+", b"-", b"*", b"/"]) + b" " + expression(dice, depth - 1)
    if sort == 1:
        return b"( " + inner + b", " + expression(dice, depth - 1) + b" )"
    if sort == 2:
        return b"let " + name(dice) + b" = " + inner + b" in " + expression(dice, depth - 1)
    return b"do " + name(dice) + b" = " + inner


def good_lines(dice, indent, depth):
    lines = []
    for _ in range(dice.randrange(1, 5)):
        if depth > 0 and dice.random() < 0.4:
            lines.append(b" " * indent + name(dice) + b" of")
            lines += good_lines(dice, indent + dice.randrange(1, 5), depth - 1)
        else:
            lines.append(b" " * indent + name(dice) + b" = " + expression(dice, 2))
            if dice.random() < 0.15:
                lines.append(b" " * (indent + 1) + b"where " + name(dice) + b" = " + expression(dice, 1))
    return lines


def good(dice):
    return b"\n".join(good_lines(dice, dice.choice([0, 0, 0, 2]), 3)) + dice.choice([b"", b"\n"])


def half(dice):
    sheet = good(dice)
    return sheet[: dice.randrange(len(sheet) + 1)]


def broken(dice):
    sheet = bytearray(good(dice))
    for _ in range(dice.randrange(1, 8)):
        at = dice.randrange(len(sheet) + 1)
        sort = dice.randrange(3)
        if sort == 0:
            sheet[at:at] = dice.choice(STRANGE + SIGNS + KEYWORDS + NUMBERS + LINE_ENDS)
        elif sort == 1:
            del sheet[at : at + dice.randrange(1, 4)]
        else:
            sheet[at : at + 1] = bytes([dice.randrange(256)])
    return bytes(sheet)


def around_longest(dice, piece):
    length = LONGEST_TEXT + dice.choice([-2, -1, 0, 1, 2, -30000, 5000])
    return (piece * (length // len(piece) + 1))[:length]


def long(dice):
    pieces = [b"a = 1\n", b"\t", b"\r\n", b"x", b"1", b"1.", b"?", b"{ ", b"let\x0c", words(dice)]
    return around_longest(dice, dice.choice(pieces))


def noise(dice):
    return bytes(dice.randrange(256) for _ in range(dice.randrange(400)))


def words(dice):
    pools = [KEYWORDS, NEAR_KEYWORDS, SIGNS, NUMBERS, STRANGE, LINE_ENDS, BLANKS, BLANKS, BLANKS]
    count = dice.randrange(1, 80)
    return b"".join(dice.choice(dice.choice(pools)) if dice.random() < 0.8 else name(dice) for _ in range(count))


def tabs(dice):
    pieces = [b"\t", b"\t", b" ", b"a", b"=", b"12", b"?", b"\n", b" " * 7, b" " * 8, b"abcdefg"]
    return b"".join(dice.choice(pieces) for _ in range(dice.randrange(1, 60)))


def line_ends(dice):
    pieces = LINE_ENDS + [b"\r", b"\n", b" ", b"a", b"let", b"?", b"1."]
    return b"".join(dice.choice(pieces) for _ in range(dice.randrange(1, 60)))


def long_names(dice):
    sheet = b""
    for _ in range(dice.randrange(1, 8)):
        length = dice.choice([63, 64, 65, 66, dice.randrange(40, 200)])
        sort = dice.randrange(4)
        if sort == 0:
            run = dice.choice([b"a", b"_"]) + bytes(dice.choice(b"aZ_09'") for _ in range(length - 1))
        elif sort == 1:
            run = bytes(dice.choice(b"0123456789") for _ in range(length))
        elif sort == 2:
            point = dice.randrange(1, length - 1)
            run = b"1" * point + b"." + b"2" * (length - point - 1)
        else:
            run = b"1" * length + dice.choice([b".", b"..5", b".x", b"x", b"'"])
        sheet += dice.choice(BLANKS + LINE_ENDS + [b""]) + run + dice.choice(BLANKS + LINE_ENDS + SIGNS)
    return sheet


def far_columns(dice):
    sheet = b""
    for _ in range(dice.randrange(1, 4)):
        column = LAST_COLUMN + dice.choice([-1, 0, 0, 1, 1, 2, dice.randrange(-20, 20)])
        eights = dice.choice([0, (column - 1) // 8, dice.randrange((column - 1) // 8 + 1)])
        sheet += b"\t" * eights + b" " * (column - 1 - 8 * eights)
        pieces = [name(dice), b"1.5", b"?", b".", b"'", b"x" * 64, b"x" * 65, b"7" * 65, b"{", b"let", b" ", b"\t"]
        sheet += b"".join(dice.choice(pieces) for _ in range(dice.randrange(1, 6)))
        sheet += dice.choice(LINE_ENDS)
    return sheet


def other_line_ends(dice):
    return dice.choice([good, broken])(dice).replace(b"\n", dice.choice(LINE_ENDS)).replace(b"  ", dice.choice(BLANKS))


class Typist:
    """Types a sheet by the grammar and by indentation; not all that it types is good."""

    def __init__(self, dice):
        self.dice = dice
        self.text = bytearray()
        self.line = 0
        self.inside = [0]

    def column(self):
        return len(self.text) - self.line + 1

    def word(self, word):
        if self.column() > 1 and self.text[-1:] != b" ":
            self.text += b" "
        self.text += word

    def next_line(self, column):
        self.text += b"\n"
        self.line = len(self.text)
        self.text += b" " * (column - 1)

    def maybe_next_line(self):
        if self.dice.random() < 0.06:
            self.next_line(max(1, self.inside[-1] + self.dice.choice([0, 1, 2, 3, -1])))

    def block(self, depth):
        sort = self.dice.choice(["explicit", "below", "below", "below", "behind", "behind", "empty"])
        if sort == "explicit":
            self.explicit(depth)
        elif sort == "below":
            self.next_line(self.inside[-1] + self.dice.randrange(1, 5))
            self.items(depth, self.column())
        elif sort == "behind":
            self.word(b"")
            self.items(depth, self.column())

    def explicit(self, depth):
        self.inside.append(self.inside[-1])
        self.word(b"{")
        for _ in range(self.dice.randrange(3)):
            self.item(depth)
            self.word(b";")
            self.maybe_next_line()
        self.item(depth)
        self.word(b"}")
        self.inside.pop()

    def items(self, depth, column):
        self.inside.append(column)
        self.item(depth)
        for _ in range(self.dice.choice([0, 0, 1, 1, 2, 3])):
            if self.dice.random() < 0.15:
                self.word(b";")
            else:
                self.next_line(column)
            self.item(depth)
        self.inside.pop()

    def item(self, depth):
        if self.dice.random() < 0.05:
            return
        self.word(name(self.dice))
        if depth > 0 and self.dice.random() < 0.35:
            self.word(b"of")
            self.block(depth - 1)
            return
        self.word(b"=")
        self.expression(depth)
        if depth > 0 and self.dice.random() < 0.2:
            self.word(b"where")
            self.block(depth - 1)

    def expression(self, depth):
        self.maybe_next_line()
        if depth > 0 and self.dice.random() < 0.2:
            self.word(b"let")
            self.block(depth - 1)
            self.word(b"in")
            self.expression(depth - 1)
            return
        self.term(depth)
        if self.dice.random() < 0.25:
            self.maybe_next_line()
            self.word(self.dice.choice([b"+", b"-", b"*", b"/"]))
            self.expression(depth - 1)

    def term(self, depth):
        sort = self.dice.randrange(6) if depth > 0 else self.dice.randrange(2)
        if sort < 3:
            self.word(self.dice.choice([name(self.dice), b"%d" % self.dice.randrange(100), b"2.5"]))
        elif sort == 3:
            self.word(b"do")
            self.block(depth - 1)
        else:
            self.word(b"(")
            self.expression(depth - 1)
            for _ in range(self.dice.choice([0, 0, 1, 2])):
                self.word(b",")
                self.expression(depth - 1)
            self.word(b")")


def typed(dice):
    typist = Typist(dice)
    first = dice.choice([1, 1, 1, 3, 9])
    typist.text += b" " * (first - 1)
    if dice.random() < 0.1:
        typist.explicit(dice.randrange(1, 5))
    else:
        typist.items(dice.randrange(1, 6), first)
    return bytes(typist.text) + dice.choice([b"", b"\n"])


def typed_half(dice):
    sheet = typed(dice)
    return sheet[: dice.randrange(len(sheet) + 1)]


def typed_broken(dice):
    """Words struck out, put in, doubled or moved to another column."""
    sheet = typed(dice).split(b" ")
    for _ in range(dice.randrange(1, 5)):
        at = dice.randrange(len(sheet))
        word = dice.choice(KEYWORDS + SIGNS + [b"a", b"1", b"", b"\n", b"\n  "])
        sheet[at : at + dice.randrange(3)] = dice.choice([[word], [word], [], [sheet[at], sheet[at]]])
        sheet = sheet or [b""]
    return b" ".join(sheet)


def closings(dice):
    """Blocks that end where a word does not fit: `( do b = 1 )` and the like."""
    inners = [b"b = 1", b"b of", b"b of c = 2", b"", b"b = do c = 1", b"b = ( do c = 1", b"b = (1", b"{ b = 1"]
    inner = dice.choice(inners)
    around = [
        b"a = ( do %s )",
        b"a = ( do %s, do %s )",
        b"a = let %s in 2",
        b"a = ( let %s in 1, 2 )",
        b"a = do %s where c = 1",
        b"a = ( do %s ) + do %s",
        b"a = 1 where b = ( do %s ) where c",
        b"a = do %s }",
        b"{ a = ( do %s ) ; b of do %s }",
        b"a of b = do %s ; c = ( 1",
        b"a = (( do x = let %s in ( do %s )))",
        b"a = do %s = 1",
        b"a = let let %s in in",
    ]
    sheet = dice.choice(around)
    while b"%s" in sheet:
        sheet = sheet.replace(b"%s", dice.choice(around + [inner] * 20) if len(sheet) < 200 else inner, 1)
    return sheet + dice.choice([b"", b"\n", b"\nd = 1", b"\n )", b"\n }"])


def empties(dice):
    """Blocks without an item, and block keywords at the end."""
    pieces = [b"a of", b"b = do", b"c = let", b"in 1", b"d = 1 where", b"e = ( do", b")", b"{", b"}", b"{ }", b"x = 1"]
    pieces.append(b";")
    lines = [b" " * dice.choice([0, 0, 0, 1, 2, 4]) + dice.choice(pieces) for _ in range(dice.randrange(1, 9))]
    return b"\n".join(lines) + dice.choice([b"", b"\n", b" of", b" do", b" let", b" where"])


def deep(dice):
    depth = dice.choice([62, 63, 64, 65, dice.randrange(50, 90)])
    below = [b" " * level + name(dice) + b" of" for level in range(depth)]
    mixed = [dice.choice([b"{ a of ", b"a of ", b"a = do ", b"a = ( do "]) for _ in range(depth)]
    sheet = dice.choice(
        [
            b"\n".join(below),
            b"\n".join(below + [b" " * dice.randrange(70) + b"a = 1"] + below[: dice.randrange(depth)]),
            b"{ a of " * (depth - 1) + b"{ " + b"}" * dice.randrange(depth + 2),
            b"a of " * depth + dice.choice([b"", b"a", b"{", b"a = 1", b"\n a = 1", b"\na = 1", b"}"]),
            b"a = " + b"( do x = " * depth + b"1" + b" )" * dice.randrange(depth + 2),
            b"a = " + b"( " * depth + b"1" + b" )" * dice.randrange(depth + 2),
            b"a = " + b"let x of " * depth + b"in 1 " * dice.randrange(depth),
            b"".join(mixed) + b"a = 1" + b" )" * dice.randrange(3) + b" }" * dice.randrange(depth),
        ]
    )
    return sheet


def past_reach(dice):
    """About 1,024 tokens and far more of them, in 10 to 60 kB."""
    wide = dice.choice([0, 5, 20])
    column = dice.choice([b"", b"", b"  "])
    bytes_wanted = dice.choice([10, 12, 15, 20, 30, 60]) * 1000
    lines = []
    while sum(map(len, lines)) < bytes_wanted:
        value = dice.choice([b"1", b"x + 2.5", b"( a, b )", b"do b = 1", b"let c = 2 in c", b"1 where d of"])
        lines.append(column + name(dice) + b" " * dice.randrange(wide + 1) + b" = " + value + b" " * wide + b"\n")
    return b"".join(lines)


def at_reach(dice):
    """Just below, at and above 1,024 tokens."""
    more = dice.choice([-2, -1, 0, 1, 2])
    sheets = [
        b"{" + b" ;" * (1022 + more) + b" }",
        b"a of\n" + b";" * (1017 + more),
        b"a = 1\n" * 255 + b";" * (2 + more),
        (b"a of " * 60 + b"b = 1\n") * 4 + b";" * (46 + more),
        b"a = ( " + b"1, " * (507 + more) + b"( 1 ) )",
    ]
    gap = dice.choice([b" ", b" ", b"  \t", b" " * 12])
    return dice.choice(sheets).replace(b" ", gap)


PLAIN = [good, half, broken, noise, words, tabs, line_ends, long_names, far_columns, other_line_ends]
LAYOUT = [typed, typed_half, typed_broken, closings, empties, deep]
LARGE = [past_reach, at_reach, long]
