#!/usr/bin/env python3
"""Reference for the sheet reader, the global monitor and the bench listing.

    reference.py sheets  < FILE     one answer line for each test sheet of FILE
    reference.py listing < INPUT    the bench's listing, columns "tick whole"
    reference.py selftest           checks this program against the rules

In FILE each line is one sheet: "/" stands for byte 10, "~" for byte 200 and
"^" for byte 9. Lines that begin with "#" are skipped. An empty line is the
sheet without bytes.
"""

import sys

SHEET_BYTES = 4096
POST_LINES = 8
SIGNALS = 32
NAME_BYTES = 12
RULE_WORDS = 200
RULE_PARTS = 64
OBLIGATION_PARTS = 256
LAST_TICK = 999_999

LETTERS = b"abcdefghijklmnopqrstuvwxyz"
RUN_BYTES = LETTERS + b"0123456789_"
RESERVED = ("post", "rule", "true", "false")
PREFIXES = ("!", "X", "F", "G")
LEVELS = ("->", "|", "&", "U")  # loosest first; each groups to the right


class Hold(Exception):
    """A refusal: its number, then the line and the word if they are answered."""

    def __init__(self, *numbers):
        super().__init__(*numbers)
        self.numbers = numbers

    def __str__(self):
        return "hold " + " ".join(str(number) for number in self.numbers)


# Formulas


class Formulas:
    """A table that has every formula once. A formula is its place in the table,
    so two formulas are equal just if their places are. Building shortens."""

    def __init__(self):
        self.nodes = []
        self.places = {}
        self.true = self._place("true")
        self.false = self._place("false")

    def _place(self, kind, *operands):
        node = (kind,) + operands
        if node not in self.places:
            self.places[node] = len(self.nodes)
            self.nodes.append(node)
        return self.places[node]

    def constant(self, value):
        return self.true if value else self.false

    def signal(self, number):
        return self._place("signal", number)

    def prefix(self, sign, f):
        if sign == "!" and f == self.true:
            return self.false
        if sign == "!" and f == self.false:
            return self.true
        return self._place(sign, f)

    def both(self, sign, f, g):
        """f and g under "&", "|", "U" or "->"."""
        if sign == "->":
            return self.both("|", self.prefix("!", f), g)
        if sign == "U":
            return self._place("U", f, g)
        neutral, ruling = (self.true, self.false) if sign == "&" else (self.false, self.true)
        if ruling in (f, g):
            return ruling
        if f == neutral:
            return g
        if g == neutral or f == g:
            return f
        if self.nodes[g][:2] == (sign, f):  # the right one begins with the left one
            return g
        return self._place(sign, f, g)

    def operands(self, f):
        kind, *rest = self.nodes[f]
        return [] if kind == "signal" else rest

    def parts(self, f):
        """The parts in the order in which a left-before-right walk finishes them."""
        listed = {}

        def walk(part):
            if part not in listed:
                for operand in self.operands(part):
                    walk(operand)
                listed[part] = len(listed)

        walk(f)
        return list(listed)

    def step(self, f, reading):
        """f after one step of progression. Bit j of reading is signal j."""
        after = {}
        for part in self.parts(f):
            kind, *operands = self.nodes[part]
            if kind in ("true", "false"):
                result = part
            elif kind == "signal":
                result = self.constant(reading >> operands[0] & 1)
            elif kind == "!":
                result = self.prefix("!", after[operands[0]])
            elif kind in ("&", "|"):
                result = self.both(kind, after[operands[0]], after[operands[1]])
            elif kind == "X":
                result = operands[0]
            elif kind == "F":
                result = self.both("|", after[operands[0]], part)
            elif kind == "G":
                result = self.both("&", after[operands[0]], part)
            else:
                left, right = operands
                result = self.both("|", after[right], self.both("&", after[left], part))
            after[part] = result
        return after[f]

    def verdict(self, f):
        return {self.true: "T", self.false: "F"}.get(f, "?")

    def show_parts(self, f):
        """The parts in the notation of the test data."""
        parts = self.parts(f)
        number = {part: n for n, part in enumerate(parts)}
        shown = []
        for part in parts:
            kind, *operands = self.nodes[part]
            if kind == "signal":
                shown.append(f"p{operands[0]}")
            elif len(operands) == 2:
                shown.append(f"{number[operands[0]]}{kind}{number[operands[1]]}")
            else:
                shown.append(kind + "".join(str(number[operand]) for operand in operands))
        return " ".join(shown)


# The words of a rule


def split_words(text):
    """The words of the text behind "rule ", or None if a byte is in no word."""
    words = []
    at = 0
    while at < len(text):
        end = at + 1
        if text[at] in RUN_BYTES:
            while end < len(text) and text[end] in RUN_BYTES:
                end += 1
        elif text[at : at + 2] == b"->":
            end = at + 2
        elif text[at] not in b" !&|()XFGU":
            return None
        if text[at] != ord(" "):
            words.append(text[at:end].decode("ascii"))
        at = end
    return words


def is_name(run):
    """Whether these bytes, as text, are a name."""
    return (
        1 <= len(run) <= NAME_BYTES
        and all(ord(byte) in RUN_BYTES for byte in run)
        and ord(run[0]) in LETTERS
        and run not in RESERVED
    )


def first_word_at_fault(words):
    """The number of the first word that cannot stand where it stands, or None.
    The end of the words counts as one more word."""
    wanted = True  # an operand is wanted
    brackets = 0  # this many are open
    for number, word in enumerate(words, 1):
        if word in PREFIXES:
            fits = wanted
        elif word == "(":
            fits = wanted
            brackets += 1
        elif word == ")":
            fits = not wanted and brackets > 0
            brackets -= 1
        elif word in LEVELS:
            fits = not wanted
            wanted = True
        else:
            fits = wanted and (word in ("true", "false") or is_name(word))
            wanted = False
        if not fits:
            return number
    return len(words) + 1 if wanted or brackets > 0 else None


def first_unknown_name(words, signals):
    """The number of the first name that is no signal, or None."""
    for number, word in enumerate(words, 1):
        if is_name(word) and word not in signals:
            return number
    return None


def build_rule(words, signals, formulas):
    """The shortened formula of words without a fault."""
    rest = words[::-1]  # the next word stands last

    def level(n):
        if n == len(LEVELS):
            return prefixed()
        left = level(n + 1)
        if rest and rest[-1] == LEVELS[n]:
            rest.pop()
            return formulas.both(LEVELS[n], left, level(n))
        return left

    def prefixed():
        word = rest.pop()
        if word in PREFIXES:
            return formulas.prefix(word, prefixed())
        if word == "(":
            inner = level(0)
            rest.pop()  # the closing bracket
            return inner
        if word in ("true", "false"):
            return formulas.constant(word == "true")
        return formulas.signal(signals.index(word))

    return level(0)


def read_rule(words, signals, formulas):
    """The rule, or a hold with its number and word, still without the line."""
    if len(words) > RULE_WORDS:
        raise Hold(8)
    word = first_word_at_fault(words)
    if word is not None:
        raise Hold(9, word)
    word = first_unknown_name(words, signals)
    if word is not None:
        raise Hold(10, word)
    rule = build_rule(words, signals, formulas)
    if len(formulas.parts(rule)) > RULE_PARTS:
        raise Hold(11)
    return rule


# The sheet


class Sheet:
    """What the lines read so far say."""

    def __init__(self):
        self.posts = []  # names
        self.signals = []  # names
        self.owners = []  # of each signal the number of its post, from 1
        self.formulas = Formulas()
        self.rule = None


def read_post_line(sheet, line):
    if not line.startswith(b"post "):
        raise Hold(3)
    before, colon, behind = line[len(b"post ") :].partition(b":")
    if not colon or b":" in behind or not behind.startswith(b" "):
        raise Hold(3)
    if len(sheet.posts) == POST_LINES:
        raise Hold(4)
    names = [before] + behind[1:].split(b" ")
    for place, name in enumerate(names):
        name = name.decode("ascii")
        if not is_name(name):
            raise Hold(5)
        if name in sheet.posts or name in sheet.signals:
            raise Hold(6)
        if place == 0:
            sheet.posts.append(name)
            continue
        if len(sheet.signals) == SIGNALS:
            raise Hold(7)
        sheet.signals.append(name)
        sheet.owners.append(len(sheet.posts))


def read_line(sheet, line):
    """Adds one line to the sheet, or raises a hold that still lacks the line."""
    if line.startswith(b"rule "):
        words = split_words(line[len(b"rule ") :])
        if words is None:
            raise Hold(2)
        if not sheet.posts or sheet.rule is not None:
            raise Hold(3)
        sheet.rule = read_rule(words, sheet.signals, sheet.formulas)
    else:
        if any(byte not in b" :" + RUN_BYTES for byte in line):
            raise Hold(2)
        if sheet.rule is not None:
            raise Hold(3)
        read_post_line(sheet, line)


def read_sheet(text):
    """The sheet, or a hold."""
    if not 1 <= len(text) <= SHEET_BYTES or not text.endswith(b"\n"):
        raise Hold(1)
    sheet = Sheet()
    lines = text[:-1].split(b"\n")
    for number, line in enumerate(lines, 1):
        try:
            read_line(sheet, line)
        except Hold as hold:
            kind, *word = hold.numbers
            raise Hold(kind, number, *word) from None
    if sheet.rule is None:
        raise Hold(3, len(lines) + 1)
    return sheet


def show_sheet(sheet):
    signals = ",".join(f"{name}:{owner}" for name, owner in zip(sheet.signals, sheet.owners))
    rule = sheet.formulas.show_parts(sheet.rule)
    return f"posts {','.join(sheet.posts)} signals {signals} rule {rule}"


def answer(text):
    """The answer to one sheet as a line."""
    try:
        return show_sheet(read_sheet(text))
    except Hold as hold:
        return str(hold)


# The global monitor


class Monitor:
    def __init__(self, sheet):
        self.formulas = sheet.formulas
        self.signals = len(sheet.signals)
        self.obligation = sheet.rule
        self.tick = 0

    def step(self, reading):
        if reading >> self.signals:
            raise Hold(15)
        if self.tick > LAST_TICK:
            raise Hold(16)
        after = self.formulas.step(self.obligation, reading)
        if len(self.formulas.parts(after)) > OBLIGATION_PARTS:
            raise Hold(18)
        self.obligation = after
        self.tick += 1

    def verdict(self):
        return self.formulas.verdict(self.obligation)


# The bench


def split_input(text):
    """The sheet and the tick lines."""
    if text.startswith(b"\n"):
        sheet, ticks = b"", text[1:]
    else:
        end = text.find(b"\n\n")
        if end < 0:
            return text, []
        sheet, ticks = text[: end + 1], text[end + 2 :]
    lines = ticks.split(b"\n")
    if lines[-1] == b"":  # behind the last line end there is no line
        lines.pop()
    return sheet, lines


def read_tick_line(sheet, line):
    """The whole reading of a tick line, or a hold."""
    groups = line.split(b" ")
    if len(groups) != len(sheet.posts):
        raise Hold(14)
    for post, group in enumerate(groups, 1):
        if len(group) != sheet.owners.count(post) or group.strip(b"01"):
            raise Hold(15)
    digits = b"".join(groups)
    return sum(1 << number for number, digit in enumerate(digits) if digit == ord("1"))


def listing(text):
    """The lines of the listing."""
    sheet_text, tick_lines = split_input(text)
    try:
        sheet = read_sheet(sheet_text)
        monitor = Monitor(sheet)
        yield "tick whole"
        for line in tick_lines:
            tick = monitor.tick
            monitor.step(read_tick_line(sheet, line))
            yield f"{tick} {monitor.verdict()}"
    except Hold as hold:
        yield str(hold)


def decode_sheets(text):
    """The sheets of a file in the test encoding."""
    lines = text.split(b"\n")
    if lines[-1] == b"":
        lines.pop()
    coded = bytes.maketrans(b"/~^", b"\n\xc8\t")
    return [line.translate(coded) for line in lines if not line.startswith(b"#")]


def main(arguments):
    sys.setrecursionlimit(20_000)
    mode = arguments[0] if len(arguments) == 1 else None
    if mode == "sheets":
        for number, sheet in enumerate(decode_sheets(sys.stdin.buffer.read()), 1):
            print(number, answer(sheet))
    elif mode == "listing":
        for line in listing(sys.stdin.buffer.read()):
            print(line)
    elif mode == "selftest":
        import selftest

        return selftest.run()
    else:
        print(__doc__, file=sys.stderr)
        return 2
    return 0


if __name__ == "__main__":
    sys.exit(main(sys.argv[1:]))
