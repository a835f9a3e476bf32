"""Checks of the reference. Run by "reference.py selftest"."""

import itertools
import random

import reference
from reference import Formulas, Hold, Monitor

FAILURES = []
COUNTS = {}


def check(topic, what, got, expected):
    COUNTS[topic] = COUNTS.get(topic, 0) + 1
    if got != expected:
        FAILURES.append(f"{topic}: {what!r}: got {got!r}, expected {expected!r}")


# The first word at fault, by its definition
#
# A recogniser of its own, written from the grammar, says whether a list of
# words is a rule. Words before w can go on to a rule if some short list of
# further words makes them one.


def is_rule(words):
    """Each function takes a place and gives the place behind what it read, or None."""

    def chain(inner, sign):
        def read(at):
            at = inner(at)
            if at is not None and at < len(words) and words[at] == sign:
                return read(at + 1)
            return at

        return read

    def tight(at):
        if at >= len(words):
            return None
        if words[at] == "(":
            at = rule(at + 1)
            return at + 1 if at is not None and at < len(words) and words[at] == ")" else None
        return at + 1 if words[at] in OPERANDS else None

    def prefix(at):
        while at < len(words) and words[at] in ("!", "X", "F", "G"):
            at += 1
        return tight(at)

    until = chain(prefix, "U")
    conjunction = chain(until, "&")
    disjunction = chain(conjunction, "|")
    rule = chain(disjunction, "->")
    return rule(0) == len(words)


OPERANDS = {"true", "false", "a", "b", "gate"}
NO_NAMES = ["9a", "post", "rule", "_", "abcdefghijklm"]
VOCABULARY = ["!", "X", "F", "G", "(", ")", "->", "|", "&", "U"] + sorted(OPERANDS) + NO_NAMES
FURTHER_WORDS = ["a", ")", "!", "&", "("]
MOST_BRACKETS = 3
LONGEST_CONTINUATION = MOST_BRACKETS + 1  # one operand and all closing brackets

_continued = {}


def can_go_on(words):
    if words not in _continued:
        _continued[words] = any(
            is_rule(words + further)
            for length in range(LONGEST_CONTINUATION + 1)
            for further in itertools.product(FURTHER_WORDS, repeat=length)
        )
    return _continued[words]


def fault_by_definition(words):
    for number in range(1, len(words) + 1):
        if can_go_on(words[: number - 1]) and not can_go_on(words[:number]):
            return number
    return None if is_rule(words) else len(words) + 1


def check_words_at_fault(rng):
    topic = "first word at fault against brute force"
    seen = set()
    # Every list of up to four words, with one word for each row of the table.
    for length in range(5):
        for words in itertools.product(["!", "(", "a", "&", ")", "9a"], repeat=length):
            if words.count("(") <= MOST_BRACKETS:
                seen.add(words)
    exhaustive = len(seen)
    # Random lists, most of them rules with one or two words changed.
    while len(seen) < exhaustive + 6000:
        if rng.random() < 0.3:
            words = [rng.choice(VOCABULARY) for _ in range(rng.randint(1, 8))]
        else:
            words = random_rule_words(rng, rng.randint(1, 8))
            for _ in range(rng.randint(0, 2)):
                at = rng.randrange(len(words) + 1)
                change = rng.choice(["put", "drop", "swap"])
                words[at : at + (change != "put")] = [] if change == "drop" else [rng.choice(VOCABULARY)]
        if len(words) <= 14 and words.count("(") <= MOST_BRACKETS:
            seen.add(tuple(words))
    for words in sorted(seen):
        check(topic, words, reference.first_word_at_fault(list(words)), fault_by_definition(words))
    COUNTS["  of these rules without a fault"] = sum(is_rule(words) for words in seen)


# Random formulas as trees: a word, or (sign, below), or (left, sign, right)


def random_tree(rng, size, signals=("a", "b", "gate")):
    if size <= 1:
        return rng.choice(list(signals) * 3 + ["true", "false"])
    if size == 2 or rng.random() < 0.35:
        return (rng.choice("!XFG"), random_tree(rng, size - 1, signals))
    left = rng.randint(1, size - 2)
    sign = rng.choice(["->", "|", "&", "U"])
    return (random_tree(rng, left, signals), sign, random_tree(rng, size - 1 - left, signals))


LEVEL = {"->": 1, "|": 2, "&": 3, "U": 4}


def level_of(tree):
    if isinstance(tree, str):
        return 6
    return 5 if len(tree) == 2 else LEVEL[tree[1]]


def write(tree, full=False):
    """The words of a tree, with all brackets or with those that are needed."""

    def operand(below, least):
        words = write(below, full)
        needed = level_of(below) < least
        return ["("] + words + [")"] if needed or (full and level_of(below) < 6) else words

    if isinstance(tree, str):
        return [tree]
    if len(tree) == 2:
        return [tree[0]] + operand(tree[1], 5)
    level = level_of(tree)
    return operand(tree[0], level + 1) + [tree[1]] + operand(tree[2], level)


def random_rule_words(rng, size):
    return write(random_tree(rng, size))


def build(formulas, tree, signals):
    """The shortened formula of a tree."""
    if tree in ("true", "false"):
        return formulas.constant(tree == "true")
    if isinstance(tree, str):
        return formulas.signal(signals.index(tree))
    if len(tree) == 2:
        return formulas.prefix(tree[0], build(formulas, tree[1], signals))
    left, sign, right = tree
    return formulas.both(sign, build(formulas, left, signals), build(formulas, right, signals))


def check_grouping(rng):
    signals = ["a", "b", "gate"]
    for _ in range(4000):
        tree = random_tree(rng, rng.randint(1, 14))
        formulas = Formulas()
        expected = build(formulas, tree, signals)
        for full in (False, True):
            words = write(tree, full)
            check("a tree written as words is a rule", words, is_rule(words), True)
            check("a tree written and read again", words, reference.build_rule(words, signals, formulas), expected)
            for gap in ("", " ", "   "):
                text = words[0]
                for before, word in zip(words, words[1:]):
                    runs = before[-1].isalnum() and before not in "XFGU" and word[0].isalnum() and word not in "XFGU"
                    text += (gap or " " * runs) + word
                check("words split again", text, reference.split_words(text.encode()), words)


# What formulas mean on a run that repeats its end for ever


def tree_holds(tree, signals, run, loop):
    """Whether the tree holds at each tick of the run; behind its last tick the
    run goes on at tick loop. Untils are found by looking ahead."""
    length = len(run)

    def ahead(tick):
        """The ticks from this one on, until all that ever come have come."""
        later = range(tick, length)
        return list(later) + list(range(loop, length))

    if tree in ("true", "false"):
        return [tree == "true"] * length
    if isinstance(tree, str):
        return [bool(reading >> signals.index(tree) & 1) for reading in run]
    if len(tree) == 2:
        below = tree_holds(tree[1], signals, run, loop)
        if tree[0] == "!":
            return [not held for held in below]
        if tree[0] == "X":
            return [below[tick + 1 if tick + 1 < length else loop] for tick in range(length)]
        some_or_all = any if tree[0] == "F" else all
        return [some_or_all(below[u] for u in ahead(tick)) for tick in range(length)]
    left = tree_holds(tree[0], signals, run, loop)
    right = tree_holds(tree[2], signals, run, loop)
    if tree[1] == "&":
        return [f and g for f, g in zip(left, right)]
    if tree[1] == "|":
        return [f or g for f, g in zip(left, right)]
    if tree[1] == "->":
        return [g or not f for f, g in zip(left, right)]

    def until(tick):
        for u in ahead(tick):
            if right[u]:
                return True
            if not left[u]:
                return False
        return False

    return [until(tick) for tick in range(length)]


def as_tree(formulas, f, signals):
    kind, *operands = formulas.nodes[f]
    if kind == "signal":
        return signals[operands[0]]
    below = [as_tree(formulas, operand, signals) for operand in operands]
    if len(below) == 2:
        return (below[0], kind, below[1])
    return (kind, below[0]) if below else kind


def check_meaning(rng):
    """After each step the obligation holds from the next tick on just if the
    rule holds at tick 0, on runs that begin with the readings."""
    signals = ["a", "b", "gate"]
    topic = "obligation against the meaning of the rule"
    decided = 0
    for _ in range(3000):
        tree = random_tree(rng, rng.randint(1, 9))
        formulas = Formulas()
        obligation = build(formulas, tree, signals)
        run = [rng.randrange(8) for _ in range(rng.randint(5, 8))]
        loop = rng.randrange(len(run))
        kept = tree_holds(tree, signals, run, loop)[0]
        for tick in range(4):
            shortened = as_tree(formulas, obligation, signals)
            check(topic, (tree, run, loop, tick), tree_holds(shortened, signals, run, loop)[tick], kept)
            check("building anew changes nothing", tree, build(formulas, shortened, signals), obligation)
            parts = formulas.parts(obligation)
            check("parts: operands first, each once, itself last", tree,
                  len(set(parts)) == len(parts) and parts[-1] == obligation
                  and all(parts.index(o) < n for n, p in enumerate(parts) for o in formulas.operands(p)), True)
            obligation = formulas.step(obligation, run[tick])
        decided += formulas.verdict(obligation) != "?"
    COUNTS["  of these runs decided"] = decided


# The tables of the pages


def answer(text):
    return reference.answer(text.encode("ascii")).removeprefix("hold ")


POST_LINES = [
    ("post", "3 1"),
    ("post a", "3 1"),
    ("post a:", "3 1"),
    ("post a:b", "3 1"),
    ("post a: b: c", "3 1"),
    ("post : b", "5 1"),
    ("post a b: c", "5 1"),
    ("post a : b", "5 1"),
    ("post  a: b", "5 1"),
    ("post a: ", "5 1"),
    ("post a:  b", "5 1"),
    ("post a: b ", "5 1"),
    ("post rule: b", "5 1"),
    ("post a: 9b", "5 1"),
    ("post a: _b", "5 1"),
    ("post a: a", "6 1"),
    ("post a: b b 9", "6 1"),
    ("post A: b", "2 1"),
    ("posts a: b", "3 1"),
    ("rules a", "3 1"),
    ("rules G a", "2 1"),
    ("", "3 1"),
    ("rule b", "3 1"),
]

RULE_LINES = [
    ("rule", "3 3"),
    ("rule ", "9 3 1"),
    ("rule G", "9 3 2"),
    ("rule (open", "9 3 3"),
    ("rule open full", "9 3 2"),
    ("rule open )", "9 3 2"),
    ("rule ()", "9 3 2"),
    ("rule 9a", "9 3 1"),
    ("rule post", "9 3 1"),
    ("rule gate", "10 3 1"),
    ("rule shut & open full", "9 3 4"),
    ("rule open - > full", "2 3"),
    ("rule Y open", "2 3"),
    ("rule open: full", "2 3"),
    ("rule " + "open " * 201, "8 3"),
    ("rule " + "!" * 64 + "open", "11 3"),
]

POSTS_OF_EIGHT = "".join(f"post p{k}: s{k}\n" for k in range(8))
SHEETS = [
    ("", "1"),
    ("post a: b\nrule b", "1"),
    ("post a: b\n", "3 2"),
    ("post a: b\nrule b\nrule b\n", "3 3"),
    ("post a: b\nrule b\npost c: d\n", "3 3"),
    ("post a: b\nrule b\n\n", "3 3"),
    ("post a: b\nrule b\nrule B\n", "2 3"),
    ("post a: b\nrule c\n\n", "10 2 1"),
    (POSTS_OF_EIGHT + "post x: y\nrule y\n", "4 9"),
    (POSTS_OF_EIGHT + "post x\n", "3 9"),
]

# text, the same with all brackets, the shortened rule
GROUPED = [
    ("! a U b", "(!a) U b", "(!a) U b"),
    ("!(a U b)", "!(a U b)", "!(a U b)"),
    ("F a & b", "(F a) & b", "(F a) & b"),
    ("a U b U c", "a U (b U c)", "a U (b U c)"),
    ("a U b & c", "(a U b) & c", "(a U b) & c"),
    ("a & b | c", "(a & b) | c", "(a & b) | c"),
    ("a -> b -> c", "a -> (b -> c)", "!a | (!b | c)"),
    ("a | b -> c", "(a | b) -> c", "!(a | b) | c"),
    ("a U b -> c", "(a U b) -> c", "!(a U b) | c"),
    ("a -> b | c & d U !e", "a -> (b | (c & (d U (!e))))", "!a | (b | (c & (d U !e)))"),
    ("a & a & b", "a & (a & b)", "a & b"),
    ("true -> a", "true -> a", "a"),
    ("a -> a", "a -> a", "!a | a"),
    ("!!a", "!(!a)", "!!a"),
    ("G (a & true)", "G (a & true)", "G a"),
]

SHORTENED = [
    ("!true", "false"), ("!false", "true"),
    ("a & true", "a"), ("true & a", "a"), ("a & false", "false"), ("false & a", "false"),
    ("a | false", "a"), ("false | a", "a"), ("a | true", "true"), ("true | a", "true"),
    ("a & a", "a"), ("a | a", "a"), ("a & (a & b)", "a & b"), ("a | (a | b)", "a | b"),
    ("X (a & a)", "X a"),
]

# text and the number of its parts: all of them stay
STAY = [
    ("!!a", 3), ("a & !a", 3), ("a | !a", 3), ("(a & b) & a", 4), ("(b & a) & a", 4),
    ("a & (b & a)", 4), ("a | (a & b)", 4), ("X true", 2), ("F false", 2), ("G true", 2),
    ("a U true", 3), ("a U a", 2),
]

# rule, then readings with the obligation and the verdict behind each
STEPS = [
    ("F p", [("", "F p", "?"), ("p", "true", "T")]),
    ("p U q", [("p", "p U q", "?")]),
    ("p U q", [("", "false", "F")]),
    ("p U q", [("q", "true", "T")]),
    ("p U q", [("pq", "true", "T")]),
    ("X p", [("", "p", "?"), ("p", "true", "T")]),
    ("X p", [("p", "p", "?"), ("p", "true", "T")]),
    ("X p", [("", "p", "?"), ("", "false", "F")]),
    ("G F p", [("", "F p & G F p", "?"), ("", "F p & (F p & G F p)", "?"), ("p", "G F p", "?")]),
    ("p & (p & q)", [("pq", "true", "T")]),
    ("p & (p & q)", [("p", "false", "F")]),
    ("p & (p & q)", [("q", "false", "F")]),
    ("p | !p", [("", "true", "T")]),
    ("p | !p", [("p", "true", "T")]),
    ("G true", [("", "G true", "?"), ("pq", "G true", "?"), ("p", "G true", "?")]),
    ("F (p & !p)", [("", "F (p & !p)", "?"), ("p", "F (p & !p)", "?")]),
    ("G (q -> p)", [("p", "G (!q | p)", "?"), ("q", "false", "F"), ("", "false", "F")]),  # the gate
]


def rule_of(text, signals, formulas):
    return reference.read_rule(reference.split_words(text.encode()), signals, formulas)


def check_pages():
    for line, expected in POST_LINES:
        check("post lines of sheet.md", line, answer(line + "\npost y: z\nrule z\n"), expected)
    for line, expected in RULE_LINES:
        check("rule lines of sheet.md", line, answer("post fill: full\npost gate: open\n" + line + "\n"), expected)
    for sheet, expected in SHEETS:
        check("sheets of sheet.md", sheet, answer(sheet), expected)
    letters = list("abcde")
    formulas = Formulas()
    for text, grouped, shortened in GROUPED:
        rule = rule_of(text, letters, formulas)
        check("grouping table of sheet.md", text, rule_of(grouped, letters, formulas), rule)
        check("grouping table of sheet.md", text, rule_of(shortened, letters, formulas), rule)
    for text, shortened in SHORTENED:
        check("shortening of formulas.md", text, rule_of(text, letters, formulas), rule_of(shortened, letters, formulas))
    for text, parts in STAY:
        check("shortening of formulas.md", text, len(formulas.parts(rule_of(text, letters, formulas))), parts)
    check("parts example of formulas.md", "gate", answer("post fill: full\npost gate: open\nrule G (open -> full)\n"),
          "posts fill,gate signals full:1,open:2 rule p1 !0 p0 1|2 G3")
    check("p & (p & q) has three parts", "p & (p & q)", len(formulas.parts(rule_of("a & (a & b)", letters, formulas))), 3)
    for text, steps in STEPS:
        sheet = reference.read_sheet(f"post one: p\npost two: q\nrule {text}\n".encode())
        monitor = Monitor(sheet)
        for on, obligation, verdict in steps:
            monitor.step(("p" in on) + 2 * ("q" in on))
            check("steps of examples.md", (text, on), monitor.obligation, rule_of(obligation, ["p", "q"], sheet.formulas))
            check("steps of examples.md", (text, on), monitor.verdict(), verdict)


# The monitor's holds and the bench


TICK_LINES = [
    ("1 0", "0 ?"), ("10", "hold 14"), ("", "hold 14"), ("1 0 ", "hold 14"), ("1  0", "hold 14"),
    ("1 ", "hold 15"), (" 1", "hold 15"), ("11 0", "hold 15"), ("1 x", "hold 15"), ("1 2", "hold 15"),
    (" 1 x", "hold 14"), ("x", "hold 14"), ("1 0x1", "hold 15"), ("1 0\r", "hold 15"),
]
GATE = "post fill: full\npost gate: open\nrule G (open -> full)\n"
ONE = "post a: b\nrule F b\n"
LISTINGS = [
    (GATE + "\n1 0\n0 1\n0 0\n", ["tick whole", "0 ?", "1 F", "2 F"]),
    ("post one: a\npost two: b\npost three: c\nrule F (a & b & c)\n\n1 1 1\n0 0 0\n0 0 0\n", ["tick whole", "0 T", "1 T", "2 T"]),
    ("", ["hold 1"]),
    ("\n", ["hold 1"]),
    ("\n" + ONE, ["hold 1"]),
    ("post a: b\n\nrule b\n", ["hold 3 2"]),
    (GATE[:-1] + " full\n", ["hold 9 3 7"]),
    (ONE, ["tick whole"]),
    (ONE[:-1], ["hold 1"]),
    (ONE + "\n", ["tick whole"]),
    (ONE + "1\n", ["hold 3 3"]),
    (ONE + "\n\n", ["tick whole", "hold 15"]),
    (ONE + "\n0\n1", ["tick whole", "0 ?", "1 T"]),
    (ONE + "\n0\n\n1\n", ["tick whole", "0 ?", "hold 15"]),
    ("post a: b\nrule b & false\n\n1\n0\n", ["tick whole", "0 F", "1 F"]),
    ("post a: b c\npost d: e\nrule b & !c & !e\n\n10 0\n", ["tick whole", "0 T"]),
    ("post a: b c\npost d: e\nrule e & !b & !c\n\n00 1\n", ["tick whole", "0 T"]),
]


def number_of(call, *arguments):
    try:
        call(*arguments)
    except Hold as hold:
        return hold.numbers
    return None


def check_monitor_and_bench():
    for line, expected in TICK_LINES:
        rows = list(reference.listing((GATE + "\n" + line + "\n").encode()))
        check("tick lines of bench.md", line, rows, ["tick whole", expected])
    for text, expected in LISTINGS:
        check("listings", text, list(reference.listing(text.encode())), expected)
    monitor = Monitor(reference.read_sheet(ONE.encode()))
    check("holds of a step", "bit beyond", number_of(monitor.step, 2), (15,))
    check("holds of a step", "nothing moved", (monitor.tick, monitor.verdict()), (0, "?"))
    monitor.tick = reference.LAST_TICK
    check("holds of a step", "last tick", number_of(monitor.step, 0), None)
    check("holds of a step", "behind the last tick", number_of(monitor.step, 0), (16,))
    check("holds of a step", "15 before 16", number_of(monitor.step, 2), (15,))
    # GFGF...X...X b: each of the 24 levels gains a part at each step.
    for depth, held_at in ((15, 9), (16, 8)):
        text = "post a: b\nrule " + "GF" * 12 + "X" * depth + "b\n"
        monitor = Monitor(reference.read_sheet(text.encode()))
        sizes = []
        while number_of(monitor.step, 0) is None:
            sizes.append(len(monitor.formulas.parts(monitor.obligation)))
        check("holds of a step", (depth, "18"), (monitor.tick, number_of(monitor.step, 1)), (held_at, (18,)))
        check("holds of a step", (depth, "sizes"), sizes, [25 + depth + 24 * n for n in range(1, held_at + 1)])


def run():
    rng = random.Random(20)
    check_pages()
    check_monitor_and_bench()
    check_grouping(rng)
    check_meaning(rng)
    check_words_at_fault(rng)
    for topic, count in COUNTS.items():
        print(f"{count:7} {topic}")
    for failure in FAILURES[:40]:
        print("FAILED", failure)
    print("failed" if FAILURES else "passed", f"{len(FAILURES)} failures")
    return 1 if FAILURES else 0
