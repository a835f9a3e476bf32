#!/usr/bin/env python3
"""Brings the repository's own definitions and lemmas to the library's spelling, once.

A name in lower case loses its dashes for underscores (first-fit: first_fit), a name that begins with a capital
loses them for capitals (None-fits: NoneFits). Names count as the repository's own where an .antt file below
crates/ declares them; the names of goals, of the facts that a proof file is given and of the library stay.
usage: python3 tools/respell.py   at the top of the repository, right after the kit's port.py
"""
import collections
import os
import re

TOKEN = re.compile(r"[^\s(){}\[\],;.«»\"`]+")
DECLARED = re.compile(
    r"\s*(?:abbrev\s+|unfoldable\s+)*(?:pub\s+)?(?:data\s+|record\s+|ruleset\s+)?"
    r"((?:[^\s(){}\[\],;.]+\s+)*[^\s(){}\[\],;.]+)\s*(?:\([^=]*\)\s*)?:(?=\s|$)"
)
# Other names that a file gives to a word that it imports, and names of hypotheses.
ALIASES = {
    "signalOf": "signal_of", "leafOf": "leaf_of", "levelOf": "level_of", "unknownOf": "unknown_of",
    "stands-in": "stands_in", "is-a-group": "is_a_group", "letter-of": "letter_of", "listing-of": "listing_of",
    "held-line": "held_line", "Open-in": "OpenIn", "Rule-fault": "OfRule",
    "unit-is": "unit_is", "at-sheet": "at_sheet", "at-ticks": "at_ticks",
}


def files(kinds):
    for folder, folders, names in os.walk("crates"):
        folders[:] = sorted(f for f in folders if f != "out")
        for name in sorted(names):
            if name.endswith(kinds):
                yield os.path.join(folder, name)


def respelled(name):
    words = name.split("-")
    if name[0].isupper():
        return words[0] + "".join(w[:1].upper() + w[1:] for w in words[1:])
    return "_".join(words)


def declared():
    found = set()
    for path in files(".antt"):
        for line in open(path, encoding="utf-8"):
            if line.lstrip().startswith(("--", "use ")) or re.search(r"(goal|need)\.", line):
                continue
            m = DECLARED.match(line)
            for name in m.group(1).split() if m else []:
                if "-" in name and re.match(r"\w", name):
                    found.add(name)
    return found


def turned(text, names):
    """A name behind c, l, goal or need is one that Rattle makes, and stays."""
    def one(m):
        made = re.search(r"(?<![\w)'])(c|l|goal|need)\.$", text[: m.start()])
        return m.group() if made else names.get(m.group(), m.group())

    return TOKEN.sub(one, text)


def quoted(text, names):
    """Of a comment only what stands between backticks."""
    return re.sub(r"`[^`]*`", lambda m: turned(m.group(), names), text)


def line_of(line, names, rust):
    mark = "//" if rust else "--"
    at = re.search(r"(?<!\S)" + mark, line)
    code, comment = (line[: at.start()], line[at.start():]) if at else (line, "")
    pieces = re.split(r'("(?:[^"\\]|\\.)*")', code) if rust else [code]
    code = "".join(p if p.startswith('"') else turned(p, names) for p in pieces)
    return code + quoted(comment, names)


def main():
    names = {n: respelled(n) for n in declared()} | ALIASES
    together = [k for k, n in collections.Counter(names.values()).items() if n > 1]
    if together:
        raise SystemExit("respell: names fall together: " + ", ".join(together))
    changed = 0
    for path in files((".antt", ".rt")):
        text = open(path, encoding="utf-8").read()
        new = "".join(line_of(l, names, path.endswith(".rt")) for l in text.splitlines(True))
        if new != text:
            open(path, "w", encoding="utf-8").write(new)
            changed += 1
    print(f"respell: {len(names)} names in {changed} files")


main()
