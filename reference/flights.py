#!/usr/bin/env python3
"""Writes the input of the program `flights` and what it must print, from flights/*.txt.

The inputs stand one behind the other, each ended by "=" and a line end; the
listings are the reference's.
"""

import pathlib
import sys

import reference


def main():
    sys.setrecursionlimit(20_000)
    folder = pathlib.Path(__file__).resolve().parent.parent
    given, wanted = b"", b""
    for path in sorted((folder / "flights").glob("*.txt")):
        data = path.read_bytes()
        assert b"=" not in data
        given += data + b"=\n"
        wanted += b"=\n" + "".join(f"{line}\n" for line in reference.listing(data)).encode("ascii")
    crate = folder / "crates" / "flights"
    (crate / "stdin").write_bytes(given)
    (crate / "stdout").write_bytes(wanted)
    return 0


if __name__ == "__main__":
    sys.exit(main())
