#!/usr/bin/env python3
"""Respells the names of this repository's definitions and lemmas to snake case, by the table respell.tsv beside it.

usage: python3 tools/respell.py [FOLDER]      FOLDER: the top of a checkout, else the one that holds this script

It turns whole names: in .antt and .rt files everywhere, in README.md and docs/ between backquotes, but for the page
docs/PORT.md, which has the old names beside the new. Names that begin with a capital,
names of functions, strings, inputs and outputs are in no row of the table. A second run changes nothing.
"""
import pathlib
import re
import sys

HERE = pathlib.Path(__file__).resolve().parent
NAME = re.compile(r'[^\s(){}\[\];:,.@"«»`]+')
SPAN = re.compile(r"`[^`\n]*`")


def table():
    rows = (HERE / "respell.tsv").read_text(encoding="utf-8").splitlines()
    return dict(row.split("\t") for row in rows)


def respelled(text, names):
    return NAME.sub(lambda found: names.get(found[0], found[0]), text)


def turn(path, names):
    old = path.read_text(encoding="utf-8")
    if path.suffix == ".md":
        new = SPAN.sub(lambda span: respelled(span[0], names), old)
    else:
        new = respelled(old, names)
    if new != old:
        path.write_text(new, encoding="utf-8")


def main():
    top = pathlib.Path(sys.argv[1]) if len(sys.argv) > 1 else HERE.parent
    names = table()
    for suffix in (".antt", ".rt"):
        for path in sorted((top / "crates").rglob("*" + suffix)):
            if "out" not in path.relative_to(top).parts:
                turn(path, names)
    for path in [top / "README.md", *sorted((top / "docs").glob("*.md"))]:
        if path.name != "PORT.md":
            turn(path, names)


main()
