#!/usr/bin/env python3
"""Spells this repository's own definitions, fields and lemmas as Rattle's library spells its own.

usage: python3 tools/respell.py [FOLDER]    once, after port.py, at the top of the repository (or of FOLDER)

respell.tsv beside this file has a row for each name: the old spelling, a tab, the new one. Whole words turn, in the
.antt and .rt files below crates/. The crate `log`, whose name the library has taken, becomes `append_log`.
"""

import os
import re
import sys

WORD = re.compile(r'[^\s(){}.;,@"«»`]+')
CRATE = [
    (re.compile(r"\bRattle\.log\."), "Rattle.append_log."),
    (re.compile(r"(?<![\w.:])log::"), "append_log::"),
]


def table():
    with open(os.path.join(os.path.dirname(os.path.abspath(__file__)), "respell.tsv"), encoding="utf-8") as f:
        return dict(line.rstrip("\n").split("\t") for line in f)


def turned(text, names):
    text = WORD.sub(lambda m: names.get(m[0], m[0]), text)
    for old, new in CRATE:
        text = old.sub(new, text)
    return text


def main():
    top = sys.argv[1] if len(sys.argv) > 1 else "."
    names = table()
    for folder, _, files in os.walk(os.path.join(top, "crates")):
        for name in sorted(files):
            if not name.endswith((".antt", ".rt")):
                continue
            path = os.path.join(folder, name)
            with open(path, encoding="utf-8") as f:
                old = f.read()
            new = turned(old, names)
            if new != old:
                with open(path, "w", encoding="utf-8") as f:
                    f.write(new)
    was, now = (os.path.join(top, "crates", n) for n in ("log", "append_log"))
    if os.path.isdir(was) and not os.path.exists(now):
        os.rename(was, now)
    listed = os.path.join(top, "crates.txt")
    with open(listed, encoding="utf-8") as f:
        text = f.read()
    lines = [line if line.startswith("#") else re.sub(r"\blog\b", "append_log", line) for line in text.split("\n")]
    with open(listed, "w", encoding="utf-8") as f:
        f.write("\n".join(lines))


if __name__ == "__main__":
    main()
