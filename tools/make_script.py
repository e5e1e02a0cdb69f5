#!/usr/bin/env python3
"""Writes crates/NAME/stdin from crates/NAME/script.txt:  tools/make_script.py NAME

A script is written once and unrolled here. `@hex FILE` stands for the hexadecimal of the decks in
crates/NAME/FILE, as `deckfile try` prints it, and `x*1025` in braces for so many bytes x. The lines
from `@each` to `@end` are written four times, over each kind of store and each kind of shelf: {h} and {g}
are two handhelds of the kind and {k} one of the other, {room} and {tight} a large and a small size for it, {s}
the shelf's letter.
The lines from `@times N` to `@over` are written N times.
Needs crates/deckfile/out/deckfile (`rt run -- try data/sample.txt` in crates/deckfile makes it).
"""
import re
import subprocess
import sys
from pathlib import Path

ROOT = Path(__file__).resolve().parent.parent
STORES = [dict(h="A", g="B", k="C", room="1024", tight="74", store="packed"),
          dict(h="C", g="D", k="A", room="16", tight="1", store="slots")]
SHELVES = [dict(s="F", shelf="file"), dict(s="R", shelf="records")]


def hexadecimal(folder, name):
    tool = ROOT / "crates/deckfile/out/deckfile"
    out = subprocess.run([tool, "try", folder / name], capture_output=True, text=True, check=True).stdout
    rows = [line for line in out.split("\n") if re.fullmatch(r"([0-9a-f]{2} )+", line)]
    return "".join(rows).replace(" ", "")


def filled(line, words):
    for key, value in words.items():
        line = line.replace("{" + key + "}", value)
    return line


def repeated(lines):
    out, block, times = [], None, 0
    for line in lines:
        if line.startswith("@times "):
            block, times = [], int(line.split()[1])
        elif line == "@over":
            out += block * times
            block = None
        elif block is None:
            out.append(line)
        else:
            block.append(line)
    return out


def unrolled(lines):
    out, block = [], None
    for line in lines:
        if line == "@each":
            block = []
        elif line == "@end":
            for shelf in SHELVES:
                for store in STORES:
                    out += [filled(b, {**store, **shelf}) for b in block]
            block = None
        elif block is None:
            out.append(line)
        else:
            block.append(line)
    return out


def main():
    folder = ROOT / "crates" / sys.argv[1]
    lines = unrolled(repeated((folder / "script.txt").read_text().split("\n")))
    text = "\n".join(lines)
    text = re.sub(r"\{(.)\*(\d+)\}", lambda m: m[1] * int(m[2]), text)
    text = re.sub(r"@hex (\S+)", lambda m: hexadecimal(folder, m[1]), text)
    (folder / "stdin").write_text(text)


main()
