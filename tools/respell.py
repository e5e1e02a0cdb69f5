#!/usr/bin/env python3
"""Brings the repository's own definitions and lemmas to the newer Rattle's spelling, once, after its porting script.

usage: python3 tools/respell.py          at the top of the repository: rewrites crates/ and prints each name, old and new
       python3 tools/respell.py --list   prints the names alone

Functions and fields of definitions and lemmas are in snake case; a fact (a definition that answers a type) is in upper
camel case; a dash stands between two names only, and a plain word is added with an underscore; a prime is an apostrophe.
Functions of src/, strings, inputs and outputs keep their names, and so do the goals that Rattle names.
"""

import os
import re
import sys

WORD = r"[\w'′\-+◌∷]"
DECLARED = re.compile(r"^(?:(?:pattern|unfoldable|abbrev|pub) )*((?:[A-Za-z][\w'′\-+∷]* )+)(?:\{[^}]*\} )?: (.*)$")
RECORD = re.compile(r"^(?:pub )?(?:record|data) ([A-Za-z][\w'′\-]*)")
FIELD = re.compile(r"^  (?:pub )?((?:[A-Za-z][\w'′\-]* )+): ")
# names that stand in a where, and names that would fall together: a lemma that would have its function's name ends in _lem
TAKEN = {"justStarted": "just_started", "goingTo": "going_to", "digits-right": "digits_right_lem", "length_back": "length_back_lem", "step_back": "step_back_lem"}
# names of the library that a dash may stand before
LIBRARY = set("append set sets drop take cond map true false zero suc one length reverse eqb ltb leb none some and or not".split())
KEPT = ("loop-", "returns", "bounds-", "overflow-", "offset-", "slice_bounds-", "slice-bounds-", "invariant-", "decreases-", "index-", "unreachable-")


def sources(*ends):
    for folder, dirs, files in os.walk("crates"):
        dirs[:] = sorted(d for d in dirs if d != "out")
        for f in sorted(files):
            if f.endswith(ends):
                yield os.path.join(folder, f)


def read(path):
    with open(path, encoding="utf-8") as f:
        return f.read()


def declared():
    """The names that stand in specs/ and in lemma files, with what is known of each: 'fact', 'field' or 'word'."""
    found = {}
    for path in sources(".antt"):
        in_record = False
        for line in read(path).split("\n"):
            if RECORD.match(line):
                found.setdefault(RECORD.match(line).group(1), "fact")
                in_record = True
                continue
            if line and not line.startswith(" "):
                in_record = False
            if in_record and FIELD.match(line):
                for name in FIELD.match(line).group(1).split():
                    found.setdefault(name, "field")
            m = DECLARED.match(line)
            if m and not m.group(2).startswith(("goal.", "given.")):
                for name in m.group(1).split():
                    found.setdefault(name, "fact" if name[0].isupper() else "word")
    return found


def snake(part):
    part = re.sub(r"(?<=[a-z0-9])([A-Z])", r"_\1", part)
    return part.lower()


def upper_camel(name):
    return "".join(p[:1].upper() + p[1:] for p in re.split(r"[-_]", name) if p)


def dashed(name, words):
    """A lemma's name: a dash before a name, an underscore before a plain word."""
    parts = [p if p and p[0].isupper() else snake(p) for p in name.split("-")]
    out = parts[0]
    for p in parts[1:]:
        out += ("-" if not p or not p[0].islower() or p in words or p in LIBRARY else "_") + p
    return out


def spelled(found):
    words = {snake(n) for n in found if "-" not in n and not n[0].isupper()}
    new = dict(TAKEN)
    for name, kind in sorted(found.items()):
        if name.startswith(KEPT) or name.endswith("-requires"):
            continue
        if name in TAKEN:
            continue
        n = name.replace("′", "'")
        if kind == "fact":
            n = upper_camel(n) if re.search(r"[-_]", n) else n
        elif kind == "field":
            n = snake(n).replace("-", "_")
        else:
            n = dashed(n, words) if "-" in n else snake(n)
        if n != name:
            new[name] = n
    return new


def main():
    found = declared()
    new = spelled(found)
    ends = {}
    for old, n in new.items():
        ends.setdefault(n, []).append(old)
    for n, olds in sorted(ends.items()):
        if len(olds) > 1 or n in found:
            print(f"fall together: {olds} as {n}{' (a name already)' if n in found else ''}")
    for old, n in sorted(new.items()):
        print(f"{old} -> {n}")
    if "--list" in sys.argv:
        return
    one = re.compile(f"(?<!{WORD})(" + "|".join(re.escape(o) for o in sorted(new, key=len, reverse=True)) + f")(?!{WORD})")
    for path in sources(".antt", ".rt", ".edit"):
        text = read(path)
        turned = one.sub(lambda m: new[m.group(1)], text)
        if turned != text:
            with open(path, "w", encoding="utf-8") as f:
                f.write(turned)


main()
