#!/usr/bin/env python3
"""Counts what stands again and again in the signatures of crates/*/src.

usage: python3 tools/count_shared.py [-l]

- clauses: a `requires` or `ensures`, the parameters' names put out of sight, that stands in three or more functions of one crate or more
- travellers: two parameters (name and type) that stand together in three or more functions

With -l each is printed with the functions it stands in.
"""
import collections
import glob
import os
import re
import sys

os.chdir(os.path.join(os.path.dirname(os.path.abspath(__file__)), ".."))
FN = re.compile(r"^ *(?:pub(?:\([a-z]+\))? )?(?:const )?fn (\w+)(?:<[^(]*>)?\((.*?)\)(?: -> [^\n{]*)?((?:\n *(?:requires|ensures)[^\n]*)*)", re.S | re.M)
CLAUSE = re.compile(r"(requires|ensures)(?: \w+)? \{ (.*) \}$", re.M)
clauses, pairs = collections.defaultdict(set), collections.defaultdict(set)
for path in sorted(glob.glob("crates/*/src/**/*.rt", recursive=True)):
    text = open(path).read()
    for name, inside, after in FN.findall(text):
        where = path.split("/")[1] + "::" + name
        params = [" ".join(p.split()) for p in re.split(r",(?![^<(]*[>)])", inside) if p.strip()]
        params = [re.sub(r"'\w+ ", "", p).removeprefix("mut ") for p in params]
        for i, first in enumerate(params):
            for second in params[i + 1 :]:
                pairs[tuple(sorted((first, second)))].add(where)
        names = [p.split(":")[0] for p in params if ":" in p]
        for kind, clause in CLAUSE.findall(after):
            for n in names:
                clause = re.sub(rf"\b{n}\b", "_", clause)
            clauses[(kind, clause)].add(where)
for what, table in (("clauses", clauses), ("travellers", pairs)):
    shared = sorted(((k, v) for k, v in table.items() if len(v) >= 3), key=lambda kv: -len(kv[1]))
    print(f"{what} in three functions or more: {len(shared)}")
    if "-l" in sys.argv:
        for key, where in shared:
            print(f"    {len(where)}  {' '.join(key) if what == 'clauses' else ', '.join(key)}: {', '.join(sorted(where))}")
