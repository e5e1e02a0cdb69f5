#!/usr/bin/env python3
"""Writes crates/damaged/data: a sound file, and a thousand ways to damage it, each with the
number that the independent reader gives. The choice of damages is fixed by a seed."""
import os
import random

from shelf_reader import cause
from shelf_writer import rich

HERE = os.path.dirname(os.path.abspath(__file__))
DATA = os.path.join(HERE, "..", "crates", "damaged", "data")


def damaged(base, keep, edits):
    data = bytearray(base[:keep])
    for at, value in edits:
        data[at] = value
    return bytes(data)


def main():
    rng = random.Random(20)
    base = rich().bytes()
    assert cause(base) == 0, cause(base)
    pool = int.from_bytes(base[-14:-12], "big")
    lines, seen, tally = [], set(), {}
    while len(lines) < 1000:
        keep, edits = len(base), []
        way = rng.random()
        if way < 0.03:
            keep = rng.randrange(len(base))
        elif way < 0.08:
            edits = [(rng.randrange(len(base) - 14, len(base)), rng.randrange(256))]
        elif way < 0.22:
            edits = [(rng.randrange(pool), rng.choice([0x23, 0x20, 0x41, 0x2F, 0xFF, 0x7E]))]
        else:
            places = rng.sample(range(pool, len(base) - 14), rng.choice([1, 1, 1, 2]))
            edits = [(p, rng.choice([0, 1, 2, 3, 4, 5, 8, 17, 33, 65, rng.randrange(256), 255]))
                     for p in places]
        key = (keep, tuple(edits))
        if key in seen:
            continue
        seen.add(key)
        number = cause(damaged(base, keep, edits))
        tally[number] = tally.get(number, 0) + 1
        lines.append(" ".join(map(str, [number, keep] + [x for e in edits for x in e])))
    os.makedirs(DATA, exist_ok=True)
    with open(os.path.join(DATA, "base.hex"), "w") as f:
        f.write("\n".join(base[k:k + 32].hex() for k in range(0, len(base), 32)) + "\n")
    with open(os.path.join(DATA, "damages.txt"), "w") as f:
        f.write("\n".join(lines) + "\n")
    print(len(base), "bytes;", tally)


main()
