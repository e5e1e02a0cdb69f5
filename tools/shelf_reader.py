#!/usr/bin/env python3
"""An independent reader of shelf files: prints the cause of refusal, or 0.

Written from the description of the format alone, and by another hand than the
Rattle crates: it reads the whole file into lists first, and then looks at them.

    shelf_reader.py FILE...
"""
import re
import sys

ADDRESS = re.compile(rb"http://[a-z0-9.-]+/[\x21\x22\x24-\x7e]*\Z")
SIZES = [14, 16, 10, 8, 8]


def two(data, at):
    return int.from_bytes(data[at:at + 2], "big")


def cause(data):
    """0, or the number of the first cause for which a file is refused."""
    if not 14 <= len(data) <= 60000:
        return 41
    if data[-1] != 0x57 or data[-2] != 1:
        return 42
    numbers = [two(data, len(data) - 14 + 2 * k) for k in range(6)]
    pool_length, counts = numbers[0], numbers[1:]
    if pool_length + sum(n * s for n, s in zip(counts, SIZES)) + 14 != len(data):
        return 43
    at = pool_length
    tables = []
    for n, size in zip(counts, SIZES):
        tables.append([data[at + k * size:at + (k + 1) * size] for k in range(n)])
        at += n * size
    decks, cards, bindings, tasks, assignments = tables

    def reference(row, k, most=65535, least=0):
        start, length = two(row, k), two(row, k + 2)
        return start + length <= pool_length and least <= length <= most

    def span(row, k, table):
        return two(row, k) + row[k + 2] <= len(table)

    def perhaps(row, k):
        return two(row, k) == 65535 or two(row, k) < len(tasks)

    fine = (
        all(reference(r, 0) and r[6] > 0 and span(r, 4, cards) and perhaps(r, 7)
            and perhaps(r, 9) and span(r, 11, bindings) for r in decks)
        and all(reference(r, 0, 32) and r[4] in (0, 1) and reference(r, 5, 1024)
                and perhaps(r, 9) and perhaps(r, 11) and span(r, 13, bindings) for r in cards)
        and all(reference(r, 0, 32, 1) and reference(r, 4, 1024) and two(r, 8) < len(tasks)
                for r in bindings)
        and all(r[0] <= 3 and reference(r, 1, 1024) and r[7] <= 16 and span(r, 5, assignments)
                for r in tasks)
        and all(reference(r, 0, 1024) and reference(r, 4, 1024) for r in assignments))
    if not fine:
        return 44
    seen = set()
    for r in decks:
        address = data[two(r, 0):two(r, 0) + two(r, 2)]
        if len(address) > 128 or not ADDRESS.match(address) or address in seen:
            return 45
        seen.add(address)
    return 0


if __name__ == "__main__":
    for name in sys.argv[1:]:
        with open(name, "rb") as f:
            print(cause(f.read()), name)
