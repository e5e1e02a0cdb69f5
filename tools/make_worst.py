#!/usr/bin/env python3
"""Writes the two kinds of 60,000-byte files whose acceptance costs most, into a folder: as many
decks as there is room for, and addresses of equal length that differ late."""
import os
import sys

from shelf_reader import cause
from shelf_writer import File


def many():
    """More than 4,000 decks: every length of address from overlapping starts."""
    f = File()
    starts = 37
    f.pool = b"".join(b"http://%c/" % (97 + k % 26) + (b"%c" % (33 + k) if k > 1 else b"x")
                      for k in range(starts)).replace(b"#", b"~") + b"z" * 128
    f.card((0, 0), (0, 0))
    room = (60000 - 14 - 16 - len(f.pool)) // 14
    seen = set()
    for length in range(128, 8, -1):
        for k in range(starts):
            at = 10 * k
            text = f.pool[at:at + length]
            if len(seen) < room and text not in seen:
                seen.add(text)
                f.deck((at, length), (0, 1))
    f.pool += b"z" * (60000 - len(f.bytes()))
    return f.bytes()


def late():
    """Some 2,400 decks with addresses of 128 bytes: equal up to a mark on their way."""
    f = File()
    n = 2400
    text = bytearray(b"http://a/x" * (n + 14))
    for k in range(0, n + 14, 12):
        for j, part in enumerate((k // 12 % 80, k // 12 // 80)):
            if 10 * (k + j) + 9 < len(text):
                text[10 * (k + j) + 9] = 40 + part
    f.pool = bytes(text)
    f.card((0, 0), (0, 0))
    for k in range(n):
        f.deck((10 * k, 128), (0, 1))
    f.pool += b"z" * (60000 - len(f.bytes()))
    return f.bytes()


if __name__ == "__main__":
    for name, data in (("many", many()), ("late", late())):
        decks = int.from_bytes(data[-12:-10], "big")
        print(name, len(data), "bytes,", decks, "decks, cause", cause(data))
        with open(os.path.join(sys.argv[1], name + ".shelf"), "wb") as out:
            out.write(data)
