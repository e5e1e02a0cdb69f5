#!/usr/bin/env python3
"""Writes crates/edges/data/edges.txt: files at the edges of every allowance, each with the number
that is expected of it by hand. The independent reader has to agree."""
import os

from shelf_reader import cause
from shelf_writer import File, rich, small, two

HERE = os.path.dirname(os.path.abspath(__file__))
DATA = os.path.join(HERE, "..", "crates", "edges", "data")
CASES = []


def case(number, label, data):
    assert cause(data) == number, (label, number, cause(data))
    CASES.append((number, label, data))


def changed(data, at, new):
    return data[:at] + new + data[at + len(new):]


def one_deck(address=b"http://h/", cards=1, ident=b"", body=b""):
    f = File()
    a, i, b = f.text(address), f.text(ident), f.text(body)
    f.deck(a, (0, cards))
    for _ in range(cards):
        f.card(i, b)
    return f


def main():
    empty = File().bytes()
    case(0, "smallest", empty)
    case(41, "no_bytes", b"")
    case(41, "13_bytes", empty[1:])
    case(41, "60001_bytes", bytes(60001))
    full = File()
    full.pool = bytes(59986)
    case(0, "60000_bytes", full.bytes())
    case(42, "wrong_mark", changed(empty, 13, b"\x58"))
    case(42, "wrong_form", changed(empty, 12, b"\x02"))
    case(42, "wrong_mark_and_sum", changed(empty, 1, b"\x01")[:13] + b"\x00")
    case(41, "too_long_and_wrong_mark", bytes(60002))
    case(43, "one_byte_more", empty[:0] + b"x" + empty)
    case(43, "one_count_more", changed(empty, 3, b"\x01"))
    s = small().bytes()
    case(0, "small", s)
    pool = int.from_bytes(s[-14:-12], "big")
    deck, card, binding, task, assignment = (pool, pool + 14, pool + 30, pool + 40, pool + 48)
    case(43, "sum_and_record", changed(s[:-14] + b"x" + s[-14:], deck + 6, b"\x00"))
    case(44, "no_cards", changed(s, deck + 6, b"\x00"))
    case(44, "cards_one_past", changed(s, deck + 6, b"\x02"))
    case(44, "cards_from_end", changed(s, deck + 4, b"\x00\x01\x01"))
    case(44, "deck_task_at_end", changed(s, deck + 7, b"\x00\x01"))
    case(0, "deck_task", changed(s, deck + 7, b"\x00\x00"))
    case(44, "deck_task_65534", changed(s, deck + 9, b"\xff\xfe"))
    case(0, "no_bindings_from_end", changed(s, deck + 11, b"\x00\x01\x00"))
    case(44, "no_bindings_past_end", changed(s, deck + 11, b"\x00\x02\x00"))
    case(0, "empty_ref_at_end", changed(s, card, two(pool) + b"\x00\x00"))
    case(44, "empty_ref_past_end", changed(s, card, two(pool + 1) + b"\x00\x00"))
    case(0, "ref_to_end", changed(s, card + 5, two(pool - 3) + b"\x00\x03"))
    case(44, "ref_one_past", changed(s, card + 5, two(pool - 3) + b"\x00\x04"))
    case(44, "mark_2", changed(s, card + 4, b"\x02"))
    case(44, "card_task_at_end", changed(s, card + 9, b"\x00\x01"))
    case(44, "bindings_one_past", changed(s, card + 13, b"\x00\x00\x02"))
    case(44, "empty_name", changed(s, binding + 2, b"\x00\x00"))
    case(44, "binding_task_at_end", changed(s, binding + 8, b"\x00\x01"))
    case(44, "binding_without_task", changed(s, binding + 8, b"\xff\xff"))
    case(0, "kind_3", changed(s, task, b"\x03"))
    case(44, "kind_4", changed(s, task, b"\x04"))
    case(44, "assignments_one_past", changed(s, task + 5, b"\x00\x00\x02"))
    case(44, "assignment_past_pool", changed(s, assignment + 4, two(pool) + b"\x00\x01"))
    case(45, "upper_case_host", changed(s, 7, b"H"))
    case(45, "number_sign", changed(s, 17, b"#"))
    case(45, "space_in_path", changed(s, 17, b" "))
    case(44, "record_and_address", changed(changed(s, 17, b" "), task, b"\x04"))
    case(45, "empty_address", one_deck(b"").bytes())
    case(45, "no_path", one_deck(b"http://h").bytes())
    case(0, "address_128", one_deck(b"http://h/" + b"a" * 119).bytes())
    case(45, "address_129", one_deck(b"http://h/" + b"a" * 120).bytes())
    case(45, "address_1025", one_deck(b"http://h/" + b"a" * 1016).bytes())
    case(0, "255_cards", one_deck(cards=255).bytes())
    case(0, "id_32", one_deck(ident=b"i" * 32).bytes())
    case(44, "id_33", one_deck(ident=b"i" * 33).bytes())
    case(0, "body_1024", one_deck(body=b"b" * 1024).bytes())
    case(44, "body_1025", one_deck(body=b"b" * 1025).bytes())
    for n, number in ((32, 0), (33, 44)):
        f = one_deck()
        f.task(0, (0, 0))
        f.binding(f.text(b"n" * n), (0, 0), 0)
        case(number, f"binding_name_{n}", f.bytes())
    for n, number in ((1024, 0), (1025, 44)):
        f = one_deck()
        t = f.text(b"t" * n)
        f.task(0, (0, 0))
        f.binding((0, 1), t, 0)
        case(number, f"label_{n}", f.bytes())
        f = one_deck()
        f.task(1, f.text(b"t" * n))
        case(number, f"task_address_{n}", f.bytes())
        f = one_deck()
        f.assignment(f.text(b"t" * n), (0, 0))
        case(number, f"assignment_name_{n}", f.bytes())
        f = one_deck()
        f.assignment((0, 0), f.text(b"t" * n))
        case(number, f"assignment_value_{n}", f.bytes())
    for n, number in ((16, 0), (17, 44)):
        f = one_deck()
        for _ in range(17):
            f.assignment((0, 0), (0, 0))
        f.task(3, (0, 0), (0, n))
        case(number, f"assignments_{n}", f.bytes())
    f = one_deck()
    f.deck((0, 9), (0, 1))
    case(45, "address_twice", f.bytes())
    f = one_deck(b"http://h/ab")
    f.deck((0, 10), (0, 1))
    f.deck((0, 9), (0, 1))
    case(0, "overlapping_texts", f.bytes())
    case(0, "two_decks", rich().bytes())
    os.makedirs(DATA, exist_ok=True)
    with open(os.path.join(DATA, "edges.txt"), "w") as out:
        for number, label, data in CASES:
            words = [data.hex()] if len(data) < 20000 else pressed(data)
            out.write(" ".join([str(number), label] + words) + "\n")
    with open(os.path.join(DATA, "decks.hex"), "w") as out:
        f = rich()
        address, ident = f.text(b"http://h.example/twice"), f.text(b"x")
        bodies = [f.text(t) for t in (b"first x", b"second x", b"no id")]
        f.deck(address, (len(f.tables[1]), 3))
        f.card((0, 0), bodies[2])
        f.card(ident, bodies[0])
        f.card(ident, bodies[1])
        data = f.bytes()
        assert cause(data) == 0
        out.write("\n".join(data[k:k + 32].hex() for k in range(0, len(data), 32)) + "\n")
    print(len(CASES), "cases")


def pressed(data):
    """A long file: its leading zeros as one word."""
    n = len(data) - len(data.lstrip(b"\0"))
    n = n if n < len(data) else len(data)
    rest = data[n:]
    return [f"00*{n}"] + ([rest.hex()] if rest else [])


main()
