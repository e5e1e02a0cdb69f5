"""Shelf files from Python values, for the makers of test data. Nothing is checked here."""


def two(n):
    return n.to_bytes(2, "big")


class File:
    """A pool and five tables under construction; records may break every rule."""

    def __init__(self):
        self.pool = b""
        self.tables = [[], [], [], [], []]

    def text(self, data):
        """A ref to the bytes, which are added to the pool."""
        start = len(self.pool)
        self.pool += data
        return (start, len(data))

    @staticmethod
    def ref(r):
        return two(r[0]) + two(r[1])

    @staticmethod
    def run(r):
        return two(r[0]) + bytes([r[1]])

    def deck(self, address, cards, forward=65535, backward=65535, bindings=(0, 0)):
        self.tables[0].append(self.ref(address) + self.run(cards) + two(forward) + two(backward)
                              + self.run(bindings))

    def card(self, ident, body, mark=0, forward=65535, backward=65535, bindings=(0, 0)):
        self.tables[1].append(self.ref(ident) + bytes([mark]) + self.ref(body) + two(forward)
                              + two(backward) + self.run(bindings))

    def binding(self, name, label, task):
        self.tables[2].append(self.ref(name) + self.ref(label) + two(task))

    def task(self, kind, address, assignments=(0, 0)):
        self.tables[3].append(bytes([kind]) + self.ref(address) + self.run(assignments))

    def assignment(self, name, value):
        self.tables[4].append(self.ref(name) + self.ref(value))

    def bytes(self, form=1, mark=0x57, more=b""):
        out = self.pool + b"".join(b"".join(t) for t in self.tables) + more
        out += two(len(self.pool)) + b"".join(two(len(t)) for t in self.tables)
        return out + bytes([form, mark])


def small():
    """One deck of one card with one binding: the worked example."""
    f = File()
    address = f.text(b"http://h.example/d")
    ident, body = f.text(b"a"), f.text(b"Room $(room)")
    name, label, target = f.text(b"ok"), f.text(b"Next"), f.text(b"#b")
    to, value = f.text(b"t"), f.text(b"1")
    f.deck(address, (0, 1))
    f.card(ident, body, 1, bindings=(0, 1))
    f.binding(name, label, 0)
    f.task(1, target, (0, 1))
    f.assignment(to, value)
    return f


def rich():
    """Two decks with templates, enter tasks, bindings of equal names and shared texts."""
    f = File()
    one, two_ = f.text(b"http://h.example/round/a"), f.text(b"http://h.example/round/b?k=1")
    ids = [f.text(t) for t in (b"start", b"cold", b"end")]
    body, other = f.text(b"Room $(room) is at $(t) C"), f.text(b"Done$$")
    names = [f.text(t) for t in (b"ok", b"back", b"help")]
    labels = [f.text(t) for t in (b"Next", b"Back", b"Help")]
    target, name, value = f.text(b"/round/b?r=$(room)#end"), f.text(b"room"), f.text(b"$(n)")
    empty = (len(f.pool), 0)
    f.deck(one, (0, 2), 1, 65535, (0, 2))
    f.deck(two_, (2, 1), 65535, 2, (2, 1))
    f.card(ids[0], body, 1, 0, 65535, (3, 2))
    f.card(ids[1], body, 0, 65535, 3, (4, 1))
    f.card(ids[2], other, 0, 65535, 65535, (0, 0))
    f.binding(names[0], labels[0], 0)
    f.binding(names[1], labels[1], 2)
    f.binding(names[2], labels[2], 1)
    f.binding(names[0], labels[2], 3)
    f.binding(names[0], labels[0], 0)
    f.task(1, target, (0, 2))
    f.task(3, empty, (1, 2))
    f.task(2, empty)
    f.task(0, empty)
    for n, v in ((name, value), (name, name), (value, empty)):
        f.assignment(n, v)
    return f
