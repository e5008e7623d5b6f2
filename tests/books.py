"""Plans and books by an independent calculation: dealing both books of a plan, reading a book, and refusing either; with
the console's lines about them and their answers. The rules of keys and gates are those of reference.py."""
from keys import Random, text
from reference import EXPANDERS, QUAD, Flag, Flags, Piece, Product, Shift, Signed, Words

GATES = ("sum", "scale", "product", "piece", "flag", "shift", "signed", "xor")
KIND = {name: number for number, name in enumerate(GATES, 1)}
TWO = ("sum", "product", "xor")
FLAGS = ("flag", "xor")
WORDS = {"product": 4, "piece": 14, "flag": 8, "shift": 10, "signed": 10}
LONGEST = 54880
QUESTIONS = {
    1: "is the width 1 to 32?",
    2: "are there 1 to 16 inputs and 1 to 32 gates?",
    3: "are the box and every owner 0 or 1?",
    4: "does every gate read lower wires of the right kind?",
    5: "is every number in range, p at most q, and every shift allowed?",
    6: "are there enough random words?",
    7: "does the book fit the buffer?",
    11: "has the book 16 bytes or more, and the length that it states?",
    12: "is the edition 1, the box 0 or 1, and each reserved byte 0?",
    13: "is the book for this box's kind of expander?",
    14: "are the width and the counts allowed?",
    15: "are the contents whole, and the bodies without gaps to the end?",
    16: "has every body its layout, and allowed fields?",
}


class Refused(Exception):
    def __init__(self, number):
        self.number = number


def ask(yes, number):
    if not yes:
        raise Refused(number)


def four(number):
    return number.to_bytes(4, "little")


class Plan:
    """A width, the owners of the inputs, and a row for each gate: (shown, name, the wires that it reads, its numbers)."""

    def __init__(self, width, owners, rows=()):
        self.width, self.owners, self.rows = width, list(owners), list(rows)

    def gate(self, shown, name, *rest):
        """One gate more, and its wire."""
        reads = 2 if name in TWO else 1
        self.rows.append((shown, name, rest[:reads], rest[reads:]))
        return len(self.owners) + len(self.rows) - 1

    def is_flag(self, wire):
        return wire >= len(self.owners) and self.rows[wire - len(self.owners)][1] in FLAGS

    def needed(self):
        return len(self.owners) + sum(WORDS.get(name, 0) for _, name, _, _ in self.rows)

    def reads_fit(self, k, name, reads):
        return all(w < k and self.is_flag(w) == (name == "xor") for w in reads)

    def fields_fit(self, name, numbers):
        n = self.width
        if name == "scale":
            return all(number < 2**n for number in numbers)
        if name in ("piece", "flag"):
            p, q, last = numbers
            return p <= q < 2**n and (name == "flag" or all(c < 2**n for c in last))
        return 1 <= numbers[0] < n if name in ("shift", "signed") else True

    def check(self, box, words):
        """The questions 1 to 6, each over the whole plan before the next."""
        ask(1 <= self.width <= 32, 1)
        ask(1 <= len(self.owners) <= 16 and 1 <= len(self.rows) <= 32, 2)
        ask(box in (0, 1) and all(owner in (0, 1) for owner in self.owners), 3)
        ask(all(self.reads_fit(len(self.owners) + i, r[1], r[2]) for i, r in enumerate(self.rows)), 4)
        ask(all(self.fields_fit(r[1], r[3]) for r in self.rows), 5)
        ask(len(words) >= self.needed(), 6)

    def dealt(self, x, words):
        """The mask of every wire, and what reference.py deals of every keyed gate."""
        n, masks, gates = self.width, [], []
        left = iter(words)
        for _ in self.owners:
            masks.append(next(left) % 2**n)
        for _, name, reads, numbers in self.rows:
            r = [masks[w] for w in reads]
            own, gate = [next(left) for _ in range(WORDS.get(name, 0))], None
            if name == "sum":
                mask = sum(r) % 2**n
            elif name == "scale":
                mask = numbers[0] * r[0] % 2**n
            elif name == "xor":
                mask = r[0] ^ r[1]
            else:
                if name == "product":
                    gate = Product(n, *r, own)
                else:
                    gate = {"piece": Piece, "flag": Flag, "shift": Shift, "signed": Signed}[name](x, n, *r, *numbers, own)
                mask = gate.out
            masks.append(mask)
            gates.append(gate)
        return masks, gates

    def plain(self, readings):
        """The plain value of every wire."""
        n, values = self.width, list(readings)
        for _, name, reads, numbers in self.rows:
            v = [values[w] for w in reads]
            if name in ("sum", "product"):
                value = (v[0] + v[1] if name == "sum" else v[0] * v[1]) % 2**n
            elif name == "scale":
                value = (numbers[0] * v[0] + numbers[1]) % 2**n
            elif name == "xor":
                value = v[0] ^ v[1]
            elif name == "piece":
                value = sum(c * v[0]**k for k, c in enumerate(numbers[2])) % 2**n if numbers[0] <= v[0] <= numbers[1] else 0
            elif name == "flag":
                value = numbers[2] if numbers[0] <= v[0] <= numbers[1] else 0
            else:
                whole = v[0] - 2**n if name == "signed" and v[0] >= 2**(n - 1) else v[0]
                value = (whole >> numbers[0]) % 2**n
            values.append(value)
        return values

    def book(self, x, box, deal, words, room=LONGEST):
        """One box's book."""
        self.check(box, words)
        masks, gates = self.dealt(x, words)
        bodies = [bytes([o]) + (four(m) if o == box else b"") for o, m in zip(self.owners, masks)]
        for (shown, name, reads, numbers), gate, mask in zip(self.rows, gates, masks[len(self.owners):]):
            body = bytes([KIND[name], reads[0], reads[1] if name in TWO else 0, shown]) + (four(mask) if shown else b"")
            if name in ("shift", "signed"):
                body += bytes(numbers)
            else:
                body += b"".join(four(number) for number in numbers[:2])
            bodies.append(body + key_bytes(name, gate, box))
        book = laid_out(box, x.kind, self.width, deal, len(self.owners), bodies)
        ask(len(book) <= room, 7)
        assert len(book) <= LONGEST
        return book


def compared_bytes(key, box):
    g = key.g
    rows = b"".join(word + bytes([left + 2 * right]) + g.store(element) for word, left, right, element in key.rows)
    return key.roots[box] + rows + g.store(key.last)


def key_bytes(name, gate, box):
    if name == "product":
        return four(gate.a[box]) + four(gate.b[box]) + four(gate.c[box])
    if name in ("shift", "signed"):
        return compared_bytes(gate.low, box) + compared_bytes(gate.high, box) + four(gate.parts[box])
    if name in ("piece", "flag"):
        i = gate.interval
        return compared_bytes(i.key, box) + i.g.store(i.payload[box]) + i.g.store(i.extra[box]) + four(gate.parts[box])
    return b""


def laid_out(box, kind, width, deal, inputs, bodies):
    at = 16 + 8 * len(bodies)
    long = at + sum(map(len, bodies))
    book = bytes([1, box, kind, width]) + four(deal) + bytes([inputs, len(bodies) - inputs, 0, 0]) + four(long)
    for body in bodies:
        book += four(at) + four(len(body))
        at += len(body)
    return book + b"".join(bodies)


class Reader:
    """Takes bytes from the front of a body; a body that is too short, or a field that is not allowed, refuses it by 16."""

    def __init__(self, body):
        self.body = body

    def take(self, count):
        ask(len(self.body) >= count, 16)
        taken, self.body = self.body[:count], self.body[count:]
        return taken

    def byte(self, most=255):
        number = self.take(1)[0]
        ask(number <= most, 16)
        return number

    def number(self, n=32):
        number = int.from_bytes(self.take(4), "little")
        ask(number < 2**n, 16)
        return number

    def element(self, g):
        size = len(g.store(g.zero))
        if g is QUAD:
            return g.make([int.from_bytes(self.take(8), "little") for _ in range(4)])
        return int.from_bytes(self.take(size), "little")

    def key(self, g, rows, say):
        """A comparison key; its lines go to `say`."""
        say.append(f"root {self.take(16).hex()}")
        for i in range(rows):
            word, bits = self.take(16), self.byte(3)
            say.append(f"row {i + 1} word {word.hex()} left {bits & 1} right {bits >> 1} element {text(g, self.element(g))}")
        say.append(f"final {text(g, self.element(g))}")


def read_gate(n, k, flags, body):
    """What is said of a gate's wire behind its offset, the lines of its key, and whether it gives flags."""
    r, lines = Reader(body), []
    name = dict(enumerate(GATES, 1)).get(r.byte())
    ask(name, 16)
    a, b, shown = r.byte(), r.byte(), r.byte(1)
    reads = (a, b) if name in TWO else (a,)
    ask(name in TWO or b == 0, 16)
    ask(all(w < k and flags[w] == (name == "xor") for w in reads), 16)
    said = f"{name} reads {' '.join(map(str, reads))} {'shown' if shown else 'hidden'}"
    if shown:
        said += f" mask {r.number(32 if name in FLAGS else n)}"
    if name == "scale":
        said += f" c {r.number(n)} d {r.number(n)}"
    if name in ("piece", "flag"):
        p, q = r.number(n), r.number(n)
        ask(p <= q, 16)
        said += f" p {p} q {q}"
    if name in ("shift", "signed"):
        s = r.byte()
        ask(1 <= s < n, 16)
        said += f" by {s}"
    if name in WORDS:
        said += f" key {len(r.body)}"
    if name == "product":
        lines.append(f"part a {r.number(n)} b {r.number(n)} c {r.number(n)}")
    if name in ("piece", "flag"):
        g = QUAD if name == "piece" else Flags
        r.key(g, n, lines)
        payload, extra = (text(g, r.element(g)) for _ in range(2))
        lines.append(f"part payload {payload} extra {extra} mask {r.number(n if name == 'piece' else 32)}")
    if name in ("shift", "signed"):
        r.key(Words, s, lines)
        r.key(Words, n, lines)
        lines.append(f"part rest {r.number(n)}")
    ask(not r.body, 16)
    return said, lines, name in FLAGS


def read_input(box, n, body):
    r = Reader(body)
    owner = r.byte(1)
    said = f"input owner {owner}" + (f" mask {r.number(n)}" if owner == box else "")
    ask(not r.body, 16)
    return said


def read_book(kind, book, whole=True):
    """The lines that say what is in a book, or the question that refuses it."""
    def at(place):
        return int.from_bytes(book[place:place + 4], "little")

    ask(len(book) >= 16 and at(12) == len(book), 11)
    edition, box, own, n, inputs, gates = *book[:4], *book[8:10]
    ask(edition == 1 and box in (0, 1) and book[10:12] == bytes(2), 12)
    ask(own == kind, 13)
    ask(1 <= n <= 32 and 1 <= inputs <= 16 and 1 <= gates <= 32, 14)
    end = 16 + 8 * (inputs + gates)
    ask(end <= len(book), 15)
    bodies = []
    for k in range(inputs + gates):
        offset, length = at(16 + 8 * k), at(20 + 8 * k)
        ask(offset == end, 15)
        end += length
        bodies.append((offset, length))
    ask(end == len(book), 15)
    said = [f"book box {box} bytes {len(book)} edition 1 kind {own} width {n} deal {at(4)} inputs {inputs} gates {gates}"]
    flags = []
    for k, (offset, length) in enumerate(bodies):
        body, key = book[offset:offset + length], []
        if k < inputs:
            wire, flag = read_input(box, n, body), False
        else:
            wire, key, flag = read_gate(n, k, flags, body)
        flags.append(flag)
        said.append(f"wire {k} at {offset} bytes {length} {wire}")
        if whole:
            said += key
    return said


class Office:
    """Answers the console's lines about plans and books, given as lines without a fault."""

    def __init__(self):
        self.plan, self.words = None, []

    def answers(self, line):
        words = line.split()
        name = words[0]
        if name == "plan":
            self.plan = Plan(int(words[1]), map(int, words[2].split(",")) if len(words) > 2 else [])
            self.words = []
            return []
        if name == "book":
            return self.guarded(lambda: read_book(int(words[1]), bytes.fromhex(words[2] if len(words) > 2 else "")))
        if self.plan is None:
            return ["no plan was begun"]
        if name == "words":
            self.words += map(int, words[1].split(","))
            return []
        if name in ("books", "outline"):
            return self.both(name == "books", *map(int, words[1:]))
        numbers = [int(w) for w in words[2:] if "," not in w] + [[int(c) for c in w.split(",")] for w in words[2:] if "," in w]
        self.plan.gate(name == "shown", words[1], *numbers)
        return []

    @staticmethod
    def guarded(act):
        try:
            return act()
        except Refused as r:
            return [f"refused {r.number}: {QUESTIONS[r.number]}"]

    def deal(self, box, whole, kind, deal, room=LONGEST):
        book = self.plan.book(EXPANDERS[kind], box, deal, self.words, room)
        return read_book(kind, book, whole) + ([f"hex {book.hex()}"] if whole else [])

    def both(self, *how):
        """Box 0's book and then box 1's, up to the first refusal."""
        said = self.guarded(lambda: self.deal(0, *how))
        return said if said[0].startswith("refused") else said + self.guarded(lambda: self.deal(1, *how))


class Table:
    """Lines and their answers."""

    def __init__(self):
        self.lines, self.answers, self.office = [], [], Office()
        self.random = Random("books")

    def line(self, line, said=None):
        self.lines.append(line)
        said = self.office.answers(line) if said is None else said
        self.answers += said
        return said

    def plan(self, width, owners, rows, words=None, each=40):
        """A plan's lines; random words of 64 bits, as many as it takes, unless they are given."""
        self.line(f"plan {width} {','.join(map(str, owners))}".rstrip())
        for row in rows:
            self.line(row)
        if words is None:
            words = [self.random.below(2**64) for _ in range(self.office.plan.needed())]
        for i in range(0, len(words), each):
            self.line("words " + ",".join(map(str, words[i:i + each])))

    def refused(self, number, line):
        said = self.line(line)
        assert said[-1].startswith(f"refused {number}:"), (line, said)

    def book(self, number, kind, book):
        """A book that the question refuses."""
        self.refused(number, f"book {kind} {book.hex()}".rstrip())


EVERY = ("hidden sum 0 1", "hidden scale 2 3 1", "hidden product 0 3", "hidden piece 4 1 2 3,2,1,1",
         "shown flag 5 1 3 2147483648", "shown shift 5 1", "hidden signed 5 1", "hidden flag 0 2 2 1", "shown xor 6 9", "shown sum 7 8")


def whole_books(t):
    """All gates at width 2, one plan for each kind of expander; then the narrowest and the widest."""
    for kind, deal in ((1, 0), (2, 2**32 - 1), (3, 5)):
        t.plan(2, (0, 1), EVERY)
        t.line(f"{'outline' if kind == 3 else 'books'} {kind} {deal}")
    t.plan(1, (1, 0, 1), ("shown piece 0 0 1 1,1,0,1", "hidden flag 1 1 1 4294967295", "shown product 2 3", "shown xor 4 4"))
    t.line("books 1 65536")
    t.plan(8, (1,), ("shown signed 0 3", "hidden shift 0 7"))
    t.line("books 2 256")
    t.plan(31, (0, 0), ("shown flag 1 5 2147483647 77", "shown scale 0 2147483647 2147483646"))
    t.line("books 1 31")
    t.plan(32, (0, 1), ("hidden sum 0 1", "shown piece 2 3000000000 4294967295 0,4294967295,3,4000000000"))
    t.line("books 2 32")
    t.plan(32, (0,), ("hidden shift 0 31", "shown product 0 1"), [2**64 - 1] * 15)
    t.line("outline 1 3")
    t.plan(32, (0,) * 16, ["shown piece 15 0 4294967295 1,2,3,4294967295"] * 32)
    t.refused(7, "outline 3 9 54879")
    t.line("outline 3 9")
    t.line("outline 3 9 54880")


def figures(t):
    """Books of 53 and 49 bytes, and a square that takes five random words."""
    t.plan(8, (0,), ("shown scale 0 3 1",), [200])
    said = t.line("books 1 7")
    assert [s.split()[4] for s in said if s.startswith("book")] == ["53", "49"]
    t.line("books 1 7 53")
    t.refused(7, "books 1 7 52")
    t.refused(7, "books 1 7 0")
    t.plan(8, (1,), ("shown scale 0 3 1",), [200])
    t.refused(7, "books 1 7 49")
    t.plan(8, (0,), ("shown product 0 0",), [1, 2, 3, 4])
    t.refused(6, "books 1 1")
    t.line("words 5")
    t.line("books 1 1")
    t.line("words 6,7")
    t.line("books 1 1")


PLANS = (
    # refusal, width, owners, rows, random words
    (1, 0, (0,), ("shown sum 0 0",), 9),
    (1, 33, (0,), ("shown sum 0 0",), 9),
    (1, 255, (0,), (), 0),
    (2, 8, (), ("shown sum 0 0",), 9),
    (2, 8, (0,), (), 9),
    (2, 8, (0,) * 17, ("shown sum 0 0",), 30),
    (2, 8, (2,) * 17, ("shown sum 0 0",), 30),
    (2, 8, (0,), ("shown sum 0 0",) * 33, 9),
    (3, 8, (2,), ("shown sum 0 0",), 9),
    (3, 8, (0, 1, 255), ("shown sum 0 5",), 9),
    (4, 8, (0,), ("shown sum 0 1",), 9),
    (4, 8, (0,), ("shown sum 1 0",), 9),
    (4, 8, (0,), ("shown scale 255 300 0",), 9),
    (4, 8, (0,), ("shown product 0 1",), 9),
    (4, 8, (0,), ("shown piece 1 0 1 0,0,0,0",), 99),
    (4, 8, (0,), ("shown flag 1 0 1 1",), 99),
    (4, 8, (0,), ("shown shift 1 1",), 99),
    (4, 8, (0,), ("shown signed 1 1",), 99),
    (4, 8, (0,), ("shown xor 0 0",), 99),
    (4, 8, (0,), ("hidden flag 0 0 1 1", "shown xor 1 0"), 99),
    (4, 8, (0,), ("hidden flag 0 0 1 1", "shown xor 1 2"), 99),
    (4, 8, (0,), ("hidden flag 0 0 1 1", "shown sum 0 1"), 99),
    (4, 8, (0,), ("hidden flag 0 0 1 1", "shown product 1 0"), 99),
    (4, 8, (0,), ("hidden flag 0 0 1 1", "shown flag 1 0 1 1"), 99),
    (4, 8, (0,), ("hidden flag 0 0 1 1", "hidden xor 1 1", "shown scale 2 1 0"), 99),
    (4, 8, (0,), ("hidden scale 0 256 0", "hidden shift 0 8", "shown sum 3 0"), 0),
    (5, 8, (0,), ("shown scale 0 256 0",), 9),
    (5, 8, (0,), ("shown scale 0 0 256",), 9),
    (5, 8, (0,), ("shown piece 0 5 4 0,0,0,0",), 99),
    (5, 8, (0,), ("shown piece 0 5 256 0,0,0,0",), 99),
    (5, 8, (0,), ("shown piece 0 0 255 0,0,0,256",), 99),
    (5, 8, (0,), ("shown piece 0 0 255 256,0,0,0",), 0),
    (5, 8, (0,), ("shown flag 0 5 4 0",), 99),
    (5, 8, (0,), ("shown flag 0 256 256 0",), 99),
    (5, 8, (0,), ("shown shift 0 0",), 99),
    (5, 8, (0,), ("shown shift 0 8",), 99),
    (5, 8, (0,), ("shown signed 0 8",), 99),
    (5, 1, (0,), ("shown signed 0 1",), 99),
    (5, 32, (0,), ("shown shift 0 32",), 0),
    (6, 8, (0, 1), ("shown sum 0 1",), 1),
    (6, 8, (0,), ("shown piece 0 0 1 0,0,0,0",), 14),
    (6, 8, (0,), ("shown flag 0 0 1 4294967295",), 8),
    (6, 8, (0,), ("shown shift 0 7",), 10),
    (6, 8, (0,), ("shown signed 0 7", "shown sum 0 1"), 10),
)


def refused_plans(t):
    for number, width, owners, rows, words in PLANS:
        t.plan(width, owners, rows, list(range(1, words + 1)))
        t.refused(number, f"books {1 + number % 2} 1 0")


def refused_headers(t, book):
    """A book of kind 1 for box 0, damaged before its bodies."""
    def put(at, *new):
        return book[:at] + bytes(new) + book[at + len(new):]

    long = len(book)
    t.book(11, 1, b"")
    t.book(11, 1, book[:15])
    t.book(11, 1, book[:16])
    t.book(11, 1, book[:-1])
    t.book(11, 1, book + b"\0")
    t.book(11, 1, put(12, 0, 0, 0, 0))
    t.book(11, 1, put(12, 255, 255, 255, 255))
    t.book(11, 1, put(12, long, 0, 0, 1))
    t.book(11, 2, put(0, 2)[:-1])
    for damaged in (put(0, 0), put(0, 2), put(1, 2), put(1, 255), put(10, 1), put(11, 1)):
        t.book(12, 1, damaged)
    t.book(12, 2, put(0, 7))
    t.book(13, 2, book)
    t.book(13, 3, book)
    t.book(13, 1, put(2, 0))
    t.book(13, 1, put(2, 2, 33))
    for damaged in (put(3, 0), put(3, 33), put(8, 0), put(8, 17), put(9, 0), put(9, 33)):
        t.book(14, 1, damaged)
    t.book(14, 1, put(9, 33)[:16 + 8] + put(9, 33)[24:])
    short = put(12, 16)[:16]
    t.book(15, 1, short)
    t.book(15, 1, put(9, 2))
    t.book(15, 1, put(8, 16, 32))
    first, second = 16, 24
    for damaged in (put(first, book[first] + 1), put(first, book[first] - 1), put(first + 3, 1),
                    put(first + 4, book[first + 4] + 1), put(first + 7, 255), put(first + 4, 255, 255, 255, 255), put(second, book[second] + 1),
                    put(second + 4, book[second + 4] - 1), put(second + 4, book[second + 4] + 1), put(second, 0, 0, 0, 0)):
        t.book(15, 1, damaged)
    t.book(15, 1, (book + b"\0")[:12] + four(long + 1) + (book + b"\0")[16:])
    unread = bytearray(put(second + 4, book[second + 4] - 1))
    unread[-12] = 9
    t.book(15, 1, bytes(unread))


def refused_bodies(t):
    """Books that are laid out well, with a body that is not."""
    owned, other = b"\0" + four(3), b"\1"

    def book(bodies, n=8, inputs=2, box=0):
        return laid_out(box, 1, n, 7, inputs, bodies)

    def wrong(body, n=8, before=(owned, other), inputs=2, box=0):
        t.book(16, 1, book([*before, body], n, inputs, box))

    def right(body, n=8, before=(owned, other), inputs=2, box=0):
        said = t.line(f"book 1 {book([*before, body], n, inputs, box).hex()}")
        assert said[0].startswith("book box"), said

    total = bytes([1, 0, 1, 0])
    right(total)
    # inputs: owner, a mask exactly in the owner's book, the mask below N
    for body in (b"", b"\2", b"\2" + four(5), b"\0", b"\0" + four(256), b"\0" + four(5) + b"\0", b"\0" + four(5)[:3],
                 b"\1" + four(5), b"\1\0"):
        t.book(16, 1, book([body, other, total]))
    t.book(16, 1, book([owned, other, total], box=1))
    right(total, before=(b"\0", b"\1" + four(255)), box=1)
    # the front of a gate: kind, wires, b unused, shown, mask
    for body in (b"", bytes([1]), bytes([1, 0, 1]), bytes([0, 0, 0, 0]), bytes([9, 0, 0, 0]), bytes([255, 0, 0, 0]),
                 bytes([1, 2, 0, 0]), bytes([1, 0, 2, 0]), bytes([1, 255, 0, 0]), bytes([1, 0, 1, 2]), bytes([1, 0, 1, 1]), total + four(5),
                 bytes([1, 0, 1, 1]) + four(256), bytes([1, 0, 1, 1]) + four(2**32 - 1), total + b"\0", bytes([8, 0, 1, 0])):
        wrong(body)
    right(bytes([1, 0, 1, 1]) + four(255))
    # scale and product: numbers below N, exact length
    right(bytes([2, 1, 0, 0]) + four(255) + four(255))
    for c, d in ((256, 0), (0, 256), (2**31, 0)):
        wrong(bytes([2, 1, 0, 0]) + four(c) + four(d))
    wrong(bytes([2, 1, 1, 0]) + four(1) + four(1))
    wrong(bytes([2, 1, 0, 0]) + four(1) + four(1)[:3])
    wrong(bytes([2, 1, 0, 0]) + four(1) + four(1) + b"\0")
    right(bytes([2, 0, 0, 0]) + four(2**32 - 1) * 2, n=32)
    right(bytes([3, 1, 1, 0]) + four(255) * 3)
    for place in range(3):
        wrong(bytes([3, 1, 1, 0]) + four(1) * place + four(256) + four(1) * (2 - place))
    wrong(bytes([3, 1, 1, 0]) + four(1) * 2)
    wrong(bytes([3, 1, 1, 0]) + four(1) * 3 + b"\0")
    # keys, at width 2: rows with bits at most 3, free words and flags
    root, word, n = bytes(range(16)), bytes([255] * 16), 2

    def key(element, rows, bits=3):
        return root + b"".join(word + bytes([bits if i == rows - 1 else 2]) + element for i in range(rows)) + element

    for number, element in ((4, b"\xfe" * 32), (5, b"\xfd" * 4)):
        front, share = bytes([number, 0, 0, 0]) + four(1) + four(3), four(3)
        flag = bytes([8, 2, 2, 1]) + four(2**32 - 1) if number == 5 else bytes([1, 2, 2, 1]) + four(3)
        good = front + key(element, n) + element + element + share
        mask = four(4) if number == 4 else b""
        right(good, n)
        t.line(f"book 1 {book([owned, other, good, flag], n).hex()}")
        wrong(front + key(element, n, 4) + element + element + share, n)
        wrong(front + key(element, n, 255) + element + element + share, n)
        wrong(front + key(element, n - 1) + element + element + share, n)
        wrong(front + key(element, n + 1) + element + element + share, n)
        wrong(good + b"\0", n)
        wrong(good[:-1], n)
        wrong(bytes([number, 0, 1, 0]) + good[4:], n)
        for p, q in ((2, 1), (0, 4), (4, 4), (2**31, 2**31)):
            wrong(bytes([number, 0, 0, 0]) + four(p) + four(q) + good[12:], n)
        last = good[:-4] + four(2**32 - 1)
        if number == 4:
            wrong(good[:-4] + four(4), n)
            wrong(last, n)
            wrong(bytes([4, 0, 0, 1]) + mask + good[4:], n)
            right(bytes([4, 0, 0, 1]) + four(3) + good[4:], n)
        else:
            right(last, n)
            right(bytes([5, 0, 0, 1]) + four(2**32 - 1) + good[4:], n)
            # a flag wire is read by an xor alone
            for body in (bytes([1, 0, 2, 0]), bytes([3, 2, 0, 0]) + four(1) * 3, bytes([2, 2, 0, 0]) + four(1) * 2,
                         bytes([5, 2]) + good[2:], bytes([8, 2, 0, 0]), bytes([8, 1, 2, 0]), bytes([8, 2, 3, 0])):
                t.book(16, 1, book([owned, other, good, body], n))
    for number in (6, 7):
        element, n = b"\xfc" * 8, 3
        front = bytes([number, 1, 0, 0, 2])
        good = front + key(element, 2) + key(element, 3) + four(7)
        right(good, n)
        wrong(good[:-4] + four(8), n)
        wrong(front + key(element, 2, 4) + key(element, 3) + four(7), n)
        wrong(front + key(element, 2) + key(element, 3, 5) + four(7), n)
        wrong(front + key(element, 3) + key(element, 2, 5) + four(7), n)
        for s in (0, 1, 3, 255):
            wrong(good[:4] + bytes([s]) + good[5:], n)
        wrong(good[:2] + b"\1" + good[3:], n)
        wrong(good + b"\0", n)
        wrong(good[:-1], n)
        wrong(bytes([number, 1, 0, 0, 3]) + key(element, 3) + key(element, 3) + four(7), n)
        wrong(bytes([number, 2, 0, 0, 2]) + good[5:], n)
    # two bodies are wrong, and a question before 16 as well
    t.book(16, 1, book([b"\2", b"\3", bytes([9])]))
    t.book(14, 1, book([b"\2", b"\3", bytes([9])], n=40))


FAULTS = (
    ("plan", "word 2: a word is missing"),
    ("plan x", "word 2: not a decimal number"),
    ("plan 256 0", "word 2: the number is too large"),
    ("plan 8 0,2,256", "word 3: the number is too large"),
    ("plan 8 0,,1", "word 3: not a decimal number"),
    ("plan 8 0,1,", "word 3: not a decimal number"),
    ("plan 8 0 1", "word 4: a word too many"),
    ("shown", "word 2: a word is missing"),
    ("hidden add 0 1", "word 2: not a gate: piece, flag, shift, signed, product, sum, scale or xor"),
    ("hidden sum 0", "word 4: a word is missing"),
    ("hidden sum 0 256", "word 4: the number is too large"),
    ("hidden sum 0 1 2", "word 5: a word too many"),
    ("shown scale 0 4294967296 1", "word 4: the number is too large"),
    ("shown scale 0 1 1 1", "word 6: a word too many"),
    ("shown product a 1", "word 3: not a decimal number"),
    ("shown piece 0 1 2 1,2,3", "word 6: a piece has four coefficients"),
    ("shown piece 0 1 2 1,2,3,4294967296", "word 6: the number is too large"),
    ("shown piece 0 1 2", "word 6: a word is missing"),
    ("shown flag 0 1 2 -1", "word 6: not a decimal number"),
    ("shown flag 0 1 2 1 1", "word 7: a word too many"),
    ("shown shift 0 256", "word 4: the number is too large"),
    ("shown signed 0", "word 4: a word is missing"),
    ("shown xor 0 1 1", "word 5: a word too many"),
    ("words", "word 2: a word is missing"),
    ("words 1,x", "word 2: not a decimal number"),
    ("words 1,18446744073709551616", "word 2: the number is too large"),
    ("words 1 2", "word 3: a word too many"),
    ("books", "word 2: a word is missing"),
    ("books 4 1", "word 2: not a kind of expander: 1, 2 or 3"),
    ("books 1", "word 3: a word is missing"),
    ("books 1 4294967296", "word 3: the number is too large"),
    ("books 1 1 54881", "word 4: the number is too large"),
    ("outline 1 1 9 9", "word 5: a word too many"),
    ("book 0 00", "word 2: not a kind of expander: 1, 2 or 3"),
    ("book 1 0", "word 3: not a hex digit"),
    ("book 1 0g", "word 3: not a hex digit"),
    ("book 1 00 00", "word 4: a word too many"),
    ("row sum 0 1", "word 1: not an order"),
)


def faults(t):
    """Lines that make no sense change nothing."""
    for line in ("shown sum 0 0", "words 1", "books 1 1", "outline 1 1"):
        t.line(line)
    t.plan(8, (0,), ("shown scale 0 3 1",), [200])
    for line, said in FAULTS:
        t.line(line, [said])
    t.line("  books   1  0007 ", t.office.answers("books 1 7"))
    t.line("# a note", [])
    t.line("", [])


def vectors():
    t = Table()
    faults(t)
    figures(t)
    whole_books(t)
    refused_plans(t)
    refused_headers(t, Plan(8, (0,), [(1, "scale", (0,), (3, 1))]).book(EXPANDERS[1], 0, 7, [200]))
    refused_bodies(t)
    return t.lines, t.answers
