"""Orders for gates and their answers, by the independent calculation of reference.py."""
from keys import QUESTIONS, Random, text
from reference import EXPANDERS, Flag, Piece, Product, Scale, Shift, Signed, Sum, Xor, masked

LOCAL = {"sum": Sum, "scale": Scale, "xor": Xor}
SHIFTS = {"shift": Shift, "signed": Signed}
WORDS = {"piece": 14, "flag": 8, "shift": 10, "signed": 10, "product": 4}
QUESTIONS = {**QUESTIONS, 5: "is every number in range, p at most q, and every shift allowed?"}


def refused(number):
    return [f"refused {number}: {QUESTIONS[number]}"]


def key_lines(key):
    g = key.g
    rows = [f"row {i + 1} word {w.hex()} left {l} right {r} element {text(g, e)}" for i, (w, l, r, e) in enumerate(key.rows)]
    return rows + [f"final {text(g, key.last)}"]


def box_line(name, gate, box):
    """What one box is given beside the rows."""
    if name in ("piece", "flag"):
        i = gate.interval
        payload, extra = text(i.g, i.payload[box]), text(i.g, i.extra[box])
        return f"box {box} root {i.key.roots[box].hex()} payload {payload} extra {extra} mask {gate.parts[box]}"
    if name in SHIFTS:
        return f"box {box} low {gate.low.roots[box].hex()} high {gate.high.roots[box].hex()} rest {gate.parts[box]}"
    return f"box {box} a {gate.a[box]} b {gate.b[box]} c {gate.c[box]}"


class Console:
    """Answers orders for gates, given as lines without a fault."""

    def __init__(self):
        self.gate = None

    def answers(self, line):
        words = line.split()
        if words[0] == "gate":
            fields = [[int(n) for n in w.split(",")] for w in words[3:]]
            return self.deal(int(words[1]), words[2], *(f if len(f) > 1 else f[0] for f in fields))
        return self.hold([int(w) for w in words[1:]])

    def deal(self, kind, name, n, mask, *rest):
        x = EXPANDERS[kind]
        if not 1 <= n <= 32:
            return refused(41)
        if name in ("piece", "flag") and not rest[0] <= rest[1] < 2**n:
            return refused(5)
        if name in SHIFTS and not 1 <= rest[0] < n:
            return refused(5)
        if name == "piece":
            gate = Piece(x, n, mask, *rest)
        elif name == "flag":
            gate = Flag(x, n, mask, *rest)
        elif name in SHIFTS:
            gate = SHIFTS[name](x, n, mask, *rest)
        elif name == "product":
            gate = Product(n, mask, *rest)
        else:
            gate = LOCAL[name](n, mask, *rest)
        self.gate = gate
        said = [f"mask {gate.out}"]
        for key in gate.keys:
            said += key_lines(key)
        return said if name in LOCAL else said + [box_line(name, gate, box) for box in (0, 1)]

    def hold(self, held):
        gate = self.gate
        if gate is None:
            return ["no gate was dealt"]
        if len(held) != 1 + gate.two:
            return ["the gate reads two values" if gate.two else "the gate reads one value"]
        if not gate.in_range(held):
            return refused(42)
        shares, (joined, plain) = gate.held(held)
        boxes = "".join(f" box{box} {share}" for box, share in enumerate(shares))
        return [f"held {' '.join(map(str, held))}{boxes} join {joined} plain {plain}"]


def gate_line(kind, name, *fields):
    return " ".join(["gate", str(kind), name] + [",".join(map(str, f)) if isinstance(f, list) else str(f) for f in fields])


class Table:
    def __init__(self, name):
        self.orders, self.said, self.console, self.random = [], [], Console(), Random(name)

    def say(self, line, said):
        self.orders.append(line)
        self.said.extend(said)

    def order(self, line):
        self.say(line, self.console.answers(line))

    def words(self, name):
        return [self.random.below(2**64) for _ in range(WORDS[name])]

    def number(self):
        return self.random.below(2**32)

    def hold(self, n, mask, plains):
        """Holds plain values at a gate that reads one."""
        for v in sorted({v % 2**n for v in plains}):
            self.order(f"hold {masked(n, mask, v)}")

    def interval_gate(self, kind, name, n, p, q, mask=None):
        mask = self.number() if mask is None else mask
        pays = [self.number() for _ in range(4)] if name == "piece" else self.number()
        self.order(gate_line(kind, name, n, mask, p, q, pays, self.words(name)))
        self.hold(n, mask, [p - 1, p, q, q + 1] if n < 31 or kind == 2 else [p - 1, q, q + 1])

    def shift_gate(self, kind, name, n, s, mask=None):
        mask = self.number() if mask is None else mask
        self.order(gate_line(kind, name, n, mask, s, self.words(name)))
        self.hold(n, mask, [2**(n - 1) - 1, 2**(n - 1), 2**n - 1, self.number()])

    def pair_gate(self, kind, name, n):
        masks = [self.number(), self.number()]
        self.order(gate_line(kind, name, n, *masks, *([self.words(name)] if name in WORDS else [])))
        self.order(f"hold {self.held(name, n)} {self.held(name, n)}")
        top = 2**32 - 1 if name == "xor" else 2**n - 1
        self.order(f"hold {top} {top}")

    def held(self, name, n):
        return self.random.below(2**32 if name == "xor" else 2**n)

    def scale_gate(self, kind, n):
        self.order(gate_line(kind, "scale", n, self.number(), self.number(), self.number()))
        for m in sorted({2**n - 1, self.random.below(2**n)}):
            self.order(f"hold {m}")


def intervals(random, n):
    """Up to the last number, from 0 on, one number, and in the middle."""
    top = 2**n - 1
    low, high = sorted((random.below(2**n), random.below(2**n)))
    one = random.below(2**n)
    return [(low, top), (0, high), (one, one), (min(1, top), max(1, top - 1) if top > 1 else top)]


def gates(table):
    for n in (1, 2, 8, 31, 32):
        for kind in (1, 2):
            ends = intervals(table.random, n)
            for place in (0, 1):
                table.interval_gate(kind, "piece", n, *ends[2 * place + kind - 1])
                table.interval_gate(kind, "flag", n, *ends[2 * place + 2 - kind])
            if n > 1:
                table.shift_gate(kind, "shift", n, 1 if kind == 1 else n - 1)
                table.shift_gate(kind, "signed", n, n - 1 if kind == 1 else 1)
            table.pair_gate(kind, "product", n)
        table.pair_gate(1, "sum", n)
        table.scale_gate(2, n)
        table.pair_gate(1, "xor", n)
    for name in ("piece", "flag"):
        table.interval_gate(3, name, 5, 3, 17, mask=0)
    for name in ("shift", "signed"):
        table.shift_gate(3, name, 5, 3, mask=31)
    for name in ("product", "sum", "xor"):
        table.pair_gate(3, name, 5)
    table.scale_gate(3, 5)


def refusals(table):
    """A gate that is refused is not remembered."""
    fourteen, eight, ten, four = (table.words(name) for name in ("piece", "flag", "shift", "product"))
    table.order("gate 1 sum 3 6 4")
    for n in (0, 33):
        table.order(gate_line(1, "xor", n, 1, 2))
        table.order(gate_line(2, "scale", n, 1, 2, 3))
        table.order(gate_line(1, "flag", n, 1, 9, 3, 7, eight))
        table.order(gate_line(2, "signed", n, 1, 0, ten))
        table.order(gate_line(2, "product", n, 1, 2, four))
    for name, p, q in (("piece", 5, 4), ("flag", 5, 4), ("piece", 0, 8), ("flag", 8, 8), ("piece", 2**32 - 1, 0)):
        pays, words = ([1, 2, 3, 4], fourteen) if name == "piece" else (7, eight)
        table.order(gate_line(1, name, 3, 1, p, q, pays, words))
    for name, n, s in (("shift", 3, 0), ("signed", 3, 3), ("shift", 1, 1), ("signed", 1, 0), ("shift", 32, 32), ("signed", 3, 255)):
        table.order(gate_line(1, name, n, 1, s, ten))
    table.order("hold 3 7")
    for line in ("hold 3", "hold 8 0", "hold 0 8", "hold 8"):
        table.order(line)
    table.order(gate_line(2, "flag", 3, 2, 1, 6, 255, eight))
    for line in ("hold 1 1", "hold 7", "hold 8", "hold 4294967295", "hold 9 1"):
        table.order(line)


def faults(table):
    four = "1,2,3,4"
    eight, ten, fourteen = (",".join(str(i) for i in range(n)) for n in (8, 10, 14))
    for line, said in (
        ("gate", "word 2: a word is missing"),
        ("gate 0", "word 2: not a kind of expander: 1, 2 or 3"),
        ("gate 1", "word 3: a word is missing"),
        ("gate 1 pieces 3 1 0 1", "word 3: not a gate: piece, flag, shift, signed, product, sum, scale or xor"),
        ("gate 1 xor 256 1 2", "word 4: the number is too large"),
        ("gate 1 sum 3 x 2", "word 5: not a decimal number"),
        ("gate 1 sum 3 1", "word 6: a word is missing"),
        ("gate 1 sum 3 1 2 3", "word 7: a word too many"),
        ("gate 1 scale 3 1 2", "word 7: a word is missing"),
        ("gate 1 scale 3 1 2 4294967296", "word 7: the number is too large"),
        ("gate 1 scale 3 1 2 3 4", "word 8: a word too many"),
        (f"gate 1 piece 3 1 0 4294967296 {four} {fourteen}", "word 7: the number is too large"),
        (f"gate 1 piece 3 1 0 1 1,2,3 {fourteen}", "word 8: a piece has four coefficients"),
        (f"gate 1 piece 3 1 0 1 {four},5 {fourteen}", "word 8: a piece has four coefficients"),
        (f"gate 1 piece 3 1 0 1 1,2,3,4294967296 {fourteen}", "word 8: the number is too large"),
        (f"gate 1 piece 3 1 0 1 1,,3,4 {fourteen}", "word 8: not a decimal number"),
        (f"gate 1 piece 3 1 0 1 {four} {ten}", "word 9: not as many random words as the gate takes"),
        (f"gate 1 piece 3 1 0 1 {four} {fourteen},14", "word 9: not as many random words as the gate takes"),
        (f"gate 1 piece 3 1 0 1 {four} {fourteen} 1", "word 10: a word too many"),
        (f"gate 1 piece 3 1 0 1 {four}", "word 9: a word is missing"),
        ("gate 1 flag 3 1 0 1 7 0,1,2,3,4,5,6,18446744073709551616", "word 9: the number is too large"),
        (f"gate 1 flag 3 1 0 1 7 {eight},", "word 9: not as many random words as the gate takes"),
        (f"gate 1 flag 3 1 0 1 {four} {eight}", "word 8: not a decimal number"),
        (f"gate 1 shift 3 1 256 {ten}", "word 6: the number is too large"),
        (f"gate 1 shift 3 1 1 {eight}", "word 7: not as many random words as the gate takes"),
        (f"gate 1 signed 3 1 1 {ten} 1", "word 8: a word too many"),
        ("gate 1 product 3 1 2 1,2,3,+4", "word 7: not a decimal number"),
        ("gate 1 product 3 1 2", "word 7: a word is missing"),
        ("hold", "word 2: a word is missing"),
        ("hold x", "word 2: not a decimal number"),
        ("hold 1 x", "word 3: not a decimal number"),
        ("hold 4294967296", "word 2: the number is too large"),
        ("hold 1 4294967296", "word 3: the number is too large"),
        ("hold 1 2 3", "word 4: a word too many"),
        ("holds 1", "word 1: not an order"),
    ):
        table.say(line, [said])


def vectors():
    table = Table("gates")
    table.order("hold 0")
    table.order("hold 0 1")
    gates(table)
    refusals(table)
    faults(table)
    table.order("  hold  003 ")
    table.say("at 0", ["no key was dealt"])
    table.order("gate 2  sum 3 9 12")
    table.order("hold 7 7")
    return table.orders, table.said
