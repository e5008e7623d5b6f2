"""Orders for keys and their answers, by the independent calculation of reference.py."""
import hashlib
import os
from reference import EXPANDERS, GROUPS, deal, evaluate

HERE = os.path.dirname(os.path.abspath(__file__))
QUESTIONS = {
    41: "is the key's width 1 to 32?",
    42: "is the threshold or point in range for the width?",
}


def crate(name, file):
    return os.path.join(HERE, "..", "crates", name, file)


def text(g, v):
    return ",".join(str(p) for p in g.parts(v))


class Console:
    """Answers orders as docs/CONSOLE.md says."""

    def __init__(self):
        self.key = None

    def deal(self, kind, group, n, alpha, parts, root0, root1):
        if not 1 <= n <= 32:
            return [f"refused 41: {QUESTIONS[41]}"]
        if alpha >= 2**n:
            return [f"refused 42: {QUESTIONS[42]}"]
        x, g = EXPANDERS[kind], GROUPS[group]
        beta = g.make(parts)
        rows, last = deal(x, g, n, alpha, beta, root0, root1)
        self.key = (x, g, n, alpha, beta, root0, root1, rows, last)
        out = [f"row {i + 1} word {w.hex()} left {l} right {r} element {text(g, e)}" for i, (w, l, r, e) in enumerate(rows)]
        return out + [f"final {text(g, last)}"]

    def at(self, m):
        if self.key is None:
            return ["no key was dealt"]
        x, g, n, alpha, beta, root0, root1, rows, last = self.key
        if m >= 2**n:
            return [f"refused 42: {QUESTIONS[42]}"]
        a, b = evaluate(x, g, 0, root0, rows, last, m), evaluate(x, g, 1, root1, rows, last, m)
        joined = g.add(a, b)
        assert joined == (beta if m < alpha else g.zero)
        return [f"point {m} box0 {text(g, a)} box1 {text(g, b)} join {text(g, joined)}"]


def deal_line(kind, group, n, alpha, parts, root0, root1):
    return f"deal {kind} {group} {n} {alpha} {','.join(map(str, parts))} {root0.hex()} {root1.hex()}"


class Random:
    """Bytes of a hash chain, so that the table is the same each time."""

    def __init__(self, name):
        self.state = name.encode()

    def bytes(self, n):
        self.state = hashlib.sha256(self.state).digest()
        return self.state[:n]

    def below(self, n):
        return int.from_bytes(self.bytes(16), "big") % n


def vectors():
    orders, answers = [], []

    def order(line, said):
        orders.append(line)
        answers.extend(said)

    console, random = Console(), Random("keys")
    order("at 3", console.at(3))
    sizes = {"words": [64], "flags": [32], "pair": [64, 32], "quad": [64] * 4}
    for n in (1, 2, 8, 31, 32):
        for kind in (1, 2, 3):
            for place, group in enumerate(("words", "flags", "pair", "quad")):
                alpha = (random.below(2**n), 2**n - 1, 0, random.below(2**n))[place]
                parts = [random.below(2**bits) for bits in sizes[group]]
                root0, root1 = random.bytes(16), random.bytes(16)
                if kind == 3 and group == "flags":
                    root1 = root0
                order(deal_line(kind, group, n, alpha, parts, root0, root1), console.deal(kind, group, n, alpha, parts, root0, root1))
                for m in sorted({0, max(alpha - 1, 0), alpha, min(alpha + 1, 2**n - 1), 2**n - 1, random.below(2**n)}):
                    order(f"at {m}", console.at(m))
    order(f"at {2**32 - 1}", console.at(2**32 - 1))
    roots = (bytes(range(16)), bytes(range(16, 32)))
    for n, alpha in ((0, 0), (33, 5), (255, 5), (3, 8), (0, 9), (31, 2**31), (8, 256)):
        order(deal_line(1, "words", n, alpha, [1], *roots), console.deal(1, "words", n, alpha, [1], *roots))
    order(deal_line(1, "words", 3, 5, [1], *roots), console.deal(1, "words", 3, 5, [1], *roots))
    order("at 8", console.at(8))
    order("", [])
    order("   ", [])
    order("# a note", [])
    r0, r1 = (r.hex() for r in roots)
    for line, said in (
        ("dael 1 words 3 5 1", "word 1: not an order"),
        ("deal", "word 2: a word is missing"),
        (f"deal 4 words 3 5 1 {r0} {r1}", "word 2: not a kind of expander: 1, 2 or 3"),
        (f"deal 1 bytes 3 5 1 {r0} {r1}", "word 3: not a group: words, flags, pair or quad"),
        (f"deal 1 words 256 5 1 {r0} {r1}", "word 4: the number is too large"),
        (f"deal 1 words three 5 1 {r0} {r1}", "word 4: not a decimal number"),
        (f"deal 1 words 3 4294967296 1 {r0} {r1}", "word 5: the number is too large"),
        (f"deal 1 quad 3 5 1,2,3 {r0} {r1}", "word 6: the payload has not the parts of its group"),
        (f"deal 1 flags 3 5 4294967296 {r0} {r1}", "word 6: the number is too large"),
        (f"deal 1 words 3 5 18446744073709551616 {r0} {r1}", "word 6: the number is too large"),
        (f"deal 1 words 3 5 1 {r0[:-2]} {r1}", "word 7: a seed has 32 hex digits"),
        (f"deal 1 words 3 5 1 {r0} {r1[:-1]}g", "word 8: not a hex digit"),
        (f"deal 1 words 3 5 1 {r0} {r1} 7", "word 9: a word too many"),
        ("at", "word 2: a word is missing"),
        ("at 4294967296", "word 2: the number is too large"),
        ("at -1", "word 2: not a decimal number"),
        ("at 1 2", "word 3: a word too many"),
    ):
        order(line, [said])
    order("  at   4 ", console.at(4))
    order("at 0004", console.at(4))
    order(f"deal 2 flags 3 5 4294967295 {r0.upper()} {r1}", console.deal(2, "flags", 3, 5, [2**32 - 1], *roots))
    order("at 4", console.at(4))
    return orders, answers


def write(path, lines):
    with open(path, "w") as f:
        f.write("".join(line + "\n" for line in lines))
