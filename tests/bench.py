"""Writes crates/bench/stdout: the checksums of the benchmark's workloads, by the independent calculation."""
import os
from reference import Aes, ChaCha, QUAD, Words, deal, evaluate, xor

HERE = os.path.dirname(os.path.abspath(__file__))
LEVELS, KEYS = 200000, 2000


def root(first):
    return bytes([first] + list(range(1, 16)))


def level(x):
    seed = bytes(range(16))
    for _ in range(LEVELS):
        left = x.branch(seed)[0]
        words = x.draw(left[1])
        seed = xor(left[0], words[0].to_bytes(8, "little") + words[1].to_bytes(8, "little"))
    return seed[:4].hex()


def total(g, v):
    out = 0
    for p in g.parts(v):
        out ^= p
    return "%08x" % (out % 2**32)


def deals(x, g, beta):
    v = g.zero
    for i in range(KEYS):
        v = g.add(v, deal(x, g, 32, i * 2654435761 % 2**32, beta, root(0), root(16))[1])
    return total(g, v)


def evaluations(x, g, beta):
    rows, last = deal(x, g, 32, 3000000000, beta, root(0), root(16))
    v = g.zero
    for i in range(KEYS):
        v = g.add(v, evaluate(x, g, 1, root(16), rows, last, i * 2654435761 % 2**32))
    return total(g, v)


def main():
    one, four = 1, ((1, 2), (3, 4))
    lines = ["level " + level(Aes), "clevel " + level(ChaCha)]
    for prefix, x in (("", Aes), ("c", ChaCha)):
        for name, g, beta in (("words", Words, one), ("quad", QUAD, four)):
            lines.append(f"{prefix}deal-{name} " + deals(x, g, beta))
            lines.append(f"{prefix}evaluate-{name} " + evaluations(x, g, beta))
    with open(os.path.join(HERE, "..", "crates", "bench", "stdout"), "w") as f:
        f.write("\n".join(lines) + "\n")


main()
