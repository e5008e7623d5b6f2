"""An independent calculation of the rules: expanders, output groups and comparison keys.

It is written from docs/RULES.md and uses Python's `cryptography` package for the two ciphers; nothing of it comes from
the program's output. The scripts beside it write the tables that the gate compares.
"""
from cryptography.hazmat.primitives.ciphers import Cipher, algorithms, modes


def aes_block(key, j):
    enc = Cipher(algorithms.AES(key), modes.ECB()).encryptor()
    return enc.update(j.to_bytes(16, "big"))


def aes_blocks(key, first, count):
    enc = Cipher(algorithms.AES(key), modes.ECB()).encryptor()
    return enc.update(b"".join(j.to_bytes(16, "big") for j in range(first, first + count)))


def chacha_block(key32, counter, nonce12=bytes(12)):
    full = counter.to_bytes(4, "little") + nonce12
    return Cipher(algorithms.ChaCha20(key32, full), mode=None).encryptor().update(bytes(64))


class Aes:
    kind = 1

    @staticmethod
    def branch(seed):
        b = aes_blocks(seed, 0, 5)
        return ((b[0:16], b[16:32], b[64] & 1), (b[32:48], b[48:64], b[65] & 1))

    @staticmethod
    def draw(seed):
        b = aes_blocks(seed, 5, 4)
        return [int.from_bytes(b[8 * i:8 * i + 8], "little") for i in range(8)]


class ChaCha:
    kind = 2

    @staticmethod
    def branch(seed):
        b = chacha_block(seed + seed, 0)
        c = chacha_block(seed + seed, 1)
        return ((b[0:16], b[16:32], c[0] & 1), (b[32:48], b[48:64], c[1] & 1))

    @staticmethod
    def draw(seed):
        b = chacha_block(seed + seed, 2)
        return [int.from_bytes(b[8 * i:8 * i + 8], "little") for i in range(8)]


class Zero:
    kind = 3

    @staticmethod
    def branch(seed):
        side = (bytes(16), bytes(16), 0)
        return (side, side)

    @staticmethod
    def draw(seed):
        return [0] * 8


EXPANDERS = {1: Aes, 2: ChaCha, 3: Zero}


class Words:
    count = 1
    zero = 0

    @staticmethod
    def add(a, b):
        return (a + b) % 2**64

    @staticmethod
    def neg(a):
        return -a % 2**64

    @staticmethod
    def from_draw(words, start):
        return words[start % 8]

    @staticmethod
    def parts(a):
        return [a]

    @staticmethod
    def make(parts):
        return parts[0] % 2**64

    @staticmethod
    def store(a):
        return a.to_bytes(8, "little")


class Flags:
    count = 1
    zero = 0

    @staticmethod
    def add(a, b):
        return a ^ b

    @staticmethod
    def neg(a):
        return a

    @staticmethod
    def from_draw(words, start):
        return words[start % 8] % 2**32

    @staticmethod
    def parts(a):
        return [a]

    @staticmethod
    def make(parts):
        return parts[0] % 2**32

    @staticmethod
    def store(a):
        return a.to_bytes(4, "little")


def pair(left, right):
    class Pair:
        count = min(9, left.count + right.count)
        zero = (left.zero, right.zero)
        width = (len(left.parts(left.zero)), len(right.parts(right.zero)))

        @staticmethod
        def add(a, b):
            return (left.add(a[0], b[0]), right.add(a[1], b[1]))

        @staticmethod
        def neg(a):
            return (left.neg(a[0]), right.neg(a[1]))

        @staticmethod
        def from_draw(words, start):
            return (left.from_draw(words, start), right.from_draw(words, start + left.count))

        @staticmethod
        def parts(a):
            return left.parts(a[0]) + right.parts(a[1])

        @staticmethod
        def make(parts):
            n = Pair.width[0]
            return (left.make(parts[:n]), right.make(parts[n:]))

        @staticmethod
        def store(a):
            return left.store(a[0]) + right.store(a[1])

    return Pair


MIXED = pair(Words, Flags)
QUAD = pair(pair(Words, Words), pair(Words, Words))
GROUPS = {"words": Words, "flags": Flags, "pair": MIXED, "quad": QUAD}


def xor(a, b):
    return bytes(x ^ y for x, y in zip(a, b))


def deal(x, g, n, alpha, beta, root0, root1):
    """The rows (seed word, left bit, right bit, element) and the final element."""
    def minus(a, b):
        return g.add(a, g.neg(b))

    def sign(v):
        return g.neg(v) if t1 else v

    s0, s1, t0, t1, apart = root0, root1, 0, 1, g.zero
    rows = []
    for i in range(n - 1, -1, -1):
        bit = alpha >> i & 1
        b0, b1 = x.branch(s0), x.branch(s1)
        keep, lose = bit, 1 - bit
        word = xor(b0[lose][0], b1[lose][0])
        c0, c1 = g.from_draw(x.draw(b0[lose][1]), 0), g.from_draw(x.draw(b1[lose][1]), 0)
        element = sign(minus(minus(c1, c0), apart))
        if lose == 0:
            element = g.add(element, sign(beta))
        k0, k1 = g.from_draw(x.draw(b0[keep][1]), 0), g.from_draw(x.draw(b1[keep][1]), 0)
        apart = g.add(g.add(apart, minus(k0, k1)), sign(element))
        left = b0[0][2] ^ b1[0][2] ^ bit ^ 1
        right = b0[1][2] ^ b1[1][2] ^ bit
        rows.append((word, left, right, element))
        fix = (left, right)[keep]
        s0, s1 = (xor(b0[keep][0], word) if t0 else b0[keep][0]), (xor(b1[keep][0], word) if t1 else b1[keep][0])
        t0, t1 = b0[keep][2] ^ (t0 & fix), b1[keep][2] ^ (t1 & fix)
    c0, c1 = g.from_draw(x.draw(s0), 0), g.from_draw(x.draw(s1), 0)
    return rows, sign(minus(minus(c1, c0), apart))


def evaluate(x, g, box, root, rows, last, m):
    seed, t, total = root, box, g.zero
    n = len(rows)
    for i, (word, left, right, element) in enumerate(rows):
        side = m >> (n - 1 - i) & 1
        s, value, bit = x.branch(seed)[side]
        total = g.add(total, g.from_draw(x.draw(value), 0))
        if t:
            total = g.add(total, element)
            s, bit = xor(s, word), bit ^ (left, right)[side]
        seed, t = s, bit
    total = g.add(total, g.from_draw(x.draw(seed), 0))
    if t:
        total = g.add(total, last)
    return g.neg(total) if box else total


# Gates. A width n has the numbers below N = 2^n; a wire with the plain value v and the mask r is held as m.
BINOMIALS = ((1,), (1, 1), (1, 2, 1), (1, 3, 3, 1))


def masked(n, r, v):
    return (v + r) % 2**n


def unmasked(n, r, m):
    return (m - r) % 2**n


def root_from(first, second):
    return first.to_bytes(8, "little") + second.to_bytes(8, "little")


def times(g, count, v):
    total = g.zero
    for _ in range(abs(count)):
        total = g.add(total, v if count > 0 else g.neg(v))
    return total


def split_number(n, whole, word):
    """Box 0's and box 1's part of a number."""
    one = word % 2**n
    return ((whole - one) % 2**n, one)


def split_flags(whole, word):
    one = word % 2**32
    return (whole ^ one, one)


def split_element(g, whole, words):
    one = g.make(words)
    return (g.add(whole, g.neg(one)), one)


class Key:
    """A comparison key with both its roots."""

    def __init__(self, x, g, n, alpha, beta, words):
        self.x, self.g, self.n = x, g, n
        self.roots = (root_from(*words[0:2]), root_from(*words[2:4]))
        self.rows, self.last = deal(x, g, n, alpha, beta, *self.roots)

    def answer(self, box, point):
        assert 0 <= point < 2**self.n
        return evaluate(self.x, self.g, box, self.roots[box], self.rows, self.last, point)


class IntervalKeys:
    """A payload in an interval, else zero: one comparison key and two splits."""

    def __init__(self, x, g, n, r, p, q, beta, words):
        size, parts = 2**n, len(g.parts(g.zero))
        self.g, self.n, self.p, self.after = g, n, p, (q + 1) % size
        self.key = Key(x, g, n, (r + size - 1) % size, beta, words[0:4])
        low, high, after = masked(n, r, p), masked(n, r, q), masked(n, r, self.after)
        count = (low > high) - (low > p) + (after > self.after) + (high == size - 1)
        self.payload = split_element(g, beta, words[4:4 + parts])
        self.extra = split_element(g, times(g, count, beta), words[4 + parts:4 + 2 * parts])

    def answer(self, box, m):
        g, size = self.g, 2**self.n
        total = times(g, (m > self.p) - (m > self.after), self.payload[box])
        total = g.add(total, g.neg(self.key.answer(box, (m + size - 1 - self.p) % size)))
        total = g.add(total, self.key.answer(box, (m + size - 1 - self.after) % size))
        return g.add(total, self.extra[box])


class Gate:
    """What a gate's dealer makes, and what the boxes answer. `out` is the output mask, `keys` the comparison keys."""
    keys = ()
    two = False
    flags = False

    def inputs(self, held):
        """The plain values."""
        return [unmasked(self.n, r, m) for r, m in zip(self.masks, held)]

    def in_range(self, held):
        return all(m < 2**self.n for m in held)

    def join(self, a, b):
        return a ^ b if self.flags else (a + b) % 2**self.n

    def held(self, held):
        """Both shares, the held output and the plain output."""
        shares = [self.share(box, *held) for box in (0, 1)]
        return shares, self.checked(held, self.join(*shares))

    def checked(self, held, joined):
        plain = self.plain(*self.inputs(held))
        assert joined == self.join(plain, self.out), (vars(self), held)
        return joined, plain


class Piece(Gate):
    def __init__(self, x, n, mask, p, q, coefficients, words):
        self.n, self.p, self.q, self.coefficients = n, p, q, coefficients
        r = mask % 2**n
        self.masks, self.out = (r,), words[0] % 2**n
        moved = [sum(c * BINOMIALS[j][k] * (-r)**(j - k) for j, c in enumerate(coefficients) if j >= k) % 2**64 for k in range(4)]
        self.interval = IntervalKeys(x, QUAD, n, r, p, q, QUAD.make(moved), words[1:13])
        self.keys, self.parts = (self.interval.key,), split_number(n, self.out, words[13])

    def share(self, box, m):
        answer = QUAD.parts(self.interval.answer(box, m))
        return (sum(w * m**k for k, w in enumerate(answer)) + self.parts[box]) % 2**self.n

    def plain(self, v):
        return sum(c * v**k for k, c in enumerate(self.coefficients)) % 2**self.n if self.p <= v <= self.q else 0


class Flag(Gate):
    flags = True

    def __init__(self, x, n, mask, p, q, pattern, words):
        self.n, self.p, self.q, self.pattern = n, p, q, pattern
        r = mask % 2**n
        self.masks, self.out = (r,), words[0] % 2**32
        self.interval = IntervalKeys(x, Flags, n, r, p, q, pattern, words[1:7])
        self.keys, self.parts = (self.interval.key,), split_flags(self.out, words[7])

    def share(self, box, m):
        return self.interval.answer(box, m) ^ self.parts[box]

    def plain(self, v):
        return self.pattern if self.p <= v <= self.q else 0


class Shift(Gate):
    def __init__(self, x, n, mask, s, words):
        self.n, self.s = n, s
        r = mask % 2**n
        self.masks, self.out = (r,), words[0] % 2**n
        self.low = Key(x, Words, s, r % 2**s, 2**64 - 1, words[1:5])
        self.high = Key(x, Words, n, r, 2**(n - s), words[5:9])
        self.keys, self.parts = (self.low, self.high), split_number(n, self.out - (r >> s), words[9])

    def share(self, box, m):
        low, high = self.low.answer(box, m % 2**self.s), self.high.answer(box, m)
        return (low + high + self.parts[box] + (m >> self.s) * box) % 2**self.n

    def plain(self, v):
        return v >> self.s


class Signed(Shift):
    def share(self, box, m):
        return (Shift.share(self, box, (m + 2**(self.n - 1)) % 2**self.n) - 2**(self.n - 1 - self.s) * box) % 2**self.n

    def plain(self, v):
        return ((v if v < 2**(self.n - 1) else v - 2**self.n) // 2**self.s) % 2**self.n


class Product(Gate):
    two = True

    def __init__(self, n, mask, mask2, words):
        self.n = n
        r, s = mask % 2**n, mask2 % 2**n
        self.masks, self.out = (r, s), words[0] % 2**n
        self.a, self.b = split_number(n, r, words[1]), split_number(n, s, words[2])
        self.c = split_number(n, r * s + self.out, words[3])

    def share(self, box, m, k):
        return (self.c[box] - m * self.b[box] - k * self.a[box] + m * k * box) % 2**self.n

    def plain(self, v, w):
        return v * w % 2**self.n


class Local(Gate):
    """A gate that each box works out alone, on the held values."""

    def held(self, held):
        return [], self.checked(held, self.whole(*held))


class Sum(Local):
    two = True

    def __init__(self, n, mask, mask2):
        self.n, self.masks, self.out = n, (mask % 2**n, mask2 % 2**n), (mask + mask2) % 2**n

    def whole(self, m, k):
        return (m + k) % 2**self.n

    plain = whole


class Scale(Local):
    def __init__(self, n, mask, c, d):
        self.n, self.c, self.d = n, c, d
        self.masks, self.out = (mask % 2**n,), c * mask % 2**n

    def whole(self, m):
        return (self.c * m + self.d) % 2**self.n

    plain = whole


class Xor(Local):
    two = True
    flags = True

    def __init__(self, n, mask, mask2):
        self.n, self.masks, self.out = n, (mask, mask2), mask ^ mask2

    def inputs(self, held):
        return [m ^ r for r, m in zip(self.masks, held)]

    def in_range(self, held):
        return True

    def whole(self, m, k):
        return m ^ k

    plain = whole
