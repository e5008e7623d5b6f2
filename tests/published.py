"""Writes crates/published/stdout, the lines that the program `published` must write.

The values of FIPS 197 (appendices A.1, B and, of the edition of 2001, C.1) and of RFC 8439 (sections 2.1.1, 2.2.1 and
2.3.2, appendix A.1) are those that the documents print. All but the round keys and the quarter rounds are also held to
Python's package `cryptography`; those two are held to the rules of the documents, written out below. What kinds 1 and 2
make of the seed 00 01 .. 0f comes from `cryptography` alone. Nothing here comes from the program.

Run it in the repository's folder: python3 tests/published.py, or with --check to compare and write nothing.
"""
import pathlib
import sys

from cryptography.hazmat.primitives.ciphers import Cipher, algorithms, modes

STDOUT = pathlib.Path("crates/published/stdout")


def aes(key, block):
    encryptor = Cipher(algorithms.AES(key), modes.ECB()).encryptor()
    return encryptor.update(block) + encryptor.finalize()


def chacha(key, counter, nonce):
    """The block of RFC 8439; the package takes the counter and the nonce as one value of 16 bytes."""
    encryptor = Cipher(algorithms.ChaCha20(key, counter.to_bytes(4, "little") + nonce), mode=None).encryptor()
    return encryptor.update(bytes(64))


# FIPS 197, the rules of section 5.2

def times(a, b):
    product = 0
    while b:
        if b & 1:
            product ^= a
        a = (a << 1) ^ (0x11B if a & 0x80 else 0)
        b >>= 1
    return product


def s_box(b):
    inverse = next((x for x in range(256) if times(b, x) == 1), 0)
    result = 0x63
    for turn in range(5):
        result ^= (inverse << turn | inverse >> (8 - turn)) & 0xFF
    return result


def key_expansion(key):
    words = [key[i:i + 4] for i in range(0, 16, 4)]
    constant = 1
    for i in range(4, 44):
        temp = words[i - 1]
        if i % 4 == 0:
            temp = bytes(s_box(b) for b in temp[1:] + temp[:1])
            temp = bytes([temp[0] ^ constant]) + temp[1:]
            constant = times(constant, 2)
        words.append(bytes(x ^ y for x, y in zip(words[i - 4], temp)))
    return [b"".join(words[i:i + 4]) for i in range(0, 44, 4)]


# RFC 8439, the rule of section 2.1

def quarter_round(a, b, c, d):
    def line(x, y, z, bits):
        x = (x + y) % 2**32
        z ^= x
        return x, (z << bits | z >> (32 - bits)) % 2**32

    a, d = line(a, b, d, 16)
    c, b = line(c, d, b, 12)
    a, d = line(a, b, d, 8)
    c, b = line(c, d, b, 7)
    return a, b, c, d


def numbers(text):
    return [int(word, 16) for word in text.split()]


# FIPS 197, appendix A.1: the words w[0] to w[43], four to a round key
CIPHER_KEY = bytes.fromhex("2b7e151628aed2a6abf7158809cf4f3c")
ROUND_KEYS = """
2b7e1516 28aed2a6 abf71588 09cf4f3c
a0fafe17 88542cb1 23a33939 2a6c7605
f2c295f2 7a96b943 5935807a 7359f67f
3d80477d 4716fe3e 1e237e44 6d7a883b
ef44a541 a8525b7f b671253b db0bad00
d4d1c6f8 7c839d87 caf2b8bc 11f915bc
6d88a37a 110b3efd dbf98641 ca0093fd
4e54f70e 5f5fc9f3 84a64fb2 4ea6dc4f
ead27321 b58dbad2 312bf560 7f8d292f
ac7766f3 19fadc21 28d12941 575c006e
d014f9a8 c9ee2589 e13f0cc8 b6630ca6
""".strip().splitlines()

# FIPS 197, appendices B and C.1: key, input, output
APPENDIX_B = ("2b7e151628aed2a6abf7158809cf4f3c", "3243f6a8885a308d313198a2e0370734", "3925841d02dc09fbdc118597196a0b32")
APPENDIX_C1 = ("000102030405060708090a0b0c0d0e0f", "00112233445566778899aabbccddeeff", "69c4e0d86a7b0430d8cdb78070b4c55a")

# RFC 8439, 2.1.1: before and after
QUARTER_BEFORE = "11111111 01020304 9b8d6f43 01234567"
QUARTER_AFTER = "ea2a92f4 cb1cf8ce 4581472e 5881c4bb"

# RFC 8439, 2.2.1: the state before and after the quarter round on the words 2, 7, 8 and 13
STATE_BEFORE = """
879531e0 c5ecf37d 516461b1 c9a62f8a
44c20ef3 3390af7f d9fc690b 2a5f714c
53372767 b00a5631 974c541a 359e9963
5c971061 3d631689 2098d9d6 91dbd320
"""
STATE_AFTER = """
879531e0 c5ecf37d bdb886dc c9a62f8a
44c20ef3 3390af7f d9fc690b cfacafd2
e46bea80 b00a5631 974c541a 359e9963
5c971061 ccc07c79 2098d9d6 91dbd320
"""

# RFC 8439, 2.3.2 and appendix A.1: name, key, counter, nonce, block
COUNTING_KEY = "000102030405060708090a0b0c0d0e0f101112131415161718191a1b1c1d1e1f"
ZERO_KEY = "00" * 32
ZERO_NONCE = "00" * 12
BLOCKS = [
    ("2.3.2 block", COUNTING_KEY, 1, "000000090000004a00000000",
     "10f1e7e4d13b5915500fdd1fa32071c4c7d1f4c733c068030422aa9ac3d46c4e"
     "d2826446079faa0914c2d705d98b02a2b5129cd1de164eb9cbd083e8a2503c4e"),
    ("A.1 vector 1", ZERO_KEY, 0, ZERO_NONCE,
     "76b8e0ada0f13d90405d6ae55386bd28bdd219b8a08ded1aa836efcc8b770dc7"
     "da41597c5157488d7724e03fb8d84a376a43b8f41518a11cc387b669b2ee6586"),
    ("A.1 vector 2", ZERO_KEY, 1, ZERO_NONCE,
     "9f07e7be5551387a98ba977c732d080dcb0f29a048e3656912c6533e32ee7aed"
     "29b721769ce64e43d57133b074d839d531ed1f28510afb45ace10a1f4b794d6f"),
    ("A.1 vector 3", "00" * 31 + "01", 1, ZERO_NONCE,
     "3aeb5224ecf849929b9d828db1ced4dd832025e8018b8160b82284f3c949aa5a"
     "8eca00bbb4a73bdad192b5c42f73f2fd4e273644c8b36125a64addeb006c13a0"),
    ("A.1 vector 4", "00ff" + "00" * 30, 2, ZERO_NONCE,
     "72d54dfbf12ec44b362692df94137f328fea8da73990265ec1bbbea1ae9af0ca"
     "13b25aa26cb4a648cb9b9d1be65b2c0924a66c54d545ec1b7374f4872e99f096"),
    ("A.1 vector 5", ZERO_KEY, 0, "00" * 11 + "02",
     "c2c64d378cd536374ae204b9ef933fcd1a8b2288b3dfa49672ab765b54ee27c7"
     "8a970e0e955c14f3a88e741b97c286f75f8fc299e8148362fa198a39531bed6d"),
]

SEED = bytes(range(16))


def fips197():
    for i, (words, expanded) in enumerate(zip(ROUND_KEYS, key_expansion(CIPHER_KEY), strict=True)):
        round_key = words.replace(" ", "")
        assert bytes.fromhex(round_key) == expanded
        yield f"FIPS 197 A.1 round key {i}: {round_key}"
    for name, (key, plain, output) in (("B", APPENDIX_B), ("C.1", APPENDIX_C1)):
        assert aes(bytes.fromhex(key), bytes.fromhex(plain)).hex() == output
        yield f"FIPS 197 {name} output: {output}"


def rfc8439():
    assert list(quarter_round(*numbers(QUARTER_BEFORE))) == numbers(QUARTER_AFTER)
    for i, word in enumerate(QUARTER_AFTER.split()):
        yield f"RFC 8439 2.1.1 word {i}: {word}"
    state = numbers(STATE_BEFORE)
    state[2], state[7], state[8], state[13] = quarter_round(state[2], state[7], state[8], state[13])
    assert state == numbers(STATE_AFTER)
    for i, word in enumerate(STATE_AFTER.split()):
        yield f"RFC 8439 2.2.1 word {i}: {word}"
    for name, key, counter, nonce, block in BLOCKS:
        assert chacha(bytes.fromhex(key), counter, bytes.fromhex(nonce)).hex() == block
        yield f"RFC 8439 {name}: {block}"


def expansion(kind, left, left_value, right, right_value, bits, drawn):
    """The lines of one kind: its four seeds, the two lowest bits and the eight words, little-endian."""
    yield f"kind {kind} left: {left.hex()}"
    yield f"kind {kind} left value: {left_value.hex()}"
    yield f"kind {kind} left bit: {bits[0] % 2:02x}"
    yield f"kind {kind} right: {right.hex()}"
    yield f"kind {kind} right value: {right_value.hex()}"
    yield f"kind {kind} right bit: {bits[1] % 2:02x}"
    for i in range(0, 64, 8):
        yield f"kind {kind} word: {int.from_bytes(drawn[i:i + 8], 'little'):016x}"


def kinds():
    one = [aes(SEED, number.to_bytes(16, "big")) for number in range(9)]
    two = [chacha(SEED + SEED, counter, bytes(12)) for counter in range(3)]
    for number, block in enumerate(one):
        yield f"kind 1 block {number}: {block.hex()}"
    for counter, block in enumerate(two):
        yield f"kind 2 counter {counter}: {block.hex()}"
    yield from expansion(1, *one[:4], bits=one[4], drawn=b"".join(one[5:]))
    yield from expansion(2, *(two[0][i:i + 16] for i in range(0, 64, 16)), bits=two[1], drawn=two[2])


def main():
    text = "".join(f"{line}\n" for lines in (fips197(), rfc8439(), kinds()) for line in lines)
    if sys.argv[1:] == ["--check"]:
        if STDOUT.read_text() != text:
            sys.exit(f"{STDOUT} differs")
    else:
        STDOUT.write_text(text)


main()
