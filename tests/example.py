"""Writes what the built-in examples print, crates/wukraslo/stdout and crates/plan_example/stdout, by the independent calculation of reference.py. Run it
from anywhere: python3 tests/example.py"""
import books
import gates
from keys import Console, crate, deal_line, write

def keys():
    console, out = Console(), []
    roots = (bytes(range(16)), bytes(range(16, 32)))

    def key(kind, alpha):
        out.append("> " + deal_line(kind, "words", 3, alpha, [1], *roots))
        out.extend(console.deal(kind, "words", 3, alpha, [1], *roots))

    def at(m):
        out.append(f"> at {m}")
        out.extend(console.at(m))

    def points():
        out.append("Both boxes answer below, at and above the threshold, and the answers are joined:")
        for m in (4, 5, 6):
            at(m)

    out.append("A comparison, split into two keys: payload 1 below threshold 5, at width 3.")
    out.append("Kind 1, AES-128. Each box gets its root; rows and final element are common:")
    key(1, 5)
    points()
    out.append("The same with kind 2, ChaCha20:")
    key(2, 5)
    points()
    out.append("A threshold out of range is refused, and the last key stays:")
    key(2, 8)
    at(4)
    return out


GATES = (
    ("A piece: 5 + 3 v for v from 2 to 13. The mask is 10, so the held value 0 is the plain value 6:",
     "gate 1 piece 4 10 2 13 5,3,0,0 21,22,23,24,25,26,27,28,29,30,31,32,33,34", "hold 0"),
    ("A flag gate: pattern 5 in the upper half. Mask 7, plain value 12:", "gate 2 flag 4 7 8 15 5 41,42,43,44,45,46,47,48", "hold 3"),
    ("A shift by 2 bits. Mask 11, plain value 13:", "gate 1 shift 4 11 2 51,52,53,54,55,56,57,58,59,60", "hold 8"),
    ("A signed shift by 2 bits. Mask 11, plain value 13, which counts as -3; rounded down that is -1, or 15:",
     "gate 2 signed 4 11 2 61,62,63,64,65,66,67,68,69,70", "hold 8"),
    ("A product. Masks 3 and 5, plain values 4 and 6:", "gate 1 product 4 3 5 2,71,72,73", "hold 7 11"),
    ("A sum, worked by each box alone, on held values and on masks:", "gate 1 sum 4 3 5", "hold 7 11"),
    ("A scale: 3 v + 4. The 4 goes into the held value only:", "gate 1 scale 4 3 3 4", "hold 7"),
    ("An xor of two flag wires, masks 3 and 5:", "gate 1 xor 4 3 5", "hold 7 11"),
)


def gate_lines():
    console = gates.Console()
    out = ["Gates on masked numbers, at width 4: both boxes' shares join to the plain meaning plus the output mask."]
    for said, deal, hold in GATES:
        out.append(said)
        for line in (deal, hold):
            out.append("> " + line)
            out.extend(console.answers(line))
    return out


PARKS = (
    ("The connection's limit of two parks as a plan, at width 16, in units of 10 kW. The limit is 40 MW, or 4000.",
     "Wires 0 and 1 are the planned feed-in of park 0 and park 1, each put in by its own box; wire 2 is their sum:",
     "plan 16 0,1", "hidden sum 0 1"),
    ("Wire 3 is the excess: v - 4000 from 4001 on, otherwise 0. The number 61536 stands for -4000:",
     "hidden piece 2 4001 65535 61536,1,0,0"),
    ("Park 0 cuts back five eighths of the excess, rounded up: 5 v + 7, shifted by 3 bits. Wire 5 is shown:",
     "hidden scale 3 5 7", "shown shift 4 3"),
    ("Park 1 cuts back the rest, the excess less wire 5. Wire 7 is shown:", "hidden scale 5 65535 0", "shown sum 3 6"),
    ("Alarm flags: 1 above the limit, and 2 as well above 44 MW. Wire 10 is shown:",
     "hidden flag 2 4001 65535 1", "hidden flag 2 4401 65535 2", "shown xor 8 9"),
    ("So with 30 MW and 25 MW park 0 cuts back 9.38 MW, park 1 5.62 MW, and both flags rise.",
     "The plan takes 42 random words: one for each input's mask, then 14, 10, 8 and 8 for the gates with keys:",
     "words 101,102,103,104,105,106,107,108,109,110,111,112,113,114,115,116,117,118,119,120,121",
     "words 122,123,124,125,126,127,128,129,130,131,132,133,134,135,136,137,138,139,140,141,142"),
    ("Both books in outline. Each box is given the masks of its own input and of the shown wires, and its own keys:",
     "outline 1 2026"),
    ("A small plan with all of its bytes: one input of box 0, and a shown scale, 3 v + 1:",
     "plan 8 0", "shown scale 0 3 1", "words 200", "books 1 7"),
    ("Box 1 reads its book. A box with another kind of expander refuses it, and any box where a number is not below 256:",
     "book 1 01010108070000000101000031000000200000000100000021000000100000000002000001580000000300000001000000",
     "book 2 01010108070000000101000031000000200000000100000021000000100000000002000001580000000300000001000000",
     "book 1 01010108070000000101000031000000200000000100000021000000100000000002000001580000000300000000010000"),
    ("The square of an input takes five random words; with four it is refused:",
     "plan 8 0", "shown product 0 0", "words 1,2,3,4", "books 1 1", "words 5", "books 1 1"),
)
ORDERS = ("plan", "hidden", "shown", "words", "outline", "books", "book")


def plan_lines():
    office, out = books.Office(), []
    for block in PARKS:
        for line in block:
            if line.split()[0] in ORDERS:
                out.append("> " + line)
                out.extend(office.answers(line))
            else:
                out.append(line)
            if line.startswith("outline"):
                assert [office.plan.plain((3000, 2500))[k] for k in (5, 7, 10)] == [938, 562, 3]
                assert office.plan.needed() == len(office.words) == 42
    return out


if __name__ == "__main__":
    write(crate("wukraslo", "stdout"), keys() + gate_lines())
    write(crate("plan_example", "stdout"), plan_lines())
