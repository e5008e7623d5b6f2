#!/usr/bin/env python3
"""Spells this repository's own definitions and lemmas in snake case, after port.py.

usage: python3 tools/respell.py        at the top of the repository, once, right after port.py

A name that a file of specs/ or a lemma file of proofs/ declares, and that has a dash or a capital inside a word, gets
underscores. Names of src/ (functions, fields, parameters), the labels that Rattle makes of them (c.x, goal.x), types,
strings, inputs and outputs stay. Names that would fall together are said; here none do.
"""
import os
import re
import sys

TOKEN = re.compile(r'[^\s(){};,@"«»]+')
DECLARED = re.compile(r'(?m)^ *(?:(?:pub|abbrev|unfoldable|data|record) +)*([^\s(){}.;,@"«»:]+)(?: \{[^{}\n]*\})* :(?!:)')
BY_HAND = ("Answers.antt", "Invariants.antt", "Proof.antt", "Choices.antt")
LIBRARIES = ("std", "core", "io", "os", "libc")
# what else a name could mean where it is used: a field or parameter of src/, or a word of the library
OTHERWISE = {"in-range": "is_in_range"}


def files(endings):
    for top in ("crates",):
        for folder, below, names in os.walk(top):
            below[:] = sorted(b for b in below if b != "out")
            for name in sorted(names):
                if name.endswith(endings):
                    yield os.path.join(folder, name)


def read(path):
    with open(path, encoding="utf-8") as f:
        return f.read()


def spelled(name):
    return OTHERWISE.get(name, re.sub(r"(?<=[a-z0-9])[A-Z]", lambda m: "_" + m[0].lower(), name).replace("-", "_"))


def table():
    names = set()
    for path in files(".antt"):
        if os.path.basename(path) in BY_HAND:
            continue
        names |= set(DECLARED.findall(read(path)))
    turned = {n: spelled(n) for n in names if re.match(r"[a-z]", n) and spelled(n) != n}
    return turned, names


def clauses(text):
    """The spans of a .rt file in which antt stands: ghost use lines, ghost members, and clauses."""
    for m in re.finditer(r"\b(?:ghost use [^;]*;|(?:requires|ensures)\*? ?\w* ?\{|ghost \w* ?(?:[:=] ?)?\{)", text):
        end = m.end()
        if m[0].endswith("{"):
            depth = 1
            while depth:
                depth += {"{": 1, "}": -1}.get(text[end], 0)
                end += 1
        yield m.start(), end


def lent(text):
    """The names that a file takes from a library: they stay there."""
    names = set()
    for path, items in re.findall(r"\buse ([^\s;{]+)\{([^}]*)\}", text):
        if "::" in path:
            continue
        steps = path.rstrip(".").split(".")
        if steps[0] not in ("Rattle", "package") or len(steps) > 1 and steps[1] in LIBRARIES:
            names |= {item.strip() for item in items.split(",")}
    return names


def turn(text, names, path, kept):
    answers = os.path.basename(path) in BY_HAND
    labels = set(re.findall(r'goal\.([^\s(){}.;,@"«»]+)', text)) if answers else set()

    def word(m):
        parts = m[0].split(".")
        for i, part in enumerate(parts):
            if part not in names or part in kept or part in labels and (i == 0 or parts[i - 1] == "goal"):
                continue
            if answers and i == 1 and parts[0] in ("c", "l", "goal"):
                continue
            parts[i] = names[part]
        return ".".join(parts)

    return TOKEN.sub(word, text)


def main():
    names, declared = table()
    new = {}
    for old, to in sorted(names.items()):
        if to in new or to in declared:
            print(f"falls together: {old} and {new.get(to, to)}")
        new[to] = old
    changed = 0
    for path in files((".antt", ".rt", ".edit")):
        text = read(path)
        kept = lent(text)
        if path.endswith(".antt"):
            to = turn(text, names, path, kept)
        else:
            out, at = [], 0
            spans = clauses(text) if path.endswith(".rt") else ((m.start(), m.end()) for m in re.finditer(r"(?:requires|ensures).*", text))
            for a, e in spans:
                out += [text[at:a], turn(text[a:e], names, path, kept)]
                at = e
            to = "".join(out) + text[at:]
        if to != text:
            changed += 1
            if "--look" not in sys.argv:
                with open(path, "w", encoding="utf-8") as f:
                    f.write(to)
    print(f"respell: {len(names)} names, {changed} files")


if __name__ == "__main__":
    main()
