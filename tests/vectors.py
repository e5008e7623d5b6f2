"""Writes stdin and stdout of two crates: of vectors the orders of gates.py and keys.py and their answers, of plan_vectors the
lines of books.py and theirs.
Run it from anywhere: python3 tests/vectors.py"""
import books
import gates
import keys


def main():
    for crate, tables in (("vectors", [gates.vectors(), keys.vectors()]), ("plan_vectors", [books.vectors()])):
        for column, name in enumerate(("stdin", "stdout")):
            keys.write(keys.crate(crate, name), [line for table in tables for line in table[column]])


if __name__ == "__main__":
    main()
