#!/usr/bin/env python3
"""Writes crates/test_output/stdin and crates/test_output/stdout.

The table below was written by hand from document 01, "Marked entries", and document 02, order 11: a sheet, an entry, and what `readentry`
prints for them. No expected line comes from the program under test.

Run from the repository's root: python3 tests/make_test_output.py
"""
import os

# Document 01's sheet H.
H = ("    6    1   46    0    0\n"
     + "    1    4    2    3    3\n"
     + "    2    2   45    0    0\n"
     + "    3    4    4    5    6\n"
     + "    4    3    1    0    0\n"
     + "    5    2   46    0    0\n"
     + "    6    1    0    0    0\n")

CASES = [
    # A failure with its reading: case f.
    (H,
     "x",
     "       1       0       0       5\n"
     + "       2       0       1       0       0       0\n"
     + "       4       0       1       0       0       0\n"
     + "       6       0       1       0       0       0\n"
     + "       3       0       1       0       2       3\n"
     + "       1       0       1       0       1       4\n"),

    # Partial, with its reading: case i.
    ("    3    1   46    0    0\n"
     + "    1    4    2    1    3\n"
     + "    2    2   97    0    0\n"
     + "    3    0    0    0    0\n",
     "aa.",
     "       5       0       2       7\n"
     + "       2       0       0       1       0       0\n"
     + "       2       1       0       2       0       0\n"
     + "       2       2       1       2       0       0\n"
     + "       3       2       0       2       0       0\n"
     + "       1       2       0       2       3       4\n"
     + "       1       1       0       2       2       5\n"
     + "       1       0       0       2       1       6\n"),

    # A loop through the second called variable: case h.
    ("    3    1   46    0    0\n"
     + "    1    4    2    1    3\n"
     + "    2    0    0    0    0\n"
     + "    3    1    0    0    0\n",
     "",
     "       2       1       0       2\n"),

    # A missing rule: case j.
    ("    2    1   46    0    0\n"
     + "    1    4    2    2    2\n",
     "",
     "       3       2       0       2\n"),

    # A byte rule at the entry's end fails.
    ("    2    1   46    0    0\n"
     + "    1    4    2    2    2\n"
     + "    2    2   46    0    0\n",
     ".",
     "       1       0       0       3\n"
     + "       2       0       0       1       0       0\n"
     + "       2       1       1       1       0       0\n"
     + "       1       0       1       0       1       2\n"),

    # The same in case e, whose entry has no closing mark.
    (H,
     "-6",
     "       1       0       0       5\n"
     + "       2       0       0       1       0       0\n"
     + "       4       1       0       2       0       0\n"
     + "       5       2       1       2       0       0\n"
     + "       3       1       1       1       2       3\n"
     + "       1       0       1       0       1       4\n"),

    # Recognised without a closing mark.
    ("    1    1   46    0    0\n"
     + "    1    3    1    0    0\n",
     "6",
     "       0       0       1       1\n"
     + "       1       0       0       1       0       0\n"),

    # The endmarker is a byte like others: case a with more behind it is partial.
    (H,
     "-6.6.",
     "       5       0       3       5\n"
     + "       2       0       0       1       0       0\n"
     + "       4       1       0       2       0       0\n"
     + "       5       2       0       3       0       0\n"
     + "       3       1       0       3       2       3\n"
     + "       1       0       0       3       1       4\n"),

    # An empty entry: recognised where the start variable succeeds at 0, a loop in case g.
    ("    1    1   46    0    0\n"
     + "    1    0    0    0    0\n",
     "",
     "       0       0       0       1\n"
     + "       1       0       0       0       0       0\n"),
    ("    1    1   46    0    0\n"
     + "    1    4    1    1    1\n",
     "",
     "       2       1       0       1\n"),

    # Refusal 2: a leading zero on line 3.
    ("    6    1   46    0    0\n"
     + "    1    4    2    3    3\n"
     + "    2    2  045    0    0\n"
     + "    3    4    4    5    6\n"
     + "    4    3    1    0    0\n"
     + "    5    2   46    0    0\n"
     + "    6    1    0    0    0\n",
     "-6.",
     "       9       2       3       0\n"),

    # Refusal 10: one variable and 1,024 bytes, none of them the endmarker, so 1,025 cells.
    ("    1    1   46    0    0\n"
     + "    1    0    0    0    0\n",
     "a" * 1024,
     "       9      10       0       0\n"),
]


def main():
    folder = os.path.join(os.path.dirname(os.path.dirname(os.path.abspath(__file__))), "crates", "test_output")
    with open(os.path.join(folder, "stdin"), "wb") as given, open(os.path.join(folder, "stdout"), "wb") as answers:
        for sheet, entry, output in CASES:
            given.write(b"%8d%8d\n" % (len(sheet), len(entry)) + sheet.encode("ascii") + entry.encode("ascii"))
            answers.write(output.encode("ascii"))


if __name__ == "__main__":
    main()
