#!/usr/bin/env python3
"""Writes crates/test_sheet/stdin and crates/test_sheet/stdout.

The table below was written by hand from document 01, "The rule sheet" and "Who can bring on which number": a
name, the sheet, and what is expected of it, which is the number and the line of the refusal, or V, the start
variable and the endmarker byte of a sheet that is accepted. No expected number comes from the program under test;
all of them were compared with an independent implementation of document 01.

Run from the repository's root: python3 tests/make_test_sheet.py
"""
import os

H = "    6    1   46    0    0\n"    # V 6, start 1, endmarker 46
H2 = "    2    1   46    0    0\n"   # V 2

# 256 rules, one for each variable that a sheet can have.
FULL = "".join(f"{variable:5}    4    1  256{variable:5}\n" for variable in range(1, 257))

REFUSED, ACCEPTED = "refused", "accepted"

CASES = [
    # Document 01's sheet H.
    ("sheet H", H
     + "    1    4    2    3    3\n"
     + "    2    2   45    0    0\n"
     + "    3    4    4    5    6\n"
     + "    4    3    1    0    0\n"
     + "    5    2   46    0    0\n"
     + "    6    1    0    0    0\n", ACCEPTED, 6, 1, 46),

    # 1: length 0, not a multiple of 26, over 257 lines, or a line without byte 10 at its end (line 0).
    ("empty sheet", "", REFUSED, 1, 0),
    ("25 bytes", "    6    1   46    0    0", REFUSED, 1, 0),
    ("27 bytes", H + "\n", REFUSED, 1, 0),
    ("258 lines", "  256    1   46    0    0\n" + FULL + "    1    0    0    0    0\n", REFUSED, 1, 0),
    ("257 lines", "  256  256  255    0    0\n" + FULL, ACCEPTED, 256, 256, 255),
    ("line 1 without byte 10", "    6    1   46    0    0 ", REFUSED, 1, 0),
    ("byte 13 for byte 10", H + "    1    0    0    0    0\r", REFUSED, 1, 0),
    ("1 before 2: line 3 is open, line 1 is malformed",
     "    x    1   46    0    0\n    1    0    0    0    0\n    2    0    0    0    0 ", REFUSED, 1, 0),
    ("1 before 2: the last line is open and its first field malformed", H + "   x1    0    0    0    0 ", REFUSED, 1, 0),

    # 2: blanks, then digits, no leading zero, zero written `0`.
    ("only line 1", H, ACCEPTED, 6, 1, 46),
    ("leading zeros", "00001    1   46    0    0\n", REFUSED, 2, 1),
    ("zero written twice", "    6    1   46   00    0\n", REFUSED, 2, 1),
    ("blank field", "    6    1         0    0\n", REFUSED, 2, 1),
    ("tab for a blank", "    6\t   1   46    0    0\n", REFUSED, 2, 1),
    ("digit, then blank", "   6     1   46    0    0\n", REFUSED, 2, 1),
    ("blank between digits", "  1 6    1   46    0    0\n", REFUSED, 2, 1),
    ("sign", "   +6    1   46    0    0\n", REFUSED, 2, 1),
    ("byte 47, before the digits", "    /    1   46    0    0\n", REFUSED, 2, 1),
    ("byte 58, after the digits", "    :    1   46    0    0\n", REFUSED, 2, 1),
    ("byte 10 inside a field of line 1", "    6   \n1   46    0    0\n", REFUSED, 2, 1),
    ("byte 10 inside a field of line 2", H + "    1    0  \n 0    0    0\n", REFUSED, 2, 2),
    ("last field of line 2", H + "    1    0    0    0    a\n", REFUSED, 2, 2),
    ("2 before 3 on line 1", "    0    1   46    0    x\n", REFUSED, 2, 1),
    ("2 before 4 and 5 on a line", H + "    9    5    0    0    x\n", REFUSED, 2, 2),

    # 3: V 1 to 256, start 1 to V, endmarker 0 to 255, 0, 0.
    ("least line 1", "    1    1    0    0    0\n", ACCEPTED, 1, 1, 0),
    ("greatest line 1", "  256  256  255    0    0\n", ACCEPTED, 256, 256, 255),
    ("V 0", "    0    0   46    0    0\n", REFUSED, 3, 1),
    ("V 257", "  257    1   46    0    0\n", REFUSED, 3, 1),
    ("V 99999", "99999    1   46    0    0\n", REFUSED, 3, 1),
    ("start 0", "    6    0   46    0    0\n", REFUSED, 3, 1),
    ("start V + 1", "    6    7   46    0    0\n", REFUSED, 3, 1),
    ("endmarker 256", "    6    1  256    0    0\n", REFUSED, 3, 1),
    ("fourth field 1", "    6    1   46    1    0\n", REFUSED, 3, 1),
    ("fifth field 1", "    6    1   46    0    1\n", REFUSED, 3, 1),
    ("3 on line 1 before 2 on line 2", "    6    7   46    0    0\n    x    0    0    0    0\n", REFUSED, 3, 1),

    # 4: variable not in 1 to V or not above the line before.
    ("variable 1 on line 2, below V", H + "    1    0    0    0    0\n", ACCEPTED, 6, 1, 46),
    ("a variable left out", H + "    2    0    0    0    0\n    5    1    0    0    0\n", ACCEPTED, 6, 1, 46),
    ("variable 0", H + "    0    0    0    0    0\n", REFUSED, 4, 2),
    ("variable V + 1", H + "    7    0    0    0    0\n", REFUSED, 4, 2),
    ("variable 99999", H + "99999    0    0    0    0\n", REFUSED, 4, 2),
    ("repeated variable", H + "    2    0    0    0    0\n    2    0    0    0    0\n", REFUSED, 4, 3),
    ("falling variable", H + "    3    0    0    0    0\n    2    0    0    0    0\n", REFUSED, 4, 3),
    ("more lines than variables", H2 + "    1    0    0    0    0\n    2    0    0    0    0\n    3    0    0    0    0\n",
     REFUSED, 4, 4),
    ("4 before 5 on a line", H + "    7    5    0    0    0\n", REFUSED, 4, 2),

    # 5: kind over 4 or operands not fitting.
    ("kind 5", H + "    1    5    0    0    0\n", REFUSED, 5, 2),
    ("kind 99999", H + "    199999    0    0    0\n", REFUSED, 5, 2),
    ("kind 0 with an operand", H + "    1    0    1    0    0\n", REFUSED, 5, 2),
    ("kind 1 with an operand", H + "    1    1    0    0    1\n", REFUSED, 5, 2),
    ("kind 2 with byte 0", H + "    1    2    0    0    0\n", ACCEPTED, 6, 1, 46),
    ("kind 2 with byte 255", H + "    1    2  255    0    0\n", ACCEPTED, 6, 1, 46),
    ("kind 2 with byte 256", H + "    1    2  256    0    0\n", REFUSED, 5, 2),
    ("kind 2 with a second operand", H + "    1    2   97    1    0\n", REFUSED, 5, 2),
    ("kind 3 with class 0", H + "    1    3    0    0    0\n", REFUSED, 5, 2),
    ("kind 3 with class 1", H + "    1    3    1    0    0\n", ACCEPTED, 6, 1, 46),
    ("kind 3 with class 6", H + "    1    3    6    0    0\n", ACCEPTED, 6, 1, 46),
    ("kind 3 with class 7", H + "    1    3    7    0    0\n", REFUSED, 5, 2),
    ("kind 3 with a third operand", H + "    1    3    1    0    1\n", REFUSED, 5, 2),
    ("kind 4 with variables without a rule", H + "    1    4    6    6    6\n", ACCEPTED, 6, 1, 46),
    ("kind 4 with first operand 0", H + "    1    4    0    1    1\n", REFUSED, 5, 2),
    ("kind 4 with second operand V + 1", H + "    1    4    1    7    1\n", REFUSED, 5, 2),
    ("kind 4 with third operand 0", H + "    1    4    1    1    0\n", REFUSED, 5, 2),

    # The order of lines.
    ("5 on line 3 before 2 on line 5", H + "    1    0    0    0    0\n    2    5    0    0    0\n"
     + "    3    0    0    0    0\n    x    0    0    0    0\n", REFUSED, 5, 3),
    ("2 on line 3 before 4 on line 5", H + "    1    0    0    0    0\n    2    0    x    0    0\n"
     + "    3    0    0    0    0\n    3    0    0    0    0\n", REFUSED, 2, 3),
]


def expected(outcome, *numbers):
    return (0, *numbers) if outcome == ACCEPTED else numbers


def main():
    folder = os.path.join(os.path.dirname(os.path.dirname(os.path.abspath(__file__))), "crates", "test_sheet")
    with open(os.path.join(folder, "stdin"), "wb") as given, open(os.path.join(folder, "stdout"), "wb") as answers:
        for _, sheet, *answer in CASES:
            given.write(b"%8d\n" % len(sheet) + sheet.encode("ascii"))
            answers.write(b"".join(b"%8d" % number for number in expected(*answer)) + b"\n")


if __name__ == "__main__":
    main()
