#!/usr/bin/env python3
"""Makes the data and the expected output of crates/test_shorthand, and SOURCES.txt beside this file.

    python3 tests/shorthand/make.py --reference READER

READER is an implementation of documents 01 and 02 in Python, reader.py, made apart from this repository; it answers as of order 11. lua5.4
and lua-lpeg are installed from Debian where they are absent. It is run by hand; a second run writes the same bytes. The texts are in texts.py.

What comes from where:
  texts.py          the number of each refusal, by hand from document 02; reader.py agrees.
  LPeg (judge.lua)  the letters of an accepted text, in order, and the outcomes of each letter whose rules LPeg takes. It refuses rules that
                    may be left recursive.
  reader.py         loops, and the outcomes of letters whose rules LPeg refuses; allowances.
Where two judge they must agree, or this script ends with an error. Nothing comes from the program under test. The layout of the files is
described in crates/test_shorthand/src/main.rt.
"""
import argparse
import collections
import os
import subprocess
import sys
import tempfile

HERE = os.path.dirname(os.path.abspath(__file__))
sys.path.append(os.path.join(HERE, ".."))

import texts
from making import Store, install, line, load_reference, stop

CRATE = os.path.join(HERE, "..", "..", "crates", "test_shorthand")

FILE_BYTES = 65536      # the program's buffers
OUTPUT_BYTES = 8192
UNTOUCHED = 1           # what the program prints of an output that is unchanged behind the returned length

ORDER = 11              # reader.py answers as of this order of document 02: a byte at the entry's end fails
CODES = {"failure": 1, "loop": 2, "missing": 3}
SUCCESS = 5             # its code is this and the end

LPEG_SECONDS = 60


# ---------------------------------------------------------------- the judges

class Judge:
    """LPeg, in a process for each text and entry."""

    def __init__(self, folder): self.text, self.entry = os.path.join(folder, "text"), os.path.join(folder, "entry")

    def outcomes(self, text, entry):
        """For each letter its outcomes, or None where LPeg refuses its rules."""
        for path, content in ((self.text, text), (self.entry, entry)):
            with open(path, "wb") as file: file.write(content)
        words = ["lua5.4", os.path.join(HERE, "judge.lua"), self.text, self.entry]
        try: done = subprocess.run(words, capture_output=True, text=True, timeout=LPEG_SECONDS)
        except subprocess.TimeoutExpired: stop(f"LPeg took over {LPEG_SECONDS} seconds: {text} {entry}")
        if done.returncode != 0: stop("judge.lua: " + done.stderr)
        found = dict(row.split("\t") for row in done.stdout.splitlines())
        return {letter: None if said == "left recursion" else [int(x) for x in said.split()] for letter, said in found.items()}


class Reference:
    """reader.py."""

    def __init__(self, module): self.module = module

    def refusal(self, text, room):
        """The number of the refusal, or 0."""
        out = bytearray(room)
        found = self.module.shorthand(text, out)
        return found.number if isinstance(found, self.module.Refusal) else 0

    def sizes(self, text):
        """The number of letters and the allowance of a text of the form."""
        lines = self.module.parse_shorthand(text)
        return len(self.module.letters_in_order(lines)), self.module.allowance(lines)

    def room(self, text):
        """The shortest output that a text of the form may be given."""
        return 26 * (self.sizes(text)[1] + 1)

    def outcomes(self, text, entry):
        """For each letter its outcomes, read directly."""
        lines = self.module.parse_shorthand(text)
        direct = self.module.Direct(lines, entry, ORDER)
        return {chr(letter): [self.code(direct.letter(letter, place)) for place in range(len(entry) + 1)]
                for letter in self.module.letters_in_order(lines)}

    def code(self, outcome): return SUCCESS + outcome.end if outcome.kind == "success" else CODES[outcome.kind]


# ---------------------------------------------------------------- requests and answers

class Maker:
    def __init__(self, reference, judge):
        self.reference, self.judge = reference, judge
        self.texts, self.entries, self.requests, self.expected = Store(), Store(), [], []
        self.sources, self.tally = [], collections.Counter()

    def request(self, text, entry, room, least=0, greatest=0):
        """Adds a request; its number."""
        self.requests.append(line(*self.texts.place(text), *self.entries.place(entry), room, least, greatest))
        return len(self.requests)

    def refused(self, number, text, room):
        """A text that is refused with this number."""
        said = self.reference.refusal(text, room)
        if said != number: stop(f"texts.py says {number}, the reference {said}: {text}")
        request = self.request(text, b"", room)
        self.expected.append(line(request, number, UNTOUCHED))
        self.note(request, f"refused with {number}", text, b"", room, "by hand, and reader.py")

    def accepted(self, group, text, entry, room):
        """A text that is accepted, with the outcomes of its letters."""
        if self.reference.refusal(text, room) != 0: stop(f"the reference refuses {text}")
        request = self.request(text, entry, room, *self.reference.sizes(text))
        self.expected.append(line(request, 0, UNTOUCHED, 1, 1))
        direct, theirs = self.reference.outcomes(text, entry), self.judge.outcomes(text, entry)
        if list(direct) != list(theirs): stop(f"LPeg sees the letters {list(theirs)}, the reference {list(direct)}: {text}")
        for variable, letter in enumerate(direct, 1):
            if theirs[letter] not in (None, direct[letter]): stop(f"LPeg says {theirs[letter]}, the reference {direct[letter]}: {text} {entry}")
            self.expected.append(line(request, variable, *direct[letter]))
            self.count(direct[letter], "reader.py" if theirs[letter] is None else "LPeg")
        self.note(request, group, text, entry, room, self.judges(theirs))

    def judges(self, theirs):
        """Who judges which letters."""
        by = {"LPeg": [x for x in theirs if theirs[x] is not None], "reader.py": [x for x in theirs if theirs[x] is None]}
        return "; ".join(f"{judge}: {''.join(letters)}" for judge, letters in by.items() if letters)

    def count(self, outcomes, judge):
        names = {code: name for name, code in CODES.items()}
        for code in outcomes: self.tally[("outcome", f"{names.get(code, 'success')}, {judge}")] += 1

    def note(self, request, group, text, entry, room, source):
        self.tally[("request", group if group.startswith("refused") else "accepted")] += 1
        self.sources.append(f"{request:5} {len(text):5} {len(entry):5} {room:5}  {source:42} {group}")

    def write(self):
        """Writes the files of the crate; how many bytes each has."""
        files = {"texts": bytes(self.texts.data), "entries": bytes(self.entries.data), "requests.txt": b"".join(self.requests)}
        os.makedirs(os.path.join(CRATE, "data"), exist_ok=True)
        for name, content in files.items():
            if len(content) > FILE_BYTES: stop(f"{name} is longer than the program's buffer")
            with open(os.path.join(CRATE, "data", name), "wb") as file: file.write(content)
        with open(os.path.join(CRATE, "stdout"), "wb") as file: file.write(b"".join(self.expected))
        return {name: len(content) for name, content in files.items()}


def add_accepted(maker):
    """Each accepted text with each of its entries, in the shortest output and in a longer one by turns."""
    for group, text, entries in texts.ACCEPTED:
        shortest = maker.reference.room(text)
        for i, entry in enumerate(entries):
            entry = entry.encode("latin-1") if isinstance(entry, str) else entry
            if len(entry) > 12: stop(f"a long entry: {entry}")
            maker.accepted(group, text, entry, (shortest, OUTPUT_BYTES, shortest + 1)[i % 3])


def add_refused(maker):
    """Each refused text, with a long output and with none; and accepted ones whose output is too short."""
    for number, text in texts.REFUSED:
        maker.refused(number, text, OUTPUT_BYTES)
        if number != 15: maker.refused(number, text, 0)
    maker.refused(15, b"", 0)
    for group, text, _ in texts.SMALL + texts.LIMITS:
        maker.refused(11, text, maker.reference.room(text) - 1)
    for room in (0, 1, 26, 78): maker.refused(11, b"A=\n", room)


def add_long(maker):
    """The long texts that the program makes."""
    for number, *made in texts.LONG:
        if maker.reference.refusal(texts.long_text(*made), OUTPUT_BYTES) != number: stop(f"a long text is not refused with {number}")
        maker.expected.append(line(0, number, UNTOUCHED))


# ---------------------------------------------------------------- what is written

HEAD = """Where the expected answers of crates/test_shorthand come from; written by make.py.

A line for each request: its line in requests.txt, the lengths of text, entry and output, the judge, and its group. The letters of an accepted
text that are judged by LPeg have LPeg's outcomes, and reader.py agrees; those judged by reader.py are refused by LPeg as left recursive. A
refusal's number stands by hand in texts.py, and reader.py agrees; that of an output that is too short is 11.

"""


def summary(maker, sizes):
    out = [f"Requests: {len(maker.requests)}. Bytes: " + ", ".join(f"{name} {size}" for name, size in sizes.items()) + ".", ""]
    for kind in ("request", "outcome"):
        out += [f"{kind:8} {count:5}  {name}" for (k, name), count in sorted(maker.tally.items()) if k == kind] + [""]
    return "\n".join(out)


def write_sources(maker, text):
    head = f"{'line':>5} {'text':>5} {'entry':>5} {'room':>5}  {'judge':42} group"
    with open(os.path.join(HERE, "SOURCES.txt"), "w") as file: file.write(HEAD + text + "\n" + "\n".join([head] + maker.sources) + "\n")


def check_numbers(maker):
    """What the test has to have at least."""
    if len(texts.ACCEPTED) < 60: stop("too few texts that are accepted")
    for outcome in ("success", "failure", "loop", "missing"):
        if sum(count for (_, name), count in maker.tally.items() if name.startswith(outcome)) < 100: stop(f"too few outcomes {outcome}")
    judged = {judge: sum(count for (_, name), count in maker.tally.items() if name.endswith(judge)) for judge in ("LPeg", "reader.py")}
    if judged["LPeg"] < 4 * judged["reader.py"]: stop("LPeg judges too few outcomes")


def main():
    parser = argparse.ArgumentParser(description=__doc__, formatter_class=argparse.RawDescriptionHelpFormatter)
    parser.add_argument("--reference", required=True, help="path of reader.py")
    options = parser.parse_args()
    install()
    with tempfile.TemporaryDirectory() as folder:
        maker = Maker(Reference(load_reference(options.reference)), Judge(folder))
        add_accepted(maker)
        add_refused(maker)
    add_long(maker)
    text = summary(maker, maker.write())
    write_sources(maker, text)
    print(text)
    check_numbers(maker)


if __name__ == "__main__":
    main()
