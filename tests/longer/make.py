#!/usr/bin/env python3
"""Makes the data and the expected output of crates/test_questions, and SOURCES.txt beside this file.

    python3 tests/longer/make.py --reference READER [--classes RANGES]

READER is an implementation of documents 01 and 02 in Python, reader.py, made apart from this repository. RANGES are the classes of the
bytes, or a file with them, as 48-57:1,9:4 and so on; a byte in none has class 0. The default is document 01's with document 02's order 5, and
reader.py's own classes must agree with it; all else is as of order 11. lua5.4 and lua-lpeg are installed from Debian where they are absent. It
is run by hand; a second run writes the same bytes.

What comes from where:
  LPeg (judge.lua)  outcome and end of each question whose rules LPeg takes, and the named pair of missing. It refuses rules that may
                    be left recursive. Each match is a process of its own with a limit of time, which ends this script.
  reader.py         loops; outcome and end where LPeg refuses the rules or would take too many calls; counts, tables, refusals,
                    the machine's runs, readings and what the checker says of them; corrections (corrections.py), with the
                    document's sentence on 21 beside it; openings (openings.py) and further questions (further.py), with a direct
                    evaluation (direct.py) beside it; tables stored by place (archive.py), with the document's formula beside it;
                    old entries that are shown (shown.py).
Where both judge they must agree, or this script ends with an error. k and h, from which the machine's budgets and rooms are chosen, are
computed by the definition. Nothing comes from the program under test. The layout of the files is described in
crates/test_questions/src/main.rt.
"""
import argparse
import collections
import os
import subprocess
import sys
import tempfile
import threading

HERE = os.path.dirname(os.path.abspath(__file__))
sys.path.append(os.path.join(HERE, ".."))

import archive
import corrections
import further
import openings
import questions
import shown
from making import Store, install, line, load_reference, stop
from questions import cells_due

CRATE = os.path.join(HERE, "..", "..", "crates", "test_questions")

CLASSES = ("48-57:1,65-90:2,97-122:3,9:4,32:4,33-47:5,58-64:5,91-96:5,123-126:5,"
           "192-214:2,216-222:2,223-246:3,248-255:3,160:4,161-191:5,215:5,247:5,128-159:6")
ORDER = 11              # reader.py answers as of this order of document 02

FILE_BYTES = 262144     # the program's buffers
OUTPUT_BYTES = 262144
NUMBERS = questions.NUMBERS     # of the program's table, and of its work slice, where the machine's frames are
UNTOUCHED_NUMBER, UNTOUCHED_BYTE = 77777, 42
MODULUS = 9999991
PLACES = 8192           # x of a correction that shows an old entry of its own is so many times n, and c

# Tasks of a request, and kinds of answers beside them.
QUESTION, MACHINE, READING, DAMAGE, KEPT, CORRECTION, PUT, OPENING, FURTHER, BLANK, STORE, RESTORE, SHOWN, EDIT = range(14)
WRITER, CHECKER, END, CORRECTED, BEFORE, OPENED, ASKED, BLANKED, STORED, RESTORED, EDITED = 2, 3, 5, 6, 7, 8, 9, 10, 11, 12, 13
CODES = {"success": 0, "failure": 1, "loop": 2, "missing": 3, "spent": 6, "no frame": 7}
DONE, NO_OPENING, REFUSED = 0, 8, 9

LPEG_CALLS = 3000000    # LPeg is asked where it takes at most so many calls
LPEG_SECONDS = 120


# ---------------------------------------------------------------- parameters

def class_table(ranges):
    """The class of each byte."""
    table = [0] * 256
    for item in ranges.split(","):
        span, c = item.split(":")
        first, last = (span.split("-") * 2)[:2]
        for b in range(int(first), int(last) + 1): table[b] = int(c)
    return table


def read_ranges(text):
    if os.path.exists(text): text = open(text).read()
    return ",".join(text.replace(",", " ").split())


def reference_with(path, ranges):
    """The module reader.py with the classes of these ranges."""
    module, classes = load_reference(path), class_table(ranges)
    if ranges == CLASSES and classes != [module.class_of(b, ORDER) for b in range(256)]: stop("reader.py has other classes")
    module.class_of = lambda b, order=0: classes[b]
    return module


# ---------------------------------------------------------------- the judges

class Judge:
    """LPeg, in a process for each match."""

    def __init__(self, ranges, folder):
        self.ranges = ranges
        self.sheet, self.entry = os.path.join(folder, "sheet"), os.path.join(folder, "entry")
        self.accepted = {}

    def run(self, q, place):
        open(self.sheet, "wb").write(q.sheet)
        open(self.entry, "wb").write(q.entry)
        words = ["lua5.4", os.path.join(HERE, "judge.lua"), self.ranges, self.sheet, self.entry, str(q.variable), str(place)]
        try: done = subprocess.run(words, capture_output=True, text=True, timeout=LPEG_SECONDS)
        except subprocess.TimeoutExpired: stop(f"LPeg took over {LPEG_SECONDS} seconds: {q}")
        if done.returncode != 0: stop("judge.lua: " + done.stderr)
        return done.stdout.split()

    def accepts(self, q):
        """Does LPeg take the rules from the asked variable on?"""
        key = (q.sheet, q.variable)
        if key not in self.accepted: self.accepted[key] = self.run(q, "-") == ["accepted"]
        return self.accepted[key]

    def answer(self, q):
        """Outcome, end, named pair."""
        outcome, *numbers = self.run(q, q.place)
        numbers = [int(x) for x in numbers]
        if outcome == "success": return outcome, numbers[0], None
        return outcome, None, tuple(numbers) if numbers else None


class Reference:
    """reader.py, and what is computed from its definitions."""

    def __init__(self, module): self.module = module

    def eval(self, q): return self.module.Eval(self.module.read_sheet(q.sheet), q.entry, ORDER)

    def refused(self, result): return isinstance(result, self.module.Refusal)

    def question(self, q):
        table = [UNTOUCHED_NUMBER] * q.x
        return self.module.question(q.sheet, q.entry, q.variable, q.place, table, [0] * q.y, ORDER), table

    def verdict(self, q):
        table = [UNTOUCHED_NUMBER] * q.x
        return self.module.verdict(q.sheet, q.entry, table, [0] * q.y, ORDER), table

    def opening(self, q, left):
        """The least opening that loops, None, or a refusal. The table ends as the verdict left it."""
        table = [UNTOUCHED_NUMBER] * q.x
        found = self.module.loop_opening(q.sheet, q.entry, table, [0] * q.y, ORDER)
        if table != left: stop(f"an opening leaves another table than the verdict: {q}")
        return found

    def correct(self, old, q, c, table):
        """A correction at c over a table, with as many numbers of work slice as the program lends. The document's sentence on 21 must agree."""
        found = self.module.correct(q.sheet, q.entry, q.variable, q.place, table, [0] * cells_of(len(table)), c, old, ORDER)
        number = found.number if self.refused(found) else None
        if number in (None, 19, 21) and (number == 21) != corrections.differ_elsewhere(old, q.entry, c): stop(f"21 is wrong: {q}")
        return found

    def further(self, q, table):
        """A further question over a table."""
        return self.module.further(q.sheet, q.entry, q.variable, q.place, table, [0] * q.y, ORDER)

    def decided_without_reach(self, q, c, table):
        """How many cells the same correction decides where only cells at places above c stay."""
        width, reached = len(q.entry) + 1, self.eval(q).reached(q.variable, q.place)
        return sum(place <= c or table[2 * ((variable - 1) * width + place)] == 0 for variable, place in reached)

    def reading(self, q, x, y):
        """What the writer answers over a table of x numbers, and its output of y bytes."""
        out = bytearray([UNTOUCHED_BYTE]) * y
        return self.module.write_reading(q.sheet, q.entry, q.variable, q.place, [0] * x, [0] * cells_of(x), out, ORDER), out

    def steps_and_height(self, q):
        """k and h of a success or a failure."""
        return self.eval(q).kh(q.variable, q.place)

    def classes_met(self, q):
        """For each rule of a class that the question reaches at a byte from 128 on: the class, the byte, and whether it is accepted."""
        e, met = self.eval(q), set()
        for variable, place in e.reached(q.variable, q.place):
            kind, *operands = e.sheet.rules.get(variable, (None,))
            if kind == 3 and place < len(q.entry) and q.entry[place] >= 128:
                met.add((operands[0], q.entry[place], e.out(variable, place).kind == "success"))
        return met

    def lpeg_calls(self, q):
        """How many calls judge.lua's rules take without a table: B is called again where it fails and where C fails, except where D always
        fails or C always succeeds."""
        e, calls = self.eval(q), {}
        for pair in e.postorder(q.variable, q.place):
            called = e.called(*pair)
            total = 1 + sum(calls[x] for x in called)
            if len(called) == 2 and not tried_once(e.sheet.rules, *e.sheet.rules[pair[0]]):
                ended = e.out(*called[0]).kind == "success" and e.out(*called[1]).kind != "failure"
                total += 0 if ended else calls[called[0]]
            calls[pair] = total
        return calls[(q.variable, q.place)]


def tried_once(rules, kind, b, c, d):
    """Is B of A -> B(C,D) tried once only in judge.lua?"""
    return rules.get(c) == (0, 0, 0, 0) or rules.get(d) == (1, 0, 0, 0)


# ---------------------------------------------------------------- files

def cells_of(numbers):
    """How many cells have so many numbers of a table, rounded up."""
    return numbers - numbers // 2


def source_line(number, q, outcome, source, last):
    """A line of SOURCES.txt."""
    v = questions.variables_of(q.sheet)
    return f"{number:5} {v:4} {len(q.entry):5} {q.variable:8} {q.place:8}  {outcome:8} {source:48} {last}"


def accepted_or_refused(accepted): return "accepted" if accepted else "refused"


def summed(numbers):
    total = 0
    for x in numbers: total = (257 * total + x) % MODULUS
    return total


class Files:
    """The files of the crate in the making."""

    def __init__(self):
        self.sheets, self.entries, self.requests, self.expected = Store(), Store(), [], []

    def request(self, q, task, x, y):
        """Adds a request; its number."""
        self.requests.append(line(*self.sheets.place(q.sheet), *self.entries.place(q.entry), q.variable, q.place, task, x, y))
        return len(self.requests)

    def answer(self, *numbers): self.expected.append(line(*numbers))

    def followed(self, entry, count):
        """So many bytes of the entries' file from where an entry stands."""
        at = self.entries.place(entry)[0]
        return bytes(self.entries.data[at:at + count])

    def write(self):
        data = os.path.join(CRATE, "data")
        os.makedirs(data, exist_ok=True)
        requests = b"".join(self.requests)
        sizes = len(self.sheets.data), len(self.entries.data), len(requests)
        if max(sizes) > FILE_BYTES: stop(f"a file is longer than the program's buffer: {sizes}")
        self.answer(0, END, *sizes, 0, 0)
        for path, content in (("data/sheets.txt", self.sheets.data), ("data/entries", self.entries.data),
                              ("data/questions.txt", requests), ("stdout", b"".join(self.expected))):
            with open(os.path.join(CRATE, path), "wb") as file: file.write(content)
        return sizes


# ---------------------------------------------------------------- expected answers

class Maker:
    def __init__(self, reference, judge):
        self.reference, self.judge, self.files = reference, judge, Files()
        self.sources, self.further_sources, self.tally, self.bytes_met, self.found = [], [], collections.Counter(), set(), {}
        self.out_of_text = set()        # questions that seek a byte at the entry's end

    def judged(self, q, found):
        """Outcome, end, named pair, and who says so."""
        mine = (found.outcome, found.end, found.named)
        if not self.judge.accepts(q): return mine, "reader.py: LPeg refuses left recursion"
        calls = self.reference.lpeg_calls(q)
        if calls > LPEG_CALLS: return mine, f"reader.py: LPeg would take over {LPEG_CALLS} calls"
        theirs = self.judge.answer(q)
        if theirs != mine: stop(f"LPeg says {theirs}, the reference {mine}: {q}")
        return theirs, "LPeg"

    def question(self, q):
        found, table = self.reference.question(q)
        self.found[q] = found
        number = self.files.request(q, QUESTION, q.x, q.y)
        if self.reference.refused(found):
            four, source, outcome = (REFUSED, found.number, found.line, 0), "reader.py: a refusal", "refused"
            if q.group != "refused": stop(f"refused with {found.number}: {q}")
        else:
            (outcome, end, named), source = self.judged(q, found)
            variable, place = named or (0, end or 0)
            four = CODES[outcome], variable, place, found.count
            self.note_classes(q)
            self.note_end(q, outcome, table)
        self.files.answer(number, QUESTION, *four, summed(table))
        self.note(number, q, outcome, source)
        return outcome

    def note(self, number, q, outcome, source):
        self.tally[("kind", q.group.split(":")[0])] += 1
        self.tally[("outcome", outcome)] += 1
        self.tally[("source", source)] += 1
        self.tally[("outcome and judge", outcome + (", LPeg" if source == "LPeg" else ", reader.py"))] += 1
        self.tally[("entry", "200 to 4096 bytes" if 200 <= len(q.entry) <= 4096 else "other")] += 1
        self.sources.append(source_line(number, q, outcome, source, q.group))

    def note_classes(self, q):
        met = self.reference.classes_met(q)
        for c, accepted in {(c, accepted) for c, b, accepted in met}:
            self.tally[("byte from 128", f"class {c}, {accepted_or_refused(accepted)}")] += 1
        self.bytes_met |= {(b, accepted) for c, b, accepted in met}

    def note_end(self, q, outcome, table):
        """Is a byte sought at the entry's end? Its cell reaches one past the end."""
        if max(table[1:2 * cells_due(q):2]) <= len(q.entry): return
        self.out_of_text.add(q)
        self.tally[("out of text", outcome)] += 1

    # The machine.

    def run(self, q, budget, numbers):
        """One run, with a slice of so many numbers for the frames."""
        r = self.reference.module.machine(q.sheet, q.entry, q.variable, q.place, budget, numbers, ORDER)
        number = self.files.request(q, MACHINE, budget, numbers)
        if self.reference.refused(r): four = REFUSED, r.number, r.line, 0
        else: four = CODES[r.outcome], 0, r.end or 0, r.moves
        self.files.answer(number, MACHINE, *four, 0)
        self.tally[("machine", "refused" if self.reference.refused(r) else r.outcome)] += 1
        return r

    def runs_of_result(self, q, k, h):
        """With 2k - 1 moves and h frames the machine answers, with less it does not."""
        for budget in sorted({0, max(0, 2 * k - 2), 2 * k - 1, 9999999}):
            r = self.run(q, budget, NUMBERS)
            if (r.outcome == "spent") != (budget < 2 * k - 1): stop(f"2k - 1 is not the machine's number of moves: {q}")
        for numbers in (3 * h - 3, 3 * h - 1, 3 * h):
            r = self.run(q, 2 * k - 1, numbers)
            if (r.outcome == "no frame") != (numbers < 3 * h): stop(f"h is not the machine's number of frames: {q}")
        self.run(q, 2 * k - 2, 3 * h)

    def runs_without_result(self, q):
        for budget, numbers in ((0, NUMBERS), (1, NUMBERS), (1000, NUMBERS), (200000, NUMBERS), (200000, 0), (200000, 3), (200000, 60)):
            self.run(q, budget, numbers)

    def machine(self, q, outcome):
        if outcome in ("success", "failure"): self.runs_of_result(q, *self.reference.steps_and_height(q))
        else: self.runs_without_result(q)
        self.tally[("tasks", "questions with machine runs")] += 1

    # Readings.

    def writer_answer(self, q, number, x, y):
        """Writes a reading; its bytes and lines."""
        w, out = self.reference.reading(q, x, y)
        if self.reference.refused(w): four, lines = (REFUSED, w.number, w.line, 0), 0
        else:
            variable, place = w.named or (0, w.end or 0)
            four, lines = (CODES[w.outcome], variable, place, w.lines), w.lines
        self.files.answer(number, WRITER, *four, summed(out))
        return out, lines

    def checker_answer(self, q, number, reading, lines):
        c = self.reference.module.check_reading(q.sheet, q.entry, q.variable, q.place, bytes(reading), ORDER)
        if self.reference.refused(c): three = REFUSED, c.number, c.line
        else: three = CODES[c.outcome], 0, c.end
        self.files.answer(number, CHECKER, *three, lines, 0)
        return c

    def reading(self, q, x, y):
        number = self.files.request(q, READING, x, y)
        out, lines = self.writer_answer(q, number, x, y)
        c = self.checker_answer(q, number, out[:49 * lines], lines)
        passed = not self.reference.refused(c)
        self.tally[("tasks", "readings that pass" if passed else "readings not written")] += 1

    def damage(self, q, at, byte):
        number = self.files.request(q, DAMAGE, at, byte)
        out, lines = self.writer_answer(q, number, NUMBERS, OUTPUT_BYTES)
        out[at] = byte
        c = self.checker_answer(q, number, out[:49 * lines], lines)
        said = f"refused with {c.number}" if self.reference.refused(c) else "passed"
        self.tally[("damaged readings", said)] += 1

    # Calls over a kept table.

    def four(self, found):
        """The numbers of an answer."""
        if self.reference.refused(found): return REFUSED, found.number, found.line, 0
        variable, place = found.named or (0, found.end or 0)
        return CODES[found.outcome], variable, place, found.count

    def kept(self, q):
        """A question whose entry and table are kept; its answer and the table."""
        found, table = self.reference.question(q)
        number = self.files.request(q, KEPT, q.x, q.y)
        self.files.answer(number, QUESTION, *self.four(found), summed(table))
        return found, table

    def blank(self, q):
        """A blank table is kept, and the entry."""
        number = self.files.request(q, BLANK, q.x, q.y)
        self.files.answer(number, BLANKED, 0, 0, 0, 0, 0)
        return [0] * q.x

    def answered(self, kind, name, number, q, found, table):
        """The answer of a call over a kept table; who judges it."""
        self.files.answer(number, kind, *self.four(found), summed(table))
        if self.reference.refused(found):
            self.tally[(name + "s", f"refused with {found.number}")] += 1
            return "reader.py: a refusal"
        source = self.judged(q, found)[1]
        self.tally[(name + "s", found.outcome)] += 1
        self.tally[(name + " judge", source)] += 1
        return source

    def correction(self, stored, old, q, c, table, name="correction"):
        """A question about a kept entry whose byte at c was corrected; stored is an entry of the same length in the file."""
        found = self.reference.correct(old, q, c, table)
        byte = q.entry[c] if c < len(q.entry) else 0
        number = self.files.request(q._replace(entry=stored), CORRECTION, c, 256 * len(table) + byte)
        self.answered(CORRECTED, name, number, q, found, table)
        return found

    def shown(self, old, q, c, table, name):
        """A correction at c of the kept entry as it stands, with an old entry that is in the file."""
        found = self.reference.correct(old, q, c, table)
        number = self.files.request(q._replace(entry=old), SHOWN, PLACES * len(q.entry) + c, 256 * len(table))
        self.answered(CORRECTED, name, number, q, found, table)
        return found

    def edit(self, stored, c, byte, before):
        """Makes a byte of the kept entry another."""
        number = self.files.request(stored, EDIT, c, byte)
        self.files.answer(number, EDITED, 0, 0, 0, before, 0)

    def further(self, stored, q, table, last, name):
        """A further question about a kept entry, with its line of SOURCES.txt."""
        found = self.reference.further(q, table)
        number = self.files.request(q._replace(entry=stored), FURTHER, len(table), q.y)
        source = self.answered(ASKED, name, number, q, found, table)
        outcome = "refused" if self.reference.refused(found) else found.outcome
        self.further_sources.append(source_line(number, q, outcome, source, last))
        return found

    def put(self, stored, at, x, table):
        """Makes a number of the kept table another."""
        number = self.files.request(stored, PUT, at, x)
        self.files.answer(number, BEFORE, 0, 0, 0, table[at], 0)
        table[at] = x

    # Tables stored by place.

    def filled(self, count):
        """So many numbers of a table as they stand before a call."""
        return [UNTOUCHED_NUMBER] * count

    def store(self, *words): return self.moved(STORE, STORED, self.reference.module.store, *words)

    def restore(self, *words): return self.moved(RESTORE, RESTORED, self.reference.module.restore, *words)

    def moved(self, task, kind, call, q, shape, source, target):
        """Moves the cells of a shape, V and n, from a table to one that is filled; a refusal, or None."""
        found = call(*shape, source, target)
        number = self.files.request(q._replace(variable=shape[0], place=shape[1]), task, len(source), len(target))
        four = (REFUSED, found.number, found.line, 0) if self.reference.refused(found) else (DONE, 0, 0, 0)
        self.files.answer(number, kind, *four, summed(target))
        return found

    # Openings.

    def opening(self, q):
        """Asks for the opening that already loops; the verdict, and the opening."""
        verdict, table = self.reference.verdict(q)
        found = self.reference.opening(q, table)
        number = self.files.request(q, OPENING, q.x, q.y)
        if self.reference.refused(found): four = REFUSED, found.number, found.line, summed([UNTOUCHED_NUMBER] * q.y)
        elif found is None: four = NO_OPENING, 0, 0, 0
        else: four = CODES["loop"], 0, found, 0
        self.files.answer(number, OPENED, *four, summed(table))
        return verdict, found


# ---------------------------------------------------------------- choices

def spread(items, count):
    """About so many of the items, evenly."""
    return items[::max(1, len(items) // count)][:count] if items else []


def choose_machine(maker, asked):
    """Questions for the machine: results of up to 20,000 steps, some of up to 200,000, and some without a result."""
    small, large, without = [], [], []
    for q, outcome in asked:
        if outcome in ("success", "failure"):
            k, h = maker.reference.steps_and_height(q)
            if 3 * h <= NUMBERS and k <= 20000: small.append((q, outcome))
            elif 3 * h <= NUMBERS and k <= 200000: large.append((q, outcome))
        elif outcome != "refused": without.append((q, outcome))
    return spread(small, 50) + spread(large, 6) + spread(without, 16)


def run_readings(maker, asked):
    fits = [(q, o) for q, o in asked if o != "refused" and 49 * cells_due(q) <= OUTPUT_BYTES]
    results = [q for q, o in fits if o in ("success", "failure")]
    for q in spread(results, 60): maker.reading(q, 2 * cells_due(q), 49 * cells_due(q))
    for q in spread([q for q, o in fits if o not in ("success", "failure")], 10): maker.reading(q, NUMBERS, OUTPUT_BYTES)
    for q in spread(results, 2):
        maker.reading(q, 2 * cells_due(q), 49 * cells_due(q) - 1)
        maker.reading(q, 2 * cells_due(q) - 1, 49 * cells_due(q))
    rng = questions.generator("damage")
    for i, q in enumerate(spread(results, 24)):
        lines = maker.reference.question(q)[0].count
        at = rng.randrange(49 * lines)
        # Most often the last digit of a field is changed, so that the line is well formed; sometimes it is the same again.
        if i % 4: at = at - at % 49 + 8 * rng.randrange(6) + 7
        maker.damage(q, at, maker.reference.reading(q, NUMBERS, OUTPUT_BYTES)[1][at] if i % 8 == 7 else 48 + rng.randrange(10))


def summary(maker, sizes, ranges):
    out = [f"Questions: {len(maker.sources)}. Requests: {len(maker.files.requests)}. Classes: {ranges}",
           f"Bytes of sheets.txt, entries, questions.txt: {sizes[0]}, {sizes[1]}, {sizes[2]}.", ""]
    for kind in ("kind", "outcome", "source", "outcome and judge", "out of text", "entry", "byte from 128", "tasks", "machine",
                 "damaged readings", "chains", "corrections", "correction judge", "corrected byte", "asked place", "retained, reached",
                 "by reach, reached", "reach", "near the end", "refused with 19", "4 blanked", "puts", "openings", "opening kind",
                 "opening's entry", "opening's endmarker", "least opening", "m, named place", "shorter openings", "all openings",
                 "opening judge", "further chains", "further questions", "further question judge", "further's entry", "asked cell",
                 "call before", "newly decided", "waiting", "failure at n", "both orders", "further's corrections",
                 "further's correction judge", "further 19", "19 at", "taken", *archive.KINDS, *shown.KINDS):
        for (k, name), count in sorted(maker.tally.items()):
            if k == kind: out.append(f"{kind:17} {count:6}  {name}")
        out.append("")
    return "\n".join(out)


HEAD = """Where the expected answers of crates/test_questions come from; written by make.py.

A line for each question: its line in questions.txt, V, the entry's length, variable, place, outcome, the judge of outcome and end, and
its group. Judged by LPeg: outcome, end and the pair of missing are LPeg's, and reader.py agrees. The count of cells and the table's sum,
over outcomes and reaches, are always reader.py's, and so are all answers of the machine, the writer and the checker. Out of text are the
questions in which a byte is sought at the entry's end, where it fails.
Corrections have no lines here; their answers are reader.py's, and LPeg agrees on outcome, end and the pair of missing where it is named as
their judge. Whether 21 is due, the document's sentence, written down in corrections.py, says too of each of them. Of the corrections near
the end, the cells without the reach are those of reached pairs that would be decided newly if only the places above c stayed.
Openings have no lines either. Least openings, which LPeg cannot judge, are reader.py's; the direct evaluation of direct.py agrees, of the
whole entry, of the least opening and of the shorter ones, or every so many of them. Where there is none LPeg agrees on the verdict's
outcome and end, if it is named as the judge. All openings, up to the whole entry, are looked at by the direct evaluation where they are not
too many.
Further questions have lines of their own behind those of the questions, with what the asked cell holds before the call. The direct
evaluation agrees with every answer of theirs that is no refusal, with the count and with the whole table, and so it does with the
corrections between them.
Tables stored by place and taken back have no lines; the further questions over them, which have, are the last ones but those of the next
paragraph. Stored cells are reader.py's, and the document's formula, written down in archive.py, agrees; the numbers of the refusals are
given there too.
Corrections that show an old entry of their own are judged as those between further questions are; the numbers of their refusals are given
in shown.py. The stale cells are those that a correction at the wrong place would have retained. Further questions behind them are the last
ones.

"""


def write_sources(maker, text):
    head = f"{'line':>5} {'V':>4} {'n':>5} {'variable':>8} {'place':>8}  {'outcome':8} {'judge':48} "
    lines = [head + "group"] + maker.sources + ["", head + "asked cell or refusal, group"] + maker.further_sources
    with open(os.path.join(HERE, "SOURCES.txt"), "w") as file: file.write(HEAD + text + "\n" + "\n".join(lines) + "\n")


def check_numbers(maker):
    """What the test has to have at least."""
    count = len(maker.sources)
    if not 300 <= count <= 700: stop(f"{count} questions")
    for outcome in ("success", "failure", "loop", "missing", "refused"):
        if maker.tally[("outcome", outcome)] < 20: stop(f"too few questions with outcome {outcome}")
    if 2 * maker.tally[("source", "LPeg")] <= count: stop("LPeg judges less than half of the questions")
    for b in [b for b in range(128, 256) if maker.reference.module.class_of(b)]:
        for accepted in (True, False):
            if (b, accepted) not in maker.bytes_met: stop(f"byte {b} is never {accepted_or_refused(accepted)} by a class")
    for outcome, least in (("success", 15), ("failure", 40), ("loop", 5), ("missing", 1)):
        if maker.tally[("out of text", outcome)] < least: stop(f"too few questions out of text: {outcome}")
    if maker.tally[("tasks", "questions with machine runs")] < 40: stop("too few runs of the machine")
    if maker.tally[("tasks", "readings that pass")] < 40: stop("too few readings")


def make(options):
    ranges = read_ranges(options.classes)
    classes = class_table(ranges)
    install()
    reference = Reference(reference_with(options.reference, ranges))
    with tempfile.TemporaryDirectory() as folder:
        maker = Maker(reference, Judge(ranges, folder))
        asked = []
        for q in questions.all_questions(classes, lambda q: reference.lpeg_calls(q) <= LPEG_CALLS):
            asked.append((q, maker.question(q)))
        for q, outcome in choose_machine(maker, asked): maker.machine(q, outcome)
        for q, outcome in asked:
            if outcome == "refused": maker.run(q, 1000, NUMBERS)
        run_readings(maker, asked)
        corrections.run(maker, asked)
        openings.run(maker, asked, classes)
        further.run(maker, asked, classes)
        archive.run(maker, asked, classes)
        shown.run(maker, asked, classes)
    text = summary(maker, maker.files.write(), ranges)
    write_sources(maker, text)
    print(text)
    check_numbers(maker)
    corrections.check_numbers(maker.tally)
    openings.check_numbers(maker.tally)
    further.check_numbers(maker.tally)
    archive.check_numbers(maker.tally)
    shown.check_numbers(maker.tally)


def main():
    parser = argparse.ArgumentParser(description=__doc__, formatter_class=argparse.RawDescriptionHelpFormatter)
    parser.add_argument("--reference", required=True, help="path of reader.py")
    parser.add_argument("--classes", default=CLASSES, help="ranges of bytes with their classes, or a file with them")
    options = parser.parse_args()
    failed = []

    def work():
        try: make(options)
        except BaseException as error:
            failed.append(error)
            if not isinstance(error, SystemExit): sys.excepthook(*sys.exc_info())

    # A thread, for its large stack: the reference calls itself as deep as the entry is long.
    sys.setrecursionlimit(1000000)
    threading.stack_size(512 * 1024 * 1024)
    thread = threading.Thread(target=work)
    thread.start()
    thread.join()
    if failed: sys.exit(failed[0].code if isinstance(failed[0], SystemExit) else 1)


if __name__ == "__main__":
    main()
