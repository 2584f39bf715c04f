"""The further questions. Societies ask about one entry over one kept table, one after the other, and none of them blanks a cell. A chain is
a question whose entry and table are kept, or a blank table, and then further questions, corrections and now and then a question anew.
Questions are taken from the list, of each kind with each outcome; lines of registers are made here.

Of every further question that is not refused, the direct evaluation must say the same as reader.py: outcome, end, named pair, how many
cells were blank before, and every cell of the table. A fresh question must have the same outcome, end and named pair. So it is with the
corrections, over the cells that stay; the old entry that a correction shows is the one of which the table is. Two further
questions are asked in both orders: tables, answers and the sum of the counts must be the same, and from a blank table that sum is the
number of pairs reached from either."""
from corrections import CELLS, FAR, FAULTS, FOUR, OUTCOMES, byte_for, byte_place, cells, faults, grouped, kind_of, stays, with_byte
from direct import FAILED, Direct
from making import stop
from questions import (NUMBERS, cells_due, generator, hidden_left, left_sums, no_rule, own_first, question, variables_of, words_text,
                       words_with_mark)
from sheets import NATURAL

MOST = 8                # calls of a chain
WAITING = 6             # chains behind a loop, a missing rule and a failure at the entry's end each
TRIES = 12              # pairs that are looked at for one that fits
ORDERS = 10             # chains whose last two further questions are asked in both orders, and as many from a blank table
PUT_CELLS = 6000        # the table into which numbers are put has at most so many cells
PUT_DECIDED = 40        # of which at least so many are decided
LINE = 20, 80           # bytes of a line of a register
LINES = 10              # of so many lines a chain is begun, and in both orders of so many
BEHIND_END = "behind a kept failure at n"


def holds(outcome): return CELLS.get(outcome, "success") if outcome else "blank"


class Page:
    """A kept entry with its table, about which societies ask."""

    asked, corrected = "further question", "further's correction"   # in the summary

    def __init__(self, maker, classes, q, blank=False):
        self.maker, self.classes, self.first, self.q, self.c = maker, classes, q, q, 0
        self.old = q.entry      # of which the table is
        self.rules = maker.reference.module.read_sheet(q.sheet).rules
        self.table = maker.blank(q) if blank else maker.kept(q)[1]
        self.before, self.calls = "blank table" if blank else "question", []
        self.tally("further chains", kind_of(q))

    def tally(self, kind, name): self.maker.tally[(kind, name)] += 1

    def number(self, pair):
        """The number of a pair's cell."""
        return (pair[0] - 1) * (len(self.q.entry) + 1) + pair[1]

    def cell(self, pair):
        i = self.number(pair)
        return tuple(self.table[2 * i:2 * i + 2])

    def pairs(self):
        """Every pair."""
        return [(v, p) for v in range(1, variables_of(self.q.sheet) + 1) for p in range(len(self.q.entry) + 1)]

    def direct(self, pair): return Direct(self.q.sheet, self.q.entry, self.classes, pair)

    # Calls.

    def call(self, method, *args):
        """A call that can be made again on another page."""
        self.calls.append((method, args))
        return method(self, *args)

    def ask(self, pair):
        """A further question."""
        q, direct, held = self.q._replace(variable=pair[0], place=pair[1]), self.direct(pair), holds(self.cell(pair)[0])
        expected, count = self.expected(direct, self.table)
        self.note(direct, pair, count)
        found = self.maker.further(self.first.entry, q, self.table, f"{held:10}  {q.group}", self.asked)
        self.compare(q, found, direct, expected, count)
        self.before = "further question"
        return found

    def expected(self, direct, before):
        """The table that a call leaves of one of which nothing is blanked, and how many of the cells of reached pairs are blank before."""
        table, count = before[:], 0
        for pair, cell in direct.cells().items():
            i = self.number(pair)
            if before[2 * i] == 0: count += 1
            elif tuple(before[2 * i:2 * i + 2]) != cell: stop(f"a kept cell is not its pair's: {self.q}")
            table[2 * i:2 * i + 2] = cell
        return table, count

    def compare(self, q, found, direct, expected, count):
        """What is found, beside a fresh question and the direct evaluation."""
        if self.maker.reference.refused(found): stop(f"refused with {found.number}: {q}")
        fresh = self.maker.reference.question(q)[0]
        if found[:3] != fresh[:3]: stop(f"over a kept table there is {found}, a fresh question says {fresh}: {q}")
        said = direct.outcome, direct.end, direct.named, count
        if found != said: stop(f"the direct evaluation says {said}, reader.py {found}: {q}")
        if self.table != expected: stop(f"the direct evaluation has another table than reader.py: {q}")

    def note(self, direct, pair, count):
        size, reached = len(self.q.entry), len(direct.results) + len(direct.waiting)
        line = LINE[0] <= size <= LINE[1]
        self.tally("further's entry", "200 to 4096 bytes" if size >= 200 else "20 to 80 bytes" if line else "other")
        self.tally("asked cell", holds(self.cell(pair)[0]))
        self.tally("call before", self.before)
        self.tally("newly decided", "none" if count == 0 else "all that are reached" if count == reached else "some that are reached")
        kept = {holds(self.cell(x)[0]) for x in direct.waiting if x != pair} - {"blank"}
        for held in kept: self.tally("waiting", f"through a kept {held}")
        if kept and self.cell(pair)[0] == 0: self.tally("waiting", "from a blank cell to a kept one")
        if direct.named and direct.named != pair: self.tally("waiting", "another pair named than asked")
        for held in {holds(self.cell(x)[0]) for x, result in direct.results.items() if x[1] == size and result == (FAILED, size + 1)}:
            self.tally("failure at n", "newly decided" if held == "blank" else "kept")

    def correct(self, c, byte, pair):
        """Makes the byte at c another, and asks about a pair; the kept entry as it was is shown."""
        if self.q.entry != self.old: stop(f"the table is of another entry: {self.q}")
        self.q = with_byte(self.q, c, byte)
        self.ask_corrected(c, pair, self.maker.correction, self.first.entry)

    def edit(self, c, byte):
        """Makes the byte at c another, and asks nothing."""
        self.maker.edit(self.first, c, byte, self.q.entry[c])
        self.q = with_byte(self.q, c, byte)

    def show(self, c, pair):
        """Asks about a pair by a correction at c of the entry as it stands; the entry of which the table is, is shown."""
        self.ask_corrected(c, pair, self.maker.shown)

    def ask_corrected(self, c, pair, call, *stored):
        """A correction at c that is answered."""
        q, direct = self.q._replace(variable=pair[0], place=pair[1]), self.direct(pair)
        expected, count = self.expected(direct, self.staying(c))
        found = call(*stored, self.old, q, c, self.table, self.corrected)
        self.compare(q, found, direct, expected, count)
        self.old, self.c, self.before = self.q.entry, c, "correction"

    def staying(self, c):
        """The table as a correction at c blanks it."""
        table = self.table[:]
        for i, cell in enumerate(cells(table, cells_due(self.q), len(self.q.entry) + 1)):
            if not stays(*cell, c): table[2 * i:2 * i + 2] = 0, 0
        return table

    def anew(self, pair):
        """A question about the first entry: the table is blanked."""
        self.q = self.first._replace(variable=pair[0], place=pair[1])
        self.table, self.old, self.before = self.maker.kept(self.q)[1], self.q.entry, "question"

    def refused(self, number, **change):
        """A further question that must be refused with this number. The table stays as it is."""
        q = self.q._replace(**change)
        table = self.table[:q.x]
        found = self.maker.further(self.first.entry, q, table, f"{'refused':7} {number:2}  {q.group}", self.asked)
        if not self.maker.reference.refused(found) or found.number != number: stop(f"not refused with {number}: {q}")
        if table != self.table[:q.x]: stop(f"a refusal changes the table: {q}")

    def put(self, i, cell):
        """Makes a cell of the table another."""
        for at, x in zip((2 * i, 2 * i + 1), cell):
            if self.table[at] != x: self.maker.put(self.first, at, x, self.table)


# ---------------------------------------------------------------- pairs

def society(rng, page):
    """A pair of a variable that calls, most often at the start or where the first question was."""
    size = len(page.q.entry)
    callers = [v for v, rule in page.rules.items() if rule[0] == 4] or [page.first.variable]
    return rng.choice(callers), rng.choice([0, page.first.place, rng.randrange(size + 1), rng.randrange(size + 1)])


def called_by_table(page, pair):
    """The pair that a pair calls last, as far as the table says."""
    kind, b, c, d = page.rules.get(pair[0], (0, 0, 0, 0))
    if kind != 4: return None
    outcome = page.cell((b, pair[1]))[0]
    if outcome == 0: return None
    if outcome == 1: return d, pair[1]
    return (c, outcome - 5) if outcome >= 5 else (b, pair[1])


def fits(page, pair):
    """What a pair's cell holds; where it is blank, what the cell of the pair holds that it waits for, or that its first called pair fails
    at the entry's end."""
    held = holds(page.cell(pair)[0])
    if held != "blank": return held
    called = called_by_table(page, pair)
    if called is None: return "blank"
    if page.cell(called)[0] in (2, 3): return "waits for a kept " + holds(page.cell(called)[0])
    return BEHIND_END if pair[1] == len(page.q.entry) and page.cell((page.rules[pair[0]][1], pair[1]))[0] == 1 else "blank"


def pair_for(rng, page, wanted=None):
    """One that fits this; otherwise one that fits anything but blank, or one of another society."""
    groups = {}
    for pair in page.pairs(): groups.setdefault(fits(page, pair), []).append(pair)
    kinds = sorted(kind for kind in groups if kind != "blank")
    if wanted in kinds: return rng.choice(groups[wanted])
    return rng.choice(groups[rng.choice(kinds)]) if kinds and rng.random() < 0.5 else society(rng, page)


def two_societies(rng, page):
    """Two pairs, each of which reaches some that the other reaches and some that it does not; any two, where none are found."""
    for _ in range(TRIES):
        one, other = society(rng, page), society(rng, page)
        a, b = set(page.direct(one).cells()), set(page.direct(other).cells())
        if a & b and a - b and b - a: break
    return one, other


# ---------------------------------------------------------------- chains

def lines(rng):
    """Lines of registers, whole and cut off, with loops and missing rules."""
    for name, (grammar, text_of) in NATURAL.items():
        text = text_of(rng, rng.randrange(LINE[0] + 10, LINE[1]))
        yield question("line: " + name, grammar(), text if rng.random() < 0.7 else text[:-1])
    for mark, behind in (("?", own_first), ("?", hidden_left), ("?", left_sums), ("!", no_rule), ("!", no_rule)):
        size = rng.randrange(*LINE)
        yield question("line: behind a mark", words_with_mark(mark, behind), words_text(size, mark.encode(), rng.randrange(size - 1)))


def chosen(maker, rng, asked):
    """A question of each kind with each outcome."""
    for group in grouped(maker, asked).values(): yield rng.choice(group)


def with_more(q):
    """The question with all numbers of the program's table but one, where it needs fewer."""
    return q._replace(x=max(q.x, NUMBERS - 1))


def ask_once(rng, page): page.call(Page.ask, pair_for(rng, page))


def correct_once(rng, page):
    c = byte_place(rng, page, len(page.q.entry))
    page.call(Page.correct, c, byte_for(rng, page, c), rng.choice([society(rng, page), (page.first.variable, page.first.place)]))


def call_once(rng, page):
    """Most often a further question."""
    which = rng.random()
    if which < 0.7: ask_once(rng, page)
    elif which < 0.95: correct_once(rng, page)
    else: page.call(Page.anew, society(rng, page))


def run_chains(maker, rng, classes, pages):
    for i, q in enumerate(pages):
        page = Page(maker, classes, with_more(q) if i % 3 == 0 else q, blank=i % 5 == 4)
        ask_once(rng, page)
        for _ in range(i % (MOST - 1)): call_once(rng, page)


def run_waiting(maker, rng, classes, asked):
    """Behind a loop, a missing rule or a failure at the entry's end: pairs that wait for its cells, and those whose cells they are; then
    with a byte of the entry corrected."""
    asked = [(q, outcome) for q, outcome in asked if len(q.entry) > 1]
    for wanted in ("loop", "missing"):
        fit = [q for q, outcome in asked if outcome == wanted]
        run_behind(maker, rng, classes, fit, f"waits for a kept {wanted}", wanted)
    run_behind(maker, rng, classes, [q for q, outcome in asked if outcome == "failure" and q in maker.out_of_text], BEHIND_END, "failure")


def run_behind(maker, rng, classes, pages, *wanted):
    for q in rng.sample(pages, WAITING):
        page = Page(maker, classes, q)
        for what in wanted: page.ask(pair_for(rng, page, what))
        correct_once(rng, page)
        for what in wanted: page.ask(pair_for(rng, page, what))


def in_both_orders(maker, rng, classes, q, blank, calls):
    """A chain of these calls, two further questions behind it, and the same chain with these two in the other order."""
    page = Page(maker, classes, q, blank)
    for call in calls: call(rng, page)
    made, name, pairs = page.calls, page.before, two_societies(rng, page)
    left = [asked_behind(page, pairs)]
    page = Page(maker, classes, q, blank)
    for method, args in made: method(page, *args)
    left.append(asked_behind(page, pairs[::-1]))
    if left[0] != left[1]: stop(f"the order of {pairs} shows: {q}")
    page.tally("both orders", "behind a " + name)
    if name == "blank table" and left[0][2] != len({x for pair in pairs for x in page.direct(pair).cells()}):
        stop(f"the counts of {pairs} do not add up: {q}")


def asked_behind(page, pairs):
    """Outcome, end and named pair of each, the table, and the sum of the counts."""
    found = [(pair, page.ask(pair)) for pair in pairs]
    return {pair: x[:3] for pair, x in found}, page.table, sum(x.count for _, x in found)


def run_orders(maker, rng, classes, pages):
    calls = (), (ask_once,), (correct_once,), (correct_once, ask_once), (ask_once, correct_once)
    for i, q in enumerate(rng.sample(pages, ORDERS)): in_both_orders(maker, rng, classes, q, False, calls[i % len(calls)])
    for q in rng.sample(pages, ORDERS): in_both_orders(maker, rng, classes, q, True, ())


# ---------------------------------------------------------------- refusals

def wrong_cells(place, size):
    """Cells of a place that have one fault."""
    yield "ends one right of n", (5 + size + 1, size)
    yield "ends right of n", (FAR, size)
    if place > 0:
        yield "ends one left of its place", (5 + place - 1, size)
        yield "reaches one less than its place", (1, place - 1)
        yield "reaches one less than its place", (5 + size, place - 1)
    if place > 1:
        yield "ends left of its place", (5, size)
        yield "reaches less than its place", (1, 0)
    yield FOUR, (4, 0)
    yield FOUR, (4, size + 1)


def other_cells(place, size):
    """Cells of a place that have no fault: they end or reach just far enough, or hold what no question leaves."""
    yield "ends at its place", (5 + place, size)
    yield "ends at n", (5 + size, size)
    yield "failure that reaches its place", (1, place)
    yield "success that reaches its place", (5 + size, place)
    yield "reaches right of n", (1, FAR)
    yield "blank with a reach", (0, 7)
    yield "loop with a reach", (2, 9)
    yield "missing with a reach", (3, FAR)


def wrong_and_right(page, name, i, what, cell):
    """A cell of the kept table is wrong, and then right again."""
    before = page.table[2 * i:2 * i + 2]
    page.put(i, cell)
    if faults(page.table, variables_of(page.q.sheet), len(page.q.entry), -1) != {(what, True)}: stop(f"not this alone, {what}: {page.q}")
    page.refused(19)
    page.tally("further 19", what)
    page.tally("19 at", name)
    page.put(i, before)


def spots(page):
    """Cells for a fault: the first, the last and some between them; also in a row that is blank otherwise, if there is one."""
    width, due = len(page.q.entry) + 1, cells_due(page.q)
    yield from (("first cell", 0), ("end of the first row", width - 1), ("start of the second row", width),
                ("middle", due // width // 2 * width + width // 2), ("start of the last row", due - width), ("last cell but one", due - 2))
    blank = [start for start in range(0, due, width) if not any(page.table[2 * start:2 * (start + width)])]
    for start in blank[-1:]: yield from ((f"place {place} of a blank row", start + place) for place in (15, 16))
    yield "last cell", due - 1


def run_wrong(page, turn):
    """Faults in turn at these cells, and every fault at the last cell; in the first page a 4 at each."""
    size = len(page.q.entry)
    for k, (name, i) in enumerate(spots(page)):
        every = list(wrong_cells(i % (size + 1), size))
        some = every if name == "last cell" else [every[(2 * k + turn + x) % len(every)] for x in (0, 1)]
        if turn == 0 and FOUR not in dict(some): some.append((FOUR, (4, 0)))
        for what, cell in some: wrong_and_right(page, name, i, what, cell)


def run_taken(rng, page):
    """Cells without a fault, by turns the last one that the question does not reach and any such; and a later cell. Of a table with such a
    cell no more is promised than that it is not refused, but the question does not meet the cell."""
    for turn, (what, _) in enumerate(other_cells(0, 0)):
        asked = society(rng, page)
        reached = page.direct(asked).cells()
        free = [x for x in page.pairs() if x not in reached and x[1] > 0]
        pair = rng.choice(free) if turn % 2 else free[-1]
        before = page.cell(pair)
        page.put(page.number(pair), dict(other_cells(pair[1], len(page.q.entry)))[what])
        page.ask(asked)
        page.tally("taken", what)
        page.put(page.number(pair), before)
    page.put(cells_due(page.q), (FAR, 0))
    page.ask(society(rng, page))
    page.tally("taken", "a later cell")


def run_puts(maker, rng, classes, pages):
    """A line and a longer entry, with numbers put into their tables."""
    fit = [q for q in pages if cells_due(q) <= PUT_CELLS and maker.reference.question(q)[0].count >= PUT_DECIDED]
    line = rng.choice([q for q in fit if len(q.entry) <= LINE[1]])
    for turn, q in enumerate((line, rng.choice([q for q in fit if len(q.entry) > LINE[1]]))):
        page = Page(maker, classes, with_more(q))
        page.ask(society(rng, page))
        run_wrong(page, turn)
        run_taken(rng, page)
        page.ask(society(rng, page))


def all_faults(maker, classes, asked):
    """Each number comes before those that would follow: every fault behind it is there too."""
    bad = [(maker.found[q].number, q) for q, outcome in asked if outcome == "refused" and maker.found[q].number <= 6]
    long = next(q for number, q in bad if number == 6)
    page = Page(maker, classes, long)
    for number, q in bad: page.refused(number, sheet=q.sheet, variable=0, place=FAR, x=0, y=0)
    good = next(q for q, outcome in asked if outcome == "success")
    page = Page(maker, classes, good._replace(variable=0))
    size, cells, variables = len(good.entry), cells_due(good), variables_of(good.sheet)
    for variable in (0, variables + 1, FAR): page.refused(8, variable=variable, place=size + 1, x=2 * cells - 1)
    for place in (size + 1, FAR): page.refused(9, variable=1, place=place, y=cells - 1)
    for x, y in ((2 * cells - 1, cells), (2 * cells, cells - 1), (cells, cells), (0, cells), (2 * cells, 0)):
        page.refused(10, variable=1, x=x, y=y)
    page.refused(19, variable=1)


def one_fault(maker, rng, classes, q):
    """Further questions with one fault; then one without."""
    page, cells = Page(maker, classes, q), cells_due(q)
    page.refused(8, variable=variables_of(q.sheet) + 1)
    page.refused(9, place=len(q.entry) + 1)
    page.refused(10, x=2 * cells - 1)
    page.refused(10, y=cells - 1)
    page.ask(society(rng, page))


def run(maker, asked, classes):
    rng = generator("further questions")
    pages, short = list(chosen(maker, rng, asked)), list(lines(rng))
    run_chains(maker, rng, classes, pages + rng.sample(short, LINES))
    run_waiting(maker, rng, classes, asked)
    run_orders(maker, rng, classes, pages + rng.sample(short, LINES))
    run_puts(maker, rng, classes, pages + short)
    all_faults(maker, classes, asked)
    for q in rng.sample(pages, 3): one_fault(maker, rng, classes, q)


def check_numbers(tally):
    """What the further questions have to have at least."""
    for kind, least, most in (("further questions", 250, 450), ("further chains", 80, 130)):
        count = sum(x for (k, _), x in tally.items() if k == kind)
        if not least <= count <= most: stop(f"{count} {kind}")
    for kind, least, names in (("further questions", 20, OUTCOMES), ("asked cell", 8, ("blank", *OUTCOMES)),
                               ("further questions", 1, [f"refused with {x}" for x in (1, 2, 3, 4, 5, 6, 8, 9, 10, 19)]),
                               ("further's entry", 60, ("200 to 4096 bytes", "20 to 80 bytes")),
                               ("call before", 20, ("question", "blank table", "further question", "correction")),
                               ("newly decided", 20, ("none", "some that are reached", "all that are reached")),
                               ("waiting", 10, [f"through a kept {x}" for x in ("loop", "missing")]),
                               ("waiting", 12, ("from a blank cell to a kept one",)), ("waiting", 20, ("another pair named than asked",)),
                               ("failure at n", 10, ("newly decided", "kept")),
                               ("both orders", 2, [f"behind a {x}" for x in ("question", "blank table", "further question", "correction")]),
                               ("further 19", 2, FAULTS), ("further 19", 10, (FOUR,)), ("19 at", 2, ("first cell", "middle", "last cell")),
                               ("19 at", 1, ("place 15 of a blank row", "place 16 of a blank row"))):
        for name in names:
            if tally[(kind, name)] < least: stop(f"too few {kind}: {name}, {tally[(kind, name)]}")
