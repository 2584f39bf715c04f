"""The tables stored by place. A chain is a kept table, stored and taken back, with further questions and corrections before, between and
behind. Questions are taken from the list, some of them about the first bytes of their entries, so that neither a sheet nor an entry is
added.

Of every table that is stored, the cells must be where the document's formula puts them, which is written down here apart from reader.py;
the counts of outcomes 0, 1, 2, 3, 4, and 5 or more must be the same in both orders, both reader.py's and those taken here; later numbers
must be as they were. A table that is taken back must be the one that was stored. Refusals must have the numbers given here, and leave the
target as it was. Further questions are judged as those of further.py are: a restored table is a kept table."""
from collections import Counter

from corrections import FAR, OUTCOMES, byte_for, byte_place, kind_of, with_entry
from further import Page, TRIES, ask_once, correct_once, holds, pair_for, society, with_more
from making import stop
from questions import CELLS, MAX_ENTRY, NUMBERS, WIDE, cells_due, generator, variables_of

MORE = 0, 1, 2, 7       # so many numbers more than are due are lent by turns
DECIDED = 300           # a chain's first question decides at least so many cells
LINE = 40               # bytes of an entry that is cut off
SHAPES = (7, MAX_ENTRY), (WIDE - 1, 127), (2, 0)        # V and n of cells that are moved whatever they hold
HELD = "blank", "failure", "loop", "missing", "4", "success"
KINDS = ("archive requests", "archive chains", "stored", "restored", "stored outcomes", "archive shapes", "archive lent", "archive questions",
         "archive question judge", "archive corrections", "archive correction judge", "archive: asked cell", "archive: call before",
         "archive: newly decided", "archive: waiting")


def due(variables, size):
    """How many numbers the cells of a shape, V and n, have."""
    return 2 * variables * (size + 1)


def by_place(table, variables, size):
    """The cells of a table in stored order: that of the pair (A, p) is cell p V + A - 1."""
    pairs = {p * variables + a - 1: (a, p) for a in range(1, variables + 1) for p in range(size + 1)}
    starts = [2 * ((a - 1) * (size + 1) + p) for a, p in (pairs[j] for j in range(variables * (size + 1)))]
    return [x for start in starts for x in table[start:start + 2]]


def counts(cells):
    """How many cells have outcome 0, 1, 2, 3, 4, and 5 or more."""
    met = Counter(min(x, 5) for x in cells[::2])
    return [met[x] for x in range(6)]


# ---------------------------------------------------------------- calls

class Archived(Page):
    """A kept entry with its table, and what is stored of it."""

    asked, corrected = "archive question", "archive correction"

    def __init__(self, maker, classes, q, chain, blank=False):
        super().__init__(maker, classes, q, blank)
        self.shape, self.stored, self.away, self.stored_old = (variables_of(q.sheet), len(q.entry)), [], {}, q.entry
        maker.tally[("archive chains", chain)] += 1
        self.turn = sum(x for (kind, _), x in maker.tally.items() if kind == "archive chains")

    def tally(self, kind, name): self.maker.tally[("archive: " + kind, name)] += 1

    def more(self, count, most):
        """So many numbers and some more, where there are more."""
        self.turn += 1
        return min(most, count + MORE[self.turn % len(MORE)])

    def move(self, call, source, target, shape, x, y):
        """Moves the cells of a shape from x numbers of a table to y numbers of another; a refusal or None, and both as they are then."""
        if x > len(source) or y > NUMBERS: stop(f"there are no {x} and {y} numbers: {self.q}")
        lent, filled = source[:x], self.maker.filled(y)
        found = call(self.first, shape, lent, filled)
        if lent != source[:x]: stop(f"the table that is read is changed: {self.q}")
        target[:y] = filled
        return found, lent, filled

    def done(self, name, call, source, target, shape, x, y):
        """A move that is not refused; the cells in both tables."""
        count = due(*shape)
        found, lent, filled = self.move(call, source, target, shape, x, y)
        if found is not None: stop(f"refused with {found.number}: {self.q}")
        if filled[count:] != self.maker.filled(y - count): stop(f"later numbers are changed: {self.q}")
        self.note_move(name, *shape, x - count, y - count)
        return lent[:count], filled[:count]

    def store(self, shape=None):
        """Stores the table, in its own shape or in another."""
        shape = shape or self.shape
        y = self.more(due(*shape), NUMBERS)
        table, stored = self.done("stored", self.maker.store, self.table, self.stored, shape, len(self.table), y)
        if stored != by_place(table, *shape): stop(f"not stored by place: {self.q}")
        self.away, self.stored_old = {shape: table}, self.old
        self.count(shape, table, stored)

    def count(self, shape, table, stored):
        """The counts in both orders."""
        taken = counts(table)
        for x in (counts(stored), *(self.maker.reference.module.counts(*shape, cells) for cells in (table, stored))):
            if x != taken: stop(f"the counts are {taken} and {x}: {self.q}")
        met = [name for name, x in zip(HELD, taken) if x]
        for name in met + ["each"] * (len(met) == len(HELD)): self.maker.tally[("stored outcomes", name)] += 1

    def restore(self, shape=None):
        """Takes back what was stored, in its own shape or in another."""
        shape = shape or self.shape
        x, y = self.more(due(*shape), len(self.stored)), self.more(due(*shape), len(self.table))
        stored, table = self.done("restored", self.maker.restore, self.stored, self.table, shape, x, y)
        if by_place(table, *shape) != stored: stop(f"not what is stored: {self.q}")
        if self.away.get(shape, table) != table: stop(f"not the table that was stored: {self.q}")
        self.old, self.before = self.stored_old, "restored table"

    def refused_move(self, back, number, shape, x, y):
        """One that must be refused with this number."""
        call, source, target = (self.maker.restore, self.stored, self.table) if back else (self.maker.store, self.table, self.stored)
        found, _, filled = self.move(call, source, target, shape, x, y)
        if found != (number, 0): stop(f"not refused with {number} but {found}: {self.q}")
        if filled != self.maker.filled(y): stop(f"a refusal changes the target: {self.q}")
        if not back: self.away = {}
        self.maker.tally[("restored" if back else "stored", f"refused with {number}")] += 1

    def again(self):
        """The first entry is kept again, with a blank table."""
        self.q, self.table, self.before = self.first, self.maker.blank(self.first), "blank table"
        self.old = self.q.entry

    def note_move(self, name, variables, size, *more):
        """What was moved; the last two are the numbers lent beyond what is due."""
        tally, full = self.maker.tally, variables * (size + 1) == CELLS
        tally[(name, "done")] += 1
        for what, fits in (("V = 1", variables == 1), (f"V = {WIDE}", variables == WIDE), ("n = 0", size == 0),
                           (f"n = {MAX_ENTRY}", size == MAX_ENTRY), (f"{CELLS} cells", full)):
            if fits: tally[("archive shapes", f"{name}, {what}")] += 1
        for way, count in zip(("from", "to"), more):
            lent = "what is due" if count == 0 else "an odd number more" if count % 2 else "an even number more"
            tally[("archive lent", f"{name} {way} {lent}")] += 1


# ---------------------------------------------------------------- chains

def store_once(rng, page): page.store()


def restore_once(rng, page): page.restore()


def ask_held(rng, page, wanted="{}"):
    """A pair whose cell holds what the first question's holds, where there is one."""
    page.ask(pair_for(rng, page, wanted.format(holds(page.cell((page.first.variable, page.first.place))[0]))))


def ask_waiting(rng, page):
    """A pair that waits for such a cell of a loop or a missing rule."""
    ask_held(rng, page, "waits for a kept {}")


def with_new_cells(rng, page):
    """A pair with a blank cell among those that it reaches; any, where none is found."""
    for _ in range(TRIES):
        pair = society(rng, page)
        if any(page.cell(x)[0] == 0 for x in page.direct(pair).cells()): break
    return pair


def asked_between(rng, page):
    """The same further question over the table that is stored, and over the restored one."""
    pair = with_new_cells(rng, page)
    page.store()
    found = page.ask(pair)
    page.restore()
    if page.ask(pair) != found: stop(f"a restored table has another answer: {page.q}")


def corrected_between(rng, page):
    """The restored table is of an entry that differs at c, so that the next correction is there and shows that entry."""
    c = byte_place(rng, page, len(page.q.entry))
    page.store()
    page.correct(c, byte_for(rng, page, c), society(rng, page))
    page.restore()
    page.edit(c, byte_for(rng, page, c))
    page.show(c, society(rng, page))


# The outcome of the first question, and the calls behind it.
CHAINS = {"of a question": ("loop", store_once, restore_once, ask_waiting, correct_once),
          "of a blank table": ("success", store_once, restore_once, ask_once, correct_once),
          "of a further question": ("missing", ask_once, store_once, restore_once, ask_held, correct_once),
          "of a correction": ("loop", correct_once, store_once, restore_once, correct_once, ask_held),
          "stored again": ("missing", store_once, restore_once, ask_waiting, store_once, restore_once, ask_held),
          "asked between": ("failure", asked_between, correct_once),
          "corrected between": ("loop", corrected_between, ask_held)}
SPECIAL = "another page between", "every outcome", "limits", "other shapes", "numbers put", "refused"


def chosen(maker, rng, asked, outcome):
    """A question with this outcome that decides many cells."""
    return rng.choice([q for q, o in asked if o == outcome and maker.found[q].count >= DECIDED])


def run_chains(maker, rng, classes, asked):
    for i, (name, (outcome, *steps)) in enumerate(CHAINS.items()):
        q = chosen(maker, rng, asked, outcome)
        page = Archived(maker, classes, with_more(q) if i % 2 else q, name, name == "of a blank table")
        for step in steps: step(rng, page)


def run_between(maker, rng, classes, asked):
    """Another page is kept while the table is stored."""
    name = SPECIAL[0]
    page = Archived(maker, classes, with_more(chosen(maker, rng, asked, "loop")), name)
    page.store()
    ask_once(rng, Archived(maker, classes, chosen(maker, rng, asked, "missing"), name))
    page.again()
    page.restore()
    ask_waiting(rng, page)
    correct_once(rng, page)


def pairs_of(maker, q):
    """A pair for each outcome that is found at some places."""
    e, found = maker.reference.eval(q), {}
    for variable in range(1, variables_of(q.sheet) + 1):
        for place in (0, len(q.entry) // 2, len(q.entry)): found.setdefault(e.out(variable, place).kind, (variable, place))
    return found


def run_every_outcome(maker, rng, classes, asked):
    """Further questions until the table has every outcome; then two cells are 4s too, which are moved as they are. Behind that, with the two
    as before, a cell of each outcome is asked."""
    for q in [q for q, _ in asked if kind_of(q) == "random"]:
        pairs = pairs_of(maker, q)
        if len(pairs) == len(OUTCOMES): break
    page = Archived(maker, classes, q, SPECIAL[1])
    for outcome in OUTCOMES:
        if outcome != maker.found[q].outcome: page.ask(pairs[outcome])
    held = {i: page.table[2 * i:2 * i + 2] for i in (1, cells_due(q) - 1)}
    for i, reach in zip(held, (0, len(q.entry) + 1)): page.put(i, (4, reach))
    page.store()
    page.restore()
    page.refused(19)
    for i, cell in held.items(): page.put(i, cell)
    for outcome in ("loop", "missing"): page.ask(pair_for(rng, page, f"waits for a kept {outcome}"))
    for outcome in OUTCOMES: page.ask(pair_for(rng, page, outcome))
    correct_once(rng, page)


def run_limits(maker, rng, classes, asked):
    """The fewest and the most variables and bytes."""
    taken = [q for q, outcome in asked if outcome != "refused"]
    one = next(q for q in taken if variables_of(q.sheet) == 1 and len(q.entry) == MAX_ENTRY)
    wide = rng.choice([q for q in taken if cells_due(q) == CELLS and variables_of(q.sheet) == WIDE])
    deep = rng.choice([q for q in taken if variables_of(q.sheet) > 2 and len(q.entry) == MAX_ENTRY])
    for q in (one, wide, deep, with_entry(one, b""), with_entry(wide, b"")):
        page = Archived(maker, classes, q, SPECIAL[2])
        page.store()
        page.restore()
        ask_once(rng, page)
        if q.entry: correct_once(rng, page)


def run_shapes(maker, rng, classes, asked):
    """Cells are moved whatever they hold: in other shapes than the page's, and with V and n + 1 exchanged."""
    page = Archived(maker, classes, with_more(chosen(maker, rng, asked, "failure")), SPECIAL[3])
    for shape in SHAPES:
        page.turn = 1       # of the page's table no more is lent than is due, and the rest stays
        page.store(shape)
        page.restore(shape)
    ask_once(rng, page)
    page.store((LINE, 6))
    page.restore((7, LINE - 1))
    page.store((7, LINE - 1))


def run_put(maker, rng, classes, q):
    """Cells that no call leaves are moved like others; then they are as before."""
    page, last = Archived(maker, classes, q, SPECIAL[4]), cells_due(q) - 1
    held = {i: page.table[2 * i:2 * i + 2] for i in (LINE // 2, LINE, last)}
    for i, cell in zip(held, ((FAR, FAR), (4, FAR), (0, 7))): page.put(i, cell)
    page.store()
    page.restore()
    page.refused(19)
    for i, cell in held.items(): page.put(i, cell)
    page.ask(society(rng, page))


# ---------------------------------------------------------------- refusals

def faults(page):
    """Number, shape, and how many numbers are lent to read and to write; with one fault, and with others behind it."""
    variables, size = page.shape
    count, most = due(*page.shape), len(page.table)
    yield 3, (0, size), most, most
    yield 3, (WIDE + 1, size), most, most
    yield 3, (0, MAX_ENTRY + 1), most, most
    yield 3, (WIDE + 1, size), most, due(WIDE + 1, size) - 1
    yield 3, (FAR, FAR), 0, 0
    yield 6, (1, MAX_ENTRY + 1), most, most
    yield 6, (variables, FAR), most, most
    yield 6, (1, MAX_ENTRY + 1), due(1, MAX_ENTRY + 1) - 1, most
    yield 20, page.shape, count - 1, most
    yield 20, page.shape, most, count - 1
    yield 20, page.shape, count // 2, count
    yield 20, page.shape, count, count - 2 * variables
    yield 20, (WIDE, MAX_ENTRY), most, most


def run_refused(maker, rng, classes, q):
    """Behind a refused restore the table is no kept one; behind the next restore it is one again."""
    page = Archived(maker, classes, with_more(q), SPECIAL[5])
    for fault in faults(page): page.refused_move(False, *fault)
    page.store()
    for fault in faults(page): page.refused_move(True, *fault)
    page.refused(19)
    page.restore()
    ask_once(rng, page)


def run(maker, asked, classes):
    rng, before = generator("tables stored by place"), len(maker.files.requests)
    run_chains(maker, rng, classes, asked)
    run_between(maker, rng, classes, asked)
    run_every_outcome(maker, rng, classes, asked)
    run_limits(maker, rng, classes, asked)
    run_shapes(maker, rng, classes, asked)
    natural = [q for q, outcome in asked if kind_of(q) == "natural" and outcome == "success" and q.place == 0]
    for follow in (run_put, run_refused):
        q = rng.choice(natural)
        follow(maker, rng, classes, with_entry(q, q.entry[:LINE]))
    maker.tally[("archive requests", "in all")] = len(maker.files.requests) - before


def check_numbers(tally):
    """What the tables stored by place have to have at least."""
    both, refused = ("stored", "restored"), [f"refused with {x}" for x in (3, 6, 20)]
    if not 100 <= tally[("archive requests", "in all")] <= 160: stop(f"{tally[('archive requests', 'in all')]} requests with stored tables")
    for kind, least, names in (("archive chains", 1, (*CHAINS, *SPECIAL)), ("stored outcomes", 2, HELD), ("stored outcomes", 1, ("each",)),
                               *((x, 20, ("done",)) for x in both), *((x, 3, refused) for x in both),
                               ("archive shapes", 1, [f"{x}, {what}" for x in both for what in
                                                      ("V = 1", f"V = {WIDE}", "n = 0", f"n = {MAX_ENTRY}", f"{CELLS} cells")]),
                               ("archive lent", 2, [f"{x} {way} {what}" for x in both for way in ("from", "to") for what in
                                                    ("what is due", "an odd number more")]),
                               ("archive questions", 2, OUTCOMES), ("archive questions", 1, ("refused with 19",)),
                               ("archive: asked cell", 1, ("blank", *OUTCOMES)), ("archive: call before", 10, ("restored table",)),
                               ("archive: waiting", 1, [f"through a kept {x}" for x in ("loop", "missing")]),
                               ("archive: newly decided", 2, ("none", "some that are reached"))):
        for name in names:
            if tally[(kind, name)] < least: stop(f"too few {kind}: {name}, {tally[(kind, name)]}")
