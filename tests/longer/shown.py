"""The old entries that corrections show. A chain is a question whose entry and table are kept, edits of the kept entry, and corrections that
show an old entry of their own: one that differs from the kept entry in length or at a place other than c is refused with 21, and then the
right one is shown. Questions are taken from the list, some of them about the first bytes of their entries, so that no sheet is added.

The refusals must have the numbers given here, and leave the table as it was. What is answered is judged as the corrections of further.py are.
A byte for which the place beside it is named is one of those where stale cells would stay, on either side, that the question meets."""
from corrections import FAR, OUTCOMES, kind_of, named_bytes, stays, with_byte, with_entry
from further import Page, ask_once
from making import stop
from questions import MAX_ENTRY, cells_due, generator, variables_of

SHORT = 700             # bytes of an entry at most, where it need not be longer
DECIDED = 300           # a chain's first question decides at least so many cells
SLIPS = 40              # bytes of an entry that are looked at for one with stale cells
LINE = 20               # bytes of an entry that is cut off
PLACES = 36             # bytes of one that differs at every place
WRAPPED = 65536         # bytes by which an old entry is longer
KINDS = ("shown requests", "shown chains", "shown corrections", "shown correction judge", "shown differences", "shown refusals", "stale cells",
         "shown questions", "shown question judge")


class Importer(Page):
    """A kept entry with its table, whose corrections show old entries."""

    asked, corrected = "shown question", "shown correction"

    def __init__(self, maker, classes, q, chain):
        super().__init__(maker, classes, q)
        self.size, self.pair = len(q.entry), (q.variable, q.place)
        maker.tally[("shown chains", chain)] += 1

    def tally(self, kind, name): self.maker.tally[("shown: " + kind, name)] += 1

    def show(self, c, pair):
        """As before, and counted."""
        self.maker.tally[("shown differences", "none" if self.old == self.q.entry else "at c")] += 1
        super().show(c, pair)

    def refused_with(self, number, what, c, old=None, lent=None, **change):
        """A correction that must be refused with this number; unless an old entry is given, the one of which the table is, is shown."""
        q, table = self.q._replace(**change), self.table[:lent]
        found = self.maker.shown(self.old if old is None else old, q, c, table, self.corrected)
        if not self.maker.reference.refused(found) or found.number != number: stop(f"not refused with {number}, {what}: {q}")
        if table != self.table[:lent]: stop(f"a refusal changes the table: {q}")
        self.maker.tally[("shown refusals", f"{number}: {what}")] += 1


def other_byte(rng, q, c):
    """Another byte for the place c, of the entry or of the rules."""
    return rng.choice(sorted({*q.entry, *named_bytes(q.sheet)} - {q.entry[c]}) or [q.entry[c] ^ 1])


# ---------------------------------------------------------------- a wrong place

def stale(e, table, pairs, c):
    """How many cells of these pairs a correction at c would retain that are not as the evaluation has them."""
    count = 0
    for variable, place in pairs:
        i = (variable - 1) * (len(e.entry) + 1) + place
        outcome, reach = table[2 * i:2 * i + 2]
        if outcome and stays(place, outcome, reach, c) and (outcome, reach) != (e.cell(variable, place), e.reach(variable, place)): count += 1
    return count


def slip(maker, rng, q):
    """A place, another byte for it with which the question has the same outcome, and how many stale cells the question would meet where the
    place left or right of it is named; None, where there is none with such cells."""
    table = maker.reference.question(q)[1]
    for _ in range(SLIPS):
        c = rng.randrange(1, len(q.entry) - 1)
        byte = other_byte(rng, q, c)
        e = maker.reference.eval(with_byte(q, c, byte))
        if e.out(q.variable, q.place).kind != maker.found[q].outcome: continue
        met = [stale(e, table, e.reached(q.variable, q.place), place) for place in (c - 1, c + 1)]
        if all(met): return c, byte, met
    return None


def begin_with_slip(maker, rng, classes, name, choices):
    """A chain that begins with such a slip, and its place; then the right place is named."""
    found = ((q, slip(maker, rng, q)) for q in rng.sample(choices, len(choices)))
    q, (c, byte, met) = next((q, what) for q, what in found if what)
    page = Importer(maker, classes, q, name)
    page.edit(c, byte)
    for side, place, count in zip(("left", "right"), (c - 1, c + 1), met):
        page.refused_with(21, f"one {side} of the byte", place)
        maker.tally[("stale cells", f"one {side} of the byte")] += count
    page.show(c, page.pair)
    return page, c


def show_earlier(rng, page, c):
    """A second byte is corrected, and the entry before the first correction is shown; then the one between."""
    d = (c + page.size // 2) % page.size
    page.edit(d, other_byte(rng, page.q, d))
    page.refused_with(21, "the entry before the last one", d, page.first.entry)
    page.show(d, page.pair)
    ask_once(rng, page)


def run_ends(rng, page):
    """The first and the last byte; right of the last there is none to be named."""
    last = page.size - 1
    page.edit(0, other_byte(rng, page.q, 0))
    page.refused_with(21, "right of the first byte", 1)
    page.refused_with(21, "the last byte for the first", last)
    page.show(0, page.pair)
    page.edit(last, other_byte(rng, page.q, last))
    page.refused_with(21, "left of the last byte", last - 1)
    page.refused_with(18, "right of the last byte", last + 1)
    page.show(last, page.pair)


# ---------------------------------------------------------------- another old entry

def run_every_place(rng, page):
    """Old entries that differ in one bit at a place, by turns at c too; then the right one. Behind c there are more than 32 bytes, so that
    some of them are compared several at once."""
    c = 2
    named = {0: "at 0", c - 1: "at c - 1", c + 1: "at c + 1", page.size - 1: "at n - 1"}
    for place in [x for x in range(page.size) if x != c]:
        other = with_byte(page.q, place, page.q.entry[place] ^ (1 << place % 8))
        olds = [("", other), (" and at c", with_byte(other, c, page.q.entry[c] ^ 1))]
        for both, q in olds if place in named else [olds[place % 2]]:
            page.refused_with(21, named.get(place, "at another place") + both, c, q.entry)
    page.edit(c, other_byte(rng, page.q, c))
    page.show(c, page.pair)


def other_lengths(page, c):
    """Old entries of other lengths."""
    entry, followed = page.q.entry, lambda count: page.maker.files.followed(page.first.entry, count)
    yield "empty", b""
    yield "up to c", entry[:c]
    yield "the byte at c left out", entry[:c] + entry[c + 1:]
    yield "one byte less at the end", entry[:-1]
    yield "one byte less at the start", entry[1:]
    yield "one byte more at the end", followed(page.size + 1)
    yield "one byte more at the start", entry[:1] + entry
    yield "the byte at c twice", entry[:c + 1] + entry[c:]
    yield "the entry twice", entry + entry
    for count in (MAX_ENTRY, MAX_ENTRY + 1): yield f"{count} bytes", followed(count)
    yield f"{WRAPPED} bytes more", followed(page.size + WRAPPED)


def run_lengths(rng, page):
    """Old entries of other lengths, at the last byte those that differ by it alone; then none that differs, at the first byte, the last and
    one between."""
    last = page.size - 1
    for what, old in other_lengths(page, page.size // 3): page.refused_with(21, what, page.size // 3, old)
    for what, old in other_lengths(page, last):
        if what in ("one byte less at the end", "one byte more at the end"): page.refused_with(21, what + ", c = n - 1", last, old)
    for c in (0, page.size // 3, last): page.show(c, page.pair)


def run_faults(rng, page):
    """21 with faults that come before it, and with a wrong cell, which comes behind; then without any."""
    c, due = page.size // 2, 2 * cells_due(page.q)
    wrong = with_byte(page.q, 0, page.q.entry[0] ^ 1).entry
    for number, at, change in ((1, c, {"sheet": b""}), (8, c, {"variable": variables_of(page.q.sheet) + 1}), (9, c, {"place": page.size + 1}),
                               (10, c, {"lent": due - 1}), (10, c, {"lent": due // 2}), (18, page.size, {})):
        page.refused_with(number, "and another old entry", at, wrong, **change)
    page.refused_with(18, "and an old entry with a byte at c", page.size, page.maker.files.followed(page.first.entry, page.size + 1))
    held = page.table[2 * page.size:2 * page.size + 2]      # of variable 1 at n
    page.put(page.size, (FAR, page.size))
    page.refused_with(21, "and a wrong cell", c, wrong)
    page.refused_with(19, "a wrong cell alone", c)
    page.put(page.size, held)
    page.edit(c, other_byte(rng, page.q, c))
    page.show(c, page.pair)


def run_one_byte(rng, page):
    """An entry of one byte."""
    page.refused_with(21, "empty, of one byte", 0, b"")
    page.refused_with(21, "two bytes, of one", 0, page.q.entry * 2)
    page.edit(0, other_byte(rng, page.q, 0))
    page.show(0, page.pair)


def run_longest(rng, page):
    """The longest entry: an old one of one byte more, which is too long for a new one; places far from the corrected byte."""
    old = page.maker.files.followed(page.q.entry, MAX_ENTRY + 1)
    page.refused_with(21, f"{MAX_ENTRY + 1} bytes, of {MAX_ENTRY}", page.size // 2, old)
    for place, far in ((0, MAX_ENTRY - 1), (MAX_ENTRY - 1, 0)):
        byte = page.q.entry[place]
        page.edit(place, byte ^ 1)
        for c in (page.size // 2, far): page.refused_with(21, "far from the byte", c)
        page.edit(place, byte)


def run_too_long(rng, page):
    """6 is of the new entry."""
    for old in (page.q.entry, page.q.entry[:-1]): page.refused_with(6, f"an old entry of {len(old)} bytes", 0, old)


# ---------------------------------------------------------------- chains

def run(maker, asked, classes):
    rng, before = generator("old entries"), len(maker.files.requests)

    def begun(name, choices): return Importer(maker, classes, rng.choice(choices), name)

    short = [(q, o) for q, o in asked if o != "refused" and 2 < len(q.entry) <= SHORT and maker.found[q].count >= DECIDED]
    fit = {outcome: [q for q, o in short if o == outcome] for outcome in OUTCOMES}
    fit["out of text"] = [q for q, o in short if o == "failure" and q in maker.out_of_text]
    for turn, (name, pages) in enumerate(fit.items()):
        page, c = begin_with_slip(maker, rng, classes, name, pages)
        if turn % 2 == 0: show_earlier(rng, page, c)
    taken = [q for q, outcome in asked if outcome != "refused"]
    longest = [q for q in taken if variables_of(q.sheet) > 2 and len(q.entry) == MAX_ENTRY]
    begin_with_slip(maker, rng, classes, "longest", longest)
    run_longest(rng, begun("longest", longest))
    natural = [q for q in taken if kind_of(q) == "natural" and q.place == 0]
    run_ends(rng, begun("ends", [q for q in natural if len(q.entry) <= SHORT]))
    for name, size, follow in (("every place", PLACES, run_every_place), ("lengths", LINE, run_lengths), ("faults", LINE, run_faults),
                               ("one byte", 1, run_one_byte)):
        follow(rng, begun(name, [with_entry(q, q.entry[:size]) for q in natural]))
    run_too_long(rng, begun("too long", [q for q, outcome in asked if outcome == "refused" and maker.found[q].number == 6]))
    maker.tally[("shown requests", "in all")] = len(maker.files.requests) - before


def check_numbers(tally):
    """What the old entries have to have at least."""
    if not 80 <= tally[("shown requests", "in all")] <= 160: stop(f"{tally[('shown requests', 'in all')]} requests with old entries")
    for kind, least, names in (("shown corrections", 50, ("refused with 21",)), ("shown corrections", 1, OUTCOMES),
                               ("shown corrections", 1, [f"refused with {x}" for x in (1, 6, 8, 9, 10, 18, 19)]),
                               ("shown differences", 10, ("at c",)), ("shown differences", 3, ("none",)),
                               ("shown refusals", 5, [f"21: one {x} of the byte" for x in ("left", "right")]),
                               ("shown refusals", 1, [f"21: at {x}{y}" for x in ("0", "c - 1", "c + 1", "n - 1") for y in ("", " and at c")]),
                               ("shown refusals", 1, [f"21: {x}" for x in ("empty", "one byte less at the end", "one byte more at the end",
                                                                          f"{MAX_ENTRY + 1} bytes", "and a wrong cell")])):
        for name in names:
            if tally[(kind, name)] < least: stop(f"too few {kind}: {name}, {tally[(kind, name)]}")
