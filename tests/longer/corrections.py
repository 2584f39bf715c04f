"""The corrections. A chain is a question whose entry and table are kept, and corrections of a byte, one after the other; after each a
question is asked over the table that the one before left. Questions are taken from the list, of each kind with each outcome. A cell of a
table is two numbers, outcome and reach."""
from making import stop
from questions import cells_due, generator, variables_of

CHAINS = 3              # at most so many of a kind with an outcome; one less where a byte is sought at the entry's end
MOST = 5                # corrections of a chain
LEFT = {"loop": 14, "missing": 12}      # chains with all corrections left of the named pair
OUT_OF_TEXT = 4         # chains of questions that seek a byte at the entry's end
NEAR = 8                # of so many of a kind with an outcome the shortest and the longest, with all corrections near the end
MANY = 1000             # where only the cells above c stay, these decide so many cells
FEWER = 10              # and with a reach, so many times fewer
PUTS = 2                # chains with numbers put into the table
PUT_CELLS = 12000       # the table has at most so many cells
FAR = 99999999          # the largest number of a field

OUTCOMES = ("success", "failure", "loop", "missing")
FOUR = "is a 4"         # which no call leaves
FAULTS = ("ends one right of n", "ends right of n", "ends one left of its place", "ends left of its place", "reaches one less than its place",
          "reaches less than its place", FOUR)
CELLS = {1: "failure", 2: "loop", 3: "missing", 4: "4"}


def kind_of(q): return q.group.split(":")[0]


def with_entry(q, entry):
    """The same question about another entry at place 0, with as many numbers lent as it needs."""
    cells = variables_of(q.sheet) * (len(entry) + 1)
    return q._replace(entry=entry, place=0, x=2 * cells, y=cells)


def with_byte(q, c, byte):
    """The same question about the entry with another byte at c."""
    return q._replace(entry=q.entry[:c] + bytes([byte]) + q.entry[c + 1:])


def cells(table, count, width):
    """Place, outcome and reach of the first cells of a table."""
    return [(i % width, *table[2 * i:2 * i + 2]) for i in range(count)]


def differ_elsewhere(old, new, c):
    """Document 02 on 21: the old and new entries differ in length or at a place other than c."""
    return len(old) != len(new) or old[:c] + old[c + 1:] != new[:c] + new[c + 1:]


def is_result(outcome): return outcome == 1 or outcome >= 5


def stays(place, outcome, reach, c): return place > c or (is_result(outcome) and reach <= c)


def faults_of(place, outcome, reach, size):
    """What is wrong with a retained cell."""
    end = outcome - 5
    if end > size: yield "ends one right of n" if end == size + 1 else "ends right of n"
    if 0 <= end < place: yield "ends one left of its place" if end == place - 1 else "ends left of its place"
    if is_result(outcome) and reach < place: yield "reaches one less than its place" if reach == place - 1 else "reaches less than its place"
    if outcome == 4: yield FOUR


def faults(table, variables, size, c):
    """What is wrong with the retained cells, and whether their places are above c."""
    retained = [cell for cell in cells(table, variables * (size + 1), size + 1) if stays(*cell, c)]
    return {(what, cell[0] > c) for cell in retained for what in faults_of(*cell, size)}


class Chain:
    """A kept entry with its table."""

    def __init__(self, maker, q):
        self.maker, self.first, self.q, self.c = maker, q, q, 0
        self.found, self.table = maker.kept(q)
        maker.tally[("chains", kind_of(q))] += 1

    def correct(self, c, byte, variable, place):
        """Makes the byte at c another, and asks about a pair."""
        old, before = self.q.entry, self.table[:]
        self.q, self.c = with_byte(self.q, c, byte)._replace(variable=variable, place=place), c
        self.found = self.maker.correction(self.first.entry, old, self.q, c, self.table)
        for met in self.retained(before): self.maker.tally[met] += 1
        self.note(old[c] == byte)

    def retained(self, before):
        """What is met among the cells whose pairs the question reaches: the outcomes of the retained ones, of those that only their reach
        retains, a failure at n, and a reach of c or c + 1 at a place up to c."""
        e, width, c = self.maker.reference.eval(self.q), len(self.q.entry) + 1, self.c
        met = set()
        for variable, place in e.reached(self.q.variable, self.q.place):
            i = (variable - 1) * width + place
            outcome, reach = before[2 * i:2 * i + 2]
            if place <= c and is_result(outcome) and reach in (c, c + 1): met.add(("reach", "c, retained" if reach == c else "c + 1, blanked"))
            if outcome == 0 or not stays(place, outcome, reach, c): continue
            if (outcome, reach) != (e.cell(variable, place), e.reach(variable, place)): stop(f"a retained cell is not its pair's: {self.q}")
            met.add(("retained, reached", CELLS.get(outcome, "success")))
            if outcome == 1 and place == width - 1: met.add(("retained, reached", "failure at n"))
            if place <= c: met.add(("by reach, reached", CELLS.get(outcome, "success")))
        return met

    def note(self, again):
        tally, size, place = self.maker.tally, len(self.q.entry), self.q.place
        tally[("corrected byte", "first" if self.c == 0 else "last" if self.c == size - 1 else "between")] += 1
        if again: tally[("corrected byte", "the same again")] += 1
        tally[("asked place", "left of the byte" if place < self.c else "at the byte" if place == self.c else "right of the byte")] += 1

    def refused(self, number, c, lent=None, **change):
        """A correction that must be refused with this number. The byte stays as it is, and so does the table."""
        q, table = self.q._replace(**change), self.table[:lent]
        found = self.maker.correction(change.get("entry", self.first.entry), q.entry, q, c, table)
        if not self.maker.reference.refused(found) or found.number != number: stop(f"not refused with {number}: {q}")
        if table != self.table[:lent]: stop(f"a refusal changes the table: {q}")
        if number == 19:
            for what, above in faults(self.table, variables_of(q.sheet), len(q.entry), c):
                self.maker.tally[("refused with 19", what + (", above c" if above else ", up to c"))] += 1

    def put(self, at, x):
        """Makes a number of the table another."""
        self.maker.put(self.first, at, x, self.table)
        self.maker.tally[("puts", "numbers put into a table")] += 1


# ---------------------------------------------------------------- one correction

def byte_place(rng, chain, limit):
    """Of the places below a limit the first, the last, one near it, one in the middle, any, or the same again."""
    return rng.choice([0, limit - 1, limit - 1 - rng.randrange(min(limit, 12)), rng.randrange(limit // 4, 3 * limit // 4 + 1),
                       rng.randrange(limit), chain.c])


def named_bytes(sheet):
    """The bytes that a sheet's rules name."""
    lines = [sheet[i:i + 26].split() for i in range(26, len(sheet), 26)]
    return [int(x[2]) for x in lines if x[1] == b"2"]


def byte_for(rng, chain, c):
    """The byte that stood there first, where it was corrected; another of the entry, most often of the same class; one of the rules, any
    byte, the same again."""
    entry, first, class_of = chain.q.entry, chain.first.entry[c], chain.maker.reference.module.class_of
    if first != entry[c] and rng.random() < 0.5: return first
    others = sorted(set(entry) - {entry[c]}) or [entry[c] ^ 1]
    alike = [b for b in others if class_of(b) == class_of(entry[c])] or others
    named = named_bytes(chain.q.sheet) or others
    return rng.choice([rng.choice(alike)] * 4 + [rng.choice(others)] * 2 + [rng.choice(named)] * 2 + [rng.randrange(256), entry[c]])


def pair_for(rng, chain, c):
    """Most often the first question; another variable; a place up to the byte, one right of it."""
    q, size = chain.first, len(chain.q.entry)
    variable = rng.choice([q.variable, rng.randrange(1, variables_of(q.sheet) + 1)])
    return rng.choice([(q.variable, q.place)] * 7 + [(variable, q.place), (variable, rng.randrange(c + 1)), (variable, c),
                                                     (variable, rng.randrange(c + 1, size + 1)), (variable, c + 1)])


def correct_once(rng, chain, limit):
    """A correction at a place below the limit."""
    c = byte_place(rng, chain, limit)
    chain.correct(c, byte_for(rng, chain, c), *pair_for(rng, chain, c))


# ---------------------------------------------------------------- refusals

def one_fault(chain, which):
    """A correction with one fault."""
    size, variables = len(chain.q.entry), variables_of(chain.q.sheet)
    if which == 0: chain.refused(18, size)
    elif which == 1: chain.refused(18, FAR)
    elif which == 2: chain.refused(8, 0, variable=variables + 1)
    elif which == 3: chain.refused(9, size // 2, place=size + 1)
    elif which == 4: chain.refused(10, 0, lent=2 * variables * (size + 1) - 1)
    else: chain.refused(10, 0, lent=variables * (size + 1))


def many_faults(maker, q):
    """Over a table that no question left: each number comes before those that would follow."""
    chain = Chain(maker, q._replace(variable=0))
    size, short = len(q.entry), 2 * cells_due(q) - 1
    chain.refused(1, size, lent=short, sheet=b"", variable=0, place=size + 1)
    chain.refused(8, size, lent=short, variable=0, place=size + 1)
    chain.refused(9, size, lent=short, variable=q.variable, place=size + 1)
    chain.refused(10, size, lent=short, variable=q.variable)
    chain.refused(18, size, variable=q.variable)
    for c in (0, size // 2, size - 1): chain.refused(19, c, variable=q.variable)


def refused_questions(maker, asked):
    """A correction is refused as the question is, where the fault lies in the sheet or in the entry's length."""
    for q, outcome in asked:
        number = maker.found[q].number if outcome == "refused" else 0
        if 0 < number <= 6: Chain(maker, q).refused(number, 0)


def other_width(maker, asked, what):
    """Corrections over tables of entries that have one byte more, whose retained cells have this fault alone."""
    count = 0
    for q, outcome in asked:
        if outcome == "refused" or not 2 < len(q.entry) <= 700: continue
        entry, table = q.entry[:-1], maker.reference.question(q)[1]
        size = len(entry)
        places = [c for c in (0, size // 2, size - 2, size - 1) if {x[0] for x in faults(table, variables_of(q.sheet), size, c)} == {what}]
        if places:
            chain = Chain(maker, q)
            for c in places: chain.refused(19, c, entry=entry, place=0)
            count += len(places)
        if count >= 3: return
    stop(f"too few tables with a cell that {what}")


def results(q, c, table, above, successes):
    """The retained successes or failures of a question at places above c, or up to c: where each stands in the table, and its place."""
    found = enumerate(cells(table, cells_due(q), len(q.entry) + 1))
    return [(2 * i, place) for i, (place, outcome, reach) in found
            if place > 1 and (outcome >= 5 if successes else outcome == 1) and stays(place, outcome, reach, c) and (place > c) == above]


def one_number(rng, chain, c, above):
    """Numbers that make one retained cell wrong: the fault, where the number stands, and the number."""
    (good, good_place), (bad, bad_place) = [rng.choice(results(chain.q, c, chain.table, above, successes)) for successes in (True, False)]
    yield "ends one right of n", good, 5 + len(chain.q.entry) + 1
    yield "ends right of n", bad, FAR
    yield "ends one left of its place", bad, 5 + bad_place - 1
    yield "ends left of its place", good, 5
    yield "reaches one less than its place", good + 1, good_place - 1
    yield "reaches one less than its place", bad + 1, bad_place - 1
    yield "reaches less than its place", good + 1, 0


def wrong_and_right(chain, c, above, what, at, x):
    """One number of the kept table is wrong, and then right again."""
    before = chain.table[at]
    chain.put(at, x)
    if faults(chain.table, variables_of(chain.q.sheet), len(chain.q.entry), c) != {(what, above)}: stop(f"not this alone, {what}: {chain.q}")
    chain.refused(19, c)
    chain.put(at, before)


def retained_fours(rng, chain, c):
    """Cells right of the byte: a success, a failure, the next place, the last place, the last cell of all."""
    width, due = len(chain.q.entry) + 1, cells_due(chain.q)
    row = width * rng.randrange(due // width)
    results_above = [rng.choice(results(chain.q, c, chain.table, True, successes))[0] for successes in (True, False)]
    return [*results_above, 2 * (row + c + 1), 2 * (row + width - 1), 2 * (due - 1)]


def blanked_cells(rng, chain, c):
    """Cells left of the byte that do not stay, at the first place, at one between and at the byte's own, not blank where there are such."""
    found = list(enumerate(cells(chain.table, cells_due(chain.q), len(chain.q.entry) + 1)))
    for what, low, high in (("first place", 0, 0), ("place between", 1, c - 1), ("place c", c, c)):
        gone = [(2 * i, outcome) for i, (place, outcome, reach) in found if low <= place <= high and not stays(place, outcome, reach, c)]
        yield what, rng.choice([at for at, outcome in gone if outcome] or [at for at, _ in gone])


def run_fours(rng, chain, c, count):
    """A 4 that is retained is refused, wherever it stands, in so many cells. One that is blanked is not; where another number would not have
    stayed either, the answer is the one over the kept table. Where a result would have stayed no more is promised: there a place right of the
    byte is asked, from which no such cell is met, and then the cell is as before."""
    for at in retained_fours(rng, chain, c)[:count]: wrong_and_right(chain, c, True, FOUR, at, 4)
    for what, at in blanked_cells(rng, chain, c): blanked_four(rng, chain, c, what, at, chain.first.place)
    for what, successes in (("success by reach", True), ("failure by reach", False)):
        at = rng.choice(results(chain.q, c, chain.table, False, successes))[0]
        cell = chain.table[at:at + 2]
        blanked_four(rng, chain, c, what, at, c + 1)
        if chain.table[at:at + 2] != [0, 0]: stop(f"a 4 is not blanked: {chain.q}")
        for i in (0, 1): chain.put(at + i, cell[i])


def blanked_four(rng, chain, c, what, at, place):
    """A cell is made a 4, and the byte is corrected."""
    chain.put(at, 4)
    chain.correct(c, byte_for(rng, chain, c), chain.first.variable, place)
    if chain.maker.reference.refused(chain.found): stop(f"a 4 that is blanked is refused: {chain.q}")
    chain.maker.tally[("4 blanked", what)] += 1


def run_puts(maker, rng, kept):
    """Each fault alone, in a success and in a failure, right of the byte and left of it; 4s; then a correction."""
    def has_all(q):
        table, c = maker.reference.question(q)[1], len(q.entry) // 2
        return all(results(q, c, table, above, successes) for above in (True, False) for successes in (True, False))
    fit = [q for q in kept if maker.found[q].count >= MANY and cells_due(q) <= PUT_CELLS and has_all(q)]
    for turn, q in enumerate(rng.sample(fit, PUTS)):
        chain, c = Chain(maker, q), len(q.entry) // 2
        for above in (True, False):
            for one in one_number(rng, chain, c, above): wrong_and_right(chain, c, above, *one)
        run_fours(rng, chain, c, 2 if turn else 5)
        correct_once(rng, chain, len(q.entry))


# ---------------------------------------------------------------- chains

def grouped(maker, asked):
    """The questions that have a byte to be corrected, by kind and outcome, apart where a byte is sought at the entry's end."""
    groups = {}
    for q, outcome in asked:
        if outcome != "refused" and q.entry: groups.setdefault((kind_of(q), outcome, q in maker.out_of_text), []).append(q)
    return groups


def chosen(maker, rng, asked):
    """Questions of each kind with each outcome."""
    for (*_, at_end), group in grouped(maker, asked).items(): yield from rng.sample(group, min(CHAINS - at_end, len(group)))


def run_chosen(maker, rng, kept):
    for i, q in enumerate(kept):
        chain = Chain(maker, q)
        if i % 6 == 5: one_fault(chain, i // 6 % 6)
        for _ in range(1 + i % MOST): correct_once(rng, chain, len(q.entry))


def run_left(maker, rng, asked):
    """Corrections left of a named pair, whose cell is retained."""
    for outcome, count in LEFT.items():
        named = [(q, maker.found[q].named[1]) for q, o in asked if o == outcome]
        for q, place in rng.sample([x for x in named if x[1] > 0], count):
            chain = Chain(maker, q)
            for _ in range(3): correct_once(rng, chain, place)


def run_out_of_text(maker, rng, asked):
    """Corrections of entries at whose end a byte is sought: its failure is retained."""
    for q in rng.sample([q for q, outcome in asked if q in maker.out_of_text and outcome in ("success", "failure") and q.entry], OUT_OF_TEXT):
        chain = Chain(maker, q)
        for _ in range(3): correct_once(rng, chain, len(q.entry))


def far_fewer(count, without): return without >= MANY and FEWER * count <= without


def saves(maker, q):
    """Does a correction of the last byte decide far fewer cells by the reach?"""
    old, last, table = q.entry, len(q.entry) - 1, maker.reference.question(q)[1]
    q = with_byte(q, last, old[last] ^ 1)
    without = maker.reference.decided_without_reach(q, last, table)
    return far_fewer(maker.reference.correct(old, q, last, table).count, without)


def near_end(chain, c, byte):
    """A correction near the end, with the first question."""
    without = chain.maker.reference.decided_without_reach(with_byte(chain.q, c, byte), c, chain.table)
    chain.correct(c, byte, chain.first.variable, chain.first.place)
    count = chain.found.count
    for name, more in ((f"c = n - {len(chain.q.entry) - c}", 1), ("far fewer cells by the reach", far_fewer(count, without)),
                       ("no cell", count == 0), ("cells newly decided", count), ("cells without the reach", without)):
        chain.maker.tally[("near the end", name)] += more


def run_near_end(maker, rng, asked):
    """Corrections of the last byte, of the last but one, and of the last again, which is as it was first."""
    groups = {}
    for q, outcome in asked:
        if outcome != "refused" and maker.found[q].count >= MANY:
            groups.setdefault((kind_of(q), outcome, q in maker.out_of_text, q.x > 2 * cells_due(q)), []).append(q)
    for group in groups.values():
        found = sorted([q for q in rng.sample(group, min(NEAR, len(group))) if saves(maker, q)], key=cells_due)
        for q in found[:1] + found[1:][-1:]:
            chain, last = Chain(maker, q), len(q.entry) - 1
            near_end(chain, last, byte_for(rng, chain, last))
            near_end(chain, last - 1, byte_for(rng, chain, last - 1))
            near_end(chain, last, q.entry[last])


def run_short(maker, rng, kept):
    """Entries of one byte, and of none."""
    for q in rng.sample(kept, 5):
        chain = Chain(maker, with_entry(q, q.entry[:1]))
        for _ in range(2): correct_once(rng, chain, 1)
    for q in rng.sample(kept, 2): Chain(maker, with_entry(q, b"")).refused(18, 0)


def run(maker, asked):
    rng = generator("corrections")
    kept = list(chosen(maker, rng, asked))
    run_chosen(maker, rng, kept)
    run_left(maker, rng, asked)
    run_out_of_text(maker, rng, asked)
    run_near_end(maker, rng, asked)
    run_short(maker, rng, kept)
    many_faults(maker, rng.choice(kept))
    refused_questions(maker, asked)
    for what in ("ends one right of n", "reaches less than its place"): other_width(maker, asked, what)
    run_puts(maker, rng, kept)


def check_numbers(tally):
    """What the corrections have to have at least."""
    count = sum(x for (kind, _), x in tally.items() if kind == "corrections")
    if not 300 <= count <= 600: stop(f"{count} corrections")
    for outcome in OUTCOMES:
        if tally[("corrections", outcome)] < 20: stop(f"too few corrections with outcome {outcome}")
    for outcome in (*OUTCOMES, "failure at n"):
        if tally[("retained, reached", outcome)] < 10: stop(f"too few corrections that reach a retained {outcome}")
    for kind, names in (("corrected byte", ("first", "last", "between", "the same again")),
                        ("asked place", ("left of the byte", "at the byte", "right of the byte")),
                        ("corrections", [f"refused with {x}" for x in (1, 2, 3, 4, 5, 6, 8, 9, 10, 18, 19)]),
                        ("refused with 19", [f"{what}, {where}" for what in FAULTS for where in ("above c", "up to c")
                                             if (what, where) != (FOUR, "up to c")]),
                        ("4 blanked", ("first place", "place between", "place c", "success by reach", "failure by reach")),
                        ("by reach, reached", ("success", "failure")), ("reach", ("c, retained", "c + 1, blanked")),
                        ("near the end", ("c = n - 1", "c = n - 2", "no cell"))):
        for name in names:
            if tally[(kind, name)] == 0: stop(f"no {kind}: {name}")
    if tally[("near the end", "far fewer cells by the reach")] < 40: stop("too few corrections near the end that decide far fewer cells")
