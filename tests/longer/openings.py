"""The openings that already loop. An opening is asked for as a verdict is, at the start variable and place 0 of an entry, in which the
endmarker is a byte like others. Questions are taken from the list, of each kind with each verdict; sheets that loop at a chosen place of a
page are made here, and sheets that loop where the text runs out.

reader.py tries one opening after the other, from the empty one on. The direct evaluation must agree with it: on the verdict, that the least
opening loops, and that the one of a byte less does not, nor any shorter one, or every so many of them where that is too much for it. More
text can undo a loop: an opening of an entry that does not loop may loop, and a longer opening than the least one may not. The direct
evaluation looks at all openings for such ones, where they are not too many."""
from corrections import kind_of
from direct import Direct
from making import stop
from questions import (CELLS, MAX_ENTRY, NUMBERS, WIDE, cells_due, dashes, generator, guarded, hidden_left, left_sums, longest, loop_ring,
                       no_rule, optional_letters, own_first, own_third, question, under_no, wide_ring, widened, words_text, words_with_mark)
from sheets import ALPHABET, NATURAL, Sheet, bent_sheet, free_sheet, random_text

PAIRS = 2500000         # of an opening from the list, reader.py decides at most about so many pairs
ALL_PAIRS = 200000      # where the direct evaluation looks at openings, it decides at most about so many
TRIES = 500             # random sheets, and bytes changed of an entry
RANDOM = 8              # random sheets that loop late
NONE = 2                # at most so many of a kind with a verdict other than loop
FAR = 100               # more than so many bytes right of the named place
VERDICTS = ("recognised", "partial", "failure", "missing")
REFUSALS = (1, 2, 3, 4, 5, 6, 10)
PLACES = ("m = 0", "m up to n / 4", "m up to 3n / 4", "m up to n - 2", "m = n - 1", "m = n")
BEHIND = (own_first, hidden_left, own_third, left_sums, under_no)


def place_of(m, n):
    """Where in the entry a least opening ends."""
    if m == 0: return "m = 0"
    if m >= n - 1: return "m = n" if m == n else "m = n - 1"
    return "m up to n / 4" if 4 * m <= n else "m up to 3n / 4" if 4 * m <= 3 * n else "m up to n - 2"


def right_of(count):
    """How far right of the named place a least opening ends; left of it, where it loops elsewhere than the whole."""
    if count < 0: return "left of it"
    if count < 2: return ("at it", "one right of it")[count]
    return "right of it" if count <= FAR else "far right of it"


def endmarker_in(q):
    """Where the endmarker stands in an entry."""
    size, places = len(q.entry), [i for i, b in enumerate(q.entry) if b == int(q.sheet[10:15])]
    if size == 0: return "empty entry"
    if not places: return "none"
    if places == [size - 1]: return "at the end"
    return "at the end and before" if places[-1] == size - 1 else "before the end"


def pairs_of(whole):
    """How many pairs the direct evaluation reaches."""
    return len(whole.results) + len(whole.waiting)


class Openings:
    def __init__(self, maker, classes): self.maker, self.classes, self.tally = maker, classes, maker.tally

    def evaluated(self, q, m=None): return Direct(q.sheet, q.entry[:m], self.classes)

    def ask(self, q):
        """An opening of a verdict that is not refused."""
        verdict, m = self.maker.opening(q)
        if self.maker.reference.refused(verdict): stop(f"refused with {verdict.number}: {q}")
        whole = self.evaluated(q)
        if whole.verdict() != verdict.verdict: stop(f"the direct evaluation says {whole.verdict()}, reader.py {verdict.verdict}: {q}")
        if (whole.outcome == "loop") != (m is not None): stop(f"the direct evaluation says {whole.outcome}, the opening is {m}: {q}")
        self.tally[("opening kind", kind_of(q))] += 1
        size = len(q.entry)
        self.tally[("opening's entry", "200 to 4095 bytes" if 200 <= size <= 4095 else f"{size} bytes" if size in (0, 4096) else "other")] += 1
        self.tally[("opening's endmarker", endmarker_in(q))] += 1
        if verdict.verdict == "loop": self.least(q, whole, m, verdict.named[1])
        else: self.none(q, verdict)
        self.tally[("all openings", self.look_at_all(q, whole, m))] += 1

    def loops(self, q, m): return self.evaluated(q, m).outcome == "loop"

    def look_at_all(self, q, whole, m):
        """Whether more text undoes a loop; the least opening is known."""
        first, size = m or 0, len(q.entry)
        if (size - first) * pairs_of(whole) > ALL_PAIRS: return "not looked at"
        if m is None: return "none loops" if not any(self.loops(q, x) for x in range(size)) else "one loops, the whole does not"
        return "each from the least on loops" if all(self.loops(q, x) for x in range(m, size)) else "a longer one than the least does not loop"

    def least(self, q, whole, m, named):
        step = 1 + m * pairs_of(whole) // ALL_PAIRS
        shorter = [x for x in range(m - 1, -1, -step) if self.loops(q, x)]
        if shorter or not self.loops(q, m): stop(f"the direct evaluation has openings {shorter} before {m}, which is reader.py's: {q}")
        if m > 0: self.tally[("shorter openings", "each looked at" if step == 1 else "every so many looked at")] += 1
        self.tally[("openings", "least")] += 1
        self.tally[("least opening", place_of(m, len(q.entry)))] += 1
        self.tally[("m, named place", right_of(m - named))] += 1
        self.tally[("opening judge", "least: reader.py and the direct evaluation")] += 1

    def none(self, q, verdict):
        source = self.maker.judged(q, self.maker.reference.question(q)[0])[1]
        self.tally[("openings", f"none, {verdict.verdict}")] += 1
        self.tally[("opening judge", "none: LPeg, reader.py and the direct evaluation" if source == "LPeg" else
                    "none: reader.py and the direct evaluation")] += 1

    def refused(self, number, q):
        """An opening that must be refused with this number, and leave the slices as they were."""
        verdict, found = self.maker.opening(q)
        if not self.maker.reference.refused(verdict) or verdict.number != number: stop(f"not refused with {number}: {q}")
        if found != verdict: stop(f"an opening is refused otherwise than the verdict: {q}")
        self.tally[("openings", f"refused with {number}")] += 1
        self.tally[("opening judge", "refused: reader.py")] += 1


# ---------------------------------------------------------------- pages with a loop at a place

def marked():
    """Words with a mark, behind which it loops: at the start, in the middle, at the end."""
    sizes = (230, 700, 340, 1000, 450)
    for i, behind in enumerate(BEHIND):
        sheet, look, name = words_with_mark("?", behind), guarded("?", behind), behind.__name__.replace("_", " ")
        for j, at in enumerate((lambda n: 0, lambda n: n // 7, lambda n: n // 2, lambda n: n - 3, lambda n: n - 2)):
            size = sizes[(i + j) % len(sizes)]
            text = words_text(size, b"?", at(size))
            yield question(f"loop: {name}", sheet, text[:-1] if j == 4 else text)
        for at in (140, 298): yield question(f"loop: {name} in a lookahead", look, words_text(300, b"?", at))


def letters_then_itself():
    """A letter and itself again; where there is none, itself at the same place."""
    s = Sheet()
    s.rules[1] = (4, s.cls(3), 1, 1)
    return s


def runs():
    """Loops behind a run of bytes, up to the entry's end."""
    for text in (b"-" * 300 + b"abc and.", b"-" * 1199 + b".", b"--.", b"-.", b"."): yield question("loop: dashes", dashes(), text)
    for text in (b"abc" * 100 + b" and.", b"abc" * 200 + b".", b"."): yield question("loop: optional letters", optional_letters(), text)
    for text in (b"a" * 1999 + b".", b"a" * 900 + b"-" + b"a" * 900 + b"."):
        yield question("deep: letters, then itself", letters_then_itself(), text)


def rings():
    """Loops for which no byte is looked at."""
    for size, operand in ((4, 1), (40, 1), (100, 1), (5, 2), (60, 2), (5, 3), (33, 3), (98, 3)):
        sheet = loop_ring(size, operand)
        yield question(f"loop: ring through operand {operand}", sheet, b"a" * (min(2000, longest(sheet.count)) - 1) + b".")
    yield question("loop: ring through operand 2", loop_ring(5, 2), b".")
    yield question("wide: ring through operand 2", widened(loop_ring(240, 2)), wide_ring()[1])
    one = Sheet()
    one.rules[1] = (4, 1, 1, 1)
    for size in (1, 2000): yield question("loop: one rule", one, b"a" * (size - 1) + b".")


def wide_pages():
    sheet, size = widened(words_with_mark("?", own_first)), longest(WIDE)
    for at in (0, 70, size - 2): yield question("wide: own first", sheet, words_text(size, b"?", at))


def looked_through(mark):
    """The page is looked through up to a mark, and then it loops at its start."""
    s = Sheet()
    s.define(1, s.seq(s.ahead(s.seq(s.star(s.choice(s.cls(3), s.byte(" "))), s.byte(mark))), own_first(s)))
    return s


def other_reading():
    """Words up to a mark that is not there; then a loop at the start."""
    s = Sheet()
    s.define(1, s.choice(s.seq(s.star(s.choice(s.cls(3), s.byte(" "))), s.byte("!")), hidden_left(s)))
    return s


def word_ahead(s):
    """A word has to follow; then it loops at the start of the word."""
    return s.seq(s.ahead(s.plus(s.cls(3))), own_first(s))


def far_from_named():
    """The loop is named at the start, but for it the page was looked at up to its middle or its end; or at a word, up to the word's end."""
    sheet, words = words_with_mark("?", word_ahead), words_text(400)
    for near in (0, 200, 380):
        at = words.index(b" ", near)
        yield question("loop: a word looked at", sheet, words[:at] + b"?" + words[at + 1:])
    for mark, size, at in ((".", 260, None), (".", 800, None), ("?", 600, 301), ("?", 600, 598)):
        text = words_text(size, mark.encode(), at) if at else words_text(size)
        yield question("loop: looked through", looked_through(mark), text)
    for size in (250, 700): yield question("loop: another reading", other_reading(), words_text(size))


def started_elsewhere(start):
    """Words with a mark, as a page of another start variable; the first variable is a word, and never loops."""
    s = Sheet()
    word = s.plus(s.cls(3))
    marked = s.name("marked", s.seq(s.byte("?"), hidden_left(s)))
    s.name("page", s.seq(s.star(s.choice(word, s.byte(" "), marked)), s.byte(".")))
    s.define(1, word)
    s.start = s.names[start]
    return s


def with_endmarker(sheet, endmarker):
    data = sheet.bytes()
    return data[:10] + f"{endmarker:5}".encode() + data[15:]


def first_lines():
    """Start variables that are not the first, endmarkers that are no full stop."""
    for start, text in (("page", words_text(300, b"?", 0)), ("page", words_text(300, b"?", 100)), ("page", words_text(300, b"?", 298)),
                        ("page", words_text(300)), ("marked", words_text(400, b"?", 0)), ("loop", words_text(400))):
        sheet = started_elsewhere(start)
        yield question("loop: another start variable", sheet, text, sheet.start)
    for endmarker in (0, 255):
        sheet = with_endmarker(words_with_mark("?", hidden_left), endmarker)
        yield question("loop: another endmarker", sheet, words_text(320, b"?", 100)[:-1] + bytes([endmarker]))


# ---------------------------------------------------------------- loops that more text undoes

def undone():
    """Without an a it loops, and behind an a with a b."""
    s = Sheet()
    s.rules = {1: (4, 2, 3, 1), 2: (2, 97), 3: (4, 4, 5, 6), 4: (2, 98), 5: (4, 5, 5, 5), 6: (0,)}
    s.count = 6
    return s


def by_turns(count):
    """Dashes, and then letters a: one more than a multiple of a number, and it loops."""
    s = Sheet()
    ring, a = [s.new() for _ in range(count)], s.byte("a")
    s.rules[1] = (4, s.byte("-"), 1, ring[0])
    for i, v in enumerate(ring): s.rules[v] = (4, a, ring[(i + 1) % count], own_first(s) if i == 1 else s.succeed())
    return s


def open_words():
    """Words, each with a blank or a full stop behind it; where that is lacking, it loops."""
    s = Sheet()
    page, gap, done = s.start, s.new(), s.succeed()
    s.rules[page] = (4, s.plus(s.cls(3)), gap, done)
    s.rules[gap] = (4, s.cls(4), page, s.call(s.byte("."), done, own_first(s)))
    return s


def open_remarks():
    """Words with remarks in braces; where the closing brace is lacking, it loops."""
    s = Sheet()
    letter, inner = s.choice(s.cls(3), s.cls(4)), s.new()
    s.rules[inner] = (4, s.byte("}"), s.succeed(), s.call(letter, inner, own_first(s)))
    s.rules[1] = (4, s.choice(letter, s.seq(s.byte("{"), inner)), 1, s.byte("."))
    return s


def dashes_and_letters():
    """How many dashes, and how many letters behind them: the longest entry too, and one byte less."""
    yield from ((0, 1), (0, 2), (0, 3), (0, 4), (1, 3), (40, 7), (40, 8), (150, 51), (150, 52))
    for size in (MAX_ENTRY - 1, MAX_ENTRY): yield 99, size - 99


def undone_pages():
    """Entries whose openings loop or do not by turns, with the endmarker at the end, in the middle and without it."""
    for text in (b"", b"a", b"ab", b"aa", b"b", b"a.", b"ab.", b".", b"ac" * 150, b"ab" * 150): yield question("loop: undone", undone(), text)
    for before, letters in dashes_and_letters():
        text = b"-" * before + b"a" * letters
        yield question("loop: by turns", by_turns(2), text)
        if before in (40, 150): yield question("loop: by turns", by_turns(3), text)
        if before == 40:
            for behind in (b".", b".a"): yield question("loop: by turns", by_turns(2), text + behind)
    words = words_text(300)
    for text in (words, words[:-1], words[:words.rindex(b" ") + 1], b"of", b"of ", b"of.", b"", b".", words[:150] + b"." + words[150:]):
        yield question("loop: open words", open_words(), text)
    remark = words[:100].replace(b" ", b"{", 1)
    for text in (words[:90] + b"{" + words[90:130] + b"}" + words[130:], words[:90] + b"{of}" + words[:50] + b"{" + words[:60],
                 words[:200] + b"{" + words[:9] + b".", remark, remark + b"}.", remark + b"}" + remark):
        yield question("loop: open remarks", open_remarks(), text)


# ---------------------------------------------------------------- natural grammars with a fault

PLANTED = {"dates": "date", "names": "person", "trades": "word", "remarks": "word", "French names": "name"}


def planted(name, behind):
    """A natural grammar in which a variable may also be a mark and what loops behind it."""
    sheet = NATURAL[name][0]()
    variable, plain = sheet.names[PLANTED[name]], sheet.new()
    sheet.define(plain, variable)
    sheet.define(variable, sheet.choice(sheet.seq(sheet.byte("?"), behind(sheet)), plain))
    return sheet


def loose_remarks():
    """Words and remarks with a blank between them that may be left out: it is left out again and again."""
    s = Sheet()
    letter = s.choice(s.cls(3), s.cls(2))
    remark = s.seq(s.byte("{"), s.star(s.seq(s.no(s.byte("}")), s.choice(letter, s.cls(4), s.cls(5), s.cls(1)))), s.byte("}"))
    s.define(s.start, s.seq(s.star(s.choice(s.plus(letter), remark, s.opt(s.cls(4)))), s.byte(".")))
    return s


def loose_notes():
    """Names with notes in brackets; a note is letters that may be left out, and blanks."""
    s = Sheet()
    name = s.seq(s.cls(2), s.star(s.cls(3)))
    note = s.seq(s.byte("("), s.star(s.choice(s.opt(s.cls(3)), s.byte(" "))), s.byte(")"))
    person = s.seq(s.listed(name, s.byte(" ")), s.opt(note))
    s.define(s.start, s.seq(s.listed(person, s.text(", ")), s.byte(".")))
    return s


def left_shares():
    """Sums; those in brackets begin with a sum."""
    s = Sheet()
    number = s.plus(s.cls(1))
    inner = s.new()
    factor = s.choice(number, s.seq(s.byte("("), inner, s.byte(")")))
    s.define(inner, s.choice(s.seq(inner, s.byte("+"), factor), factor))
    s.define(s.start, s.seq(s.listed(factor, s.byte("+")), s.byte(".")))
    return s


def loose_pages(rng):
    """Pages of the faulty grammars: with the faulty part in the middle, near the end, at the end."""
    words = words_text(700)
    for text in (words[:240], words[:350] + b"7" + words[350:], words[:-9] + b"{12}7 of"):
        yield "remarks, a loose blank", loose_remarks(), text
    names = b", ".join(b"Anna Weber" for _ in range(50))
    for at in (10, 322, 598): yield "names, a loose letter", loose_notes(), names[:at] + b"(of the mill)" + names[at:]
    sums = b"+".join(str(rng.randrange(1, 100)).encode() for _ in range(200))
    for at in (0, 1 + sums.find(b"+", 270), 1 + sums.rfind(b"+")):
        yield "shares, a left sum", left_shares(), sums[:at] + b"(7+8)+" + sums[at:]


def natural_pages(openings):
    rng = generator("openings, natural")
    for name, behind in zip(PLANTED, BEHIND):
        sheet = planted(name, behind)
        text = closed(NATURAL[name][1](rng, min(longest(sheet.count) - 1, rng.randrange(220, 800))))
        for near in (1, len(text) // 2, len(text) * 9 // 10):
            yield marked_near(openings, f"natural: {name}, a loop planted", sheet, text, near)
    for name, sheet, text in loose_pages(rng): yield question("natural: " + name, sheet, text.replace(b".", b"") + b".")


def marked_near(openings, group, sheet, text, near):
    """The page with a mark at the next place at which the mark leads into a loop."""
    for at in range(near, len(text)):
        q = question(group, sheet, text[:at] + b"?" + text[at:])
        if openings.evaluated(q).outcome == "loop": return q
    stop(f"no place for a loop behind {near}: {group}")


# ---------------------------------------------------------------- random sheets

def random_pages(openings):
    """Random sheets that loop behind the first third of the entry."""
    found = 0
    for number in range(TRIES):
        rng = generator("openings", number)
        variables = rng.randrange(24, 40)
        if number % 2: group, sheet = "random: any rules", free_sheet(rng, variables, 0.4, True)
        else: group, sheet = "random: two operands changed", bent_sheet(rng, variables, rng.randrange(2, 7))
        q = question(group, sheet, closed(random_text(rng, rng.randrange(200, 500))))
        q = put_off(openings, rng, q, rng.randrange(len(q.entry) // 3, len(q.entry)))
        if q: yield q
        found += 1 if q else 0
        if found == RANDOM: return
    stop("too few random sheets that loop late")


def put_off(openings, rng, q, least):
    """The question with other bytes, so that at least so many are looked at before it loops; None where it does not loop then."""
    for _ in range(TRIES):
        whole = openings.evaluated(q)
        if whole.outcome != "loop" or whole.looked == 0: return None
        if whole.looked >= least: return q
        at = whole.looked - 1
        q = q._replace(entry=q.entry[:at] + bytes([rng.choice(ALPHABET)]) + q.entry[at + 1:])


# ---------------------------------------------------------------- from the list

def closed(entry):
    """The entry with the endmarker at its end, and nowhere else."""
    return entry[:-1].replace(b".", b"-") + b"."


def listed(openings, asked):
    """The questions at the start variable and place 0, and what the direct evaluation says of them."""
    seen = set()
    for q, outcome in asked:
        if outcome == "refused" or (q.variable, q.place) != (1, 0): continue
        if (q.sheet, q.entry) in seen: continue
        seen.add((q.sheet, q.entry))
        yield q, openings.evaluated(q)


def run_listed(openings, asked):
    """Every loop for which reader.py does not take too long, and some of each other verdict."""
    groups, rng = {}, generator("openings")
    for q, whole in listed(openings, asked):
        if whole.outcome == "loop":
            if whole.looked * len(whole.results) <= 2 * PAIRS: openings.ask(q)
        elif len(q.entry) <= 2000: groups.setdefault((kind_of(q), whole.verdict()), []).append(q)
    for group in groups.values():
        for q in rng.sample(group, min(NONE, len(group))): openings.ask(q)


# ---------------------------------------------------------------- numbers lent, refusals

def with_more(q):
    """The question with more numbers than it needs, where there are more."""
    return q._replace(x=min(NUMBERS, q.x + 1001), y=min(CELLS, q.y + 500))


def one_short(openings, q):
    """Just enough numbers, one too few of the table, one too few of the work slice, half of the table, none; then more than enough."""
    cells = cells_due(q)
    openings.ask(q._replace(x=2 * cells, y=cells))
    for x, y in ((2 * cells - 1, cells), (2 * cells, cells - 1), (cells, cells), (0, cells), (2 * cells, 0)):
        openings.refused(10, q._replace(x=x, y=y))
    openings.ask(q._replace(x=NUMBERS, y=CELLS))


def not_closed(openings, q):
    """Entries without the endmarker, with it twice, with it at another place, and an empty one; without it also with too few numbers."""
    body = q.entry[:-1]
    for entry in (b"", body, q.entry + b".", b"." + body, b"." + q.entry, body[:90] + b"." + body[90:], body[:90] + b"." + q.entry[90:]):
        openings.ask(question(q.group, q.sheet, entry))
    openings.refused(10, question(q.group, q.sheet, body, x=0, y=0))


def too_long(openings, q):
    """Entries of 4,097 bytes, with the endmarker at the end and without, also with too few numbers."""
    for entry in (b"a" * 4096 + b".", b"a" * 4097):
        openings.refused(6, question(q.group, q.sheet, entry))
        openings.refused(6, question(q.group, q.sheet, entry, x=0, y=0))


def run_refused(openings, asked):
    """The sheet's refusals are the question's; they come before all others."""
    for q, outcome in asked:
        number = openings.maker.found[q].number if outcome == "refused" else 0
        if not 0 < number < 6: continue
        openings.refused(number, q)
        if number > 1: openings.refused(number, question(q.group, q.sheet, b"a" * 4097, x=0, y=0))
    middle = question("loop: own first", words_with_mark("?", own_first), words_text(300, b"?", 150))
    at_end = question("loop: hidden left", words_with_mark("?", hidden_left), words_text(300, b"?", 298))
    missing = question("missing: behind a mark", words_with_mark("!", no_rule), words_text(300, b"!", 150))
    wide = next(q for q in rings() if kind_of(q) == "wide")
    for q in (middle, at_end, missing, wide): one_short(openings, q)
    for q in (middle, missing): not_closed(openings, q)
    too_long(openings, middle)


def run(maker, asked, classes):
    openings = Openings(maker, classes)
    made = [*marked(), *runs(), *rings(), *wide_pages(), *far_from_named(), *first_lines(), *undone_pages()]
    made += [*natural_pages(openings), *random_pages(openings)]
    for i, q in enumerate(made): openings.ask(with_more(q) if i % 4 == 0 else q)
    run_listed(openings, asked)
    run_refused(openings, asked)


def check_numbers(tally):
    """What the openings have to have at least."""
    for name, least in [("least", 100)] + [(f"none, {x}", 4) for x in VERDICTS] + [(f"refused with {x}", 1) for x in REFUSALS]:
        if tally[("openings", name)] < least: stop(f"too few openings: {name}")
    for name in PLACES:
        if tally[("least opening", name)] < 8: stop(f"too few least openings: {name}")
    if tally[("m, named place", "far right of it")] < 4: stop("too few least openings far right of the named place")
    for kind, least, names in (("all openings", 10, ("one loops, the whole does not", "a longer one than the least does not loop")),
                               ("all openings", 10, ("none loops", "each from the least on loops")),
                               ("opening's endmarker", 8, ("none", "at the end", "at the end and before", "before the end")),
                               ("opening's endmarker", 3, ("empty entry",)), ("opening's entry", 2, ("4096 bytes",))):
        for name in names:
            if tally[(kind, name)] < least: stop(f"too few openings: {kind}, {name}, {tally[(kind, name)]}")
