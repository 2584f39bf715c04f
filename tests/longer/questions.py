"""The questions, in groups. A question is a sheet, an entry, a variable and a place; x and y are the numbers lent as table and work slice."""
import random
from collections import namedtuple

from sheets import NATURAL, Sheet, bent_sheet, free_sheet, ordered_sheet, random_text

CELLS = 32768
NUMBERS = 2 * CELLS     # of the program's table: a cell is two, outcome and reach
READING_CELLS = 5349    # so many lines of a reading fit the program's output
MAX_ENTRY = 4096

Question = namedtuple("Question", "group sheet entry variable place x y")


def variables_of(sheet):
    """V of a sheet's first line; 1 where it has none."""
    return int(sheet[:5]) if sheet[:5].strip().isdigit() else 1


def question(group, sheet, entry, variable=1, place=0, x=None, y=None):
    data = sheet.bytes() if isinstance(sheet, Sheet) else sheet
    cells = min(CELLS, variables_of(data) * (len(entry) + 1))
    return Question(group, data, bytes(entry), variable, place, 2 * cells if x is None else x, cells if y is None else y)


def cells_due(q):
    """How many cells a question has."""
    return variables_of(q.sheet) * (len(q.entry) + 1)


def longest(variables):
    """The longest entry whose cells can be lent."""
    return min(MAX_ENTRY, CELLS // variables - 1)


def generator(*names): return random.Random("longer entries: " + " ".join(map(str, names)))


# ---------------------------------------------------------------- natural grammars

def natural():
    for name, (grammar, text_of) in NATURAL.items():
        sheet, rng = grammar(), generator(name)
        most = longest(sheet.count)
        for size in (rng.randrange(220, 320), rng.randrange(700, 1200), most):
            yield from about_text("natural: " + name, sheet, text_of(rng, min(most, size)), rng)
        short = text_of(rng, max(100, READING_CELLS // sheet.count - 1))
        yield question("natural: " + name, sheet, short)
        yield from broken("natural: " + name, sheet, short, rng)


def about_text(group, sheet, text, rng):
    """The whole text; another variable at the start of a word; the same at any place; the text cut off."""
    yield question(group, sheet, text)
    other = rng.choice([v for v in sheet.names.values() if v != sheet.start])
    starts = [i for i in range(1, len(text)) if text[i - 1] in b" (,;{\0\n" and text[i] not in b" (,;{\0\n"]
    yield question(group, sheet, text, other, rng.choice(starts or [len(text) // 3]))
    if len(text) < 400: yield question(group, sheet, text, other, rng.randrange(len(text)))
    yield question(group, sheet, text[:rng.randrange(len(text) // 2, len(text))])


def broken(group, sheet, text, rng):
    """A text with a byte changed; one with a byte left out; one with more behind it, which is not looked at."""
    at = rng.randrange(len(text) * 2 // 3, len(text))
    yield question(group, sheet, text[:at] + b"#" + text[at + 1:])
    at = rng.randrange(len(text) // 2)
    yield question(group, sheet, text[:at] + text[at + 1:])
    yield question(group, sheet, text + b" (page 12)", x=NUMBERS, y=CELLS)


def letters_replaced(classes):
    """French names with a small letter replaced by a byte at the edge of a class."""
    sheet, text_of = NATURAL["French names"]
    sheet, rng = sheet(), generator("edges")
    for b in edges(classes):
        text = text_of(rng, rng.randrange(220, 320))
        at = rng.choice([i for i in range(len(text) // 2, len(text)) if classes[text[i]] == 3])
        yield question("natural: French names, a letter replaced", sheet, text[:at] + bytes([b]) + text[at + 1:])


# ---------------------------------------------------------------- deep recursion

def through_c():
    s = Sheet()
    s.rules[1] = (4, s.cls(3), 1, s.byte("."))
    return s


def through_d():
    s = Sheet()
    s.rules[1] = (4, s.byte("."), s.succeed(), s.seq(s.cls(3), 1))
    return s


def through_both():
    """At a letter through C, at a digit through D."""
    s = Sheet()
    s.rules[1] = (4, s.cls(3), 1, s.choice(s.byte("."), s.seq(s.cls(1), 1)))
    return s


def ring_of_letters(size):
    """A ring of variables, each of which takes a letter and calls the next."""
    s = Sheet()
    ring = [1] + [s.new() for _ in range(size - 1)]
    for i, v in enumerate(ring): s.rules[v] = (4, s.byte(97 + i % 3), ring[(i + 1) % size], s.byte("."))
    return s


def both_sides():
    """A letter, the same again, a letter: the recursion is not the last call."""
    s = Sheet()
    s.define(1, s.call(s.byte("a"), s.seq(1, s.byte("b")), s.succeed()))
    return s


def nested_first(depth):
    """The first called variable of the first called variable and so on, at every place."""
    s = Sheet()
    chain = [s.cls(3)]
    for _ in range(depth): chain.append(s.call(chain[-1], s.succeed(), s.fail()))
    s.rules[1] = (4, chain[-1], 1, s.byte("."))
    return s


def deep():
    letters = bytes(97 + i % 3 for i in range(4095)) + b"."
    mixed = bytes(generator("mixed").choice(b"abc123") for _ in range(4095)) + b"."
    for name, sheet, text in (
            ("through C", through_c(), letters), ("through D", through_d(), letters),
            ("through both", through_both(), mixed), ("ring of 3", ring_of_letters(3), letters),
            ("ring of 12", ring_of_letters(12), letters), ("both sides", both_sides(), b"a" * 2048 + b"b" * 2048),
            ("nested first", nested_first(6), letters), ("nested first, 9", nested_first(9), letters[:-1] + b"#")):
        text = text[-longest(sheet.count):]
        size = len(text)
        yield question("deep: " + name, sheet, text)
        yield question("deep: " + name, sheet, text, 1, size // 2)
        yield question("deep: " + name, sheet, text[:size // 2])
        yield question("deep: " + name, sheet, text[-1200:], 1, 3)
        yield question("deep: " + name, sheet, text[-500:])
        yield question("deep: " + name, sheet, text[-250:], 1, 250)


# ---------------------------------------------------------------- bytes and classes

def edges(classes):
    """The bytes from 128 on whose class is not that of the byte before, or of the byte behind."""
    return [b for b in range(128, 256) if b == 255 or not classes[b - 1] == classes[b] == classes[b + 1]]


def marked_bytes(classes):
    """Pairs of a class written as a digit and a byte of this class and no other; a byte of class 0 stands for itself."""
    s = Sheet()
    none = [b for b in range(256) if classes[b] == 0][::6]
    def no_other(c): return [s.no(s.cls(other)) for other in range(1, 7) if other != c]
    pairs = [s.seq(s.byte(48 + c), *no_other(c), s.cls(c)) for c in range(1, 7)]
    zero = s.seq(s.byte("0"), *no_other(0), s.choice(*[s.byte(b) for b in none]))
    s.define(1, s.seq(s.star(s.choice(*pairs, zero)), s.byte(".")))
    return s, [b for b in range(256) if classes[b] or b in none]


def marked_text(classes, marked): return b"".join(bytes([48 + classes[b], b]) for b in marked) + b"."


def class_runs():
    """For each class, as many bytes of it as there are."""
    s = Sheet()
    runs = [s.star(s.cls(c)) for c in range(1, 7)]
    s.names.update({f"run {c}": v for c, v in zip(range(1, 7), runs)})
    s.define(1, runs[0])
    return s


def byte_runs():
    """Words of bytes 0, 127, 128 and 255 with class 6 between them."""
    s = Sheet()
    word = s.plus(s.choice(*[s.byte(b) for b in (0, 127, 128, 255)]))
    s.define(1, s.seq(s.star(s.choice(word, s.cls(6))), s.byte(".")))
    return s


def bytes_and_classes(classes):
    group, rng = "bytes: ", generator("bytes")
    sheet, marked = marked_bytes(classes)
    below, text = [marked_text(classes, [b for b in marked if (b < 128) == low]) for low in (True, False)]
    yield question(group + "every byte below 128 with its class", sheet, below)
    yield question(group + "every byte from 128 with its class", sheet, text)
    pairs = (longest(sheet.count) - 1) // 2
    yield question(group + "edges with their classes", sheet, marked_text(classes, [rng.choice(edges(classes)) for _ in range(pairs)]))
    for _ in range(6):
        at = 2 * rng.randrange(len(text) // 2)
        other = 48 + (text[at] - 48 + rng.randrange(1, 6)) % 7
        yield question(group + "one class wrong", sheet, text[:at] + bytes([other]) + text[at + 1:])
    runs = class_runs()
    every = bytes(b for b in range(256) for _ in range(3)) + bytes(rng.randrange(256) for _ in range(1500))
    for c in range(1, 7):
        first = next((b for b in range(256) if classes[b] == c), 0)
        for place in (3 * first, 3 * first + 1, rng.randrange(800, 2200), len(every) - c):
            yield question(group + "runs of a class", runs, every, runs.names[f"run {c}"], place)
    for low in [b for b in range(128, 256) if classes[b] != classes[b - 1]]:
        for place in (3 * low, 3 * low - 1):
            yield question(group + "runs from an edge", runs, every, runs.names[f"run {classes[low]}"], place)
    sheet = byte_runs()
    text = bytes(rng.choice([0, 127, 128, 129, 140, 158, 159, 255]) for _ in range(longest(sheet.count) - 2)) + b"."
    for entry in (text, text[:-1], text[-400:], text[500:1500] + b"\x01.", text[:1000] + b"\xa0" + text[1000:]):
        yield question(group + "0, 127, 128 and 255", sheet, entry)


# ---------------------------------------------------------------- missing rules and loops

def words_text(size, mark=b"", at=None):
    """Words of small letters with blanks, a mark at a place, a full stop at the end."""
    rng = generator("words")
    words = b" ".join(rng.choice([b"and", b"the", b"child", b"of", b"miller", b"born"]) for _ in range(MAX_ENTRY))
    text = words[:MAX_ENTRY - 1][-(size - 1):]
    if mark: text = text[:at] + mark + text[at + len(mark):]
    return text + b"."


def words_with_mark(mark, behind):
    """Words; a mark leads to another variable."""
    s = Sheet()
    word = s.name("word", s.plus(s.cls(3)))
    marked = s.name("marked", s.seq(s.byte(mark), behind(s)))
    s.define(1, s.seq(s.star(s.choice(word, s.byte(" "), marked)), s.byte(".")))
    return s


def guarded(mark, behind):
    """One byte after the other, none of which may start what a mark leads to."""
    s = Sheet()
    guard = s.no(s.seq(s.byte(mark), behind(s)))
    s.define(1, s.seq(s.star(s.seq(guard, s.any_but_marks())), s.byte(".")))
    return s


def no_rule(s): return s.new("without rule")


def third_missing():
    """Letters; behind them a rule is missing."""
    s = Sheet()
    s.rules[1] = (4, s.cls(3), 1, s.new("without rule"))
    return s


def missing():
    group = "missing: "
    sheet, look = words_with_mark("!", no_rule), guarded("!", no_rule)
    for size in (210, 700, 1900, longest(sheet.count)):
        for at in (0, size // 2, size - 3):
            yield question(group + "behind a mark", sheet, words_text(size, b"!", at))
        yield question(group + "mark not spelled", sheet, words_text(size))
        size = min(size, longest(look.count))
        yield question(group + "behind a lookahead", look, words_text(size, b"!", size // 3))
        yield question(group + "lookahead not met", look, words_text(size))
    for at in (5, 1500, 4000):
        yield question(group + "third called variable", third_missing(), b"a" * at + b"1" + b"a" * (4095 - at))
    alone = Sheet()
    for place in (0, 2000, 4096): yield question(group + "asked itself", alone, b"a" * 4096, 1, place)
    yield question(group + "asked itself", sheet, words_text(300), sheet.names["without rule"], 150)


def own_first(s):
    v = s.new("loop")
    s.rules[v] = (4, v, s.succeed(), s.succeed())
    return v


def hidden_left(s):
    """It calls itself behind something that may take nothing."""
    v = s.new("loop")
    s.rules[v] = (4, s.opt(s.byte("-")), v, s.fail())
    return v


def own_third(s):
    """It calls itself at the same place where a byte is not found."""
    v = s.new("loop")
    s.rules[v] = (4, s.byte("-"), s.succeed(), v)
    return v


def left_sums(s):
    """A sum that begins with a sum."""
    v = s.new("loop")
    number = s.plus(s.cls(1))
    s.define(v, s.choice(s.seq(v, s.byte("+"), number), number))
    return v


def under_no(s):
    """It asks first that it does not succeed itself."""
    v = s.new("loop")
    s.define(v, s.seq(s.no(v), s.cls(3)))
    return v


def loop_ring(size, operand):
    """A ring of calls at one place: through the first, the second or the third called variable."""
    s = Sheet()
    ring = [1] + [s.new() for _ in range(size - 3)]
    done, not_done = s.succeed(), s.fail()
    for i, v in enumerate(ring):
        after = ring[(i + 1) % len(ring)]
        s.rules[v] = (4,) + {1: (after, done, not_done), 2: (done, after, done), 3: (not_done, done, after)}[operand]
    return s


def dashes():
    """A list that may begin with a dash and then begins again: it ends in a loop behind the last dash."""
    s = Sheet()
    s.rules[1] = (4, s.opt(s.byte("-")), 1, s.byte("."))
    return s


def optional_letters():
    s = Sheet()
    s.define(1, s.seq(s.star(s.opt(s.cls(3))), s.byte(".")))
    return s


def loops():
    group = "loop: "
    for behind in (own_first, hidden_left, own_third, left_sums, under_no):
        sheet, look, name = words_with_mark("?", behind), guarded("?", behind), behind.__name__.replace("_", " ")
        for size in (230, min(2500, longest(sheet.count))):
            yield question(group + name, sheet, words_text(size, b"?", size * 3 // 4))
            yield question(group + name + ", mark not spelled", sheet, words_text(size))
        yield question(group + name, sheet, words_text(900, b"?-", 600), sheet.names["loop"], 450)
        size = min(1500, longest(look.count))
        yield question(group + name + " in a lookahead", look, words_text(size, b"?", size // 2))
    for size, operand in ((4, 1), (40, 1), (100, 1), (5, 2), (60, 2), (5, 3), (33, 3), (98, 3)):
        sheet = loop_ring(size, operand)
        n = longest(sheet.count)
        yield question(f"loop: ring through operand {operand}", sheet, b"a" * n, 1, n // 2)
        yield question(f"loop: ring through operand {operand}", sheet, b"a" * max(200, n // 2), sheet.count - 3, 3)
    one = Sheet()
    one.rules[1] = (4, 1, 1, 1)
    for place in (0, 4096): yield question(group + "one rule", one, b"a" * 4096, 1, place)
    for count in (1, 300, 3000): yield question(group + "dashes", dashes(), b"-" * count + b"abc. " * 50)
    sheet = optional_letters()
    for text in (b"abc" * 1300 + b" and.", b"a" * 250 + b".", b"abc" * 1300): yield question(group + "optional letters", sheet, text)


# ---------------------------------------------------------------- random sheets

def base_text(index): return random_text(generator("text", index), MAX_ENTRY)


def random_size(rng, number, sheet):
    """A length of at least 200 bytes; every third time the longest."""
    size = rng.randrange(200, longest(sheet.count) + 1)
    return longest(sheet.count) if number % 3 == 0 else size


def without_left_recursion(cheap):
    """Random sheets that LPeg takes; `cheap` says whether LPeg can answer in time, and another is made where it cannot."""
    texts = [base_text(i) for i in range(6)]
    for number in range(56):
        for attempt in range(100):
            made = list(ordered_questions(number, attempt, texts))
            if all(cheap(q) for q in made): break
        yield from made


def ordered_questions(number, attempt, texts):
    rng = generator("ordered", number, attempt)
    driven = number % 4 != 3
    variables = rng.randrange(22 if driven else 6, 101 if number % 2 else 40)
    sheet = ordered_sheet(rng, variables, rng.randrange(2, 7), 0.1 if number % 5 == 0 else 0.0, driven)
    size = random_size(rng, number, sheet)
    text = rng.choice(texts)[-size:]
    group = "random: without left recursion"
    yield question(group, sheet, text)
    v = rng.choice(list(sheet.names.values()))
    yield question(group, sheet, text, v, rng.randrange(size))


def with_a_change():
    for number in range(30):
        rng = generator("bent", number)
        sheet = bent_sheet(rng, rng.randrange(24, 70), rng.randrange(2, 7))
        size = random_size(rng, number, sheet)
        text = base_text(number % 6)[-size:]
        yield question("random: two operands changed", sheet, text, 1, rng.choice([0, 0, size // 2]))


def without_order():
    for number in range(50):
        rng = generator("free", number)
        driven = number % 5 < 3
        sheet = free_sheet(rng, rng.randrange(2, 60), rng.choice([0.3, 0.5, 0.7]), driven)
        size = random_size(rng, number, sheet)
        text = base_text(number % 6)[-size:]
        if driven: yield question("random: any rules", sheet, text)
        else: yield question("random: any rules", sheet, text, rng.randrange(1, sheet.count + 1), rng.randrange(size + 1))


# ---------------------------------------------------------------- too much for a recognizer without a table

def mirrored():
    """A letter on both sides, or nothing."""
    s = Sheet()
    s.define(1, s.choice(s.seq(s.byte("a"), 1, s.byte("a")), s.seq(s.byte("b"), 1, s.byte("b")), s.succeed()))
    return s


def tried_twice():
    """A number with a full stop or the same number with a comma, nested in brackets."""
    s = Sheet()
    item = s.new("item")
    inner = s.choice(s.seq(item, s.byte(";")), s.seq(item, s.byte(",")), s.cls(1))
    s.define(item, s.seq(s.byte("("), inner, s.byte(")")))
    s.define(1, s.seq(item, s.byte(".")))
    return s


def costly():
    rng, group = generator("costly"), "costly without a table"
    yield question(group, mirrored(), b"a" * 400)
    yield question(group, mirrored(), b"ab" * 1000)
    yield question(group, mirrored(), bytes(rng.choice(b"ab") for _ in range(2000)))
    sheet = tried_twice()
    for depth in (100, 400, 640):
        text = b"(" * depth + b"7" + b"),".join([b""] * depth) + b")."
        yield question(group, sheet, text)
    yield question(group, sheet, b"(" * 600 + b"7" + b"),".join([b""] * 600) + b";.")
    yield question(group, sheet, b"(" * 900 + b"7" + b"),".join([b""] * 450))


# ---------------------------------------------------------------- wide sheets

WIDE = 256


def widened(sheet):
    """The sheet with as many variables as there may be; LPeg takes up to 250 rules, so the last ones have none."""
    while sheet.count < WIDE: sheet.new()
    return sheet


def wide_ring():
    """A sheet of 256 variables with a text: their cells are all that can be lent."""
    return widened(ring_of_letters(240)), bytes(97 + i % 3 for i in range(longest(WIDE) - 1)) + b"."


def wide():
    sheet, text = wide_ring()
    yield question("wide: ring of letters", sheet, text)
    yield question("wide: ring of letters", sheet, text, 200, len(text) - 1)
    for place in (40, len(text)): yield question("wide: ring through operand 2", widened(loop_ring(240, 2)), text, 1, place)
    for number in range(4):
        rng = generator("wide", number)
        sheet = widened(free_sheet(rng, 230, 0.5, True) if number == 3 else ordered_sheet(rng, 245, 5))
        yield question("wide: random", sheet, base_text(number)[-longest(WIDE):])


# ---------------------------------------------------------------- out of text

def out_of_text():
    """Empty entries, the last place of others, and entries without a full stop: a byte that is sought at the end fails."""
    for name in ("dates", "brackets", "shares", "trades", "remarks", "French ages"):
        yield question("natural: empty entry", NATURAL[name][0](), b"")
    for sheet in (through_c(), both_sides()): yield question("deep: empty entry", sheet, b"")
    for sheet in (optional_letters(), dashes(), words_with_mark("?", own_third)): yield question("loop: empty entry", sheet, b"")
    sheet, text = words_with_mark("!", no_rule), words_text(260)
    yield question("missing: empty entry", sheet, b"", sheet.names["without rule"])
    for name in ("word", "marked", "start"): yield question("missing: at the end", sheet, text, sheet.names[name], len(text))
    yield question("missing: at the end", third_missing(), b"a" * 300)
    for behind in (own_third, hidden_left): yield question("loop: at the end", words_with_mark("?", behind), text[:-1] + b"?")
    yield question("loop: at the end", dashes(), b"-" * 300)
    runs, ages = class_runs(), NATURAL["ages"][0]()
    for c, place in ((1, 259), (6, 259), (3, 256)): yield question("bytes: at the end", runs, text[:-1], runs.names[f"run {c}"], place)
    for name, place in (("number", 12), ("age", 8)): yield question("natural: at the end", ages, b"4y 12m, 60y 7", ages.names[name], place)


# ---------------------------------------------------------------- numbers lent

def just_enough():
    """Two sheets with texts, and how many cells they have: in the second all that can be lent."""
    for sheet, text in ((through_c(), b"a" * 999 + b"."), wide_ring()): yield sheet, text, sheet.count * (len(text) + 1)


def lent():
    """Two numbers of table and one of work slice for each cell; then one number more, where there is one."""
    for sheet, text, cells in just_enough():
        yield question("lent: just enough", sheet, text, 1, 0, 2 * cells, cells)
        if cells < CELLS: yield question("lent: one more", sheet, text, 1, 0, 2 * cells + 1, cells + 1)


# ---------------------------------------------------------------- refusals

def refused():
    sheet = through_c().bytes()
    first, rest = sheet[:26], sheet[26:]
    text = b"a" * 999 + b"."
    group = "refused"
    for bad in (b"", sheet + b" ", sheet[:-1] + b" ", first + first * 257, b"    x" + sheet[5:], first + rest[:5] + b"   04" + rest[10:],
                b"    0" + sheet[5:], b"  257" + sheet[5:], first[:5] + b"    4" + sheet[10:], first + rest[26:52] + rest[:26] + rest[52:],
                first + rest + b"    4    0    0    0    0\n", first + b"    1    5    0    0    0\n",
                first + b"    1    3    7    0    0\n", first + b"    1    4    2    1    4\n", first + b"    1    2    0    1    0\n"):
        yield question(group, bad, text)
    yield question(group, sheet, b"a" * 4097)
    for variable, place in ((0, 0), (4, 0), (99999999, 0), (1, 1001), (1, 99999999), (4, 1001)):
        yield question(group, sheet, text, variable, place)
    for sheet, text, cells in just_enough():
        for x, y in ((2 * cells - 1, cells), (2 * cells, cells - 1), (cells, cells), (0, CELLS), (NUMBERS, 0)):
            yield question(group, sheet, text, 1, 0, x, y)


def all_questions(classes, cheap):
    yield from natural()
    yield from letters_replaced(classes)
    yield from deep()
    yield from bytes_and_classes(classes)
    yield from missing()
    yield from loops()
    yield from without_left_recursion(cheap)
    yield from with_a_change()
    yield from without_order()
    yield from costly()
    yield from wide()
    yield from out_of_text()
    yield from lent()
    yield from refused()
