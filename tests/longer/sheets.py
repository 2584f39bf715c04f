"""Rule sheets in the making, natural ones and random ones, with entries for them.

A natural grammar is a function that gives a Sheet, whose `names` are the variables worth asking, and texts for it.
"""


class Sheet:
    """Variables are handed out as rules are asked for; equal rules share a variable. The start variable is 1."""

    def __init__(self):
        self.rules, self.shared, self.count, self.names = {}, {}, 0, {}
        self.start = self.new("start")

    def new(self, name=None):
        """A variable that has no rule yet."""
        self.count += 1
        if name: self.names[name] = self.count
        return self.count

    def rule(self, *rule):
        if rule not in self.shared:
            variable = self.new()
            self.rules[variable] = rule
            self.shared[rule] = variable
        return self.shared[rule]

    def name(self, name, variable):
        self.names[name] = variable
        return variable

    def define(self, variable, like):
        """Gives a variable the rule of another."""
        self.rules[variable] = self.rules[like]
        return variable

    def succeed(self): return self.rule(0)
    def fail(self): return self.rule(1)
    def byte(self, b): return self.rule(2, b if isinstance(b, int) else ord(b))
    def cls(self, c): return self.rule(3, c)
    def call(self, b, c, d): return self.rule(4, b, c, d)

    def seq(self, *xs):
        return xs[0] if len(xs) == 1 else self.call(xs[0], self.seq(*xs[1:]), self.fail())

    def choice(self, *xs):
        return xs[0] if len(xs) == 1 else self.call(xs[0], self.succeed(), self.choice(*xs[1:]))

    def text(self, s): return self.seq(*[self.byte(c) for c in s])
    def opt(self, x): return self.call(x, self.succeed(), self.succeed())
    def no(self, x): return self.call(x, self.fail(), self.succeed())
    def ahead(self, x): return self.no(self.no(x))

    def star(self, x):
        """x as often as it goes."""
        variable = self.new()
        self.rules[variable] = (4, x, variable, self.succeed())
        return variable

    def plus(self, x): return self.seq(x, self.star(x))

    def listed(self, x, separator):
        return self.seq(x, self.star(self.seq(separator, x)))

    def any_but_marks(self):
        """One byte of classes 1, 2, 3, 4 or 6."""
        return self.choice(*[self.cls(c) for c in (3, 1, 4, 2, 6)])

    def bytes(self):
        def line(*fields): return "".join(f"{x:5}" for x in fields) + "\n"
        out = line(self.count, self.start, 46, 0, 0)
        for variable in sorted(self.rules):
            out += line(variable, *(self.rules[variable] + (0, 0, 0))[:4])
        return out.encode()


# ---------------------------------------------------------------- natural grammars

MONTHS = "Jan Feb Mar Apr May Jun Jul Aug Sep Oct Nov Dec".split()
FIRST = "Anna Maria Johann Peter Elsa Karl Ida Otto Berta Hans Greta Emil".split()
LAST = "Schmidt Weber Vogel Koch Brandt Lang Busch Ernst Kruse Thoma".split()
WORDS = "smith widow of the mill twin born here godson buried by vicar in spring at dawn".split()


def fill(rng, size, item, separator, end):
    """Items with a separator, as many as fit into the size with the end."""
    text = item()
    while True:
        more = separator + item()
        if len(text) + len(more) + len(end) > size: return (text + end).encode("latin-1")
        text += more


def dates():
    s = Sheet()
    digit = s.cls(1)
    day = s.seq(digit, s.opt(digit))
    month = s.name("month", s.choice(*[s.text(m) for m in MONTHS]))
    date = s.name("date", s.seq(day, s.byte(" "), month, s.byte(" "), digit, digit, digit, digit))
    s.define(s.start, s.seq(s.listed(date, s.text("; ")), s.byte(".")))
    return s


def dates_text(rng, size):
    def item(): return f"{rng.randrange(1, 32)} {rng.choice(MONTHS)} {rng.randrange(1600, 1900)}"
    return fill(rng, size, item, "; ", ".")


def ages():
    s = Sheet()
    number = s.name("number", s.plus(s.cls(1)))
    unit = s.choice(*[s.byte(c) for c in "ymwd"])
    part = s.seq(number, s.opt(s.byte(" ")), unit)
    age = s.name("age", s.listed(part, s.byte(" ")))
    s.define(s.start, s.seq(s.listed(age, s.text(", ")), s.byte(".")))
    return s


def ages_text(rng, size):
    def part(u): return f"{rng.randrange(1, 90)}{rng.choice(['', ' '])}{u}"
    def item(): return " ".join(part(u) for u in "ymwd" if rng.random() < 0.6) or part("y")
    return fill(rng, size, item, ", ", ".")


def names():
    """Names with notes in brackets, which hold notes again."""
    s = Sheet()
    name = s.name("name", s.seq(s.cls(2), s.star(s.cls(3))))
    note = s.new("note")
    inner = s.choice(s.cls(3), s.byte(" "), note)
    s.define(note, s.seq(s.byte("("), s.star(inner), s.byte(")")))
    person = s.name("person", s.seq(s.listed(name, s.byte(" ")), s.opt(note)))
    s.define(s.start, s.seq(s.listed(person, s.text(", ")), s.byte(".")))
    return s


def note_text(rng, depth):
    words = " ".join(rng.choice(WORDS) for _ in range(rng.randrange(1, 4)))
    inner = note_text(rng, depth - 1) if depth > 0 and rng.random() < 0.6 else ""
    return f"({words}{inner})"


def names_text(rng, size):
    def item():
        name = rng.choice(FIRST) + " " + rng.choice(LAST)
        return name + (note_text(rng, 3) if rng.random() < 0.4 else "")
    return fill(rng, size, item, ", ", ".")


def plain_words():
    """Words of small letters with a blank between them, by few rules."""
    s = Sheet()
    gap = s.new("gap")
    s.rules[s.start] = (4, s.cls(3), s.start, gap)
    s.rules[gap] = (4, s.cls(4), s.start, s.byte("."))
    return s


def plain_words_text(rng, size):
    def item(): return rng.choice(WORDS)
    return fill(rng, size, item, " ", ".")


def numbers():
    s = Sheet()
    number = s.name("number", s.plus(s.cls(1)))
    s.define(s.start, s.seq(s.listed(number, s.byte(",")), s.byte(".")))
    return s


def numbers_text(rng, size):
    def item(): return str(rng.randrange(10 ** rng.randrange(1, 7)))
    return fill(rng, size, item, ",", ".")


def brackets():
    s = Sheet()
    nest = s.new("nest")
    s.define(nest, s.call(s.byte("("), s.seq(nest, s.byte(")"), nest), s.succeed()))
    s.define(s.start, s.seq(nest, s.byte(".")))
    return s


def brackets_text(rng, size):
    """Brackets that open more often at first."""
    left = (size - 1) // 2
    text, open_now, opened = [], 0, 0
    while len(text) < 2 * left:
        up = opened < left and (open_now == 0 or rng.random() < 0.6)
        text.append("(" if up else ")")
        opened, open_now = (opened + 1, open_now + 1) if up else (opened, open_now - 1)
    return ("".join(text) + ".").encode()


def deep_brackets_text(rng, size):
    half = (size - 1) // 2
    return ("(" * half + ")" * half + ".").encode()


def three_counts():
    """As many a as b as c, which no context-free grammar says."""
    s = Sheet()
    ab, bc = s.new("ab"), s.new("bc")
    a, b, c = s.byte("a"), s.byte("b"), s.byte("c")
    s.define(ab, s.call(a, s.seq(s.opt(ab), b), s.fail()))
    s.define(bc, s.call(b, s.seq(s.opt(bc), c), s.fail()))
    s.define(s.start, s.seq(s.ahead(s.seq(ab, c)), s.plus(a), bc, s.byte(".")))
    return s


def three_counts_text(rng, size):
    n = (size - 1) // 3
    return b"a" * n + b"b" * n + b"c" * n + b"."


def remarks():
    """Words, with remarks in braces that are passed over up to the closing brace."""
    s = Sheet()
    letter = s.choice(s.cls(3), s.cls(2))
    any_byte = s.choice(letter, s.cls(4), s.cls(5), s.cls(6), s.cls(1))
    passed = s.star(s.seq(s.no(s.byte("}")), any_byte))
    remark = s.name("remark", s.seq(s.byte("{"), passed, s.byte("}")))
    word = s.name("word", s.plus(letter))
    s.define(s.start, s.seq(s.star(s.choice(word, remark, s.cls(4))), s.byte(".")))
    return s


def remarks_text(rng, size):
    def item():
        word = rng.choice(WORDS + FIRST)
        mark = "".join(rng.choice("abc123 .,;:()\xe4\xf6\xfc\xdf-") for _ in range(rng.randrange(20)))
        return word if rng.random() < 0.7 else "{" + mark + "}"
    return fill(rng, size, item, " ", ".")


def shares():
    """Sums and products with brackets, as in shares of an inheritance."""
    s = Sheet()
    total = s.new("total")
    number = s.plus(s.cls(1))
    factor = s.name("factor", s.choice(number, s.seq(s.byte("("), total, s.byte(")"))))
    term = s.name("term", s.listed(factor, s.choice(s.byte("*"), s.byte("/"))))
    s.define(total, s.listed(term, s.choice(s.byte("+"), s.byte("-"))))
    s.define(s.start, s.seq(total, s.byte(".")))
    return s


def share_text(rng, depth):
    if depth == 0 or rng.random() < 0.4: return str(rng.randrange(1, 100))
    return "(" + share_text(rng, depth - 1) + rng.choice("+-*/") + share_text(rng, depth - 1) + ")"


def shares_text(rng, size):
    def item(): return share_text(rng, 3)
    return fill(rng, size, item, "+", ".")


def trades():
    """Words other than the two that stand between them."""
    s = Sheet()
    letter = s.cls(3)
    end = s.no(letter)
    link = s.name("link", s.choice(s.seq(s.text("and"), end), s.seq(s.text("or"), end)))
    word = s.name("word", s.seq(s.no(link), s.plus(letter)))
    s.define(s.start, s.seq(s.listed(word, s.seq(s.byte(" "), link, s.byte(" "))), s.byte(".")))
    return s


def trades_text(rng, size):
    known = "baker miller andrew orator smith andiron weaver orderly cooper tailor".split()
    text = rng.choice(known)
    while True:
        more = " " + rng.choice(["and", "or"]) + " " + rng.choice(known)
        if len(text) + len(more) + 1 > size: return (text + ".").encode()
        text += more


def records():
    """Lines of a level, a tag and a value."""
    s = Sheet()
    tag = s.name("tag", s.choice(*[s.text(t) for t in ("BIRT", "DEAT", "NAME", "PLAC", "DATE")]))
    value = s.plus(s.choice(s.cls(3), s.cls(2), s.cls(1), s.byte(" ")))
    line = s.name("line", s.seq(s.cls(1), s.byte(" "), tag, s.opt(s.seq(s.byte(" "), value)), s.byte(10)))
    s.define(s.start, s.seq(s.plus(line), s.byte(".")))
    return s


def records_text(rng, size):
    def item():
        value = " " + rng.choice(FIRST) + " " + str(rng.randrange(1900)) if rng.random() < 0.8 else ""
        return f"{rng.randrange(4)} {rng.choice(['BIRT', 'DEAT', 'NAME', 'PLAC', 'DATE'])}{value}\n"
    return fill(rng, size, item, "", ".")


def accented():
    """Names whose letters are of class 2, 3 or 6, set apart by byte 0."""
    s = Sheet()
    letter = s.choice(s.cls(6), s.cls(3), s.cls(2))
    name = s.name("name", s.plus(letter))
    s.define(s.start, s.seq(s.listed(name, s.byte(0)), s.byte(".")))
    return s


def accented_text(rng, size):
    letters = [chr(b) for b in [*range(128, 160), *range(192, 256)] if b not in (215, 247)] + list("abcdefgXYZ")
    def item(): return "".join(rng.choice(letters) for _ in range(rng.randrange(1, 12)))
    return fill(rng, size, item, "\0", ".")


# ---------------------------------------------------------------- natural grammars of entries in ISO 8859-1

NO_BREAK = "\xa0"
FRENCH_MONTHS = "janvier février mars avril mai juin juillet août septembre octobre novembre décembre".split()
FRENCH_FIRST = "Élise Elise Zoë François Hélène Noël-Émile Thérèse Anaïs Ève Benoît Ômer Àgnès Öttilie Øyvind Þóra Jørgen".split()
FRENCH_LAST = "Besançon Müller Strauß Croÿ Lefèvre Garçon Châtelain Köhler Faÿ-Lacroix Guérin Ærø Ñuño Ýmir Dupont".split()
SIGNS = "×÷×÷×÷§°«»¿¡*+"


def spaced(rng, *words):
    """Words with a blank or a no-break space between them."""
    text = words[0]
    for word in words[1:]: text += rng.choice([" ", " ", NO_BREAK]) + word
    return text


def french_names():
    """A capital and small letters, accented or not; a hyphen, a blank or a no-break space between the parts."""
    s = Sheet()
    part = s.name("part", s.seq(s.cls(2), s.star(s.cls(3))))
    name = s.name("name", s.listed(part, s.byte("-")))
    person = s.name("person", s.listed(name, s.cls(4)))
    s.define(s.start, s.seq(s.listed(person, s.text(", ")), s.byte(".")))
    return s


def french_names_text(rng, size):
    def item(): return spaced(rng, rng.choice(FRENCH_FIRST), rng.choice(FRENCH_LAST))
    return fill(rng, size, item, ", ", ".")


def french_dates():
    """A day, a month and a year; the first of a month may have a sign behind it."""
    s = Sheet()
    digit, blank = s.cls(1), s.cls(4)
    day = s.seq(digit, s.opt(s.choice(digit, s.cls(5), s.text("er"))))
    month = s.name("month", s.choice(*[s.text(m) for m in FRENCH_MONTHS]))
    date = s.name("date", s.seq(day, blank, month, blank, digit, digit, digit, digit))
    s.define(s.start, s.seq(s.listed(date, s.text("; ")), s.byte(".")))
    return s


def french_dates_text(rng, size):
    def day(): return rng.choice(["1er", "1\xba", "1\xb0"] + [str(rng.randrange(1, 32)) for _ in range(6)])
    def item(): return spaced(rng, day(), rng.choice(FRENCH_MONTHS), str(rng.randrange(1600, 1900)))
    return fill(rng, size, item, "; ", ".")


def french_ages():
    """An age in words, or a sign and an age: a marriage has the sign ×, a divorce the sign ÷."""
    s = Sheet()
    blank = s.cls(4)
    number = s.name("number", s.plus(s.cls(1)))
    unit = s.choice(*[s.text(u) for u in ("années", "ans", "mois", "jours")])
    aged = s.seq(s.text("âgé"), s.opt(s.byte("e")), blank, s.text("de"), blank)
    age = s.name("age", s.listed(s.seq(number, blank, unit), s.text(" et ")))
    item = s.name("item", s.seq(s.choice(aged, s.seq(s.cls(5), blank)), age))
    s.define(s.start, s.seq(s.listed(item, s.text(", ")), s.byte(".")))
    return s


def french_ages_text(rng, size):
    def part(): return spaced(rng, str(rng.randrange(2, 90)), rng.choice(["années", "ans", "mois", "jours"]))
    def item():
        before = [rng.choice(SIGNS)] if rng.random() < 0.6 else [rng.choice(["âgé", "âgée"]), "de"]
        return spaced(rng, *before, " et ".join(part() for _ in range(rng.randrange(1, 3))))
    return fill(rng, size, item, ", ", ".")


NATURAL = {
    "dates": (dates, dates_text), "ages": (ages, ages_text), "names": (names, names_text),
    "words": (plain_words, plain_words_text), "numbers": (numbers, numbers_text), "brackets": (brackets, brackets_text),
    "deep brackets": (brackets, deep_brackets_text), "three counts": (three_counts, three_counts_text),
    "remarks": (remarks, remarks_text), "shares": (shares, shares_text), "trades": (trades, trades_text),
    "records": (records, records_text), "accented": (accented, accented_text), "French names": (french_names, french_names_text),
    "French dates": (french_dates, french_dates_text), "French ages": (french_ages, french_ages_text),
}


# ---------------------------------------------------------------- random sheets

ALPHABET = b"aaabbcd0123  A\x00\x80\xe9\xff\xc9\xa0"
MARKS = b".-\xd7\xf7"


def random_text(rng, size):
    """Bytes that a driven sheet goes through, with few marks between them, and a full stop."""
    return bytes(rng.choice(MARKS if rng.random() < 0.0005 else ALPHABET) for _ in range(size - 1)) + b"."


def random_leaf(rng, missing):
    if rng.random() < missing: return None
    kind = rng.choice([0, 1, 2, 2, 2, 3, 3, 3])
    if kind == 2: return (2, rng.choice(ALPHABET + MARKS))
    if kind == 3: return (3, rng.randrange(1, 7))
    return (kind,)


def passed(sheet): return sheet.choice(sheet.any_but_marks(), sheet.byte(0))


def driver(sheet, asked):
    """Start: at each place the asked variable, whatever its outcome, then one byte; a full stop ends it."""
    one = passed(sheet)
    sheet.rules[sheet.start] = (4, sheet.call(asked, one, one), sheet.start, sheet.byte("."))


def random_leaves(rng, s, count, missing, nullable):
    leaves = [s.new() for _ in range(count)]
    for variable in leaves:
        rule = random_leaf(rng, missing)
        if rule: s.rules[variable] = rule
        if rule == (0,): nullable.add(variable)
    return leaves


def ordered_sheet(rng, variables, layers, missing=0.0, driven=True):
    """A random sheet without left recursion: B and D lie in a higher layer, and so does C where B may take nothing."""
    s = Sheet()
    if driven: passed(s), s.byte(".")
    room = variables - s.count - (1 if driven else 0)
    every = list(range(s.count + 1, s.count + room + 1))
    leaves, nullable = max(3, room * 2 // 5), set()
    above = random_leaves(rng, s, leaves, missing, nullable)
    rest, left = room - leaves, layers
    while rest > 0:
        layer = [s.new() for _ in range(max(1, rest // left))]
        for variable in layer: random_call(rng, s, variable, above, every, nullable)
        above, rest, left = above + layer, rest - len(layer), max(1, left - 1)
    s.names = {f"random {i}": above[-1 - i] for i in range(3)}
    s.random = every
    if driven: driver(s, above[-1])
    else: s.rules[s.start] = s.rules[above[-1]]
    return s


def random_call(rng, s, variable, above, every, nullable):
    recent = above[-12:]
    b, d = rng.choice(above), rng.choice(rng.choice([above, recent]))
    c = rng.choice(above if b in nullable else every)
    s.rules[variable] = (4, b, c, d)
    if d in nullable or (b in nullable and c in nullable): nullable.add(variable)


def bent_sheet(rng, variables, layers):
    """A sheet without left recursion of which two operands are changed, so that a loop may come in."""
    s = ordered_sheet(rng, variables, layers)
    calls = [v for v in s.random if s.rules[v][0] == 4]
    for _ in range(2):
        v, operand = rng.choice(calls), rng.choice([1, 3])
        rule = list(s.rules[v])
        rule[operand] = rng.choice(calls)
        s.rules[v] = tuple(rule)
    return s


def free_sheet(rng, variables, calls, driven):
    """Any rules at all."""
    s = Sheet()
    first = s.count + 1 if driven else 1
    while s.count < variables: s.new()
    for variable in range(first, variables + 1):
        if rng.random() < calls: rule = (4,) + tuple(rng.randrange(first, variables + 1) for _ in range(3))
        else: rule = random_leaf(rng, 0.1)
        if rule: s.rules[variable] = rule
    if driven: driver(s, rng.randrange(first, variables + 1))
    return s
