"""A direct evaluation, written apart from reader.py, which must agree with it."""

FAILED = -1             # in place of an end
CELLS = {"loop": 2, "missing": 3}


class Direct:
    """A pair, the start variable at place 0 unless another is given, with a stack of the pairs that wait. `outcome` is what it comes to,
    `end` where a success ends, `named` the pair that a loop and a missing rule have. `results` has end and reach of each pair that was
    decided, `waiting` the pairs that were not. `looked` is the greatest reach of a byte or class rule: one more than the entry has bytes,
    where a byte was sought at its end, which fails. A pair that would wait twice loops; that and a missing rule are the outcome of all
    that wait."""

    def __init__(self, sheet, entry, classes, pair=None):
        lines = [[int(sheet[i + 5 * k:i + 5 * k + 5]) for k in range(5)] for i in range(0, len(sheet), 26)]
        self.rules = {line[0]: line[1:] for line in lines[1:]}
        self.entry, self.classes, self.results, self.looked = entry, classes, {}, 0
        self.waiting = {pair or (lines[0][1], 0): True}     # in the order in which they began to wait
        self.end = self.named = None
        self.outcome = self.evaluate()

    def evaluate(self):
        while self.waiting:
            pair = variable, place = next(reversed(self.waiting))
            self.named = pair
            if variable not in self.rules: return "missing"
            kind, *operands = self.rules[variable]
            if kind == 4:
                called = self.called(operands, place)
                if called in self.waiting:
                    self.named = called
                    return "loop"
                if called not in self.results:
                    self.waiting[called] = True
                    continue
                result = self.joined((operands[0], place), called)
            else: result = self.leaf(kind, operands[0], place)
            self.results[pair] = result
            self.waiting.popitem()
        self.named = None
        if result[0] == FAILED: return "failure"
        self.end = result[0]
        return "success"

    def called(self, operands, place):
        """The first called pair, as long as it has no result; then the second."""
        b, c, d = operands
        if (b, place) not in self.results: return b, place
        end = self.results[(b, place)][0]
        return (d, place) if end == FAILED else (c, end)

    def joined(self, first, second):
        """The end of the second called pair, and the greater reach of both."""
        return self.results[second][0], max(self.results[first][1], self.results[second][1])

    def leaf(self, kind, operand, place):
        if kind < 2: return (place if kind == 0 else FAILED), place
        self.looked = max(self.looked, place + 1)
        if place == len(self.entry): return FAILED, place + 1
        byte = self.entry[place]
        return (place + 1 if operand == (byte if kind == 2 else self.classes[byte]) else FAILED), place + 1

    def verdict(self):
        if self.outcome != "success": return self.outcome
        return "recognised" if self.end == len(self.entry) else "partial"

    def cells(self):
        """What the table's cells hold of the pairs that are reached, outcome and reach."""
        cells = {pair: (1 if end == FAILED else 5 + end, reach) for pair, (end, reach) in self.results.items()}
        for pair in self.waiting: cells[pair] = CELLS[self.outcome], 0
        return cells
