"""Rules as rows of patterns, and their automata: what stands before a place, and what is owed to a place.

What stands before a place is, of the left pattern of each row, a bit for each of its rests that may come next; below the marks a symbol
is read with its marks as one. What is owed to a place is the right patterns, as far as they are read, of the rows whose left pattern fits,
and the verdict where none of them fits: a number if nothing is left to read. These are the definitions of
seg_rules/specs/RowRules.antt, which the proof computes again."""
from written import HALF, MANY, MAYBE, PAIR

JOINED = 0
MARKS = None


class Rules:
    """The rules over the symbols up to `last`; `above` and `below` are lists of (left, verdict, right)."""

    def __init__(self, last, above, below, at_end, marks=frozenset(), bare=frozenset(), alone=0, has_marks=True):
        self.last, self.above, self.below, self.at_end = last, above, below, at_end
        self.marks, self.bare, self.alone, self.has_marks = marks, bare, alone, has_marks
        self.split = len(self.above)
        self.all = self.above + self.below
        self.memo = {}
        self.find_befores()

    @staticmethod
    def closed(pattern, live):
        """With the rests that come next where an item is left out."""
        for k, (_, often) in enumerate(pattern):
            if live >> k & 1:
                live |= {MANY: 2 << k, MAYBE: 2 << k, PAIR: 4 << k}.get(often, 0)
        return live

    def read_by(self, pattern, live, symbol, begins):
        after = begins
        for k, (symbols, often) in enumerate(pattern):
            if live >> k & 1 and symbol in symbols:
                after |= {MANY: 1 << k, HALF: (1 << k) >> 1}.get(often, 2 << k)
        return self.closed(pattern, after)

    def unmarked(self, symbol):
        return self.alone if symbol in self.marks else symbol

    # What stands before a place: (the live rests of each left pattern, whether a mark would be glued).

    def moved(self, before, symbol):
        lives, glues = before
        stuck = symbol in self.marks and glues
        after = tuple(self.read_by(row[0], live, symbol, 1) if k < self.split else
                      live if stuck else self.read_by(row[0], live, self.unmarked(symbol), 1)
                      for k, (row, live) in enumerate(zip(self.all, lives)))
        return after, stuck or self.has_marks and symbol not in self.bare

    def find_befores(self):
        """All that may stand before a place, where each symbol leads, and what is owed to the place."""
        start = tuple(self.read_by(left, self.closed(left, 1), 0, 1) for left, _, _ in self.all), False
        number, self.befores, self.moves = {start: 0}, [start], []
        for before in self.befores:
            row = [None]
            for symbol in range(1, self.last + 1):
                to = self.moved(before, symbol)
                if to not in number:
                    number[to] = len(number)
                    self.befores.append(to)
                row.append(number[to])
            self.moves.append(row)
        self.owes = [self.owed(before) for before in self.befores]
        self.glues = [glues for _, glues in self.befores]

    # What is owed to a place: a verdict, or (entries, the verdict otherwise). An entry is MARKS or (row, live rests of its right pattern).

    def verdict(self, entry):
        return JOINED if entry is MARKS else self.all[entry[0]][1]

    def settled(self, entries, otherwise):
        while entries and self.verdict(entries[-1]) == otherwise:
            entries.pop()
        return (tuple(entries), otherwise) if entries else otherwise

    def owed(self, before):
        entries = []
        for k, ((left, verdict, right), live) in enumerate(zip(self.all, before[0])):
            if k == self.split and self.has_marks:
                entries.append(MARKS)
            if live >> len(left) & 1:
                start = self.closed(right, 1)
                if start >> len(right) & 1:
                    return self.settled(entries, verdict)
                entries.append((k, start))
        raise ValueError("no last row")

    def owed_after(self, due, symbol, glues):
        """What is owed after one more symbol, where a mark is glued or not."""
        if not is_open(due):
            return due
        key = due, symbol, glues
        if key not in self.memo:
            self.memo[key] = self.read_entries(*due, symbol, symbol in self.marks and glues)
        return self.memo[key]

    def read_entries(self, entries, otherwise, symbol, stuck):
        left = []
        for entry in entries:
            if entry is MARKS:
                if stuck:
                    return self.settled(left, JOINED)
                continue
            row, live = entry
            if row >= self.split and stuck:
                left.append(entry)
                continue
            _, verdict, right = self.all[row]
            live = self.read_by(right, live, symbol if row < self.split else self.unmarked(symbol), 0)
            if live >> len(right) & 1:
                return self.settled(left, verdict)
            if live and symbol:
                left.append((row, live))
        return self.settled(left, otherwise)


def is_open(due):
    return isinstance(due, tuple)
