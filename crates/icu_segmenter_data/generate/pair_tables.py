"""Pair tables out of rows of rules: what stands between a class, or a state of a walk, and the class after it.

A class is read as a symbol of the rules. Its row is what is known after that symbol at the start of a text, and a composite is what else
may be known: what stands before a place, and what is owed to the place that a walk has saved (seg_rules/generate/automata.py). The entry
of two is Keep where after both no more is known than after the second alone, and Break or NoMatch where a boundary stands between them,
or at the place saved. Otherwise a walk goes on in a class or a composite (Index), and saves the place between the two where what follows
decides it (Intermediate)."""
from typing import NamedTuple

from automata import JOINED, is_open

# A byte means an Index of a state below this.
MOST = 120


class State(NamedTuple):
    """What a walk knows: what stands before, the type of what was read, what is owed to the place saved, or None, and the type there."""
    before: int
    kind: int
    saved: tuple = None
    kind_saved: int = 0

    def status(self):
        return self.kind if self.saved is None else self.kind_saved


class Walks:
    """All states, and what each class does to them: whether it is joined to what was read ("go"), or saves the place before it ("save"),
    with the state that follows; or makes that place, or the one saved, a boundary ("BREAK", "NO_MATCH")."""

    def __init__(self, rules, classes):
        self.rules, self.classes, self.memo = rules, classes, {}
        self.alone = {c: self.read(State(0, 0), c) for c in classes.symbols}
        self.states, self.steps = list(dict.fromkeys(self.alone.values())), {}
        known = set(self.states)
        for state in self.states:  # grows
            for c in classes.symbols:
                _, to = self.steps[state, c] = self.step(state, c)
                if to is not None and to not in known:
                    known.add(to)
                    self.states.append(to)

    def read(self, state, c, *saved):
        """The state after a class that is joined to it."""
        return State(self.rules.moves[state.before][self.classes.symbols[c]], self.classes.type_after(state.kind, c), *saved)

    def owed(self, state, c, due):
        """What is owed after the class: a verdict where no text that goes on makes the place a boundary."""
        symbol = self.classes.symbols[c]
        due = self.rules.owed_after(due, symbol, self.rules.glues[state.before])
        return JOINED if is_open(due) and not self.can_break(self.rules.moves[state.before][symbol], due) else due

    def can_break(self, before, due):
        """Whether some text, read on, makes a place to which this is owed a boundary."""
        key = before, due
        if key not in self.memo:
            self.memo[key] = self.search(before, due)
        return self.memo[key]

    def search(self, before, due):
        seen, todo = {(before, due)}, [(before, due)]
        while todo:
            before, due = todo.pop()
            for symbol in range(self.rules.last + 1):
                after = self.rules.owed_after(due, symbol, self.rules.glues[before])
                if after == JOINED:
                    continue
                if not is_open(after):
                    return True
                if symbol and (then := (self.rules.moves[before][symbol], after)) not in seen:
                    seen.add(then)
                    todo.append(then)
        return False

    def step(self, state, c):
        older = JOINED if state.saved is None else self.owed(state, c, state.saved)
        if older != JOINED and not is_open(older):
            return "NO_MATCH", None
        newest = self.owed(state, c, self.rules.owes[state.before])
        if is_open(older):
            if newest != JOINED:
                raise SystemExit("a place isn't decided where the next one may be a boundary: a walk saves one")
            return "go", self.read(state, c, older, state.kind_saved)
        if newest == JOINED:
            return "go", self.read(state, c)
        return ("save", self.read(state, c, newest, state.kind)) if is_open(newest) else ("BREAK", None)

    def at_end(self, state):
        due = JOINED if state.saved is None else self.rules.owed_after(state.saved, 0, self.rules.glues[state.before])
        return "BREAK" if due == JOINED else "NO_MATCH"

    def groups(self):
        """A number for each state, the same for those that no text tells apart."""
        group = {state: (state.saved is None, state.status(), state.kind, self.at_end(state)) for state in self.states}
        while True:
            seen, finer = {}, {}
            for state in self.states:
                steps = (self.steps[state, c] for c in self.classes.symbols)
                signature = group[state], tuple((said, group.get(to)) for said, to in steps)
                finer[state] = seen.setdefault(signature, len(seen))
            if len(seen) == len(set(group.values())):
                return finer
            group = finer


class PairTable:
    """`entries` by rows; `statuses` of the classes and composites from 1 on.

    A walk that reaches what is known after a class goes on in the row of a class: one that the rules name where there is one, and
    otherwise the lowest."""

    def __init__(self, rules, classes):
        self.walks, self.classes = Walks(rules, classes), classes
        self.group = self.walks.groups()
        self.last = max(classes.names)
        self.start_of_text, self.end_of_text = self.last + 1, self.last + 2
        self.alone = {c: self.group[state] for c, state in self.walks.alone.items()}
        self.rows, self.states = {}, dict(self.walks.alone)
        for c in sorted(classes.names, key=lambda c: (c not in classes.plain, c)):
            self.rows.setdefault(self.alone[c], c)
        rows = {}
        for row, state in ((row, self.states[row]) for row in self.grown()):
            rows[row] = {**{c: self.entry(state, c) for c in classes.names}, self.end_of_text: self.walks.at_end(state)}
        self.count = self.end_of_text + 1 + len(self.states) - len(self.alone)
        if self.count > MOST:
            raise SystemExit(f"{self.count} classes and composites: a pair table has at most {MOST}")
        self.entries = [[rows.get(r, {}).get(c, "BREAK") for c in range(self.count)] for r in range(self.count)]
        self.statuses = [self.states[r].status() if r in self.states else 0 for r in range(1, self.count)]

    def grown(self):
        """The numbers of the states, while entries name more."""
        done = 0
        while done < len(self.states):
            yield list(self.states)[done]
            done += 1

    def row_of(self, state):
        group = self.group[state]
        if group not in self.rows:
            self.rows[group] = self.end_of_text + 1 + len(self.states) - len(self.alone)
            self.states[self.rows[group]] = state
        return self.rows[group]

    def entry(self, state, c):
        said, to = self.walks.steps[state, c]
        if to is None:
            return said
        if said == "go" and self.group[to] == self.alone[c]:
            return "KEEP"
        return "Intermediate" if said == "save" else "Index", self.row_of(to)
