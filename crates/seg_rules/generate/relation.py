"""The check of a machine: a relation of configurations, which say what may be true within a scan. It uses the automata of the rules; the
proof checks the relation again.

A configuration is (before, doubt, state, older, newest, last, named), where the scan of a text that begins at a boundary stands:
  before  the number of what stands before the place
  doubt   what is still owed to the boundary where the scan began
  state   the machine's state
  older   what is owed to the older place that may be a boundary, JOINED if there is none
  newest  whether the place after the last symbol may be a boundary
  last    (place, status) of what was accepted last, or None
  named   the place that was named last, or None
A place is OLDER, NEWEST, LOST, which is no boundary, or END."""
from automata import JOINED, is_open

ACCEPT, CONDITION = "accept", "condition"
OLDER, NEWEST, LOST, END = "older", "newest", "lost", "end"


class Machine:
    """accepts[q] is None, (ACCEPT, status, lookahead or None) or (CONDITION, status, lookahead); nexts[q][symbol] is a state or None."""

    def __init__(self, accepts, nexts):
        self.accepts, self.nexts = accepts, nexts


class Refused(Exception):
    """The machine isn't that of the rules, or needs more than a configuration can say."""


class Relation:
    def __init__(self, rules, machine):
        self.rules, self.machine = rules, machine
        first = [(0, JOINED + 1, 0, JOINED, False, None, None)]
        first += [(before, due, 0, JOINED, False, None, None) for before, due in enumerate(rules.owes) if due != JOINED]
        self.configurations, known = first, set(first)
        for configuration in self.configurations:
            for symbol in range(rules.last + 1):
                if symbol == 0 and configuration[2] == 0 and configuration[5] is None:
                    continue
                after = self.step(configuration, symbol)
                if after is not None and after not in known:
                    known.add(after)
                    self.configurations.append(after)

    def entered(self, state, here, last, named):
        """(last, named, what a condition picks) in a state at a place."""
        accept = self.machine.accepts[state]
        if accept is None:
            return last, named, None
        kind, status, name = accept
        if kind == CONDITION:
            return last, named, None if named is None else (named, status)
        return (here, status), named if name is None else here, None

    def step(self, configuration, symbol):
        """The configuration after a symbol, 0 the end of the text, or None where nothing is left to check."""
        before, doubt, state, older, newest, last, named = configuration
        glues = self.rules.glues[before]
        owed = lambda due: self.rules.owed_after(due, symbol, glues)
        doubt, older = owed(doubt), owed(older)
        new = owed(self.rules.owes[before]) if newest and symbol else JOINED
        if doubt == JOINED:
            return None
        moved = {OLDER: LOST if older == JOINED else OLDER, NEWEST: END if symbol == 0 else OLDER if older == JOINED != new else LOST}
        place = lambda p: moved.get(p, p)
        last, named = last and (place(last[0]), last[1]), place(named)
        if symbol == 0:
            wanted = (END, self.rules.at_end) if older == JOINED else (OLDER, older - 1)
            if self.picked_at_end(state, last, named) != wanted:
                raise Refused("at the end", configuration)
            return None
        kept = new if older == JOINED else older
        sure = (OLDER, kept - 1) if kept != JOINED and not is_open(kept) else None
        state = self.machine.nexts[state][symbol]
        if state is None:
            if not sure or last != sure:
                raise Refused("another boundary", configuration, symbol)
            return None
        if is_open(older) and new != JOINED or state == 0:
            raise Refused("two undecided places, or the first state again", configuration, symbol)
        before = self.rules.moves[before][symbol]
        last, named, picked = self.entered(state, NEWEST, last, named)
        if picked:
            if picked != sure:
                raise Refused("a condition picks another boundary", configuration, symbol)
            return None
        return before, doubt, state, kept, not sure and self.rules.owes[before] != JOINED, last, named

    def picked_at_end(self, state, last, named):
        for _ in self.machine.accepts:
            state = self.machine.nexts[state][0]
            if state is None:
                return last
            last, named, picked = self.entered(state, END, last, named)
            if picked:
                return picked
        raise Refused("the end goes round")
