"""The instance of seg_rules' law, as text: the rules as numbers, tables, plan and relation, and that they pass the tests."""
import re

from automata import MARKS
from relation import CONDITION, LOST, NEWEST, OLDER
from written import HALF

# What the tests unfold.
ROW_RULES = ("once once_number once_flags flow no_flags is_full is_live moved unread moves_on put_on put onto begun owed_rows owed reading "
             "read_all read").split()
CHECK = ("get same_flags same_lives same_pattern same_entries same_due moves_hold befores_hold reads_hold dues_hold append_dues all_below "
         "rows_below among ends entered goes_on each_goes configurations_hold configuration_holds relation_holds starts_hold").split()
NAMES = {
    "std.specs.Prelude": "◌≡◌ ℕ Bool true false ◌&&◌ nat_lt List [] ◌∷◌ length",
    "std.proofs.Common": "refl",
    "std.proofs.lemmas.Bool": "and_from",
    "seg_rules.specs.declared.certificate.Configuration": "Configuration",
    "seg_rules.specs.declared.rules.Count.TheVariants": "One Optional Star Pairs",
    "seg_rules.specs.RowRules": "Row RowRules Before Marks Owed Due DueOf at_start " + " ".join(ROW_RULES),
    "seg_rules.specs.Check": "Plan Tables no_before same_before verdicts tables_hold scans_hold " + " ".join(CHECK),
}
# The rules by numbers.
RULED = "numbered_above numbered_below numbered_rules".split()
AT = ["abbrev at : (before doubt older : ℕ) (newest : Bool) (last status named : ℕ) → Configuration",
      "at before doubt older newest last status named =",
      "    record { before = before; doubt = doubt; older = older; newest = newest; last = last; status = status; named = named }"]
NONE = 255
# How many of what stands before a place one proof is about.
PART = 30
# How wide a line of several elements may be.
WIDTH = 118


def chain(items):
    return " ∷ ".join([*items, "[]"])


def truth(value):
    return "true" if value else "false"


def bits(symbols):
    return sum(1 << symbol for symbol in symbols)


def pattern(items):
    return chain(f"({bits(symbols)}, {often})" for symbols, often in items if often != HALF)


class Numbers:
    """Numbers for what may be owed to a place: a verdict is its own."""

    def __init__(self, rules):
        self.open, self.number = [], {0: 0, 1: 1, 2: 2}
        for due in rules.owes:
            self.of(due)
        self.reads = []
        for due in self.open:
            self.reads.append([tuple(self.of(rules.owed_after(due, symbol, glues)) for glues in (False, True)) for symbol in range(rules.last + 1)])

    def of(self, due):
        if due not in self.number:
            self.number[due] = len(self.number)
            self.open.append(due)
        return self.number[due]


def packed(items):
    """Lines of the elements of a list, each with what joins it to the next."""
    line = "   "
    for item in items:
        if len(line) + len(item) > WIDTH and line.strip():
            yield line
            line = "   "
        line += f" {item} ∷"
    if line.strip():
        yield line


class Instance:
    def __init__(self, rules, machine, relation):
        self.rules, self.machine, self.relation = rules, machine, relation
        self.numbers = Numbers(rules)
        self.lives, self.lines = {}, []

    def define(self, name, kind, items):
        self.lines += [f"unfoldable pub {name} : {kind}", f"{name} =", *packed(items), "    []", ""]

    def in_parts(self, name, kind, items):
        """A list in parts, each before the rest, so that no proof computes too much. The number of parts."""
        parts = [items[k:k + PART] for k in range(0, len(items), PART)]
        for k, part in enumerate(parts):
            self.lines += [f"unfoldable pub {name}_{k} : List ({kind}) → List ({kind})", f"{name}_{k} rest =",
                           *packed(part), "    rest", ""]
        whole = "[]"
        for k in reversed(range(len(parts))):
            whole = f"{name}_{k} {whole if whole == '[]' else f'({whole})'}"
        self.lines += [f"unfoldable pub {name} : List ({kind})", f"{name} = {whole}", ""]
        return len(parts)

    def live(self, items, flags):
        """The name of the flags of a pattern."""
        word = "".join("true" [0] if flags >> k & 1 else "f" for k in range(len(items) + 1))
        self.lives[f"live_{word}"] = chain(truth(letter == "t") for letter in word)
        return f"live_{word}"

    def row(self, row):
        left, verdict, right = row
        return f"record {{ left = {pattern(left)}; right = {pattern(right)}; verdict = {verdict} }}"

    def before(self, before):
        lives, glues = before
        flags = [self.live(row[0], live) for row, live in zip(self.rules.all, lives)]
        split = self.rules.split
        return f"record {{ above = {chain(flags[:split])}; below = {chain(flags[split:])}; glues = {truth(glues)} }}"

    def entry(self, entry):
        if entry is MARKS:
            return "Marks"
        row, live = entry
        _, verdict, right = self.rules.all[row]
        return f"Owed ({pattern(right)}) {self.live(right, live)} {verdict} {truth(row >= self.rules.split)}"

    def due(self, due):
        entries, otherwise = due
        return f"DueOf ({chain(map(self.entry, entries))}) {otherwise}"

    def accept(self, accept):
        if accept is None:
            return "(0, 0, false)"
        kind, status, name = accept
        return f"({2 if kind == CONDITION else 1}, {status}, {truth(kind != CONDITION and name is not None)})"

    def configuration(self, configuration):
        before, doubt, _, older, newest, last, named = configuration
        place = {None: 0, LOST: 1, NEWEST: 2, OLDER: 3}
        where, status = last or (None, 0)
        return f"at {before} {self.numbers.of(doubt)} {self.numbers.of(older)} {truth(newest)} {place[where]} {status} {place[named]}"

    def waiting(self):
        """Of each state whether a scan comes there before anything was accepted."""
        found, todo = [False] * len(self.machine.accepts), [0]
        for state in todo:
            for to in self.machine.nexts[state]:
                if to is not None and self.machine.accepts[to] is None and not found[to]:
                    found[to] = True
                    todo.append(to)
        return found

    def text(self, what, name, words):
        """The file of the certificate of `what`, for the rules of this name; of each module, the words by which those unfold."""
        self.define_rules()
        parts = self.define_tables()
        self.define_machine()
        defined = [word for names in words.values() for word in names.split()] + RULED
        self.lines += [f"pub rules-are : {name} ≡ numbered_rules", "unfolding " + " ".join(defined), "rules-are = refl", ""]
        self.prove(parts)
        return "\n".join(self.head(what, words) + self.lines[:-1]) + "\n"

    def define_rules(self):
        rules = self.rules
        self.define("numbered_above", "List Row", map(self.row, rules.above))
        self.define("numbered_below", "List Row", map(self.row, rules.below))
        self.lines += [
            "unfoldable pub numbered_rules : RowRules", "numbered_rules = record {", "  above = numbered_above;", "  below = numbered_below;",
            f"  has_marks = {truth(rules.has_marks)};", f"  marks = {bits(rules.marks)};", f"  bare = {bits(rules.bare)};", f"  alone = {rules.alone};",
            f"  at_end = {rules.at_end};", "}", ""]

    def define_tables(self):
        """The tables; how many parts those have that are in parts."""
        rules, numbers = self.rules, self.numbers
        parts = self.in_parts("befores", "Before", list(map(self.before, rules.befores)))
        self.in_parts("moves", "List ℕ", [f"({chain(map(str, row[1:]))})" for row in rules.moves])
        self.in_parts("owes", "ℕ", [str(numbers.of(due)) for due in rules.owes])
        self.define("dues", "List Due", map(self.due, numbers.open))
        verdicts = [[(verdict, verdict)] * (rules.last + 1) for verdict in range(3)]
        self.define("reads", "List (List (ℕ × ℕ))", (f"({chain(map(str, row))})" for row in verdicts + numbers.reads))
        self.lines += ["unfoldable pub tables : Tables",
                       "tables = record { befores = befores; moves = moves; owes = owes; dues = dues; reads = reads }", ""]
        return parts

    def define_machine(self):
        machine = self.machine
        groups = [[] for _ in machine.accepts]
        for configuration in self.relation.configurations:
            groups[configuration[2]].append(self.configuration(configuration))
        self.define("accepts", "List (ℕ × ℕ × Bool)", map(self.accept, machine.accepts))
        self.define("nexts", "List (List ℕ)", (f"({chain(str(NONE if to is None else to) for to in row)})" for row in machine.nexts))
        self.lines += ["unfoldable pub plan : Plan", "plan = record { accepts = accepts; nexts = nexts }", ""]
        self.define("waits", "List Bool", map(truth, self.waiting()))
        self.define("relation", "List (List Configuration)", (f"({chain(group)})" for group in groups))

    def prove(self, parts):
        """That the tables and the relation pass their tests."""
        listed = [f"{name}_{k}" for name in ("befores", "moves", "owes") for k in range(parts)] + "befores moves owes dues reads tables".split()
        tests = " ".join(RULED + listed + ROW_RULES + CHECK)
        of = f"numbered_rules tables {self.rules.last}"
        for k in range(parts):
            self.lines += [f"befores-hold-{k} : (ss : List Before) (rows : List (List ℕ)) (os : List ℕ) → befores_hold {of} ss rows os ≡ true",
                           f"    → befores_hold {of} (befores_{k} ss) (moves_{k} rows) (owes_{k} os) ≡ true", f"unfolding {tests}",
                           f"befores-hold-{k} ss rows os h = h", ""]
        whole = "refl"
        for k in reversed(range(parts)):
            whole = f"befores-hold-{k} _ _ _ {whole if whole == 'refl' else f'({whole})'}"
        self.lines += [f"befores-hold : befores_hold {of} befores moves owes ≡ true", "unfolding befores moves owes befores_hold",
                       f"befores-hold = {whole}", ""]
        for name, claim, more in (
                ("start-holds", "same_before (at_start numbered_rules) (get no_before befores 0) ≡ true", ""),
                ("dues-hold", f"dues_hold {of} (append_dues verdicts dues) reads ≡ true", ""),
                ("moves-below", "once_number (length befores) (λ many. nat_lt 0 many && rows_below many moves) ≡ true", ""),
                ("scans-hold", "scans_hold numbered_rules tables plan relation ≡ true", " accepts nexts plan relation")):
            self.lines += [f"{'pub ' if more else ''}{name} : {claim}", f"unfolding {tests}{more}", f"{name} = refl", ""]
        self.lines += [f"pub tables-hold : tables_hold numbered_rules {self.rules.last} tables ≡ true", "unfolding tables",
                       "tables-hold = and_from _ _ start-holds (and_from _ _ befores-hold (and_from _ _ dues-hold moves-below))", ""]

    def head(self, what, words):
        """What stands above: imports of the words that are used, and the flags of patterns."""
        used = set(re.findall(r"[^ \n(){},;]+", "\n".join(self.lines + list(self.lives.values()) + AT)))
        lines = [f"-- The certificate of {what}: written by generate/generate.py. Do not edit."]
        for module, names in {**NAMES, **words}.items():
            names = [name for name in names.split() if name in used or name.strip("◌") in used]
            lines += [f"use Rattle.{module}.{{{', '.join(names)}}}"] if names else []
        lines += ["", *AT, "", "-- which rests of a pattern may come next"]
        for name in sorted(self.lives):
            lines += [f"abbrev {name} : List Bool", f"{name} = {self.lives[name]}", ""]
        return lines
