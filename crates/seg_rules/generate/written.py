"""Rules as the files of specs write them: rows of patterns over classes, and classes as sets of symbols."""
import re

VERDICTS = {"joins": 0, "breaks": 1, "must_break": 2}
# Items of patterns; pairs are two, of which the second stands after half a pair.
ONE, MAYBE, MANY, PAIR, HALF = "One", "Optional", "Star", "Pairs", "half"
WORDS = {"one": [ONE], "maybe": [MAYBE], "many": [MANY], "pairs": [PAIR, HALF]}


class Classes(dict):
    """Sets of symbols by name, of the symbols from 1 up to `last`; 0 is the edge of a text."""

    def __init__(self, last):
        everything = frozenset(range(1, last + 1))
        self["sot"] = self["eot"] = frozenset([0])
        self["no"] = lambda symbols: everything - symbols

    def of(self, expression):
        """The symbols of an expression; `also` and `but` bind closer than `or`."""
        for word, sign in (("or", "|"), ("also", "&"), ("but", "-")):
            expression = re.sub(rf"\b{word}\b", sign, expression)
        return eval(re.sub(r"\bno (\w+|\()", lambda found: f"no{found[1]}" if found[1] == "(" else f"no({found[1]})", expression), {}, self)

    def pattern(self, text):
        """The items, each (symbols, how often)."""
        items = []
        for item in text.strip().removeprefix("(").removesuffix(")").split(" ∷ ")[:-1] if text != "[]" else ():
            word, expression = item.split(" ", 1)
            items += [(self.of(expression), often) for often in WORDS[word]]
        return items

    def rows(self, text, name):
        """The rows of a list that a file defines: (the rule of each, as the line above it says; each (left, verdict, right))."""
        rules, rows = [], []
        for line in text.split(f"{name} =\n")[1].split("    ∷ []\n\n")[0].splitlines():
            rule = re.match(r" *-- (\w+)", line)
            if rule:
                number = rule[1]
                continue
            left, verdict, right = re.fullmatch(rf" *(?:∷ )?row (.*) ({'|'.join(VERDICTS)}) (.*)", line).groups()
            rules.append(number)
            rows.append((self.pattern(left), VERDICTS[verdict], self.pattern(right)))
        return rules, rows
