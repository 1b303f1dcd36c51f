"""The rules of lines, as specs/LineRules.antt has them, over the classes of specs/LineClasses.antt."""
import os
import re

from symbols import SPECS, symbol_properties
from automata import Rules
from written import Classes


def read(name):
    with open(os.path.join(SPECS, name), encoding="utf-8") as text:
        return text.read()


def line_classes(properties):
    """The classes, sets of symbols, by name."""
    classes, text = Classes(len(properties) - 1), read("LineClasses.antt")
    for k, kind in ((0, "class"), (2, "trait")):
        for name, value in re.findall(rf"^(\w+) = {kind} (\w+)$", text, re.M):
            value = {"HangulLv": "H2", "HangulLvt": "H3"}.get(value, value)
            classes[name] = frozenset(s for s, p in enumerate(properties) if s and p[k] == value)
    classes["EA"] = frozenset(s for s, p in enumerate(properties) if s and p[1])
    for name, expression in re.findall(r"^(\w+) = (\w+ but .*)$", text, re.M):
        classes[name] = classes.of(expression)
    return classes


def line_rules():
    properties, text = symbol_properties(), read("LineRules.antt")
    classes = line_classes(properties)
    marks, bare = (classes.of(re.search(rf"^  {name} = bits \(.*?\) (.*);$", text, re.M)[1]) for name in ("marks", "bare"))
    (names, above), (others, below) = classes.rows(text, "rows_above_marks"), classes.rows(text, "rows_below_marks")
    rules = Rules(len(properties) - 1, above, below, int(re.search(r"^  at_end = (\d+);$", text, re.M)[1]), marks, bare, 1)
    rules.properties, rules.names = properties, names + others
    return rules
