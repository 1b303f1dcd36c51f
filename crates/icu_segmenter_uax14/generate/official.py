#!/usr/bin/env python3
"""Runs an official test of lines, and counts the tests that fail by the rule that decides the first place where they differ.

usage: official.py LineBreakTest.txt [FOLDER]

FOLDER is that of generate.py, and the machine that of src/states.rt. A test of another version of Unicode fails where a rule has changed
since."""
import os
import re
import shutil
import sys
from collections import Counter

sys.dont_write_bytecode = True
from symbols import HERE, Characters, Values  # noqa: E402
from line_rows import line_rules  # noqa: E402

NONE = "255"


def tests(path):
    """(code points, the places of boundaries) of each test."""
    with open(path, encoding="utf-8") as lines:
        for line in lines:
            words = line.split("#")[0].split()
            if words:
                yield [int(word, 16) for word in words[1::2]], [place for place, sign in enumerate(words[2::2], 1) if sign == "÷"]


class Machine:
    """The states of src/states.rt, by name, and by each symbol where it leads from each."""

    def __init__(self):
        with open(os.path.join(HERE, "..", "src", "states.rt"), encoding="utf-8") as text:
            arrays = re.findall(r"= \[\n(.*?)\];", re.sub(r"//.*", "", text.read()), re.S)
        self.states, transitions = (re.findall(r"\w+", array) for array in arrays)
        self.nexts = [transitions[k:k + len(self.states)] for k in range(0, len(transitions), len(self.states))]

    def places(self, symbols):
        """The places of boundaries in a text."""
        found = [0]
        while found[-1] < len(symbols):
            found.append(self.pick(symbols, found[-1]))
        return found[1:]

    def pick(self, symbols, start):
        """Where the segment ends that begins there."""
        state, picked, named = 0, None, None
        for k in range(start, len(symbols) + len(self.states)):
            state = self.nexts[symbols[k] if k < len(symbols) else 0][state]
            if state == NONE:
                break
            state, place = int(state), min(k + 1, len(symbols))
            kind = self.states[state]
            if kind.startswith("CONDITION") and named is not None:
                return named
            if kind.startswith("ACCEPT"):
                picked = place
            if kind.endswith("NAMED"):
                named = place
        return picked


def is_whole(pattern, live):
    return live >> len(pattern) & 1


def row_fits(rules, row, before, after):
    left, _, right = row
    live = rules.closed(left, 1)
    for symbol in before:
        live = rules.read_by(left, live, symbol, 1)
    if not is_whole(left, live):
        return False
    live = rules.closed(right, 1)
    for symbol in after:
        if is_whole(right, live):
            break
        live = rules.read_by(right, live, symbol, 0)
    return is_whole(right, live)


def bases(rules, symbols):
    """(place, symbol) of what is left without the marks that are glued."""
    found, glues = [], False
    for place, symbol in enumerate(symbols):
        stuck = symbol in rules.marks and glues
        if not stuck:
            found.append((place, rules.unmarked(symbol)))
        glues = stuck or symbol not in rules.bare
    return found


def rule_at(rules, symbols, place):
    """The rule that decides a place: the first row that fits."""
    for number, row in zip(rules.names, rules.above):
        if row_fits(rules, row, [0] + symbols[:place], symbols[place:] + [0]):
            return number
    left = bases(rules, symbols)
    if place not in dict(left):
        return "LB9"
    before, after = [0] + [s for k, s in left if k < place], [s for k, s in left if k >= place] + [0]
    return next(number for number, row in zip(rules.names[rules.split:], rules.below) if row_fits(rules, row, before, after))


def main():
    folder = sys.argv[2] if len(sys.argv) > 2 else os.path.join(os.path.dirname(os.path.realpath(shutil.which("rt"))), "..", "rattle")
    rules, values = line_rules(), Values(Characters(folder))
    machine = Machine()
    passed, failed = 0, Counter()
    for code_points, wanted in tests(sys.argv[1]):
        symbols = [values.map[v - values.shift][0] if v >= values.shift else v for v in (values.of[c] for c in code_points)]
        found = machine.places(symbols)
        if found == wanted:
            passed += 1
        else:
            failed[rule_at(rules, symbols, min(set(found) ^ set(wanted)))] += 1
    print(f"{passed} passed, {sum(failed.values())} failed: {', '.join(f'{n} {rule}' for rule, n in failed.most_common())}")


if __name__ == "__main__":
    main()
