#!/usr/bin/env python3
"""Writes data/line_sets.rules, the sets of code points that the rules of UAX #14 tell apart.

usage: generate.py [FOLDER]

FOLDER is that of icu_segmenter_uax14/generate/generate.py."""
import os
import re
import shutil
import sys

sys.dont_write_bytecode = True
HERE = os.path.dirname(os.path.abspath(__file__))
sys.path[:0] = [os.path.join(HERE, "..", "..", crate, "generate") for crate in ("icu_segmenter_uax14", "icu_segmenter_uax29")]
from line_rows import read  # noqa: E402
from rows import filled, rows_of  # noqa: E402
from symbols import Characters  # noqa: E402

# How the name of a set says what else than the class and the width is asked.
TRAITS = {"Usual": "", "Opening": "_PI", "Closing": "_PF", "Unassigned": "_CN"}


def code_points_of(values):
    """The code points of each value."""
    found = {}
    for code_point, value in enumerate(values):
        found.setdefault(value, []).append(code_point)
    return found


def bracket(code_points):
    """A bracket with these code points."""
    ranges = []
    for code_point in code_points:
        if ranges and ranges[-1][1] == code_point - 1:
            ranges[-1][1] = code_point
        else:
            ranges.append([code_point, code_point])
    return "[" + " ".join(f"U+{first:04X}" if first == last else f"U+{first:04X}..U+{last:04X}" for first, last in ranges) + "]"


def names_of(found):
    """The names of sets of code points with the same properties: the standard's of their class, and what tells it from the others of the class."""
    shorts = {{"HangulLv": "H2", "HangulLvt": "H3"}.get(value, value): short for short, value in re.findall(r"^(\w+) = class (\w+)$", read("LineClasses.antt"), re.M)}
    narrow = {value for value, wide, _ in found if not wide}
    names = {}
    for value, wide, trait in found:
        name = shorts[value] + ("_EA" if wide and value in narrow else "")
        names["DC" if trait == "Dotted" else name + TRAITS[trait]] = found[value, wide, trait]
    return names


def line_sets(folder):
    """The text of data/line_sets.rules. A set of many ranges that is a value of Grapheme_Cluster_Break is written so."""
    characters, breaks = Characters(folder), filled(rows_of(folder, "ucd_breaks/specs/GraphemeClusterBreakRows.antt"), "Other")
    names = names_of(code_points_of(map(characters.properties, range(0x110000))))
    values = {tuple(code_points): rf"\p{{GCB={value.upper()}}}" for value, code_points in code_points_of(breaks).items()}
    lines = ["# The sets of code points that the rows of line_rows.rules tell apart; letters, AL, are other.",
             "# Written by generate/generate.py from the rows of Unicode 18.0. Do not edit.", ""]
    for name in sorted(names.keys() - {"AL"}):
        written = bracket(names[name])
        lines.append(f"{name} = {values.get(tuple(names[name]), written) if ' ' in written else written}")
    return "\n".join(lines) + "\n"


def main():
    folder = sys.argv[1] if len(sys.argv) > 1 else os.path.join(os.path.dirname(os.path.realpath(shutil.which("rt"))), "..", "rattle")
    with open(os.path.join(HERE, "..", "data", "line_sets.rules"), "w", encoding="utf-8") as out:
        out.write(line_sets(folder))


if __name__ == "__main__":
    main()
