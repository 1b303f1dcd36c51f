#!/usr/bin/env python3
"""Writes src/rows.rt, the rows of icu_segmenter_uax14/specs/LineRules.antt as data of the code.

usage: generate.py

A class is the number whose bits are its symbols."""
import os
import sys

sys.dont_write_bytecode = True
HERE = os.path.dirname(os.path.abspath(__file__))
sys.path[:0] = [os.path.join(HERE, "..", "..", crate, "generate") for crate in ("icu_segmenter_uax14", "icu_segmenter_uax29")]
from line_rows import line_rules  # noqa: E402
from rows import lines_of  # noqa: E402
from written import HALF  # noqa: E402


def class_of(symbols):
    return f"0x{sum(1 << symbol for symbol in symbols):x}"


def pattern(items):
    return "&[" + ", ".join(f"({class_of(symbols)}, {often})" for symbols, often in items if often != HALF) + "]"


def rows(items):
    return ["&["] + [f"    Row {{ left: {pattern(left)}, right: {pattern(right)}, verdict: {verdict} }}," for left, verdict, right in items] + ["]"]


def field(name, lines):
    return [f"    {name}: {lines[0]}", *(f"    {line}" for line in lines[1:-1]), f"    {lines[-1]},"]


def name_of(properties):
    """A symbol, as its properties."""
    value, wide, trait = properties
    return ", ".join([value] + ["East Asian"] * wide + [trait] * (trait != "Usual"))


def text(rules):
    counts = sorted({often for row in rules.all for side in (row[0], row[2]) for _, often in side if often != HALF})
    lines = ["//! The rules of lines, LB4 to LB31 of UAX #14, as rows.", "// Written by generate/generate.py. Do not edit.", "",
             f"use seg_rules::rules::Count::{{{', '.join(counts)}}};", "use seg_rules::rules::{Row, Rules};", "",
             "/// How many symbols there are beside the end of a text.", f"pub(crate) const SYMBOLS: usize = {rules.last};", "",
             "/// The properties of each symbol; 0 is the edge of a text.", "#[rattlefmt::skip]",
             f"pub(crate) static NAMES: [&str; {rules.last + 1}] = [", *lines_of(f'"{name_of(it)}"' for it in rules.properties), "];", "",
             "/// The rules. A function that asks here isn't proved over all of them.", "pub(crate) fn rules() -> &'static Rules<'static> {",
             "    &RULES", "}", "", "#[rattlefmt::skip]", "static RULES: Rules<'static> = Rules {",
             *field("above", rows(rules.above)), *field("below", rows(rules.below)),
             f"    has_marks: {'true' if rules.has_marks else 'false'},", f"    marks: {class_of(rules.marks)},", f"    bare: {class_of(rules.bare)},",
             f"    alone: {rules.alone},", f"    at_end: {rules.at_end},", "};", ""]
    return "\n".join(lines)


if __name__ == "__main__":
    with open(os.path.join(HERE, "..", "src", "rows.rt"), "w", encoding="utf-8") as out:
        out.write(text(line_rules()))
