#!/usr/bin/env python3
"""Writes the pair tables (src/*/data.rt), src/version.rt, and the texts that crates/break_tests compares them with the machines on
(crates/break_tests/data/Representatives.txt).

usage: generate.py [FOLDER]

FOLDER is the one of Rattle's guides, which has the crates ucd_breaks, ucd_category, ucd_derived, ucd_east_asian, ucd_emoji and
ucd_script; by default the one beside the program rt. The rules are the rows of specs/ of icu_segmenter_uax29 and icu_segmenter_uax14."""
import os
import re
import shutil
import sys

sys.dont_write_bytecode = True
import classes  # noqa: E402
from pair_tables import PairTable  # noqa: E402
from rows import array, lines_of  # noqa: E402
from symbols import Characters, Values  # noqa: E402

CRATES = os.path.join(classes.HERE, "..", "..")


def constant(documentation, name, kind, value):
    return [f"/// {documentation}", f"pub(super) const {name}: {kind} = {value};", ""]


def ranges_of(found):
    """Rising (first, last, class), without the code points of the other class."""
    ranges = []
    for c, number in enumerate(found.of):
        if ranges and ranges[-1][2] == number:
            ranges[-1][1] = c
        else:
            ranges.append([c, c, number])
    return [r for r in ranges if r[2] != found.other]


def entries_array(table):
    names = {**table.classes.names, 0: "no code point's", table.start_of_text: "the start of the text", table.end_of_text: "the end of the text"}
    body = []
    for r, row in enumerate(table.entries):
        body += [f"    // {r} {names.get(r, 'a composite')}", *lines_of(e if isinstance(e, str) else f"{e[0]}({e[1]})" for e in row)]
    return array("A row for each class and composite, in it what stands between it and each.", "ENTRIES", "BreakState", table.count ** 2, body)


def uses(table):
    entries = [e if isinstance(e, str) else e[0] for row in table.entries for e in row]
    names = {"TableNumbers"} | {e for e in entries if e.isupper()}
    variants = ", ".join(["self"] + sorted({e for e in entries if not e.isupper()}))
    return [f"use crate::parts::{{{', '.join(sorted(names))}}};", f"use icu_segmenter::provider::BreakState::{{{variants}}};", ""]


def data(summary, table):
    """The text of a data.rt."""
    found = table.classes
    ranges = ranges_of(found)
    statuses = [*array("The status of each class and composite, from 1 on.", "STATUSES", "u8", len(table.statuses), lines_of(map(str, table.statuses))), ""]
    return "\n".join([
        f"//! {summary}", "// Written by generate/generate.py from the rows of Unicode 18.0 and of the rules in specs/. Do not edit.", "", *uses(table),
        *array("The code points of each class; others have OTHER_CLASS.", "CLASSES", "(u32, u32, u8)", len(ranges),
               lines_of(f"(0x{first:X}, 0x{last:X}, {value})" for first, last, value in ranges)), "",
        *constant("The class of the code points that no range of CLASSES holds.", "OTHER_CLASS", "u8", found.other),
        *entries_array(table), "", *(statuses if any(table.statuses) else []),
        "/// The numbers of classes.", "pub(super) const NUMBERS: TableNumbers = TableNumbers {", f"    count: {table.count},", f"    last: {table.last},",
        f"    start_of_text: {table.start_of_text},", f"    end_of_text: {table.end_of_text},", f"    complex: {found.complex},", "};"]) + "\n"


def version(folder):
    """The version that the kit's files say they are made from."""
    with open(os.path.join(folder, "ucd_breaks", "src", "lib.rt"), encoding="utf-8") as text:
        found = re.search(r"from the data of Unicode (\d+)\.(\d+)\.(\d+)\.", text.read())
    return "\n".join([
        "//! The version of the Unicode Standard.", "// Written by generate/generate.py from the rows of Unicode 18.0. Do not edit.", "",
        "/// The version of the Unicode Standard whose properties all data have: major, minor and update.",
        f"pub const UNICODE_VERSION: (u8, u8, u8) = ({', '.join(found.groups())});"]) + "\n"


def representatives(*values, without=()):
    """A code point for each combination of a machine's symbol and the classes of pair tables, but for these code points."""
    found = {}
    for c, combination in enumerate(zip(*values)):
        if not 0xD800 <= c < 0xE000 and c not in without:
            found.setdefault(combination, c)
    return " ".join(f"{c:04X}" for c in found.values())


def comparisons(folder, characters, found):
    """The rows of crates/break_tests/data/Representatives.txt."""
    values, marks = Values(characters), found["lines_17"]
    lines = [values.map[v - values.shift][0] if v >= values.shift else v for v in values.of], found["lines"].of, marks.of
    words = classes.typed_words.values_of(folder), found["words"].of
    cut = {c for c, number in enumerate(found["words"].of) if number == found["words"].complex}
    complex_marks = {c for c, number in enumerate(marks.of) if marks.names[number] == "SA_MC_MN"}
    return "\n".join([
        "# A code point for each symbol of a machine with each class of the pair tables. Written by icu_segmenter_data/generate/generate.py.",
        f"clusters; {representatives(found['clusters'].of)}",
        f"sentences; {representatives(found['sentences'].of)}",
        f"words without what dictionaries cut; {representatives(*words, without=cut)}",
        f"words; {representatives(*words)}",
        f"lines without marks of class SA; {representatives(*lines, without=complex_marks)}",
        f"lines; {representatives(*lines)}"]) + "\n"


def write(name, text):
    with open(os.path.join(CRATES, *name.split("/")), "w", encoding="utf-8") as out:
        out.write(text)


def main():
    folder = sys.argv[1] if len(sys.argv) > 1 else os.path.join(os.path.dirname(os.path.realpath(shutil.which("rt"))), "..", "rattle")
    characters = Characters(folder)
    kinds = {
        "clusters": ("Grapheme clusters: the parts of the pair table, by UAX #29.", classes.cluster_classes(folder)),
        "words": ("Words: the parts of the pair table, by UAX #29.", classes.word_classes(folder)),
        "sentences": ("Sentences: the parts of the pair table, by UAX #29.", classes.sentence_classes(folder)),
        "lines": ("Lines: the parts of the pair table, by UAX #14.", classes.line_classes(characters, classes.CLASSIC, classes.classic_name)),
        "lines_17": ("Lines by the engine 17: the parts of the pair table, by UAX #14.", classes.line_classes(characters, classes.SEVENTEEN, classes.name_17)),
    }
    found = {}
    for name, (summary, (of_kind, rules)) in kinds.items():
        table, found[name] = PairTable(rules, of_kind), of_kind
        write(f"icu_segmenter_data/src/{name}/data.rt", data(summary, table))
        print(f"{name}: {table.count} rows, of which {table.count - table.end_of_text - 1} are composites, {len(ranges_of(of_kind))} ranges")
    write("icu_segmenter_data/src/version.rt", version(folder))
    write("break_tests/data/Representatives.txt", comparisons(folder, characters, found))


if __name__ == "__main__":
    main()
