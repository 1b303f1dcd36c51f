#!/usr/bin/env python3
"""Writes src/data.rt, the symbols of code points and by each tailoring. The program line_generator, as `rt ci` builds it, then writes
src/states.rt, the states of the machine, and proofs/LineTables.antt, by which the proof checks it.

usage: generate.py [FOLDER]

FOLDER is the one of Rattle's guides, which has the crates ucd_breaks, ucd_category, ucd_east_asian, ucd_emoji and ucd_script; by default
the one beside the program rt. The symbols are those of specs/LineValues.antt; line_generator has the rows of specs/LineRules.antt. Nothing
that is written is trusted: what the machine and its symbols are is proved where the crate is checked."""
import os
import shutil
import subprocess
import sys

sys.dont_write_bytecode = True
from symbols import HERE, TAILORINGS, Characters, Values  # noqa: E402
from rows import lines_of  # noqa: E402

PROGRAM = os.path.join(HERE, "..", "..", "line_generator", "out", "line_generator")
# The symbol of letters, which most code points have.
OTHER = 1


def array(documentation, name, kind, count, body):
    return [f"/// {documentation}", "#[rattlefmt::skip]", f"pub(crate) static {name}: [{kind}; {count}] = [", *body, "];", ""]


def constant(documentation, name, kind, value):
    return [f"/// {documentation}", f"pub(crate) const {name}: {kind} = {value};", ""]


def map_array(documentation, name, entries):
    return array(documentation, name, "(Symbol, ComplexScript)", len(entries),
                 lines_of(f"({symbol}, ComplexScript::{script})" for symbol, script in entries))


def data(values):
    """The text of src/data.rt."""
    ranges = values.ranges(OTHER)
    lines = [
        "//! Lines: the symbols of code points, and by each tailoring.",
        "// Written by generate/generate.py from the rows of Unicode 18.0. Do not edit.", "",
        "use seg_data::provider::ComplexScript;",
        "use seg_machine::provider::Symbol;", "",
        *array("The code points of each symbol and pseudo symbol; others have OTHER.", "RANGES", "(u32, u32, Symbol)", len(ranges),
               lines_of(f"(0x{first:X}, 0x{last:X}, {value})" for first, last, value in ranges)),
        *constant("The symbol of the code points that no range holds.", "OTHER", "Symbol", OTHER),
        *constant("The first value of RANGES that is a pseudo symbol: less this, it is a place in the map.", "SHIFT", "Symbol", values.shift),
        *map_array("The symbol and the script of each pseudo symbol.", "MAP", values.map)]
    for option in TAILORINGS:
        lines += map_array(f"The map by the tailoring {option}.", option.upper(), values.maps[option])
        if values.replaced[option]:
            lines += array(f"The symbols that the tailoring {option} puts in the place of symbols.", f"{option.upper()}_REPLACED",
                           "(Symbol, Symbol, ComplexScript)", len(values.replaced[option]),
                           lines_of(f"({symbol}, {to}, ComplexScript::{script})" for symbol, to, script in values.replaced[option]))
    return "\n".join(lines[:-1]) + "\n"


def write(name, text):
    with open(os.path.join(HERE, "..", *name.split("/")), "w", encoding="utf-8") as out:
        out.write(text)


def main():
    folder = sys.argv[1] if len(sys.argv) > 1 else os.path.join(os.path.dirname(os.path.realpath(shutil.which("rt"))), "..", "rattle")
    write("src/data.rt", data(Values(Characters(folder))))
    for word, name in (("arrays", "src/states.rt"), ("certificate", "proofs/LineTables.antt")):
        write(name, subprocess.run([PROGRAM, word], stdout=subprocess.PIPE, check=True, encoding="utf-8").stdout)


if __name__ == "__main__":
    main()
