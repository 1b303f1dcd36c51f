"""The rows of Unicode that Rattle's crates have, and how arrays over them are written."""
import os
import re

WIDTH = 158
PER_LINE = 14


def rows_of(folder, file):
    with open(os.path.join(folder, file), encoding="utf-8") as text:
        return [(int(first, 16), int(last, 16), value)
                for first, last, value in re.findall(r"\(0x([0-9A-F]+), 0x([0-9A-F]+), (\w+)\)", text.read())]


def filled(rows, default):
    values = [default] * 0x110000
    for first, last, value in rows:
        values[first:last + 1] = [value] * (last + 1 - first)
    return values


def ranges_of(symbols):
    """The ranges of code points that have a symbol other than OTHER, each with its symbol."""
    ranges = []
    for code_point, symbol in enumerate(symbols):
        if ranges and ranges[-1][2] == symbol:
            ranges[-1][1] = code_point
        else:
            ranges.append([code_point, code_point, symbol])
    return [r for r in ranges if r[2] != "OTHER"]


# What is written.

def lines_of(items):
    line = "   "
    for item in items:
        if len(line) + len(item) + 2 > WIDTH:
            yield line
            line = "   "
        line += f" {item},"
    yield line


def array(documentation, name, kind, count, body):
    return [f"/// {documentation}", "#[rattlefmt::skip]", f"pub(crate) static {name}: [{kind}; {count}] = [", *body, "];"]


def imports(module, names):
    lines, line = [], f"use {module}::{{"
    for name in sorted(names):
        if len(line) + len(name) + 2 > 100:
            lines.append(line.rstrip())
            line = "    "
        line += f"{name}, "
    return lines + [line.rstrip(", ") + "};"]


def ranges_file(symbols, module, whose):
    ranges = ranges_of(symbols)
    items = (f"(0x{first:X}, 0x{last:X}, {symbol})" for first, last, symbol in ranges)
    return [f"//! The code points of each symbol of {whose}.",
            "// Written by generate/generate.py from the rows of Unicode 18.0. Do not edit.", "",
            "#[rattlefmt::skip]", *imports(f"{module}::symbols", {r[2] for r in ranges}), "use seg_machine::provider::Symbol;", "",
            *array("The code points of each symbol; others have OTHER.", "RANGES", "(u32, u32, Symbol)", len(ranges), lines_of(items))]


def transitions_file(table, module, whose):
    """Of rows, each a symbol and where it leads from each state."""
    widths = [max(map(len, column)) for column in zip(*(row for _, row in table))]
    body = []
    for symbol, row in table:
        cells = [(name + ",").ljust(width + 1) for name, width in zip(row, widths)]
        body += [f"    // {symbol}", *("    " + " ".join(cells[k:k + PER_LINE]).rstrip() for k in range(0, len(cells), PER_LINE))]
    names = {name for _, row in table for name in row}
    return [f"//! The transitions of the machine of {whose}.",
            "// Written by generate/generate.py from the rules of UAX #29. Do not edit.", "",
            "#[rattlefmt::skip]", *imports(f"{module}::states", names), "use seg_machine::provider::State;", "",
            *array("A row for each symbol, in it where each state leads to, in the order of the states.", "TRANSITIONS", "State",
                   len(widths) * len(table), body)]
