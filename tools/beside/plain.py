#!/usr/bin/env python3
"""plain.py: writes Unicode's machines and pair tables, as this repository has them, for plain.c.

    tools/beside/plain.py FOLDER

FOLDER/plain_data.h has their arrays. The value of a code point (symbol, class or script) takes two: the block of its page of 128, and the values of blocks, of
which the first is ASCII's. Rows of the others are filled up to 128.
"""
import pathlib
import re
import sys

CRATES = pathlib.Path(__file__).resolve().parents[2] / "crates"
UAX29 = CRATES / "icu_segmenter_uax29/src"
# Of each machine the files in which its arrays and their words stand.
MACHINES = {
    "grapheme_neo": [UAX29 / f"{part}.rt" for part in ("symbols", "states", "ranges", "transitions")],
    "sentence_neo": [UAX29 / f"sentences/{part}.rt" for part in ("symbols", "states", "ranges", "transitions")],
    "word_neo": [UAX29 / "words/symbols.rt", UAX29 / "words/typed/data.rt"],
    "line_neo": [CRATES / f"icu_segmenter_uax14/src/{part}.rt" for part in ("data", "states")],
}
TABLES = {
    name: [CRATES / f"icu_segmenter_data/src/{folder}/data.rt"]
    for name, folder in {
        "grapheme_classic": "clusters",
        "sentence_classic": "sentences",
        "word_classic": "words",
        "line_classic": "lines",
        "line_17": "lines_17",
    }.items()
}
# What a state does to a scan: nothing, or it accepts, or it names the one lookahead too, or it is the condition on that.
STATES = {"CONTINUE": 0, "GOES_ON": 0, "ACCEPT_0": 1, "ACCEPT_1": 1, "ACCEPT_2": 1, "ENDS_HERE": 1, "ACCEPT_0_NAMED": 2, "CONDITION_0": 3}
# The byte of an entry that names no state. That of Index is the state, and that of Intermediate 128 more.
ENTRIES = {"BREAK": 253, "NO_MATCH": 254, "KEEP": 255}


def read(paths):
    """Returns what these files say, without comments."""
    return re.sub(r"//[^\n]*", "", "".join(path.read_text(encoding="utf-8") for path in paths))


def words(text, kind):
    """Returns the constants of a type."""
    return {name: int(value) for name, value in re.findall(rf"const (\w+): {kind} = (\d+);", text)}


def items(text, name):
    """Returns the items of an array, each as its words."""
    array = re.search(rf"(?:static|const) {name}: \[.*?; \d+\] = \[(.*?)\];", text, re.DOTALL)[1]
    return [re.findall(r"\w+", item) for item in re.findall(r"\([^()]*\)|\w+\(\d+\)|\w+", array)]


def number(word, constants):
    return int(word, 0) if word[0].isdigit() else constants[word]


def values(ranges, other, constants):
    """Returns the value of each code point."""
    found = bytearray([other]) * 0x110000
    for first, last, value in ranges:
        first, last = int(first, 0), int(last, 0) + 1
        found[first:last] = bytes([number(value, constants)]) * (last - first)
    return found


def rows(name, entries, width):
    """Returns rows of so many bytes as an array of C."""
    lines = (",".join(map(str, entries[i:i + width])) for i in range(0, len(entries), width))
    return f"static const uint8_t {name}[][128] = {{\n" + "".join(f"{{{line}}},\n" for line in lines) + "};\n"


def stages(name, found):
    """Returns the values of code points as arrays of C."""
    pages = [bytes(found[i:i + 128]) for i in range(0, len(found), 128)]
    blocks = {page: i for i, page in enumerate(dict.fromkeys(pages))}
    numbers = ",".join(str(blocks[page]) for page in pages)
    return rows(f"{name}_blocks", b"".join(blocks), 128) + f"static const uint16_t {name}_pages[] = {{{numbers}}};\n"


def machine(name, paths):
    text = read(paths)
    symbols, states = words(text, "Symbol"), {"NONE": 255, **words(text, "State")}
    found = values(items(text, "RANGES"), symbols["OTHER"], symbols)
    if "SHIFT" in symbols:
        # Values from there on are places in the map, whose scripts only dictionaries ask for.
        of_places = [int(symbol) for symbol, *_ in items(text, "MAP")]
        found = bytes(of_places[value - symbols["SHIFT"]] if value >= symbols["SHIFT"] else value for value in found)
    kinds = [STATES[state] for state, in items(text, "STATES")]
    steps = [number(step, states) for step, in items(text, "TRANSITIONS")]
    # A row for each state, where the source has one for each symbol.
    by_state = [step for state in range(len(kinds)) for step in steps[state::len(kinds)]]
    kinds_array = f"static const uint8_t {name}_states[] = {{{','.join(map(str, kinds))}}};\n"
    return stages(name, found) + kinds_array + rows(f"{name}_next", by_state, len(steps) // len(kinds))


def pair_table(name, paths):
    text = read(paths)
    numbers = {key: int(value) for key, value in re.findall(r"(\w+): (\d+),", text)}
    found = values(items(text, "CLASSES"), words(text, "u8")["OTHER_CLASS"], {})
    entries = [int(state[0]) + 128 * (word == "Intermediate") if state else ENTRIES[word] for word, *state in items(text, "ENTRIES")]
    defines = "".join(f"#define {name}_{key} {value}\n" for key, value in numbers.items())
    return stages(name, found) + defines + rows(f"{name}_entries", entries, numbers["count"])


def scripts():
    text = read([CRATES / "seg_clusters/src/script_iter/ranges.rt"])
    numbers = {name: i for i, name in enumerate(re.findall(r"const (\w+): u8", text), 1)}
    return stages("script", values(items(text, "RANGES"), 0, numbers))


def line_classes():
    text = read(CRATES / f"seg_pairs/src/provider/{name}.rt" for name in ("line_properties", "line_v3_properties"))
    return "".join(f"#define {name} {value}\n" for name, value in words(text, "u8").items())


def main(arguments):
    if len(arguments) != 1 or arguments[0].startswith("-"):
        sys.exit("usage: plain.py FOLDER")
    folder = pathlib.Path(arguments[0])
    folder.mkdir(parents=True, exist_ok=True)
    parts = [machine(*it) for it in MACHINES.items()] + [pair_table(*it) for it in TABLES.items()] + [scripts(), line_classes()]
    (folder / "plain_data.h").write_text("// Written by plain.py.\n#include <stdint.h>\n" + "".join(parts), encoding="utf-8")


if __name__ == "__main__":
    main(sys.argv[1:])
