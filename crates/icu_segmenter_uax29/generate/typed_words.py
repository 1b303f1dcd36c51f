"""Words with types and scripts: the machine of words, of which each state knows also what type of word was read."""
from clusters import pictographs_of
from rows import array, filled, lines_of, rows_of
from words import IGNORED, KEPT, SYMBOLS

NUMBERS = {properties: k for k, properties in enumerate(SYMBOLS, 1)}
# A letter that the rules know nothing of: else it is as symbol 1, OTHER.
UNRULED = len(NUMBERS) + 1
SHIFT = UNRULED + 1
NONE = 255
COMPLEX_SCRIPTS = ("Khmer", "Lao", "Myanmar", "Thai")


def values_of(folder):
    """The symbol and the script of each code point."""
    def values(file, default):
        return filled(rows_of(folder, file), default)

    breaks, lines = values("ucd_breaks/specs/WordBreakRows.antt", "Other"), values("ucd_breaks/specs/LineBreakRows.antt", "Unknown")
    scripts, pictographs = values("ucd_script/specs/ScriptRows.antt", "Unknown"), filled(pictographs_of(folder), False)
    return [value_of(*known) for known in zip(breaks, pictographs, lines, scripts)]


def value_of(word_break, is_pictograph, line_break, script):
    unruled = (word_break, is_pictograph) == ("Other", False) and (line_break == "ComplexContext" or script in ("Han", "Hiragana"))
    symbol = UNRULED if unruled else NUMBERS[word_break, is_pictograph]
    if line_break == "ComplexContext":
        return symbol, script if script in COMPLEX_SCRIPTS else "None"
    return symbol, "ChineseOrJapanese" if script in ("Han", "Hiragana") or word_break == "Katakana" else "None"


def type_after(kind, symbol):
    """The type of a word after one more symbol: 1 where that is a digit, 2 where it is a letter; marks and ExtendNumLet leave it."""
    value = next((properties[0] for properties, number in NUMBERS.items() if number == symbol), None)
    if value in (*IGNORED, "ExtendNumLet"):
        return kind
    return 1 if value == "Numeric" else 2 if symbol == UNRULED or value in KEPT else 0


class TypedMachine:
    """The states, each a state of the machine of words and the type of the word that was read; and where each leads."""

    def __init__(self, words):
        self.states, number, self.nexts = [(0, 0)], {(0, 0): 0}, []
        for plain, kind in self.states:
            row = []
            for symbol in range(UNRULED + 1):
                to = words.nexts[plain][1 if symbol == UNRULED else symbol]
                state = None if to is None else (to, type_after(kind, symbol))
                if state is not None and state not in number:
                    number[state] = len(number)
                    self.states.append(state)
                row.append(NONE if state is None else number[state])
            self.nexts.append(row)
        self.accepts = [None if words.accepts[plain] is None else kind for plain, kind in self.states]


def data(folder, machine):
    """The text of src/words/typed/data.rt."""
    values = values_of(folder)
    pairs = sorted({value for value in values if value[1] != "None"}, key=lambda value: (value[1], value[0]))
    places = {pair: SHIFT + k for k, pair in enumerate(pairs)}
    ranges = []
    for code_point, value in enumerate(values):
        number = places.get(value, value[0])
        if ranges and ranges[-1][2] == number:
            ranges[-1][1] = code_point
        else:
            ranges.append([code_point, code_point, number])
    ranges = [r for r in ranges if r[2] != 1]
    states = ["CONTINUE" if kind is None else f"ACCEPT_{kind}" for kind in machine.accepts]
    names = ["the end of the text", *SYMBOLS.values(), "a letter that the rules know nothing of"]
    transitions = []
    for symbol, name in enumerate(names):
        transitions += [f"    // {symbol} {name}", *lines_of(str(row[symbol]) for row in machine.nexts)]
    return "\n".join([
        "//! Words with types and scripts: the parts of the machine.",
        "// Written by generate/generate.py from the rows of Unicode 18.0 and the rules of UAX #29. Do not edit.", "",
        "use crate::states::Entry;",
        f"use crate::words::typed::{{{', '.join(sorted(set(states)))}}};",
        "use seg_data::provider::ComplexScript;", "use seg_machine::provider::{State, Symbol};", "",
        *array("The code points of each symbol and pseudo symbol; others have OTHER.", "RANGES", "(u32, u32, Symbol)", len(ranges),
               lines_of(f"(0x{first:X}, 0x{last:X}, {value})" for first, last, value in ranges)), "",
        *array("What each state accepts; the first is the one that a word begins in.", "STATES", "Entry", len(states), lines_of(states)), "",
        *array("A row for each symbol, in it what each state leads to; 255 is none.", "TRANSITIONS", "State", len(states) * len(names), transitions), "",
        "/// The first value of RANGES that is a pseudo symbol: less this, it is a place in the map.",
        f"pub(crate) const SHIFT: Symbol = {SHIFT};", "",
        *array("The symbol and the script of each pseudo symbol.", "MAP", "(Symbol, ComplexScript)", len(pairs),
               lines_of(f"({symbol}, ComplexScript::{script})" for symbol, script in pairs))]) + "\n"


def knowledge(machine):
    """The text of proofs/TypedStates.antt."""
    def numbers(name, documentation, kind, items):
        return ["", f"-- {documentation}", f"unfoldable pub {name} : List {kind}", f"{name} = {' ∷ '.join([*items, '[]'])}"]

    return "\n".join([
        "-- What each state of the machine of typed words knows: written by generate/generate.py. Do not edit.",
        "use Rattle.std.specs.Prelude.{ℕ, Bool, false, List, [], ◌∷◌}",
        *numbers("plain_states", "which state it is of the machine of words", "ℕ", (str(plain) for plain, _ in machine.states)),
        *numbers("types", "what type of word was read", "ℕ", (str(kind) for _, kind in machine.states)),
        *numbers("waits", "whether a scan comes there before anything was accepted", "Bool", ("false" for _ in machine.states))]) + "\n"
