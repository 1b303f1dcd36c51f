"""The properties of code points that the rules of lines ask, what CSS tailors, and the values of the machine's table of symbols."""
import os
import re
import sys
from collections import Counter

HERE = os.path.dirname(os.path.abspath(__file__))
sys.path += [os.path.join(HERE, "..", "..", crate, "generate") for crate in ("icu_segmenter_uax29", "seg_rules")]
from rows import filled, rows_of  # noqa: E402

SPECS = os.path.join(HERE, "..", "specs")
COMPLEX_SCRIPTS = ("Thai", "Lao", "Khmer", "Myanmar")
WIDE = ("Fullwidth", "Wide", "Halfwidth")
AKSARAS = ("Aksara", "AksaraPrebase", "AksaraStart")
LETTERS = ("Alphabetic", "HebrewLetter", "Numeric") + AKSARAS
IDEOGRAPHS = ("Ideographic", "H2", "H3", "Jl", "Jv", "Jt")
VIRAMAS = ("Virama", "ViramaFinal")
SMALL_KANA = "ConditionalJapaneseStarter"


def code_points(text):
    return set(map(ord, text))


# What CSS Text 3 section 5.2 names by code points.
ITERATION_MARKS = code_points("々〻ゝゞヽヾ")
WAVE_DASHES = code_points("〜゠")
CENTRED = code_points("・：；･‼⁇⁈⁉！？")
HYPHENS = code_points("‐–")
NAMED = ITERATION_MARKS | WAVE_DASHES | CENTRED | HYPHENS | {0x25CC}

# What each option has as ideographs, beside small kana, and whether it breaks loosely.
LINE_BREAKS = {
    "ja_loose": (ITERATION_MARKS | WAVE_DASHES | CENTRED, True, True),
    "loose": (ITERATION_MARKS, True, False),
    "ja_normal": (WAVE_DASHES, False, False),
    "normal": (set(), False, False),
}
TAILORINGS = ["break_all", "keep_all", "ja_loose", "loose", "ja_normal", "normal", "ja"]


class Characters:
    """The kit's rows of Unicode, from the folder of its crates."""

    def __init__(self, folder):
        def values(file, default):
            return filled(rows_of(folder, file), default)

        self.line_break = values("ucd_breaks/specs/LineBreakRows.antt", "Unknown")
        self.category = values("ucd_category/specs/GeneralCategoryRows.antt", "Unassigned")
        self.width = values("ucd_east_asian/specs/EastAsianWidthRows.antt", "Neutral")
        self.script = values("ucd_script/specs/ScriptRows.antt", "Unknown")
        with open(os.path.join(folder, "ucd_emoji/specs/Ranges.antt"), encoding="utf-8") as text:
            part = text.read().split("extended_pictographic_ranges =")[1].split("unfoldable")[0]
        self.pictographs = set()
        for first, last in re.findall(r"\(0x([0-9A-F]+), 0x([0-9A-F]+)\)", part):
            self.pictographs.update(range(int(first, 16), int(last, 16) + 1))

    def alike(self, c):
        """All that is asked of a code point."""
        return (self.line_break[c], self.category[c], self.width[c], self.script_of(c), c in self.pictographs, c if c in NAMED else None)

    def line_class(self, c):
        """The class by LB1."""
        value = self.line_break[c]
        if value == "ComplexContext":
            return "CombiningMark" if self.category[c] in ("NonspacingMark", "SpacingMark") else "Alphabetic"
        return {"Ambiguous": "Alphabetic", "Surrogate": "Alphabetic", "Unknown": "Alphabetic", SMALL_KANA: "Nonstarter"}.get(value, value)

    def properties(self, c):
        """(class, East Asian, what else the rules ask)."""
        value, trait = self.line_class(c), "Usual"
        if value == "Quotation":
            trait = {"InitialPunctuation": "Opening", "FinalPunctuation": "Closing"}.get(self.category[c], trait)
        elif self.category[c] == "Unassigned" and c in self.pictographs:
            trait = "Unassigned"
        elif c == 0x25CC:
            trait = "Dotted"
        # By LB10 a mark that is read alone is a narrow letter.
        return value, self.width[c] in WIDE and value != "CombiningMark", trait

    def script_of(self, c):
        """The script by which a dictionary may cut."""
        return self.script[c] if self.line_break[c] == "ComplexContext" and self.script[c] in COMPLEX_SCRIPTS else "None"

    def tailored(self, option, c):
        """The properties and the script by an option."""
        value, wide, trait = properties = self.properties(c)
        script = self.script_of(c)
        unassigned = trait if trait == "Unassigned" else "Usual"
        if option == "break_all":
            if value in LETTERS or self.line_break[c] == SMALL_KANA:
                return ("Ideographic", wide, unassigned), "None"
            return (("CombiningMark", False, "Usual") if value in VIRAMAS else properties), "None"
        if option == "keep_all":
            if self.line_break[c] == SMALL_KANA:
                return ("Nonstarter", wide, "Kept"), script
            if value in IDEOGRAPHS and trait == "Usual":
                return ("Ideographic", wide, "Kept"), script
            if value in AKSARAS:
                return ("Alphabetic", wide, "Usual"), script
            return (("CombiningMark", False, "Usual") if value in VIRAMAS else properties), script
        if option in LINE_BREAKS:
            ideographs, loose, chinese_or_japanese = LINE_BREAKS[option]
            if self.line_break[c] == SMALL_KANA or c in ideographs:
                return ("Ideographic", wide, "Usual"), script
            if loose and (c in HYPHENS or value == "Inseparable"):
                return (value, wide, "Loose"), script
            if chinese_or_japanese and value in ("PostfixNumeric", "PrefixNumeric") and self.width[c] in ("Fullwidth", "Wide", "Ambiguous"):
                return (value, wide, "Loose"), script
        return properties, script


def symbol_properties():
    """The properties of each symbol, as specs/LineValues.antt has them; symbol 0 is the edge of a text."""
    with open(os.path.join(SPECS, "LineValues.antt"), encoding="utf-8") as text:
        part = text.read().split("symbol_properties =")[1].split("[]")[0]
    found = [(a, b == "true", c) for a, b, c in re.findall(r"\((\w+), (true|false), (\w+)\)", part)]
    assert found[0][2] == "Edge" and len(set(found)) == len(found)
    return found


class Values:
    """The values of the table of symbols: a symbol that means itself, or, from `shift` on, a place in the maps."""

    def __init__(self, characters):
        numbers = {p: k for k, p in enumerate(symbol_properties())}
        kinds, kind_of, known = Counter(), [], {}
        for c in range(0x110000):
            alike = characters.alike(c)
            if alike not in known:
                here = characters.properties(c), characters.script_of(c)
                found = [(numbers[p], script) for p, script in [here] + [characters.tailored(option, c) for option in TAILORINGS]]
                known[alike] = found[0], tuple(found[1:])
            kinds[known[alike]] += 1
            kind_of.append(known[alike])
        # Of each symbol the commonest kind that has no script, and that no option of line-break changes, is the symbol itself.
        plain = {}
        for kind, _ in kinds.most_common():
            here, changed = kind
            if here[1] == "None" and all(to == here for to in changed[2:]):
                plain.setdefault(here[0], kind)
        self.count = len(numbers)
        self.shift = self.count
        others = [kind for kind in kinds if plain.get(kind[0][0]) != kind]
        value = {kind: self.shift + k for k, kind in enumerate(others)}
        value.update((kind, symbol) for symbol, kind in plain.items())
        self.map = [here for here, _ in others]
        self.maps = {option: [changed[k] for _, changed in others] for k, option in enumerate(TAILORINGS)}
        self.replaced = {option: sorted((symbol, *changed[k]) for symbol, (here, changed) in plain.items() if changed[k] != here)
                         for k, option in enumerate(TAILORINGS)}
        self.of = [value[kind] for kind in kind_of]

    def ranges(self, other):
        """Rising (first, last, value), without those of the value `other`."""
        found = []
        for c, value in enumerate(self.of):
            if found and found[-1][2] == value:
                found[-1][1] = c
            else:
                found.append([c, c, value])
        return [tuple(r) for r in found if r[2] != other]
