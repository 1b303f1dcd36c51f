"""The symbols, the states and the rules of extended grapheme clusters."""
import os
import re

from rows import filled, rows_of

# The symbols, from 1 on, by their three properties, and the states, by what they know: the group of the value that was read
# last, whether Linker Extend* was, Extended_Pictographic Extend*, the same with ZWJ, and an odd number of regional indicators.

SYMBOLS = {
    ("Other", "None", False): "OTHER", ("Cr", "None", False): "CR", ("Lf", "None", False): "LF",
    ("Control", "None", False): "CONTROL", ("Extend", "Extend", False): "EXTEND", ("Extend", "Linker", False): "LINKER",
    ("Extend", "None", False): "EXTEND_ALONE", ("Zwj", "Extend", False): "ZWJ",
    ("RegionalIndicator", "None", False): "REGIONAL_INDICATOR", ("Prepend", "None", False): "PREPEND",
    ("SpacingMark", "None", False): "SPACING_MARK", ("L", "None", False): "L", ("V", "None", False): "V",
    ("T", "None", False): "T", ("Lv", "None", False): "LV", ("Lvt", "None", False): "LVT",
    ("Other", "Consonant", False): "CONSONANT", ("Other", "Linker", False): "BARE_LINKER", ("Other", "None", True): "PICTOGRAPH",
}
GROUPS = {"Cr": "Cr", "Control": "Control", "Lf": "Control", "L": "L", "Lv": "V", "V": "V", "Lvt": "T", "T": "T", "Prepend": "Prepend"}
STATES = {
    None: "START", ("Other", False, False, False, False): "PLAIN", ("Cr", False, False, False, False): "CR",
    ("Control", False, False, False, False): "CONTROL", ("Other", True, False, False, False): "LINKER",
    ("Other", False, False, False, True): "HALF_FLAG", ("Prepend", False, False, False, False): "PREPEND",
    ("L", False, False, False, False): "LEADING", ("V", False, False, False, False): "VOWEL",
    ("T", False, False, False, False): "TRAILING", ("Other", False, True, False, False): "EMOJI",
    ("Other", True, True, False, False): "EMOJI_LINKER", ("Other", False, False, True, False): "JOINER",
    ("Other", True, False, True, False): "JOINER_LINKER",
}


# The properties.

def pictographs_of(folder):
    with open(os.path.join(folder, "ucd_emoji/specs/Ranges.antt"), encoding="utf-8") as text:
        part = text.read().split("extended_pictographic_ranges =")[1].split("unfoldable")[0]
    return [(int(first, 16), int(last, 16), True) for first, last in re.findall(r"\(0x([0-9A-F]+), 0x([0-9A-F]+)\)", part)]


def symbols_of(folder):
    """The symbol of each code point."""
    breaks = filled(rows_of(folder, "ucd_breaks/specs/GraphemeClusterBreakRows.antt"), "Other")
    conjuncts = filled(rows_of(folder, "ucd_derived/specs/IndicConjunctBreakRows.antt"), "None")
    pictographs = filled(pictographs_of(folder), False)
    return [SYMBOLS[properties] for properties in zip(breaks, conjuncts, pictographs)]


# The rules.

def verdict_of_pair(last, following):
    """What GB3 to GB9b say between a group and a value: whether there is a boundary, or None where they say nothing."""
    if (last, following) == ("Cr", "Lf"):
        return False
    if last in ("Control", "Cr") or following in ("Control", "Cr", "Lf"):
        return True
    joined = {"L": ("L", "V", "Lv", "Lvt"), "V": ("V", "T"), "T": ("T",)}.get(last, ())
    if following in joined or following in ("Extend", "Zwj", "SpacingMark") or last == "Prepend":
        return False
    return None


def is_break(known, properties):
    group, linker, _, joiner, half = known
    value, conjunct, pictograph = properties
    verdict = verdict_of_pair(group, value)
    if verdict is not None:
        return verdict
    return not (linker and conjunct == "Consonant" or joiner and pictograph or half and value == "RegionalIndicator")


def next_state(known, properties):
    if known is not None and is_break(known, properties):
        return "NONE"
    _, linker, emoji, _, half = known or ("Other", False, False, False, False)
    value, conjunct, pictograph = properties
    return STATES[(GROUPS.get(value, "Other"), conjunct == "Linker" or conjunct == "Extend" and linker,
                   pictograph or value == "Extend" and emoji, value == "Zwj" and emoji, value == "RegionalIndicator" and not half)]


def transitions():
    """A row for each symbol: where it leads from each state."""
    return [("the end of the text", ["NONE"] * len(STATES)),
            *((SYMBOLS[p], [next_state(known, p) for known in STATES]) for p in SYMBOLS)]


def state_names():
    return list(STATES.values())


def accepting():
    """The states in which a cluster may end."""
    return [name for known, name in STATES.items() if known]
