"""The symbols, the states and the rules of words."""
from clusters import pictographs_of
from rows import filled, rows_of

# The symbols, from 1 on, by their value of Word_Break and whether they are Extended_Pictographic.

SYMBOLS = {
    ("Other", False): "OTHER", ("Cr", False): "CR", ("Lf", False): "LF", ("Newline", False): "NEWLINE", ("Extend", False): "EXTEND",
    ("Zwj", False): "ZWJ", ("Format", False): "FORMAT", ("RegionalIndicator", False): "REGIONAL_INDICATOR",
    ("Katakana", False): "KATAKANA", ("HebrewLetter", False): "HEBREW_LETTER", ("ALetter", False): "A_LETTER",
    ("SingleQuote", False): "SINGLE_QUOTE", ("DoubleQuote", False): "DOUBLE_QUOTE", ("MidNumLet", False): "MID_NUM_LET",
    ("MidLetter", False): "MID_LETTER", ("MidNum", False): "MID_NUM", ("Numeric", False): "NUMERIC",
    ("ExtendNumLet", False): "EXTEND_NUM_LET", ("WSegSpace", False): "W_SEG_SPACE", ("Other", True): "PICTOGRAPH",
    ("ALetter", True): "LETTER_PICTOGRAPH",
}

# The states, by what they know: the group of the value that was read last, the last that WB4 doesn't skip, whether it is
# Single_Quote after Hebrew_Letter, and whether an odd number of regional indicators was read.

KEPT = {"ALetter": "LETTER", "HebrewLetter": "HEBREW", "Numeric": "NUMBER", "Katakana": "KATAKANA", "ExtendNumLet": "EXTEND_NUM_LET"}
NOTHING = ("Other", "Other", False, False)
STATES = {
    NOTHING: "PLAIN", ("Cr", "Other", False, False): "CR", ("Newline", "Other", False, False): "NEWLINE",
    ("WSegSpace", "Other", False, False): "SPACE", ("Zwj", "Other", False, False): "ZWJ",
    **{(last, value, False, False): name + end for value, name in KEPT.items() for last, end in (("Other", ""), ("Zwj", "_ZWJ"))},
    ("Other", "Other", True, False): "HEBREW_QUOTE", ("Zwj", "Other", True, False): "HEBREW_QUOTE_ZWJ",
    ("Other", "Other", False, True): "HALF_FLAG", ("Zwj", "Other", False, True): "HALF_FLAG_ZWJ",
}
GROUPS = {"Cr": "Cr", "Lf": "Newline", "Newline": "Newline", "Zwj": "Zwj", "WSegSpace": "WSegSpace"}
IGNORED = ("Extend", "Format", "Zwj")
LETTERS = ("ALetter", "HebrewLetter")
# What each wait is for.
WAITS = {"WAIT_LETTER": LETTERS, "WAIT_HEBREW": ("HebrewLetter",), "WAIT_NUMBER": ("Numeric",)}


def symbols_of(folder):
    """The symbol of each code point."""
    values = filled(rows_of(folder, "ucd_breaks/specs/WordBreakRows.antt"), "Other")
    return [SYMBOLS[properties] for properties in zip(values, filled(pictographs_of(folder), False))]


# The rules.

def verdict_of_pair(last, following, is_pictograph):
    """What WB3 to WB4 say between a group and a value: whether there is a boundary, or None where they say nothing."""
    if (last, following) == ("Cr", "Lf"):
        return False
    if last in ("Cr", "Newline") or following in ("Cr", "Lf", "Newline"):
        return True
    if last == "Zwj" and is_pictograph or last == following == "WSegSpace" or following in IGNORED:
        return False
    return None


def joins(left, right):
    """WB5, WB7a, WB8 to WB10, WB13 to WB13b."""
    if right in LETTERS or right == "Numeric":
        return left in LETTERS or left in ("Numeric", "ExtendNumLet")
    return (right == "SingleQuote" and left == "HebrewLetter" or right == "Katakana" and left in ("Katakana", "ExtendNumLet")
            or right == "ExtendNumLet" and left in KEPT)


def wait_of(left, right):
    """What WB6, WB7b and WB12 wait for between two values, or None where they say nothing."""
    if left in LETTERS and right in ("MidLetter", "MidNumLet", "SingleQuote"):
        return "WAIT_LETTER"
    if left == "HebrewLetter" and right == "DoubleQuote":
        return "WAIT_HEBREW"
    return "WAIT_NUMBER" if left == "Numeric" and right in ("MidNum", "MidNumLet", "SingleQuote") else None


def knowledge_after(known, value):
    _, left, hebrew_quote, half = known
    group = GROUPS.get(value, "Other")
    if value in IGNORED:
        return (group, left, hebrew_quote, half)
    return (group, value if value in KEPT else "Other", left == "HebrewLetter" and value == "SingleQuote",
            value == "RegionalIndicator" and not half)


def next_state(known, properties):
    group, left, hebrew_quote, half = known
    value, is_pictograph = properties
    verdict = verdict_of_pair(group, value, is_pictograph)
    if verdict is None:
        verdict = not (joins(left, value) or hebrew_quote and value in LETTERS or half and value == "RegionalIndicator")
        if verdict and wait_of(left, value):
            return wait_of(left, value)
    return "NONE" if verdict else STATES[knowledge_after(known, value)]


def next_of_wait(wait, properties):
    value, _ = properties
    return wait if value in IGNORED else STATES[knowledge_after(NOTHING, value)] if value in WAITS[wait] else "NONE"


def transitions():
    """A row for each symbol: where it leads from each state."""
    return [("the end of the text", ["NONE"] * (1 + len(STATES) + len(WAITS))),
            *((SYMBOLS[p], [STATES[knowledge_after(NOTHING, p[0])], *(next_state(known, p) for known in STATES),
                            *(next_of_wait(wait, p) for wait in WAITS)]) for p in SYMBOLS)]


def state_names():
    return ["START", *STATES.values(), *WAITS]


def accepting():
    """The states in which a word may end."""
    return list(STATES.values())
