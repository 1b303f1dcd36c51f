"""The symbols, the states and the rules of sentences."""
from rows import filled, rows_of

# The symbols, from 1 on, by their value of Sentence_Break.

SYMBOLS = {
    "Other": "OTHER", "Cr": "CR", "Lf": "LF", "Sep": "SEP", "Extend": "EXTEND", "Format": "FORMAT", "Sp": "SP", "Lower": "LOWER",
    "Upper": "UPPER", "OLetter": "O_LETTER", "Numeric": "NUMERIC", "ATerm": "A_TERM", "STerm": "S_TERM", "Close": "CLOSE",
    "SContinue": "S_CONTINUE",
}

# The states, by what they know: the group of the value that was read last, whether the last that SB5 doesn't skip is cased,
# whether it is ATerm after a cased one, whether it is ATerm; what term, or none, stands before Close*, and before Close* Sp*.

NOTHING = ("Other", False, False, False, None, None)
STATES = {
    NOTHING: "PLAIN", ("Cr", False, False, False, None, None): "CR", ("ParaSep", False, False, False, None, None): "PARA_SEP",
    ("Other", True, False, False, None, None): "CASED", ("Other", False, False, False, "STerm", "STerm"): "TERM",
    ("Other", False, False, False, None, "STerm"): "TERM_SPACE", ("Other", False, False, True, "ATerm", "ATerm"): "STOP",
    ("Other", False, True, True, "ATerm", "ATerm"): "CASED_STOP", ("Other", False, False, False, "ATerm", "ATerm"): "STOP_CLOSE",
    ("Other", False, False, False, None, "ATerm"): "STOP_SPACE",
}
GROUPS = {"Cr": "Cr", "Lf": "ParaSep", "Sep": "ParaSep"}
DECIDING = ("OLetter", "Upper", "Lower", "Sep", "Cr", "Lf", "STerm", "ATerm")


def symbols_of(folder):
    """The symbol of each code point."""
    return [SYMBOLS[value] for value in filled(rows_of(folder, "ucd_breaks/specs/SentenceBreakRows.antt"), "Other")]


# The rules.

def is_break(known, value, lower_ahead):
    """Whether there is a boundary before a value, where the text after it has what SB8 asks for, or not."""
    group, _, cased_stop, stop, before_close, before_spaces = known
    if group == "Cr" and value == "Lf":
        return False
    if group in ("Cr", "ParaSep"):
        return True
    if value in ("Extend", "Format") or before_spaces is None:
        return False
    joined = (value in ("SContinue", "STerm", "ATerm", "Sp", "Sep", "Cr", "Lf") or value == "Numeric" and stop
              or value == "Upper" and cased_stop or value == "Close" and before_close is not None)
    return not joined and not (before_spaces == "ATerm" and lower_ahead)


def knowledge_after(known, value):
    group = GROUPS.get(value, "Other")
    _, cased, _, _, before_close, before_spaces = known
    if value in ("Extend", "Format"):
        return (group, *known[1:])
    closed = before_close if value == "Close" else value if value in ("STerm", "ATerm") else None
    return (group, value in ("Upper", "Lower"), cased and value == "ATerm", value == "ATerm", closed,
            before_spaces if value == "Sp" else closed)


def next_state(known, value):
    verdicts = {is_break(known, value, lower) for lower in ([value == "Lower"] if value in DECIDING else [False, True])}
    return "WAIT" if len(verdicts) == 2 else "NONE" if True in verdicts else STATES[knowledge_after(known, value)]


def next_of_wait(value):
    return "CASED" if value == "Lower" else "NONE" if value in DECIDING else "WAIT"


def transitions():
    """A row for each symbol: where it leads from each state."""
    return [("the end of the text", ["NONE"] * (len(STATES) + 2)),
            *((SYMBOLS[value], [STATES[knowledge_after(NOTHING, value)], *(next_state(known, value) for known in STATES), next_of_wait(value)])
              for value in SYMBOLS)]


def state_names():
    return ["START", *STATES.values(), "WAIT"]


def accepting():
    """The states in which a sentence may end."""
    return list(STATES.values())
