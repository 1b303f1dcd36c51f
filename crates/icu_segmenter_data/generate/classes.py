"""The classes of pair tables: that of each code point, and which symbol of the rules each is read as."""
import os
import re
import sys

HERE = os.path.dirname(os.path.abspath(__file__))
sys.path += [os.path.join(HERE, "..", "..", crate, "generate") for crate in ("icu_segmenter_uax14", "icu_segmenter_uax29", "seg_rules")]
import clusters  # noqa: E402
import sentences  # noqa: E402
import typed_words  # noqa: E402
import words  # noqa: E402
from line_rows import line_rules, read  # noqa: E402
from rules import rules_of  # noqa: E402
from symbols import WIDE, symbol_properties  # noqa: E402


class Classes:
    """The classes of a kind, from 1 on: their `names`, the symbols that the rules read, the class `of` each code point, that of the most,
    and the `complex` one, of what dictionaries cut. The `plain` ones have the name of what the rules read."""

    def __init__(self, names, symbols, of, other, complex_class=0, plain=()):
        self.names, self.symbols, self.of, self.other, self.complex, self.plain = names, symbols, of, other, complex_class, plain

    def type_after(self, kind, c):
        """The type of what was read, after one class more: words alone have types."""
        return 0


class WordClasses(Classes):
    def type_after(self, kind, c):
        return typed_words.type_after(kind, min(c, typed_words.UNRULED))


def by_symbols(source, folder):
    """The symbols of a machine as classes."""
    names = dict(enumerate(source.SYMBOLS.values(), 1))
    numbers = {name: k for k, name in names.items()}
    return Classes(names, {k: k for k in names}, [numbers[name] for name in source.symbols_of(folder)], numbers["OTHER"])


def cluster_classes(folder):
    return by_symbols(clusters, folder), rules_of("cluster", list(clusters.SYMBOLS))


def sentence_classes(folder):
    return by_symbols(sentences, folder), rules_of("sentence", list(sentences.SYMBOLS))


def word_classes(folder):
    """The symbols of the machine of words with types, and one class for what dictionaries cut: but not Katakana, of which the rules say
    what holds together."""
    unruled, katakana = typed_words.UNRULED, typed_words.NUMBERS["Katakana", False]
    other, complex_class = typed_words.NUMBERS["Other", False], unruled + 1
    names = {**dict(enumerate(words.SYMBOLS.values(), 1)), unruled: "a letter that the rules know nothing of", complex_class: "what dictionaries cut"}
    of = [complex_class if script != "None" and symbol != katakana else symbol for symbol, script in typed_words.values_of(folder)]
    symbols = {k: k if k < unruled else other for k in names}
    return WordClasses(names, symbols, of, other, complex_class), rules_of("word", list(words.SYMBOLS))


# Lines: the engines name classes by numbers, of which 46 of the classic one is that of complex characters. What they have no name for
# follows: where East Asian width, or what is unassigned, tells characters apart that they don't.
CLASSIC = dict(enumerate((
    "AI AK AL AL_DOTTED_CIRCLE AP AS B2 BA BB BK CB CJ CL CM CP CR EB EM EX GL H2 H3 HL HY ID ID_CN IN IS JL JT JV LF NL NS NU OP_EA OP_OP30 PO "
    "PO_EAW PR PR_EAW QU QU_PF QU_PI RI SA SP SY VF VI WJ XX ZW ZWJ "
    "AL_EA BA_EA CL_EA EB_EA EX_NARROW GL_EA HH ID_NARROW IN_EA NS_NARROW PO_EA PR_EA XX_EXTPICT").split(), 1))
SEVENTEEN = dict(enumerate((
    "AI AI_EASTASIAN AK AL AL_DOTTED_CIRCLE AL_EASTASIAN AP AS B2 BA BA_EASTASIAN BB BK CB CJ CL CL_EASTASIAN CM CM_EASTASIAN CP CR EB "
    "EB_EASTASIAN EM EX EX_EASTASIAN GL GL_EASTASIAN H2 H3 HH HL HY ID ID_CN ID_EASTASIAN IN IN_EASTASIAN IS JL JT JV LF NL NS NS_EASTASIAN NU "
    "OP OP_EASTASIAN PO PO_EASTASIAN PR PR_EASTASIAN QU QU_PF QU_PI RI SA SA_MC_MN SP SY VF VI WJ XX XX_EXTPICT ZW ZWJ").split(), 1))
# Marks are glued before a table is asked, so one that isn't is a letter, as LB10 says; and so is what is complex (LB1).
LETTERS = ("CM", "CM_EASTASIAN", "ZWJ", "SA", "SA_MC_MN")
TRAITS = {
    ("AL", "Dotted"): "AL_DOTTED_CIRCLE", ("ID", "Unassigned"): "ID_CN", ("QU", "Closing"): "QU_PF", ("QU", "Opening"): "QU_PI",
    ("XX", "Unassigned"): "XX_EXTPICT",
}
# The wide and the narrow part of a class, where the classic engine's name for the class is that of the other part.
CLASSIC_WIDE = {"AI": "AL_EA", **{name: name + "_EA" for name in "AL BA CL EB GL IN OP PO PR".split()}}
CLASSIC_NARROW = {"EX": "EX_NARROW", "ID": "ID_NARROW", "NS": "NS_NARROW", "OP": "OP_OP30"}


def short_names():
    """The names of UAX #14 for the values of Line_Break."""
    names = {value: name for name, value in re.findall(r"^(\w+) = class (\w+)$", read("LineClasses.antt"), re.M)}
    return {**names, "Ambiguous": "AI", "ComplexContext": "SA", "ConditionalJapaneseStarter": "CJ", "H2": "H2", "H3": "H3", "Surrogate": "XX", "Unknown": "XX"}


def classic_name(name, characters, c):
    value, wide, trait = characters.properties(c)
    if name in LETTERS:
        return name
    if (name, trait) in TRAITS:
        return TRAITS[name, trait]
    if name in ("PO", "PR") and characters.width[c] == "Ambiguous":
        return name + "_EAW"
    return (CLASSIC_WIDE if wide else CLASSIC_NARROW).get(name, name)


def name_17(name, characters, c):
    value, _, trait = characters.properties(c)
    if name == "SA" and value == "CombiningMark":
        return "SA_MC_MN"
    if (name, trait) in TRAITS:
        return TRAITS[name, trait]
    wide = name + "_EASTASIAN"
    return wide if wide in SEVENTEEN.values() and characters.width[c] in WIDE else name


def line_classes(characters, names, name_of):
    """The classes of an engine of lines, by their names, with what name a code point has."""
    numbers, short, properties = {name: k for k, name in names.items()}, short_names(), symbol_properties()
    rules = line_rules()
    of, symbols, known = [], {}, {}
    for c in range(0x110000):
        alike = characters.alike(c)
        if alike not in known:
            name = name_of(short[characters.line_break[c]], characters, c)
            known[alike] = numbers[name]
            symbol = rules.alone if name in LETTERS else properties.index(characters.properties(c))
            assert symbols.setdefault(numbers[name], symbol) == symbol, name
        of.append(known[alike])
    plain = [k for k, name in names.items() if name in short.values()]
    return Classes(names, dict(sorted(symbols.items())), of, numbers["XX"], numbers["SA"], plain), rules
