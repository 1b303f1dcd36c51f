"""Tests of yengatomu.textwrap: the standard library's own tests of its textwrap, and what differs from that."""

import doctest
import importlib.util
import inspect
import itertools
import pickle
import random
import sys
import textwrap as standard
import time
import unittest
from unittest import mock

from yengatomu import Kind, Script, Segmenter, Strictness, _library, textwrap
from yengatomu.textwrap import TextWrapper, fill, shorten, wrap

# The tests of the standard library that fail here, and why: UAX #14 lets lines end elsewhere.
DIFFERENT = {
    "WrapTestCase.test_hyphenated": "a line may end behind the hyphens of e-mail and Jelly-O, though a letter stands alone there",
    "WrapTestCase.test_em_dash": "a line may end behind the hyphens of do--this, and not before them",
    "WrapTestCase.test_unix_options": "a line may end behind the first two hyphens of --dry-run",
    "WrapTestCase.test_funky_hyphens": "a line may end behind the hyphens of the--hey and not before them, and behind the first two of --option",
    "WrapTestCase.test_punct_hyphens": "a line may end behind the first hyphen of what-d'you-call-it, though an apostrophe follows soon",
    "WrapTestCase.test_funky_parens": "a line may end behind the hyphens of (--option)",
    "LongWordWithHyphensTestCase.test_break_long_words_on_hyphen": "no line may end between a hyphen and a digit, so succinyl-6- is too wide for a line",
    "LongWordWithHyphensTestCase.test_break_on_hyphen_but_not_long_words": "a line may end behind the hyphen of 4-cyclohexadiene, though a digit stands before it",
}
FAMILY = "👩\u200d👩\u200d👧"
WORDS = ["a", "bc", "def", "ghijk", "lmnopqrs", "tuvwxyzabcdefghi", "j.", "kl?", "mno!", "p,", 'qr."']
PIECES = ["a", "bc", "def ", " ", "  ", "\n", "\t", ". ", "!", " !", "(", ")", "-", "--", "3.1", "é", "e\u0301", "\u0301", "東", "京。", "、", "ไทย", "한국", "👩", FAMILY]
PIECES += ["🇻🇳", "\u00a0", "\u200b", "\u2060", "\u3000", "\u2028", "\u2010", "\u00ad", "\ud83d", "x" * 9]
WHITE = "\t\n\v\f\r "
LINES, CLUSTERS = Segmenter(Kind.LINES), Segmenter(Kind.CLUSTERS)


def standard_tests():
    """Returns the standard library's module of tests, which tests this module here. None where it isn't installed."""
    try:
        found = importlib.util.find_spec("test.test_textwrap")
    except ModuleNotFoundError:
        found = None
    if found is None:
        return None
    module = importlib.util.module_from_spec(found)
    with mock.patch.dict(sys.modules, {"textwrap": textwrap}):
        found.loader.exec_module(module)
    return module


def name_of(test):
    return test.id().split(".", 2)[2]


def columns_of(text):
    """Returns how many columns a text takes."""
    return sum(columns for _, columns in LINES.wrapped(f"{text}|", sys.maxsize)) - 1


class Standard(unittest.TestCase):
    def test_its_tests(self):
        module = standard_tests()
        if module is None:
            self.skipTest("the standard library's test_textwrap isn't installed: Debian has it in libpython3-testsuite")
        result, suite = unittest.TestResult(), unittest.defaultTestLoader.loadTestsFromModule(module)
        names = {name_of(test) for case in suite for test in case}
        self.assertIs(module.wrap, wrap)
        suite.run(result)
        self.assertGreater(len(names), 50)
        said = {name_of(test): text for test, text in result.failures + result.errors}
        for name in sorted(names):
            with self.subTest(name):
                self.assertEqual(name in said, name in DIFFERENT, said.get(name, f"it passes, and shouldn't, since {DIFFERENT.get(name)}"))

    def test_parameters(self):
        self.assertEqual(sorted(textwrap.__all__), sorted(standard.__all__))
        ours, theirs = (inspect.signature(it).parameters for it in (TextWrapper, standard.TextWrapper))
        self.assertEqual([*ours][-1], "segmenter")
        self.assertEqual([(it.name, it.kind, it.default) for it in ours.values()][:-1], [(it.name, it.kind, it.default) for it in theirs.values()])
        for name in ("wrap", "fill", "shorten"):
            ours, theirs = (inspect.signature(getattr(it, name)).parameters.values() for it in (textwrap, standard))
            self.assertEqual([(it.kind, it.default) for it in ours], [(it.kind, it.default) for it in theirs])
        self.assertIs(textwrap.dedent, standard.dedent)
        self.assertIs(textwrap.indent, standard.indent)

    def test_words(self):
        """Words of letters are wrapped as the standard library wraps them, by all options."""
        it = random.Random(7)
        choices = {
            "initial_indent": ["* ", "    "],
            "subsequent_indent": ["  ", "\t"],
            "expand_tabs": [False],
            "replace_whitespace": [False],
            "fix_sentence_endings": [True],
            "break_long_words": [False],
            "drop_whitespace": [False],
            "break_on_hyphens": [False],
            "tabsize": [1, 4],
            "max_lines": [0, 1, 2, 4],
            "placeholder": ["", "...", " .. ", "  "],
        }
        for _ in range(3000):
            text = "".join(it.choice(["", "", " ", "\n", *WORDS]) + it.choice([" ", " ", "  ", "\n", "\t"]) for _ in range(it.randrange(12)))
            options = {name: it.choice(values) for name, values in choices.items() if it.random() < 0.3}
            width = it.choice([5, 6, 8, 12, 20, 30])
            self.assertEqual(self.told(textwrap, text, width, options), self.told(standard, text, width, options), (text, width, options))

    @staticmethod
    def told(module, text, width, options):
        try:
            return module.wrap(text, width, **options)
        except ValueError as error:
            return str(error)


class Columns(unittest.TestCase):
    def test_examples(self):
        self.assertEqual(doctest.testmod(textwrap), (0, 3))

    def test_wide(self):
        self.assertEqual(wrap("東京に行きます。ありがとう。", 10), ["東京に行き", "ます。あり", "がとう。"])
        self.assertEqual(wrap("東京に行きます。ありがとう。", 11), ["東京に行き", "ます。あり", "がとう。"])
        self.assertEqual(wrap("Tokyo 東京 is 大きい", 8), ["Tokyo 東", "京 is 大", "きい"])
        self.assertEqual(wrap("한국어 문장", 6, break_long_words=False), ["한국어", "문장"])
        self.assertEqual(fill("東京に", 4), "東京\nに")

    def test_marks(self):
        self.assertEqual(wrap("e\u0301e\u0301e\u0301 e\u0301e\u0301 ab", 6), ["e\u0301e\u0301e\u0301 e\u0301e\u0301", "ab"])
        self.assertEqual(wrap("a\u0301\u0302\u0303\u0304bcd", 2), ["a\u0301\u0302\u0303\u0304b", "cd"])

    def test_emoji(self):
        self.assertEqual(wrap(f"{FAMILY} 🇻🇳 ab", 6), [FAMILY, "🇻🇳 ab"])
        by_cluster = Segmenter(Kind.LINES, by_cluster=True)
        self.assertEqual(wrap(f"{FAMILY} 🇻🇳 ab", 6, segmenter=by_cluster), [f"{FAMILY} 🇻🇳", "ab"])
        # None is broken within.
        for segmenter in (None, by_cluster):
            self.assertEqual(wrap(FAMILY * 2, 3, segmenter=segmenter), [FAMILY, FAMILY])

    def test_thai(self):
        self.assertEqual(wrap("ภาษาไทย กิน", 5), ["ภาษาไ", "ทย กิน"])
        self.assertEqual(wrap("กินกินกิน", 3), ["กินกิ", "นกิน"])
        self.assertEqual(wrap("ภาษาไทย กิน", 5, break_long_words=False), ["ภาษาไทย", "กิน"])
        thai = Segmenter(Kind.LINES)
        thai.load_dictionary(["ภาษา", "ไทย", "กิน"], Script.THAI)
        self.assertEqual(wrap("ภาษาไทย กิน", 5, segmenter=thai), ["ภาษา", "ไทย", "กิน"])

    def test_indents(self):
        self.assertEqual(wrap("東京に行く", 8, initial_indent="・", subsequent_indent="\u3000\u3000"), ["・東京に", "\u3000\u3000行く"])
        self.assertEqual(wrap("ab cd ef", 6, initial_indent="e\u0301e\u0301", subsequent_indent="東"), ["e\u0301e\u0301ab", "東cd", "東ef"])
        # Wider than the lines: a cluster each.
        self.assertEqual(wrap("東京e\u0301", 4, initial_indent="東東東", subsequent_indent="東東"), ["東東東東", "東東京", "東東e\u0301"])

    def test_placeholder(self):
        self.assertEqual(wrap("one two three", 8, max_lines=1, placeholder="東"), ["one東"])
        self.assertEqual(wrap("one two three", 9, max_lines=1, placeholder="東"), ["one two東"])
        self.assertEqual(wrap("東京に行く", 8, max_lines=1), ["東 [...]"])
        self.assertEqual(wrap("東京に行く", 6, max_lines=2, placeholder=""), ["東京に", "行く"])
        self.assertEqual(wrap("東 京に行く", 4, max_lines=2, placeholder="東東"), ["東", "東東"])
        self.assertEqual(shorten("東京 \u3000に\n行き ます", 12), "東京 [...]")
        for width in (3, 4):
            self.assertEqual(Standard.told(textwrap, "ab cd", width, {"max_lines": 1, "placeholder": "東東"}), "placeholder too large for max width" if width < 4 else ["東東"])

    def test_tabs(self):
        self.assertEqual(wrap("東\tb e\u0301\tc", 40), ["東      b e\u0301     c"])
        self.assertEqual(wrap("東\tb", 40, tabsize=3), ["東 b"])
        self.assertEqual(wrap("東\tb", 40, tabsize=0), ["東b"])
        self.assertEqual(wrap("東\tb", 3, expand_tabs=False), ["東", "b"])
        self.assertEqual(wrap("東\tb", 4, expand_tabs=False, replace_whitespace=False), ["東\tb"])


class Breaks(unittest.TestCase):
    def test_marks_behind_spaces(self):
        self.assertEqual(wrap("Bonjour ! Oui", 9), ["Bonjour !", "Oui"])
        self.assertEqual(wrap("ah, Bonjour ! Oui", 12), ["ah,", "Bonjour !", "Oui"])
        # Where that is wider than a line, it is broken at the space first.
        self.assertEqual(wrap("Bonjour ! Oui", 7), ["Bonjour", "! Oui"])
        self.assertEqual(wrap("Bonjour ! Oui", 5), ["Bonjo", "ur !", "Oui"])
        self.assertEqual(wrap("Bonjour ! Oui", 7, break_long_words=False), ["Bonjour !", "Oui"])

    def test_hyphens(self):
        for text in ("well-known", "e-mailed", "well\u2010known", "2-sided", "foo--bar"):
            first = text[: max(text.rfind("-"), text.rfind("\u2010")) + 1]
            self.assertEqual(wrap(f"a {text}", 8), [f"a {first}", text[len(first) :]])
            self.assertEqual(wrap(f"a {text}", 10, break_on_hyphens=False), ["a", text] if len(text) > 8 else [f"a {text}"])
        self.assertEqual(wrap("a- -b", 2, break_on_hyphens=False), ["a-", "-b"])
        self.assertEqual(wrap("a-東京 a—b", 4, break_on_hyphens=False), ["a-東", "京 a", "—b"])
        self.assertEqual(wrap("-", 4, break_on_hyphens=False), ["-"])
        # A word that must be broken is broken behind its last hyphen, if that is let.
        self.assertEqual(wrap("1-2-3-4", 3), ["1-", "2-", "3-4"])
        self.assertEqual(wrap("1-2-3-4", 3, break_on_hyphens=False), ["1-2", "-3-", "4"])

    def test_line_ends(self):
        """Those that stay are white space like any other, as in the standard library; U+2028 lets a line end."""
        self.assertEqual(wrap("a\nb", 3, replace_whitespace=False), ["a\nb"])
        self.assertEqual(wrap("aa\u2028bb", 3), ["aa\u2028", "bb"])
        self.assertEqual(wrap("a\u200bb", 1), ["a\u200b", "b"])

    def test_options(self):
        anywhere = Segmenter(Kind.LINES, strictness=Strictness.ANYWHERE)
        self.assertEqual(wrap("elephant", 3, break_long_words=False, segmenter=anywhere), ["ele", "pha", "nt"])
        wrapper = TextWrapper(3, segmenter=Segmenter(Kind.WORDS))
        self.assertRaisesRegex(ValueError, "^this is a segmenter of WORDS, and not of LINES$", wrapper.wrap, "a b")
        self.assertEqual(pickle.loads(pickle.dumps(TextWrapper(3))).wrap("ab cd"), ["ab", "cd"])

    def test_random(self):
        """Lines are no wider than they may be, end where they may, and have the text but for its white space."""
        it = random.Random(8)
        for _ in range(1500):
            text, width = "".join(it.choices(PIECES, k=it.randrange(20))), it.choice([1, 2, 3, 5, 9, 20])
            for breaks, indent in itertools.product((True, False), ("", "> ")):
                found = wrap(text, width, break_long_words=breaks, subsequent_indent=indent, initial_indent=indent)
                bare = [row[len(indent) :] for row in found]
                self.assertEqual("".join("".join(bare).split()), "".join(text.split()))
                for row in bare:
                    wide = columns_of(row) + columns_of(indent) > width
                    self.assertFalse(wide and CLUSTERS.count(row.strip()) > 1 if breaks else wide and LINES.count(row.strip(WHITE)) > 1, (text, width, found))

    def test_ends(self):
        it = random.Random(9)
        for _ in range(1500):
            text = "".join(it.choices(PIECES, k=it.randrange(20))).translate(dict.fromkeys(map(ord, WHITE), " "))
            found = wrap(text, 6, break_long_words=False, drop_whitespace=False)
            self.assertEqual("".join(found), text)
            places = {*LINES.boundaries(text)}
            for end in itertools.accumulate(map(len, found)):
                # (white space may begin the next line, where it doesn't fit)
                white = len(text[end:]) - len(text[end:].lstrip(" "))
                self.assertTrue({end, end + white} & places, (text, found))


class Costs(unittest.TestCase):
    def test_segmenters_are_kept(self):
        wrap("ab \t cdefgh", 3)
        with mock.patch.object(_library, "open_slot", side_effect=AssertionError):
            self.assertEqual(wrap("ab \t cdefgh", 3), ["ab", "cde", "fgh"])

    def test_long_texts(self):
        """Time grows with the text, and not with its square, which would be minutes here."""
        start = time.process_time()
        for piece in ("ab cd. ", "x", "-", "a-", "1-", " ", "( ", "東", "ไทย", "e\u0301", "\u0301", "\u2028", "👩\u200d", "\u00a0"):
            for options in ({}, {"break_on_hyphens": False}, {"break_long_words": False}, {"drop_whitespace": False}, {"max_lines": 2}):
                self.assertTrue(wrap(piece * 20_000, 70, **options) or not piece.strip())
        self.assertLess(time.process_time() - start, 20)


if __name__ == "__main__":
    unittest.main()
