"""Tests of the package: that places are the text's own, whatever its encoding and length, and what is refused."""

import copy
import itertools
import os
import pickle
import pydoc
import random
import re
import sys
import tempfile
import threading
import time
import unittest
from unittest import mock

import yengatomu
from yengatomu import Kind, Script, Segmenter, Strictness, WordBreak, WordType, _library, _segmenter, options

THAI = ["ภาษา", "ไทย"]
ABBREVIATIONS = ["Mr.", "z. B.", "3.14.", "é."]
WHITE = " \t\r\n"
# `snake`, `_` and `case` of `snake_case`.
SNAKE = r"""Letter = \p{L} + \p{M} + \p{Nd}
Line   = [_ -]
Letter × Letter
Line × Line
÷
"""
SAMPLES = [
    "",
    "a",
    "can't pay 3.14! Mr. Smith left.\r\n",
    "Xin chào thế giới! Ça va? «Où» naïve",
    "ภาษาไทย 東京に行きます。नमस्ते दुनिया",
    "👩‍👧 🇻🇳🇹🇭 e\u0301 𝒳𝒴 𠀀𠀁 \U0010ffff",
    "a\ud800b \udc00\ud83d \ud83d\ude00 👍🏽\udfff",
    "\n\n\r\n \t\u2028\u0085",
]
PIECES = ["a", "é", "e\u0301", "ไทย", "ภ", "東", " ", "  ", "\n", ". ", "3.14", "'", "👩", "\u200d", "🇻", "\ud83d", "\ude00", "\U0010ffff", "\u0301"]


def random_texts(count, most):
    it = random.Random(1)
    return ["".join(it.choices(PIECES, k=it.randrange(most))) for _ in range(count)]


def replaced(text):
    """Returns a str with U+FFFD for its surrogates."""
    return "".join("\ufffd" if "\ud800" <= it <= "\udfff" else it for it in text)


def indices(text, places):
    """Returns the indices of a str in the place of those of its UTF-8."""
    units = replaced(text).encode()
    return [len(units[:it].decode()) for it in places]


class Examples(unittest.TestCase):
    def test_words(self):
        self.assertEqual(yengatomu.words("can't pay 3.14!"), ["can't", "pay", "3.14"])
        self.assertEqual(yengatomu.words(b"can't pay 3.14!"), [b"can't", b"pay", b"3.14"])
        self.assertEqual(yengatomu.boundaries("can't pay", Kind.WORDS), [0, 5, 6, 9])
        self.assertEqual((yengatomu.count_words("can't pay 3.14!"), yengatomu.count_words(b"can't pay 3.14!")), (3, 3))

    def test_word_spans(self):
        wanted = [(0, 5, WordType.LETTERS), (6, 9, WordType.LETTERS), (10, 14, WordType.NUMBER)]
        self.assertEqual(yengatomu.word_spans("can't pay 3.14!"), wanted)
        self.assertEqual(yengatomu.word_spans(b"can't pay 3.14!"), wanted)
        self.assertEqual(yengatomu.word_spans("é 👩 naïve"), [(0, 1, WordType.LETTERS), (4, 9, WordType.LETTERS)])
        self.assertEqual(list(Segmenter(Kind.WORDS).spans("é 👩")), [(0, 1), (1, 2), (2, 3)])

    def test_graphemes(self):
        self.assertEqual(yengatomu.graphemes("e\u0301👩‍👧🇻🇳🇹🇭"), ["e\u0301", "👩‍👧", "🇻🇳", "🇹🇭"])

    def test_sentences(self):
        self.assertEqual(yengatomu.sentences("Is it? It is 3.14. Yes!"), ["Is it? ", "It is 3.14. ", "Yes!"])

    def test_lines(self):
        self.assertEqual(yengatomu.lines("a well-known\nfact"), ["a ", "well-", "known\n", "fact"])
        self.assertEqual([must for _, must in Segmenter(Kind.LINES).marked_segments("a well-known\nfact")], [False, False, True, True])

    def test_wrap(self):
        text = "Xin chào thế giới! The quick (“brown”) fox can’t jump 32.3 feet, right?\n東京に行きます。ありがとうございます。👨‍👩‍👧🇻🇳"
        wanted = ["Xin chào thế giới! The quick", "(“brown”) fox can’t jump 32.3", "feet, right?", "東京に行きます。ありがとうござ", "います。👨‍👩‍👧🇻🇳"]
        self.assertEqual(yengatomu.wrap(text, 30), wanted)
        self.assertEqual([columns for _, columns in Segmenter(Kind.LINES).wrapped(text, 30)], [28, 29, 12, 30, 16])

    def test_balanced(self):
        text = "aaa bb cc ddddd\naaa bb cc ddddd"
        self.assertEqual(yengatomu.wrap(text, 6), ["aaa bb", "cc", "ddddd"] * 2)
        self.assertEqual(yengatomu.wrap(text, 6, balanced=True), ["aaa", "bb cc", "ddddd"] * 2)
        self.assertEqual(yengatomu.wrap(text.encode(), 6, balanced=True), [b"aaa", b"bb cc", b"ddddd"] * 2)
        self.assertEqual(yengatomu.wrap(text.replace("b", "ü"), 6, balanced=True), ["aaa", "üü cc", "ddddd"] * 2)
        self.assertEqual(yengatomu.wrap("aaaaaaa b", 3, balanced=True, break_words=True), ["aaa", "aaa", "a", "b"])
        self.assertEqual(yengatomu.wrap("", 6, balanced=True), [])
        # (more lines in a paragraph than the first call has room for, with pairs of UTF-16)
        many = "word 👩 of " * 300
        lines = list(Segmenter(Kind.LINES).wrapped(many, 20, balanced=True))
        self.assertEqual("".join(line for line, _ in lines), many)
        self.assertTrue(all(columns <= 20 for _, columns in lines))
        self.assertGreater(len(lines), 64)

    def test_broken_words(self):
        lines = Segmenter(Kind.LINES)
        self.assertEqual(yengatomu.wrap("an elephant e\u0301e\u0301 ", 3, break_words=True), ["an", "ele", "pha", "nt", "e\u0301e\u0301"])
        self.assertEqual(list(lines.wrapped("abcde  \nf", 2, break_words=True)), [("ab", 2), ("cd", 2), ("e  \n", 1), ("f", 1)])
        self.assertEqual(list(lines.wrap(b"abc d", 2, break_words=True)), [b"ab", b"c", b"d"])
        self.assertEqual(list(lines.wrap("東京", 1, break_words=True)), ["東", "京"])

    def test_tabs(self):
        for text, columns, wanted in (
            ("a\tb", 4, "a   b"),
            ("\t\tb\n\tc\td", 2, "    b\n  c d"),
            ("abcd\te", 4, "abcd    e"),
            ("東 \tb\r\n\t", 4, "東  b\r\n    "),
            ("e\u0301\tb", 3, "e\u0301  b"),
            ("a\vbc\td", 4, "a\vbc d"),
            ("a \v b  \tc", 4, "a \v b    c"),
            ("a b\n", 4, "a b\n"),
            ("", 1, ""),
        ):
            self.assertEqual(yengatomu.expand_tabs(text, columns), wanted)
            self.assertEqual(yengatomu.expand_tabs(text.encode(), columns), wanted.encode())
        self.assertEqual(yengatomu.expand_tabs(b"\xff\xe0\xb8\tb", 4), b"\xff\xe0\xb8  b")
        self.assertEqual(yengatomu.wrap("a\tb c", 5, tabs=4), ["a   b", "c"])
        self.assertRaises(MemoryError, yengatomu.expand_tabs, "a\tb", 10**30)

    def test_joined(self):
        for text, wanted in (
            ("a\nb", "a b"),
            (" a \t\r\n b", " a b"),
            ("  a\n b\n c\n\td", "  a\n b c\n\td"),
            ("a\n> b\n> c\n-- \nd\ne", "a\n> b\n> c\n-- \nd e"),
            ("a\n\nb\n \nc", "a\n\nb\n \nc"),
            (" \n a\n b\n c \n", " \n a b c \n"),
            ("a\u2028\nb\v\nc", "a\u2028 b\v c"),
            ("a  b", "a  b"),
            ("\n", "\n"),
            ("", ""),
        ):
            self.assertEqual(yengatomu.join_lines(text), wanted)
            self.assertEqual(yengatomu.join_lines(text.encode()), wanted.encode())
        self.assertEqual(yengatomu.sentences("It\nis. No.\n", join=True), ["It is. ", "No.\n"])
        self.assertEqual(yengatomu.wrap("a\nb\n\nc", 9, join=True), ["a b", "", "c"])
        # Tabs become spaces first.
        self.assertEqual(yengatomu.wrap("ab\t\nc", 9, join=True, tabs=4), ["ab c"])
        self.assertEqual(yengatomu.wrap("a\tbc\nd", 4, tabs=2, join=True, break_words=True), ["a bc", "d"])

    def test_joined_as_stated(self):
        """White space between two words is a space where it has one line feed, if both lines have one indentation and neither stands apart."""

        def opening(text):
            line = text[len(text) - len(text.lstrip(WHITE)) :]
            return None if line.startswith((">", "-- ")) else text[: len(text) - len(line)]

        for letters in itertools.product("a\n >-", repeat=7):
            text = "".join(letters)
            parts = re.split(r"([ \t\r\n]+)", text)
            wanted, line = "", text.lstrip(WHITE)
            place = len(text) - len(line)
            line = text[text.rfind("\n", 0, place) + 1 :]
            place = 0
            for at, it in enumerate(parts):
                place += len(it)
                if at % 2 == 0 or not parts[at - 1] or "\n" not in it:
                    wanted += it
                    continue
                following = text[text.rfind("\n", 0, place) + 1 :]
                joins = parts[at + 1] and it.count("\n") == 1 and opening(line) is not None and opening(line) == opening(following)
                wanted, line = wanted + (" " if joins else it), following
            self.assertEqual(yengatomu.join_lines(text), wanted, repr(text))

    def test_marks(self):
        found = list(Segmenter(Kind.WORDS).marked_segments("a 1"))
        self.assertEqual(found, [("a", WordType.LETTERS), (" ", WordType.NO_WORD), ("1", WordType.NUMBER)])

    def test_options(self):
        # Of LineOptionTest.txt of the repository.
        def lines(text, **options):
            return list(Segmenter(Kind.LINES, **options).segments(text))

        self.assertEqual(lines("一ぁ", strictness=Strictness.STRICT), ["一ぁ"])
        self.assertEqual(lines("一ぁ", strictness=Strictness.NORMAL), ["一", "ぁ"])
        self.assertEqual(lines("ab", word_break=WordBreak.BREAK_ALL), ["a", "b"])
        self.assertEqual(lines("一〜一", strictness=Strictness.NORMAL), ["一〜", "一"])
        self.assertEqual(lines("一〜一", strictness=Strictness.NORMAL, chinese_or_japanese=True), ["一", "〜", "一"])
        self.assertEqual(lines("abe\u0301", strictness=Strictness.ANYWHERE), ["a", "b", "e\u0301"])

    def test_dictionary(self):
        for kind in (Kind.WORDS, Kind.LINES):
            for words in (THAI, [it.encode() for it in THAI], (it for it in THAI)):
                segmenter = Segmenter(kind)
                segmenter.load_dictionary(words, Script.THAI)
                self.assertEqual(list(segmenter.segments("".join(THAI))), THAI)
                self.assertEqual(list(segmenter.segments("".join(THAI).encode())), [it.encode() for it in THAI])

    def test_abbreviations(self):
        text = "Mr. Bond. z. B. Jim\nMr. A"
        for words in (ABBREVIATIONS, [it.encode() for it in ABBREVIATIONS], (it for it in ABBREVIATIONS)):
            sentences = Segmenter(Kind.SENTENCES)
            self.assertEqual(sentences.boundaries(text), [0, 4, 13, 16, 20, 24, 25])
            sentences.load_abbreviations(words)
            self.assertEqual(sentences.boundaries(text), [0, 13, 20, 25])
            self.assertEqual(list(sentences.segments(text.encode())), [b"Mr. Bond. z. ", b"B. Jim\n", b"Mr. A"])
            self.assertEqual((sentences.count(text), sentences.next(text, 4), sentences.previous(text, 20)), (3, 13, 13))
            self.assertEqual(list(sentences.segments("Ask sMr. Bond. Mr.  ")), ["Ask sMr. ", "Bond. ", "Mr.  "])
            # Far from a line feed too, where an abbreviation began before the places that a call gave.
            for more in ("", "👩"):
                self.assertEqual(list(sentences.segments(f"Yes. Z. z. B. No! {more}" * 3000)), ["Yes. ", "Z. z. ", "B. No! ", *[f"{more}Yes. ", "Z. z. ", "B. No! "] * 2999, *[more][: bool(more)]])

    def test_by_cluster(self):
        family = "👩\u200d👩\u200d👧 a"
        lines = Segmenter(Kind.LINES, by_cluster=True)
        for text, size in ((family, 7), (family.encode(), 20)):
            self.assertEqual([columns for _, columns in Segmenter(Kind.LINES).wrapped(text, 80)], [8])
            self.assertEqual([columns for _, columns in Segmenter(Kind.LINES, by_cluster=False).wrapped(text, 80)], [8])
            self.assertEqual([columns for _, columns in lines.wrapped(text, 80)], [4])
            self.assertEqual([(len(line), columns) for line, columns in lines.wrapped(text, 3)], [(size - 1, 2), (1, 1)])
            self.assertEqual(lines.boundaries(text), Segmenter(Kind.LINES).boundaries(text))
            self.assertEqual(len(yengatomu.wrap(text, 4)), 2)
            self.assertEqual(len(yengatomu.wrap(text, 4, by_cluster=True)), 1)
            self.assertEqual(len(yengatomu.wrap(text * 2, 3, by_cluster=True, break_words=True)), 3)

    def test_reads_no_further(self):
        """With a dictionary a call reads what it must, not all up to the next run or the end, which would take a millisecond or more here."""
        for kind, text in itertools.product((Kind.WORDS, Kind.LINES), (b"ab " * 300_000, b"ab " * 300_000 + "ภาษาไทย".encode())):
            segmenter = Segmenter(kind)
            segmenter.load_dictionary(THAI, Script.THAI)
            start, place = time.process_time(), 0
            for _ in range(1000):
                place = segmenter.next(text, place)
                self.assertEqual(segmenter.previous(text, place + 1), place)
            self.assertLess(time.process_time() - start, 1)

    def test_rules(self):
        for rules in (SNAKE, SNAKE.encode()):
            snake = Segmenter.by_rules(rules)
            self.assertEqual(snake.boundaries("snake_case"), [0, 5, 6, 10])
            self.assertEqual(list(snake.segments("é9__👩 e\u0301")), ["é9", "__", "👩", " ", "e\u0301"])
            self.assertEqual(list(snake.segments(b"a\xffb")), [b"a", b"\xff", b"b"])
            self.assertEqual((snake.count("snake_case"), snake.next("snake_case", 5), snake.previous("snake_case", 5)), (3, 6, 0))
            self.assertIs(snake.kind, Kind.CLUSTERS)

    def test_versions(self):
        self.assertRegex(yengatomu.version(), r"^\d+\.\d+\.\d+$")
        for kind in Kind:
            self.assertRegex(yengatomu.unicode_version(kind), r"^1\d\.\d\.\d$")

    def test_names(self):
        """What there is for callers, and nothing else: in the module, and by `from yengatomu import *`."""
        wanted = {*options.__all__, "Segmenter", "boundaries", "count_words", "expand_tabs", "graphemes", "join_lines", "lines", "options"}
        wanted |= {"sentences", "unicode_version", "version", "word_spans", "words", "wrap"}
        # (the module textwrap is there once something imports it)
        self.assertEqual({it for it in dir(yengatomu) if not it.startswith("_")} - {"textwrap"}, wanted)

    def test_help(self):
        shown = pydoc.plain(pydoc.render_doc(yengatomu)).splitlines()
        self.assertLessEqual(len(shown), 200)
        for name in ("words", "word_spans", "count_words", "Segmenter", "load_dictionaries", "NO_WORD"):
            self.assertIn(name, "\n".join(shown))
        self.assertNotIn("_lock", "\n".join(shown))


class Places(unittest.TestCase):
    """Places of a str are its indices, and the boundaries are those of its UTF-8."""

    def each(self):
        segmenters = [Segmenter(kind) for kind in Kind]
        for kind in (Kind.WORDS, Kind.LINES):
            segmenters.append(Segmenter(kind))
            segmenters[-1].load_dictionary(THAI, Script.THAI)
        segmenters += [Segmenter(Kind.SENTENCES), Segmenter(Kind.LINES, by_cluster=True)]
        segmenters[-2].load_abbreviations(ABBREVIATIONS)
        for text in SAMPLES + random_texts(200, 30):
            for segmenter in segmenters:
                yield segmenter, text

    def test_boundaries(self):
        for segmenter, text in self.each():
            found, of_bytes = segmenter.boundaries(text), segmenter.boundaries(replaced(text).encode())
            self.assertEqual(found, indices(text, of_bytes))
            self.assertEqual((found[0], found[-1]), (0, len(text)))
            self.assertEqual(found, sorted(set(found)))

    def test_segments(self):
        for segmenter, text in self.each():
            found = segmenter.boundaries(text)
            self.assertEqual(list(segmenter.segments(text)), [text[a:b] for a, b in zip(found, found[1:])])
            self.assertEqual(b"".join(segmenter.segments(replaced(text).encode())), replaced(text).encode())

    def test_words(self):
        for segmenter, text in self.each():
            if segmenter.kind is Kind.WORDS:
                words = [it for it, mark in segmenter.marked_segments(text) if mark is not WordType.NO_WORD]
                self.assertEqual(list(segmenter.words(text)), words)
                self.assertEqual(segmenter.count_words(text), len(words))
                self.assertEqual(segmenter.count_words(replaced(text).encode()), len(words))

    def test_spans(self):
        for segmenter, text in self.each():
            found = segmenter.boundaries(text)
            self.assertEqual(list(segmenter.spans(text)), list(zip(found, found[1:])))
            if segmenter.kind is Kind.WORDS:
                marked = zip(segmenter.spans(text), segmenter.marked_segments(text))
                self.assertEqual(list(segmenter.word_spans(text)), [(*it, mark) for it, (_, mark) in marked if mark is not WordType.NO_WORD])
                self.assertEqual([text[a:b] for a, b, _ in segmenter.word_spans(text)], list(segmenter.words(text)))

    def test_count(self):
        for segmenter, text in self.each():
            self.assertEqual(segmenter.count(text), len(segmenter.boundaries(text)) - 1)

    def test_near(self):
        for segmenter, text in self.each():
            found = segmenter.boundaries(text)
            for place in [*range(min(len(text), 40) + 2), 10**30]:
                self.assertEqual(segmenter.next(text, place), next((it for it in found if it > place), None))
                self.assertEqual(segmenter.previous(text, place), next((it for it in reversed(found) if it < place), None))

    def test_near_by_turns(self):
        """Of texts that are asked about by turns, of which the last is kept, and of one that is too long to be kept."""
        clusters = Segmenter(Kind.CLUSTERS)
        for kept in (10, 1000):
            with mock.patch.object(_segmenter, "KEPT", kept):
                for text in ("e\u0301👩b", "e\u0301👩b" * 30, b"ab", "ab") * 2:
                    self.assertEqual((clusters.next(text, 0), clusters.next(text, 1)), ((1, 2) if len(text) == 2 else (2, 2)))

    def test_near_in_bytes(self):
        for segmenter, text in self.each():
            units = replaced(text).encode()[:60]
            found = segmenter.boundaries(units)
            for place in range(len(units) + 2):
                self.assertEqual(segmenter.next(units, place), next((it for it in found if it > place), None))
                self.assertEqual(segmenter.previous(units, place), next((it for it in reversed(found) if it < place), None))

    def test_wrap(self):
        for segmenter, text in self.each():
            if segmenter.kind is Kind.LINES:
                lines = list(segmenter.wrapped(text, 8))
                self.assertEqual("".join(line for line, _ in lines), text)
                found, end = set(segmenter.boundaries(text)), 0
                for line, columns in lines:
                    start, end = end, end + len(line)
                    self.assertIn(end, found)
                    self.assertTrue(columns <= 8 or not any(start < it < end for it in found))
                self.assertEqual(list(segmenter.wrap(text, 8)), [line.rstrip(" \n\r") for line, _ in lines])
                of_bytes = [line.decode() for line, _ in segmenter.wrapped(replaced(text).encode(), 8)]
                self.assertEqual(of_bytes, [replaced(line) for line, _ in lines])

    def test_ill_formed(self):
        # Tables 3-8 and 3-11 of the Unicode Standard.
        self.assertEqual(len(yengatomu.graphemes(b"\xc0\xaf\xe0\x80\xbf\xf0\x81\x82\x41")), 9)
        self.assertEqual(yengatomu.graphemes(b"\xe1\x80\xe2\xf0\x91\x92\xf1\xbf\x41"), [b"\xe1\x80", b"\xe2", b"\xf0\x91\x92", b"\xf1\xbf", b"A"])
        # Two surrogates are two characters of a str, also where they would be a pair.
        self.assertEqual(yengatomu.graphemes("\ud83d\ude00"), ["\ud83d", "\ude00"])


class Long(unittest.TestCase):
    """Texts that take many calls."""

    def test_many_calls(self):
        text = "".join(random_texts(40, 100))
        for kind in Kind:
            segmenter = Segmenter(kind)
            for it in (text, text.replace("\n", "x"), replaced(text).encode()):
                whole = [list(segmenter.marked_segments(it)) if kind in (Kind.WORDS, Kind.LINES) else None, segmenter.boundaries(it)]
                for room in (1, 7, 100):
                    with mock.patch.object(_segmenter, "ROOM", room):
                        self.assertEqual(segmenter.boundaries(it), whole[1])
                        self.assertEqual(list(segmenter.segments(it)), [it[a:b] for a, b in zip(whole[1], whole[1][1:])])
                        if whole[0] is not None:
                            self.assertEqual(list(segmenter.marked_segments(it)), whole[0])

    def test_many_calls_of_dictionaries(self):
        it = random.Random(2)
        for kind in (Kind.WORDS, Kind.LINES):
            segmenter = Segmenter(kind)
            segmenter.load_dictionary(["กข", "กขค", "คง", "งจฉ", "ฉ"], Script.THAI)
            for line_feeds in ("", "\n"):
                for more in ("", "👩"):
                    text = "".join(it.choices("กขคงจฉ" * 20 + line_feeds + more + " ", k=3000))
                    for given in (text, text.encode()):
                        whole = segmenter.boundaries(given), list(segmenter.wrapped(given, 9)) if kind is Kind.LINES else None
                        self.assertEqual(len(whole[0]), segmenter.count(given) + 1)
                        for room in (1, 7, 100):
                            with mock.patch.object(_segmenter, "ROOM", room):
                                self.assertEqual(segmenter.boundaries(given), whole[0])
                                if whole[1] is not None:
                                    self.assertEqual(list(segmenter.wrapped(given, 9)), whole[1])

    def test_many_calls_of_abbreviations(self):
        it, segmenter = random.Random(3), Segmenter(Kind.SENTENCES)
        segmenter.load_abbreviations(["A.", "B. A.", "! C!"])
        for line_feeds in ("", "\n"):
            for more in ("", "👩"):
                text = "".join(it.choices(["A. ", "B. ", "C! ", "D. ", *line_feeds, *more], k=1000))
                for given in (text, text.encode()):
                    whole = segmenter.boundaries(given)
                    self.assertEqual(len(whole), segmenter.count(given) + 1)
                    for room in (1, 7, 100):
                        with mock.patch.object(_segmenter, "ROOM", room):
                            self.assertEqual(segmenter.boundaries(given), whole)
                            self.assertEqual(list(segmenter.spans(given)), list(zip(whole, whole[1:])))

    def test_many_calls_of_rules(self):
        snake, text = Segmenter.by_rules(SNAKE), "ab__c-- 👩!" * 50
        for it in (text, text.encode()):
            whole = snake.boundaries(it)
            self.assertEqual(len(whole), 7 * 50 + 1)
            for room in (1, 7, 100):
                with mock.patch.object(_segmenter, "ROOM", room):
                    self.assertEqual(snake.boundaries(it), whole)

    def test_wrap(self):
        text = "".join(random_texts(40, 100))
        segmenter = Segmenter(Kind.LINES)
        whole = list(segmenter.wrapped(text, 9))
        for room in (1, 7):
            with mock.patch.object(_segmenter, "ROOM", room):
                self.assertEqual(list(segmenter.wrapped(text, 9)), whole)

    def test_comes_part_by_part(self):
        comes = Segmenter(Kind.CLUSTERS).segments("é" * 1_000_000)
        self.assertEqual([next(comes), next(comes)], ["é", "é"])


class Refused(unittest.TestCase):
    def test_types(self):
        segmenter, lines = Segmenter(Kind.WORDS), Segmenter(Kind.LINES)
        for wrong in (None, 1, ["a"], bytearray(b"a"), memoryview(b"a")):
            for call in (yengatomu.words, yengatomu.graphemes, yengatomu.sentences, yengatomu.lines, segmenter.boundaries, segmenter.segments, segmenter.words):
                self.assertRaises(TypeError, call, wrong)
            for call in (segmenter.marked_segments, segmenter.count, segmenter.count_words):
                self.assertRaises(TypeError, call, wrong)
            for call in (yengatomu.wrap, lines.wrap, lines.wrapped, segmenter.next, segmenter.previous):
                self.assertRaises(TypeError, call, wrong, 1)
            self.assertRaises(TypeError, yengatomu.boundaries, wrong, Kind.WORDS)
        for wrong in (None, "1", 1.0):
            self.assertRaises(TypeError, yengatomu.wrap, "a", wrong)
            self.assertRaises(TypeError, segmenter.next, "a", wrong)

    def test_numbers(self):
        for wrong in (-1, 4, 2**32, None, "words"):
            self.assertRaises(ValueError, Segmenter, wrong)
            if wrong is not None:
                self.assertRaises(ValueError, Segmenter, Kind.LINES, strictness=wrong)
                self.assertRaises(ValueError, Segmenter, Kind.LINES, word_break=wrong)
            self.assertRaises(ValueError, yengatomu.boundaries, "a", wrong)
            self.assertRaises(ValueError, yengatomu.unicode_version, wrong)
        for wrong in (-1, 0):
            for call in (yengatomu.wrap, Segmenter(Kind.LINES).wrap, Segmenter(Kind.LINES).wrapped, yengatomu.expand_tabs):
                self.assertRaisesRegex(ValueError, f"^columns is {wrong}, and mustn't be below 1$", call, "a", wrong)
            self.assertRaisesRegex(ValueError, f"^tabs is {wrong}, ", yengatomu.wrap, "a", 1, tabs=wrong)
        self.assertRaises(TypeError, yengatomu.wrap, "a", 1, tabs="8")
        self.assertRaises(ValueError, Segmenter(Kind.WORDS).next, "a", -1)
        self.assertRaises(ValueError, Segmenter(Kind.WORDS).previous, b"a", -1)
        self.assertEqual(yengatomu.wrap("a b", 10**30), ["a b"])

    def test_options_of_other_kinds(self):
        for kind in (Kind.CLUSTERS, Kind.WORDS, Kind.SENTENCES):
            for option in ({"strictness": Strictness.STRICT}, {"word_break": WordBreak.NORMAL}, {"chinese_or_japanese": False}, {"by_cluster": False}):
                (name,) = option
                self.assertRaisesRegex(ValueError, f"^{name} is an option of LINES, and {kind.name} have none$", Segmenter, kind, **option)
        self.assertRaises(TypeError, Segmenter, Kind.LINES, strict=True)

    def test_kinds(self):
        for kind in Kind:
            segmenter = Segmenter(kind)
            if kind is not Kind.WORDS:
                self.assertRaises(ValueError, segmenter.words, "a")
                self.assertRaises(ValueError, segmenter.count_words, "a")
                self.assertRaises(ValueError, segmenter.word_spans, "a")
            if kind is not Kind.LINES:
                self.assertRaises(ValueError, segmenter.wrap, "a", 1)
                self.assertRaises(ValueError, segmenter.wrapped, "a", 1)
            if kind in (Kind.CLUSTERS, Kind.SENTENCES):
                self.assertRaises(ValueError, segmenter.marked_segments, "a")
                self.assertRaises(ValueError, segmenter.load_dictionary, THAI, Script.THAI)
                self.assertRaises(ValueError, segmenter.load_dictionaries, ".")
            if kind is not Kind.SENTENCES:
                self.assertRaisesRegex(ValueError, f"^this is a segmenter of {kind.name}, and not of SENTENCES$", segmenter.load_abbreviations, ["Mr."])
                self.assertRaises(ValueError, segmenter.load_language, ".", "en")

    def test_dictionaries(self):
        segmenter = Segmenter(Kind.WORDS)
        before = segmenter.boundaries("".join(THAI))
        self.assertRaises(TypeError, segmenter.load_dictionary, "ภาษา", Script.THAI)
        self.assertRaises(TypeError, segmenter.load_dictionary, b"a", Script.THAI)
        self.assertRaises(TypeError, segmenter.load_dictionary, [1], Script.THAI)
        self.assertRaises(TypeError, segmenter.load_dictionary, None, Script.THAI)
        self.assertRaises(ValueError, segmenter.load_dictionary, THAI, 0)
        self.assertRaises(ValueError, segmenter.load_dictionary, THAI, 6)
        self.assertRaises(ValueError, segmenter.load_dictionary, ["\ud800"], Script.THAI)
        self.assertRaises(ValueError, segmenter.load_dictionary, [b"\xe0\xb8"], Script.THAI)
        self.assertRaisesRegex(ValueError, "line feed in it: 'ภาษา", segmenter.load_dictionary, ["a", "ภาษา\nไทย"], Script.THAI)
        self.assertRaisesRegex(ValueError, "line feed in it", segmenter.load_dictionary, [b"a\nb\n"], Script.THAI)
        self.assertEqual(segmenter.boundaries("".join(THAI)), before)
        segmenter.load_dictionary([], Script.LAO)
        segmenter.load_dictionary(THAI, Script.THAI)
        segmenter.load_dictionary(THAI[:1], Script.THAI)
        self.assertEqual(list(segmenter.segments("".join(THAI))), THAI)

    def test_abbreviations(self):
        segmenter, text = Segmenter(Kind.SENTENCES), "Mr. Bond. Mr. A"
        before = segmenter.boundaries(text)
        for wrong in ("Mr.", b"Mr.", [1], None):
            self.assertRaises(TypeError, segmenter.load_abbreviations, wrong)
        for wrong in (["\ud800"], [b"\xc3."]):
            self.assertRaises(ValueError, segmenter.load_abbreviations, wrong)
        self.assertRaisesRegex(ValueError, "^a word has a line feed in it: 'z\\\\nB.'$", segmenter.load_abbreviations, ["a", "z\nB."])
        self.assertEqual(segmenter.boundaries(text), before)
        segmenter.load_abbreviations(["Mr."])
        after = segmenter.boundaries(text)
        self.assertEqual(after, [0, 10, 15])
        for more in (["Bond."], []):
            self.assertRaisesRegex(ValueError, "^this segmenter has abbreviations already$", segmenter.load_abbreviations, more)
        self.assertEqual(segmenter.boundaries(text), after)

    def test_rules(self):
        for wrong in (None, 1, ["÷"], bytearray(b"!")):
            self.assertRaises(TypeError, Segmenter.by_rules, wrong)
        self.assertRaises(ValueError, Segmenter.by_rules, "\ud800")
        for rules, said in (
            (b"!\xff", "the rules are no UTF-8"),
            ("", "line 1 of the rules is wrong"),
            ("A = [a]\nA × B\n÷", "line 2 of the rules is wrong"),
            (SNAKE[:-2], "line 5 of the rules is wrong"),
            ("A = [a]\nB = [b]\nA B ÷ A\nB A ÷ B\n×\n", "the rules can't be followed, as line 3 shows"),
        ):
            with self.assertRaises(ValueError) as it:
                Segmenter.by_rules(rules)
            self.assertEqual(str(it.exception), said)

    def test_no_memory(self):
        with mock.patch.object(_library, "open_slot", return_value=_library.NO_MEMORY):
            self.assertRaises(MemoryError, Segmenter, Kind.WORDS)
        with mock.patch.object(_library, "open_rules", return_value=_library.NO_MEMORY):
            self.assertRaises(MemoryError, Segmenter.by_rules, SNAKE)
        with mock.patch.object(_library, "load_dictionary", return_value=_library.NO_MEMORY):
            self.assertRaises(MemoryError, Segmenter(Kind.WORDS).load_dictionary, THAI, Script.THAI)
        with mock.patch.object(_library, "load_abbreviations", return_value=_library.NO_MEMORY):
            self.assertRaises(MemoryError, Segmenter(Kind.SENTENCES).load_abbreviations, ["Mr."])
        with mock.patch.object(_library, "count_by_cluster", return_value=_library.NO_MEMORY):
            self.assertRaises(MemoryError, Segmenter, Kind.LINES, by_cluster=True)


class Dictionaries(unittest.TestCase):
    """Lists in files."""

    def setUp(self):
        self.folder = tempfile.mkdtemp()
        self.addCleanup(os.rmdir, self.folder)

    def write(self, name, data):
        path = os.path.join(self.folder, name)
        with open(path, "wb") as it:
            it.write(data)
        self.addCleanup(os.unlink, path)
        return path

    def test_file(self):
        lists = "ภาษา\nไทย\n", "\ufeffภาษา\r\n\r\nไทย\r\n", "\n \n\u3000ภาษา \t\n\nไทย"
        for number, listed in enumerate(lists):
            path = self.write(f"{number}.txt", listed.encode())
            for mode, how in (("r", {"encoding": "utf-8"}), ("r", {"encoding": "utf-8", "newline": ""}), ("rb", {})):
                with open(path, mode, **how) as it:
                    self.assertEqual(_segmenter.listed_in(it), [it.encode() for it in THAI])
                segmenter = Segmenter(Kind.WORDS)
                with open(path, mode, **how) as it:
                    segmenter.load_dictionary(it, Script.THAI)
                self.assertEqual(list(segmenter.words("".join(THAI))), THAI)

    def test_folder(self):
        self.write("thai.txt", "ภาษา\nไทย\n".encode())
        self.write("cj.txt", "\ufeff東京\r\n".encode())
        self.write("abbreviations-en.txt", b"Mr.\n")
        words, lines = Segmenter(Kind.WORDS), Segmenter(Kind.LINES)
        self.assertEqual(words.load_dictionaries(self.folder), [Script.THAI, Script.CHINESE_OR_JAPANESE])
        self.assertEqual(lines.load_dictionaries(self.folder), [Script.THAI])
        self.assertEqual(list(words.words("ภาษาไทย 東京")), ["ภาษา", "ไทย", "東京"])
        self.assertEqual(list(lines.segments("ภาษาไทย")), THAI)

    def test_all_scripts(self):
        for name in ("thai", "lao", "khmer", "myanmar", "cj"):
            self.write(f"{name}.txt", b"a\n")
        scripts = [Script.THAI, Script.LAO, Script.KHMER, Script.MYANMAR, Script.CHINESE_OR_JAPANESE]
        self.assertEqual(Segmenter(Kind.WORDS).load_dictionaries(self.folder), scripts)
        self.assertEqual(Segmenter(Kind.LINES).load_dictionaries(self.folder), scripts[:4])

    def test_folder_without(self):
        words = Segmenter(Kind.WORDS)
        with self.assertRaises(FileNotFoundError) as it:
            words.load_dictionaries(self.folder)
        self.assertEqual(it.exception.filename, self.folder)
        self.assertIn("thai.txt", str(it.exception))
        with self.assertRaises(FileNotFoundError) as it:
            words.load_dictionaries(f"{self.folder}/none")
        self.assertEqual(it.exception.filename, f"{self.folder}/none")
        self.assertRaises(TypeError, words.load_dictionaries, None)

    def test_languages(self):
        sentences = Segmenter(Kind.SENTENCES)
        with self.assertRaises(FileNotFoundError) as it:
            sentences.load_language(self.folder, "en")
        self.assertEqual(it.exception.filename, f"{self.folder}/abbreviations-en.txt")
        self.write("abbreviations-de.txt", b"\xff\n")
        self.write("abbreviations-fr.txt", b"\xef\xbb\xbf\n \r\n")
        self.write("abbreviations-en.txt", b"\xef\xbb\xbfMr.\r\n\r\n Mrs. \n")
        self.assertRaisesRegex(ValueError, "abbreviations-de.txt is no UTF-8", sentences.load_language, self.folder, "de")
        self.assertRaisesRegex(ValueError, "abbreviations-fr.txt has no words", sentences.load_language, self.folder, "fr")
        self.assertEqual(sentences.count("Mr. A. Mrs. B"), 4)
        sentences.load_language(self.folder, "en")
        self.assertEqual(list(sentences.segments("Mr. A. Mrs. B")), ["Mr. A. ", "Mrs. B"])
        self.assertRaisesRegex(ValueError, "already", sentences.load_language, self.folder, "en")

    def test_wrong_files(self):
        words = Segmenter(Kind.WORDS)
        before = words.boundaries("ภาษาไทย")
        self.write("thai.txt", "ภาษา\nไทย\n".encode())
        for data, said in ((b"\xff\n", "lao.txt is no UTF-8"), (b"\n \n", "lao.txt has no words")):
            self.write("lao.txt", data)
            self.assertRaisesRegex(ValueError, said, words.load_dictionaries, self.folder)
            self.doCleanups_of("lao.txt")
        self.assertEqual(words.boundaries("ภาษาไทย"), before)

    def doCleanups_of(self, name):
        """Has a file be written anew."""
        os.unlink(os.path.join(self.folder, name))
        self._cleanups.pop()


class Lifetimes(unittest.TestCase):
    def test_calls_keep_their_arrays(self):
        segmenter = Segmenter(Kind.WORDS)
        segmenter.count_words("a"), list(segmenter.words("a")), yengatomu.words("a"), yengatomu.lines("a")
        with mock.patch.object(_segmenter, "_Room", side_effect=AssertionError), mock.patch.object(_library, "open_slot", side_effect=AssertionError):
            for text in ("a b " * 9, "é", b"a b", "a" * 4096, ""):
                found = segmenter.boundaries(text), list(segmenter.spans(text)), list(segmenter.words(text)), yengatomu.words(text), yengatomu.lines(text)
                self.assertEqual(found[2], found[3])

    def test_copies(self):
        segmenter = Segmenter(Kind.WORDS)
        other = copy.copy(segmenter)
        del segmenter
        self.assertEqual(list(other.words("a b")), ["a", "b"])
        self.assertRaises(Exception, copy.deepcopy, other)
        self.assertRaises(Exception, pickle.dumps, other)

    def test_segmenter_of_what_comes(self):
        comes = Segmenter(Kind.WORDS).segments("a b" * 10_000)
        self.assertEqual("".join(comes), "a b" * 10_000)

    @unittest.skipUnless(sys.platform == "linux", "reads /proc")
    def test_memory_is_freed(self):
        def pages():
            with open("/proc/self/statm", encoding="ascii") as it:
                return int(it.read().split()[1])

        def make():
            for kind in Kind:
                segmenter = Segmenter(kind)
                Segmenter.by_rules(SNAKE)
                if kind is Kind.WORDS:
                    segmenter.load_dictionary([f"{it:06}" for it in range(1000)], Script.THAI)
                if kind is Kind.SENTENCES:
                    segmenter.load_abbreviations([f"{it:06}." for it in range(1000)])
            Segmenter(Kind.LINES, by_cluster=True)

        make()
        before = pages()
        for _ in range(50):
            make()
        self.assertLess((pages() - before) * os.sysconf("SC_PAGE_SIZE"), 8_000_000)


class Threads(unittest.TestCase):
    def run_ten(self, work):
        failures = []

        def one():
            try:
                for _ in range(5):
                    work()
            except BaseException as error:  # pylint: disable=broad-except
                failures.append(error)

        threads = [threading.Thread(target=one) for _ in range(10)]
        for it in threads:
            it.start()
        for it in threads:
            it.join()
        self.assertEqual(failures, [])

    def test_shared(self):
        shared, text = [Segmenter(kind) for kind in Kind], "".join(random_texts(40, 100))
        wanted = [it.boundaries(text) for it in shared]
        self.run_ten(lambda: self.assertEqual([it.boundaries(text) for it in shared], wanted))

    def test_shared_with_words(self):
        words, lines, sentences = Segmenter(Kind.WORDS), Segmenter(Kind.LINES, by_cluster=True), Segmenter(Kind.SENTENCES)
        words.load_dictionary(THAI, Script.THAI)
        lines.load_dictionary(THAI, Script.THAI)
        sentences.load_abbreviations(["Mr."])
        text = "".join(random_texts(40, 100)) + "\nMr. Fox ภาษาไทย\n"

        def found():
            places = [it.boundaries(text) + [it.count(text), it.next(text, 50), it.previous(text, 50)] for it in (words, lines, sentences)]
            return places, list(words.word_spans(text)), words.count_words(text), list(lines.wrapped(text, 20)), list(words.words(text[-20:]))

        wanted = found()
        self.run_ten(lambda: self.assertEqual(found(), wanted))

    def test_loaded_while_it_is_read(self):
        words, text = Segmenter(Kind.WORDS), "ภาษาไทย a b\n" * 500
        plain = words.boundaries(text)
        loaded = Segmenter(Kind.WORDS)
        loaded.load_dictionary(THAI, Script.THAI)
        cut = loaded.boundaries(text)

        def one():
            self.assertIn(words.boundaries(text), (plain, cut))
            words.load_dictionary(THAI, Script.THAI)
            self.assertEqual(words.boundaries(text), cut)

        self.run_ten(one)

    def test_own(self):
        text = "".join(random_texts(40, 100))
        wanted = yengatomu.words(text), yengatomu.graphemes(text), yengatomu.wrap(text, 20)
        self.run_ten(lambda: self.assertEqual((yengatomu.words(text), yengatomu.graphemes(text), yengatomu.wrap(text, 20)), wanted))


if __name__ == "__main__":
    unittest.main()
