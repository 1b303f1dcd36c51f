"""What segments texts: `Segmenter`, and the segmenters that are kept."""

import ctypes
import errno
import functools
import operator
import os
import sys
import threading
from array import array
from itertools import accumulate, chain, compress, starmap
from typing import AnyStr, Callable, Dict, Iterable, Iterator, List, Optional, Tuple, TypeVar, Union

from . import _library
from ._texts import PAIR, Units, indices, must_be_text, units_of, up_to_line_feed, white_of
from .options import Kind, Script, Strictness, WordBreak, WordType

_Found = TypeVar("_Found")
_Call = Callable[..., int]
# Where segments begin and end, and their marks.
_Chunk = Tuple[List[int], List[int], "array[int]"]

# How many boundaries a call finds.
ROOM = 4096
# The most columns that balanced lines may have.
_WIDEST = 2**32 - 1
# The longest text whose units are kept for the next question about places in it.
KEPT = 1_000_000
# Calls by whether the text is in UTF-16.
_BOUNDARIES = _library.boundaries, _library.boundaries_utf16
_MARKED_BOUNDARIES = _library.marked_boundaries, _library.marked_boundaries_utf16
_WRAP_COLUMNS = _library.wrap_columns, _library.wrap_columns_utf16
_WRAP_BALANCED = _library.wrap_balanced, _library.wrap_balanced_utf16
_COUNT = _library.count, _library.count_utf16
_COUNT_WORDS = _library.count_words, _library.count_words_utf16
_NEXT = _library.next_boundary, _library.next_boundary_utf16
_PREVIOUS = _library.previous_boundary, _library.previous_boundary_utf16
# What the marks of a kind say.
_NAMED: Dict[Kind, Tuple[Union[WordType, bool], ...]] = {Kind.WORDS: tuple(WordType), Kind.LINES: (False, True)}
_TYPES = tuple(WordType)

# White space, as Unicode has it: what may stand around a word in a list.
_WHITE_SPACE = "\t\n\v\f\r \x85\xa0\u1680\u2000\u2001\u2002\u2003\u2004\u2005\u2006\u2007\u2008\u2009\u200a\u2028\u2029\u202f\u205f\u3000"
# The lists that a folder may have, as tools/dictionaries writes them.
_LISTS = {"thai": Script.THAI, "lao": Script.LAO, "khmer": Script.KHMER, "myanmar": Script.MYANMAR, "cj": Script.CHINESE_OR_JAPANESE}
_MARK = "\ufeff"


def size(number: int, name: str, least: int = 0) -> int:
    """Returns a number as a size, and as the highest one if it is above that."""
    number = operator.index(number)
    if number < least:
        raise ValueError(f"{name} is {number}, and mustn't be below {least}")
    return min(number, _library.NONE)


def listed_in(words: Iterable[Union[str, bytes]]) -> List[bytes]:
    """Returns the words of a list, without the white space around them, the blank ones, and a byte order mark before the first."""
    found = []
    for number, word in enumerate(words):
        if isinstance(word, bytes):
            word = word.decode()
        elif not isinstance(word, str):
            raise TypeError(f"a word is str or bytes, not {type(word).__name__}")
        if not number and word.startswith(_MARK):
            word = word[1:]
        word = word.strip(_WHITE_SPACE)
        if "\n" in word:
            raise ValueError(f"a word has a line feed in it: {word[:40]!r}")
        if word:
            found.append(word.encode())
    return found


def _list_at(path: str) -> List[bytes]:
    """Returns the words of a list in a file. ValueError where it is no UTF-8 or has none."""
    with open(path, "rb") as it:
        try:
            listed = listed_in(it)
        except UnicodeDecodeError as error:
            raise ValueError(f"{path} is no UTF-8") from error
    if not listed:
        raise ValueError(f"{path} has no words")
    return listed


class _Room:
    """The arrays that a call writes to: places, and what is said beside them."""

    def __init__(self, size: int, code: str) -> None:
        self.size = size
        self.places = array("Q", bytes(8 * size))
        self.beside = array(code, bytes(array(code).itemsize * size))
        self.at, self.beside_at = (ctypes.c_void_p(it.buffer_info()[0]) for it in (self.places, self.beside))
        self.whole = ctypes.c_size_t(size)


class _Load:
    """Words, and the call that loads them."""

    def __init__(self, call: _Call, listed: List[bytes], *options: int) -> None:
        whole, sizes = b"".join(listed), array("Q", map(len, listed))
        # Of each word where it begins and its length, as the structure yengatomu_word has them. (There is one more, so that no array is empty.)
        words = array("Q", bytes(16 * (len(listed) + 1)))
        words[0::2] = array("Q", accumulate(sizes, initial=ctypes.cast(ctypes.c_char_p(whole), ctypes.c_void_p).value or 0))
        words[1:-1:2] = sizes
        self._call, self._options, self._count = call, options, len(listed)
        self._whole, self._words = whole, words

    def into(self, slot: _library.Slot) -> None:
        """Loads them into a slot that has none of their script."""
        status = self._call(slot.here, self._words.buffer_info()[0], self._count, *self._options)
        if status == _library.NO_MEMORY:
            raise MemoryError
        if status != _library.OK:
            raise ValueError("a word is no UTF-8, or there is no such script")
        slot.has_words = True


class Segmenter:
    """Finds the boundaries of a kind, over Unicode's data.

    Only LINES have options: how strictly they break, which is STRICT where nothing is given, whether within words, whether their texts are Chinese or
    Japanese, and whether `wrap` counts columns by cluster, where it would count them by character. ValueError where another kind is given one. Threads
    may share a segmenter, and none waits for another. To make one takes about a millisecond, so keep it. Texts are str or bytes; anything else is a
    TypeError.
    """

    def __init__(
        self,
        kind: Kind,
        *,
        strictness: Optional[Strictness] = None,
        word_break: Optional[WordBreak] = None,
        chinese_or_japanese: Optional[bool] = None,
        by_cluster: Optional[bool] = None,
    ) -> None:
        kind = Kind(kind)
        options = {"strictness": strictness, "word_break": word_break, "chinese_or_japanese": chinese_or_japanese, "by_cluster": by_cluster}
        for name, given in options.items():
            if given is not None and kind is not Kind.LINES:
                raise ValueError(f"{name} is an option of LINES, and {kind.name} have none")
        self._begin(kind)
        chosen = Strictness.STRICT if strictness is None else Strictness(strictness)
        within = WordBreak.NORMAL if word_break is None else WordBreak(word_break)
        self._options, self._by_cluster = (kind, chosen, within, bool(chinese_or_japanese)), bool(by_cluster)
        self._slot = self._opened()

    def _begin(self, kind: Kind) -> None:
        self._kind, self._by_cluster = kind, False
        # What calls read. It isn't changed, since other threads may read it, but replaced; a call that reads keeps it until it returns.
        self._slot = _library.Slot()
        # What was loaded, by script, and abbreviations by None; and the lock of those who load.
        self._loads: Dict[Optional[Script], _Load] = {}
        self._loading = threading.Lock()
        # What calls write to, by what is said beside places: those that no call has just now.
        self._rooms: Dict[str, List[_Room]] = {"B": [], "Q": []}
        # The text that was asked about last, and its units.
        self._last: Tuple[Union[str, bytes], Units] = b"", units_of(b"")

    def _opened(self) -> _library.Slot:
        """Opens a slot of this kind, with these options."""
        slot = _library.Slot()
        status = _library.open_slot(slot.here, *self._options)
        if status == _library.NO_MEMORY:
            raise MemoryError
        if status != _library.OK:
            raise ValueError("no such kind or option")
        if self._by_cluster and _library.count_by_cluster(slot.here) != _library.OK:
            raise MemoryError
        return slot

    @classmethod
    def by_rules(cls, rules: Union[str, bytes]) -> "Segmenter":
        """Returns a segmenter by rules of your own, in the notation of crates/segment/segment.1 in the repository. Its kind is CLUSTERS.

        ValueError, with the line, where the rules are wrong, and where they need to know too much of a text to be followed.
        """
        if not isinstance(rules, (str, bytes)):
            raise TypeError(f"rules are str or bytes, not {type(rules).__name__}")
        encoded, line = rules.encode() if isinstance(rules, str) else rules, _library.Line()
        made = cls.__new__(cls)
        made._begin(Kind.CLUSTERS)
        status = _library.open_rules(made._slot.here, encoded, len(encoded), line)
        if status == _library.NO_MEMORY:
            raise MemoryError
        if status == _library.WRONG_RULES:
            raise ValueError(f"line {line.value} of the rules is wrong" if line.value else "the rules are no UTF-8")
        if status != _library.OK:
            raise ValueError("the rules can't be followed" + (f", as line {line.value} shows" if line.value else ""))
        return made

    @property
    def kind(self) -> Kind:
        """What it cuts texts into."""
        return self._kind

    def load_dictionary(self, words: Iterable[Union[str, bytes]], script: Script) -> None:
        """Gives WORDS or LINES the words of a script that is written without spaces, if they have none of that script yet.

        `words` may be an open file: white space around a word, as its line end, isn't part of it, and blank lines are left out. ValueError where a word has
        a line feed in it or is ill-formed, and of other kinds. LINES take words of CHINESE_OR_JAPANESE, and don't change.
        """
        if isinstance(words, (str, bytes)):
            raise TypeError("a dictionary is of many words, and this is one str or bytes")
        script = Script(script)
        self._must_take_words()
        self._load({script: _Load(_library.load_dictionary, listed_in(words), script)})

    def load_dictionaries(self, folder: Union[str, "os.PathLike[str]"]) -> List[Script]:
        """Loads thai.txt, lao.txt, khmer.txt, myanmar.txt and (of WORDS) cj.txt of a folder, as many as there are, and returns their scripts.

        They are as tools/dictionaries writes them: UTF-8, a word a line. FileNotFoundError, with the folder, where it has none of them; ValueError, with the
        file, where one is no UTF-8 or has no words; and nothing is loaded then.
        """
        self._must_take_words()
        folder = os.fspath(folder)
        os.stat(folder)
        paths = {script: os.path.join(folder, f"{name}.txt") for name, script in _LISTS.items()}
        there = {script: path for script, path in paths.items() if os.path.exists(path)}
        if not there:
            raise FileNotFoundError(errno.ENOENT, "There is no thai.txt, lao.txt, khmer.txt, myanmar.txt or cj.txt in it", folder)
        if self._kind is Kind.LINES:
            there.pop(Script.CHINESE_OR_JAPANESE, None)
        found = {script: _list_at(path) for script, path in there.items()}
        self._load({script: _Load(_library.load_dictionary, listed, script) for script, listed in found.items()})
        return list(found)

    def load_abbreviations(self, words: Iterable[Union[str, bytes]]) -> None:
        """Gives SENTENCES the abbreviations after which a sentence goes on, as "Mr.": whole words with their full stops, whose upper and lower case differ.

        A boundary is left out where the text before it ends with one and perhaps spaces, before which neither a letter nor a digit stands; but not at the
        end of the text. `words` may be an open file, as of `load_dictionary`. ValueError where a word has a line feed in it or is ill-formed, where there
        are some already, and of other kinds.
        """
        if isinstance(words, (str, bytes)):
            raise TypeError("abbreviations are many words, and this is one str or bytes")
        self._must_be(Kind.SENTENCES)
        self._abbreviate(listed_in(words))

    def load_language(self, folder: Union[str, "os.PathLike[str]"], language: str) -> None:
        """Gives SENTENCES the abbreviations of a language, as "en": those of abbreviations-en.txt of a folder, as tools/dictionaries writes it.

        FileNotFoundError, with the file, where it isn't there; ValueError, with the file, where it is no UTF-8 or has no words; and as `load_abbreviations`.
        """
        self._must_be(Kind.SENTENCES)
        self._abbreviate(_list_at(os.path.join(os.fspath(folder), f"abbreviations-{language}.txt")))

    def _abbreviate(self, listed: List[bytes]) -> None:
        self._load({None: _Load(_library.load_abbreviations, listed)})

    def _load(self, loads: Dict[Optional[Script], _Load]) -> None:
        """Loads what it has none of yet, all of it or nothing. It goes into another slot, with what was loaded before, which then takes the slot's place."""
        with self._loading:
            if None in loads and None in self._loads:
                raise ValueError("this segmenter has abbreviations already")
            both = {**loads, **self._loads}
            if len(both) == len(self._loads):
                return
            slot = self._opened()
            for it in both.values():
                it.into(slot)
            self._slot, self._loads = slot, both

    def boundaries(self, text: Union[str, bytes]) -> List[int]:
        """Returns where a text may be cut, from 0 to its length."""
        it = units_of(text)
        return [0, *chain.from_iterable(indices(it[3], places) for places in self._places(it))]

    def segments(self, text: AnyStr) -> Iterator[AnyStr]:
        """Returns what is between the boundaries, part by part."""
        return self._each(text, lambda starts, ends, _: map(text.__getitem__, map(slice, starts, ends)))

    def spans(self, text: Union[str, bytes]) -> Iterator[Tuple[int, int]]:
        """Returns where each segment begins and ends."""
        return self._each(text, lambda starts, ends, _: zip(starts, ends))

    def marked_segments(self, text: AnyStr) -> Iterator[Tuple[AnyStr, Union[WordType, bool]]]:
        """Returns segments with their marks: WORDS with their WordType, LINES with whether the line must end there. ValueError of other kinds."""
        named = _NAMED.get(self._kind)
        if named is None:
            raise ValueError(f"{self._kind.name} have no marks")
        name = named.__getitem__
        return self._each(text, lambda starts, ends, marks: zip(map(text.__getitem__, map(slice, starts, ends)), map(name, marks)), True)

    def words(self, text: AnyStr) -> Iterator[AnyStr]:
        """Returns the segments that are words, of letters or numbers. ValueError of another kind than WORDS."""
        self._must_be(Kind.WORDS)
        return self._each(
            text, lambda starts, ends, marks: map(text.__getitem__, map(slice, compress(starts, marks), compress(ends, marks))), True
        )

    def word_spans(self, text: Union[str, bytes]) -> Iterator[Tuple[int, int, WordType]]:
        """Returns where each word begins and ends, and its type. ValueError of another kind than WORDS."""
        self._must_be(Kind.WORDS)
        name = _TYPES.__getitem__
        return self._each(
            text, lambda starts, ends, marks: zip(compress(starts, marks), compress(ends, marks), map(name, filter(None, marks))), True
        )

    def count(self, text: Union[str, bytes]) -> int:
        """Returns how many segments a text has."""
        slot, (units, length, is_wide, _) = self._slot, units_of(text)
        return _COUNT[is_wide](slot.here, units, length)

    def count_words(self, text: Union[str, bytes]) -> int:
        """Returns how many words it has. ValueError of another kind than WORDS."""
        self._must_be(Kind.WORDS)
        slot, (units, length, is_wide, _) = self._slot, units_of(text)
        return _COUNT_WORDS[is_wide](slot.here, units, length)

    def next(self, text: Union[str, bytes], place: int) -> Optional[int]:
        """Returns the nearest boundary above a place, which may be inside a character of bytes. None where there is none, ValueError for a place below 0.

        It takes as long as the place's line up to there; but of a str that isn't ASCII and wasn't asked about just before, or is above a million, as long as that.
        """
        return self._near(_NEXT, text, place)

    def previous(self, text: Union[str, bytes], place: int) -> Optional[int]:
        """Returns the nearest boundary below a place, which may be past the end. None where there is none. As `next` otherwise."""
        return self._near(_PREVIOUS, text, place)

    def wrap(self, text: AnyStr, columns: int, *, break_words: bool = False, balanced: bool = False) -> Iterator[AnyStr]:
        """Returns the lines that a text is wrapped to, without the spaces, line feeds and carriage returns at their ends.

        A line takes as many segments as fit in the columns, at least one, and ends where it must. Wide characters take two columns, and marks none; of a
        segmenter with `by_cluster` each cluster takes the width of its characters together, as a family of emoji two.
        `break_words` breaks what is wider than the columns between clusters. `balanced` moves segments to later lines, so that of all such lines these
        leave the least ragged edge. ValueError of another kind than LINES, and where `columns` is below 1.
        """
        white = white_of(text)
        return (line.rstrip(white) for line, _ in self.wrapped(text, columns, break_words=break_words, balanced=balanced))

    def wrapped(self, text: AnyStr, columns: int, *, break_words: bool = False, balanced: bool = False) -> Iterator[Tuple[AnyStr, int]]:
        """Returns the same lines, whole, each with how many columns it takes without what `wrap` leaves out."""
        self._must_be(Kind.LINES)
        most = size(columns, "columns", 1)
        it = units_of(text)
        found = self._paragraphs(it, min(most, _WIDEST)) if balanced else self._found(_WRAP_COLUMNS[it[2]], it, "Q", most)
        lines = self._lines(text, it, found)
        return _broken(lines, most, self._by_cluster) if break_words else lines

    def _lines(self, text: AnyStr, it: Units, found: Iterator[Tuple["array[int]", "array[int]"]]) -> Iterator[Tuple[AnyStr, int]]:
        start = 0
        for places, widths in found:
            for end, width in zip(indices(it[3], places), widths):
                yield text[start:end], width
                start = end

    def _paragraphs(self, it: Units, columns: int) -> Iterator[Tuple["array[int]", "array[int]"]]:
        """Yields where the balanced lines of each paragraph end, and how many columns they take."""
        slot, room, start = self._slot, 64, 0
        while start < it[1]:
            ends, widths = array("Q", bytes(8 * room)), array("Q", bytes(8 * room))
            buffers = ends.buffer_info()[0], room, widths.buffer_info()[0], room
            count = _WRAP_BALANCED[it[2]](slot.here, it[0], it[1], start, columns, *buffers)
            if count == _library.NONE:
                raise MemoryError
            if count > room:
                room = count
                continue
            start = ends[count - 1]
            yield ends[:count], widths[:count]

    def _must_be(self, kind: Kind) -> None:
        if self._kind is not kind:
            raise ValueError(f"this is a segmenter of {self._kind.name}, and not of {kind.name}")

    def _must_take_words(self) -> None:
        if self._kind not in (Kind.WORDS, Kind.LINES):
            raise ValueError(f"{self._kind.name} have no dictionaries")

    def _each(
        self, text: Union[str, bytes], show: Callable[[List[int], List[int], "array[int]"], Iterator[_Found]], has_marks: bool = False
    ) -> Iterator[_Found]:
        """Returns what is shown of all segments. A text that one call does is done at once."""
        it = units_of(text)
        units, length, is_wide, seconds = it
        if length > ROOM:
            return chain.from_iterable(starmap(show, self._chunks(it, has_marks)))
        slot, room, marks = self._slot, self._room(length, "B"), _NO_MARKS
        # (what is made already is handed over the quickest)
        if has_marks:
            count = _MARKED_BOUNDARIES[is_wide](slot.here, units, length, _START, room.at, room.whole, room.beside_at, room.whole)
            marks = room.beside[:count]
        else:
            count = _BOUNDARIES[is_wide](slot.here, units, length, _START, room.at, room.whole)
        places = room.places[:count]
        self._rooms["B"].append(room)
        ends = indices(seconds, places) if seconds else places.tolist()
        return show([0, *ends], ends, marks)

    def _chunks(self, it: Units, has_marks: bool) -> Iterator[_Chunk]:
        """Yields where segments begin and end, and their marks, some at a time."""
        last = 0
        found = self._found(_MARKED_BOUNDARIES[it[2]], it, "B") if has_marks else ((places, _NO_MARKS) for places in self._places(it))
        for places, marks in found:
            ends = indices(it[3], places)
            starts, last = [last, *ends[:-1]], ends[-1]
            yield starts, ends, marks

    def _places(self, it: Units) -> Iterator["array[int]"]:
        """Yields all boundaries above 0, some at a time. With words the library goes on only from behind a line feed, so there is more room while there is none."""
        slot, room, start = self._slot, min(it[1], ROOM), 0
        while start < it[1]:
            places = self._ended(slot, it, start, room)
            if slot.has_words and places[-1] < it[1]:
                del places[up_to_line_feed(it, places) :]
                if not places:
                    room *= 4
                    continue
            start = places[-1]
            yield places

    def _found(self, call: _Call, it: Units, code: str, *options: int) -> Iterator[Tuple["array[int]", "array[int]"]]:
        """Yields what a call finds, places and what it writes beside them, likewise."""
        slot, room, start = self._slot, min(it[1], ROOM), 0
        while start < it[1]:
            places, beside = self._asked(slot, call, it, start, room, code, *options)
            if slot.has_words and places[-1] < it[1]:
                count = up_to_line_feed(it, places)
                if not count:
                    room *= 4
                    continue
                del places[count:], beside[count:]
            start = places[-1]
            yield places, beside

    def _ended(self, slot: _library.Slot, it: Units, start: int, size: int) -> "array[int]":
        """Returns the first boundaries above a place, at most so many."""
        room = self._room(size, "B")
        places = room.places[: _BOUNDARIES[it[2]](slot.here, it[0], it[1], start, room.at, size)]
        if room.size == ROOM:
            self._rooms["B"].append(room)
        return places

    def _asked(
        self, slot: _library.Slot, call: _Call, it: Units, start: int, size: int, code: str, *options: int
    ) -> Tuple["array[int]", "array[int]"]:
        """Returns the first places that a call finds, at most so many, and what it writes beside them."""
        room = self._room(size, code)
        count = call(slot.here, it[0], it[1], start, *options, room.at, size, room.beside_at, size)
        found = room.places[:count], room.beside[:count]
        if room.size == ROOM:
            self._rooms[code].append(room)
        return found

    def _room(self, size: int, code: str) -> _Room:
        """Returns arrays for so many places, which no other call has until they are given back: kept ones, unless that is too many."""
        if size > ROOM:
            return _Room(size, code)
        try:
            room = self._rooms[code].pop()
        except IndexError:
            return _Room(ROOM, code)
        # (smaller ones are left where a test had another ROOM)
        return room if room.size >= size else _Room(ROOM, code)

    def _near(self, calls: Tuple[_Call, _Call], text: Union[str, bytes], place: int) -> Optional[int]:
        place = size(place, "place")
        asked, it = self._last
        if asked is not text:
            it = units_of(text)
            if it[1] <= KEPT:
                self._last = text, it
        units, length, is_wide, seconds = it
        # The place in units: as many more as there are pairs below.
        at = place
        if seconds and isinstance(text, str):
            at = min(place + len(PAIR.findall(text, 0, min(place, len(text)))), _library.NONE)
        slot = self._slot
        found = calls[is_wide](slot.here, units, length, at)
        return None if found == _library.NONE else indices(seconds, array("Q", [found]))[0]


_NO_MARKS = array("B")
_START = ctypes.c_size_t(0)


def _broken(lines: Iterator[Tuple[AnyStr, int]], columns: int, by_cluster: bool) -> Iterator[Tuple[AnyStr, int]]:
    """Yields lines, and those that are wider than the columns in parts, cut between clusters. What isn't counted at a line's end stays with its last part."""
    for line, width in lines:
        if width <= columns:
            yield line, width
            continue
        counted = line.rstrip(white_of(line))
        parts = list(kept(Kind.LINES, Strictness.ANYWHERE, by_cluster).wrapped(counted, columns))
        last, width = parts.pop()
        yield from parts
        yield last + line[len(counted) :], width


def expanded(text: AnyStr, columns: int) -> AnyStr:
    """Returns a text with spaces for its tabs."""
    if isinstance(text, str):
        return "".join(_fields(text, "\t", "\n", " ", columns)) if "\t" in text else text
    must_be_text(text)
    return b"".join(_fields(text, b"\t", b"\n", b" ", columns)) if b"\t" in text else text


def _fields(text: AnyStr, tab: AnyStr, line_feed: AnyStr, space: AnyStr, columns: int) -> Iterator[AnyStr]:
    """Yields what stands between tabs and line feeds, each with the line feed, or with spaces for the tab."""
    columns, place = min(columns, sys.maxsize), 0
    for row, width in rows(text.replace(tab, line_feed)):
        place += len(row)
        if not row.endswith(line_feed):
            yield row
            continue
        yield row[:-1]
        yield line_feed if text[place - 1 : place] == line_feed else space * (columns - width % columns)


def rows(text: AnyStr, by_cluster: bool = False) -> Iterator[Tuple[AnyStr, int]]:
    """Yields what stands up to each line feed, with the columns that it takes, those of spaces at its end too.

    Where other characters end a line in it, it has the columns of all these lines.
    """
    lines = kept(Kind.LINES, None, True) if by_cluster else kept(Kind.LINES)
    white = white_of(text)
    space, line_feed = white[:1], white[1:2]
    start = end = width = 0
    for line, counted in lines.wrapped(text, _library.NONE):
        end += len(line)
        width += counted + line[len(line.rstrip(white)) :].count(space)
        if line.endswith(line_feed) or end == len(text):
            yield text[start:end], width
            start, width = end, 0


@functools.lru_cache(maxsize=None)
def kept(kind: Kind, strictness: Optional[Strictness] = None, by_cluster: Optional[bool] = None) -> Segmenter:
    """Returns the segmenter of a kind, with these options, that all threads share. It is made when it is first asked for."""
    return Segmenter(kind, strictness=strictness, by_cluster=by_cluster)
