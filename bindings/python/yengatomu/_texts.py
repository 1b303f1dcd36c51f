"""Texts as the library reads them, and what is done to them before."""

import codecs
import re
import sys
from array import array
from bisect import bisect_left, bisect_right
from typing import AnyStr, List, Match, Optional, Sequence, Tuple, Union, cast

# A text as the library reads it: its units, how many there are, whether they are of UTF-16, and where the second unit of each pair is.
Units = Tuple[bytes, int, bool, Sequence[int]]

# What is a pair of units in UTF-16.
PAIR = re.compile("[\U00010000-\U0010ffff]")
# Has a surrogate that stands alone encoded as U+FFFD, so that places stay as they are.
_REPLACED = "yengatomu.replaced"
_IS_LITTLE = sys.byteorder == "little"
_LINE_FEEDS = b"\n", "\n".encode("utf-16-le" if _IS_LITTLE else "utf-16-be")
_encode = codecs.utf_16_le_encode if _IS_LITTLE else codecs.utf_16_be_encode


def _replaced(error: UnicodeError) -> Tuple[Union[str, bytes], int]:
    it = cast(UnicodeEncodeError, error)
    return ("\ufffd" * (it.end - it.start)).encode(it.encoding), it.end


codecs.register_error(_REPLACED, _replaced)


def must_be_text(text: Union[str, bytes]) -> None:
    """TypeError where it is neither str nor bytes."""
    if not isinstance(text, (str, bytes)):
        raise TypeError(f"a text is str or bytes, not {type(text).__name__}")


def units_of(text: Union[str, bytes]) -> Units:
    """Returns a text in the encoding whose places are most like its own: UTF-8 of bytes and ASCII, else UTF-16, where only pairs of units move what is behind them."""
    if isinstance(text, str):
        length = len(text)
        if text.isascii():
            return text.encode(), length, False, ()
        units = _encode(text, _REPLACED)[0]
        if len(units) == 2 * length:
            return units, length, True, ()
        return units, len(units) // 2, True, [it.start() + number for number, it in enumerate(PAIR.finditer(text), 1)]
    must_be_text(text)
    return text, len(text), False, ()


def indices(seconds: Sequence[int], places: "array[int]") -> List[int]:
    """Returns places, which rise, as indices of the text: as many less as there are pairs below."""
    if not seconds or not places:
        return places.tolist()
    pairs, last = bisect_left(seconds, places[0]), bisect_left(seconds, places[-1])
    found: List[int] = []
    for number in range(pairs, last):
        found += [it - number for it in places[len(found) : bisect_right(places, seconds[number])]]
    return found + [it - last for it in places[len(found) :]]


def up_to_line_feed(it: Units, places: "array[int]") -> int:
    """Returns how many of these places there are up to the last that is behind a line feed."""
    units, _, is_wide, _ = it
    size, line_feed, count = 1 + is_wide, _LINE_FEEDS[is_wide], len(places)
    while count and units[size * (places[count - 1] - 1) : size * places[count - 1]] != line_feed:
        count -= 1
    return count


def white_of(text: AnyStr) -> AnyStr:
    """Returns what isn't counted at the end of a line."""
    return " \n\r" if isinstance(text, str) else b" \n\r"


# A line that may be joined, and its indentation: one that isn't blank, quoted or before a signature. What isn't white space is spelt out: \S isn't the same.
_LINE = r"([ \t\r]*)(?!>|-- )[^ \t\n\r]"
_LINES, _LINES_BYTES = re.compile(_LINE), re.compile(_LINE.encode())


def _joined(lines: List[AnyStr], openings: "List[Optional[Match[AnyStr]]]", white: Tuple[AnyStr, AnyStr, AnyStr]) -> List[AnyStr]:
    (space, line_feed, around), made = white, lines[:1]
    for line, opening, before in zip(lines[1:], openings[1:], openings):
        if opening and before and opening.group(1) == before.group(1):
            made[-1] = made[-1].rstrip(around)
            made += (space, line.lstrip(around))
        else:
            made += (line_feed, line)
    return made


def joined(text: AnyStr) -> AnyStr:
    """Returns a text whose lines are joined."""
    if isinstance(text, str):
        lines = text.split("\n")
        return "".join(_joined(lines, [_LINES.match(it) for it in lines], (" ", "\n", " \t\r")))
    must_be_text(text)
    rows = text.split(b"\n")
    return b"".join(_joined(rows, [_LINES_BYTES.match(it) for it in rows], (b" ", b"\n", b" \t\r")))
