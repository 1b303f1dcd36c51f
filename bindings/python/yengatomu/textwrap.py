"""The standard library's textwrap, whose lines end where UAX #14 lets them, and whose widths are columns as terminals show them.

    >>> from yengatomu import textwrap
    >>> print(textwrap.fill("東京に行きます。ありがとうございます。", 19, initial_indent="一 ", subsequent_indent="   "))
    一 東京に行きます。
       ありがとうござい
       ます。
    >>> textwrap.shorten("東京に行きます。ありがとうございます。", 18, placeholder="…")
    '東京に行きます。…'

Names, parameters and defaults are those of the standard library, and `dedent` and `indent` are its own. What differs:

- A line may also end between ideographs, behind a slash and so on. It ends behind `--` and not before, and not before a "!" that follows a space.
- The width, indents, tabs and the placeholder are counted in columns: wide characters take two, and marks none.
- What is wider than a line is broken at white space in it, or between grapheme clusters.
- Without `break_on_hyphens` no line ends right behind a hyphen, but it still may between ideographs, and wherever else UAX #14 lets it.
- `segmenter` is new: a Segmenter of LINES that has dictionaries, options, or columns by cluster. By default it has none of these.
"""

import textwrap as _textwrap
from bisect import bisect_right
from itertools import accumulate
from textwrap import dedent, indent
from typing import Any, Dict, Iterable, List, Optional

from . import _segmenter
from .options import Kind

__all__ = ["TextWrapper", "dedent", "fill", "indent", "shorten", "wrap"]

_HYPHENS = ("-", "\u2010")


class TextWrapper(_textwrap.TextWrapper):
    """Wraps paragraphs as the standard library's does, but by line breaks of UAX #14 and by columns: `help(yengatomu.textwrap)` has what differs."""

    def __init__(
        self,
        width: int = 70,
        initial_indent: str = "",
        subsequent_indent: str = "",
        expand_tabs: bool = True,
        replace_whitespace: bool = True,
        fix_sentence_endings: bool = False,
        break_long_words: bool = True,
        drop_whitespace: bool = True,
        break_on_hyphens: bool = True,
        tabsize: int = 8,
        *,
        max_lines: Optional[int] = None,
        placeholder: str = " [...]",
        segmenter: Optional[_segmenter.Segmenter] = None,
    ) -> None:
        super().__init__(
            width,
            initial_indent,
            subsequent_indent,
            expand_tabs,
            replace_whitespace,
            fix_sentence_endings,
            break_long_words,
            drop_whitespace,
            break_on_hyphens,
            tabsize,
            max_lines=max_lines,
            placeholder=placeholder,
        )
        self.segmenter = segmenter

    def _lines(self) -> _segmenter.Segmenter:
        lines = self.segmenter or _segmenter.kept(Kind.LINES)
        lines._must_be(Kind.LINES)
        return lines

    def _columns(self, texts: Iterable[str]) -> Dict[str, int]:
        """Returns how many columns each text takes. White space counts as spaces."""
        each = list(dict.fromkeys(texts))
        whole = "".join(f"{it.translate(self.unicode_whitespace_trans)}\n" for it in each)
        return dict(zip(each, (columns for _, columns in _segmenter.rows(whole, self._lines()._by_cluster))))

    def _munge_whitespace(self, text: str) -> str:
        if self.expand_tabs and self.tabsize > 0:
            text = _segmenter.expanded(text, self.tabsize)
        return super()._munge_whitespace(text)

    def _split(self, text: str) -> List[str]:
        """Returns what stands between the places where a line may end, with the white space behind it as a chunk of its own."""
        plain, chunks = text.translate(self.unicode_whitespace_trans), []
        places = self._lines().boundaries(plain)
        if not self.break_on_hyphens:
            places = [it for it in places if plain[it - 1 : it] not in _HYPHENS or it == len(plain)]
        for start, end in zip(places, places[1:]):
            middle = start + len(plain[start:end].rstrip(" "))
            chunks += [text[start:middle], text[middle:end]]
        return [it for it in chunks if it]

    def _wrap_chunks(self, chunks: List[str]) -> List[str]:
        columns = self._columns([*chunks, self.initial_indent, self.subsequent_indent, self.placeholder, self.placeholder.lstrip()])
        self._must_fit(columns)
        lines: List[str] = []
        rest = chunks[::-1]
        while rest:
            indentation = self.subsequent_indent if lines else self.initial_indent
            room = self.width - columns[indentation]
            while lines and self._ends_white(rest):
                rest.pop()
            line = self._taken(rest, room, columns)
            while self._ends_white(line):
                if not line.pop():
                    # (it is the empty piece of a word that was cut: white space before that stays, as in the standard library)
                    break
            if not line:
                continue
            if not self._may_stand(line, lines, rest, room, columns):
                self._truncate(line, lines, indentation, room, columns)
                break
            lines.append(indentation + "".join(line))
        return lines

    def _must_fit(self, columns: Dict[str, int]) -> None:
        """ValueError where the width is too small."""
        if self.width <= 0:
            raise ValueError(f"invalid width {self.width!r} (must be > 0)")
        if self.max_lines is not None:
            indentation = self.subsequent_indent if self.max_lines > 1 else self.initial_indent
            if columns[indentation] + columns[self.placeholder.lstrip()] > self.width:
                raise ValueError("placeholder too large for max width")

    def _ends_white(self, chunks: List[str]) -> bool:
        """Returns whether the last chunk is white space that is to be dropped."""
        return self.drop_whitespace and bool(chunks) and not chunks[-1].strip()

    def _taken(self, rest: List[str], room: int, columns: Dict[str, int]) -> List[str]:
        """Takes the chunks of a line off the rest, whose last is the next of the text."""
        line: List[str] = []
        left = room
        while rest:
            if columns[rest[-1]] > room and self.break_long_words:
                self._part(rest, columns)
            if columns[rest[-1]] > left:
                break
            left -= columns[rest[-1]]
            line.append(rest.pop())
        if rest and columns[rest[-1]] > room:
            if self.break_long_words:
                # (white space at the text's start is dropped, and what comes behind it belongs to the same line)
                later = room if self._ends_white(rest) else self.width - columns[self.subsequent_indent]
                self._cut(rest, line, left, max(later, 1), columns)
            elif not line:
                line.append(rest.pop())
        return line

    def _part(self, rest: List[str], columns: Dict[str, int]) -> None:
        """Parts the last chunk at the white space in it, where UAX #14 would let no line end."""
        parts = [it for it in self.wordsep_simple_re.split(rest.pop()) if it]
        columns.update(self._columns(parts))
        rest.extend(reversed(parts))

    def _cut(self, rest: List[str], line: List[str], left: int, later: int, columns: Dict[str, int]) -> None:
        """Cuts the last chunk between clusters: into what fits the columns that are left of a line, and pieces that fill later lines."""
        clusters = list(_segmenter.kept(Kind.CLUSTERS).segments(rest.pop()))
        widths = self._columns(clusters)
        ends = list(accumulate((widths[it] for it in clusters), initial=0))
        pieces: List[str] = []
        # (the first piece is empty if the line has begun and no cluster fits)
        start, room, least = 0, left, 0 if line else 1
        while ends[-1] - ends[start] > room:
            end = max(bisect_right(ends, ends[start] + room) - 1, start + least)
            if self.break_on_hyphens:
                end = _behind_hyphen(clusters, start, end)
            pieces.append("".join(clusters[start:end]))
            columns[pieces[-1]] = ends[end] - ends[start]
            start, room, least = end, later, 1
        pieces.append("".join(clusters[start:]))
        columns[pieces[-1]] = ends[-1] - ends[start]
        line.append(pieces[0])
        rest.extend(it for it in pieces[:0:-1] if it)

    def _may_stand(self, line: List[str], lines: List[str], rest: List[str], room: int, columns: Dict[str, int]) -> bool:
        """Returns whether a line may stand as it is: there may be others behind it, or it fits and is the last."""
        if self.max_lines is None or len(lines) + 1 < self.max_lines:
            return True
        is_last = not rest or self.drop_whitespace and not any(it.strip() for it in rest)
        return is_last and sum(columns[it] for it in line) <= room

    def _truncate(self, line: List[str], lines: List[str], indentation: str, room: int, columns: Dict[str, int]) -> None:
        """Ends the last line by the placeholder, in place of the chunks that leave no room for it."""
        taken = sum(columns[it] for it in line)
        while line:
            if line[-1].strip() and taken + columns[self.placeholder] <= room:
                lines.append(indentation + "".join(line) + self.placeholder)
                return
            taken -= columns[line.pop()]
        if lines:
            before = lines[-1].rstrip()
            if self._columns([before])[before] + columns[self.placeholder] <= self.width:
                lines[-1] = before + self.placeholder
                return
        lines.append(indentation + self.placeholder.lstrip())


def _behind_hyphen(clusters: List[str], start: int, end: int) -> int:
    """Returns the place behind the last hyphen there, if something else stands before it, and otherwise the end."""
    for hyphen in range(end - 1, start, -1):
        if clusters[hyphen] in _HYPHENS:
            return hyphen + 1 if any(it not in _HYPHENS for it in clusters[start:hyphen]) else end
    return end


def wrap(text: str, width: int = 70, **options: Any) -> List[str]:
    """Returns the lines of a paragraph, of no more than `width` columns. The options are those of `TextWrapper`."""
    return TextWrapper(width, **options).wrap(text)


def fill(text: str, width: int = 70, **options: Any) -> str:
    """Returns the lines of a paragraph as one text."""
    return TextWrapper(width, **options).fill(text)


def shorten(text: str, width: int, **options: Any) -> str:
    """Returns a text on one line, with one space for all white space that stands together, and the placeholder for what doesn't fit."""
    return TextWrapper(width, max_lines=1, **options).fill(" ".join(text.strip().split()))
