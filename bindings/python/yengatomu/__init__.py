"""Text boundaries, proved: clusters, words and sentences of UAX #29 (Unicode 18.0), line breaks of UAX #14 revision 55 (Unicode 17).

    >>> import yengatomu
    >>> yengatomu.words("can't pay 3.14!")
    ["can't", 'pay', '3.14']
    >>> yengatomu.boundaries("can't pay", yengatomu.Kind.WORDS)
    [0, 5, 6, 9]

A text is `str`, and then places are its own indices, or `bytes` of UTF-8, which may be ill-formed. What is ill-formed counts as U+FFFD, and so does a
surrogate that stands alone in a `str`. Segments are slices of the text as it was given. Anything else is a TypeError.

The functions of this module use segmenters that all threads share, without dictionaries and abbreviations; `Segmenter` has both, and options of lines, and
`Segmenter.by_rules` makes one by rules of your own. What they are asked is in `yengatomu.options`, and here too:

    Kind         CLUSTERS, WORDS, SENTENCES, LINES
    Strictness   STRICT, NORMAL, LOOSE, ANYWHERE
    WordBreak    NORMAL, BREAK_ALL, KEEP_ALL
    Script       MYANMAR, CHINESE_OR_JAPANESE, KHMER, LAO, THAI
    WordType     NO_WORD, NUMBER, LETTERS
"""

# There is no __all__: by one, help() would have the pages of five enumerations as well. So names that aren't for callers begin with _.
import typing as _t

from . import _library, _segmenter, _texts
from ._segmenter import Segmenter as Segmenter
from .options import Kind as Kind
from .options import Script as Script
from .options import Strictness as Strictness
from .options import WordBreak as WordBreak
from .options import WordType as WordType

Segmenter.__module__ = __name__
_of = _segmenter.kept


def boundaries(text: _t.Union[str, bytes], kind: Kind) -> _t.List[int]:
    """Returns where a text may be cut, from 0 to its length."""
    return _of(Kind(kind)).boundaries(text)


def graphemes(text: _t.AnyStr) -> _t.List[_t.AnyStr]:
    """Returns the grapheme clusters of a text, which are what a reader takes for characters."""
    return list(_of(Kind.CLUSTERS).segments(text))


def words(text: _t.AnyStr) -> _t.List[_t.AnyStr]:
    """Returns its words, without what stands between them."""
    return list(_of(Kind.WORDS).words(text))


def word_spans(text: _t.Union[str, bytes]) -> _t.List[_t.Tuple[int, int, WordType]]:
    """Returns where each word begins and ends, and its type."""
    return list(_of(Kind.WORDS).word_spans(text))


def count_words(text: _t.Union[str, bytes]) -> int:
    """Returns how many words it has."""
    return _of(Kind.WORDS).count_words(text)


def sentences(text: _t.AnyStr, *, join: bool = False) -> _t.List[_t.AnyStr]:
    """Returns its sentences, with the spaces behind them; if asked, those of the text by `join_lines`, since a line feed ends a sentence."""
    return list(_of(Kind.SENTENCES).segments(_texts.joined(text) if join else text))


def lines(text: _t.AnyStr) -> _t.List[_t.AnyStr]:
    """Returns its parts between the places where a line may end."""
    return list(_of(Kind.LINES).segments(text))


def wrap(
    text: _t.AnyStr,
    columns: int,
    *,
    tabs: _t.Optional[int] = 8,
    join: bool = False,
    break_words: bool = False,
    by_cluster: bool = False,
    balanced: bool = False,
) -> _t.List[_t.AnyStr]:
    """Returns the lines that it is wrapped to, as by `Segmenter.wrap`, first by `expand_tabs` (with `tabs` columns; not if None), then, if asked, by `join_lines`.

    `by_cluster` counts columns by cluster, as a `Segmenter` with that option does; but tabs are expanded by character. `balanced` leaves the least ragged
    edge of all lines that fit.
    """
    if tabs is not None:
        text = _segmenter.expanded(text, _segmenter.size(tabs, "tabs", 1))
    lines = _of(Kind.LINES, None, True) if by_cluster else _of(Kind.LINES)
    return list(lines.wrap(_texts.joined(text) if join else text, columns, break_words=break_words, balanced=balanced))


def join_lines(text: _t.AnyStr) -> _t.AnyStr:
    """Returns a text in which a line feed between two words is a space, with the spaces, tabs and carriage returns around it, as by fmt.

    All stays where lines are blank, indented otherwise, or begin with ">" or "-- ", as the quotes and signatures of mail do, and at the text's start and end.
    """
    return _texts.joined(text)


def expand_tabs(text: _t.AnyStr, columns: int) -> _t.AnyStr:
    """Returns a text in which each tab is the spaces up to the next multiple of so many columns of its line, at least one, as by expand.

    Wide characters take two columns, and marks none. ValueError where `columns` is below 1.
    """
    return _segmenter.expanded(text, _segmenter.size(columns, "columns", 1))


def _version(number: int) -> str:
    return f"{number // 10000}.{number // 100 % 100}.{number % 100}"


def version() -> str:
    """Returns the version of the library."""
    return _version(_library.version())


def unicode_version(kind: Kind) -> str:
    """Returns the version of the Unicode data by which a kind is segmented. The rules of LINES are those of UAX #14 revision 55 (Unicode 17)."""
    return _version(_library.unicode_version(Kind(kind)))
