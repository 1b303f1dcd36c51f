"""What segmenters are asked for, and what they say of words."""

from enum import IntEnum

__all__ = ["Kind", "Script", "Strictness", "WordBreak", "WordType"]


class Kind(IntEnum):
    """What a text is cut into."""

    CLUSTERS = 0
    WORDS = 1
    SENTENCES = 2
    LINES = 3


class Strictness(IntEnum):
    """How strictly lines break, as `line-break` of CSS Text 3 has it. By ANYWHERE they break at each grapheme cluster, unless `word_break` is given."""

    STRICT = 0
    NORMAL = 1
    LOOSE = 2
    ANYWHERE = 3


class WordBreak(IntEnum):
    """Whether lines break within words, as `word-break` of CSS Text 3 has it."""

    NORMAL = 0
    BREAK_ALL = 1
    KEEP_ALL = 2


class Script(IntEnum):
    """The scripts of dictionaries."""

    MYANMAR = 1
    CHINESE_OR_JAPANESE = 2
    KHMER = 3
    LAO = 4
    THAI = 5


class WordType(IntEnum):
    """What a segment of words is."""

    NO_WORD = 0
    NUMBER = 1
    LETTERS = 2
