"""What a checker of types must find of the package: tools/test_bindings runs `mypy --strict` on it. Where a use is wrong, it must say so."""

from pathlib import Path
from typing import Iterator, List, Optional, Tuple, Union

import yengatomu
from yengatomu import Kind, Script, Segmenter, Strictness, WordBreak, WordType, options, textwrap

Span = Tuple[int, int, WordType]

strings: List[str] = yengatomu.words("a") + yengatomu.graphemes("a") + yengatomu.sentences("a", join=True) + yengatomu.lines("a")
strings += yengatomu.wrap("a", 1, tabs=8, join=True, break_words=True, by_cluster=True)
parts: List[bytes] = yengatomu.words(b"a") + yengatomu.wrap(b"a", 1)
prepared: str = yengatomu.join_lines(yengatomu.expand_tabs("a", 8))
places: List[int] = yengatomu.boundaries(b"a", options.Kind.WORDS)
spans: List[Span] = yengatomu.word_spans("a") + yengatomu.word_spans(b"a")
count: int = yengatomu.count_words("a")
versions: Tuple[str, str] = yengatomu.version(), yengatomu.unicode_version(Kind.LINES)

words = Segmenter(Kind.WORDS)
lines = Segmenter(Kind.LINES, strictness=Strictness.LOOSE, word_break=WordBreak.KEEP_ALL, chinese_or_japanese=True, by_cluster=True)
sentences = Segmenter(Kind.SENTENCES)
sentences.load_abbreviations(["Mr.", b"Mrs."])
sentences.load_language(Path("dictionaries"), "en")
scripts: List[Script] = words.load_dictionaries(Path("dictionaries")) + lines.load_dictionaries("dictionaries")
with open("thai.txt", encoding="utf-8") as thai:
    words.load_dictionary(thai, Script.THAI)
words.load_dictionary([b"a", "b"], Script.LAO)
marked: Iterator[Tuple[str, Union[WordType, bool]]] = words.marked_segments("a")
each: Iterator[Span] = words.word_spans("a")
pairs: Iterator[Tuple[int, int]] = words.spans(b"a")
wrapped: Iterator[Tuple[bytes, int]] = lines.wrapped(b"a", 1, break_words=True)
near: Optional[int] = words.next("a", 0) or words.previous(b"a", 0)
kind: Kind = Segmenter.by_rules("÷").kind
rows: List[str] = textwrap.wrap("a", 9, max_lines=2, segmenter=lines) + textwrap.TextWrapper(9, segmenter=lines).wrap("a")
filled: str = textwrap.fill("a") + textwrap.shorten("a", 9, placeholder="..") + textwrap.dedent("a") + textwrap.indent("a", "b")

yengatomu.words(1)  # type: ignore[type-var]
yengatomu.words(["a"])  # type: ignore[type-var]
yengatomu.boundaries("a")  # type: ignore[call-arg]
Segmenter("words")  # type: ignore[arg-type]
Segmenter(Kind.LINES, strict=True)  # type: ignore[call-arg]
textwrap.TextWrapper(columns=9)  # type: ignore[call-arg]
textwrap.wrap(b"a")  # type: ignore[arg-type]
