#!/usr/bin/env python3
"""growth.py: how the time of the library's calls grows with the text, with dictionaries.

    tools/beside/growth.py TEXTS LISTS [MB..]      TEXTS: the folder that `texts` wrote; LISTS: the one of tools/dictionaries; 1 2 4 8 where no size is named

It loads the five lists into a slot of words and one of lines of bindings/lib, and calls them with each text, repeated, once as it is and once as one line
without a line feed. A row for each call has its milliseconds for each size: `fill`, one call with room for all; `256` and `1`, calls with room for so many, one
behind the other, over the whole text and over its first 20,000 bytes; `next` and `previous` at its middle; `wrap` to 72 columns with room for 256 lines.
"""
import ctypes
import os
import sys
import time

sys.dont_write_bytecode = True
ROOT = os.path.dirname(os.path.dirname(os.path.dirname(os.path.realpath(__file__))))
os.environ.setdefault("YENGATOMU_LIB_DIR", f"{ROOT}/bindings/lib")
sys.path.insert(0, f"{ROOT}/bindings/python")
from yengatomu import Kind, Segmenter, _library as c  # noqa: E402


def slot_of(kind, lists):
    """Returns a segmenter of a kind with all five lists, and where its slot is."""
    segmenter = Segmenter(kind)
    assert len(segmenter.load_dictionaries(lists)) >= 4
    return segmenter, segmenter._slot.here


def ends_of(slot, text, room, most):
    """Asks for the boundaries of a text in calls of so much room, up to `most` bytes, and returns how many there are."""
    ends, begin, found = (ctypes.c_size_t * room)(), 0, 0
    while begin < most:
        count = c.boundaries(slot, text, len(text), begin, ends, room)
        if not count:
            break
        begin, found = ends[count - 1], found + count
    return found


def lines_of(slot, text, room, most):
    """The same of wrapped lines."""
    ends, columns, begin, found = (ctypes.c_size_t * room)(), (ctypes.c_uint64 * room)(), 0, 0
    while begin < most:
        count = c.wrap_columns(slot, text, len(text), begin, 72, ends, room, columns, room)
        if not count:
            break
        begin, found = ends[count - 1], found + count
    return found


def near(call, slot, text):
    """Asks for the boundary beside the middle of a text."""
    call(slot, text, len(text), len(text) // 2)


def timed(work):
    start = time.perf_counter()
    work()
    return 1000 * (time.perf_counter() - start)


def rows(slots, text):
    """Yields each call's name, and what it does."""
    for name, slot in slots.items():
        yield f"{name} fill", lambda: ends_of(slot, text, len(text), len(text))
        yield f"{name} 256", lambda: ends_of(slot, text, 256, len(text))
        yield f"{name} 1", lambda: ends_of(slot, text, 1, 20000)
        yield f"{name} next", lambda: near(c.next_boundary, slot, text)
        yield f"{name} previous", lambda: near(c.previous_boundary, slot, text)
    yield "words count_words", lambda: c.count_words(slots["words"], text, len(text))
    yield "lines wrap", lambda: lines_of(slots["lines"], text, 256, len(text))


def main(texts, lists, *sizes):
    kept = {"words": slot_of(Kind.WORDS, lists), "lines": slot_of(Kind.LINES, lists)}
    slots = {name: at for name, (_, at) in kept.items()}
    sizes = [int(it) for it in sizes] or [1, 2, 4, 8]
    for name in ("english", "thai", "chinese", "mixed"):
        with open(f"{texts}/{name}.txt", "rb") as it:
            part = it.read().decode(errors="ignore").encode()
        for label, end in (("lines", b"\n"), ("one line", b"")):
            table = {}
            for size in sizes:
                text = ((part + end) * (size * 1_000_000 // len(part) + 1))[: size * 1_000_000]
                for row, work in rows(slots, text):
                    table.setdefault(row, []).append(timed(work))
            for row, found in table.items():
                print(f"{name:8} {label:9} {row:18}" + "".join(f"{it:10.1f}" for it in found), flush=True)


main(*sys.argv[1:])
