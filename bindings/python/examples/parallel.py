"""Counts the words of a file in so many threads, one if none are named, and says how long that took.

    python3 examples/parallel.py FILE [THREADS]

A text may be split behind line feeds: its parts have the words that it has. All threads share one segmenter, which holds no lock while it counts.
"""

import sys
import time
from concurrent.futures import ThreadPoolExecutor

from yengatomu import Kind, Segmenter

WORDS = Segmenter(Kind.WORDS)


def parts(text, most):
    """Splits bytes behind line feeds into at most so many parts, of about the same size where the lines are short."""
    found, size, start = [], -(-len(text) // most), 0
    while start < len(text):
        feed = text.find(b"\n", start + size - 1)
        end = feed + 1 if feed >= 0 else len(text)
        found.append(text[start:end])
        start = end
    return found


def count_words(split):
    """Counts the words of the parts of a text, each in a thread of its own."""
    with ThreadPoolExecutor(len(split) or 1) as pool:
        return sum(pool.map(WORDS.count_words, split))


def main(path, threads="1"):
    with open(path, "rb") as it:
        split = parts(it.read(), int(threads))
    # (the parts are copies, which in C and Rust they aren't)
    start = time.perf_counter()
    count = count_words(split)
    print(f"{count} words in {time.perf_counter() - start:.3f} s")


if __name__ == "__main__":
    main(*sys.argv[1:])
