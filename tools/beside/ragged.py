#!/usr/bin/env python3
"""ragged.py: how ragged the right edge is by `segment wrap`, first fit and balanced, and by fmt, fold, Python's textwrap and Rust's, and how long each takes.

    tools/beside/ragged.py PROGRAM [TEXTWRAP]      as: ragged.py crates/segment/out/segment; TEXTWRAP: what textwrap/Cargo.toml builds

1,000 paragraphs of the text's sentences are wrapped to 72 columns, each a line before. What counts is the sum of the squares of the columns that all lines
but each paragraph's last leave free; and the nanoseconds a byte of the fastest of three runs, each with its start, which textwrap's hasn't. The columns are
counted by code point, so the text is of letters that take one each.
"""
import os
import random
import re
import subprocess
import sys
import tempfile
import textwrap
import time

COLUMNS, PARAGRAPHS = 72, 1000
ROOT = os.path.dirname(os.path.dirname(os.path.dirname(os.path.realpath(__file__))))


def paragraphs_of(text):
    """Returns paragraphs of three to twelve sentences of the text."""
    it, sentences = random.Random(1), re.findall(r"[^.!?]+[.!?]+", " ".join(text.split()))
    return [" ".join(one.strip() for one in it.choices(sentences, k=it.randrange(3, 13))) for _ in range(PARAGRAPHS)]


def raggedness(wrapped):
    """Returns the sum of squares, and how many lines there are, of paragraphs with a blank line after each."""
    cost = count = 0
    for paragraph in wrapped.strip("\n").split("\n\n"):
        lines = [line.rstrip() for line in paragraph.split("\n")]
        cost, count = cost + sum(max(0, COLUMNS - len(line)) ** 2 for line in lines[:-1]), count + len(lines)
    return cost, count


def by_program(words, path):
    def run():
        with open(path, "rb") as text:
            return subprocess.run(words, stdin=text, capture_output=True, check=True).stdout.decode()
    return run


def main(words):
    program, textwrap_of_rust = words[0], words[1:]
    with open(f"{ROOT}/crates/speed/data/english.txt", encoding="utf-8") as it:
        paragraphs = paragraphs_of(it.read())
    with tempfile.NamedTemporaryFile("w", encoding="utf-8", suffix=".txt") as text:
        text.write("".join(f"{it}\n\n" for it in paragraphs))
        text.flush()
        size, columns = os.path.getsize(text.name), str(COLUMNS)
        ways = {
            "segment wrap": by_program([program, "wrap", columns], text.name),
            "segment wrap --balanced": by_program([program, "wrap", "--balanced", columns], text.name),
            f"fmt -w {columns} -g {columns}": by_program(["fmt", "-w", columns, "-g", columns], text.name),
            f"fold -s -w {columns}": by_program(["fold", "-s", "-w", columns], text.name),
            "Python's textwrap": lambda: "".join(textwrap.fill(it, COLUMNS) + "\n\n" for it in paragraphs),
        }
        for path in textwrap_of_rust:
            ways |= {f"Rust's textwrap, {fit}": by_program([path, fit, columns], text.name) for fit in ("first-fit", "optimal-fit")}
        for name, run in ways.items():
            seconds = []
            for _ in range(3):
                start = time.perf_counter()
                wrapped = run()
                seconds.append(time.perf_counter() - start)
            cost, count = raggedness(wrapped)
            print(f"{name}: {cost:,} in {count:,} lines, {min(seconds) / size * 1e9:.0f} ns a byte")


if __name__ == "__main__":
    main(sys.argv[1:])
