"""Measures how long the package takes for texts of 10 MB.

    YENGATOMU_LIB_DIR=../lib python3 speed.py FILE..

Of each file, repeated or cut off to 10 MB, and each kind: seconds for all boundaries of the str and of its bytes, for all segments as str, and for counting
them; the best of three. Of lines also for wrapping to 80 columns. Then for lists of all segments by one call, and by a call for each line of the text.
"""

import sys
import time

import yengatomu
from yengatomu import Kind, Segmenter

SIZE = 10_000_000


def seconds(call, *given):
    """Returns the best time of three calls."""
    best = float("inf")
    for _ in range(3):
        start = time.perf_counter()
        call(*given)
        best = min(best, time.perf_counter() - start)
    return best


def exhaust(call):
    def run(*given):
        for _ in call(*given):
            pass

    return run


def main(paths):
    print("| text, kind | segments | boundaries of str | of bytes | segments of str | count |\n|---|---|---|---|---|---|")
    for path in paths:
        with open(path, "rb") as it:
            sample = it.read()
        units = (sample * (SIZE // len(sample) + 1))[:SIZE]
        text = units.decode("utf-8", "ignore")
        for kind in Kind:
            it = Segmenter(kind)
            times = [seconds(it.boundaries, text), seconds(it.boundaries, units), seconds(exhaust(it.segments), text), seconds(it.count, text)]
            print(f"| {path}, {kind.name} | {it.count(text):,} | {' | '.join(f'{one:.2f}' for one in times)} |", flush=True)
        lines = text.splitlines(True)
        for call in (yengatomu.graphemes, yengatomu.words, yengatomu.sentences, yengatomu.lines):
            whole, each = seconds(call, text), seconds(lambda: [call(it) for it in lines])
            print(f"| {path}, {call.__name__}() of the whole {whole:.2f}, of each of {len(lines):,} lines {each:.2f}: {each / whole:.1f} times | | | | | |", flush=True)
        print(f"| {path}, wrapped | | | | {seconds(exhaust(Segmenter(Kind.LINES).wrap), text, 80):.2f} | |", flush=True)


if __name__ == "__main__":
    sys.exit(main(sys.argv[1:]))
