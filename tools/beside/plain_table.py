#!/usr/bin/env python3
"""plain_table.py: instructions a byte of crates/speed by real data and of plain.c, and how many times more the former takes.

    apt-get install valgrind
    tools/beside/texts TEXTS
    tools/beside/plain_table.py crates/speed/out/speed PLAIN TEXTS [ENGINE]..

PLAIN is the built program of plain.c. Figures are English/Thai/Chinese/mixed. It stops where the two find other boundaries.
"""
import pathlib
import re
import subprocess
import sys
import tempfile
import time

ENGINES = (
    "grapheme-classic", "grapheme-neo", "sentence-classic", "sentence-neo", "word-classic", "word-neo", "line-classic", "line-17", "line-neo",
)
TEXTS = ("english", "thai", "chinese", "mixed")


def output(*command):
    return subprocess.run(command, stdout=subprocess.PIPE, stderr=subprocess.DEVNULL, text=True, check=True).stdout


def found(rows, engine):
    """Returns the row of an engine by real data."""
    return re.search(rf"^{engine} real: .*", rows, re.MULTILINE)[0]


def instructions(part, *command):
    """Runs a command in callgrind, and returns how many instructions a part of its run took. No more than three parts are waited for."""
    with tempfile.TemporaryDirectory() as folder:
        words = ["valgrind", "--tool=callgrind", f"--callgrind-out-file={folder}/pass", *command]
        with subprocess.Popen(words, stdout=subprocess.DEVNULL, stderr=subprocess.DEVNULL) as run:
            while run.poll() is None and not pathlib.Path(f"{folder}/pass.4").exists():
                time.sleep(0.05)
            run.kill()
        return int(re.search(r"^totals: (\d+)", pathlib.Path(f"{folder}/{part}").read_text(), re.MULTILINE)[1])


def main(arguments):
    if len(arguments) < 3:
        sys.exit("usage: plain_table.py SPEED PLAIN TEXTS [ENGINE]..")
    speed, plain, folder, *engines = arguments
    for engine in engines or ENGINES:
        ours, theirs = [], []
        for name in TEXTS:
            text = f"{folder}/{name}.txt"
            here, there = found(output(speed, engine, text), engine), found(output(plain, text, engine), engine)
            if here != there:
                sys.exit(f"{name}: {here}; plain C: {there}")
            length = pathlib.Path(text).stat().st_size
            # The first pass over small data is the second part, and the first over real data the third.
            ours.append(instructions("pass.3", "--dump-before=speed::segmenter::tally*", speed, engine, text) / length)
            theirs.append(instructions("pass", "--toggle-collect=pass_*", plain, text, engine) / length)
        times = "/".join(f"{our / their:.1f}" for our, their in zip(ours, theirs))
        print(f"{engine:17} {'/'.join(f'{it:.0f}' for it in ours):15} {'/'.join(f'{it:.0f}' for it in theirs):15} {times}", flush=True)


if __name__ == "__main__":
    main(sys.argv[1:])
