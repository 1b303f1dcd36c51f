#!/usr/bin/env python3
"""rows_table.py: instructions and nanoseconds a byte of all boundaries by machine, written into a buffer: by rows in C, by the library, by scans in C.

    apt-get install valgrind
    tools/beside/texts TEXTS
    tools/beside/rows_table.py ROWS TEXTS [KIND]..

ROWS is the built program of rows.c. Figures are English/Thai/Chinese/mixed, instructions first. A KIND is clusters, words, sentences or lines.
"""
import re
import sys

from plain_table import TEXTS, instructions, output

WAYS = {"rows": "by_rows", "Yengatomu": "yengatomu_boundaries", "scans": "by_scans"}
LENGTH = 300_000


def main(arguments):
    if len(arguments) < 2:
        sys.exit("usage: rows_table.py ROWS TEXTS [KIND]..")
    rows, folder, *kinds = arguments
    texts = [f"{folder}/{name}.txt" for name in TEXTS]
    for kind in kinds or ("clusters", "words", "sentences", "lines"):
        times = [output(rows, text, "50", kind) for text in texts]
        for way, function in WAYS.items():
            counts = "/".join(f"{instructions('pass', f'--toggle-collect={function}*', rows, text, '1', kind) / LENGTH:.0f}" for text in texts)
            print(f"{kind:10} {way:10} {counts:12}", "/".join(re.search(rf"{way} ([\d.]+)", time)[1] for time in times), flush=True)


if __name__ == "__main__":
    main(sys.argv[1:])
