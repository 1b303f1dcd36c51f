"""Ten threads at once find by one segmenter what one thread found before.

    YENGATOMU_LIB_DIR=../lib python3 tests/races.py FILE [write]      in bindings/python

By a segmenter of each kind, with words where it takes some, and by rules. The file is a text of UTF-8 that has ภาษา, 蜜蜂 and "biển." in it. tools/test_bindings runs
it under a race detector, which must report what `write` does: each thread writes to the slot of a segmenter what that has already.
"""

import ctypes
import sys
import threading

from yengatomu import Kind, Script, Segmenter

THREADS = 10
RULES = "A = [a]\nA × A\n÷\n"


def segmenters():
    """Returns a segmenter of each kind, with words where it takes some, and one by rules."""
    words, sentences, lines = Segmenter(Kind.WORDS), Segmenter(Kind.SENTENCES), Segmenter(Kind.LINES, by_cluster=True)
    words.load_dictionary(["ภาษา", "ไทย"], Script.THAI)
    words.load_dictionary(["蜜蜂"], Script.CHINESE_OR_JAPANESE)
    sentences.load_abbreviations(["biển."])
    lines.load_dictionary(["ภาษา", "ไทย"], Script.THAI)
    return [Segmenter(Kind.CLUSTERS), words, sentences, lines, Segmenter.by_rules(RULES)]


def found(segmenter, text):
    """Returns what calls find of a str, which goes to the library in UTF-16, and of its bytes."""
    units, middle = text.encode(), len(text) // 2
    places = segmenter.boundaries(text), segmenter.boundaries(units), segmenter.next(text, middle), segmenter.previous(text, middle)
    counts = segmenter.count(text), segmenter.count(units)
    if segmenter.kind is Kind.LINES:
        return places, counts, list(segmenter.wrapped(text, 30))
    return places, counts, segmenter.count_words(text) if segmenter.kind is Kind.WORDS else 0


def are_alike(segmenter, text, writes):
    """Returns whether ten threads find what one did."""
    wanted, same, ready = found(segmenter, text), [], threading.Barrier(THREADS)
    # (a race is reported only where one thread writes while another reads, so they write often)
    rounds = 20 if writes else 1

    def ask():
        ready.wait()
        for _ in range(rounds):
            if writes:
                ctypes.memset(segmenter._slot.here, 1, 1)
            same.append(found(segmenter, text) == wanted)

    threads = [threading.Thread(target=ask) for _ in range(THREADS)]
    for it in threads:
        it.start()
    for it in threads:
        it.join()
    return same == [True] * THREADS * rounds


def main(path, writes=""):
    with open(path, encoding="utf-8") as it:
        text = it.read()
    same = [are_alike(it, text, writes) for it in segmenters()[: 1 if writes else None]]
    print(f"{THREADS} threads")
    return 0 if all(same) else 1


if __name__ == "__main__":
    sys.exit(main(*sys.argv[1:]))
