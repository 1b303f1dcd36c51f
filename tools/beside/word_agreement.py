#!/usr/bin/env python3
"""word_agreement.py: how many word boundaries of `segment` with ICU's lists are those of ICU4C, in the messages of Debian's programs.

    tools/dictionaries WORDS
    tools/beside/word_agreement.py SEGMENT ICU4C_PLACES WORDS [FOLDER]

SEGMENT is the built program, ICU4C_PLACES that of tools/beside/icu4c_places.cpp. The texts are the translations in the catalogues of CATALOGUES below, each
message on a line of its own, from FOLDER (/usr/share/locale); of these packages the versions of Debian 12. Boundaries are counted where the letters on both
sides are of the language's script, so that only the words of the list decide. A row has the language, its catalogues, how many such letters there are, and how
many boundaries there are by `segment`, by ICU4C and by both. What both texts are is left in WORDS as LANGUAGE.text.
"""
import re
import struct
import subprocess
import sys

# Each language, its locale and catalogues, and the letters of its script.
HAN_AND_KANA = "[\u3005\u3040-\u30ff\u3400-\u4dbf\u4e00-\u9fff]"
LANGUAGES = (
    ("Thai", "th", ("apt", "dpkg"), "[\u0e00-\u0e3a\u0e40-\u0e4e]"),
    ("Lao", "lo", ("iso_3166",), "[\u0e80-\u0eaf\u0eb0-\u0ecd\u0edc-\u0edf]"),
    ("Khmer", "km", ("apt", "dpkg"), "[\u1780-\u17d3]"),
    ("Burmese", "my", ("Linux-PAM", "iso_3166"), "[\u1000-\u103f]"),
    ("Chinese", "zh_CN", ("apt", "dpkg"), HAN_AND_KANA),
    ("Japanese", "ja", ("apt", "dpkg"), HAN_AND_KANA),
)


def messages(path):
    """Returns the translations of a catalogue, of which each is a line."""
    with open(path, "rb") as it:
        data = it.read()
    _, _, count, _, place = struct.unpack_from("<5I", data)
    pairs = struct.iter_unpack("<II", data[place:place + 8 * count])
    # The first is the catalogue's head.
    texts = [data[begin:begin + length].decode() for length, begin in pairs][1:]
    return "".join(re.sub(r"[\n\0]+", "\n", text).strip() + "\n" for text in texts)


def main(arguments):
    segment, icu4c_places, words, folder = (*arguments, "/usr/share/locale")[:4]
    for language, locale, catalogues, letter in LANGUAGES:
        text = "".join(messages(f"{folder}/{locale}/LC_MESSAGES/{name}.mo") for name in catalogues)
        path = f"{words}/{language}.text"
        with open(path, "w", encoding="utf-8") as it:
            it.write(text)
        # The place between two letters, in bytes.
        inner = {len(text[:found.end()].encode()) for found in re.finditer(f"{letter}(?={letter})", text)}
        ours = subprocess.run([segment, "word", "--offsets", "--dictionaries", words, path], capture_output=True, text=True, check=True).stdout
        theirs = subprocess.run([icu4c_places, path], capture_output=True, text=True, check=True).stdout
        ours, theirs = {int(line.split()[1]) for line in ours.splitlines()} & inner, set(map(int, theirs.split())) & inner
        print(f"{language} ({', '.join(catalogues)}): {len(re.findall(letter, text))} letters; {len(ours)}, {len(theirs)}, both {len(ours & theirs)}")


if __name__ == "__main__":
    main(sys.argv[1:])
