#!/usr/bin/env python3
"""Writes ranges.rt and transitions.rt of clusters, of words and of sentences, out of the rows of Unicode that Rattle's crates have, and
the certificates by which the proof checks each machine against the rows of rules (proofs/ClusterCertificate.antt and so on); and
the machine of words with types and scripts (src/words/typed/data.rt), with what its states know (proofs/TypedStates.antt).

usage: generate.py FOLDER

FOLDER is the one of Rattle's guides, which has the crates ucd_breaks, ucd_derived, ucd_emoji and ucd_script. Nothing that this program
writes is trusted: where the crate is checked it is proved that the ranges have the properties of the rows (proofs/Properties.antt,
WordSymbols.antt and SentenceSymbols.antt), and by the certificates that each machine's boundaries are the places of the rules."""
import os
import sys

sys.dont_write_bytecode = True
import clusters  # noqa: E402
import sentences  # noqa: E402
import typed_words  # noqa: E402
import words  # noqa: E402
from rows import ranges_file, transitions_file  # noqa: E402
from rules import certificate, machine_of  # noqa: E402

CRATE = os.path.join(os.path.dirname(os.path.abspath(__file__)), "..")


def write(name, text):
    with open(os.path.join(CRATE, *name.split("/")), "w", encoding="utf-8") as out:
        out.write(text)


def main():
    for kind, source, folder, module in (("cluster", clusters, "src", "crate"), ("sentence", sentences, "src/sentences", "crate::sentences"),
                                         ("word", words, "src/words", "crate::words")):
        table = source.transitions()
        write(f"{folder}/ranges.rt", "\n".join(ranges_file(source.symbols_of(sys.argv[1]), module, f"{kind}s, for {'`machine`' if kind == 'cluster' else 'their machine'}")) + "\n")
        write(f"{folder}/transitions.rt", "\n".join(transitions_file(table, module, "clusters, for `machine`" if kind == "cluster" else f"{kind}s")) + "\n")
        text, numbers = certificate(kind, list(source.SYMBOLS), machine_of(table, source.state_names(), source.accepting()))
        write(f"proofs/{kind.capitalize()}Certificate.antt", text)
        print(numbers)
    machine = typed_words.TypedMachine(machine_of(words.transitions(), words.state_names(), words.accepting()))
    write("src/words/typed/data.rt", typed_words.data(sys.argv[1], machine))
    write("proofs/TypedStates.antt", typed_words.knowledge(machine))
    print(f"typed words: {len(machine.states)} states")


if __name__ == "__main__":
    main()
