#!/usr/bin/env python3
"""Tests of tools/edits: python3 tools/test_edits.py. The last two check a small crate some fifteen times, which takes a minute."""
import contextlib
import importlib.machinery
import importlib.util
import io
import os
import subprocess
import sys
import tempfile
import time
import types
import unittest

sys.dont_write_bytecode = True


def load():
    loader = importlib.machinery.SourceFileLoader("edits", os.path.join(os.path.dirname(os.path.abspath(__file__)), "edits"))
    made = importlib.util.module_from_spec(importlib.util.spec_from_loader("edits", loader))
    sys.modules["edits"] = made
    loader.exec_module(made)
    return made


edits = load()

UNITS = """\
const LIMIT: u8 = 7;

impl<'a, U: Copy, E: ReadsUnits<U>> Iterator for Indices<'a, U, E> {
    const SIZE: usize = 1;
    fn next(&mut self) -> Option<usize>
        ensures { result ≡ 1 }
    {
        self.place()
    }
}

impl ReadsUnits<u8> for Latin1 {
    fn read_first(units: &[u8]) -> (usize, u32) {
        if units.len() > 0 {
            (1, 2)
        }
    }
}

impl Marked for bool {
    fn mark(self) -> u8 {
        self as u8
    }
}

impl Marked for () {
    fn mark(self) -> u8 {
        0
    }
}

impl<'a, E> Indices<'a, u8, E> {
    pub fn new_of_bytes(input: &'a [u8]) -> usize {
        input.len()
    }
}

impl<'a, U, E> Indices<'a, U, E> {
    pub fn new(input: &'a [u8]) -> Indices<'a> {
        input
    }
}

impl<'a> Parted for &'a [u16] {
    fn halves(self) -> usize {
        self.len() / 2
    }
}

impl<'a> FinderOf<&'a [u8]> for Latin1 {
    fn cover(&self, text: &'a [u8]) {
        let _ = text;
    }
}

impl<'a, S: FinderOf<&'a [u16]>> Indices<&'a [u16], S> {
    pub fn of_units(units: &'a [u16]) -> usize {
        units.len()
    }
}

pub trait Reads {
    fn fork(&self) -> Self
        ensures { result ≡ self.now };

    final fn rest(&self) -> usize {
        1 + 1
    }
}

pub fn seek(
    place: usize,
) -> usize {
    place
}

#[unsafe(no_mangle)]
pub extern "C" fn seek_for_c(place: usize) -> usize {
    seek(place)
}
"""

SAID = """\
./proofs/a/seek/Answers.antt:5:38: error: `returns`: computed as far as they go, the two types differ
./proofs/a/take/Answers.antt:5:38: error: `left` is not in scope
fn small::a::seek: not proved
fn small::a::take: not proved; it calls `small::a::seek`, which is not proved
fn small::a::first: no proof: expected answers in ./proofs/a/first/Answers.antt; `search` did not prove `returns-clause-rest`, `overflow`; it calls `small::a::seek`, which is not proved
fn small::a::caller: no proof: it calls `small::a::seek`, which is not proved
fn small::a::other: proved
"""


def edit(name, functions, pairs=()):
    return edits.Edit("small", name, f"edits/{name}.edit", list(pairs), {*functions})


class Places(unittest.TestCase):
    def place(self, old, new, path="src/indices/units.rt", homes=None):
        return edits.function_of(path, UNITS, old, new, homes)

    def test_names_are_those_of_a_check(self):
        self.assertEqual(self.place("self.place()", "0 * self.place()"), "indices::units::IndicesIterator::next")
        self.assertEqual(self.place("(1, 2)", "(2, 2)"), "indices::units::Latin1ReadsUnitsU8::read_first")
        self.assertEqual(self.place("self as u8", "1"), "indices::units::BoolMarked::mark")
        self.assertEqual(self.place("        0\n", "        1\n"), "indices::units::UnitMarked::mark")
        self.assertEqual(self.place("        input\n", "        &input[1..]\n"), "indices::units::Indices::new")
        self.assertEqual(self.place("        input\n", "        &input[1..]\n", homes={"Indices": "indices"}), "indices::Indices::new")
        self.assertEqual(self.place("input.len()", "1"), "indices::units::Indices+u8+E::new_of_bytes")
        self.assertEqual(self.place("self.len() / 2", "0"), "indices::units::RefSliceU16Parted::halves")
        self.assertEqual(self.place("let _ = text;", ""), "indices::units::Latin1FinderOfRefSliceU8::cover")
        self.assertEqual(self.place("1 + 1", "1"), "indices::units::Reads::rest")
        self.assertEqual(self.place("        units.len()\n", "        0\n"), "indices::units::Indices+ref+slice+u16+S::of_units")
        self.assertEqual(self.place("    place\n", "    place + 1\n"), "indices::units::seek")
        self.assertEqual(self.place("seek(place)", "seek(0)"), "indices::units::seek_for_c")
        self.assertEqual(self.place("    place\n", "    place + 1\n", path="src/lib.rt"), "seek")

    def test_what_a_body_begins_with_may_stand_behind_its_header(self):
        header = "pub fn new(input: &'a [u8]) -> Indices<'a> {"
        self.assertEqual(self.place(header, f"{header} let input = &input[1..];"), "indices::units::Indices::new")

    def test_what_is_no_body_is_no_function(self):
        self.assertIsNone(self.place("u8 = 7", "u8 = 8"))
        self.assertIsNone(self.place("SIZE: usize = 1", "SIZE: usize = 2"))
        self.assertIsNone(self.place("result ≡ 1", "result ≡ 2"))
        self.assertIsNone(self.place("    place: usize", "    _place: usize"))
        self.assertIsNone(self.place("    place\n", "    1\n", path="specs/A.antt"))


class Judging(unittest.TestCase):
    def test_refusals_are_a_functions_own(self):
        found = edits.refusals(SAID, "small")
        self.assertEqual(found, {"a::seek": "returns", "a::take": None, "a::first": "returns-clause-rest, overflow"})

    def test_a_round_is_judged_function_by_function(self):
        round = [edit("seeks", ["a::seek"]), edit("firsts", ["a::first"]), edit("takes", ["a::take"]), edit("others", ["a::other"])]
        verdicts, unclear, _ = edits.judge(SAID, "small", round)
        self.assertEqual([it.edit.name for it in verdicts], ["seeks", "firsts"])
        self.assertIn("returns of a::seek", verdicts[0].said)
        self.assertEqual([it.name for it in unclear], ["takes", "others"])

    def test_a_round_is_unclear_where_another_function_fails_by_itself(self):
        round = [edit("seeks", ["a::seek"]), edit("takes", ["a::take"])]
        self.assertEqual(edits.judge(SAID, "small", round), ([], round, ["a::first"]))

    def test_a_closure_fails_for_its_function(self):
        said = "fn small::a::fn::Type::find::any+FnMut::call_mut: no proof: expected answers; `search` did not prove `returns`"
        verdicts, _, others = edits.judge(said, "small", [edit("finds", ["a::Type::find"])])
        self.assertEqual(([it.said for it in verdicts], others), (["refused at returns of a::Type::find"], []))

    def test_an_edit_of_two_functions_wants_both_refused(self):
        round = [edit("both", ["a::seek", "a::take", "a::first"])]
        self.assertEqual(edits.judge(SAID, "small", round), ([], round, []))


LIST = """\
# A page with a table of edits

| wrong body | refused by each gate | what else |
|---|---|---|
| of another table | `small/always_one` | |

## Named wrong bodies

| wrong body | refused by each gate | in edits/, and what else |
|---|---|---|
| answers one less | `small/one_less` | |
| another number, or none | | `small/limit_of_eight`, `small/constant`; `tools/refusals` too |
| one less again | `small/one_less` | `small/always_one` |
| wants memory | | a row of `small/rows.rows` |
| is forgotten | | |

## Another part

| wrong body | refused by each gate | what else |
|---|---|---|
| of a later table | `small/another_promise` | |
"""


class Naming(unittest.TestCase):
    def test_the_table_is_read_under_its_heading(self):
        found, bare = edits.named(LIST)
        wanted = [("must-fail", "one_less"), ("edits", "limit_of_eight"), ("edits", "constant"), ("edits", "always_one")]
        self.assertEqual(found, [("small", folder, name) for folder, name in wanted])
        self.assertEqual(bare, ["is forgotten"])

    def test_a_page_without_the_table_lists_nothing(self):
        self.assertEqual(edits.named(LIST.replace("## Named", "## Some")), ([], []))

    def test_words_are_a_seed_or_crates(self):
        self.assertEqual(edits.arguments(["--jobs", "3", "--sample", "abc"]), ("3", "--sample", ["abc"]))
        self.assertEqual(edits.arguments(["--stand"]), (None, "--stand", []))
        self.assertEqual(edits.arguments(["--jobs", "3", "small"]), ("3", "", ["small"]))

    def test_this_repository_lists_edits_that_are_there(self):
        root = os.path.dirname(os.path.dirname(os.path.abspath(__file__)))
        with open(f"{root}/{edits.NAMED}", encoding="utf-8") as it:
            found, bare = edits.named(it.read())
        places = [f"{root}/crates/{crate}/{folder}/{name}.edit" for crate, folder, name in found]
        self.assertEqual([it for it in places if not os.path.isfile(it)], [])
        self.assertTrue(found and not bare)


class Sampling(unittest.TestCase):
    """Which edits a commit picks, of thirty crates with 1 to 40 edits each, every ninth tried alone."""

    def edits(self):
        found = {}
        for crate in range(30):
            count = 1 + crate * 13 % 40
            found[f"crate_{crate}"] = [edits.Edit(f"crate_{crate}", f"edit_{at}", "", [], {"a"} if at % 9 else set()) for at in range(count)]
        return found

    def test_the_parts_of_a_crate_are_few_and_hold_each_edit_once(self):
        for of in self.edits().values():
            parts = edits.parts_of(of)
            self.assertEqual(sorted(it.name for part in parts for it in part), sorted(it.name for it in of))
            self.assertLess(max(map(edits.weight, parts)), edits.PART + edits.ALONE)
            self.assertLessEqual(len(parts), -(-edits.weight(of) // edits.PART))

    def test_a_seed_picks_the_same_sample_again(self):
        labels = [[it.label for it in edits.sample_of(self.edits(), seed)] for seed in ("one", "one", "two")]
        self.assertEqual(labels[0], labels[1])
        self.assertNotEqual(labels[0], labels[2])

    def test_each_edit_is_tried_as_often_as_any_other(self):
        given, tries, count = self.edits(), {}, 2000
        most = edits.SAMPLE + edits.PART + edits.ALONE
        for seed in range(count):
            found = edits.sample_of(given, seed)
            self.assertTrue(edits.SAMPLE <= edits.weight(found) <= most)
            self.assertEqual(len({it.label for it in found}), len(found))
            for it in found:
                tries[it.label] = tries.get(it.label, 0) + 1
        self.assertEqual(len(tries), sum(map(len, given.values())))
        # a sample's part of the whole, more or less
        mean = count * edits.SAMPLE / sum(map(edits.weight, given.values()))
        self.assertTrue(0.7 * mean < min(tries.values()) and max(tries.values()) < 1.6 * mean, (mean, min(tries.values()), max(tries.values())))

    def test_a_sample_is_everything_where_there_is_little(self):
        few = {"crate_0": [edit("one", ["a"]), edit("two", ["a"])]}
        self.assertEqual(edits.sample_of(few, "any"), few["crate_0"])


class Built(unittest.TestCase):
    """Whether a library counts as built, by when it was put there."""

    def crate(self, room, name, below=()):
        folder = f"{room}/crates/{name}"
        made = types.SimpleNamespace(name=name, folder=folder, rlib=f"{folder}/out/rlib/{name}.rlib", below=lambda: below)
        for path in (f"{folder}/src/lib.rt", f"{room}/kept/{name}", f"{room}/crates.txt"):
            os.makedirs(os.path.dirname(path), exist_ok=True)
            with open(path, "w", encoding="utf-8") as it:
                it.write(name)
        # what an earlier run kept is older than the sources of a new clone
        os.utime(f"{room}/kept/{name}", (0, 0))
        return made

    def give(self, room, crate):
        os.makedirs(crate.rlib)
        os.link(f"{room}/kept/{crate.name}", f"{crate.rlib}/format")

    def test_a_kept_library_counts_from_when_it_was_given(self):
        with tempfile.TemporaryDirectory() as room:
            low = self.crate(room, "low")
            high = self.crate(room, "high", [low])
            self.assertFalse(edits.is_built(low))
            for it in (low, high):
                time.sleep(0.02)
                self.give(room, it)
            self.assertTrue(edits.is_built(low) and edits.is_built(high))
            time.sleep(0.02)
            os.utime(f"{low.folder}/src/lib.rt")
            self.assertFalse(edits.is_built(low))
            time.sleep(0.02)
            os.utime(low.rlib)
            self.assertTrue(edits.is_built(low))
            self.assertFalse(edits.is_built(high))


CRATE = """\
//! A crate for the tests of the edits.
#![tactic(auto)]

ghost use Rattle.std.specs.Prelude.{◌≡◌};

const LIMIT: u8 = 7;

/// The number.
pub fn same(number: u8) -> u8
    ensures { result ≡ number }
{
    number
}

/// The limit.
pub fn limit() -> u8
    ensures { result ≡ 7 }
{
    LIMIT
}

/// The limit, by way of another function.
pub fn limit_again() -> u8
    ensures { result ≡ 7 }
{
    same(limit())
}
"""

# Each edit, and whether it is refused as it must be.
EDITS = {
    "must-fail/one_less": ("    number", "    number ^ 1", True),
    "edits/always_one": ("    number", "    number | 1", True),
    "edits/limit_of_eight": ("    LIMIT", "    LIMIT ^ 15", True),
    "edits/limit_that_calls": ("same(limit())", "same(limit()) ^ same(limit())", True),
    "edits/constant": ("u8 = 7", "u8 = 8", True),
    "edits/another_promise": ("result ≡ number", "result ≡ 7", True),
    "edits/changes_nothing": ("same(limit())", "same(same(limit()))", False),
    "edits/name_gone": ("same(limit())", "missing(limit())", False),
    "edits/stands_twice": ("result ≡ 7", "result ≡ 8", False),
    "edits/stands_nowhere": ("LIMITS", "LIMIT", False),
}


class Whole(unittest.TestCase):
    def run_on(self, words, files=None, gone=()):
        """Runs the tool on a small crate with these further files and without some edits, and returns its status and its lines."""
        with tempfile.TemporaryDirectory() as room:
            self.write(room, files or {})
            for name in gone:
                os.remove(f"{room}/crates/small/{name}.edit")
            said = io.StringIO()
            here = os.getcwd()
            os.chdir(room)
            try:
                with contextlib.redirect_stdout(said):
                    status = edits.main(words)
            finally:
                os.chdir(here)
        return status, [it for it in said.getvalue().split("\n") if it]

    def failed(self, lines):
        return {*next(it for it in lines if it.startswith("FAILED: "))[8:].split()}

    def test_a_sample_leaves_must_fail_to_the_gate(self):
        status, lines = self.run_on(["--sample", "any"], {edits.NAMED: LIST})
        self.assertEqual(status, 1, lines)
        refused = [f"small/{os.path.basename(it)}" for it, (_, _, is_refused) in EDITS.items() if is_refused and it.startswith("edits/")]
        tried = {it.partition(": ")[0] for it in lines if it.startswith("small/") and ": refused at " in it or ": alone, refused" in it}
        self.assertEqual(tried, {*refused}, lines)
        wrong = {"small/changes_nothing", "small/name_gone", "small/stands_twice", "small/stands_nowhere", "is_forgotten"}
        self.assertEqual(self.failed(lines), wrong, lines)
        self.assertEqual(lines[-1], f"{len(refused)} passed, {len(wrong)} failed")

    def test_what_stands(self):
        listed = LIST.replace("| is forgotten | | |\n", "| was moved | `small/constant` | `small/is_gone`, `other/is_gone` |\n")
        status, lines = self.run_on(["--stand"], {edits.NAMED: listed})
        self.assertEqual(status, 1, lines)
        told = {it.partition(": ")[0] for it in lines[:-1]}
        self.assertEqual(told, {"small/constant", "small/is_gone", "other/is_gone", "small/stands_twice", "small/stands_nowhere"}, lines)
        self.assertEqual(lines[-1], "8 stand, 5 do not")

    def test_all_that_is_well_stands(self):
        listed = LIST.replace("| is forgotten | | |\n", "")
        gone = ("edits/stands_twice", "edits/stands_nowhere")
        status, lines = self.run_on(["--stand"], {edits.NAMED: listed}, gone)
        self.assertEqual((status, lines), (0, ["8 stand, 0 do not"]))

    def test_a_small_crate(self):
        status, lines = self.run_on([])
        failed = {f"small/{os.path.basename(name)}" for name, (_, _, is_refused) in EDITS.items() if not is_refused}
        self.assertEqual(status, 1, lines)
        self.assertEqual(self.failed(lines), failed, lines)
        self.assertEqual(lines[-1], f"{len(EDITS) - len(failed)} passed, {len(failed)} failed")

    def write(self, room, more):
        for folder in ("src", "must-fail", "edits"):
            os.makedirs(f"{room}/crates/small/{folder}")
        os.makedirs(f"{room}/{os.path.dirname(edits.NAMED)}")
        files = {"crates.txt": "small:\n", "crates/small/src/lib.rt": CRATE, **more}
        for name, (old, new, _) in EDITS.items():
            files[f"crates/small/{name}.edit"] = f"file: src/lib.rt\nold: {old}\nnew: {new}\n"
        for name, text in files.items():
            with open(f"{room}/{name}", "w", encoding="utf-8") as it:
                it.write(text)
        subprocess.run(["git", "init", "-q", room], check=True)


if __name__ == "__main__":
    unittest.main()
