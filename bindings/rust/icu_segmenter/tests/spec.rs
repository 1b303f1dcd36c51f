//! The official tests of Unicode, and rows of lines with options.
use std::collections::HashSet;
use std::fs;

use icu_segmenter::options::{LineBreakOptions, LineBreakStrictness, LineBreakWordOption};
use icu_segmenter::{GraphemeClusterSegmenter, LanguageIdentifier, LineSegmenter, SentenceSegmenter, WordSegmenter};

#[macro_use]
mod common;
use common::{repository, Row};

fn read(path: &str) -> String {
    let path = repository(path);
    fs::read_to_string(&path).unwrap_or_else(|error| panic!("{}: {error}", path.display()))
}

/// A line without its comment.
fn plain(line: &str) -> &str {
    line.split('#').next().unwrap_or_default().trim()
}

/// The rows whose rules have changed since: those that `break_tests` prints of the proved segmenters.
fn changed() -> HashSet<String> {
    let printed = read("crates/break_tests/stdout");
    printed.lines().filter_map(|line| line.strip_prefix("not passed: ")).map(|row| plain(row).to_string()).collect()
}

/// A row as the official files have it: ÷ or, of rows of our own, ! is a boundary and × is none, between code points in hexadecimal digits. Also which
/// of its boundaries have a !.
fn row_of(line: &str) -> (Row, Vec<bool>) {
    let (mut text, mut ends, mut marks) = (String::new(), vec![0], vec![false]);
    // (the start of a text is a boundary for every segmenter here, also of lines, where the files have none)
    for word in line.split_whitespace().skip(1) {
        match word {
            "×" => {}
            "÷" | "!" => {
                ends.push(text.chars().count());
                marks.push(word == "!");
            }
            digits => text.push(u32::from_str_radix(digits, 16).ok().and_then(char::from_u32).expect("a code point")),
        }
    }
    (Row::new(text, ends), marks)
}

fn official(file: &str) -> Vec<Row> {
    let (text, changed) = (read(&format!("crates/break_tests/data/{file}")), changed());
    let rows: Vec<_> = text.lines().map(plain).filter(|row| !row.is_empty() && !changed.contains(*row)).map(|row| row_of(row).0).collect();
    assert!(rows.len() > 500, "{file}");
    rows
}

#[test]
fn graphemes() {
    for row in official("GraphemeBreakTest.txt") {
        check!(GraphemeClusterSegmenter::new(), row);
    }
}

#[test]
fn words() {
    for row in official("WordBreakTest.txt") {
        check!(WordSegmenter::new_for_non_complex_scripts(Default::default()), row);
    }
}

#[test]
fn sentences() {
    for row in official("SentenceBreakTest.txt") {
        check!(SentenceSegmenter::new(Default::default()), row);
    }
}

#[test]
fn lines() {
    for row in official("LineBreakTest.txt") {
        check!(LineSegmenter::new_for_non_complex_scripts(Default::default()), row);
    }
}

fn strictness(name: &str) -> LineBreakStrictness {
    match name {
        "strict" => LineBreakStrictness::Strict,
        "normal" => LineBreakStrictness::Normal,
        "loose" => LineBreakStrictness::Loose,
        _ => LineBreakStrictness::Anywhere,
    }
}

fn word_option(name: &str) -> LineBreakWordOption {
    match name {
        "normal" => LineBreakWordOption::Normal,
        "break-all" => LineBreakWordOption::BreakAll,
        _ => LineBreakWordOption::KeepAll,
    }
}

#[test]
fn lines_with_options() {
    let text = read("crates/break_tests/data/LineOptionTest.txt");
    for line in text.lines().map(plain).filter(|line| !line.is_empty()) {
        let (named, samples) = line.split_once(';').expect("options");
        let named: Vec<_> = named.split_whitespace().collect();
        let language: LanguageIdentifier = named[2].parse().unwrap();
        let mut options = LineBreakOptions::default();
        options.strictness = Some(strictness(named[0]));
        options.word_option = Some(word_option(named[1]));
        options.content_locale = Some(&language);
        let (segmenter, (row, marks)) = (LineSegmenter::new_auto(options), row_of(samples));
        check!(segmenter, row);
        let mut places = segmenter.segment_str(&row.text);
        let found: Vec<_> = std::iter::from_fn(|| places.next().map(|_| places.is_mandatory())).collect();
        assert_eq!(found, marks, "{line}");
    }
}
