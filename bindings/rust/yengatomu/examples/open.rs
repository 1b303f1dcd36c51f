//! Times making segmenters: cargo run --release --example open [FOLDER]
//!
//! A row for each kind, and for options of lines and rules of a caller's own, has microseconds: the best and the middle one of 200. With a FOLDER of
//! dictionaries also those of loading them, the best of three.
use std::time::Instant;

use yengatomu::{DictionaryError, GraphemeSegmenter, LineOptions, LineSegmenter, Segmenter, SentenceSegmenter, Strictness, WordSegmenter};

const RULES: &str = "Letter = \\p{L} + \\p{M} + \\p{Nd}\nLine = [_ -]\nLetter × Letter\nLine × Line\n÷\n";

fn row<T, E: std::fmt::Debug>(name: &str, times: usize, mut make: impl FnMut() -> Result<T, E>) {
    let mut found: Vec<_> = (0..times)
        .map(|_| {
            let begin = Instant::now();
            let made = make();
            let time = begin.elapsed().as_micros();
            made.unwrap();
            time
        })
        .collect();
    found.sort_unstable();
    println!("| {name} | {} | {} |", found[0], found[times / 2]);
}

fn main() -> Result<(), DictionaryError> {
    println!("| | best | middle |\n|---|---|---|");
    row("clusters", 200, GraphemeSegmenter::new);
    row("words", 200, WordSegmenter::new);
    row("sentences", 200, SentenceSegmenter::new);
    row("lines", 200, || LineSegmenter::new(LineOptions::default()));
    let loose = LineOptions { strictness: Strictness::Loose, ..LineOptions::default() };
    row("lines, loose", 200, || LineSegmenter::new(loose));
    row("rules of a few lines", 200, || Segmenter::by_rules(RULES));
    if let Some(folder) = std::env::args().nth(1) {
        row("words, with dictionaries", 3, || {
            let mut words = WordSegmenter::new()?;
            words.load_dictionaries(&folder).map(|_| words)
        });
        row("lines, with dictionaries", 3, || {
            let mut lines = LineSegmenter::new(LineOptions::default())?;
            lines.load_dictionaries(&folder).map(|_| lines)
        });
    }
    Ok(())
}
