// Measures the crate unicode-segmentation over a file in UTF-8.
//
//     apt-get install librust-unicode-segmentation-dev
//     rustc -O --edition 2018 --crate-type lib --crate-name unicode_segmentation --out-dir /tmp \
//         /usr/share/cargo/registry/unicode-segmentation-*/src/lib.rs
//     rustc -O --edition 2021 -L /tmp --extern unicode_segmentation --out-dir /tmp tools/beside/unicode_segmentation.rs
//     /tmp/unicode_segmentation FILE [PASSES]
//
// A row for each kind: how many boundaries there are, the sum of their places, and how many MB the best of 25 passes
// does in a second. The crate has no lines.
use std::error::Error;
use std::time::{Duration, Instant};
use std::{env, fs};
use unicode_segmentation::{UnicodeSegmentation, UNICODE_VERSION};

#[derive(Default)]
struct Tally {
    count: usize,
    sum: usize,
}

// The boundaries round these segments, the one at 0 too.
fn tally<'a>(segments: impl Iterator<Item = &'a str>) -> Tally {
    let (mut count, mut place, mut sum) = (1, 0, 0);
    for segment in segments {
        place += segment.len();
        count += 1;
        sum += place;
    }
    Tally { count, sum }
}

#[inline(never)]
fn pass_graphemes(text: &str) -> Tally {
    tally(text.graphemes(true))
}

#[inline(never)]
fn pass_sentences(text: &str) -> Tally {
    tally(text.split_sentence_bounds())
}

#[inline(never)]
fn pass_words(text: &str) -> Tally {
    tally(text.split_word_bounds())
}

fn measure(kind: &str, pass: fn(&str) -> Tally, text: &str, passes: usize) {
    let mut found = Tally::default();
    let mut best = Duration::MAX;
    for _ in 0..passes {
        let start = Instant::now();
        found = pass(text);
        best = best.min(start.elapsed());
    }
    let rate = text.len() as f64 / best.as_secs_f64() / 1e6;
    println!("{kind}: {} boundaries, sum {}, {rate:.0} MB/s", found.count, found.sum);
}

fn main() -> Result<(), Box<dyn Error>> {
    let words: Vec<String> = env::args().collect();
    let file = words.get(1).ok_or("usage: unicode_segmentation FILE [PASSES]")?;
    let bytes = fs::read(file)?;
    let text = String::from_utf8_lossy(&bytes);
    let passes = words.get(2).map_or(Ok(25), |word| word.parse())?;
    println!("Unicode {UNICODE_VERSION:?}");
    measure("grapheme", pass_graphemes, &text, passes);
    measure("sentence", pass_sentences, &text, passes);
    measure("word", pass_words, &text, passes);
    Ok(())
}
