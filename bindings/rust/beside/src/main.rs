//! Times yengatomu beside the crate unicode-segmentation, over the same texts:
//!
//!     cargo run --release -- FILE..        in this folder
//!
//! With Debian's package librust-unicode-segmentation-dev, and nothing to download:
//!
//!     cargo run --release --offline --config 'source.crates-io.replace-with="debian"' \
//!         --config 'source.debian.directory="/usr/share/cargo/registry"' -- FILE..
//!
//! Each FILE is UTF-8. A line for each call has its number of segments and MB a second: by unicode-segmentation, by our trait of the same name, and by
//! a segmenter. Passes go by turns, and the best counts. Numbers differ where the Unicode versions do.
use std::time::Instant;

use yengatomu::{GraphemeSegmenter, SentenceSegmenter, WordSegmenter};

const PASSES: usize = 5;

/// Runs the three by turns, and prints what the best pass of each has.
fn time(name: &str, bytes: usize, mut calls: [&mut dyn FnMut() -> usize; 3]) {
    let mut best = [f64::INFINITY; 3];
    let mut counts = [0; 3];
    for _ in 0..PASSES {
        for (call, (best, count)) in calls.iter_mut().zip(best.iter_mut().zip(&mut counts)) {
            let begin = Instant::now();
            *count = call();
            *best = best.min(begin.elapsed().as_secs_f64());
        }
    }
    print!("    {name:22}");
    for (best, count) in best.iter().zip(counts) {
        print!(" {count:9} {:7.1}", bytes as f64 / best / 1e6);
    }
    println!("   x{:.2} x{:.2}", best[0] / best[1], best[0] / best[2]);
}

/// Counts segments, and reads each, so that none is left out.
fn tally<'a>(segments: impl Iterator<Item = &'a str>) -> usize {
    let (count, bytes) = segments.fold((0, 0), |(count, bytes), segment| (count + 1, bytes + segment.len()));
    std::hint::black_box(bytes);
    count
}

macro_rules! methods {
    ($name:ident, $trait:path) => {
        mod $name {
            use $trait;
            pub fn graphemes(text: &str) -> usize {
                super::tally(text.graphemes(true))
            }
            pub fn graphemes_back(text: &str) -> usize {
                super::tally(text.graphemes(true).rev())
            }
            pub fn words(text: &str) -> usize {
                super::tally(text.split_word_bounds())
            }
            pub fn words_back(text: &str) -> usize {
                super::tally(text.split_word_bounds().rev())
            }
            pub fn unicode_words(text: &str) -> usize {
                super::tally(text.unicode_words())
            }
            pub fn sentences(text: &str) -> usize {
                super::tally(text.split_sentence_bounds())
            }
            /// The first cluster and the last of each line, and no more.
            pub fn short_texts(text: &str) -> usize {
                text.lines().flat_map(|line| [line.graphemes(true).next(), line.graphemes(true).next_back()]).flatten().map(str::len).sum()
            }
            /// Short texts: what is between white space, each by itself.
            pub fn short_words(text: &str) -> usize {
                text.split_ascii_whitespace().map(|word| super::tally(word.unicode_words())).sum()
            }
        }
    };
}

methods!(theirs, unicode_segmentation::UnicodeSegmentation);
methods!(ours, yengatomu::unicode_segmentation::UnicodeSegmentation);

fn main() -> Result<(), Box<dyn std::error::Error>> {
    let graphemes = GraphemeSegmenter::new()?;
    let words = WordSegmenter::new()?;
    let sentences = SentenceSegmenter::new()?;
    for file in std::env::args().skip(1) {
        let text = std::fs::read_to_string(&file).map_err(|error| format!("{file}: {error}"))?;
        let text = text.as_str();
        println!(
            "{file}: {} bytes; unicode-segmentation, our trait, our segmenter: segments and MB/s, then how many times as fast",
            text.len()
        );
        macro_rules! row {
            ($name:ident, $by_segmenter:expr) => {
                time(stringify!($name), text.len(), [&mut || theirs::$name(text), &mut || ours::$name(text), &mut || $by_segmenter])
            };
        }
        row!(graphemes, tally(graphemes.segments(text)));
        row!(graphemes_back, tally(graphemes.segments(text).rev()));
        row!(words, tally(words.segments(text)));
        row!(words_back, tally(words.segments(text).rev()));
        row!(unicode_words, tally(words.words(text).map(|(_, word, _)| word)));
        row!(sentences, tally(sentences.segments(text)));
        row!(
            short_texts,
            text.lines()
                .flat_map(|line| [graphemes.segments(line).next(), graphemes.segments(line).next_back()])
                .flatten()
                .map(str::len)
                .sum()
        );
        row!(short_words, text.split_ascii_whitespace().map(|word| tally(words.words(word).map(|(_, word, _)| word))).sum());
    }
    Ok(())
}
