//! Writes the pieces of a text, a kind a line. It names nothing but what the crate `icu_segmenter` 2.4 has too.
use std::env;

use icu_segmenter::options::LineBreakOptions;
use icu_segmenter::{GraphemeClusterSegmenter, LineSegmenter, SentenceSegmenter, WordSegmenter};

/// The pieces between boundaries.
fn pieces(text: &str, places: impl Iterator<Item = usize>) -> Vec<&str> {
    let places: Vec<_> = places.collect();
    places.windows(2).map(|ends| &text[ends[0]..ends[1]]).collect()
}

fn main() {
    let text = env::args().nth(1).unwrap_or_else(|| "Xin chào thế giới! I can’t pay 3.14.".to_string());
    println!("graphemes: {:?}", pieces(&text, GraphemeClusterSegmenter::new().segment_str(&text)));
    println!("words:     {:?}", pieces(&text, WordSegmenter::new_auto(Default::default()).segment_str(&text)));
    println!("sentences: {:?}", pieces(&text, SentenceSegmenter::new(Default::default()).segment_str(&text)));
    println!("lines:     {:?}", pieces(&text, LineSegmenter::new_auto(LineBreakOptions::default()).segment_str(&text)));
}
