//! Times segmenting: cargo run --release --example time [FILE..]
//!
//! Each FILE is segmented as UTF-8 that may be ill-formed; without one it is 10 MB of words in five scripts, in random order. A line for each kind
//! and call has the number of segments, the sum of their ends, and MB a second, of which the best of five passes counts.
use std::time::Instant;

use yengatomu::kind::Kind;
use yengatomu::{Error, GraphemeSegmenter, LineOptions, LineSegmenter, Segmenter, SentenceSegmenter, WordSegmenter};

const PASSES: usize = 5;
const WORDS: &str = "The |quick |brown |fox |can't |jump |32.3 |feet, |right? |Over |the |lazy |dog.\n|naïve |café, |e\u{301}tude \
    |Съешь |ещё |этих |мягких |булок. |नमस्ते |दुनिया, |क्षत्रिय |हिन्दी। |ภาษา|ไทย|ง่าย |นิดเดียว\n|東京|に|行きます。|今天|天气|很好，|谢谢。\n\
    |👨‍👩‍👧 |🇻🇳|🇹🇭 |❤️ ";

fn made(len: usize) -> Vec<u8> {
    let words: Vec<_> = WORDS.split('|').collect();
    let mut text = String::with_capacity(len + 32);
    let mut state = 0x9e37_79b9_7f4a_7c15_u64;
    while text.len() < len {
        state ^= state << 13;
        state ^= state >> 7;
        state ^= state << 17;
        text.push_str(words[(state >> 32) as usize % words.len()]);
    }
    text.into_bytes()
}

/// Prints how quick the best of some passes is over so many bytes.
fn time(name: &str, bytes: usize, mut pass: impl FnMut() -> (usize, u64)) {
    let mut best = f64::INFINITY;
    let mut found = (0, 0);
    for _ in 0..PASSES {
        let begin = Instant::now();
        found = pass();
        best = best.min(begin.elapsed().as_secs_f64());
    }
    println!("    {name:24} {:9} segments, sum {:16}: {:7.1} MB/s", found.0, found.1, bytes as f64 / best / 1e6);
}

fn tally(ends: impl Iterator<Item = usize>) -> (usize, u64) {
    ends.fold((0, 0), |(count, sum), end| (count + 1, sum + end as u64))
}

fn common<K: Kind>(name: &str, segmenter: &Segmenter<K>, text: &[u8]) {
    time(&format!("{name} boundaries"), text.len(), || tally(segmenter.boundaries(text).skip(1)));
    time(&format!("{name} segments"), text.len(), || tally(segmenter.segment_indices(text).map(|(start, segment)| start + segment.len())));
    time(&format!("{name} backwards"), text.len(), || {
        tally(segmenter.segment_indices(text).rev().map(|(start, segment)| start + segment.len()))
    });
    time(&format!("{name} count"), text.len(), || (segmenter.count(text), 0));
}

fn main() -> Result<(), Error> {
    let files: Vec<_> = std::env::args().skip(1).collect();
    let texts: Vec<(String, Vec<u8>)> = if files.is_empty() {
        vec![("10 MB in five scripts".into(), made(10_000_000))]
    } else {
        files.into_iter().map(|file| (file.clone(), std::fs::read(&file).unwrap_or_else(|error| panic!("{file}: {error}")))).collect()
    };
    let begin = Instant::now();
    let graphemes = GraphemeSegmenter::new()?;
    let words = WordSegmenter::new()?;
    let sentences = SentenceSegmenter::new()?;
    let lines = LineSegmenter::new(LineOptions::default())?;
    println!("four segmenters made in {} µs", begin.elapsed().as_micros());
    for (name, text) in &texts {
        println!("{name}: {} bytes", text.len());
        common("graphemes", &graphemes, text);
        common("words", &words, text);
        time("words words", text.len(), || tally(words.words(text).map(|(start, word, _)| start + word.len())));
        common("sentences", &sentences, text);
        common("lines", &lines, text);
        time("lines wrap 80", text.len(), || tally(lines.wrap(text, 80).map(|line| line.start + line.text.len())));
    }
    Ok(())
}
