//! Counts the words of a file in so many threads, as many as there are processors if none are named, and says how long that took:
//! cargo run --release --example parallel -- FILE [THREADS]
//!
//! A text may be split behind line feeds: its parts have the words that it has. All threads share one segmenter.
use std::error::Error;
use std::num::NonZero;
use std::sync::LazyLock;
use std::time::Instant;
use std::{env, fs, thread};

use yengatomu::WordSegmenter;

static WORDS: LazyLock<WordSegmenter> = LazyLock::new(|| WordSegmenter::new().expect("out of memory"));

/// Splits a text behind line feeds into at most so many parts, of about the same size where its lines are short.
pub fn parts(text: &[u8], most: usize) -> Vec<&[u8]> {
    let size = text.len().div_ceil(most);
    let mut parts = Vec::with_capacity(most);
    let mut rest = text;
    while rest.len() > size {
        let Some(found) = rest[size - 1..].iter().position(|&byte| byte == b'\n') else { break };
        let (part, next) = rest.split_at(size + found);
        parts.push(part);
        rest = next;
    }
    if !rest.is_empty() {
        parts.push(rest);
    }
    parts
}

/// Counts the words of a text in so many threads, which is at least one.
pub fn count_words(words: &WordSegmenter, text: &[u8], threads: usize) -> usize {
    thread::scope(|scope| {
        let counts: Vec<_> = parts(text, threads).into_iter().map(|part| scope.spawn(|| words.count_words(part))).collect();
        counts.into_iter().map(|count| count.join().expect("counting never panics")).sum()
    })
}

fn main() -> Result<(), Box<dyn Error>> {
    let mut given = env::args().skip(1);
    let text = fs::read(given.next().ok_or("usage: parallel FILE [THREADS]")?)?;
    let threads: NonZero<usize> = match given.next() {
        Some(it) => it.parse()?,
        None => thread::available_parallelism()?,
    };
    let words = &*WORDS;
    let start = Instant::now();
    let count = count_words(words, &text, threads.get());
    println!("{count} words in {:.3} s", start.elapsed().as_secs_f64());
    Ok(())
}
