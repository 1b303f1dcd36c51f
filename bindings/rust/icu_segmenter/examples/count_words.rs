//! Counts the words of files. It names nothing but what the crate `icu_segmenter` 2.4 has too: the segmenter is a static, and each file a thread.
use std::{env, fs, io, thread};

use icu_segmenter::options::WordBreakInvariantOptions;
use icu_segmenter::{WordSegmenter, WordSegmenterBorrowed};

static WORDS: WordSegmenterBorrowed<'static> = WordSegmenter::new_for_non_complex_scripts(WordBreakInvariantOptions::default());

/// How many words a file has, of letters or numbers.
fn count(path: &str) -> io::Result<usize> {
    let text = fs::read(path)?;
    Ok(WORDS.segment_utf8(&text).iter_with_word_type().filter(|(_, word_type)| word_type.is_word_like()).count())
}

fn main() -> io::Result<()> {
    let paths: Vec<String> = env::args().skip(1).collect();
    let counts = thread::scope(|scope| -> Vec<io::Result<usize>> {
        let threads: Vec<_> = paths.iter().map(|path| scope.spawn(|| count(path))).collect();
        threads.into_iter().map(|it| it.join().expect("a thread ends well")).collect()
    });
    for (path, count) in paths.iter().zip(counts) {
        println!("{:8} {path}", count?);
    }
    Ok(())
}
