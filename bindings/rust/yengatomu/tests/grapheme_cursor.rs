//! Cursors over texts in chunks give the boundaries of the whole text, however it is cut.
#![cfg(feature = "unicode-segmentation")]

use yengatomu::unicode_segmentation::{GraphemeCursor, GraphemeIncomplete, UnicodeSegmentation, UNICODE_VERSION};
use yengatomu::{GraphemeSegmenter, SentenceSegmenter, WordSegmenter};

/// One character or more of each symbol of the machine of clusters.
const SYMBOLS: [char; 28] = [
    'a', '\r', '\n', '\u{1}', // Extend: in no conjunct, as a mark and as a linker of conjuncts
    '\u{200c}', '\u{301}', '\u{94d}', '\u{200d}', '🇦', '🇧', // Prepend, SpacingMark
    '\u{600}', '\u{903}', // L, V, T, LV, LVT
    '\u{1100}', '\u{1161}', '\u{11a8}', '\u{ac00}', '\u{ac01}', // consonants of conjuncts
    'क', 'ತ', '\u{1780}', '\u{17d2}', '👩', '❤', '\u{fe0f}', '🏽', 'é', '東', '\u{ad}',
];

/// Numbers by xorshift.
struct Random(u64);

impl Random {
    fn below(&mut self, limit: usize) -> usize {
        self.0 ^= self.0 << 13;
        self.0 ^= self.0 >> 7;
        self.0 ^= self.0 << 17;
        (self.0 % limit as u64) as usize
    }
}

/// A text in chunks.
struct Chunks<'t> {
    text: &'t str,
    /// Where they begin, and the text's end.
    places: Vec<usize>,
}

impl<'t> Chunks<'t> {
    fn new(text: &'t str, cuts: impl IntoIterator<Item = usize>) -> Self {
        let mut places: Vec<_> = [0, text.len()].into_iter().chain(cuts).collect();
        places.sort_unstable();
        places.dedup();
        Self { text, places }
    }

    /// The chunk that begins at a place or before it, and ends behind it; and where it begins.
    fn at(&self, place: usize) -> (&'t str, usize) {
        let number = self.places.partition_point(|&start| start <= place).clamp(1, (self.places.len() - 1).max(1));
        let start = self.places[number - 1];
        (&self.text[start..*self.places.get(number).unwrap_or(&start)], start)
    }

    /// Gives a cursor what it asks for, until it answers, with the chunk that it is in at first.
    fn ask<T>(
        &self,
        cursor: &mut GraphemeCursor,
        first: (&'t str, usize),
        question: impl Fn(&mut GraphemeCursor, &str, usize) -> Result<T, GraphemeIncomplete>,
    ) -> T {
        let (mut chunk, mut start) = first;
        for _ in 0..4 * self.places.len() + 4 {
            match question(cursor, chunk, start) {
                Ok(answer) => return answer,
                Err(GraphemeIncomplete::NextChunk) => {
                    assert!(start + chunk.len() < self.text.len());
                    (chunk, start) = self.at(start + chunk.len());
                }
                Err(GraphemeIncomplete::PrevChunk) => {
                    assert!(start > 0);
                    (chunk, start) = self.at(start - 1);
                }
                Err(GraphemeIncomplete::PreContext(place)) => {
                    // (as callers do: they take the chunk before, and rely on its end)
                    assert!(place > 0 && self.places.contains(&place), "{place} is no start of a chunk");
                    let (before, start) = self.at(place - 1);
                    cursor.provide_context(before, start);
                }
                Err(GraphemeIncomplete::InvalidOffset) => panic!("invalid offset"),
            }
        }
        panic!("{:?} asks on and on in {:?} by {:?}", cursor, self.text, self.places);
    }

    fn check(&self, boundaries: &[usize]) {
        let (text, len) = (self.text, self.text.len());
        let told = || format!("{text:?} by {:?}", self.places);
        let mut cursor = GraphemeCursor::new(0, len, true);
        // (on from the start it has read all that is before)
        let next = |cursor: &mut GraphemeCursor, chunk: &str, start: usize| {
            let answer = cursor.next_boundary(chunk, start);
            assert!(!matches!(answer, Err(GraphemeIncomplete::PreContext(_))), "{}", told());
            answer
        };
        for &place in &boundaries[1..] {
            let first = self.at(cursor.cur_cursor());
            assert_eq!(self.ask(&mut cursor, first, next), Some(place), "{}", told());
            assert_eq!(cursor.cur_cursor(), place);
        }
        assert_eq!(cursor.next_boundary("", len), Ok(None));
        for &place in boundaries[..boundaries.len() - 1].iter().rev() {
            let first = self.at(cursor.cur_cursor() - 1);
            assert_eq!(self.ask(&mut cursor, first, GraphemeCursor::prev_boundary), Some(place), "back {}", told());
            assert_eq!(cursor.cur_cursor(), place);
        }
        assert_eq!(cursor.prev_boundary("", 0), Ok(None));
        for place in (0..=len).filter(|&place| text.is_char_boundary(place)) {
            let first = self.at(place);
            let mut cursor = GraphemeCursor::new(place, len, true);
            assert_eq!(self.ask(&mut cursor, first, GraphemeCursor::is_boundary), boundaries.contains(&place), "at {place} {}", told());
            // On from a place that is none, and where it isn't known whether it is one.
            for mut cursor in [cursor, GraphemeCursor::new(place, len, true)] {
                let next = boundaries.iter().copied().find(|&boundary| boundary > place);
                assert_eq!(self.ask(&mut cursor.clone(), first, GraphemeCursor::next_boundary), next, "from {place} {}", told());
                let previous = boundaries.iter().copied().rev().find(|&boundary| boundary < place);
                let first = self.at(place.saturating_sub(1));
                assert_eq!(self.ask(&mut cursor, first, GraphemeCursor::prev_boundary), previous, "back from {place} {}", told());
            }
        }
    }
}

fn places(text: &str) -> Vec<usize> {
    text.char_indices().map(|(place, _)| place).collect()
}

fn boundaries(text: &str) -> Vec<usize> {
    text.grapheme_indices(true).map(|(place, _)| place).chain([text.len()]).collect()
}

/// Each text of three symbols, a chunk for each character; and in one chunk.
#[test]
fn short_texts() {
    for first in SYMBOLS {
        for second in SYMBOLS {
            for third in SYMBOLS {
                let text = String::from_iter([first, second, third]);
                let found = boundaries(&text);
                Chunks::new(&text, places(&text)).check(&found);
                Chunks::new(&text, []).check(&found);
            }
        }
    }
}

/// Random texts, in random chunks; and some symbols alone, of which clusters depend on what is far before.
#[test]
fn random_texts() {
    let mut random = Random(0x2545_f491_4f6c_dd1d);
    let far = ['🇦', '👩', '\u{301}', '\u{94d}', '\u{200d}', 'क', '\u{200c}', 'a'];
    for round in 0..4000 {
        let symbols: &[char] = match round % 4 {
            0 => &SYMBOLS,
            1 => &far,
            2 => &far[..1],
            _ => &far[1..6],
        };
        let text: String = (0..random.below(16)).map(|_| symbols[random.below(symbols.len())]).collect();
        let all = places(&text);
        let share = 1 + random.below(4);
        let cuts: Vec<_> = all.into_iter().filter(|_| random.below(share) == 0).collect();
        Chunks::new(&text, cuts).check(&boundaries(&text));
    }
}

/// Long runs, in which an answer depends on all that is before.
#[test]
fn long_runs() {
    for (start, run, end) in
        [("", "🇦", "🇧"), ("a", "🇦", "🇧"), ("👩", "\u{301}", "\u{200d}👩"), ("क", "\u{94d}\u{301}", "ष"), ("\u{94d}", "\u{301}", "ष")]
    {
        for count in [20, 21] {
            let text = [start, &run.repeat(count), end].concat();
            let found = boundaries(&text);
            for size in [1, 2, 3, 7] {
                Chunks::new(&text, places(&text).into_iter().step_by(size)).check(&found);
            }
        }
    }
}

/// The cursor keeps no text, and takes time in step with it.
#[test]
fn large_runs() {
    let text = "🇦".repeat(50_001);
    let chunks = Chunks::new(&text, places(&text).into_iter().step_by(50));
    let mut cursor = GraphemeCursor::new(text.len() - 4, text.len(), true);
    let first = chunks.at(text.len() - 4);
    assert!(chunks.ask(&mut cursor, first, GraphemeCursor::is_boundary));
    assert_eq!(chunks.ask(&mut cursor, first, GraphemeCursor::prev_boundary), Some(text.len() - 12));
}

/// What callers rely on beside the answers.
#[test]
fn chunks() {
    use GraphemeIncomplete::{InvalidOffset, NextChunk, PreContext, PrevChunk};
    let text = "abcd";
    let mut cursor = GraphemeCursor::new(0, 4, true);
    assert_eq!(cursor.is_boundary("", 0), Ok(true));
    assert_eq!(cursor.next_boundary(&text[..2], 0), Ok(Some(1)));
    assert_eq!(cursor.next_boundary(&text[..2], 0), Err(NextChunk));
    assert_eq!(cursor.next_boundary("", 2), Err(NextChunk));
    assert_eq!(cursor.next_boundary(&text[3..], 3), Err(InvalidOffset));
    assert_eq!(cursor.next_boundary(&text[2..], 2), Ok(Some(2)));
    assert_eq!(cursor.next_boundary(&text[2..], 2), Ok(Some(3)));
    assert_eq!(cursor.next_boundary(&text[2..], 2), Ok(Some(4)));
    assert_eq!(cursor.next_boundary(&text[2..], 2), Ok(None));
    assert_eq!(cursor.prev_boundary(&text[2..], 2), Ok(Some(3)));
    assert_eq!(cursor.prev_boundary(&text[2..], 2), Err(PrevChunk));
    assert_eq!(cursor.prev_boundary(&text[..2], 0), Ok(Some(2)));
    assert_eq!(cursor.prev_boundary(&text[..2], 0), Ok(Some(1)));
    assert_eq!(cursor.prev_boundary(&text[..2], 0), Ok(Some(0)));
    assert_eq!(cursor.prev_boundary(&text[..2], 0), Ok(None));

    // A place at the chunk's start, and one behind it.
    let mut cursor = GraphemeCursor::new(2, 4, false);
    assert_eq!(cursor.is_boundary(&text[..2], 0), Err(InvalidOffset));
    assert_eq!(cursor.is_boundary(&text[..1], 0), Err(InvalidOffset));
    assert_eq!(cursor.is_boundary(&text[3..], 3), Err(InvalidOffset));
    assert_eq!(cursor.is_boundary(&text[2..], 2), Err(PreContext(2)));
    assert_eq!(cursor.is_boundary(&text[2..], 2), Err(PreContext(2)));
    cursor.provide_context("", 2);
    assert_eq!(cursor.is_boundary(&text[2..], 2), Err(PreContext(2)));
    cursor.provide_context(&text[1..2], 1);
    assert_eq!(cursor.is_boundary(&text[2..], 2), Ok(true));
    cursor.set_cursor(1);
    assert_eq!((cursor.cur_cursor(), cursor.is_boundary(text, 0)), (1, Ok(true)));

    // Another way than before.
    let mut cursor = GraphemeCursor::new(0, 4, true);
    assert_eq!(cursor.next_boundary(&text[..1], 0), Err(NextChunk));
    assert_eq!(cursor.prev_boundary(&text[..1], 0), Ok(Some(0)));

    // Carriage return and line feed in two chunks; four regional indicators, one in each.
    let mut cursor = GraphemeCursor::new(1, 2, true);
    assert_eq!(cursor.is_boundary("\n", 1), Err(PreContext(1)));
    cursor.provide_context("\r", 0);
    assert_eq!(cursor.is_boundary("\n", 1), Ok(false));
    let flags = "🇷🇸🇮🇴";
    let mut cursor = GraphemeCursor::new(8, 16, true);
    assert_eq!(cursor.is_boundary(&flags[8..], 8), Err(PreContext(8)));
    cursor.provide_context(&flags[4..8], 4);
    assert_eq!(cursor.is_boundary(&flags[8..], 8), Err(PreContext(4)));
    cursor.provide_context(&flags[..4], 0);
    assert_eq!(cursor.is_boundary(&flags[8..], 8), Ok(true));
    assert_eq!(GraphemeCursor::new(0, 0, true).next_boundary("", 0), Ok(None));
}

#[test]
#[should_panic(expected = "the chunk ends where it was asked for")]
fn context_that_ends_elsewhere() {
    let mut cursor = GraphemeCursor::new(2, 4, true);
    let _ = cursor.is_boundary("cd", 2);
    cursor.provide_context("a", 0);
}

#[test]
#[should_panic(expected = "a chunk was asked for")]
fn context_that_nobody_asked_for() {
    GraphemeCursor::new(2, 4, true).provide_context("ab", 0);
}

#[test]
fn version() {
    let (major, minor, update) = UNICODE_VERSION;
    let stated = (major as u32, minor as u32, update as u32);
    assert_eq!([GraphemeSegmenter::unicode_version(), WordSegmenter::unicode_version(), SentenceSegmenter::unicode_version()], [stated; 3]);
}
