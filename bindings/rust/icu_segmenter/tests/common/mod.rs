//! Texts whose boundaries are known, in every encoding.
#![allow(dead_code, unused_macros)]

use std::path::PathBuf;

/// A text, and the numbers of characters before its boundaries, of which the first is 0 and the last is all.
#[derive(Clone, Debug)]
pub struct Row {
    pub text: String,
    ends: Vec<usize>,
}

impl Row {
    /// A text that is not empty, of which each inner boundary is marked by `|`.
    pub fn marked(marked: &str) -> Self {
        let mut ends = vec![0];
        let mut count = 0;
        for character in marked.chars() {
            match character {
                '|' => ends.push(count),
                _ => count += 1,
            }
        }
        ends.push(count);
        Self { text: marked.replace('|', ""), ends }
    }

    /// A text whose boundaries stand behind so many of its characters.
    pub fn new(text: String, ends: Vec<usize>) -> Self {
        Self { text, ends }
    }

    fn places(&self, size: impl Fn(char) -> usize) -> Vec<usize> {
        let mut places = vec![0];
        places.extend(self.text.chars().scan(0, |place, character| {
            *place += size(character);
            Some(*place)
        }));
        self.ends.iter().map(|&end| places[end]).collect()
    }

    /// The boundaries in bytes of UTF-8.
    pub fn bytes(&self) -> Vec<usize> {
        self.places(char::len_utf8)
    }

    /// The boundaries in 16-bit units.
    pub fn units(&self) -> Vec<usize> {
        self.places(char::len_utf16)
    }

    /// The text in UTF-16.
    pub fn utf16(&self) -> Vec<u16> {
        self.text.encode_utf16().collect()
    }

    /// The text in Latin-1, of which each character is a byte, if it can be written so.
    pub fn latin1(&self) -> Option<Vec<u8>> {
        self.text.chars().map(|character| u8::try_from(u32::from(character)).ok()).collect()
    }

    /// The numbers of characters before its boundaries.
    pub fn ends(&self) -> Vec<usize> {
        self.ends.clone()
    }
}

/// Checks that a segmenter finds the boundaries of a row in each encoding.
macro_rules! check {
    ($segmenter:expr, $row:expr) => {{
        let (segmenter, row) = ($segmenter, &$row);
        let found = |places: &mut dyn Iterator<Item = usize>| places.collect::<Vec<_>>();
        assert_eq!(found(&mut segmenter.segment_str(&row.text)), row.bytes(), "{row:?} as str");
        assert_eq!(found(&mut segmenter.segment_utf8(row.text.as_bytes())), row.bytes(), "{row:?} in UTF-8");
        assert_eq!(found(&mut segmenter.segment_utf16(&row.utf16())), row.units(), "{row:?} in UTF-16");
        if let Some(text) = row.latin1() {
            assert_eq!(found(&mut segmenter.segment_latin1(&text)), row.ends(), "{row:?} in Latin-1");
        }
    }};
}

/// A file of the repository.
pub fn repository(path: &str) -> PathBuf {
    PathBuf::from(env!("CARGO_MANIFEST_DIR")).join("../../..").join(path)
}
