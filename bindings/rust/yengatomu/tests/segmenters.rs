//! Random texts: iterators give what one call of the library with room for all gives, in each encoding and from both ends.
use std::borrow::Cow;
use std::rc::Rc;
use std::sync::Arc;

use yengatomu::kind::{self, Kind};
use yengatomu::{
    join_lines, DictionaryError, Error, GraphemeSegmenter, LineBreak, LineOptions, LineSegmenter, RuleSegmenter, Script, Segmenter,
    SentenceSegmenter, Slice, Strictness, Text, WordBreak, WordSegmenter, WordType,
};
use yengatomu_sys::*;

/// Numbers by xorshift.
struct Random(u64);

impl Random {
    fn below(&mut self, limit: usize) -> usize {
        self.0 ^= self.0 << 13;
        self.0 ^= self.0 >> 7;
        self.0 ^= self.0 << 17;
        (self.0 % limit as u64) as usize
    }
}

const PARTS: &str = "a|b|Z| |  |é|e\u{301}|'|.|! |3|3.14|can't|-|\u{200d}|🇻|🇳|👨‍👩‍👧|东|京|ภาษา|ไทย|ก|ข|क्|ष|\u{ad}|\u{1100}\u{1161}";
const THAI: [&str; 5] = ["ภาษา", "ไทย", "กข", "ขก", "กขก"];
/// Abbreviations, of which some may begin in the sentence before.
const ABBREVIATIONS: [&str; 6] = ["a.", "Z.", "3.14.", "! Z!", "é!", "ก!"];

/// A text of so many parts, with a line feed after about one in `per_line`, none for 0.
fn text(random: &mut Random, parts: usize, per_line: usize) -> String {
    let choice: Vec<_> = PARTS.split('|').collect();
    let mut made = String::new();
    for _ in 0..parts {
        made.push_str(choice[random.below(choice.len())]);
        if per_line > 0 && random.below(per_line) == 0 {
            made.push_str(["\n", "\r\n"][random.below(2)]);
        }
    }
    made
}

fn texts() -> Vec<String> {
    let mut random = Random(0x9e37_79b9_7f4a_7c15);
    let mut made = vec![String::new(), "a".into(), "\n".into(), "\r\n".into(), "\n\n".into(), "ab\n".into(), "กข\nกข".into()];
    for (parts, per_line) in [(3, 0), (5, 3), (40, 7), (400, 0), (400, 9), (900, 300), (1500, 0), (1500, 400), (1500, 2)] {
        for _ in 0..4 {
            made.push(text(&mut random, parts, per_line));
        }
    }
    // A line with as many boundaries as the buffer has room for, and one more or less.
    for letters in [15, 16, 17, 63, 64, 65, 80, 255, 256, 257, 336, 512, 513] {
        made.push(format!("{}\n{}", "ก".repeat(letters), "ข".repeat(letters)));
        made.push("! ".repeat(letters));
    }
    made
}

/// The text as UTF-8 with some bytes changed.
fn ill_formed(text: &str) -> Vec<u8> {
    let mut random = Random(text.len() as u64 + 1);
    let mut bytes = text.as_bytes().to_vec();
    for _ in 0..bytes.len() / 10 {
        let place = random.below(bytes.len());
        bytes[place] = [0x80, 0xff, 0xe0, 0xf0, b'a', b'\n'][random.below(6)];
    }
    bytes
}

/// The text as UTF-16 with some units changed.
fn ill_formed_utf16(text: &str) -> Vec<u16> {
    let mut random = Random(text.len() as u64 + 1);
    let mut units: Vec<u16> = text.encode_utf16().collect();
    for _ in 0..units.len() / 10 {
        let place = random.below(units.len());
        units[place] = [0xd800, 0xdfff, 0x0a, 0x61][random.below(4)];
    }
    units
}

/// A slot of the test's own, asked with room for all.
struct Whole(yengatomu_slot);

impl Whole {
    fn open(kind: u32, has_words: bool) -> Self {
        let mut slot = yengatomu_slot::EMPTY;
        let of = |word: &str| yengatomu_word { bytes: word.as_ptr(), len: word.len() };
        let (words, abbreviations) = (THAI.map(of), ABBREVIATIONS.map(of));
        // SAFETY: the slot began empty, and words are borrowed from constants.
        unsafe {
            assert_eq!(yengatomu_open(&mut slot, kind, 0, 0, false), YENGATOMU_OK);
            if has_words && kind == YENGATOMU_SENTENCES {
                assert_eq!(yengatomu_load_abbreviations(&mut slot, abbreviations.as_ptr(), abbreviations.len()), YENGATOMU_OK);
            } else if has_words {
                assert_eq!(yengatomu_load_dictionary(&mut slot, words.as_ptr(), words.len(), YENGATOMU_THAI), YENGATOMU_OK);
            }
        }
        Self(slot)
    }

    fn boundaries(&self, text: &[u8]) -> Vec<usize> {
        let mut found = vec![0; text.len() + 2];
        // SAFETY: each length is that of its array.
        let count = unsafe { yengatomu_boundaries(&self.0, text.as_ptr(), text.len(), 0, found[1..].as_mut_ptr(), text.len() + 1) };
        found.truncate(count + 1);
        found
    }

    fn boundaries_utf16(&self, text: &[u16]) -> Vec<usize> {
        let mut found = vec![0; text.len() + 2];
        // SAFETY: each length is that of its array.
        let count = unsafe { yengatomu_boundaries_utf16(&self.0, text.as_ptr(), text.len(), 0, found[1..].as_mut_ptr(), text.len() + 1) };
        found.truncate(count + 1);
        found
    }

    fn marks(&self, text: &[u8]) -> Vec<u8> {
        let room = text.len() + 1;
        let (mut found, mut marks) = (vec![0; room], vec![0; room]);
        // SAFETY: each length is that of its array.
        let count = unsafe {
            yengatomu_marked_boundaries(&self.0, text.as_ptr(), text.len(), 0, found.as_mut_ptr(), room, marks.as_mut_ptr(), room)
        };
        marks.truncate(count);
        marks
    }

    fn wrap(&self, text: &[u8], columns: usize) -> Vec<usize> {
        let mut ends = vec![0; text.len() + 1];
        // SAFETY: each length is that of its array.
        let count = unsafe { yengatomu_wrap(&self.0, text.as_ptr(), text.len(), 0, columns, ends.as_mut_ptr(), ends.len()) };
        ends.truncate(count);
        ends
    }
}

impl Drop for Whole {
    fn drop(&mut self) {
        // SAFETY: nothing uses the slot any more.
        unsafe { yengatomu_close(&mut self.0) }
    }
}

/// What iterators over a text of any encoding owe one another.
fn agree<K: Kind, T: ?Sized + Text>(segmenter: &Segmenter<K>, text: &T, boundaries: &[usize])
where
    T::Slice: PartialEq + std::fmt::Debug,
{
    assert_eq!(segmenter.boundaries(text).collect::<Vec<_>>(), boundaries);
    assert_eq!(segmenter.count(text), boundaries.len() - 1);

    let forth: Vec<_> = segmenter.segment_indices(text).collect();
    let starts: Vec<_> = forth.iter().map(|&(start, _)| start).collect();
    assert_eq!(starts, boundaries[..boundaries.len() - 1]);
    assert!(segmenter.segments(text).eq(forth.iter().map(|&(_, segment)| segment)));

    let mut back: Vec<_> = segmenter.segment_indices(text).rev().collect();
    back.reverse();
    assert_eq!(back, forth);
    assert!(segmenter.segments(text).rev().eq(forth.iter().rev().map(|&(_, segment)| segment)));

    // From both ends by turns, with clones that go on by themselves.
    let mut random = Random(boundaries.len() as u64 + 5);
    for _ in 0..3 {
        let (mut from_start, mut from_end) = (Vec::new(), Vec::new());
        let mut left = segmenter.segment_indices(text);
        let share = random.below(4);
        loop {
            let remain = forth.len() - from_start.len() - from_end.len();
            let (low, high) = left.size_hint();
            assert!(low <= remain && remain <= high.unwrap());
            if random.below(100) == 0 {
                assert_eq!(left.clone().count(), remain);
            }
            let next = if random.below(4) < share {
                let next = left.next();
                from_start.extend(next);
                next
            } else {
                let next = left.next_back();
                from_end.extend(next);
                next
            };
            if next.is_none() {
                break;
            }
        }
        assert_eq!((left.next(), left.next_back()), (None, None));
        from_start.extend(from_end.into_iter().rev());
        assert_eq!(from_start, forth);
    }

    let mut all = segmenter.boundaries(text);
    for taken in 0..boundaries.len() {
        let (low, high) = all.size_hint();
        let remain = boundaries.len() - taken;
        assert!(low <= remain && remain <= high.unwrap());
        assert!(all.next().is_some());
    }
    assert_eq!((all.size_hint(), all.next(), all.next()), ((0, Some(0)), None, None));
}

fn agree_in_each_encoding<K: Kind>(segmenter: &Segmenter<K>, whole: Whole) {
    for text in texts() {
        let boundaries = whole.boundaries(text.as_bytes());
        assert_eq!(boundaries[0], 0);
        assert!(text.is_empty() || boundaries.last() == Some(&text.len()));
        agree(segmenter, &text, &boundaries);
        agree(segmenter, text.as_bytes(), &boundaries);

        // Equal code points have equal boundaries.
        let units: Vec<u16> = text.encode_utf16().collect();
        let in_utf16: Vec<_> = boundaries.iter().map(|&place| text[..place].encode_utf16().count()).collect();
        assert_eq!(whole.boundaries_utf16(&units), in_utf16);
        agree(segmenter, &units, &in_utf16);

        let bytes = ill_formed(&text);
        agree(segmenter, &bytes, &whole.boundaries(&bytes));
        let lossy = String::from_utf8_lossy(&bytes);
        assert_eq!(segmenter.count(&lossy), segmenter.count(&bytes));
        let units = ill_formed_utf16(&text);
        agree(segmenter, &units, &whole.boundaries_utf16(&units));
    }
}

fn with_thai<K: kind::Marked>(mut segmenter: Segmenter<K>) -> Segmenter<K> {
    segmenter.load_dictionary(&THAI, Script::Thai).unwrap();
    segmenter
}

fn with_abbreviations() -> SentenceSegmenter {
    let mut sentences = SentenceSegmenter::new().unwrap();
    sentences.load_abbreviations(&ABBREVIATIONS).unwrap();
    sentences
}

fn lines() -> LineSegmenter {
    LineSegmenter::new(LineOptions::default()).unwrap()
}

#[test]
fn graphemes() {
    agree_in_each_encoding(&GraphemeSegmenter::new().unwrap(), Whole::open(YENGATOMU_CLUSTERS, false));
}

#[test]
fn words() {
    agree_in_each_encoding(&WordSegmenter::new().unwrap(), Whole::open(YENGATOMU_WORDS, false));
}

#[test]
fn words_with_a_dictionary() {
    agree_in_each_encoding(&with_thai(WordSegmenter::new().unwrap()), Whole::open(YENGATOMU_WORDS, true));
}

#[test]
fn sentences() {
    agree_in_each_encoding(&SentenceSegmenter::new().unwrap(), Whole::open(YENGATOMU_SENTENCES, false));
}

#[test]
fn sentences_with_abbreviations() {
    agree_in_each_encoding(&with_abbreviations(), Whole::open(YENGATOMU_SENTENCES, true));
}

#[test]
fn line_segments() {
    agree_in_each_encoding(&lines(), Whole::open(YENGATOMU_LINES, false));
}

#[test]
fn line_segments_with_a_dictionary() {
    agree_in_each_encoding(&with_thai(lines()), Whole::open(YENGATOMU_LINES, true));
}

/// All places that calls with so much room fill in.
fn filled(room: usize, fill: impl Fn(usize, &mut [usize]) -> usize) -> Vec<usize> {
    let (mut found, mut places) = (vec![0], vec![0; room]);
    loop {
        let count = fill(found[found.len() - 1], &mut places);
        if count == 0 {
            return found;
        }
        found.extend(&places[..count]);
    }
}

#[test]
fn filled_buffers() {
    let words = WordSegmenter::new().unwrap();
    for text in texts() {
        let (bytes, units) = (text.as_bytes(), text.encode_utf16().collect::<Vec<_>>());
        for room in [1, 7, 1000] {
            assert!(words.boundaries(&text).eq(filled(room, |from, places| words.fill_boundaries(bytes, from, places))));
            assert!(words.boundaries(&units).eq(filled(room, |from, places| words.fill_boundaries(&units, from, places))));
        }
        let (mut places, mut marks) = (vec![0; bytes.len()], vec![0; bytes.len()]);
        let count = words.fill_marked_boundaries(bytes, 0, &mut places, &mut marks);
        let found = places[..count].iter().copied().zip(marks.iter().map(|&mark| <kind::Word as kind::Marked>::mark(mark)));
        assert!(words.marked_segments(&text).map(|(start, segment, mark)| (start + segment.len(), mark)).eq(found));
    }
    let (mut places, mut marks) = ([7; 4], [7; 2]);
    assert_eq!(words.fill_marked_boundaries(b"a b c", 0, &mut places, &mut marks), 2, "as many as both have room for");
    assert_eq!((places, marks), ([1, 2, 7, 7], [2, 0]));
    assert_eq!(words.fill_boundaries(b"a b", 0, &mut []), 0);
    assert_eq!(words.fill_boundaries(b"a b", 4, &mut places), 0);
    assert!(!words.has_words() && with_thai(words).has_words());
}

/// Buffers are filled with the boundaries and marks that a text in Latin-1 has in UTF-16.
fn fill_latin1<K: kind::Marked>(segmenter: &Segmenter<K>, text: &[u8]) {
    let units: Vec<u16> = text.iter().copied().map(u16::from).collect();
    for room in [1, 7, 1000] {
        if room == 1000 || !segmenter.has_words() {
            assert!(segmenter.boundaries(&units).eq(filled(room, |from, places| segmenter.fill_boundaries_latin1(text, from, places))));
        }
    }
    let (mut places, mut marks) = (vec![0; text.len()], vec![0; text.len()]);
    let count = segmenter.fill_marked_boundaries_latin1(text, 0, &mut places, &mut marks);
    let found = places[..count].iter().copied().zip(marks.iter().map(|&mark| K::mark(mark)));
    assert!(segmenter.marked_segments(&units).map(|(start, segment, mark)| (start + segment.len(), mark)).eq(found));
}

#[test]
fn filled_buffers_of_latin1() {
    const PARTS: [&[u8]; 10] = [b"a", b"caf\xe9", b" ", b"3.14", b"! Z", b"Mr. ", b"\xad", b"\xa0", b"\n", b"\x85"];
    let (words, of_lines) = (WordSegmenter::new().unwrap(), lines());
    let (thai_words, thai_lines) = (with_thai(WordSegmenter::new().unwrap()), with_thai(lines()));
    let mut random = Random(11);
    for parts in 0..200 {
        let text: Vec<u8> = (0..parts).flat_map(|_| PARTS[random.below(10)]).copied().collect();
        fill_latin1(&words, &text);
        fill_latin1(&thai_words, &text);
        fill_latin1(&of_lines, &text);
        fill_latin1(&thai_lines, &text);
    }
    let mut places = [9; 4];
    assert_eq!(with_abbreviations().fill_boundaries_latin1(b"\xe9! a. B", 0, &mut places), 1);
    assert_eq!(places, [7, 9, 9, 9]);
    assert_eq!(words.fill_marked_boundaries_latin1(b"\xe9 b c", 0, &mut places, &mut [0, 0]), 2, "as many as both have room for");
    assert_eq!(places, [1, 2, 9, 9]);
    assert_eq!(words.fill_boundaries_latin1(b"\xe9 b", 0, &mut []), 0);
    assert_eq!(words.fill_boundaries_latin1(b"\xe9 b", 4, &mut places), 0);
}

#[test]
fn marks_of_words() {
    for dictionary in [false, true] {
        let mut segmenter = WordSegmenter::new().unwrap();
        if dictionary {
            segmenter = with_thai(segmenter);
        }
        let whole = Whole::open(YENGATOMU_WORDS, dictionary);
        for text in texts() {
            let marks: Vec<_> = segmenter.marked_segments(&text).map(|(_, _, word_type)| word_type as u8).collect();
            assert_eq!(marks, whole.marks(text.as_bytes()));
            let mut back: Vec<_> = segmenter.marked_segments(&text).rev().collect();
            back.reverse();
            assert_eq!(back, segmenter.marked_segments(&text).collect::<Vec<_>>());

            let words: Vec<_> = segmenter.words(&text).collect();
            assert!(segmenter.marked_segments(&text).filter(|(_, _, word_type)| word_type.is_word()).eq(words.iter().copied()));
            assert!(segmenter.words(&text).rev().eq(words.iter().rev().copied()));
            assert_eq!(segmenter.count_words(&text), words.len());
            assert_eq!(segmenter.count_words(&text.encode_utf16().collect::<Vec<_>>()), words.len());
            let (low, high) = segmenter.words(&text).size_hint();
            assert!(low <= words.len() && words.len() <= high.unwrap());
        }
    }
}

#[test]
fn marks_of_lines() {
    for dictionary in [false, true] {
        let segmenter = if dictionary { with_thai(lines()) } else { lines() };
        let whole = Whole::open(YENGATOMU_LINES, dictionary);
        for text in texts() {
            let found: Vec<_> = segmenter.marked_segments(&text).collect();
            let marks: Vec<_> = found.iter().map(|&(_, _, mark)| u8::from(mark == LineBreak::Mandatory)).collect();
            assert_eq!(marks, whole.marks(text.as_bytes()));
            assert!(segmenter.marked_segments(&text).rev().eq(found.iter().rev().copied()));
        }
    }
}

#[test]
fn wrapped_lines() {
    for dictionary in [false, true] {
        let segmenter = if dictionary { with_thai(lines()) } else { lines() };
        let whole = Whole::open(YENGATOMU_LINES, dictionary);
        for text in texts() {
            for columns in [0, 1, 7, 30, usize::MAX] {
                let found: Vec<_> = segmenter.wrap(&text, columns).collect();
                let ends: Vec<_> = found.iter().map(|line| line.start + line.text.len()).collect();
                assert_eq!(ends, whole.wrap(text.as_bytes(), columns));
                assert_eq!(found.iter().map(|line| line.text).collect::<String>(), text);
                for line in &found {
                    let is_one = segmenter.next_boundary(&text, line.start) == Some(line.start + line.text.len());
                    assert!(line.columns <= columns || is_one, "{line:?}");
                }
                assert!(segmenter.wrap(text.as_bytes(), columns).map(|line| line.start).eq(found.iter().map(|line| line.start)));
                let mut left = segmenter.wrap(&text, columns);
                left.nth(1);
                assert_eq!(left.clone().count(), found.len().saturating_sub(2));
                let (low, high) = left.size_hint();
                let remain = found.len().saturating_sub(2);
                assert!(low <= remain && remain <= high.unwrap());
            }
            let bytes = ill_formed(&text);
            let ends: Vec<_> = segmenter.wrap(&bytes, 7).map(|line| line.start + line.text.len()).collect();
            assert_eq!(ends, whole.wrap(&bytes, 7));

            // Equal code points have equal lines.
            let units: Vec<u16> = text.encode_utf16().collect();
            let of_units = segmenter.wrap(&units, 7).map(|line| (String::from_utf16(line.text).unwrap(), line.columns));
            assert!(of_units.eq(segmenter.wrap(&text, 7).map(|line| (line.text.to_owned(), line.columns))));
            let units = ill_formed_utf16(&text);
            assert_eq!(segmenter.wrap(&units, 7).flat_map(|line| line.text).copied().collect::<Vec<_>>(), units);
        }
    }
}

fn nearest_in<K: Kind, T: ?Sized + Text>(segmenter: &Segmenter<K>, text: &T, len: usize) {
    let boundaries: Vec<_> = segmenter.boundaries(text).collect();
    for place in (0..len + 3).chain([usize::MAX]) {
        let above = boundaries.iter().copied().find(|&boundary| boundary > place);
        assert_eq!(segmenter.next_boundary(text, place), above);
        let below = boundaries.iter().copied().rev().find(|&boundary| boundary < place);
        assert_eq!(segmenter.previous_boundary(text, place), below);
        assert_eq!(segmenter.is_boundary(text, place), boundaries.contains(&place));
    }
}

fn nearest_places<K: Kind>(segmenter: &Segmenter<K>) {
    for text in texts().into_iter().filter(|text| text.len() < 400) {
        nearest_in(segmenter, &text, text.len());
        nearest_in(segmenter, text.as_bytes(), text.len());
        let units = ill_formed_utf16(&text);
        nearest_in(segmenter, &units, units.len());
    }
}

#[test]
fn nearest() {
    nearest_places(&GraphemeSegmenter::new().unwrap());
    nearest_places(&WordSegmenter::new().unwrap());
    nearest_places(&with_thai(WordSegmenter::new().unwrap()));
    nearest_places(&SentenceSegmenter::new().unwrap());
    nearest_places(&with_abbreviations());
    nearest_places(&lines());
    nearest_places(&with_thai(lines()));
}

#[test]
fn text_types() {
    fn count<T: ?Sized + Text>(text: &T) -> usize {
        GraphemeSegmenter::new().unwrap().count(text)
    }
    let text = "ab";
    assert_eq!(count(text), 2);
    assert_eq!(count(&text), 2);
    assert_eq!(count(&&mut String::from(text)), 2);
    assert_eq!(count(&String::from(text)), 2);
    assert_eq!(count(&Cow::Borrowed(text)), 2);
    assert_eq!(count(&text.to_string().into_boxed_str()), 2);
    assert_eq!(count(&Rc::<str>::from(text)), 2);
    assert_eq!(count(&Arc::new(String::from(text))), 2);
    assert_eq!(count(b"ab"), 2);
    assert_eq!(count(b"ab".as_slice()), 2);
    assert_eq!(count(&vec![0x61u16, 0x62]), 2);
    assert_eq!(count(&[0x61u16, 0x62]), 2);

    struct Mine(String);
    impl Text for Mine {
        type Slice = str;
        fn as_slice(&self) -> &str {
            &self.0
        }
    }
    assert_eq!(count(&Mine(text.into())), 2);
}

#[test]
fn prepared_texts() {
    let rows = [
        ("a\nb", "a b"),
        (" a \t\r\n b", " a b"),
        ("  a\n b\n c\n\td", "  a\n b c\n\td"),
        ("a\n> b\n> c\n-- \nd\ne", "a\n> b\n> c\n-- \nd e"),
        ("a\n\nb\n \nc", "a\n\nb\n \nc"),
        (" \n a\n b\n c \n", " \n a b c \n"),
        ("a\u{2028}\nb\u{b}\nc", "a\u{2028} b\u{b} c"),
        ("a  b", "a  b"),
        ("\n", "\n"),
        ("", ""),
    ];
    for (text, joined) in rows {
        assert_eq!(join_lines(text), joined);
        assert_eq!(join_lines(text.as_bytes()), joined.as_bytes());
        assert!(join_lines(&text.encode_utf16().collect::<Vec<_>>()).into_iter().eq(joined.encode_utf16()));
    }
    assert_eq!(join_lines(b"\xff\n\xe0\n".as_slice()), b"\xff \xe0\n");

    let rows = [
        ("a\tb", 4, "a   b"),
        ("\t\tb\n\tc\td", 2, "    b\n  c d"),
        ("abcd\te", 4, "abcd    e"),
        ("東 \tb\r\n\t", 4, "東  b\r\n    "),
        ("e\u{301}\tb", 3, "e\u{301}  b"),
        ("a\u{b}bc\td", 4, "a\u{b}bc d"),
        ("a b\n", 4, "a b\n"),
        ("a\tb", 0, "ab"),
        ("", 1, ""),
    ];
    let anywhere = LineSegmenter::new(LineOptions { strictness: Strictness::Anywhere, ..LineOptions::default() }).unwrap();
    for segmenter in [lines(), anywhere, with_thai(lines())] {
        for (text, columns, spaced) in rows {
            assert_eq!(segmenter.expand_tabs(text, columns), spaced);
            assert_eq!(segmenter.expand_tabs(text.as_bytes(), columns), spaced.as_bytes());
            assert!(segmenter.expand_tabs(&text.encode_utf16().collect::<Vec<_>>(), columns).into_iter().eq(spaced.encode_utf16()));
        }
        assert_eq!(segmenter.expand_tabs(b"\xff\xe0\xb8\tb".as_slice(), 4), b"\xff\xe0\xb8  b");
    }
}

/// Segments are borrowed from the text, and outlive the segmenter.
#[test]
fn segments_outlive_the_segmenter() {
    fn last_word(text: &str) -> Option<&str> {
        let words = WordSegmenter::new().unwrap();
        let last = words.words(text).next_back();
        last.map(|(_, word, _)| word)
    }
    assert_eq!(last_word("to be!"), Some("be"));
    assert_eq!(last_word("!"), None);
}

/// Iterators over one segmenter may be used by turns, each in the loop of another.
#[test]
fn nested() {
    let segmenter = with_thai(WordSegmenter::new().unwrap());
    let text = "one ภาษาไทย\ntwo 3.14 ".repeat(100);
    let words: Vec<_> = segmenter.words(&text).collect();
    for (outer, (place, word, word_type)) in segmenter.words(&text).enumerate() {
        assert_eq!(words[outer], (place, word, word_type));
        let mut inner = segmenter.words(&text).skip(outer);
        assert_eq!(inner.next(), Some(words[outer]));
        assert_eq!(segmenter.count_words(word), 1);
        assert_eq!(segmenter.next_boundary(&text, place), Some(place + word.len()));
    }
    assert!(segmenter.words(&text).zip(segmenter.words(&text).rev()).count() == words.len());
}

#[test]
fn dictionaries() {
    let mut words = WordSegmenter::new().unwrap();
    assert_eq!(words.load_dictionary(&[b"\xff"], Script::Thai), Err(Error::NotUtf8));
    // So the segmenter has no words of Thai yet.
    words.load_dictionary(&["ภาษา", "ไทย"].map(String::from), Script::Thai).unwrap();
    assert!(words.segments("ภาษาไทย").eq(["ภาษา", "ไทย"]));
    // It keeps those that it has.
    words.load_dictionary(&["ภาษาไทย"], Script::Thai).unwrap();
    assert!(words.segments("ภาษาไทย").eq(["ภาษา", "ไทย"]));
    for script in [Script::Myanmar, Script::ChineseOrJapanese, Script::Khmer, Script::Lao] {
        words.load_dictionary::<&str>(&[], script).unwrap();
        lines().load_dictionary::<&str>(&[], script).unwrap();
    }
    assert!(words.segments("ภาษาไทย").eq(["ภาษา", "ไทย"]));
}

#[test]
fn abbreviations() {
    let mut sentences = SentenceSegmenter::new().unwrap();
    let text = "Mr. Bond. z. B. Jim\nMr. A";
    assert!(sentences.boundaries(text).eq([0, 4, 13, 16, 20, 24, 25]));
    assert_eq!(sentences.load_abbreviations(&[b"\xff".as_slice(), b"Mr."]), Err(Error::NotUtf8));
    assert_eq!(sentences.load_abbreviations(&["a\nb."]), Err(Error::LineFeed));
    assert!(sentences.boundaries(text).eq([0, 4, 13, 16, 20, 24, 25]));
    sentences.load_abbreviations(&["\u{feff}z. B.\r", "", " Mr. "]).unwrap();
    assert!(sentences.boundaries(text).eq([0, 13, 20, 25]));
    assert!(sentences.segments(text).rev().eq(["Mr. A", "B. Jim\n", "Mr. Bond. z. "]));
    assert!(sentences.segments(text.as_bytes()).map(<[u8]>::len).eq([13, 7, 5]));
    assert_eq!((sentences.count(text), sentences.next_boundary(text, 4), sentences.previous_boundary(text, 20)), (3, Some(13), Some(13)));
    assert_eq!(sentences.load_abbreviations(&["Jim"]), Err(Error::HasAbbreviations));
    assert_eq!(Error::HasAbbreviations.to_string(), "the segmenter has abbreviations already");
    assert!(sentences.boundaries(text).eq([0, 13, 20, 25]));
    assert_eq!(format!("{sentences:?}"), "Segmenter { kind: \"Sentence\", has_words: true, .. }");
    // Far from a line feed too, where an abbreviation began before the places that a call gave.
    let text = "Yes. Z. z. B. No! ".repeat(400);
    assert!(sentences.segments(&text).eq(["Yes. ", "Z. z. ", "B. No! "].repeat(400)));
}

#[test]
fn columns_by_cluster() {
    let family = "👩\u{200d}👩\u{200d}👧 a";
    let mut segmenter = lines();
    let columns = |segmenter: &LineSegmenter| segmenter.wrap(family, 80).map(|line| line.columns).collect::<Vec<_>>();
    assert_eq!(columns(&segmenter), [8]);
    for _ in 0..2 {
        segmenter.count_by_cluster().unwrap();
        assert_eq!(columns(&segmenter), [4]);
    }
    assert!(segmenter.wrap(family, 3).map(|line| line.text).eq([&family[..family.len() - 1], "a"]));
    let units: Vec<u16> = family.encode_utf16().collect();
    assert!(segmenter.wrap(&units, 3).map(|line| line.columns).eq([2, 1]));
    assert!(segmenter.segments(family).eq(lines().segments(family)));
    // With a dictionary too, whichever came first.
    for mut segmenter in [with_thai(segmenter), with_thai(lines())] {
        segmenter.count_by_cluster().unwrap();
        for text in texts() {
            assert!(segmenter.segments(&text).eq(with_thai(lines()).segments(&text)));
            let ends: usize = segmenter.wrap(&text, 9).map(|line| line.text.len()).sum();
            assert_eq!(ends, text.len());
        }
        assert_eq!(columns(&segmenter), [4]);
    }
}

/// Lines of a file, with their ends or without; and the text of one.
#[test]
fn dictionaries_of_lines() {
    let text = "\u{feff}ภาษา\r\n\n \u{3000}\nไทย\t\n";
    for lines in [text.lines().collect::<Vec<_>>(), text.split_inclusive('\n').collect()] {
        let mut words = WordSegmenter::new().unwrap();
        words.load_dictionary(&lines, Script::Thai).unwrap();
        assert!(words.segments("ภาษาไทย").eq(["ภาษา", "ไทย"]));
        assert_eq!(words.load_dictionary(&[text], Script::Lao), Err(Error::LineFeed));
    }
    assert_eq!(Error::LineFeed.to_string(), "a word has a line feed in it");
}

#[test]
fn folders_of_dictionaries() {
    let folder = std::env::temp_dir().join(format!("yengatomu-{}", std::process::id()));
    let write = |name: &str, data: &[u8]| std::fs::write(folder.join(name), data).unwrap();
    let told = |error: DictionaryError, name: &str, said: &str| {
        assert_eq!(error.to_string(), format!("{}: {said}", folder.join(name).display()));
    };
    let mut words = WordSegmenter::new().unwrap();
    assert!(matches!(words.load_dictionaries(&folder), Err(DictionaryError::Unreadable(path, _)) if path == folder));
    std::fs::create_dir(&folder).unwrap();
    let none = words.load_dictionaries(&folder).unwrap_err().to_string();
    assert_eq!(none, format!("{}: there is no thai.txt, lao.txt, khmer.txt, myanmar.txt or cj.txt in it", folder.display()));

    write("thai.txt", "ภาษา\r\n\r\nไทย\n".as_bytes());
    write("lao.txt", b"\xff\n");
    told(words.load_dictionaries(&folder).unwrap_err(), "lao.txt", "it isn't UTF-8");
    write("lao.txt", b"\n \n");
    told(words.load_dictionaries(&folder).unwrap_err(), "lao.txt", "it has no words");
    // So nothing of it was loaded.
    assert_eq!(words.count("ภาษา"), WordSegmenter::new().unwrap().count("ภาษา"));
    assert_eq!(format!("{words:?}"), "Segmenter { kind: \"Word\", has_words: false, .. }");
    std::fs::remove_file(folder.join("lao.txt")).unwrap();

    write("cj.txt", "\u{feff}東京\n".as_bytes());
    write("abbreviations-en.txt", b"Mr.\n");
    assert_eq!(words.load_dictionaries(&folder).unwrap(), [Script::Thai, Script::ChineseOrJapanese]);
    assert!(words.segments("ภาษาไทย東京").eq(["ภาษา", "ไทย", "東京"]));
    let mut lines = lines();
    assert_eq!(lines.load_dictionaries(&folder).unwrap(), [Script::Thai]);
    assert!(lines.segments("ภาษาไทย").eq(["ภาษา", "ไทย"]));

    let mut sentences = SentenceSegmenter::new().unwrap();
    let missing = sentences.load_language(&folder, "de").unwrap_err();
    assert!(matches!(missing, DictionaryError::Unreadable(path, _) if path == folder.join("abbreviations-de.txt")));
    write("abbreviations-de.txt", b"\xff\n");
    told(sentences.load_language(&folder, "de").unwrap_err(), "abbreviations-de.txt", "it isn't UTF-8");
    write("abbreviations-de.txt", b"\r\n \n");
    told(sentences.load_language(&folder, "de").unwrap_err(), "abbreviations-de.txt", "it has no words");
    assert_eq!(sentences.count("Mr. A"), 2);
    sentences.load_language(&folder, "en").unwrap();
    assert_eq!(sentences.count("Mr. A"), 1);
    let again = sentences.load_language(&folder, "en").unwrap_err();
    assert_eq!(again.to_string(), "the segmenter has abbreviations already");
    std::fs::remove_dir_all(&folder).unwrap();
}

const SNAKE: &str = "Letter = \\p{L} + \\p{M} + \\p{Nd}\nLine = [_ -]\nLetter × Letter\nLine × Line\n÷\n";

#[test]
fn rules() {
    let snake = Segmenter::by_rules(SNAKE).unwrap();
    assert!(snake.boundaries("snake_case").eq([0, 5, 6, 10]));
    assert!(snake.segments("snake_case").rev().eq(["case", "_", "snake"]));
    assert!(snake.segments("e\u{301}9__!?").eq(["e\u{301}9", "__", "!", "?"]));
    assert!(snake.segments(b"a\xffb".as_slice()).eq([b"a".as_slice(), b"\xff", b"b"]));
    assert!(snake.boundaries([0x61, 0xd800, 0x5f, 0x5fu16].as_slice()).eq([0, 1, 2, 4]));
    assert_eq!(snake.count("snake_case"), 3);
    assert_eq!((snake.previous_boundary("snake_case", 6), snake.next_boundary("snake_case", 6)), (Some(5), Some(10)));
    assert!(snake.is_boundary("snake_case", 5) && !snake.is_boundary("snake_case", 4));
    assert_eq!(format!("{snake:?}"), "Segmenter { kind: \"Rule\", has_words: false, .. }");
    // They begin anew at each boundary, also where no line feed stands before it.
    let text = "ab__c-- d!".repeat(500);
    assert!(snake.segments(&text).eq(["ab", "__", "c", "--", " ", "d", "!"].repeat(500)));
}

#[test]
fn rules_that_are_wrong() {
    let wrong = [("", 1), ("÷\n=", 2), ("Letter × Letter\n÷", 1), ("A = [a]\nA × A", 2), ("A = [a]\n\nA = [b]\n÷", 3), ("÷\0", 1)];
    for (rules, line) in wrong {
        assert_eq!(Segmenter::by_rules(rules).err(), Some(Error::WrongRules(line)), "{rules:?}");
    }
    assert_eq!(Error::WrongRules(2).to_string(), "line 2 of the rules is wrong");
    // Of a, b, a what came before the last boundary is needed.
    assert_eq!(Segmenter::by_rules("A = [a]\nB = [b]\nA B ÷ A\nB A ÷ B\n×\n").err(), Some(Error::NoMachine(Some(3))));
    assert_eq!(Error::NoMachine(Some(3)).to_string(), "the rules can't be followed, as line 3 shows");
    assert_eq!(Error::NoMachine(None).to_string(), "the rules can't be followed");
}

#[test]
fn every_option_opens() {
    for strictness in [Strictness::Strict, Strictness::Normal, Strictness::Loose, Strictness::Anywhere] {
        for word_break in [WordBreak::Normal, WordBreak::BreakAll, WordBreak::KeepAll] {
            for chinese_or_japanese in [false, true] {
                let lines = LineSegmenter::new(LineOptions { strictness, word_break, chinese_or_japanese }).unwrap();
                assert_eq!(lines.boundaries("a b").last(), Some(3));
            }
        }
    }
    let anywhere = LineSegmenter::new(LineOptions { strictness: Strictness::Anywhere, ..LineOptions::default() }).unwrap();
    assert!(anywhere.segments("abe\u{301}").eq(["a", "b", "e\u{301}"]));
}

#[test]
fn versions() {
    assert!(GraphemeSegmenter::unicode_version() >= (14, 0, 0));
    assert!(WordSegmenter::unicode_version() >= (14, 0, 0));
    assert!(SentenceSegmenter::unicode_version() >= (14, 0, 0));
    assert!(LineSegmenter::unicode_version() >= (14, 0, 0));
    assert_ne!(yengatomu::version(), (0, 0, 0));
}

#[test]
fn shown() {
    let words = WordSegmenter::new().unwrap();
    assert_eq!(format!("{words:?}"), "Segmenter { kind: \"Word\", has_words: false, .. }");
    let mut segments = words.segments("to be");
    segments.next();
    assert_eq!(segments.rest(), " be");
    assert_eq!(format!("{segments:?}"), "Segments { pieces: Pieces { start: 2, left: 3 }, .. }");
    assert_eq!(Error::OutOfMemory.to_string(), "out of memory");
    let error: Box<dyn std::error::Error + Send + Sync> = Box::new(Error::NotUtf8);
    assert_eq!(error.to_string(), "a word isn't UTF-8");
    assert_eq!(WordType::Number as u8, YENGATOMU_NUMBER);
}

/// Ten threads segment a text by one segmenter at once.
fn shared<K: Kind>(segmenter: &Segmenter<K>, text: &str) {
    let wanted: Vec<_> = segmenter.boundaries(text).collect();
    std::thread::scope(|scope| {
        for _ in 0..10 {
            scope.spawn(|| {
                assert!(segmenter.boundaries(text).eq(wanted.iter().copied()));
                assert_eq!(segmenter.count(text), wanted.len() - 1);
                assert_eq!(segmenter.next_boundary(text, 0), wanted.get(1).copied());
                assert_eq!(segmenter.previous_boundary(text, text.len()), wanted.iter().rev().nth(1).copied());
            });
        }
    });
}

/// Segmenters may move to other threads, and be shared between them.
#[test]
fn threads() {
    fn is_shared<T: Send + Sync>() {}
    is_shared::<GraphemeSegmenter>();
    is_shared::<WordSegmenter>();
    is_shared::<SentenceSegmenter>();
    is_shared::<LineSegmenter>();
    is_shared::<RuleSegmenter>();
    let words = with_thai(WordSegmenter::new().unwrap());
    let text = texts().concat();
    shared(&words, &text);
    shared(&GraphemeSegmenter::new().unwrap(), &text);
    shared(&SentenceSegmenter::new().unwrap(), &text);
    shared(&with_thai(LineSegmenter::new(LineOptions::default()).unwrap()), &text);
    shared(&RuleSegmenter::by_rules("A = [a]\nA × A\n÷").unwrap(), &text);
    let here = words.count(&text);
    let handles: Vec<_> = (0..4)
        .map(|_| {
            let words = with_thai(WordSegmenter::new().unwrap());
            let text = text.clone();
            std::thread::spawn(move || (words.count(&text), words))
        })
        .collect();
    for handle in handles {
        let (there, words) = handle.join().unwrap();
        assert_eq!(there, here);
        assert_eq!(words.count(&text), here);
    }
}

/// One text, as each kind of slice has it.
#[test]
fn slices() {
    fn same<S>(whole: &S, segments: &[&S])
    where
        S: ?Sized + Slice + Text<Slice = S> + PartialEq + std::fmt::Debug,
    {
        let words = WordSegmenter::new().unwrap();
        assert_eq!(words.segments(whole).collect::<Vec<_>>(), segments);
    }
    same("a b", &["a", " ", "b"]);
    same(b"a \xff".as_slice(), &[b"a", b" ", b"\xff"]);
    same([0x61, 0x20, 0xd800u16].as_slice(), &[&[0x61], &[0x20], &[0xd800]]);
}

#[test]
fn balanced_lines() {
    let lines = LineSegmenter::new(LineOptions::default()).unwrap();
    let text = "aaa bb cc ddddd\naaa bb cc ddddd";
    let wanted = ["aaa ", "bb cc ", "ddddd\n", "aaa ", "bb cc ", "ddddd"];
    let found = lines.wrap_balanced(text, 6).unwrap();
    assert!(found.iter().map(|line| line.text).eq(wanted));
    assert!(found.iter().map(|line| line.columns).eq([3, 5, 5, 3, 5, 5]));
    let units: Vec<u16> = text.encode_utf16().collect();
    assert!(lines.wrap_balanced(&units[..], 6).unwrap().iter().map(|line| line.start).eq(found.iter().map(|line| line.start)));
    assert!(lines.wrap_balanced("", 6).unwrap().is_empty());
    // (more lines in a paragraph than the first call has room for)
    let many = "word of ".repeat(400);
    let found = lines.wrap_balanced(&many, 20).unwrap();
    assert!(found.len() > 64 && found.iter().all(|line| line.columns <= 20));
    assert_eq!(found.iter().map(|line| line.text).collect::<String>(), many);
}
