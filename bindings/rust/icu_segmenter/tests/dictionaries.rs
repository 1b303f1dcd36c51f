//! Words and lines by dictionaries: some words of our own, and Debian's lists, where its package libicu72 is installed.
use std::path::{Path, PathBuf};
use std::process::{Command, Stdio};
use std::sync::OnceLock;
use std::{fs, thread};

use icu_segmenter::dictionaries::{DictionaryError, Error, ListError, Script};
use icu_segmenter::options::WordType::{Letter, None as NoWord, Number};
use icu_segmenter::options::{LineBreakOptions, LineBreakWordOption};
use icu_segmenter::{LineSegmenter, WordSegmenter};

#[macro_use]
mod common;
use common::{repository, Row};

/// Words of each script, enough for the texts here.
const WORDS: [(&[&str], Script); 5] = [
    (&["ภาษา", "ไทย"], Script::Thai),
    (&["မြန်မာ", "စာ"], Script::Myanmar),
    (&["សេចក្ដីប្រកាស", "ជាស", "កល", "ស្ដីពី", "សិទ្ធិមនុស្ស"], Script::Khmer),
    (&["ກ່ຽວກັບ", "ສິດ", "ຂອງ", "ມະນຸດ"], Script::Lao),
    (&["うなぎ", "うなじ", "龟山岛", "こんにちは", "世界"], Script::ChineseOrJapanese),
];

/// What words of scripts are cut into, by these words and by Debian's lists.
const OF_WORDS: [&str; 11] = [
    "ภาษา|ไทย|ภาษา|ไทย",
    "မြန်မာ|စာ|မြန်မာ|စာ|မြန်မာ|စာ",
    "សេចក្ដីប្រកាស|ជាស|កល|ស្ដីពី|សិទ្ធិមនុស្ស",
    "ກ່ຽວກັບ|ສິດ|ຂອງ|ມະນຸດ",
    "うなぎ|うなじ",
    "Welcome|龟山岛|龟山岛|Welcome",
    "こんにちは|世界",
    "ภาษา|ไทย|ภาษา|ไทย|မြန်မာ|စာ|မြန်မာ|စာ",
    "ab12|ภาษา|ไทย|cd",
    "ไทย|ไทย|,| |ภาษา|\n|ไทย",
    "ກ່ຽວກັບ|ไทย|うなぎ|.",
];

/// Where lines may end between them.
const OF_LINES: [&str; 9] = [
    "ภาษา|ไทย|ภาษา|ไทย",
    "မြန်မာ|စာ|မြန်မာ|စာ|မြန်မာ|စာ",
    "សេចក្ដីប្រកាស|ជាស|កល|ស្ដីពី|សិទ្ធិមនុស្ស",
    "ກ່ຽວກັບ|ສິດ|ຂອງ|ມະນຸດ",
    "う|な|ぎ|う|な|じ",
    "Welcome|龟|山|岛|Welcome",
    // (UAX #14 has no break where two scripts meet, and no dictionary has one there)
    "ภาษา|ไทยမြန်မာ|စာ",
    "ab12ภาษา|ไทยcd",
    "ไทย|ไทย, |(ภาษา|ไทย)\n|ไทย",
];

fn words() -> WordSegmenter {
    let mut words = WordSegmenter::try_new_dictionary(Default::default()).unwrap();
    for (listed, script) in WORDS {
        words.load_words(listed, script).unwrap();
    }
    words
}

fn lines(options: LineBreakOptions) -> LineSegmenter {
    let mut lines = LineSegmenter::new_auto(options).static_to_owned();
    for (listed, script) in WORDS {
        lines.load_words(listed, script).unwrap();
    }
    lines
}

#[test]
fn words_of_our_own() {
    let words = words();
    for row in OF_WORDS {
        check!(words.as_borrowed(), Row::marked(row));
    }
}

#[test]
fn lines_of_our_own() {
    let lines = lines(LineBreakOptions::default());
    for row in OF_LINES {
        check!(lines.as_borrowed(), Row::marked(row));
    }
}

#[test]
fn word_types() {
    let words = words();
    let found = words.as_borrowed().segment_str("ภาษาไทย 42ไทย").iter_with_word_type();
    assert!(found.eq([(0, NoWord), (12, Letter), (21, Letter), (22, NoWord), (24, Number), (33, Letter)]));
}

#[test]
fn no_dictionary_cuts_where_lines_break_in_all_words() {
    let mut options = LineBreakOptions::default();
    options.word_option = Some(LineBreakWordOption::BreakAll);
    let in_words = lines(options);
    check!(in_words.as_borrowed(), Row::marked("ภ|า|ษ|า|ไ|ท|ย"));
    options.word_option = Some(LineBreakWordOption::KeepAll);
    let between_words = lines(options);
    check!(between_words.as_borrowed(), Row::marked("ภาษา|ไทย"));
}

#[test]
fn a_script_keeps_its_dictionary() {
    let mut words = WordSegmenter::try_new_dictionary(Default::default()).unwrap();
    words.load_words(&["ภาษาไทย"], Script::Thai).unwrap();
    words.load_words(&["ภาษา", "ไทย"], Script::Thai).unwrap();
    words.load_words(&["ສິດ"], Script::Lao).unwrap();
    check!(words.as_borrowed(), Row::marked("ภาษาไทย|ສິດ|ສິດ"));
}

#[test]
fn the_shared_segmenter_has_none() {
    let words = words();
    assert!(words.as_borrowed().segment_str("ไทย").eq([0, 9]));
    assert!(WordSegmenter::new_auto(Default::default()).segment_str("ไทย").eq([0, 3, 6, 9]));
    assert!(WordSegmenter::try_new_dictionary(Default::default()).unwrap().as_borrowed().segment_str("ไทย").eq([0, 3, 6, 9]));
}

#[test]
fn dictionaries_of_another_segmenter() {
    static LENT: OnceLock<WordSegmenter> = OnceLock::new();
    let mut owned = LENT.get_or_init(words).as_borrowed().static_to_owned();
    check!(owned.as_borrowed(), Row::marked("ภาษา|ไทย"));
    assert!(matches!(owned.load_words(&["ไทย"], Script::Thai), Err(DictionaryError::NotOwned)));
    check!(owned.as_borrowed(), Row::marked("ภาษา|ไทย"));
    static PLAIN: OnceLock<WordSegmenter> = OnceLock::new();
    let plain = PLAIN.get_or_init(|| WordSegmenter::try_new_auto(Default::default()).unwrap());
    let mut owned = plain.as_borrowed().static_to_owned();
    owned.load_words(&["ไทย"], Script::Thai).unwrap();
    check!(owned.as_borrowed(), Row::marked("ไทย|ไทย"));
    check!(plain.as_borrowed(), Row::marked("ไ|ท|ย"));
}

#[test]
fn a_long_line_is_segmented_whole() {
    let words = words();
    let text = format!("{}\n{}", "ภาษาไทย".repeat(1000), "ไทยa ".repeat(500));
    let mut stated = vec![0];
    for word in (0..1000).flat_map(|_| ["ภาษา", "ไทย"]).chain(["\n"]).chain((0..500).flat_map(|_| ["ไทย", "a", " "])) {
        stated.push(stated[stated.len() - 1] + word.len());
    }
    assert!(words.as_borrowed().segment_str(&text).eq(stated.iter().copied()));
    let mut places = words.as_borrowed().segment_str(&text);
    assert_eq!(places.nth(1500), Some(stated[1500]));
    assert!(places.clone().eq(stated[1501..].iter().copied()));
}

#[test]
fn a_long_line_of_latin1_is_segmented_whole() {
    let text = [b"caf\xe9 ".repeat(1000), b"\n".to_vec(), b"1 ".repeat(500)].concat();
    let before = (0..1000).flat_map(|word| [5 * word, 5 * word + 4]);
    let behind = (0..500).flat_map(|word| [5001 + 2 * word, 5002 + 2 * word]);
    let stated = before.chain([5000]).chain(behind).chain([6001]);
    assert!(words().as_borrowed().segment_latin1(&text).eq(stated));
}

#[test]
fn lists_that_cannot_be_taken() {
    let mut words = WordSegmenter::try_new_dictionary(Default::default()).unwrap();
    let folder = Path::new(env!("CARGO_TARGET_TMPDIR")).join("no-lists");
    fs::create_dir_all(&folder).unwrap();
    let error = words.load_dictionaries(&folder).unwrap_err();
    assert!(matches!(error, DictionaryError::Lists(ListError::NoLists(_))), "{error}");
    let error = words.load_dictionaries(folder.join("none")).unwrap_err();
    assert!(matches!(error, DictionaryError::Lists(ListError::Unreadable(..))), "{error}");
    let error = words.load_words(&[b"\xe0\xb8".as_slice()], Script::Thai).unwrap_err();
    assert!(matches!(error, DictionaryError::Lists(ListError::Library(Error::NotUtf8))), "{error}");
    words.load_words(&["ไทย"], Script::Thai).unwrap();
    check!(words.as_borrowed(), Row::marked("ไทย|ไทย"));
}

/// A folder with Debian's lists, which `tools/dictionaries` writes; none, with a line that says so, where it can't.
fn debians() -> Option<PathBuf> {
    static FOLDER: OnceLock<Option<PathBuf>> = OnceLock::new();
    let folder = FOLDER.get_or_init(|| {
        let folder = Path::new(env!("CARGO_TARGET_TMPDIR")).join("debians-lists");
        let made =
            Command::new("python3").arg(repository("tools/dictionaries")).arg(&folder).stdout(Stdio::null()).stderr(Stdio::null()).status();
        made.is_ok_and(|status| status.success()).then_some(folder)
    });
    if folder.is_none() {
        println!("left out: tools/dictionaries wrote no lists");
    }
    folder.clone()
}

#[test]
fn words_by_debians_lists() {
    let Some(folder) = debians() else { return };
    let mut words = WordSegmenter::try_new_auto(Default::default()).unwrap();
    assert_eq!(words.load_dictionaries(folder).unwrap().len(), 5);
    for row in OF_WORDS {
        check!(words.as_borrowed(), Row::marked(row));
    }
    // (of each script a word alone, between others that it is no part of)
    check!(words.as_borrowed(), Row::marked("東京|に|行き|ます|。"));
    thread::scope(|scope| {
        for _ in 0..4 {
            scope.spawn(|| check!(words.as_borrowed(), Row::marked("ภาษา|ไทย|ภาษา|ไทย")));
        }
    });
}

#[test]
fn lines_by_debians_lists() {
    let Some(folder) = debians() else { return };
    let mut lines = LineSegmenter::new_auto(Default::default()).static_to_owned();
    assert_eq!(lines.load_dictionaries(folder).unwrap().len(), 4, "lines take none of Chinese and Japanese");
    for row in OF_LINES {
        check!(lines.as_borrowed(), Row::marked(row));
    }
}
