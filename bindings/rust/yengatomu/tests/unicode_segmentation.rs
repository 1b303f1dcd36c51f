//! The test data of the crate unicode-segmentation 1.9, by our trait of the same name.
//!
//! They are read from where Debian's package librust-unicode-segmentation-dev puts them, or from the folder UNICODE_SEGMENTATION, that of the
//! package's sources. Where neither is there, the tests of its rows say so and pass. With `-- --nocapture` each row that differs is shown.
//!
//! Its rows are of Unicode 14.0. A row may differ only where a later version changed it: `LATER` says how.
#![cfg(feature = "unicode-segmentation")]

use std::path::{Path, PathBuf};
use std::{env, fs};

use yengatomu::unicode_segmentation::UnicodeSegmentation;

/// What a literal of the test data is: a text, or a list or tuple.
#[derive(Debug)]
enum Value {
    Text(String),
    List(Vec<Value>),
}

impl Value {
    fn text(&self) -> &str {
        match self {
            Self::Text(text) => text,
            Self::List(_) => panic!("{self:?} is no text"),
        }
    }

    fn list(&self) -> &[Value] {
        match self {
            Self::Text(_) => panic!("{self:?} is no list"),
            Self::List(list) => list,
        }
    }

    fn texts(&self) -> Vec<&str> {
        self.list().iter().map(Self::text).collect()
    }
}

/// Reads one value, and returns what comes behind it.
fn read_value(source: &str) -> (Value, &str) {
    let mut rest = skip_blank(source);
    if let Some(inside) = rest.strip_prefix('"') {
        return read_text(inside);
    }
    rest = rest.strip_prefix(['[', '(']).unwrap_or_else(|| panic!("no value: {:.40}", rest));
    let mut list = Vec::new();
    loop {
        rest = skip_blank(rest);
        if let Some(behind) = rest.strip_prefix([']', ')']) {
            return (Value::List(list), behind);
        }
        let (value, behind) = read_value(rest);
        list.push(value);
        rest = skip_blank(behind);
        rest = rest.strip_prefix(',').unwrap_or(rest);
    }
}

/// Skips white space, references and comments.
fn skip_blank(mut source: &str) -> &str {
    loop {
        source = source.trim_start_matches(|c: char| c.is_whitespace() || c == '&');
        match source.strip_prefix("//") {
            Some(comment) => source = comment.split_once('\n').map_or("", |(_, behind)| behind),
            None => return source,
        }
    }
}

/// Reads what is left of a text, up to its quotation mark.
fn read_text(source: &str) -> (Value, &str) {
    let mut text = String::new();
    let mut rest = source.chars();
    loop {
        match rest.next().expect("a text ends") {
            '"' => return (Value::Text(text), rest.as_str()),
            '\\' => match rest.next().unwrap() {
                'u' => {
                    let (number, behind) = rest.as_str()[1..].split_once('}').unwrap();
                    text.push(u32::from_str_radix(number, 16).unwrap().try_into().unwrap());
                    rest = behind.chars();
                }
                'n' => text.push('\n'),
                'r' => text.push('\r'),
                't' => text.push('\t'),
                other => text.push(other),
            },
            other => text.push(other),
        }
    }
}

/// The rows of a constant: a text and one or two lists of its segments.
fn rows(source: &str, name: &str) -> Vec<Value> {
    let from = source.find(&format!("const {name}:")).unwrap_or_else(|| panic!("no {name}"));
    let from = from + source[from..].find("= &[").unwrap() + "= ".len();
    match read_value(&source[from..]).0 {
        Value::List(rows) => rows,
        Value::Text(_) => unreachable!(),
    }
}

/// The sources of unicode-segmentation, if they are there.
fn sources() -> Option<PathBuf> {
    let found = match env::var_os("UNICODE_SEGMENTATION") {
        Some(named) => Some(PathBuf::from(named)),
        None => fs::read_dir("/usr/share/cargo/registry").ok().and_then(|folders| {
            folders
                .filter_map(|folder| folder.ok())
                .map(|folder| folder.path())
                .find(|path| path.file_name().is_some_and(|name| name.to_string_lossy().starts_with("unicode-segmentation-1.")))
        }),
    };
    let found = found.map(|folder| folder.join("src")).filter(|folder| folder.join("testdata.rs").is_file());
    if found.is_none() {
        println!("skipped: no librust-unicode-segmentation-dev, and UNICODE_SEGMENTATION names no folder with its sources");
    }
    found
}

fn read(folder: &Path, name: &str) -> String {
    let path = folder.join(name);
    fs::read_to_string(&path).unwrap_or_else(|error| panic!("{}: {error}", path.display()))
}

/// Rows that later versions of Unicode cut in another way. U+2701 isn't Extended_Pictographic any more, so the rules GB11 and WB3c don't join it.
const LATER: [(&str, &[&str]); 2] =
    [("\u{2701}\u{200d}\u{2701}", &["\u{2701}\u{200d}", "\u{2701}"]), ("a\u{200d}\u{2701}", &["a\u{200d}", "\u{2701}"])];

/// Compares a row with what was found, and says whether they are equal. Where they aren't, it has to be a row of `LATER`.
fn compare(name: &str, text: &str, found: &[&str], stated: &[&str]) -> bool {
    if found == stated {
        return true;
    }
    println!("{name}: {text:?} is {found:?}, and by Unicode 14.0 {stated:?}");
    let later = LATER.iter().find(|(row, _)| *row == text);
    assert_eq!(later.map(|(_, later)| *later), Some(found), "{name}: {text:?}");
    false
}

fn offsets(segments: &[&str]) -> Vec<usize> {
    segments
        .iter()
        .scan(0, |place, segment| {
            let start = *place;
            *place += segment.len();
            Some(start)
        })
        .collect()
}

/// Asks whether the iterators of one kind agree with one another, forth and back, and returns the segments.
fn both_ways<'a, I, J>(segments: I, indices: J) -> Vec<&'a str>
where
    I: DoubleEndedIterator<Item = &'a str> + Clone,
    J: DoubleEndedIterator<Item = (usize, &'a str)> + Clone,
{
    let found: Vec<_> = segments.clone().collect();
    assert!(segments.rev().eq(found.iter().rev().copied()));
    let pairs: Vec<_> = offsets(&found).into_iter().zip(found.iter().copied()).collect();
    assert!(indices.clone().eq(pairs.iter().copied()));
    assert!(indices.rev().eq(pairs.into_iter().rev()));
    found
}

fn graphemes(text: &str) -> Vec<&str> {
    let found = both_ways(text.graphemes(true), text.grapheme_indices(true));
    // Legacy clusters are extended ones here.
    assert!(text.graphemes(false).eq(found.iter().copied()));
    assert!(text.grapheme_indices(false).eq(text.grapheme_indices(true)));
    found
}

fn words(text: &str) -> Vec<&str> {
    both_ways(text.split_word_bounds(), text.split_word_bound_indices())
}

fn sentences(text: &str) -> Vec<&str> {
    both_ways(text.split_sentence_bounds(), text.split_sentence_bound_indices())
}

#[test]
fn rows_of_graphemes() {
    let Some(folder) = sources() else { return };
    let (data, test) = (read(&folder, "testdata.rs"), read(&folder, "test.rs"));
    let same = rows(&data, "TEST_SAME").into_iter().chain(rows(&test, "EXTRA_SAME"));
    let different = rows(&data, "TEST_DIFF").into_iter().chain(rows(&test, "EXTRA_DIFF"));
    let (mut count, mut differ, mut legacy) = (0, 0, 0);
    for row in same.chain(different) {
        let [text, extended, rest @ ..] = row.list() else { panic!("{row:?}") };
        let found = graphemes(text.text());
        count += 1;
        differ += usize::from(!compare("graphemes", text.text(), &found, &extended.texts()));
        legacy += usize::from(rest.iter().any(|legacy| legacy.texts() != found));
    }
    println!("graphemes: {count} rows, {differ} differ; {legacy} have other legacy clusters, which aren't ours");
    assert!(count > 600);
}

#[test]
fn rows_of_words() {
    let Some(folder) = sources() else { return };
    let (data, test) = (read(&folder, "testdata.rs"), read(&folder, "test.rs"));
    let (mut count, mut differ) = (0, 0);
    for row in rows(&data, "TEST_WORD").into_iter().chain(rows(&test, "EXTRA_TESTS")) {
        let [text, stated] = row.list() else { panic!("{row:?}") };
        count += 1;
        differ += usize::from(!compare("words", text.text(), &words(text.text()), &stated.texts()));
    }
    println!("words: {count} rows, {differ} differ");
    assert!(count > 1800);
}

#[test]
fn rows_of_sentences() {
    let Some(folder) = sources() else { return };
    let data = read(&folder, "testdata.rs");
    let (mut count, mut differ) = (0, 0);
    for row in rows(&data, "TEST_SENTENCE") {
        let [text, stated] = row.list() else { panic!("{row:?}") };
        count += 1;
        differ += usize::from(!compare("sentences", text.text(), &sentences(text.text()), &stated.texts()));
    }
    println!("sentences: {count} rows, {differ} differ");
    assert!(count > 400);
}

/// Random texts, as the properties that unicode-segmentation checks by quickcheck; and longer ones, of many lines.
#[test]
fn random_texts() {
    let mut state = 0x2545_f491_4f6c_dd1d_u64;
    let mut below = |limit: u64| {
        state ^= state << 13;
        state ^= state >> 7;
        state ^= state << 17;
        state % limit
    };
    for round in 0..300 {
        let mut text = String::new();
        for _ in 0..below(if round % 10 == 0 { 2000 } else { 30 }) {
            text.push(match below(8) {
                0 => ['\n', '\r', ' ', '.', '\'', '_', ':', '"'][below(8) as usize],
                1 => ['\u{200d}', '\u{301}', '\u{600}', '\u{903}', '\u{94d}', '\u{ad}', '\u{2028}', '\u{fe0f}'][below(8) as usize],
                2 => ['🇦', '🇧', '👩', '👨', '🏽', '❤', '1', '½'][below(8) as usize],
                3 => ['क', 'ष', '각', 'ᄀ', 'ᅡ', 'ᆨ', 'א', 'カ'][below(8) as usize],
                4 => char::from_u32(below(0x11_0000) as u32).unwrap_or('\u{fffd}'),
                _ => (b'a' + below(26) as u8) as char,
            });
        }
        for found in [graphemes(&text), words(&text), sentences(&text)] {
            assert_eq!(found.concat(), text);
        }
        let has_word = |segment: &&str| segment.chars().any(char::is_alphanumeric);
        assert!(text.unicode_words().eq(text.split_word_bounds().filter(has_word)));
        assert!(text.unicode_words().rev().eq(text.split_word_bounds().filter(has_word).rev()));
        assert!(text.unicode_word_indices().map(|(_, word)| word).eq(text.unicode_words()));
        assert!(text.unicode_word_indices().rev().all(|(place, word)| text[place..].starts_with(word)));
        assert!(text.unicode_sentences().eq(text.split_sentence_bounds().filter(has_word)));
    }
}

/// What theirs say of iterators.
#[test]
fn iterators() {
    let text = "a\u{310}e\u{301}o\u{308}\u{332}\r\n";
    let mut clusters = text.grapheme_indices(true);
    assert_eq!(clusters.size_hint(), (1, Some(13)));
    assert_eq!(clusters.as_str(), text);
    assert_eq!(clusters.next(), Some((0, "a\u{310}")));
    assert_eq!(clusters.next_back(), Some((11, "\r\n")));
    assert_eq!(clusters.as_str(), "e\u{301}o\u{308}\u{332}");
    assert_eq!(clusters.by_ref().count(), 2);
    assert_eq!(clusters.size_hint(), (0, Some(0)));
    assert_eq!(clusters.as_str(), "");
    assert_eq!((clusters.next(), clusters.next_back()), (None, None));
    assert!("\n\r\n\r".graphemes(true).rev().eq(["\r", "\r\n", "\n"]));
    assert_eq!("".graphemes(true).next_back(), None);

    let mut words = "Hello world".split_word_bounds();
    words.next();
    assert_eq!(words.as_str(), " world");
    assert_eq!(words.clone().next_back(), Some("world"));
    assert_eq!(words.size_hint(), (1, Some(6)));
    assert_eq!(format!("{:?}", "ab".graphemes(true)), "Graphemes { pieces: Pieces { start: 0, left: 2 } }");
}

/// Iterators may go to other threads, in their midst too; and a thread may segment while it ends.
#[test]
fn threads() {
    let text = "one two ".repeat(500);
    std::thread::scope(|scope| {
        let mut words = text.unicode_words();
        words.next();
        let there = scope.spawn(|| words.count()).join().unwrap();
        assert_eq!(there, 999);
    });

    struct AtEnd;
    impl Drop for AtEnd {
        fn drop(&mut self) {
            assert_eq!("e\u{301}a".graphemes(true).count(), 2);
            assert_eq!("a b".unicode_words().count(), 2);
        }
    }
    thread_local!(static AT_END: AtEnd = const { AtEnd });
    for first in [true, false] {
        std::thread::spawn(move || {
            if first {
                AT_END.with(|_| ());
            }
            assert_eq!("a b".unicode_words().count(), 2);
            AT_END.with(|_| ());
        })
        .join()
        .unwrap();
    }
}
