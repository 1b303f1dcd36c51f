//! That programs which use the original's names compile, and that segmenters are shared.
use std::fmt::Debug;
use std::sync::LazyLock;
use std::thread;

use icu_segmenter::iterators::{
    GraphemeClusterBreakIterator, LineBreakIterator, SentenceBreakIterator, WordBreakIterator, WordBreakIteratorWithWordType,
};
use icu_segmenter::options::{
    LineBreakOptions, LineBreakStrictness, LineBreakWordOption, SentenceBreakInvariantOptions, SentenceBreakOptions,
    WordBreakInvariantOptions, WordBreakOptions, WordType,
};
use icu_segmenter::provider::{Baked, DataError};
use icu_segmenter::scaffold::{Latin1, LineBreakType, PotentiallyIllFormedUtf8, RuleBreakType, Utf16, Utf8, WordBreakType};
use icu_segmenter::{
    GraphemeClusterSegmenter, GraphemeClusterSegmenterBorrowed, LanguageIdentifier, LineSegmenter, LineSegmenterBorrowed,
    SentenceSegmenter, SentenceSegmenterBorrowed, WordSegmenter, WordSegmenterBorrowed,
};

// Constants and statics, as the original's constructors with its own data allow.
const CLUSTERS: GraphemeClusterSegmenterBorrowed<'static> = GraphemeClusterSegmenter::new();
static SENTENCES: SentenceSegmenterBorrowed<'static> = SentenceSegmenter::new(SentenceBreakInvariantOptions::default());
static WORDS: WordSegmenterBorrowed<'static> = WordSegmenter::new_for_non_complex_scripts(WordBreakInvariantOptions::default());
static LINES: LineSegmenterBorrowed<'static> = LineSegmenter::new_for_non_complex_scripts(LineBreakOptions::default());
static OWNED: LazyLock<WordSegmenter> = LazyLock::new(|| WordSegmenter::try_new_auto(WordBreakOptions::default()).unwrap());

#[test]
fn constants_and_statics() {
    assert!(CLUSTERS.segment_str("ab").eq([0, 1, 2]));
    assert!(SENTENCES.segment_str("ab").eq([0, 2]));
    assert!(WORDS.segment_str("ab").eq([0, 2]));
    assert!(LINES.segment_str("ab").eq([0, 2]));
    assert!(OWNED.as_borrowed().segment_str("ab").eq([0, 2]));
}

/// What outlives the segmenter's own variable, since that is copied.
fn clusters_of(text: &str) -> GraphemeClusterBreakIterator<'static, '_, Utf8> {
    let segmenter = GraphemeClusterSegmenter::new();
    segmenter.segment_str(text)
}

/// What a program that is generic in the encoding writes.
fn count<Y: WordBreakType>(places: WordBreakIterator<'_, '_, Y>) -> usize {
    places.iter_with_word_type().filter(|(_, word_type)| word_type.is_word_like()).count()
}

fn last_is_mandatory<Y: LineBreakType>(mut places: LineBreakIterator<'_, '_, Y>) -> bool {
    let mut last = false;
    while places.next().is_some() {
        last = places.is_mandatory();
    }
    last
}

fn last<Y: RuleBreakType>(places: SentenceBreakIterator<'_, '_, Y>) -> Option<usize> {
    places.last()
}

#[test]
fn generic_in_the_encoding() {
    assert_eq!(clusters_of("abc").count(), 4);
    let units: Vec<u16> = "can't pay 3.".encode_utf16().collect();
    assert_eq!(count::<Utf8>(WORDS.segment_str("can't pay 3.")), 3);
    assert_eq!(count::<PotentiallyIllFormedUtf8>(WORDS.segment_utf8(b"can't pay 3.")), 3);
    assert_eq!(count::<Latin1>(WORDS.segment_latin1(b"can't pay 3.")), 3);
    assert_eq!(count::<Utf16>(WORDS.segment_utf16(&units)), 3);
    assert!(last_is_mandatory(LINES.segment_utf16(&units)));
    assert_eq!(last(SENTENCES.segment_utf16(&units)), Some(12));
    let typed: WordBreakIteratorWithWordType<'_, '_, Utf8> = WORDS.segment_str("").iter_with_word_type();
    assert!(typed.eq([(0, WordType::None)]));
}

#[test]
fn owned_and_borrowed() -> Result<(), DataError> {
    let clusters: GraphemeClusterSegmenter = CLUSTERS.static_to_owned();
    assert!(clusters.as_borrowed().segment_str("ab").eq([0, 1, 2]));
    let sentences = SentenceSegmenter::try_new(SentenceBreakOptions::default())?;
    assert!(sentences.as_borrowed().segment_str("A. B.").eq([0, 3, 5]));
    let lines = LINES.static_to_owned();
    assert!(lines.as_borrowed().segment_str("a b").eq([0, 2, 3]));
    let words = WordSegmenter::try_new_for_non_complex_scripts(WordBreakOptions::default())?;
    assert!(words.as_borrowed().segment_str("a b").eq([0, 1, 2, 3]));
    Ok(())
}

#[test]
fn languages_of_words_and_sentences() -> Result<(), DataError> {
    // (in the original a colon isn't part of a word in Swedish, and a semicolon ends a sentence in Greek)
    let (swedish, greek): (LanguageIdentifier, LanguageIdentifier) = ("sv".parse().unwrap(), "el".parse().unwrap());
    let mut options = WordBreakOptions::default();
    options.content_locale = Some(&swedish);
    assert!(WordSegmenter::try_new_auto(options)?.as_borrowed().segment_str("hello:world").eq([0, 11]));
    let mut options = SentenceBreakOptions::default();
    options.content_locale = Some(&greek);
    assert!(SentenceSegmenter::try_new(options)?.as_borrowed().segment_str("hello; world").eq([0, 12]));
    Ok(())
}

#[test]
fn by_the_data_of_the_library() -> Result<(), DataError> {
    assert!(GraphemeClusterSegmenter::try_new_unstable(&Baked)?.as_borrowed().segment_str("a").eq([0, 1]));
    assert!(WordSegmenter::try_new_auto_unstable(&Baked, Default::default())?.as_borrowed().segment_str("a").eq([0, 1]));
    assert!(SentenceSegmenter::try_new_unstable(&Baked, Default::default())?.as_borrowed().segment_str("a").eq([0, 1]));
    let mut options = LineBreakOptions::default();
    options.strictness = Some(LineBreakStrictness::Loose);
    assert!(LineSegmenter::try_new_auto_unstable(&Baked, options)?.as_borrowed().segment_str("サぁ").eq([0, 3, 6]));
    Ok(())
}

#[test]
#[allow(deprecated)]
fn deprecated_names() {
    let mut words = WordSegmenter::new_dictionary(Default::default());
    words.load_dictionary();
    words.load_auto();
    words.load_lstm();
    assert!(words.segment_str("a b").eq([0, 1, 2, 3]));
    assert!(WordSegmenter::new_lstm(Default::default()).segment_str("a b").eq([0, 1, 2, 3]));
    let mut lines = LineSegmenter::new_dictionary(Default::default());
    lines.load_dictionary();
    lines.load_lstm();
    assert!(lines.segment_str("a b").eq([0, 2, 3]));
    assert!(LineSegmenter::new_lstm(Default::default()).segment_str("a b").eq([0, 2, 3]));
}

#[test]
fn one_engine_by_all_names() {
    assert!(GraphemeClusterSegmenter::new_neo().segment_str("a").eq([0, 1]));
    assert!(SentenceSegmenter::new_neo(Default::default()).segment_str("a").eq([0, 1]));
    assert!(WordSegmenter::new_neo_for_non_complex_scripts(Default::default()).segment_str("a").eq([0, 1]));
    assert!(LineSegmenter::new_neo_for_non_complex_scripts(Default::default()).segment_str("a").eq([0, 1]));
    assert!(LineSegmenter::new_17_for_non_complex_scripts(Default::default()).segment_str("a").eq([0, 1]));
}

#[test]
fn each_choice_of_options_is_a_segmenter() {
    let found = |strictness, word_option| {
        let mut options = LineBreakOptions::default();
        (options.strictness, options.word_option) = (strictness, word_option);
        LineSegmenter::new_auto(options).segment_str("サぁab").collect::<Vec<_>>()
    };
    assert_eq!(found(None, None), [0, 6, 8]);
    assert_eq!(found(Some(LineBreakStrictness::Normal), None), [0, 3, 6, 8]);
    assert_eq!(found(Some(LineBreakStrictness::Anywhere), None), [0, 3, 6, 7, 8]);
    assert_eq!(found(None, Some(LineBreakWordOption::BreakAll)), [0, 3, 6, 7, 8]);
    assert_eq!(found(None, Some(LineBreakWordOption::KeepAll)), [0, 8]);
    assert_eq!(found(None, None), [0, 6, 8], "again");
}

fn is_shared<T: Send + Sync + Debug>(_: &T) {}

#[test]
fn all_is_send_sync_and_debug() {
    is_shared(&CLUSTERS);
    is_shared(&SENTENCES);
    is_shared(&WORDS);
    is_shared(&LINES);
    is_shared(&CLUSTERS.static_to_owned());
    is_shared(&SENTENCES.static_to_owned());
    is_shared(&WORDS.static_to_owned());
    is_shared(&LINES.static_to_owned());
    is_shared(&CLUSTERS.segment_str("a"));
    is_shared(&WORDS.segment_utf16(&[0x61]));
    is_shared(&WORDS.segment_latin1(b"a").iter_with_word_type());
}

#[test]
fn ten_threads() {
    let text = "can't pay 3.14, please\n".repeat(200);
    let stated: Vec<_> = WORDS.segment_str(&text).iter_with_word_type().map(|(place, found)| (place, found as u8)).collect();
    thread::scope(|scope| {
        for _ in 0..10 {
            scope.spawn(|| {
                let words = WordSegmenter::new_auto(Default::default());
                let found = words.segment_str(&text).iter_with_word_type().map(|(place, found)| (place, found as u8));
                assert!(found.eq(stated.iter().copied()));
            });
        }
    });
}

#[test]
fn language_identifiers() {
    let written = |text: &str| text.parse::<LanguageIdentifier>().map(|it| it.to_string()).ok();
    for (text, canonical) in [
        ("zh", "zh"),
        ("JA_jp", "ja-JP"),
        ("zh-hant-tw", "zh-Hant-TW"),
        ("es-419", "es-419"),
        ("und", "und"),
        ("UND-latn", "und-Latn"),
        ("de-1996-1901", "de-1901-1996"),
        ("sl-nedis-rozaj", "sl-nedis-rozaj"),
        ("abcdefgh", "abcdefgh"),
    ] {
        assert_eq!(written(text).as_deref(), Some(canonical), "{text}");
    }
    for text in ["", "j", "-", "ja-", "abcd", "abcdefghi", "ja-J", "ja-JP-US", "zh-TW-Hant", "de-1996-1996", "ja-u-ca-japanese", "日本"] {
        assert_eq!(written(text), None, "{text}");
    }
    assert_eq!(LanguageIdentifier::default().language(), "und");
    assert_eq!("ZH-tw".parse::<LanguageIdentifier>().unwrap().language(), "zh");
}
