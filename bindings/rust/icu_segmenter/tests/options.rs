//! Lines with the options of CSS Text 3: `line-break` (5.3) and `word-break` (5.2).
use icu_segmenter::options::LineBreakStrictness::{Anywhere, Loose, Normal, Strict};
use icu_segmenter::options::LineBreakWordOption::{BreakAll, KeepAll};
use icu_segmenter::options::{LineBreakOptions, LineBreakStrictness, LineBreakWordOption};
use icu_segmenter::{LanguageIdentifier, LineSegmenter, LineSegmenterBorrowed};

#[macro_use]
mod common;
use common::Row;

fn lines(strictness: LineBreakStrictness, language: &str) -> LineSegmenterBorrowed<'static> {
    let language: LanguageIdentifier = language.parse().unwrap();
    let mut options = LineBreakOptions::default();
    options.strictness = Some(strictness);
    options.content_locale = Some(&language);
    LineSegmenter::new_auto(options)
}

fn by_words(word_option: LineBreakWordOption) -> LineSegmenterBorrowed<'static> {
    let mut options = LineBreakOptions::default();
    options.word_option = Some(word_option);
    LineSegmenter::new_auto(options)
}

/// Checks each character between two letters: whether a line may end before it, by strict, normal and loose rules, in Korean and in Japanese. It may
/// always end behind it.
fn before(characters: &str, in_korean: [bool; 3], in_japanese: [bool; 3]) {
    for character in characters.chars() {
        for (language, stated) in [("ko", in_korean), ("ja", in_japanese), ("zh-Hant", in_japanese), ("en", in_korean)] {
            for (strictness, is_broken) in [Strict, Normal, Loose].into_iter().zip(stated) {
                let row = if is_broken { format!("サ|{character}|サ") } else { format!("サ{character}|サ") };
                check!(lines(strictness, language), Row::marked(&row));
            }
        }
    }
}

const NEVER: [bool; 3] = [false, false, false];
const IF_LOOSE: [bool; 3] = [false, false, true];
const UNLESS_STRICT: [bool; 3] = [false, true, true];

#[test]
fn small_kana_and_the_long_vowel() {
    before("ぁァっッゕヵㇰｧー", UNLESS_STRICT, UNLESS_STRICT);
}

#[test]
fn iteration_marks() {
    before("々〻ゝゞヽヾ", IF_LOOSE, IF_LOOSE);
}

#[test]
fn hyphens() {
    before("‐–", IF_LOOSE, IF_LOOSE);
}

#[test]
fn wave_dashes() {
    before("〜゠", NEVER, UNLESS_STRICT);
}

#[test]
fn centred_punctuation() {
    before("・：；･‼⁇⁈⁉！？", NEVER, IF_LOOSE);
}

#[test]
fn postfixes() {
    before("％°‰℃￠", NEVER, IF_LOOSE);
}

#[test]
fn prefixes() {
    for prefix in ['€', '￥', '№'] {
        for (strictness, language) in [(Strict, "ja"), (Normal, "ja"), (Loose, "ko")] {
            check!(lines(strictness, language), Row::marked(&format!("サ|{prefix}サ")));
        }
        check!(lines(Loose, "ja"), Row::marked(&format!("サ|{prefix}|サ")));
    }
    // (its width isn't East Asian)
    check!(lines(Loose, "ja"), Row::marked("サ|£サ"));
}

#[test]
fn inseparable_characters() {
    for strictness in [Strict, Normal] {
        check!(lines(strictness, "ja"), Row::marked("サ‥‥|サ"));
        check!(lines(strictness, "en"), Row::marked("サ……|サ"));
    }
    check!(lines(Loose, "ja"), Row::marked("サ‥|‥|サ"));
    check!(lines(Loose, "en"), Row::marked("サ…|…|サ"));
}

#[test]
fn anywhere() {
    for row in ["l|a|t|i|n| |l|a|t|i|n", "日|本|語", "한|글|이| |한", "ภ|า|ษ|า", "e\u{301}|!", "(|字|)", "a|\r\n|b", "a|\u{a0}|b"]
    {
        check!(lines(Anywhere, "en"), Row::marked(row));
    }
    let mut places = lines(Anywhere, "en").segment_str("a\n");
    assert!(std::iter::from_fn(|| places.next().map(|place| (place, places.is_mandatory()))).eq([(0, false), (1, false), (2, false)]));
}

#[test]
fn break_all() {
    for row in [
        "日|本|語",
        "l|a|t|i|n |l|a|t|i|n",
        "한|글|이 |한|글|이",
        "ภ|า|ษ|า|ไ|ท|ย",
        "हि|न्|दी |हि|न्|दी",
        "字\u{3000}|字",
        "a|1|한|ぁ",
        "A.|b",
        "和|文 |a|b|c、|和|文",
    ] {
        check!(by_words(BreakAll), Row::marked(row));
    }
}

#[test]
fn keep_all() {
    for row in
        ["日本語", "latin |latin", "한글이 |한글이", "字\u{3000}|字", "字字", "a1한ぁ", "ก字", "日本 |語", "字-|字", "和文 |abc、|和文"]
    {
        check!(by_words(KeepAll), Row::marked(row));
    }
}

#[test]
fn a_word_option_overrides_anywhere() {
    let mut options = LineBreakOptions::default();
    options.strictness = Some(Anywhere);
    options.word_option = Some(KeepAll);
    check!(LineSegmenter::new_auto(options), Row::marked("日本 |語"));
    options.word_option = Some(LineBreakWordOption::Normal);
    check!(LineSegmenter::new_auto(options), Row::marked("日|本| |語"));
}

#[test]
fn no_option_is_strict() {
    check!(LineSegmenter::new_auto(LineBreakOptions::default()), Row::marked("サぁ|サ"));
    assert_eq!(LineBreakOptions::default(), <LineBreakOptions as Default>::default());
}
