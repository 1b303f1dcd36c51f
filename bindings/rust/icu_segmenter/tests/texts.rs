//! Empty texts, short texts, ill-formed texts and long ones, by all kinds of segmenters.
use icu_segmenter::options::WordType::{Letter, None as NoWord, Number};
use icu_segmenter::options::{LineBreakOptions, WordType};
use icu_segmenter::{GraphemeClusterSegmenter, LineSegmenter, SentenceSegmenter, WordSegmenter};

#[macro_use]
mod common;
use common::Row;

/// Runs the same on a segmenter of each kind.
macro_rules! each_kind {
    ($segmenter:ident => $done:expr) => {{
        {
            let $segmenter = GraphemeClusterSegmenter::new();
            $done
        }
        {
            let $segmenter = WordSegmenter::new_auto(Default::default());
            $done
        }
        {
            let $segmenter = SentenceSegmenter::new(Default::default());
            $done
        }
        {
            let $segmenter = LineSegmenter::new_auto(Default::default());
            $done
        }
    }};
}

#[test]
fn an_empty_text_has_one_boundary() {
    each_kind!(segmenter => {
        assert!(segmenter.segment_str("").eq([0]));
        assert!(segmenter.segment_utf8(&[]).eq([0]));
        assert!(segmenter.segment_latin1(&[]).eq([0]));
        assert!(segmenter.segment_utf16(&[]).eq([0]));
        let mut places = segmenter.segment_str("");
        assert_eq!((places.next(), places.next(), places.next()), (Some(0), None, None));
    });
}

#[test]
fn an_iterator_that_ended_stays_so() {
    each_kind!(segmenter => {
        let mut places = segmenter.segment_latin1(b"a");
        assert_eq!((places.next(), places.next(), places.next(), places.next()), (Some(0), Some(1), None, None));
    });
}

#[test]
fn graphemes() {
    let clusters = GraphemeClusterSegmenter::new();
    for row in [
        "H|e|l|l|o| |🗺",
        "a|e\u{301}|\r\n|b",
        "🇺🇸|🏴\u{e0067}\u{e0062}\u{e0065}\u{e006e}\u{e0067}\u{e007f}",
        "🇺🇸|🇻🇳|🇹",
        "👨‍👩‍👧|!",
        "\u{1100}\u{1161}\u{11a8}|\u{1100}",
        "a|\r|\r\n|\n|\u{ad}|b",
    ] {
        check!(clusters, Row::marked(row));
    }
}

#[test]
fn words() {
    let words = WordSegmenter::new_auto(Default::default());
    for row in [
        "Hello| |World",
        "Mark’d| |ye| |his| |words|?",
        "can't| |x|-|ray",
        "\r\n|\n|a",
        "a| |🇻🇳|🇹🇭| |b",
        "_a_| |1,000.5",
        "한국어| |말",
        "カタカナ| |a\u{301}b",
        "אבג\"ד| |o'clock",
    ] {
        check!(words, Row::marked(row));
    }
    let text = "Mark’d ye his words?";
    let mut places = words.segment_str(text);
    let (mut start, mut found) = (0, Vec::new());
    while let Some(end) = places.next() {
        if places.is_word_like() {
            found.push(&text[start..end]);
        }
        start = end;
    }
    assert_eq!(found, ["Mark’d", "ye", "his", "words"]);
}

#[test]
fn words_without_dictionaries() {
    for row in ["ภ|า|ษ|า|ไ|ท|ย", "東|京|に", "a|ก", "ก|a", "ab12|ภ|า", "a\u{e31}"] {
        check!(WordSegmenter::new_auto(Default::default()), Row::marked(row));
    }
}

fn types(text: &str) -> Vec<(usize, WordType)> {
    WordSegmenter::new_auto(Default::default()).segment_str(text).iter_with_word_type().collect()
}

#[test]
fn word_types() {
    assert_eq!(types("hello world 123"), [(0, NoWord), (5, Letter), (6, NoWord), (11, Letter), (12, NoWord), (15, Number)]);
    assert_eq!(types("one."), [(0, NoWord), (3, Letter), (4, NoWord)]);
    assert_eq!(types("42."), [(0, NoWord), (2, Number), (3, NoWord)]);
    assert_eq!(types("mp3 h2o"), [(0, NoWord), (3, Number), (4, NoWord), (7, Letter)]);
    assert_eq!(types("東カ"), [(0, NoWord), (3, Letter), (6, Letter)]);
    assert_eq!(types("กa"), [(0, NoWord), (3, Letter), (4, Letter)]);
    assert_eq!(types(""), [(0, NoWord)]);
}

#[test]
fn word_types_of_the_iterator() {
    let words = WordSegmenter::new_auto(Default::default());
    let mut places = words.segment_str("a 1");
    assert_eq!((places.word_type(), places.is_word_like()), (NoWord, false), "before the first boundary");
    let mut found = Vec::new();
    while let Some(place) = places.next() {
        found.push((place, places.word_type(), places.is_word_like()));
    }
    assert_eq!(found, [(0, NoWord, false), (1, Letter, true), (2, NoWord, false), (3, Number, true)]);
    assert_eq!((places.word_type(), places.is_word_like()), (NoWord, false), "behind the last");
    let mut places = words.segment_latin1(b"caf\xe9 1");
    assert_eq!((places.next(), places.next()), (Some(0), Some(4)));
    assert!(places.iter_with_word_type().eq([(5, NoWord), (6, Number)]), "what is left");
}

#[test]
fn word_types_in_each_encoding() {
    let words = WordSegmenter::new_auto(Default::default());
    let units: Vec<u16> = "é 1".encode_utf16().collect();
    let stated = |places: [usize; 4]| [(places[0], NoWord), (places[1], Letter), (places[2], NoWord), (places[3], Number)];
    assert!(words.segment_str("é 1").iter_with_word_type().eq(stated([0, 2, 3, 4])));
    assert!(words.segment_utf8("é 1".as_bytes()).iter_with_word_type().eq(stated([0, 2, 3, 4])));
    assert!(words.segment_utf16(&units).iter_with_word_type().eq(stated([0, 1, 2, 3])));
    assert!(words.segment_latin1(b"\xe9 1").iter_with_word_type().eq(stated([0, 1, 2, 3])));
}

#[test]
fn sentences() {
    let sentences = SentenceSegmenter::new(Default::default());
    for row in [
        "Hello World",
        "Ceci tuera cela. |Le livre tuera l’édifice.",
        "Is it? |It is 3.14. |Yes!",
        "hello; world",
        "“Go.” |She went.",
        "a\nb",
    ] {
        check!(sentences, Row::marked(&row.replace('\n', "\n|")));
    }
}

#[test]
fn lines() {
    let lines = LineSegmenter::new_auto(Default::default());
    for row in [
        "Hello |World",
        "$10 |$10",
        "[  abc |def",
        "——|aa",
        "—  ——|123 |abc",
        ")  ‼",
        "(0,1)+(2,3)",
        "🏻 |🏻",
        "a\u{a0}b |c",
        "“yes” |(or |no)",
        "東|京|に|行|き|ま|す。",
        "ภาษาไทย",
        "🇻🇳|🇹🇭|🇻🇳",
        "x\u{200b}|y",
        "e-|mail",
    ] {
        check!(lines, Row::marked(row));
    }
}

fn mandatory(options: LineBreakOptions, text: &str) -> Vec<(usize, bool)> {
    let mut places = LineSegmenter::new_auto(options).segment_str(text);
    std::iter::from_fn(|| places.next().map(|place| (place, places.is_mandatory()))).collect()
}

#[test]
fn mandatory_breaks() {
    let default = LineBreakOptions::default();
    assert_eq!(mandatory(default, "Summary\r\nThis annex…"), [(0, false), (9, true), (14, false), (22, true)]);
    let text = "a b\nc\u{2028}d\u{85}e\u{b}f\u{c}g\rh";
    let stated = [(0, false), (2, false), (4, true), (8, true), (11, true), (13, true), (15, true), (17, true), (18, true)];
    assert_eq!(mandatory(default, text), stated);
    assert_eq!(mandatory(default, ""), [(0, false)]);

    let lines = LineSegmenter::new_auto(default);
    let mut places = lines.segment_latin1(b"a\nb");
    assert!(!places.is_mandatory(), "before the first boundary");
    let found: Vec<_> = std::iter::from_fn(|| places.next().map(|place| (place, places.is_mandatory_break()))).collect();
    assert_eq!(found, [(0, false), (2, true), (3, true)]);
    assert!(!places.is_mandatory(), "behind the last");
}

#[test]
fn ill_formed_texts() {
    // (what is ill-formed counts as U+FFFD: a whole character, the start of one of three bytes, a byte that begins none, a mark)
    let text = b"\xe6\x9d\xb1\xe6\x9da\xff\xcc\x81";
    assert!(GraphemeClusterSegmenter::new().segment_utf8(text).eq([0, 3, 5, 6, 9]));
    assert!(WordSegmenter::new_auto(Default::default()).segment_utf8(text).eq([0, 3, 5, 6, 9]));
    // (U+FFFD is of class AI: a line ends neither before it nor behind it beside letters)
    assert!(LineSegmenter::new_auto(Default::default()).segment_utf8(text).eq([0, 3, 9]));
    let surrogates = [0xd800, 0x61, 0xdc00, 0xd83d, 0xde00, 0x301];
    assert!(GraphemeClusterSegmenter::new().segment_utf16(&surrogates).eq([0, 1, 2, 3, 6]));
    assert!(SentenceSegmenter::new(Default::default()).segment_utf16(&surrogates).eq([0, 6]));
}

#[test]
fn bytes_of_latin1_are_code_points() {
    let all: Vec<u8> = (0..=255).collect();
    let same: String = all.iter().map(|&byte| char::from(byte)).collect();
    let behind = |places: Vec<usize>| -> Vec<usize> { places.iter().map(|&place| same[..place].chars().count()).collect() };
    each_kind!(segmenter => {
        let found: Vec<_> = segmenter.segment_latin1(&all).collect();
        assert_eq!(found, behind(segmenter.segment_str(&same).collect()));
        assert!(segmenter.segment_utf16(&same.encode_utf16().collect::<Vec<_>>()).eq(found));
    });
}

#[test]
fn a_text_of_many_buffers() {
    let text = "ab 12\n".repeat(1000);
    let stated: Vec<_> = (0..1000).flat_map(|line| [6 * line, 6 * line + 2, 6 * line + 3, 6 * line + 5]).chain([6000]).collect();
    let words = WordSegmenter::new_auto(Default::default());
    assert!(words.segment_str(&text).eq(stated.iter().copied()));
    assert!(words.segment_latin1(text.as_bytes()).eq(stated.iter().copied()));
    let mut places = words.segment_str(&text);
    assert_eq!(places.nth(700), Some(stated[700]));
    let clone = places.clone();
    assert!(places.eq(stated[701..].iter().copied()));
    assert!(clone.eq(stated[701..].iter().copied()), "a clone goes on from where it was taken");
    let (low, high) = words.segment_str(&text).size_hint();
    assert!(low <= stated.len() && stated.len() <= high.unwrap());
}
