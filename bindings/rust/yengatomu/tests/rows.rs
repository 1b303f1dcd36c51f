//! Rows by Unicode's data: what texts of many scripts are cut into, and wrapped to.
use yengatomu::WordType::{Letters, None, Number};
use yengatomu::{
    GraphemeSegmenter, LineBreak, LineOptions, LineSegmenter, Script, SentenceSegmenter, Strictness, WordBreak, WordSegmenter,
};

fn lines() -> LineSegmenter {
    LineSegmenter::new(LineOptions::default()).unwrap()
}

#[test]
fn graphemes() {
    let graphemes = GraphemeSegmenter::new().unwrap();
    assert!(graphemes.segments("नमस्ते दुनिया").eq(["न", "म", "स्ते", " ", "दु", "नि", "या"]));
    assert!(graphemes.boundaries("👨‍👩‍👧🇻🇳🇹🇭").eq([0, 18, 26, 34]));
    assert!(graphemes.segments("a\r\n\u{1100}\u{1161}").eq(["a", "\r\n", "\u{1100}\u{1161}"]));
    assert_eq!(graphemes.previous_boundary("👨‍👩‍👧🇻🇳🇹🇭", 33), Some(26));
    assert_eq!(graphemes.next_boundary("👨‍👩‍👧🇻🇳🇹🇭", 1), Some(18));
}

#[test]
fn words() {
    let words = WordSegmenter::new().unwrap();
    let found: Vec<_> = words.marked_segments("can't pay 3.14").collect();
    assert_eq!(found, [(0, "can't", Letters), (5, " ", None), (6, "pay", Letters), (9, " ", None), (10, "3.14", Number)]);
    let found = words.words("https://example.org/a_b?c=1").map(|(_, word, _)| word);
    assert!(found.eq(["https", "example.org", "a_b", "c", "1"]));
    assert_eq!(words.count_words("Xin chào thế giới!"), 4);
}

#[test]
fn words_by_dictionaries() {
    let mut words = WordSegmenter::new().unwrap();
    words.load_dictionary(&["東京", "ます"], Script::ChineseOrJapanese).unwrap();
    words.load_dictionary(&["ภาษา", "ไทย"], Script::Thai).unwrap();
    assert!(words.segments("東京に行きます。").eq(["東京", "に", "行", "き", "ます", "。"]));
    assert!(words.words("ภาษาไทย 42.").eq([(0, "ภาษา", Letters), (12, "ไทย", Letters), (22, "42", Number)]));
}

#[test]
fn sentences() {
    let sentences = SentenceSegmenter::new().unwrap();
    assert!(sentences.segments("Is it? It is 3.14. Yes!").eq(["Is it? ", "It is 3.14. ", "Yes!"]));
}

#[test]
fn line_breaks() {
    let segments = |options, text: &'static str| LineSegmenter::new(options).unwrap().segments(text).collect::<Vec<_>>();
    let default = LineOptions::default();
    assert_eq!(segments(default, "東京に行きます。"), ["東", "京", "に", "行", "き", "ま", "す。"]);
    assert_eq!(segments(LineOptions { word_break: WordBreak::KeepAll, ..default }, "東京に行きます。"), ["東京に行きます。"]);
    assert_eq!(segments(LineOptions { word_break: WordBreak::BreakAll, ..default }, "fox"), ["f", "o", "x"]);
    assert_eq!(segments(LineOptions { strictness: Strictness::Anywhere, ..default }, "a e\u{301}!"), ["a", " ", "e\u{301}", "!"]);
    let loose = LineOptions { strictness: Strictness::Loose, chinese_or_japanese: true, ..default };
    assert_eq!(segments(loose, "一〜一\n"), ["一", "〜", "一\n"]);
    assert_eq!(segments(default, "一〜一\n"), ["一〜", "一\n"]);
    let found: Vec<_> =
        lines().marked_segments("a b\nc").map(|(start, segment, mark)| (start, segment, mark == LineBreak::Mandatory)).collect();
    assert_eq!(found[..2], [(0, "a ", false), (2, "b\n", true)]);

    let mut thai = lines();
    thai.load_dictionary(&["ภาษา", "ไทย"], Script::Thai).unwrap();
    assert!(thai.segments("ภาษาไทย").eq(["ภาษา", "ไทย"]));
}

#[test]
fn wrapped() {
    let text = "Xin chào thế giới! The quick (“brown”) fox can’t jump 32.3 feet, right?\n東京に行きます。ありがとうございます。👨‍👩‍👧🇻🇳\n";
    let found: Vec<_> = lines().wrap(text, 30).map(|line| (line.columns, line.text.trim_end())).collect();
    let stated = [
        (28, "Xin chào thế giới! The quick"),
        (29, "(“brown”) fox can’t jump 32.3"),
        (12, "feet, right?"),
        (30, "東京に行きます。ありがとうござ"),
        (16, "います。👨‍👩‍👧🇻🇳"),
    ];
    assert_eq!(found, stated);
}

#[test]
fn ill_formed() {
    let words = WordSegmenter::new().unwrap();
    // A whole character, the start of one of three bytes, and a byte that begins none: the last two count as U+FFFD.
    assert!(words.boundaries(b"\xe6\x9d\xb1\xe6\x9da\xff").eq([0, 3, 5, 6, 7]));
    assert!(words.boundaries(&[0x61u16, 0xd800, 0x62, 0xdc00]).eq([0, 1, 2, 3, 4]));
}
