//! The example `parallel`: so many threads as may be count the words that one call counts.
use yengatomu::WordSegmenter;

#[allow(dead_code)]
#[path = "../examples/parallel.rs"]
mod parallel;

/// A text of about so many bytes, in lines of some words, of which some are ill-formed.
fn made(len: usize) -> Vec<u8> {
    let words: [&[u8]; 10] =
        ["can't ".as_bytes(), b"3.14 ", "naïve ".as_bytes(), b"\n", b"\r\n", b"\xFF", "東京".as_bytes(), b"a", b". ", b"\xE0\xB8"];
    let mut text = Vec::with_capacity(len + 16);
    let mut state = 0x9e37_79b9_7f4a_7c15_u64;
    while text.len() < len {
        state ^= state << 13;
        state ^= state >> 7;
        state ^= state << 17;
        text.extend_from_slice(words[(state >> 32) as usize % words.len()]);
    }
    text
}

#[test]
fn threads_count_what_one_call_counts() {
    let words = WordSegmenter::new().unwrap();
    let text = made(2_000_000);
    let count = words.count_words(&text);
    assert!(count > 100_000);
    for threads in [1, 2, 3, 4, 16] {
        assert_eq!(parallel::parts(&text, threads).len(), threads);
        assert_eq!(parallel::count_words(&words, &text, threads), count, "{threads} threads");
    }
}

#[test]
fn parts_end_behind_line_feeds() {
    for text in [&b""[..], b"a", b"\n", b"a b c", b"\n\n\n\n", b"a\nb\r\nc", b"a b c d e\n", b"a\nb c d e f g", &made(1000)] {
        for most in 1..20 {
            let parts = parallel::parts(text, most);
            assert!(parts.len() <= most && parts.concat() == text);
            assert!(parts.iter().all(|part| !part.is_empty()));
            assert!(parts.iter().rev().skip(1).all(|part| part.ends_with(b"\n")));
        }
    }
}
