//! Ten threads at once find by one segmenter what one thread found before: cargo build --example races, then
//! valgrind --tool=helgrind target/debug/examples/races FILE.
//!
//! By a segmenter of each kind and by rules, with and without words, and by clones, which each thread makes and drops. The file is a text of UTF-8 that
//! has ภาษา, 蜜蜂 and "biển." in it.
use std::{env, fs, io, thread};

use yengatomu::kind::Kind;
use yengatomu::{GraphemeSegmenter, LineOptions, LineSegmenter, RuleSegmenter, Script, Segmenter, SentenceSegmenter, WordSegmenter};

const THREADS: usize = 10;

/// Has ten threads ask at once, who all must find what one did, and returns that.
fn alike<F: PartialEq + Send + Sync>(ask: impl Fn() -> F + Sync) -> F {
    let wanted = ask();
    thread::scope(|scope| {
        // (they are joined one by one, since a race detector doesn't see that their scope waits for them)
        let asked: Vec<_> = (0..THREADS).map(|_| scope.spawn(|| ask() == wanted)).collect();
        assert!(asked.into_iter().all(|it| it.join().is_ok_and(|is_alike| is_alike)));
    });
    wanted
}

/// The boundaries of the text in all encodings, their count, and those around its middle.
fn found<K: Kind>(segmenter: &Segmenter<K>, text: &str, units: &[u16]) -> Vec<usize> {
    let middle = text.len() / 2;
    let mut all: Vec<_> = segmenter.boundaries(text).chain(segmenter.boundaries(units)).collect();
    let mut places = vec![0; text.len()];
    let count = segmenter.fill_boundaries(text.as_bytes(), 0, &mut places);
    all.extend_from_slice(&places[..count]);
    all.push(segmenter.count(text));
    all.extend(segmenter.next_boundary(text, middle).into_iter().chain(segmenter.previous_boundary(text, middle)));
    all
}

fn main() -> io::Result<()> {
    let text = fs::read_to_string(env::args_os().nth(1).expect("usage: races FILE"))?;
    let units: Vec<u16> = text.encode_utf16().collect();
    let out_of_memory = "out of memory";

    let graphemes = GraphemeSegmenter::new().expect(out_of_memory);
    alike(|| found(&graphemes.clone(), &text, &units));
    let rules = RuleSegmenter::by_rules("A = [a]\nA × A\n÷").expect("the rules are right");
    alike(|| found(&rules, &text, &units));

    let mut words = WordSegmenter::new().expect(out_of_memory);
    let of_words = |it: &WordSegmenter| alike(|| (found(it, &text, &units), it.words(&text).count(), it.count_words(&text)));
    let plain = of_words(&words);
    words.load_dictionary(&["ภาษา", "ไทย"], Script::Thai).expect(out_of_memory);
    words.load_dictionary(&["蜜蜂"], Script::ChineseOrJapanese).expect(out_of_memory);
    assert!(of_words(&words) != plain);

    let mut sentences = SentenceSegmenter::new().expect(out_of_memory);
    let plain = alike(|| found(&sentences, &text, &units));
    sentences.load_abbreviations(&["biển."]).expect(out_of_memory);
    assert!(alike(|| found(&sentences, &text, &units)) != plain);

    let mut lines = LineSegmenter::new(LineOptions::default()).expect(out_of_memory);
    let of_lines = |it: &LineSegmenter| alike(|| (found(it, &text, &units), it.wrap(&text, 30).map(|it| it.columns).collect::<Vec<_>>()));
    let plain = of_lines(&lines);
    lines.load_dictionary(&["ภาษา", "ไทย"], Script::Thai).expect(out_of_memory);
    lines.count_by_cluster().expect(out_of_memory);
    assert!(of_lines(&lines) != plain);
    println!("{THREADS} threads");
    Ok(())
}
