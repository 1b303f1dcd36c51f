//! Clones share what a segmenter holds, until one of them is changed: that changes this one alone.
use std::{env, fs, process, thread};

use yengatomu::kind::Kind;
use yengatomu::{
    Error, GraphemeSegmenter, LineOptions, LineSegmenter, RuleSegmenter, Script, Segmenter, SentenceSegmenter, Strictness, WordSegmenter,
};

const TEXT: &str = "Mr. Ox: ภาษาไทย ພາສາລາວ 東京\n一〜一 e\u{301} 👩\u{200d}👩\u{200d}👧 a_b. Z. z. B. Jim\n";
const THAI: [&str; 2] = ["ภาษา", "ไทย"];
const LAO: [&str; 2] = ["ພາສາ", "ລາວ"];
const FAMILY: &str = "👩\u{200d}👩\u{200d}👧 a";

fn segments<K: Kind>(segmenter: &Segmenter<K>) -> Vec<&'static str> {
    segmenter.segments(TEXT).collect()
}

fn columns(lines: &LineSegmenter) -> usize {
    lines.wrap(FAMILY, 80).map(|line| line.columns).sum()
}

/// Words by dictionaries of these scripts.
fn words_of(scripts: &[Script]) -> Vec<&'static str> {
    let mut words = WordSegmenter::new().unwrap();
    for &script in scripts {
        words.load_dictionary(if script == Script::Thai { &THAI } else { &LAO }, script).unwrap();
    }
    segments(&words)
}

#[test]
fn clones_find_the_same() {
    fn alike<K: Kind>(segmenter: Segmenter<K>) {
        let (clone, found) = (segmenter.clone(), segments(&segmenter));
        assert_eq!(segments(&clone), found);
        assert_eq!(format!("{clone:?}"), format!("{segmenter:?}"));
        drop(segmenter);
        assert_eq!(segments(&clone.clone()), found);
    }
    alike(GraphemeSegmenter::new().unwrap());
    alike(WordSegmenter::new().unwrap());
    alike(SentenceSegmenter::new().unwrap());
    alike(LineSegmenter::new(LineOptions::default()).unwrap());
    alike(RuleSegmenter::by_rules("A = \\p{L}\nA × A\n÷").unwrap());
}

#[test]
fn dictionaries() {
    let (none, thai, lao, both) =
        (words_of(&[]), words_of(&[Script::Thai]), words_of(&[Script::Lao]), words_of(&[Script::Thai, Script::Lao]));
    assert!(none != thai && none != lao && thai != both && lao != both);
    let mut first = WordSegmenter::new().unwrap();
    let mut second = first.clone();
    let third = second.clone();

    // One that clones share is changed, and then one that none shares any more.
    second.load_dictionary(&THAI, Script::Thai).unwrap();
    assert_eq!([segments(&first), segments(&second), segments(&third)], [none.clone(), thai.clone(), none.clone()]);
    first.load_dictionary(&LAO, Script::Lao).unwrap();
    assert_eq!([segments(&first), segments(&second), segments(&third)], [lao.clone(), thai.clone(), none]);

    // What was loaded before stays.
    let mut fourth = second.clone();
    fourth.load_dictionary(&LAO, Script::Lao).unwrap();
    assert_eq!([segments(&second), segments(&fourth)], [thai.clone(), both.clone()]);
    first.load_dictionary(&THAI, Script::Thai).unwrap();
    assert_eq!(segments(&first), both);
    assert_eq!((first.has_words(), second.has_words(), third.has_words()), (true, true, false));

    // Words of a script that has some change nothing.
    let mut fifth = second.clone();
    fifth.load_dictionary(&THAI[..1], Script::Thai).unwrap();
    fifth.load_dictionary::<&str>(&[], Script::Khmer).unwrap();
    assert_eq!([segments(&second), segments(&fifth)], [thai.clone(), thai]);
}

#[test]
fn abbreviations() {
    let mut plain = SentenceSegmenter::new().unwrap();
    let before = segments(&plain);
    let mut loaded = plain.clone();
    loaded.load_abbreviations(&["Mr.", "z. B."]).unwrap();
    let after = segments(&loaded);
    assert_eq!(segments(&plain), before);
    assert_ne!(after, before);
    assert_eq!(loaded.clone().load_abbreviations(&["Jim"]), Err(Error::HasAbbreviations));
    assert_eq!([segments(&loaded), segments(&plain)], [after.clone(), before]);
    plain.load_abbreviations(&["z. B.", "Mr."]).unwrap();
    assert_eq!(segments(&plain), after);
}

#[test]
fn options_of_lines() {
    let options = LineOptions { strictness: Strictness::Loose, chinese_or_japanese: true, ..LineOptions::default() };
    let by_character = LineSegmenter::new(options).unwrap();
    let found = segments(&by_character);
    assert_ne!(found, segments(&LineSegmenter::new(LineOptions::default()).unwrap()));
    let mut by_cluster = by_character.clone();
    by_cluster.count_by_cluster().unwrap();
    assert_eq!((columns(&by_character), columns(&by_cluster)), (8, 4));
    assert_eq!(segments(&by_cluster), found);

    let mut again = by_cluster.clone();
    again.count_by_cluster().unwrap();
    again.load_dictionary(&THAI, Script::Thai).unwrap();
    assert_eq!((columns(&again), columns(&by_cluster)), (4, 4));
    assert_ne!(segments(&again), found);
    assert_eq!([segments(&by_cluster), segments(&by_character)], [found.clone(), found]);
}

#[test]
fn errors_change_nothing() {
    let mut words = WordSegmenter::new().unwrap();
    words.load_dictionary(&LAO, Script::Lao).unwrap();
    let (other, found) = (words.clone(), segments(&words));
    assert_eq!(words.load_dictionary(&[b"\xff"], Script::Thai), Err(Error::NotUtf8));
    assert_eq!(words.load_dictionary(&["ภาษา\nไทย"], Script::Thai), Err(Error::LineFeed));
    assert!(words.load_dictionaries("/nowhere").is_err());
    assert_eq!([segments(&words), segments(&other)], [found.clone(), found]);
    let mut sentences = SentenceSegmenter::new().unwrap();
    let (other, found) = (sentences.clone(), segments(&sentences));
    assert_eq!(sentences.load_abbreviations(&["a\nb."]), Err(Error::LineFeed));
    assert!(sentences.load_language("/nowhere", "en").is_err());
    assert_eq!([segments(&sentences), segments(&other)], [found.clone(), found]);
}

#[test]
fn folders() {
    let folder = env::temp_dir().join(format!("yengatomu-clones-{}", process::id()));
    fs::create_dir(&folder).unwrap();
    fs::write(folder.join("thai.txt"), THAI.join("\r\n")).unwrap();
    fs::write(folder.join("lao.txt"), b"\xff\n").unwrap();
    fs::write(folder.join("abbreviations-en.txt"), "Mr.\n").unwrap();
    let plain = WordSegmenter::new().unwrap();
    let mut words = plain.clone();
    assert!(words.load_dictionaries(&folder).is_err());
    assert_eq!([segments(&words), segments(&plain)], [words_of(&[]), words_of(&[])]);
    fs::write(folder.join("lao.txt"), LAO.join("\n")).unwrap();
    assert_eq!(words.load_dictionaries(&folder).unwrap(), [Script::Thai, Script::Lao]);
    assert_eq!([segments(&words), segments(&plain)], [words_of(&[Script::Thai, Script::Lao]), words_of(&[])]);

    let plain = SentenceSegmenter::new().unwrap();
    let mut sentences = plain.clone();
    sentences.load_language(&folder, "en").unwrap();
    assert_eq!((sentences.count("Mr. A"), plain.count("Mr. A")), (1, 2));
    fs::remove_dir_all(&folder).unwrap();
}

/// Threads that have a clone each load words into clones of it, and drop them.
#[test]
fn threads() {
    let words = WordSegmenter::new().unwrap();
    let (none, thai) = (words_of(&[]), words_of(&[Script::Thai]));
    thread::scope(|scope| {
        for _ in 0..10 {
            let (words, none, thai) = (words.clone(), &none, &thai);
            scope.spawn(move || {
                for _ in 0..20 {
                    let mut loaded = words.clone();
                    loaded.load_dictionary(&THAI, Script::Thai).unwrap();
                    assert_eq!([&segments(&loaded), &segments(&words)], [thai, none]);
                }
            });
        }
    });
    assert_eq!(segments(&words), none);
}
