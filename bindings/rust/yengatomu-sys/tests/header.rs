//! Compares the crate with `yengatomu.h`: the numbers of its enums, and the calls with their parameters.
use std::collections::BTreeMap;
use std::path::Path;

use yengatomu_sys::*;

fn read(path: &str) -> String {
    let path = Path::new(env!("CARGO_MANIFEST_DIR")).join(path);
    std::fs::read_to_string(&path).unwrap_or_else(|error| panic!("{}: {error}", path.display()))
}

/// The header without its comments.
fn header() -> String {
    let mut text = read("../../include/yengatomu.h");
    while let Some(from) = text.find("/*") {
        let to = from + text[from..].find("*/").expect("a comment ends") + 2;
        text.replace_range(from..to, "");
    }
    text
}

#[test]
fn numbers() {
    let header = header();
    let mut stated = BTreeMap::new();
    for list in header.split("enum {").skip(1) {
        let mut next = 0;
        for item in list[..list.find('}').unwrap()].split(',') {
            let mut parts = item.split('=').map(str::trim);
            let name = parts.next().unwrap().to_string();
            let value = parts.next().map_or(next, |number| number.parse().unwrap());
            next = value + 1;
            stated.insert(name, value);
        }
    }
    macro_rules! ours {
        ($($name:ident)*) => { BTreeMap::from([$((stringify!($name).to_string(), u32::from($name))),*]) };
    }
    let ours = ours! {
        YENGATOMU_CLUSTERS YENGATOMU_WORDS YENGATOMU_SENTENCES YENGATOMU_LINES
        YENGATOMU_STRICT YENGATOMU_NORMAL YENGATOMU_LOOSE YENGATOMU_ANYWHERE
        YENGATOMU_BREAK_NORMAL YENGATOMU_BREAK_ALL YENGATOMU_KEEP_ALL
        YENGATOMU_MYANMAR YENGATOMU_CHINESE_OR_JAPANESE YENGATOMU_KHMER YENGATOMU_LAO YENGATOMU_THAI
        YENGATOMU_OK YENGATOMU_NO_MEMORY YENGATOMU_NO_SUCH YENGATOMU_NOT_UTF8
        YENGATOMU_WRONG_WORD
        YENGATOMU_WRONG_RULES YENGATOMU_NO_MACHINE
        YENGATOMU_NO_WORD YENGATOMU_NUMBER YENGATOMU_LETTERS
        YENGATOMU_MAY_BREAK YENGATOMU_MUST_BREAK
    };
    assert_eq!(ours, stated);
    assert!(header.contains("#define YENGATOMU_NONE SIZE_MAX"));
    assert_eq!(YENGATOMU_NONE, usize::MAX);
}

/// Of each `name(parameters) result` its name, and the types of its parameters and result, as Rust writes them.
type Calls = BTreeMap<String, (Vec<String>, String)>;

fn in_rust(c: &str) -> String {
    let c = c.trim();
    let plain = |name: &str| match name {
        "size_t" => "usize".to_string(),
        "uint8_t" => "u8".to_string(),
        "uint16_t" => "u16".to_string(),
        "uint32_t" => "u32".to_string(),
        "void" => "()".to_string(),
        other => other.to_string(),
    };
    match (c.strip_prefix("const "), c.strip_suffix('*')) {
        (Some(rest), Some(_)) => format!("*const {}", plain(rest.trim_end_matches('*').trim())),
        (None, Some(rest)) => format!("*mut {}", plain(rest.trim())),
        _ => plain(c),
    }
}

fn of_header() -> Calls {
    let header = header();
    let mut calls = Calls::new();
    for statement in header.split(';') {
        let Some(open) = statement.find('(') else { continue };
        let before = statement[..open].lines().last().unwrap();
        let (result, name) = before.rsplit_once(' ').unwrap();
        let inside = &statement[open + 1..statement.rfind(')').unwrap()];
        let parameters = inside
            .split(',')
            .map(str::trim)
            .filter(|parameter| *parameter != "void")
            .map(|parameter| {
                let name = parameter.rfind([' ', '*']).unwrap() + 1;
                in_rust(&parameter[..name])
            })
            .collect();
        calls.insert(name.to_string(), (parameters, in_rust(result)));
    }
    calls
}

fn of_crate() -> Calls {
    let source = read("src/lib.rs");
    let mut calls = Calls::new();
    for call in source.split("pub fn ").skip(1) {
        let call = &call[..call.find(';').unwrap()];
        let (name, rest) = call.split_once('(').unwrap();
        let (inside, result) = rest.rsplit_once(')').unwrap();
        let parameters = inside
            .split(',')
            .filter(|parameter| !parameter.trim().is_empty())
            .map(|parameter| parameter.split_once(':').unwrap().1.trim().to_string())
            .collect();
        let result = result.trim().strip_prefix("-> ").unwrap_or("()");
        calls.insert(name.to_string(), (parameters, result.to_string()));
    }
    calls
}

#[test]
fn calls() {
    let stated = of_header();
    assert_eq!(stated.len(), 28);
    assert_eq!(of_crate(), stated);
}

#[test]
fn a_slot_is_two_words() {
    assert_eq!(std::mem::size_of::<yengatomu_slot>(), 2 * std::mem::size_of::<usize>());
    assert_eq!(std::mem::align_of::<yengatomu_slot>(), std::mem::align_of::<usize>());
}

#[test]
fn opens_and_closes() {
    let mut slot = yengatomu_slot::EMPTY;
    let text = b"ab";
    let mut out = [0usize; 4];
    // SAFETY: the slot began empty and is only used here; each length is that of its array.
    unsafe {
        assert_eq!(yengatomu_boundaries(&slot, text.as_ptr(), 2, 0, out.as_mut_ptr(), 4), 0, "of an empty slot");
        assert_eq!(yengatomu_open(&mut slot, 4, 0, 0, false), YENGATOMU_NO_SUCH);
        assert_eq!(yengatomu_open(&mut slot, YENGATOMU_CLUSTERS, 0, 0, false), YENGATOMU_OK);
        assert_eq!(yengatomu_boundaries(&slot, text.as_ptr(), 2, 0, out.as_mut_ptr(), 4), 2);
        assert_eq!(out[..2], [1, 2]);
        let (rules, mut line) = ("A = [a]\nA × A\n÷", 7);
        assert_eq!(yengatomu_open_rules(&mut slot, rules.as_ptr(), rules.len(), &mut line), YENGATOMU_OK);
        assert_eq!(line, 0);
        assert_eq!(yengatomu_count(&slot, text.as_ptr(), 2), 2);
        assert_eq!(yengatomu_open_rules(&mut slot, rules.as_ptr(), rules.len() - 2, &mut line), YENGATOMU_WRONG_RULES);
        assert_eq!(line, 3);
        yengatomu_close(&mut slot);
        yengatomu_close(&mut slot);
        assert_eq!(yengatomu_count(&slot, text.as_ptr(), 2), 0, "of an empty slot");
        assert_eq!(yengatomu_unicode_version(4), 0);
        assert_ne!(yengatomu_unicode_version(YENGATOMU_LINES), 0);
        assert_ne!(yengatomu_version(), 0);
    }
}
