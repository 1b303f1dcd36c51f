//! The C interface of yengatomu, as `yengatomu.h` has it, with the same names. The crate `yengatomu` is the safe one.
//!
//! It links `libyengatomu.a`, which `tools/staticlib` makes in `bindings/lib`, or that of the folder `YENGATOMU_LIB_DIR`. The
//! archive allocates by the C library.
//!
//! # Safety
//!
//! What every call asks of its caller:
//!
//! - A slot begins as [`yengatomu_slot::EMPTY`], and only these calls write to it. It may be moved, but not copied and used twice.
//! - Calls that take a `*const` slot read it: any number of threads may make them at once on one slot, also on an empty one.
//! - Calls that take a `*mut` slot change it. While one of them runs, no other call may use the slot, nor may it be moved.
//! - A slot may be opened by one thread, used by others and closed by another again, as long as these happen one after another.
//! - Each length is that of the array before it, in elements. No array is null, not even an empty one.
//! - Buffers overlap neither one another nor the text.
//!
//! No call keeps a pointer, calls back, unwinds, aborts, or writes but to a `*mut` slot and the buffers it is given.
#![no_std]
#![deny(missing_docs)]
#![allow(non_camel_case_types)]

use core::ffi::c_void;
use core::ptr;

/// Holds a segmenter or nothing.
#[repr(C)]
#[derive(Debug)]
pub struct yengatomu_slot {
    full: bool,
    at: *mut c_void,
}

impl yengatomu_slot {
    /// An empty slot: zero bytes.
    pub const EMPTY: Self = Self { full: false, at: ptr::null_mut() };
}

/// A word of a dictionary, or an abbreviation: UTF-8.
#[repr(C)]
#[derive(Clone, Copy, Debug)]
pub struct yengatomu_word {
    /// Where the word begins. Not null.
    pub bytes: *const u8,
    /// How many bytes it has.
    pub len: usize,
}

/// Kind: grapheme clusters.
pub const YENGATOMU_CLUSTERS: u32 = 0;
/// Kind: words.
pub const YENGATOMU_WORDS: u32 = 1;
/// Kind: sentences.
pub const YENGATOMU_SENTENCES: u32 = 2;
/// Kind: lines.
pub const YENGATOMU_LINES: u32 = 3;

/// Strictness of lines: `line-break: strict` of CSS Text 3.
pub const YENGATOMU_STRICT: u32 = 0;
/// Strictness of lines: `line-break: normal`.
pub const YENGATOMU_NORMAL: u32 = 1;
/// Strictness of lines: `line-break: loose`.
pub const YENGATOMU_LOOSE: u32 = 2;
/// Strictness of lines: `line-break: anywhere`, at each grapheme cluster.
pub const YENGATOMU_ANYWHERE: u32 = 3;

/// Words in lines: `word-break: normal` of CSS Text 3.
pub const YENGATOMU_BREAK_NORMAL: u32 = 0;
/// Words in lines: `word-break: break-all`.
pub const YENGATOMU_BREAK_ALL: u32 = 1;
/// Words in lines: `word-break: keep-all`.
pub const YENGATOMU_KEEP_ALL: u32 = 2;

/// Script of a dictionary: Myanmar.
pub const YENGATOMU_MYANMAR: u32 = 1;
/// Script of a dictionary: Chinese or Japanese.
pub const YENGATOMU_CHINESE_OR_JAPANESE: u32 = 2;
/// Script of a dictionary: Khmer.
pub const YENGATOMU_KHMER: u32 = 3;
/// Script of a dictionary: Lao.
pub const YENGATOMU_LAO: u32 = 4;
/// Script of a dictionary: Thai.
pub const YENGATOMU_THAI: u32 = 5;

/// Result: done.
pub const YENGATOMU_OK: u32 = 0;
/// Result: out of memory.
pub const YENGATOMU_NO_MEMORY: u32 = 1;
/// Result: there is no such kind, option or script, or the segmenter takes no such thing.
pub const YENGATOMU_NO_SUCH: u32 = 2;
/// Result: a word isn't UTF-8.
pub const YENGATOMU_NOT_UTF8: u32 = 3;
/// Result of abbreviations: one isn't UTF-8, or has a line feed in it.
pub const YENGATOMU_WRONG_WORD: u32 = 3;

/// Result of rules: the text isn't UTF-8, or its rules are wrong.
pub const YENGATOMU_WRONG_RULES: u32 = 2;
/// Result of rules: the rules are too large, or need to know too much of the text to be followed.
pub const YENGATOMU_NO_MACHINE: u32 = 3;

/// Mark of words: what ends at the boundary is neither letters nor a number.
pub const YENGATOMU_NO_WORD: u8 = 0;
/// Mark of words: a number ends at the boundary.
pub const YENGATOMU_NUMBER: u8 = 1;
/// Mark of words: a word of letters ends at the boundary.
pub const YENGATOMU_LETTERS: u8 = 2;
/// Mark of lines: the line may end at the boundary.
pub const YENGATOMU_MAY_BREAK: u8 = 0;
/// Mark of lines: the line must end at the boundary.
pub const YENGATOMU_MUST_BREAK: u8 = 1;

/// No boundary.
pub const YENGATOMU_NONE: usize = usize::MAX;

extern "C" {
    /// Frees what the slot holds and opens a segmenter of the kind in its place. `YENGATOMU_NO_SUCH` for a number that is none of
    /// the above. Options are those of lines; other kinds don't read them. If it isn't `YENGATOMU_OK`, the slot is empty.
    pub fn yengatomu_open(slot: *mut yengatomu_slot, kind: u32, strictness: u32, word_break: u32, chinese_or_japanese: bool) -> u32;

    /// Frees what the slot holds and opens a segmenter by the caller's own rules in its place: a text of UTF-8. The other calls take it as
    /// one of clusters. `YENGATOMU_WRONG_RULES` where the text is ill-formed or a line of it is wrong, `YENGATOMU_NO_MACHINE` where
    /// the rules are too large or can't be followed: `error` is then the number of the line, from 1 on; 0 where the text is ill-formed,
    /// where no line shows it, and in all other cases. If it isn't `YENGATOMU_OK`, the slot is empty.
    pub fn yengatomu_open_rules(slot: *mut yengatomu_slot, text: *const u8, len: usize, error: *mut usize) -> u32;

    /// Gives a segmenter of words or lines the words of a script, if it has none of that script yet. `YENGATOMU_NO_SUCH` for another
    /// number, another kind or an empty slot; `YENGATOMU_NOT_UTF8` where a word is ill-formed. If it isn't `YENGATOMU_OK`, the slot is
    /// as it was.
    pub fn yengatomu_load_dictionary(slot: *mut yengatomu_slot, words: *const yengatomu_word, count: usize, script: u32) -> u32;

    /// Gives a segmenter of sentences the abbreviations after which a sentence goes on. `YENGATOMU_NO_SUCH` for another kind, for an empty
    /// slot, and where there are some already; `YENGATOMU_WRONG_WORD` where one is ill-formed or has a line feed in it. If it isn't
    /// `YENGATOMU_OK`, the slot is as it was.
    pub fn yengatomu_load_abbreviations(slot: *mut yengatomu_slot, words: *const yengatomu_word, count: usize) -> u32;

    /// Has a segmenter of lines count the columns of wrapped lines by cluster from now on, and no longer by character. `YENGATOMU_NO_SUCH`
    /// for another kind or an empty slot. If it isn't `YENGATOMU_OK`, the slot is as it was.
    pub fn yengatomu_count_by_cluster(slot: *mut yengatomu_slot) -> u32;

    /// Frees what the slot holds, and leaves it empty. It may be opened or closed again.
    pub fn yengatomu_close(slot: *mut yengatomu_slot);

    /// Writes the first boundaries above `from` to `out`, as many as there is room for, and returns how many: those of the text from
    /// there on, taken alone. Its last is `len`. Go on from the last one, until 0 is returned; with a dictionary or abbreviations only from
    /// behind a line feed. 0 where `from` is `len` or more, and where the slot is empty.
    pub fn yengatomu_boundaries(
        slot: *const yengatomu_slot,
        text: *const u8,
        len: usize,
        from: usize,
        out: *mut usize,
        room: usize,
    ) -> usize;

    /// [`yengatomu_boundaries`] of UTF-16; places are 16-bit units.
    pub fn yengatomu_boundaries_utf16(
        slot: *const yengatomu_slot,
        text: *const u16,
        len: usize,
        from: usize,
        out: *mut usize,
        room: usize,
    ) -> usize;

    /// [`yengatomu_boundaries`] of Latin-1: each byte is a code point; places are bytes.
    pub fn yengatomu_boundaries_latin1(
        slot: *const yengatomu_slot,
        text: *const u8,
        len: usize,
        from: usize,
        out: *mut usize,
        room: usize,
    ) -> usize;

    /// [`yengatomu_boundaries`] with a mark for each; 0 of clusters and sentences. It writes as many as both buffers have room for.
    pub fn yengatomu_marked_boundaries(
        slot: *const yengatomu_slot,
        text: *const u8,
        len: usize,
        from: usize,
        out: *mut usize,
        room: usize,
        marks: *mut u8,
        marks_room: usize,
    ) -> usize;

    /// [`yengatomu_marked_boundaries`] of UTF-16; places are 16-bit units.
    pub fn yengatomu_marked_boundaries_utf16(
        slot: *const yengatomu_slot,
        text: *const u16,
        len: usize,
        from: usize,
        out: *mut usize,
        room: usize,
        marks: *mut u8,
        marks_room: usize,
    ) -> usize;

    /// [`yengatomu_marked_boundaries`] of Latin-1: each byte is a code point; places are bytes.
    pub fn yengatomu_marked_boundaries_latin1(
        slot: *const yengatomu_slot,
        text: *const u8,
        len: usize,
        from: usize,
        out: *mut usize,
        room: usize,
        marks: *mut u8,
        marks_room: usize,
    ) -> usize;

    /// The nearest boundary above the place, which may be inside a character. `YENGATOMU_NONE` where there is none, and where the slot is
    /// empty.
    pub fn yengatomu_next(slot: *const yengatomu_slot, text: *const u8, len: usize, place: usize) -> usize;

    /// [`yengatomu_next`] of UTF-16; places are 16-bit units.
    pub fn yengatomu_next_utf16(slot: *const yengatomu_slot, text: *const u16, len: usize, place: usize) -> usize;

    /// The nearest boundary below the place, which may be past the end. `YENGATOMU_NONE` where there is none, and where the slot is
    /// empty.
    pub fn yengatomu_previous(slot: *const yengatomu_slot, text: *const u8, len: usize, place: usize) -> usize;

    /// [`yengatomu_previous`] of UTF-16; places are 16-bit units.
    pub fn yengatomu_previous_utf16(slot: *const yengatomu_slot, text: *const u16, len: usize, place: usize) -> usize;

    /// Writes where the first lines end that the text from `from` on is wrapped to, as many as there is room for, and returns how many.
    /// A line takes as many segments as fit in the columns, at least one, and ends where it must. Spaces, line feeds and carriage returns
    /// at its end take no columns. 0 of other kinds than lines.
    pub fn yengatomu_wrap(
        slot: *const yengatomu_slot,
        text: *const u8,
        len: usize,
        from: usize,
        columns: usize,
        ends: *mut usize,
        room: usize,
    ) -> usize;

    /// [`yengatomu_wrap`] of UTF-16; places are 16-bit units.
    pub fn yengatomu_wrap_utf16(
        slot: *const yengatomu_slot,
        text: *const u16,
        len: usize,
        from: usize,
        columns: usize,
        ends: *mut usize,
        room: usize,
    ) -> usize;

    /// [`yengatomu_wrap`], with how many columns each line takes. It writes as many as both buffers have room for.
    pub fn yengatomu_wrap_columns(
        slot: *const yengatomu_slot,
        text: *const u8,
        len: usize,
        from: usize,
        columns: usize,
        ends: *mut usize,
        room: usize,
        widths: *mut usize,
        widths_room: usize,
    ) -> usize;

    /// [`yengatomu_wrap_columns`] of UTF-16; places are 16-bit units.
    pub fn yengatomu_wrap_columns_utf16(
        slot: *const yengatomu_slot,
        text: *const u16,
        len: usize,
        from: usize,
        columns: usize,
        ends: *mut usize,
        room: usize,
        widths: *mut usize,
        widths_room: usize,
    ) -> usize;

    /// Writes where the balanced lines of the first paragraph behind `from` end and how many columns they take, as many as both buffers have room
    /// for, and returns how many lines it has. Go on from the last end. 0 where `from` is `len` or more, where the slot is empty, and of other
    /// kinds than lines. `YENGATOMU_NONE` when out of memory.
    pub fn yengatomu_wrap_balanced(
        slot: *const yengatomu_slot,
        text: *const u8,
        len: usize,
        from: usize,
        columns: u32,
        ends: *mut usize,
        room: usize,
        widths: *mut usize,
        widths_room: usize,
    ) -> usize;

    /// [`yengatomu_wrap_balanced`] of UTF-16; places are 16-bit units.
    pub fn yengatomu_wrap_balanced_utf16(
        slot: *const yengatomu_slot,
        text: *const u16,
        len: usize,
        from: usize,
        columns: u32,
        ends: *mut usize,
        room: usize,
        widths: *mut usize,
        widths_room: usize,
    ) -> usize;

    /// How many segments the text has: one less than it has boundaries. 0 where the slot is empty.
    pub fn yengatomu_count(slot: *const yengatomu_slot, text: *const u8, len: usize) -> usize;

    /// [`yengatomu_count`] of UTF-16.
    pub fn yengatomu_count_utf16(slot: *const yengatomu_slot, text: *const u16, len: usize) -> usize;

    /// How many segments are words, of letters or numbers. 0 of other kinds than words.
    pub fn yengatomu_count_words(slot: *const yengatomu_slot, text: *const u8, len: usize) -> usize;

    /// [`yengatomu_count_words`] of UTF-16.
    pub fn yengatomu_count_words_utf16(slot: *const yengatomu_slot, text: *const u16, len: usize) -> usize;

    /// The version of the library: 10,000 times the major number, 100 times the minor one and the update.
    pub fn yengatomu_version() -> u32;

    /// The version of the Unicode data by which a kind is segmented, in the same form; 0 for no such kind.
    pub fn yengatomu_unicode_version(kind: u32) -> u32;
}
