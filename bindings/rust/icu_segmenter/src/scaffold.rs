//! The encodings, as types: they tell iterators how a text is written.
use yengatomu::kind::{Kind, Marked};
use yengatomu::Segmenter;

use crate::encoding::Encoding;

/// One of [`Utf8`], [`PotentiallyIllFormedUtf8`], [`Latin1`] and [`Utf16`].
pub trait RuleBreakType: Encoding + Sized {}

/// The same as [`RuleBreakType`], of words.
pub trait WordBreakType: RuleBreakType {}

/// The same as [`RuleBreakType`], of lines.
pub trait LineBreakType: RuleBreakType {}

macro_rules! encodings {
    ($($(#[$doc:meta])* $name:ident;)*) => { $(
        $(#[$doc])*
        #[derive(Debug)]
        #[non_exhaustive]
        pub struct $name;

        impl RuleBreakType for $name {}
        impl WordBreakType for $name {}
        impl LineBreakType for $name {}
    )* };
}

encodings! {
    /// UTF-8 that is well-formed: a `str`. Places are bytes.
    Utf8;
    /// UTF-8 that may be ill-formed. Places are bytes; each maximal part that begins a character, and each other ill-formed byte, counts as U+FFFD.
    PotentiallyIllFormedUtf8;
    /// Latin-1: each byte is a code point. Places are bytes.
    Latin1;
    /// UTF-16 that may be ill-formed. Places are 16-bit units; a surrogate that stands alone counts as itself.
    Utf16;
}

impl Encoding for Utf8 {
    type Unit = u8;
}

impl Encoding for PotentiallyIllFormedUtf8 {
    type Unit = u8;
}

impl Encoding for Utf16 {
    type Unit = u16;
}

impl Encoding for Latin1 {
    type Unit = u8;

    #[inline]
    fn fill<K: Kind>(segmenter: &Segmenter<K>, text: &[u8], from: usize, places: &mut [usize]) -> usize {
        segmenter.fill_boundaries_latin1(text, from, places)
    }

    #[inline]
    fn fill_marked<K: Marked>(segmenter: &Segmenter<K>, text: &[u8], from: usize, places: &mut [usize], marks: &mut [u8]) -> usize {
        segmenter.fill_marked_boundaries_latin1(text, from, places, marks)
    }
}
