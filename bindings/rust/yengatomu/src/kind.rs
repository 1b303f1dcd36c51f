//! What a [`Segmenter`](crate::Segmenter) segments into.
use yengatomu_sys as sys;

use crate::{LineBreak, WordType};

mod sealed {
    pub trait Kind {
        const NUMBER: u32;
        const NAME: &'static str;
    }
}

/// One of [`Grapheme`], [`Word`], [`Sentence`], [`Line`](enum@Line) and [`Rule`].
pub trait Kind: sealed::Kind {}

/// A kind whose segments are marked: [`Word`] and [`Line`](enum@Line).
pub trait Marked: Kind {
    /// What is said of a segment.
    type Mark: Copy + std::fmt::Debug + Eq;

    /// What a mark says that [`fill_marked_boundaries`](crate::Segmenter::fill_marked_boundaries) writes. Of numbers that it never writes, what 0 says.
    fn mark(number: u8) -> Self::Mark;
}

macro_rules! kinds {
    ($($(#[$doc:meta])* $name:ident = $number:ident;)*) => { $(
        $(#[$doc])*
        #[derive(Debug)]
        pub enum $name {}

        impl sealed::Kind for $name {
            const NUMBER: u32 = sys::$number;
            const NAME: &'static str = stringify!($name);
        }
        impl Kind for $name {}
    )* };
}

kinds! {
    /// Extended grapheme clusters of UAX #29: what a reader takes for one character.
    Grapheme = YENGATOMU_CLUSTERS;
    /// Words of UAX #29, and what stands between them.
    Word = YENGATOMU_WORDS;
    /// Sentences of UAX #29.
    Sentence = YENGATOMU_SENTENCES;
    /// What stands between two places where a line may break, by UAX #14.
    Line = YENGATOMU_LINES;
    /// What stands between two places where the caller's own rules part a text. To the library it is as clusters.
    Rule = YENGATOMU_CLUSTERS;
}

impl Marked for Word {
    type Mark = WordType;

    #[inline]
    fn mark(number: u8) -> WordType {
        WordType::of_mark(number)
    }
}

impl Marked for Line {
    type Mark = LineBreak;

    #[inline]
    fn mark(number: u8) -> LineBreak {
        match number {
            sys::YENGATOMU_MUST_BREAK => LineBreak::Mandatory,
            _ => LineBreak::Allowed,
        }
    }
}

pub(crate) fn number<K: Kind>() -> u32 {
    K::NUMBER
}

pub(crate) fn name<K: Kind>() -> &'static str {
    K::NAME
}
