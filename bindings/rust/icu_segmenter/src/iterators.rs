//! The iterators that segmenters return. Each asks the library for up to 256 places at a time; with dictionaries for whole lines, up to their line feeds.
use std::fmt;
use std::iter::FusedIterator;

use yengatomu::kind::{Line, Marked};
use yengatomu::{GraphemeSegmenter, LineBreak, LineSegmenter, SentenceSegmenter, WordSegmenter};

use crate::options::WordType;
use crate::places::Places;
use crate::scaffold::RuleBreakType;

macro_rules! iterators {
    ($($(#[$doc:meta])* $name:ident by $finder:ident;)*) => { $(
        $(#[$doc])*
        pub struct $name<'data, 's, Y: RuleBreakType>(pub(crate) Places<'data, 's, $finder, Y>);

        impl<Y: RuleBreakType> Iterator for $name<'_, '_, Y> {
            type Item = usize;

            #[inline]
            fn next(&mut self) -> Option<usize> {
                self.0.next()
            }

            fn size_hint(&self) -> (usize, Option<usize>) {
                self.0.size_hint()
            }
        }

        impl<Y: RuleBreakType> FusedIterator for $name<'_, '_, Y> {}

        impl<Y: RuleBreakType> Clone for $name<'_, '_, Y> {
            fn clone(&self) -> Self {
                Self(self.0.clone())
            }
        }

        impl<Y: RuleBreakType> fmt::Debug for $name<'_, '_, Y> {
            fn fmt(&self, f: &mut fmt::Formatter<'_>) -> fmt::Result {
                f.debug_tuple(stringify!($name)).field(&self.0).finish()
            }
        }
    )* };
}

iterators! {
    /// The boundaries of grapheme clusters in a text: 0 first, its length last.
    GraphemeClusterBreakIterator by GraphemeSegmenter;
    /// The boundaries of words in a text: 0 first, its length last.
    WordBreakIterator by WordSegmenter;
    /// The boundaries of sentences in a text: 0 first, its length last.
    SentenceBreakIterator by SentenceSegmenter;
    /// The places in a text where a line may end: 0 first, its length last.
    LineBreakIterator by LineSegmenter;
}

impl<'data, 's, Y: RuleBreakType> WordBreakIterator<'data, 's, Y> {
    /// What ends at the boundary that was given last. [`WordType::None`] at 0, before the first boundary, and once there are no more.
    #[inline]
    pub fn word_type(&self) -> WordType {
        match yengatomu::kind::Word::mark(self.0.mark()) {
            yengatomu::WordType::None => WordType::None,
            yengatomu::WordType::Number => WordType::Number,
            yengatomu::WordType::Letters => WordType::Letter,
        }
    }

    /// Whether a word ends at the boundary that was given last: of letters, or a number.
    #[inline]
    pub fn is_word_like(&self) -> bool {
        self.word_type().is_word_like()
    }

    /// The boundaries that are left, each with what ends there.
    ///
    /// ```
    /// use icu_segmenter::options::WordType::{Letter, None, Number};
    /// use icu_segmenter::WordSegmenter;
    ///
    /// let words = WordSegmenter::new_auto(Default::default());
    /// let found = words.segment_str("pay 3.14").iter_with_word_type();
    /// assert!(found.eq([(0, None), (3, Letter), (4, None), (8, Number)]));
    /// ```
    pub fn iter_with_word_type(self) -> WordBreakIteratorWithWordType<'data, 's, Y> {
        WordBreakIteratorWithWordType(self)
    }
}

impl<Y: RuleBreakType> LineBreakIterator<'_, '_, Y> {
    /// Whether a line must end at the boundary that was given last, as behind a line feed, and at the end of the text. Not at 0, before the first
    /// boundary, once there are no more, and where lines break anywhere.
    #[inline]
    pub fn is_mandatory(&self) -> bool {
        Line::mark(self.0.mark()) == LineBreak::Mandatory
    }

    /// The same as [`is_mandatory`](Self::is_mandatory).
    #[inline]
    pub fn is_mandatory_break(&self) -> bool {
        self.is_mandatory()
    }
}

/// The boundaries of words in a text, each with what ends there.
#[derive(Clone, Debug)]
pub struct WordBreakIteratorWithWordType<'data, 's, Y: RuleBreakType>(WordBreakIterator<'data, 's, Y>);

impl<Y: RuleBreakType> Iterator for WordBreakIteratorWithWordType<'_, '_, Y> {
    type Item = (usize, WordType);

    #[inline]
    fn next(&mut self) -> Option<Self::Item> {
        let place = self.0.next()?;
        Some((place, self.0.word_type()))
    }

    fn size_hint(&self) -> (usize, Option<usize>) {
        self.0.size_hint()
    }
}

impl<Y: RuleBreakType> FusedIterator for WordBreakIteratorWithWordType<'_, '_, Y> {}
