//! The trait, the iterators and the cursor of the crate unicode-segmentation 1.12, over this library.
//!
//! A program that uses that crate needs one line changed: `use unicode_segmentation::UnicodeSegmentation` becomes
//! `use yengatomu::unicode_segmentation::UnicodeSegmentation`. Methods and iterators have the same names.
//!
//! ```
//! use yengatomu::unicode_segmentation::UnicodeSegmentation;
//!
//! let text = "The quick (\"brown\") fox can't jump 32.3 feet, right?";
//! let words: Vec<&str> = text.unicode_words().collect();
//! assert_eq!(words, ["The", "quick", "brown", "fox", "can't", "jump", "32.3", "feet", "right"]);
//! assert_eq!("ae\u{301}🇻🇳".graphemes(true).rev().collect::<Vec<_>>(), ["🇻🇳", "e\u{301}", "a"]);
//! ```
//!
//! What differs:
//!
//! - The Unicode data: see [`UNICODE_VERSION`]. That crate's 1.12 has Unicode 16.0.
//! - `graphemes(false)`, `grapheme_indices(false)` and a [`GraphemeCursor`] made with `false` give extended clusters, as with `true`. There are no
//!   data of legacy clusters, which are split further: before a spacing mark, behind a prepended sign, and in a conjunct.
//! - Iterators over sentences go backwards too.
//! - A [`GraphemeCursor`] may ask for another chunk where that crate's doesn't, or not ask where that does. Where that panics, since the chunk doesn't
//!   have the cursor's place, it returns [`GraphemeIncomplete::InvalidOffset`], or asks for the chunk behind.
//! - From the back, an iterator segments a whole line of the text at a time, up to its line feed, and keeps its boundaries. So the first
//!   `next_back` takes as long as the last line is.
//!
//! One segmenter of a kind is made when it is first needed, and all threads share it. The methods return no errors, so they panic where that
//! takes more memory than there is.
use std::iter::{Filter, FusedIterator};
use std::sync::OnceLock;

use crate::feed::{Ends, Pieces};
use crate::raw::Slot;
use crate::{kind, LineOptions};

mod cursor;

pub use cursor::{GraphemeCursor, GraphemeIncomplete};

/// The version of the Unicode data, and of the rules: [`Segmenter::unicode_version`](crate::Segmenter::unicode_version) of clusters, words and
/// sentences.
pub const UNICODE_VERSION: (u64, u64, u64) = (18, 0, 0);

#[derive(Clone, Copy)]
enum Kind {
    Grapheme,
    Word,
    Sentence,
}

/// The segmenters, by their kinds.
static SLOTS: [OnceLock<Slot>; 3] = [const { OnceLock::new() }; 3];

impl Kind {
    fn open(self) -> Slot {
        let number = match self {
            Self::Grapheme => kind::number::<kind::Grapheme>(),
            Self::Word => kind::number::<kind::Word>(),
            Self::Sentence => kind::number::<kind::Sentence>(),
        };
        Slot::open(number, LineOptions::default()).unwrap_or_else(|error| panic!("yengatomu: {error}"))
    }

    fn slot(self) -> &'static Slot {
        SLOTS[self as usize].get_or_init(|| self.open())
    }
}

macro_rules! iterators {
    ($(#[$doc:meta])* $name:ident; $(#[$indices_doc:meta])* $indices:ident) => {
        $(#[$doc])*
        #[derive(Clone, Debug)]
        pub struct $name<'a> {
            pieces: Pieces<'a, Ends<'static, 'a, str>>,
        }

        $(#[$indices_doc])*
        #[derive(Clone, Debug)]
        pub struct $indices<'a> {
            pieces: Pieces<'a, Ends<'static, 'a, str>>,
        }

        iterators!(one $name<'a>, &'a str, |(_, segment, ()): (usize, &'a str, ())| segment);
        iterators!(one $indices<'a>, (usize, &'a str), |(start, segment, ()): (usize, &'a str, ())| (start, segment));
    };
    (one $name:ident<$a:lifetime>, $item:ty, $make:expr) => {
        impl<$a> $name<$a> {
            fn new(kind: Kind, text: &$a str) -> Self {
                Self { pieces: Pieces::new(Ends { slot: kind.slot(), text }) }
            }

            /// What is left of the text.
            pub fn as_str(&self) -> &$a str {
                self.pieces.rest()
            }
        }

        impl<$a> Iterator for $name<$a> {
            type Item = $item;

            #[inline]
            fn next(&mut self) -> Option<Self::Item> {
                self.pieces.next().map($make)
            }

            #[inline]
            fn size_hint(&self) -> (usize, Option<usize>) {
                self.pieces.size_hint()
            }
        }

        impl<$a> DoubleEndedIterator for $name<$a> {
            #[inline]
            fn next_back(&mut self) -> Option<Self::Item> {
                self.pieces.next_back().map($make)
            }
        }

        impl FusedIterator for $name<'_> {}
    };
}

iterators! {
    /// Grapheme clusters, from [`graphemes`](UnicodeSegmentation::graphemes).
    Graphemes;
    /// Grapheme clusters with their places, from [`grapheme_indices`](UnicodeSegmentation::grapheme_indices).
    GraphemeIndices
}

iterators! {
    /// Words and what is between them, from [`split_word_bounds`](UnicodeSegmentation::split_word_bounds).
    UWordBounds;
    /// Words and what is between them with their places, from [`split_word_bound_indices`](UnicodeSegmentation::split_word_bound_indices).
    UWordBoundIndices
}

iterators! {
    /// All sentences, from [`split_sentence_bounds`](UnicodeSegmentation::split_sentence_bounds).
    USentenceBounds;
    /// All sentences with their places, from [`split_sentence_bound_indices`](UnicodeSegmentation::split_sentence_bound_indices).
    USentenceBoundIndices
}

macro_rules! filtered {
    ($(#[$doc:meta])* $name:ident: $inner:ident of $item:ty, if $is_one:expr) => {
        $(#[$doc])*
        #[derive(Clone, Debug)]
        pub struct $name<'a> {
            inner: Filter<$inner<'a>, fn(&$item) -> bool>,
        }

        impl<'a> $name<'a> {
            fn new(kind: Kind, text: &'a str) -> Self {
                Self { inner: $inner::new(kind, text).filter($is_one) }
            }
        }

        impl<'a> Iterator for $name<'a> {
            type Item = $item;

            #[inline]
            fn next(&mut self) -> Option<Self::Item> {
                self.inner.next()
            }

            #[inline]
            fn size_hint(&self) -> (usize, Option<usize>) {
                self.inner.size_hint()
            }
        }

        impl DoubleEndedIterator for $name<'_> {
            #[inline]
            fn next_back(&mut self) -> Option<Self::Item> {
                self.inner.next_back()
            }
        }

        impl FusedIterator for $name<'_> {}
    };
}

fn has_alphanumeric(text: &str) -> bool {
    text.chars().any(is_alphanumeric)
}

/// As [`char::is_alphanumeric`], whose tables are slow past ASCII. What most texts are written in is told first, by ranges without gaps.
fn is_alphanumeric(c: char) -> bool {
    match c {
        '0'..='9' | 'A'..='Z' | 'a'..='z' => true,
        '\0'..='\x7f' => false,
        // Latin, Greek, Cyrillic
        '\u{d8}'..='\u{f6}' | '\u{f8}'..='\u{2c1}' | '\u{3a3}'..='\u{3f5}' | '\u{400}'..='\u{481}' => true,
        // Hebrew, Arabic, Devanagari, Thai
        '\u{5d0}'..='\u{5ea}' | '\u{620}'..='\u{657}' | '\u{904}'..='\u{939}' | '\u{e01}'..='\u{e3a}' => true,
        // Hiragana, Katakana, ideographs, Hangul
        '\u{3041}'..='\u{3096}' | '\u{30a1}'..='\u{30fa}' | '\u{4e00}'..='\u{9fff}' | '\u{ac00}'..='\u{d7a3}' => true,
        _ => c.is_alphanumeric(),
    }
}

filtered! {
    /// Words, from [`unicode_words`](UnicodeSegmentation::unicode_words).
    UnicodeWords: UWordBounds of &'a str, if |word| has_alphanumeric(word)
}

filtered! {
    /// Words with their places, from [`unicode_word_indices`](UnicodeSegmentation::unicode_word_indices).
    UnicodeWordIndices: UWordBoundIndices of (usize, &'a str), if |(_, word)| has_alphanumeric(word)
}

filtered! {
    /// Sentences, from [`unicode_sentences`](UnicodeSegmentation::unicode_sentences).
    UnicodeSentences: USentenceBounds of &'a str, if |sentence| has_alphanumeric(sentence)
}

/// Methods that segment a `str`, as the crate unicode-segmentation has them.
pub trait UnicodeSegmentation {
    /// The grapheme clusters: extended ones, whatever `is_extended` says.
    ///
    /// ```
    /// # use yengatomu::unicode_segmentation::UnicodeSegmentation;
    /// let clusters: Vec<_> = "a\u{310}e\u{301}o\u{308}\u{332}\r\n".graphemes(true).collect();
    /// assert_eq!(clusters, ["a\u{310}", "e\u{301}", "o\u{308}\u{332}", "\r\n"]);
    /// ```
    fn graphemes(&self, is_extended: bool) -> Graphemes<'_>;

    /// The grapheme clusters, each with the place where it begins: extended ones, whatever `is_extended` says.
    ///
    /// ```
    /// # use yengatomu::unicode_segmentation::UnicodeSegmentation;
    /// let clusters: Vec<_> = "ae\u{301}b".grapheme_indices(true).collect();
    /// assert_eq!(clusters, [(0, "a"), (1, "e\u{301}"), (4, "b")]);
    /// ```
    fn grapheme_indices(&self, is_extended: bool) -> GraphemeIndices<'_>;

    /// The words: those segments between two word boundaries that contain an alphanumeric character, by [`char::is_alphanumeric`].
    ///
    /// That is the test of the crate unicode-segmentation. [`WordSegmenter::words`](crate::WordSegmenter::words) goes by the types of words, and
    /// differs where a number such as `²` or `½` stands alone.
    ///
    /// ```
    /// # use yengatomu::unicode_segmentation::UnicodeSegmentation;
    /// assert_eq!("I can't pay 3.14!".unicode_words().collect::<Vec<_>>(), ["I", "can't", "pay", "3.14"]);
    /// ```
    fn unicode_words(&self) -> UnicodeWords<'_>;

    /// The words, each with the place where it begins. See [`unicode_words`](Self::unicode_words).
    ///
    /// ```
    /// # use yengatomu::unicode_segmentation::UnicodeSegmentation;
    /// assert_eq!("can't pay!".unicode_word_indices().collect::<Vec<_>>(), [(0, "can't"), (6, "pay")]);
    /// ```
    fn unicode_word_indices(&self) -> UnicodeWordIndices<'_>;

    /// The segments between word boundaries. Together they are the text.
    ///
    /// ```
    /// # use yengatomu::unicode_segmentation::UnicodeSegmentation;
    /// assert_eq!("can't  pay!".split_word_bounds().collect::<Vec<_>>(), ["can't", "  ", "pay", "!"]);
    /// ```
    fn split_word_bounds(&self) -> UWordBounds<'_>;

    /// The segments between word boundaries, each with the place where it begins.
    ///
    /// ```
    /// # use yengatomu::unicode_segmentation::UnicodeSegmentation;
    /// assert_eq!("can't pay".split_word_bound_indices().collect::<Vec<_>>(), [(0, "can't"), (5, " "), (6, "pay")]);
    /// ```
    fn split_word_bound_indices(&self) -> UWordBoundIndices<'_>;

    /// Those segments between sentence boundaries that contain an alphanumeric character, by [`char::is_alphanumeric`].
    ///
    /// ```
    /// # use yengatomu::unicode_segmentation::UnicodeSegmentation;
    /// let sentences: Vec<_> = "Mr. Fox jumped. [...] The dog was too lazy.".unicode_sentences().collect();
    /// assert_eq!(sentences, ["Mr. ", "Fox jumped. ", "The dog was too lazy."]);
    /// ```
    fn unicode_sentences(&self) -> UnicodeSentences<'_>;

    /// The segments between sentence boundaries. Together they are the text.
    ///
    /// ```
    /// # use yengatomu::unicode_segmentation::UnicodeSegmentation;
    /// let sentences: Vec<_> = "Mr. Fox jumped. [...] The dog was too lazy.".split_sentence_bounds().collect();
    /// assert_eq!(sentences, ["Mr. ", "Fox jumped. ", "[...] ", "The dog was too lazy."]);
    /// ```
    fn split_sentence_bounds(&self) -> USentenceBounds<'_>;

    /// The segments between sentence boundaries, each with the place where it begins.
    ///
    /// ```
    /// # use yengatomu::unicode_segmentation::UnicodeSegmentation;
    /// assert_eq!("Why? Because.".split_sentence_bound_indices().collect::<Vec<_>>(), [(0, "Why? "), (5, "Because.")]);
    /// ```
    fn split_sentence_bound_indices(&self) -> USentenceBoundIndices<'_>;
}

impl UnicodeSegmentation for str {
    #[inline]
    fn graphemes(&self, _is_extended: bool) -> Graphemes<'_> {
        Graphemes::new(Kind::Grapheme, self)
    }

    #[inline]
    fn grapheme_indices(&self, _is_extended: bool) -> GraphemeIndices<'_> {
        GraphemeIndices::new(Kind::Grapheme, self)
    }

    #[inline]
    fn unicode_words(&self) -> UnicodeWords<'_> {
        UnicodeWords::new(Kind::Word, self)
    }

    #[inline]
    fn unicode_word_indices(&self) -> UnicodeWordIndices<'_> {
        UnicodeWordIndices::new(Kind::Word, self)
    }

    #[inline]
    fn split_word_bounds(&self) -> UWordBounds<'_> {
        UWordBounds::new(Kind::Word, self)
    }

    #[inline]
    fn split_word_bound_indices(&self) -> UWordBoundIndices<'_> {
        UWordBoundIndices::new(Kind::Word, self)
    }

    #[inline]
    fn unicode_sentences(&self) -> UnicodeSentences<'_> {
        UnicodeSentences::new(Kind::Sentence, self)
    }

    #[inline]
    fn split_sentence_bounds(&self) -> USentenceBounds<'_> {
        USentenceBounds::new(Kind::Sentence, self)
    }

    #[inline]
    fn split_sentence_bound_indices(&self) -> USentenceBoundIndices<'_> {
        USentenceBoundIndices::new(Kind::Sentence, self)
    }
}

#[cfg(test)]
mod tests {
    use super::is_alphanumeric;

    #[test]
    fn alphanumeric_characters_are_those_of_std() {
        for c in '\0'..=char::MAX {
            assert_eq!(is_alphanumeric(c), c.is_alphanumeric(), "{c:?}");
        }
    }
}
