//! Stands in the place of the crate `icu_segmenter` 2.4, with its public names, over yengatomu: text boundaries, proved.
//!
//! ```
//! use icu_segmenter::options::{LineBreakOptions, WordBreakInvariantOptions};
//! use icu_segmenter::{LineSegmenter, WordSegmenter};
//!
//! let words = WordSegmenter::new_auto(WordBreakInvariantOptions::default());
//! assert!(words.segment_str("can't pay").eq([0, 5, 6, 9]));
//!
//! let lines = LineSegmenter::new_auto(LineBreakOptions::default());
//! assert!(lines.segment_str("The quick fox").eq([0, 4, 10, 13]));
//! ```
//!
//! A segmenter gives the boundaries of a text as places: bytes of UTF-8 and Latin-1, 16-bit units of UTF-16. The first is 0 and the last the
//! text's length, and each is above the one before. UTF-8 and UTF-16 may be ill-formed, but in a `str`.
//!
//! # Segmenters that are shared
//!
//! The library makes a segmenter from Unicode's data, which takes about a millisecond and memory. `new` of each type takes none: its segmenter is one
//! that the whole program shares, made by the first text that is segmented with it. So all constructors are `const`, borrowed segmenters are `Copy`
//! and `'static`, and any number of threads may segment by one at once. Where there is no memory to make it, that first call panics, and a later one
//! tries again. Constructors that return a `Result` make it themselves, and return [`provider::DataError`] in that case; then no call panics.
//!
//! # Dictionaries
//!
//! None are compiled in. A segmenter of words or lines takes those of a folder that `tools/dictionaries` of the repository wrote, or any list of
//! words, if it is asked to: `load_dictionaries` and `load_words` of [`WordSegmenter`] and [`LineSegmenter`].
//!
//! The README of the crate tells what differs from the original, and how each of its names is replaced that isn't here.
#![deny(missing_docs)]
#![forbid(unsafe_code)]

pub mod dictionaries;
mod encoding;
mod grapheme;
mod held;
pub mod iterators;
mod line;
mod locale;
pub mod options;
mod places;
pub mod provider;
pub mod scaffold;
mod sentence;
mod word;

pub use grapheme::{GraphemeClusterSegmenter, GraphemeClusterSegmenterBorrowed};
pub use line::{LineSegmenter, LineSegmenterBorrowed};
pub use locale::{LanguageIdentifier, ParseError};
pub use sentence::{SentenceSegmenter, SentenceSegmenterBorrowed};
pub use word::{WordSegmenter, WordSegmenterBorrowed};

/// The examples of the README.
#[cfg(doctest)]
#[doc = include_str!("../README.md")]
struct Readme;
