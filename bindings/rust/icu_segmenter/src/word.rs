//! Words.
use yengatomu::WordSegmenter as Words;

use crate::dictionaries::takes_dictionaries;
use crate::held::{segmenters, Borrowed, Owned};
use crate::iterators::WordBreakIterator;
use crate::options::{WordBreakInvariantOptions, WordBreakOptions};
use crate::provider::{with_providers, DataError};

/// Segments texts into words of UAX #29, and what stands between them.
///
/// ```
/// use icu_segmenter::WordSegmenter;
///
/// let words = WordSegmenter::new_auto(Default::default());
/// assert!(words.segment_str("can't pay").eq([0, 5, 6, 9]));
/// ```
///
/// No constructor brings dictionaries: without one, each letter of Thai, Lao, Khmer and Burmese and each ideograph is a word.
/// [`load_dictionaries`](Self::load_dictionaries) and [`load_words`](Self::load_words) give an owned segmenter some.
pub struct WordSegmenter(Owned<Words>);

/// A [`WordSegmenter`] that is borrowed.
#[derive(Clone, Copy)]
pub struct WordSegmenterBorrowed<'data>(Borrowed<'data, Words>);

segmenters!(WordSegmenter, WordSegmenterBorrowed, WordBreakIterator);
takes_dictionaries!(WordSegmenter, "WordSegmenter::try_new_dictionary(Default::default()).unwrap()");

impl WordSegmenter {
    /// The program's segmenter of words, which the first text makes that is segmented with it. It has no dictionary.
    #[must_use]
    pub const fn new_auto(options: WordBreakInvariantOptions) -> WordSegmenterBorrowed<'static> {
        Self::new_for_non_complex_scripts(options)
    }

    /// The same, made now, and owned: it may take dictionaries. The language of the options changes nothing.
    ///
    /// # Errors
    ///
    /// [`DataError`] where there is no memory.
    pub fn try_new_auto(options: WordBreakOptions) -> Result<Self, DataError> {
        Self::try_shared(options)
    }

    /// The same as [`new_auto`](Self::new_auto).
    #[deprecated(note = "there are no LSTM models here: use try_new_auto, and load_dictionaries for Thai, Lao, Khmer and Burmese")]
    #[must_use]
    pub const fn new_lstm(options: WordBreakInvariantOptions) -> WordSegmenterBorrowed<'static> {
        Self::new_for_non_complex_scripts(options)
    }

    /// The same as [`try_new_auto`](Self::try_new_auto).
    ///
    /// # Errors
    ///
    /// [`DataError`] where there is no memory.
    #[deprecated(note = "there are no LSTM models here: use try_new_auto, and load_dictionaries for Thai, Lao, Khmer and Burmese")]
    pub fn try_new_lstm(options: WordBreakOptions) -> Result<Self, DataError> {
        Self::try_shared(options)
    }

    /// The same as [`new_auto`](Self::new_auto).
    #[deprecated(note = "no dictionaries are compiled in: use try_new_dictionary, and then load_dictionaries")]
    #[must_use]
    pub const fn new_dictionary(options: WordBreakInvariantOptions) -> WordSegmenterBorrowed<'static> {
        Self::new_for_non_complex_scripts(options)
    }

    /// The same as [`try_new_auto`](Self::try_new_auto), for a segmenter that then takes dictionaries.
    ///
    /// # Errors
    ///
    /// [`DataError`] where there is no memory.
    pub fn try_new_dictionary(options: WordBreakOptions) -> Result<Self, DataError> {
        Self::try_shared(options)
    }

    /// The same as [`new_auto`](Self::new_auto).
    #[must_use]
    pub const fn new_for_non_complex_scripts(_options: WordBreakInvariantOptions) -> WordSegmenterBorrowed<'static> {
        WordSegmenterBorrowed(Borrowed::shared(()))
    }

    /// The same as [`try_new_auto`](Self::try_new_auto).
    ///
    /// # Errors
    ///
    /// [`DataError`] where there is no memory.
    pub fn try_new_for_non_complex_scripts(options: WordBreakOptions) -> Result<Self, DataError> {
        Self::try_shared(options)
    }

    /// The same as [`new_auto`](Self::new_auto): there is one engine.
    #[must_use]
    pub const fn new_neo_for_non_complex_scripts(options: WordBreakInvariantOptions) -> WordSegmenterBorrowed<'static> {
        Self::new_for_non_complex_scripts(options)
    }

    fn try_shared(_: WordBreakOptions) -> Result<Self, DataError> {
        Owned::try_shared(()).map(Self)
    }
}

impl WordSegmenterBorrowed<'static> {
    /// Changes nothing.
    #[deprecated(note = "there are no LSTM models here: use WordSegmenter::load_dictionaries")]
    pub fn load_lstm(&mut self) {}

    /// Changes nothing.
    #[deprecated(note = "no dictionaries are compiled in: use WordSegmenter::load_dictionaries")]
    pub fn load_dictionary(&mut self) {}

    /// Changes nothing.
    #[deprecated(note = "no dictionaries are compiled in: use WordSegmenter::load_dictionaries")]
    pub fn load_auto(&mut self) {}
}

with_providers! { WordSegmenter, WordBreakOptions:
    try_new_auto_unstable, try_new_lstm_unstable, try_new_dictionary_unstable, try_new_for_non_complex_scripts_unstable,
    try_new_neo_for_non_complex_scripts_unstable;
    try_new_auto_with_buffer_provider, try_new_lstm_with_buffer_provider, try_new_dictionary_with_buffer_provider,
    try_new_for_non_complex_scripts_with_buffer_provider;
}
