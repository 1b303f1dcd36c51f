//! Sentences.
use yengatomu::SentenceSegmenter as Sentences;

use crate::held::{segmenters, Borrowed, Owned};
use crate::iterators::SentenceBreakIterator;
use crate::options::{SentenceBreakInvariantOptions, SentenceBreakOptions};
use crate::provider::{with_providers, DataError};

/// Segments texts into sentences of UAX #29.
///
/// ```
/// use icu_segmenter::SentenceSegmenter;
///
/// let sentences = SentenceSegmenter::new(Default::default());
/// assert!(sentences.segment_str("Is it? It is 3.14. Yes!").eq([0, 7, 19, 23]));
/// ```
pub struct SentenceSegmenter(Owned<Sentences>);

/// A [`SentenceSegmenter`] that is borrowed.
#[derive(Clone, Copy)]
pub struct SentenceSegmenterBorrowed<'data>(Borrowed<'data, Sentences>);

segmenters!(SentenceSegmenter, SentenceSegmenterBorrowed, SentenceBreakIterator);

impl SentenceSegmenter {
    /// The program's segmenter of sentences, which the first text makes that is segmented with it.
    #[allow(clippy::new_ret_no_self)]
    #[must_use]
    pub const fn new(_options: SentenceBreakInvariantOptions) -> SentenceSegmenterBorrowed<'static> {
        SentenceSegmenterBorrowed(Borrowed::shared(()))
    }

    /// The same, made now, and owned. The language of the options changes nothing.
    ///
    /// # Errors
    ///
    /// [`DataError`] where there is no memory.
    pub fn try_new(options: SentenceBreakOptions) -> Result<Self, DataError> {
        Self::try_shared(options)
    }

    /// The same as [`new`](Self::new): there is one engine.
    #[must_use]
    pub const fn new_neo(options: SentenceBreakInvariantOptions) -> SentenceSegmenterBorrowed<'static> {
        Self::new(options)
    }

    /// The same as [`try_new`](Self::try_new): there is one engine.
    ///
    /// # Errors
    ///
    /// [`DataError`] where there is no memory.
    pub fn try_new_neo(options: SentenceBreakOptions) -> Result<Self, DataError> {
        Self::try_shared(options)
    }

    fn try_shared(_: SentenceBreakOptions) -> Result<Self, DataError> {
        Owned::try_shared(()).map(Self)
    }
}

with_providers! { SentenceSegmenter, SentenceBreakOptions:
    try_new_unstable, try_new_neo_unstable;
    try_new_with_buffer_provider;
}
