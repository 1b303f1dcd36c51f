//! Lines.
use yengatomu::LineSegmenter as Lines;

use crate::dictionaries::takes_dictionaries;
use crate::held::{segmenters, Borrowed, Owned};
use crate::iterators::LineBreakIterator;
use crate::options::LineBreakOptions;
use crate::provider::{with_providers, DataError};

/// Finds where lines may end in texts, by UAX #14 and the options of CSS Text 3.
///
/// ```
/// use icu_segmenter::LineSegmenter;
///
/// let lines = LineSegmenter::new_auto(Default::default());
/// let mut places = lines.segment_str("Hello World.\nXin");
/// let mut found = Vec::new();
/// while let Some(place) = places.next() {
///     found.push((place, places.is_mandatory()));
/// }
/// assert_eq!(found, [(0, false), (6, false), (13, true), (16, true)]);
/// ```
///
/// No constructor brings dictionaries: without one, a line ends nowhere between letters of Thai, Lao, Khmer and Burmese.
/// [`load_dictionaries`](Self::load_dictionaries) and [`load_words`](Self::load_words) give an owned segmenter some.
pub struct LineSegmenter(Owned<Lines>);

/// A [`LineSegmenter`] that is borrowed.
#[derive(Clone, Copy)]
pub struct LineSegmenterBorrowed<'data>(Borrowed<'data, Lines>);

segmenters!(LineSegmenter, LineSegmenterBorrowed, LineBreakIterator);
takes_dictionaries!(LineSegmenter, "LineSegmenter::new_auto(Default::default()).static_to_owned()");

impl LineSegmenter {
    /// The program's segmenter of lines with these options, which the first text makes that is segmented with it. It has no dictionary.
    #[must_use]
    pub const fn new_auto(options: LineBreakOptions) -> LineSegmenterBorrowed<'static> {
        Self::new_for_non_complex_scripts(options)
    }

    /// The same as [`new_auto`](Self::new_auto).
    #[deprecated(
        note = "there are no LSTM models here: use new_auto(..).static_to_owned(), and load_dictionaries for Thai, Lao, Khmer and Burmese"
    )]
    #[must_use]
    pub const fn new_lstm(options: LineBreakOptions) -> LineSegmenterBorrowed<'static> {
        Self::new_for_non_complex_scripts(options)
    }

    /// The same as [`new_auto`](Self::new_auto).
    #[deprecated(note = "no dictionaries are compiled in: use new_auto(..).static_to_owned(), and then load_dictionaries")]
    #[must_use]
    pub const fn new_dictionary(options: LineBreakOptions) -> LineSegmenterBorrowed<'static> {
        Self::new_for_non_complex_scripts(options)
    }

    /// The same as [`new_auto`](Self::new_auto).
    #[must_use]
    pub const fn new_for_non_complex_scripts(options: LineBreakOptions) -> LineSegmenterBorrowed<'static> {
        LineSegmenterBorrowed(Borrowed::shared(options.resolved()))
    }

    /// The same as [`new_auto`](Self::new_auto): there is one engine.
    #[must_use]
    pub const fn new_17_for_non_complex_scripts(options: LineBreakOptions) -> LineSegmenterBorrowed<'static> {
        Self::new_for_non_complex_scripts(options)
    }

    /// The same as [`new_auto`](Self::new_auto): there is one engine.
    #[must_use]
    pub const fn new_neo_for_non_complex_scripts(options: LineBreakOptions) -> LineSegmenterBorrowed<'static> {
        Self::new_for_non_complex_scripts(options)
    }

    fn try_shared(options: LineBreakOptions) -> Result<Self, DataError> {
        Owned::try_shared(options.resolved()).map(Self)
    }
}

impl LineSegmenterBorrowed<'static> {
    /// Changes nothing.
    #[deprecated(note = "there are no LSTM models here: use LineSegmenter::load_dictionaries")]
    pub fn load_lstm(&mut self) {}

    /// Changes nothing.
    #[deprecated(note = "no dictionaries are compiled in: use LineSegmenter::load_dictionaries")]
    pub fn load_dictionary(&mut self) {}
}

with_providers! { LineSegmenter, LineBreakOptions:
    try_new_auto_unstable, try_new_lstm_unstable, try_new_dictionary_unstable, try_new_for_non_complex_scripts_unstable,
    try_new_17_for_non_complex_script_unstable, try_new_neo_for_non_complex_scripts_unstable;
    try_new_auto_with_buffer_provider, try_new_lstm_with_buffer_provider, try_new_dictionary_with_buffer_provider,
    try_new_for_non_complex_scripts_with_buffer_provider;
}
