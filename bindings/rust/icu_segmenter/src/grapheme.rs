//! Grapheme clusters.
use yengatomu::GraphemeSegmenter;

use crate::held::{segmenters, Borrowed, Owned};
use crate::iterators::GraphemeClusterBreakIterator;
use crate::provider::{BufferProvider, DataError, DataProvider};

/// Segments texts into extended grapheme clusters of UAX #29: what a reader takes for one character.
///
/// ```
/// use icu_segmenter::GraphemeClusterSegmenter;
///
/// let clusters = GraphemeClusterSegmenter::new();
/// assert!(clusters.segment_str("ae\u{301}🇻🇳").eq([0, 1, 4, 12]));
/// assert!(clusters.segment_latin1(b"a\r\n\xe9").eq([0, 1, 3, 4]));
/// ```
pub struct GraphemeClusterSegmenter(Owned<GraphemeSegmenter>);

/// A [`GraphemeClusterSegmenter`] that is borrowed.
#[derive(Clone, Copy)]
pub struct GraphemeClusterSegmenterBorrowed<'data>(Borrowed<'data, GraphemeSegmenter>);

segmenters!(GraphemeClusterSegmenter, GraphemeClusterSegmenterBorrowed, GraphemeClusterBreakIterator);

impl GraphemeClusterSegmenter {
    /// The program's segmenter of clusters, which the first text makes that is segmented with it.
    #[allow(clippy::new_ret_no_self)]
    #[must_use]
    pub const fn new() -> GraphemeClusterSegmenterBorrowed<'static> {
        GraphemeClusterSegmenterBorrowed(Borrowed::shared(()))
    }

    /// The same as [`new`](Self::new): there is one engine.
    #[must_use]
    pub const fn new_neo() -> GraphemeClusterSegmenterBorrowed<'static> {
        Self::new()
    }

    /// The same as [`new`](Self::new), made now: [`Baked`](crate::provider::Baked) is the only provider.
    ///
    /// # Errors
    ///
    /// [`DataError`] where there is no memory.
    pub fn try_new_unstable<D: DataProvider + ?Sized>(_: &D) -> Result<Self, DataError> {
        Owned::try_shared(()).map(Self)
    }

    /// The same as [`try_new_unstable`](Self::try_new_unstable).
    ///
    /// # Errors
    ///
    /// [`DataError`] where there is no memory.
    pub fn try_new_neo_unstable<D: DataProvider + ?Sized>(provider: &D) -> Result<Self, DataError> {
        Self::try_new_unstable(provider)
    }

    /// Can't be called: nothing is such a provider.
    ///
    /// # Errors
    ///
    /// It never returns.
    pub fn try_new_with_buffer_provider<D: BufferProvider + ?Sized>(provider: &D) -> Result<Self, DataError> {
        provider.refused()
    }
}
