//! How a text is written, and the calls that find the boundaries of such a text.
use yengatomu::kind::{Kind, Marked};
use yengatomu::{Segmenter, Unit};

/// How a text is written. The parent of [`RuleBreakType`](crate::scaffold::RuleBreakType): nobody else can implement it.
///
/// By default its units are those of UTF-8 or UTF-16.
pub trait Encoding {
    /// What places count.
    type Unit: Unit + 'static;

    /// Writes the first boundaries above `from`, as many as there is room for, and returns how many.
    #[inline]
    fn fill<K: Kind>(segmenter: &Segmenter<K>, text: &[Self::Unit], from: usize, places: &mut [usize]) -> usize {
        segmenter.fill_boundaries(text, from, places)
    }

    /// Writes them with a mark for each, as many as both buffers have room for.
    #[inline]
    fn fill_marked<K: Marked>(segmenter: &Segmenter<K>, text: &[Self::Unit], from: usize, places: &mut [usize], marks: &mut [u8]) -> usize {
        segmenter.fill_marked_boundaries(text, from, places, marks)
    }
}
