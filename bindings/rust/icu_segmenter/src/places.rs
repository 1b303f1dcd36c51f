//! The boundaries of a text, some at a time.
use std::fmt;

use yengatomu::Buffer;

use crate::encoding::Encoding;
use crate::held::Finder;

/// The boundaries of a text, 0 first, with a [`Buffer`] of those to come.
pub(crate) struct Places<'data, 's, F: Finder, Y: Encoding> {
    finder: &'data F,
    text: &'s [Y::Unit],
    is_begun: bool,
    /// The mark of the boundary that was given last; 0 before the first, at it, and behind the last.
    mark: u8,
    buffer: Buffer<u8>,
}

impl<'data, 's, F: Finder, Y: Encoding> Places<'data, 's, F, Y> {
    pub(crate) fn new(finder: &'data F, text: &'s [Y::Unit]) -> Self {
        Self { finder, text, is_begun: false, mark: 0, buffer: Buffer::new(0) }
    }

    /// The mark of the boundary that was given last.
    #[inline]
    pub(crate) fn mark(&self) -> u8 {
        self.mark
    }

    #[inline]
    pub(crate) fn next(&mut self) -> Option<usize> {
        if !self.is_begun {
            self.is_begun = true;
            return Some(0);
        }
        if self.buffer.is_empty() {
            self.fill();
        }
        let found = self.buffer.take();
        self.mark = found.map_or(0, |(_, mark)| mark);
        found.map(|(place, _)| place)
    }

    #[inline(never)]
    fn fill(&mut self) {
        let (finder, text) = (self.finder, self.text);
        self.buffer.fill(text, finder.has_words(), |from, places, marks| finder.fill::<Y>(text, from, places, marks));
    }

    pub(crate) fn size_hint(&self) -> (usize, Option<usize>) {
        let first = usize::from(!self.is_begun);
        let (low, high) = self.buffer.size_hint(self.text.len());
        (first + low, high.checked_add(first))
    }
}

// A derived one would ask that F and Y are Clone.
impl<F: Finder, Y: Encoding> Clone for Places<'_, '_, F, Y> {
    fn clone(&self) -> Self {
        Self { buffer: self.buffer.clone(), ..*self }
    }
}

impl<F: Finder, Y: Encoding> fmt::Debug for Places<'_, '_, F, Y> {
    fn fmt(&self, f: &mut fmt::Formatter<'_>) -> fmt::Result {
        f.debug_struct("Places").field("is_begun", &self.is_begun).field("buffer", &self.buffer).finish_non_exhaustive()
    }
}
