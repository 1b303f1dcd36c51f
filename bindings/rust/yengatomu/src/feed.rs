//! What the library finds, some places at a time.
use std::fmt;

use crate::buffer::{Buffer, LINE_FEED};
use crate::raw::{Calls, Slot};
use crate::text::Slice;

/// A question that the library answers with places in a text, each with something more.
pub(crate) trait Ask<'t>: Copy {
    type Slice: 't + ?Sized + Slice;
    type More: Copy + Default;

    fn text(&self) -> &'t Self::Slice;

    /// The same question of the text up to a place.
    fn up_to(self, end: usize) -> Self;

    /// Whether the answer goes on only from behind a line feed.
    fn has_words(&self) -> bool;

    /// Writes the first places above `from`, as many as both buffers have room for, and returns how many. The last of all is the end.
    fn ask(&self, from: usize, places: &mut [usize], more: &mut [Self::More]) -> usize;
}

/// All places above the one that it begins at, with a [`Buffer`] of those to come.
#[derive(Clone)]
pub(crate) struct Feed<'t, A: Ask<'t>> {
    ask: A,
    buffer: Buffer<A::More>,
}

impl<'t, A: Ask<'t>> Feed<'t, A> {
    pub(crate) fn new(ask: A) -> Self {
        Self { ask, buffer: Buffer::new(0) }
    }

    fn text(&self) -> &'t A::Slice {
        self.ask.text()
    }

    #[inline]
    pub(crate) fn next(&mut self) -> Option<(usize, A::More)> {
        if self.buffer.is_empty() {
            self.fill();
        }
        self.buffer.take()
    }

    #[inline(never)]
    fn fill(&mut self) {
        let ask = self.ask;
        self.buffer.fill(ask.text().units(), ask.has_words(), |from, places, more| ask.ask(from, places, more));
    }

    pub(crate) fn size_hint(&self) -> (usize, Option<usize>) {
        let (low, high) = self.buffer.size_hint(self.text().units().len());
        (low, Some(high))
    }
}

impl<'t, A: Ask<'t>> fmt::Debug for Feed<'t, A> {
    fn fmt(&self, f: &mut fmt::Formatter<'_>) -> fmt::Result {
        f.debug_tuple("Feed").field(&self.buffer).finish()
    }
}

/// A segment: where it begins, its text, and what more the library says of its end.
pub(crate) type Piece<'t, A> = (usize, &'t <A as Ask<'t>>::Slice, <A as Ask<'t>>::More);

/// The segments of a text, from both ends.
///
/// From the back it asks for a whole line at a time, and serves it from the last place to the first. A text that is split behind a line feed has the
/// boundaries of its parts, so a line has the boundaries that it has in the text.
pub(crate) struct Pieces<'t, A: Ask<'t>> {
    ahead: Feed<'t, A>,
    /// What is left of the text, and where it begins.
    rest: &'t A::Slice,
    start: usize,
    /// The boundaries of the line from `line` on, up to the end of what is left; empty where they aren't known.
    behind: Vec<(usize, A::More)>,
    line: usize,
}

impl<'t, A: Ask<'t>> Pieces<'t, A> {
    pub(crate) fn new(ask: A) -> Self {
        Self { ahead: Feed::new(ask), rest: ask.text(), start: 0, behind: Vec::new(), line: 0 }
    }

    /// What is left of the text.
    #[inline]
    pub(crate) fn rest(&self) -> &'t A::Slice {
        self.rest
    }

    fn left(&self) -> usize {
        self.rest.units().len()
    }

    #[inline]
    pub(crate) fn next(&mut self) -> Option<Piece<'t, A>> {
        if self.left() == 0 {
            return None;
        }
        let (end, more) = self.ahead.next()?;
        let start = std::mem::replace(&mut self.start, end);
        let (segment, rest) = self.rest.split(end - start);
        self.rest = rest;
        Some((start, segment, more))
    }

    pub(crate) fn next_back(&mut self) -> Option<Piece<'t, A>> {
        if self.left() == 0 {
            return None;
        }
        if self.behind.is_empty() {
            self.look_back();
        }
        let (_, more) = self.behind.pop()?;
        let start = self.behind.last().map_or(self.line, |&(place, _)| place);
        let (rest, segment) = self.rest.split(start - self.start);
        self.rest = rest;
        Some((start, segment, more))
    }

    /// Finds the boundaries of the last line of what is left. Its end is that of the text, or behind a line feed.
    fn look_back(&mut self) {
        let end = self.start + self.left();
        let units = self.ahead.text().units();
        self.line = units[..end - 1].iter().rposition(|&unit| unit == LINE_FEED.into()).map_or(0, |found| found + 1);
        let mut feed = Feed { ask: self.ahead.ask.up_to(end), buffer: Buffer::with_room(self.line, end - self.line) };
        while let Some(found) = feed.next() {
            self.behind.push(found);
        }
    }

    #[inline]
    pub(crate) fn size_hint(&self) -> (usize, Option<usize>) {
        let left = self.left();
        (left.min(1), Some(left))
    }
}

// A derived one would ask that slices are Clone.
impl<'t, A: Ask<'t>> Clone for Pieces<'t, A> {
    fn clone(&self) -> Self {
        Self { ahead: self.ahead.clone(), behind: self.behind.clone(), ..*self }
    }
}

impl<'t, A: Ask<'t>> fmt::Debug for Pieces<'t, A> {
    fn fmt(&self, f: &mut fmt::Formatter<'_>) -> fmt::Result {
        f.debug_struct("Pieces").field("start", &self.start).field("left", &self.left()).finish()
    }
}

/// The boundaries of a text.
pub(crate) struct Ends<'s, 't, S: ?Sized> {
    pub(crate) slot: &'s Slot,
    pub(crate) text: &'t S,
}

/// The boundaries of a text, with their marks.
pub(crate) struct Marks<'s, 't, S: ?Sized> {
    pub(crate) slot: &'s Slot,
    pub(crate) text: &'t S,
}

/// The ends of a text's lines, wrapped to so many columns, with the columns that each takes.
pub(crate) struct Wraps<'s, 't, S: ?Sized> {
    pub(crate) slot: &'s Slot,
    pub(crate) text: &'t S,
    pub(crate) columns: usize,
}

impl<'t, S: ?Sized + Slice> Ask<'t> for Ends<'_, 't, S> {
    type Slice = S;
    type More = ();

    #[inline]
    fn text(&self) -> &'t S {
        self.text
    }

    fn up_to(self, end: usize) -> Self {
        Self { text: self.text.split(end).0, ..self }
    }

    fn has_words(&self) -> bool {
        self.slot.has_words()
    }

    #[inline]
    fn ask(&self, from: usize, places: &mut [usize], _: &mut [()]) -> usize {
        S::Unit::boundaries(self.slot, self.text.units(), from, places)
    }
}

impl<'t, S: ?Sized + Slice> Ask<'t> for Marks<'_, 't, S> {
    type Slice = S;
    type More = u8;

    #[inline]
    fn text(&self) -> &'t S {
        self.text
    }

    fn up_to(self, end: usize) -> Self {
        Self { text: self.text.split(end).0, ..self }
    }

    fn has_words(&self) -> bool {
        self.slot.has_words()
    }

    #[inline]
    fn ask(&self, from: usize, places: &mut [usize], marks: &mut [u8]) -> usize {
        S::Unit::marked_boundaries(self.slot, self.text.units(), from, places, marks)
    }
}

impl<'t, S: ?Sized + Slice> Ask<'t> for Wraps<'_, 't, S> {
    type Slice = S;
    type More = usize;

    #[inline]
    fn text(&self) -> &'t S {
        self.text
    }

    fn up_to(self, end: usize) -> Self {
        Self { text: self.text.split(end).0, ..self }
    }

    fn has_words(&self) -> bool {
        self.slot.has_words()
    }

    #[inline]
    fn ask(&self, from: usize, ends: &mut [usize], widths: &mut [usize]) -> usize {
        S::Unit::wrap(self.slot, self.text.units(), from, self.columns, ends, widths)
    }
}

// Derived ones would ask that S is Copy.
impl<S: ?Sized> Copy for Ends<'_, '_, S> {}
impl<S: ?Sized> Copy for Marks<'_, '_, S> {}
impl<S: ?Sized> Copy for Wraps<'_, '_, S> {}

impl<S: ?Sized> Clone for Ends<'_, '_, S> {
    fn clone(&self) -> Self {
        *self
    }
}

impl<S: ?Sized> Clone for Marks<'_, '_, S> {
    fn clone(&self) -> Self {
        *self
    }
}

impl<S: ?Sized> Clone for Wraps<'_, '_, S> {
    fn clone(&self) -> Self {
        *self
    }
}
