//! The iterators that segmenters return.
//!
//! Each asks the library for up to 256 places at a time. With a dictionary or abbreviations it asks for whole lines, up to their line feeds, since
//! the library can't begin in the middle of one.
use std::fmt;
use std::iter::FusedIterator;
use std::marker::PhantomData;

use crate::feed::{Ends, Feed, Marks, Pieces, Wraps};
use crate::kind::Marked;
use crate::text::Slice;
use crate::{Line, WordType};

/// The boundaries of a text, from [`Segmenter::boundaries`](crate::Segmenter::boundaries): 0 first, the text's length last.
pub struct Boundaries<'s, 't, S: ?Sized + Slice> {
    pub(crate) feed: Feed<'t, Ends<'s, 't, S>>,
    pub(crate) is_begun: bool,
}

impl<S: ?Sized + Slice> Iterator for Boundaries<'_, '_, S> {
    type Item = usize;

    #[inline]
    fn next(&mut self) -> Option<usize> {
        if !self.is_begun {
            self.is_begun = true;
            return Some(0);
        }
        self.feed.next().map(|(place, ())| place)
    }

    fn size_hint(&self) -> (usize, Option<usize>) {
        let first = usize::from(!self.is_begun);
        let (low, high) = self.feed.size_hint();
        (low + first, high.and_then(|high| high.checked_add(first)))
    }
}

impl<S: ?Sized + Slice> FusedIterator for Boundaries<'_, '_, S> {}

impl<S: ?Sized + Slice> Clone for Boundaries<'_, '_, S> {
    fn clone(&self) -> Self {
        Self { feed: self.feed.clone(), is_begun: self.is_begun }
    }
}

impl<S: ?Sized + Slice> fmt::Debug for Boundaries<'_, '_, S> {
    fn fmt(&self, f: &mut fmt::Formatter<'_>) -> fmt::Result {
        f.debug_struct("Boundaries").field("feed", &self.feed).finish_non_exhaustive()
    }
}

/// The segments of a text, from [`Segmenter::segments`](crate::Segmenter::segments).
///
/// From the back it segments one line of the text at a time.
pub struct Segments<'s, 't, S: ?Sized + Slice> {
    pub(crate) pieces: Pieces<'t, Ends<'s, 't, S>>,
}

/// The segments of a text and where each begins, from [`Segmenter::segment_indices`](crate::Segmenter::segment_indices).
pub struct SegmentIndices<'s, 't, S: ?Sized + Slice> {
    pub(crate) pieces: Pieces<'t, Ends<'s, 't, S>>,
}

/// The segments of a text, where each begins, and its mark, from [`Segmenter::marked_segments`](crate::Segmenter::marked_segments).
pub struct MarkedSegments<'s, 't, K: Marked, S: ?Sized + Slice> {
    pub(crate) pieces: Pieces<'t, Marks<'s, 't, S>>,
    pub(crate) kind: PhantomData<K>,
}

/// The words of a text, where each begins, and its type, from [`WordSegmenter::words`](crate::WordSegmenter::words).
pub struct Words<'s, 't, S: ?Sized + Slice> {
    pub(crate) pieces: Pieces<'t, Marks<'s, 't, S>>,
}

impl<'t, S: ?Sized + Slice> Segments<'_, 't, S> {
    fn item((_, segment, ()): (usize, &'t S, ())) -> Option<&'t S> {
        Some(segment)
    }
}

impl<'t, S: ?Sized + Slice> SegmentIndices<'_, 't, S> {
    fn item((start, segment, ()): (usize, &'t S, ())) -> Option<(usize, &'t S)> {
        Some((start, segment))
    }
}

impl<'t, K: Marked, S: ?Sized + Slice> MarkedSegments<'_, 't, K, S> {
    fn item((start, segment, mark): (usize, &'t S, u8)) -> Option<(usize, &'t S, K::Mark)> {
        Some((start, segment, K::mark(mark)))
    }
}

impl<'t, S: ?Sized + Slice> Words<'_, 't, S> {
    fn item((start, segment, mark): (usize, &'t S, u8)) -> Option<(usize, &'t S, WordType)> {
        let word_type = WordType::of_mark(mark);
        word_type.is_word().then_some((start, segment, word_type))
    }
}

/// What iterators over pieces have in common. They give the items of those pieces that have one, `$at_least` of those that are left.
macro_rules! over_pieces {
    ($name:ident<$($kind:ident: $bound:path)?> of $item:ty, $at_least:expr) => {
        impl<'t, $($kind: $bound,)? S: ?Sized + Slice> $name<'_, 't, $($kind,)? S> {
            /// What is left of the text.
            #[must_use]
            pub fn rest(&self) -> &'t S {
                self.pieces.rest()
            }
        }

        impl<'t, $($kind: $bound,)? S: ?Sized + Slice> Iterator for $name<'_, 't, $($kind,)? S> {
            type Item = $item;

            #[inline]
            fn next(&mut self) -> Option<Self::Item> {
                loop {
                    let piece = self.pieces.next()?;
                    if let Some(item) = Self::item(piece) {
                        return Some(item);
                    }
                }
            }

            fn size_hint(&self) -> (usize, Option<usize>) {
                let (low, high) = self.pieces.size_hint();
                (low.min($at_least), high)
            }
        }

        impl<$($kind: $bound,)? S: ?Sized + Slice> DoubleEndedIterator for $name<'_, '_, $($kind,)? S> {
            fn next_back(&mut self) -> Option<Self::Item> {
                loop {
                    let piece = self.pieces.next_back()?;
                    if let Some(item) = Self::item(piece) {
                        return Some(item);
                    }
                }
            }
        }

        impl<$($kind: $bound,)? S: ?Sized + Slice> FusedIterator for $name<'_, '_, $($kind,)? S> {}

        impl<$($kind: $bound,)? S: ?Sized + Slice> Clone for $name<'_, '_, $($kind,)? S> {
            fn clone(&self) -> Self {
                Self { pieces: self.pieces.clone(), $(kind: PhantomData::<$kind>)? }
            }
        }

        impl<$($kind: $bound,)? S: ?Sized + Slice> fmt::Debug for $name<'_, '_, $($kind,)? S> {
            fn fmt(&self, f: &mut fmt::Formatter<'_>) -> fmt::Result {
                f.debug_struct(stringify!($name)).field("pieces", &self.pieces).finish_non_exhaustive()
            }
        }
    };
}

over_pieces!(Segments<> of &'t S, 1);
over_pieces!(SegmentIndices<> of (usize, &'t S), 1);
over_pieces!(MarkedSegments<K: Marked> of (usize, &'t S, K::Mark), 1);
over_pieces!(Words<> of (usize, &'t S, WordType), 0);

/// The lines that a text is wrapped to, from [`LineSegmenter::wrap`](crate::LineSegmenter::wrap).
pub struct Lines<'s, 't, S: ?Sized + Slice> {
    feed: Feed<'t, Wraps<'s, 't, S>>,
    /// What is left of the text, and where it begins.
    rest: &'t S,
    start: usize,
}

impl<'s, 't, S: ?Sized + Slice> Lines<'s, 't, S> {
    pub(crate) fn new(ask: Wraps<'s, 't, S>) -> Self {
        Self { feed: Feed::new(ask), rest: ask.text, start: 0 }
    }

    /// What is left of the text.
    #[must_use]
    pub fn rest(&self) -> &'t S {
        self.rest
    }
}

impl<'t, S: ?Sized + Slice> Iterator for Lines<'_, 't, S> {
    type Item = Line<'t, S>;

    #[inline]
    fn next(&mut self) -> Option<Self::Item> {
        let (end, columns) = self.feed.next()?;
        let start = std::mem::replace(&mut self.start, end);
        let (text, rest) = self.rest.split(end - start);
        self.rest = rest;
        Some(Line { start, text, columns })
    }

    fn size_hint(&self) -> (usize, Option<usize>) {
        self.feed.size_hint()
    }
}

impl<S: ?Sized + Slice> FusedIterator for Lines<'_, '_, S> {}

impl<S: ?Sized + Slice> Clone for Lines<'_, '_, S> {
    fn clone(&self) -> Self {
        Self { feed: self.feed.clone(), rest: self.rest, start: self.start }
    }
}

impl<S: ?Sized + Slice> fmt::Debug for Lines<'_, '_, S> {
    fn fmt(&self, f: &mut fmt::Formatter<'_>) -> fmt::Result {
        f.debug_struct("Lines").field("feed", &self.feed).finish_non_exhaustive()
    }
}
