//! Places in a text that were found but not yet given.
use std::fmt;

use crate::text::Unit;

/// How many places are asked for at first: few, for a caller who takes but one.
const FIRST_ROOM: usize = 16;
/// How many are asked for later.
const ROOM: usize = 256;
pub(crate) const LINE_FEED: u8 = b'\n';

/// All places above the one that it begins at, each with something more: those that were found and not yet given, and how far they go.
///
/// It goes on from the last place that it holds. With a dictionary or abbreviations that has to be behind a line feed, so it keeps only what is up to the last
/// such place, and doubles where it has none.
#[derive(Clone)]
pub struct Buffer<M> {
    places: Vec<usize>,
    more: Vec<M>,
    at: usize,
    filled: usize,
    /// Up to where it goes.
    from: usize,
}

impl<M: Copy + Default> Buffer<M> {
    /// An empty one, for the places above this one.
    pub fn new(from: usize) -> Self {
        Self { places: Vec::new(), more: Vec::new(), at: 0, filled: 0, from }
    }

    /// One for the places above this one, that asks for so many at first, or [`ROOM`] if that is less.
    pub(crate) fn with_room(from: usize, room: usize) -> Self {
        let mut buffer = Self::new(from);
        buffer.make_room(room.min(ROOM));
        buffer
    }

    /// Whether it has to be filled before there can be a next place.
    #[inline]
    pub fn is_empty(&self) -> bool {
        self.at == self.filled
    }

    /// The next place of those that it holds.
    #[inline]
    pub fn take(&mut self) -> Option<(usize, M)> {
        if self.is_empty() {
            return None;
        }
        let found = (self.places[self.at], self.more[self.at]);
        self.at += 1;
        Some(found)
    }

    /// Finds the next places; it stays empty where there are none left.
    ///
    /// `ask` writes the first places above the one that it's given, as many as both buffers have room for, and returns how many; the last of all is the
    /// end of the text. `has_words` says whether it goes on only from behind a line feed.
    pub fn fill<U: Unit>(&mut self, text: &[U], has_words: bool, ask: impl Fn(usize, &mut [usize], &mut [M]) -> usize) {
        self.at = 0;
        self.filled = 0;
        if self.from >= text.len() {
            return;
        }
        // There are no more places than units.
        let left = text.len() - self.from;
        self.make_room((4 * self.places.len()).clamp(FIRST_ROOM, ROOM).min(left));
        loop {
            let room = self.places.len();
            let count = ask(self.from, &mut self.places, &mut self.more);
            let found = &self.places[..count];
            let is_all = count < room || found.last() == Some(&text.len());
            if is_all || !has_words {
                self.filled = count;
                break;
            }
            match found.iter().rposition(|&place| text[place - 1] == LINE_FEED.into()) {
                Some(last) => {
                    self.filled = last + 1;
                    break;
                }
                None => self.make_room((2 * room).min(left)),
            }
        }
        if let Some(last) = self.filled.checked_sub(1) {
            self.from = self.places[last];
        }
    }

    fn make_room(&mut self, room: usize) {
        if room > self.places.len() {
            self.places.resize(room, 0);
            self.more.resize(room, M::default());
        }
    }

    /// How many places are still to come in a text of so many units: at least, and at most.
    pub fn size_hint(&self, len: usize) -> (usize, usize) {
        let here = self.filled - self.at;
        let left = len.saturating_sub(self.from);
        (here + usize::from(left > 0), here + left)
    }
}

impl<M> fmt::Debug for Buffer<M> {
    fn fmt(&self, f: &mut fmt::Formatter<'_>) -> fmt::Result {
        f.debug_struct("Buffer").field("known", &&self.places[self.at..self.filled]).field("from", &self.from).finish()
    }
}
