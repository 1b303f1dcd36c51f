//! Boundaries into the caller's own buffers.
use crate::kind::{Kind, Marked};
use crate::raw::Calls;
use crate::{Segmenter, Unit};

impl<K: Kind> Segmenter<K> {
    /// Writes the first boundaries above `from` to `places`, as many as there is room for, and returns how many: those of the text from there on,
    /// taken alone. The last of all is the text's length. 0 where `from` is that or more, or there is no room.
    ///
    /// To have all boundaries of a text, begin at 0 and go on from the last one, until 0 is returned; but where
    /// [`has_words`](Self::has_words), only from one behind a line feed.
    ///
    /// ```
    /// # use yengatomu::WordSegmenter;
    /// let words = WordSegmenter::new().unwrap();
    /// let mut places = [0; 3];
    /// assert_eq!(words.fill_boundaries(b"pay 3.14!", 0, &mut places), 3);
    /// assert_eq!(places, [3, 4, 8]);
    /// assert_eq!(words.fill_boundaries(b"pay 3.14!", 8, &mut places), 1);
    /// assert_eq!(places[0], 9);
    /// ```
    #[inline]
    pub fn fill_boundaries<U: Unit>(&self, text: &[U], from: usize, places: &mut [usize]) -> usize {
        Calls::boundaries(self.slot(), text, from, places)
    }

    /// [`fill_boundaries`](Self::fill_boundaries) of a text in Latin-1: each byte is a code point, and places are bytes.
    ///
    /// ```
    /// # use yengatomu::WordSegmenter;
    /// let words = WordSegmenter::new().unwrap();
    /// let mut places = [0; 3];
    /// assert_eq!(words.fill_boundaries_latin1(b"caf\xe9 3.14", 0, &mut places), 3);
    /// assert_eq!(places, [4, 5, 9]);
    /// ```
    #[inline]
    pub fn fill_boundaries_latin1(&self, text: &[u8], from: usize, places: &mut [usize]) -> usize {
        self.slot().boundaries_latin1(text, from, places)
    }

    /// Whether it has a dictionary or abbreviations: what they look at may begin before a boundary, so the boundaries of a text go on only from
    /// behind a line feed.
    #[must_use]
    pub fn has_words(&self) -> bool {
        self.slot().has_words()
    }
}

impl<K: Marked> Segmenter<K> {
    /// [`fill_boundaries`](Self::fill_boundaries) with a mark for each, as many as both buffers have room for: [`Marked::mark`] says what it means.
    ///
    /// ```
    /// use yengatomu::kind::{Marked, Word};
    /// use yengatomu::WordSegmenter;
    /// use yengatomu::WordType::{Letters, None, Number};
    ///
    /// let words = WordSegmenter::new().unwrap();
    /// let (mut places, mut marks) = ([0; 8], [0; 8]);
    /// assert_eq!(words.fill_marked_boundaries(b"pay 3.14", 0, &mut places, &mut marks), 3);
    /// assert_eq!(places[..3], [3, 4, 8]);
    /// assert_eq!([0, 1, 2].map(|at| Word::mark(marks[at])), [Letters, None, Number]);
    /// ```
    #[inline]
    pub fn fill_marked_boundaries<U: Unit>(&self, text: &[U], from: usize, places: &mut [usize], marks: &mut [u8]) -> usize {
        Calls::marked_boundaries(self.slot(), text, from, places, marks)
    }

    /// [`fill_marked_boundaries`](Self::fill_marked_boundaries) of a text in Latin-1: each byte is a code point, and places are bytes.
    ///
    /// ```
    /// use yengatomu::kind::{Line, Marked};
    /// use yengatomu::LineBreak::{Allowed, Mandatory};
    /// use yengatomu::{LineOptions, LineSegmenter};
    ///
    /// let lines = LineSegmenter::new(LineOptions::default()).unwrap();
    /// let (mut places, mut marks) = ([0; 8], [0; 8]);
    /// assert_eq!(lines.fill_marked_boundaries_latin1(b"caf\xe9 au\nlait", 0, &mut places, &mut marks), 3);
    /// assert_eq!(places[..3], [5, 8, 12]);
    /// assert_eq!([0, 1, 2].map(|at| Line::mark(marks[at])), [Allowed, Mandatory, Mandatory]);
    /// ```
    #[inline]
    pub fn fill_marked_boundaries_latin1(&self, text: &[u8], from: usize, places: &mut [usize], marks: &mut [u8]) -> usize {
        self.slot().marked_boundaries_latin1(text, from, places, marks)
    }
}
