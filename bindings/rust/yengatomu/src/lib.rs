//! Text boundaries, proved: grapheme clusters, words and sentences of UAX #29, line breaks of UAX #14, and wrapping to columns.
//!
//! ```
//! use yengatomu::{GraphemeSegmenter, LineOptions, LineSegmenter, WordSegmenter};
//!
//! # fn main() -> Result<(), yengatomu::Error> {
//! let words = WordSegmenter::new()?;
//! let found: Vec<&str> = words.words("can't pay 3.14!").map(|(_, word, _)| word).collect();
//! assert_eq!(found, ["can't", "pay", "3.14"]);
//!
//! let graphemes = GraphemeSegmenter::new()?;
//! assert_eq!(graphemes.count("e\u{301}🇻🇳"), 2);
//!
//! let lines = LineSegmenter::new(LineOptions::default())?;
//! for line in lines.wrap("The quick brown fox", 10) {
//!     println!("{:2} {}", line.columns, line.text.trim_end());
//! }
//! # Ok(())
//! # }
//! ```
//!
//! A segmenter is made once, and then segments any number of texts: `str`, `[u8]` and `[u16]`, of which the last two may be ill-formed UTF-8
//! and UTF-16 (see [`Text`]). Its kind is part of its type, so that only a [`WordSegmenter`] has [`words`](Segmenter::words), and only a
//! [`LineSegmenter`] [`wrap`](Segmenter::wrap).
//!
//! # Places
//!
//! Places are numbers of units from the start of the text: bytes, or 16-bit units in UTF-16. In a `str` a boundary never stands inside a
//! character. Boundaries begin with 0 and end with the text's length, and each is above the one before. So `n` segments have `n + 1`
//! boundaries, and the empty text has one, 0.
//!
//! # What is proved
//!
//! The library behind this crate, `libyengatomu.a`, is proved: for every text it finds exactly the boundaries of its rules, and it never reads or
//! writes out of range, overflows, aborts or runs for ever. They are proved to be those of UAX #29 of Unicode 18.0, and of lines those of
//! UAX #14 revision 55 (Unicode 17), with properties of Unicode 18.0. Dictionaries, options and rules of your own change them. With rules
//! of your own, the machine is proved to follow some rules; that these are those of your text is tested. This crate, some Rust around the library, is tested.
//!
//! # Threads
//!
//! A segmenter is `Send` and `Sync`: any number of threads may segment by one at the same time, and none waits for another. So a program may
//! have one of a kind, as a `static`:
//!
//! ```
//! use std::sync::LazyLock;
//! use yengatomu::SentenceSegmenter;
//!
//! static SENTENCES: LazyLock<SentenceSegmenter> = LazyLock::new(|| SentenceSegmenter::new().unwrap());
//!
//! std::thread::scope(|scope| {
//!     for text in ["One. Two.", "Three. Four."] {
//!         scope.spawn(move || assert_eq!(SENTENCES.count(text), 2));
//!     }
//! });
//! ```
//!
//! What changes a segmenter, as [`load_dictionary`](Segmenter::load_dictionary), takes `&mut self`, so it must be done before others use it, or to a
//! clone.
//!
//! ```compile_fail,E0596
//! # use std::sync::LazyLock;
//! # use yengatomu::{Script, WordSegmenter};
//! # static WORDS: LazyLock<WordSegmenter> = LazyLock::new(|| WordSegmenter::new().unwrap());
//! WORDS.load_dictionary(&["ภาษา"], Script::Thai).unwrap();
//! ```
//!
//! # In the place of unicode-segmentation
//!
#![cfg_attr(feature = "unicode-segmentation", doc = "The module [`unicode_segmentation`] has the trait of that crate, over this library.")]
#![cfg_attr(
    not(feature = "unicode-segmentation"),
    doc = "The feature `unicode-segmentation` has the trait of that crate, over this library."
)]
#![deny(missing_docs)]
#![deny(unsafe_code)]

use std::fmt;
use std::marker::PhantomData;
use std::path::Path;
use std::sync::Arc;

use crate::feed::{Ends, Feed, Marks, Pieces, Wraps};
use crate::held::{Change, Held, Origin};
use crate::iter::{Boundaries, Lines, MarkedSegments, SegmentIndices, Segments, Words};
use crate::kind::{Kind, Marked};
use crate::raw::{Calls, Slot};

mod balanced;
mod buffer;
mod dictionaries;
mod feed;
mod fill;
mod held;
pub mod iter;
pub mod kind;
mod options;
mod prepare;
#[allow(unsafe_code)]
mod raw;
mod text;
#[cfg(feature = "unicode-segmentation")]
pub mod unicode_segmentation;

#[doc(hidden)]
pub use buffer::Buffer;
pub use dictionaries::DictionaryError;
pub use options::{Error, Line, LineBreak, LineOptions, Script, Strictness, WordBreak, WordType};
pub use prepare::join_lines;
pub use text::{Slice, Text, Unit};

/// Segments texts by Unicode's data.
///
/// It is one of [`GraphemeSegmenter`], [`WordSegmenter`], [`SentenceSegmenter`] and [`LineSegmenter`], whose `new` makes it, or a
/// [`RuleSegmenter`], by rules of your own: [`by_rules`](Segmenter::by_rules).
///
/// `new` reads Unicode's data anew, which takes about a millisecond (the example `open` measures it), so make a segmenter once and keep it.
///
/// A clone shares what the segmenter holds, so it takes no time and no memory to speak of, and can't fail. What changes a segmenter changes this one
/// alone, and its clones stay as they were:
///
/// ```
/// use yengatomu::{Script, WordSegmenter};
///
/// let words = WordSegmenter::new().unwrap();
/// let mut thai = words.clone();
/// thai.load_dictionary(&["ภาษา", "ไทย"], Script::Thai).unwrap();
/// assert_eq!((thai.count_words("ภาษาไทย"), words.count_words("ภาษาไทย")), (2, 7));
/// ```
///
/// To change a segmenter that shares what it holds with a clone takes as long as to make it anew, by `new` and with all that was loaded before, of
/// which the words are kept, and as much memory again. So load first, and clone then.
pub struct Segmenter<K: Kind> {
    held: Arc<Held>,
    // (it holds no `K`, so it is `Send` and `Sync` for any)
    kind: PhantomData<fn() -> K>,
}

/// Segments texts into extended grapheme clusters.
pub type GraphemeSegmenter = Segmenter<kind::Grapheme>;
/// Segments texts into words.
pub type WordSegmenter = Segmenter<kind::Word>;
/// Segments texts into sentences.
pub type SentenceSegmenter = Segmenter<kind::Sentence>;
/// Segments texts where lines may break, and wraps them.
pub type LineSegmenter = Segmenter<kind::Line>;
/// Segments texts by the caller's own rules.
pub type RuleSegmenter = Segmenter<kind::Rule>;

impl GraphemeSegmenter {
    /// A segmenter of grapheme clusters. To make it takes about a millisecond: see [`Segmenter`].
    ///
    /// # Errors
    ///
    /// [`Error::OutOfMemory`].
    pub fn new() -> Result<Self, Error> {
        Self::open(LineOptions::default())
    }
}

impl SentenceSegmenter {
    /// A segmenter of sentences. To make it takes about a millisecond: see [`Segmenter`].
    ///
    /// # Errors
    ///
    /// [`Error::OutOfMemory`].
    pub fn new() -> Result<Self, Error> {
        Self::open(LineOptions::default())
    }

    /// Takes abbreviations, after which a sentence goes on: whole words with their full stops, as `Mr.` or `z. B.`, in any order. Upper and
    /// lower case differ. White space around an abbreviation, as a line end, isn't part of it, and blank ones are left out; so they may be lines
    /// of a file.
    ///
    /// A boundary is left out where the text before it ends with an abbreviation and perhaps spaces, before which neither a letter nor a digit
    /// stands; but not at the end of the text. The program `segment` has the same with `--abbreviations`.
    ///
    /// ```
    /// use yengatomu::SentenceSegmenter;
    ///
    /// let mut sentences = SentenceSegmenter::new().unwrap();
    /// sentences.load_abbreviations(&["Mr.", "Mrs."]).unwrap();
    /// assert!(sentences.segments("Mr. Smith went. He left.").eq(["Mr. Smith went. ", "He left."]));
    /// ```
    ///
    /// With abbreviations, iterators segment a whole line at a time, up to its line feed.
    ///
    /// # Errors
    ///
    /// [`Error::OutOfMemory`]; [`Error::NotUtf8`] where an abbreviation isn't UTF-8; [`Error::LineFeed`] where one has a line feed in it;
    /// [`Error::HasAbbreviations`] where the segmenter has taken some before. It is then as before.
    pub fn load_abbreviations<W: AsRef<[u8]>>(&mut self, words: &[W]) -> Result<(), Error> {
        self.change(Change::Abbreviations(dictionaries::listed(words)?))
    }

    /// Takes the abbreviations of a language, as `en`: those of `abbreviations-en.txt` of a folder, as `tools/dictionaries` of the repository writes
    /// it, in UTF-8, an abbreviation a line.
    ///
    /// ```no_run
    /// use yengatomu::{DictionaryError, SentenceSegmenter};
    ///
    /// # fn main() -> Result<(), DictionaryError> {
    /// let mut sentences = SentenceSegmenter::new()?;
    /// sentences.load_language("/usr/share/dict/scripts", "en")?;
    /// # Ok(())
    /// # }
    /// ```
    ///
    /// # Errors
    ///
    /// [`DictionaryError`] with the list where that isn't there or can't be read, isn't UTF-8 or has no words; and as
    /// [`load_abbreviations`](Self::load_abbreviations). The segmenter is then as before.
    pub fn load_language(&mut self, folder: impl AsRef<Path>, language: &str) -> Result<(), DictionaryError> {
        Ok(self.change(Change::Abbreviations(dictionaries::abbreviations_in(folder.as_ref(), language)?))?)
    }
}

impl WordSegmenter {
    /// A segmenter of words. To make it takes about a millisecond: see [`Segmenter`].
    ///
    /// Without a dictionary, each letter of a script that is written without spaces is a word: see
    /// [`load_dictionary`](Self::load_dictionary).
    ///
    /// # Errors
    ///
    /// [`Error::OutOfMemory`].
    pub fn new() -> Result<Self, Error> {
        Self::open(LineOptions::default())
    }

    /// The words of a text, each with its place and its type: what is left of the segments without spaces, punctuation and symbols.
    ///
    /// ```
    /// use yengatomu::WordSegmenter;
    /// use yengatomu::WordType::{Letters, Number};
    ///
    /// let words = WordSegmenter::new().unwrap();
    /// let found: Vec<_> = words.words("I can't pay 3.14!").collect();
    /// assert_eq!(found, [(0, "I", Letters), (2, "can't", Letters), (8, "pay", Letters), (12, "3.14", Number)]);
    /// ```
    #[inline]
    pub fn words<'t, T: ?Sized + Text>(&self, text: &'t T) -> Words<'_, 't, T::Slice> {
        Words { pieces: Pieces::new(Marks { slot: self.slot(), text: text.as_slice() }) }
    }

    /// How many words a text has: as many as [`words`](Self::words) gives.
    ///
    /// ```
    /// # use yengatomu::WordSegmenter;
    /// let words = WordSegmenter::new().unwrap();
    /// assert_eq!(words.count_words("I can't pay 3.14!"), 4);
    /// ```
    pub fn count_words<T: ?Sized + Text>(&self, text: &T) -> usize {
        Calls::count_words(self.slot(), text.as_slice().units())
    }
}

impl LineSegmenter {
    /// A segmenter of lines. To make it takes about a millisecond: see [`Segmenter`].
    ///
    /// ```
    /// use yengatomu::{LineOptions, LineSegmenter};
    ///
    /// let lines = LineSegmenter::new(LineOptions::default()).unwrap();
    /// assert_eq!(lines.segments("The quick fox").collect::<Vec<_>>(), ["The ", "quick ", "fox"]);
    /// ```
    ///
    /// # Errors
    ///
    /// [`Error::OutOfMemory`].
    pub fn new(options: LineOptions) -> Result<Self, Error> {
        Self::open(options)
    }

    /// Counts the columns of wrapped lines cluster by cluster from now on, and no longer character by character, as the program `segment` with
    /// `--by-cluster`: each cluster takes the width of its characters together. One of more than 128 bytes in UTF-8 takes the sum of the widths of
    /// its characters. Where lines may break stays as it is.
    ///
    /// ```
    /// use yengatomu::{LineOptions, LineSegmenter};
    ///
    /// let mut lines = LineSegmenter::new(LineOptions::default()).unwrap();
    /// let columns = |lines: &LineSegmenter| lines.wrap("👩\u{200d}👩\u{200d}👧", 80).map(|line| line.columns).sum::<usize>();
    /// assert_eq!(columns(&lines), 6);
    /// lines.count_by_cluster().unwrap();
    /// assert_eq!(columns(&lines), 2);
    /// ```
    ///
    /// # Errors
    ///
    /// [`Error::OutOfMemory`]: the segmenter is then as before.
    pub fn count_by_cluster(&mut self) -> Result<(), Error> {
        self.change(Change::CountByCluster)
    }

    /// Wraps a text to columns: the lines, each with its place and the columns that it takes.
    ///
    /// A line takes as many segments as fit in the columns, at least one, and ends where it must. So a word that is wider than the columns
    /// stands alone, and sticks out. Spaces, line feeds and carriage returns at a line's end stay in its text, and take no columns. Wide
    /// characters, as ideographs, take two columns, and marks none; [`count_by_cluster`](Self::count_by_cluster) counts clusters instead.
    ///
    /// ```
    /// use yengatomu::{LineOptions, LineSegmenter};
    ///
    /// let lines = LineSegmenter::new(LineOptions::default()).unwrap();
    /// let wrapped: Vec<_> = lines.wrap("The quick brown fox\njumps.", 10).map(|line| (line.columns, line.text)).collect();
    /// assert_eq!(wrapped, [(9, "The quick "), (9, "brown fox\n"), (6, "jumps.")]);
    /// ```
    ///
    /// What is wider than the columns may be broken between clusters, as by the program `segment` with `--break-words`, by lines that break
    /// anywhere:
    ///
    /// ```
    /// use yengatomu::{LineOptions, LineSegmenter, Strictness};
    ///
    /// let lines = LineSegmenter::new(LineOptions::default()).unwrap();
    /// let anywhere = LineSegmenter::new(LineOptions { strictness: Strictness::Anywhere, ..LineOptions::default() }).unwrap();
    /// let mut broken = Vec::new();
    /// for line in lines.wrap("an elephant \n", 3) {
    ///     let text = line.text.trim_end_matches([' ', '\n', '\r']);
    ///     if line.columns > 3 {
    ///         broken.extend(anywhere.wrap(text, 3).map(|part| part.text.trim_end_matches([' ', '\n', '\r'])));
    ///     } else {
    ///         broken.push(text);
    ///     }
    /// }
    /// assert_eq!(broken, ["an", "ele", "pha", "nt"]);
    /// ```
    #[inline]
    pub fn wrap<'t, T: ?Sized + Text>(&self, text: &'t T, columns: usize) -> Lines<'_, 't, T::Slice> {
        Lines::new(Wraps { slot: self.slot(), text: text.as_slice(), columns })
    }

    /// Wraps a text to columns so that its lines are balanced: of all lines with whole segments and room in the columns, those that leave the least
    /// ragged edge.
    ///
    /// A line of several segments has at most the columns, and a line ends where it must, as by [`wrap`](Self::wrap). There a paragraph ends. The lines
    /// are those for which the squares of the columns that all lines but a paragraph's last leave free have the least sum.
    ///
    /// ```
    /// use yengatomu::{LineOptions, LineSegmenter};
    ///
    /// let lines = LineSegmenter::new(LineOptions::default()).unwrap();
    /// let text = "aaa bb cc ddddd";
    /// let first_fit: Vec<_> = lines.wrap(text, 6).map(|line| line.text).collect();
    /// assert_eq!(first_fit, ["aaa bb ", "cc ", "ddddd"]);
    /// let balanced: Vec<_> = lines.wrap_balanced(text, 6).unwrap().into_iter().map(|line| line.text).collect();
    /// assert_eq!(balanced, ["aaa ", "bb cc ", "ddddd"]);
    /// ```
    ///
    /// It takes some 200 bytes for each segment of the longest paragraph, and gives them back.
    ///
    /// # Errors
    ///
    /// [`Error::OutOfMemory`].
    pub fn wrap_balanced<'t, T: ?Sized + Text>(&self, text: &'t T, columns: u32) -> Result<Vec<Line<'t, T::Slice>>, Error> {
        balanced::lines(self.slot(), text.as_slice(), columns)
    }
}

impl RuleSegmenter {
    /// A segmenter by rules of your own: symbols, each a set of code points, and then rows, of which the first that fits a place joins (`×`)
    /// or parts (`÷`) what stands there. The page `crates/segment/segment.1` of the repository tells the notation. The library finds a
    /// machine of the rules. It is proved that such a machine's boundaries are where some rules part a text; that these are those of the
    /// text is tested.
    ///
    /// ```
    /// use yengatomu::{Error, Segmenter};
    ///
    /// let rules = r"
    ///     Letter = \p{L} + \p{M} + \p{Nd}
    ///     Line   = [_ -]
    ///     Letter × Letter
    ///     Line × Line
    ///     ÷";
    /// let snake = Segmenter::by_rules(rules).unwrap();
    /// assert_eq!(snake.segments("snake_case").collect::<Vec<_>>(), ["snake", "_", "case"]);
    /// assert_eq!(Segmenter::by_rules("Letter × Letter\n÷").err(), Some(Error::WrongRules(1)));
    /// ```
    ///
    /// # Errors
    ///
    /// [`Error::OutOfMemory`]; [`Error::WrongRules`] where a line is wrong; [`Error::NoMachine`] where no machine is found.
    pub fn by_rules(rules: &str) -> Result<Self, Error> {
        Self::holding(Origin::Rules(rules.into()))
    }
}

impl<K: Marked> Segmenter<K> {
    /// The segments of a text, each with the place where it begins and its mark: the type of a word ([`WordType`]), or whether a line must
    /// break behind it ([`LineBreak`]).
    ///
    /// ```
    /// use yengatomu::WordSegmenter;
    /// use yengatomu::WordType::{Letters, None};
    ///
    /// let words = WordSegmenter::new().unwrap();
    /// let found: Vec<_> = words.marked_segments("to be").collect();
    /// assert_eq!(found, [(0, "to", Letters), (2, " ", None), (3, "be", Letters)]);
    /// ```
    #[inline]
    pub fn marked_segments<'t, T: ?Sized + Text>(&self, text: &'t T) -> MarkedSegments<'_, 't, K, T::Slice> {
        MarkedSegments { pieces: Pieces::new(Marks { slot: self.slot(), text: text.as_slice() }), kind: PhantomData }
    }

    /// Takes a dictionary: the words of a script that is written without spaces, in any order. Text of that script is then cut into the
    /// longest words, by segmenters of words and of lines. White space around a word, as a line end, isn't part of it, and blank words are left
    /// out; so they may be lines of a file.
    ///
    /// If the segmenter has a dictionary of that script, it keeps that one. Of lines, [`Script::ChineseOrJapanese`] changes nothing: they
    /// break between ideographs anyway.
    ///
    /// ```
    /// use yengatomu::{Script, WordSegmenter};
    ///
    /// let mut words = WordSegmenter::new().unwrap();
    /// words.load_dictionary(&["ภาษา", "ไทย"], Script::Thai).unwrap();
    /// assert_eq!(words.segments("ภาษาไทย").collect::<Vec<_>>(), ["ภาษา", "ไทย"]);
    /// ```
    ///
    /// With a dictionary, iterators segment a whole line at a time, up to its line feed.
    ///
    /// # Errors
    ///
    /// [`Error::OutOfMemory`]; [`Error::NotUtf8`] where a word isn't UTF-8; [`Error::LineFeed`] where a word has a line feed in it, as the text of a
    /// whole file. The segmenter is then as before.
    pub fn load_dictionary<W: AsRef<[u8]>>(&mut self, words: &[W], script: Script) -> Result<(), Error> {
        self.change(Change::Dictionary(dictionaries::listed(words)?, script))
    }

    /// Takes the dictionaries of a folder: `thai.txt`, `lao.txt`, `khmer.txt`, `myanmar.txt` and, of words, `cj.txt`, as many as there are. They
    /// are as `tools/dictionaries` of the repository writes them: UTF-8, a word a line. Returns their scripts.
    ///
    /// ```no_run
    /// use yengatomu::{DictionaryError, WordSegmenter};
    ///
    /// # fn main() -> Result<(), DictionaryError> {
    /// let mut words = WordSegmenter::new()?;
    /// words.load_dictionaries("/usr/share/dict/scripts")?;
    /// # Ok(())
    /// # }
    /// ```
    ///
    /// # Errors
    ///
    /// [`DictionaryError`] with the folder where it isn't there or has no list, with the list where that can't be read, isn't UTF-8 or has no
    /// words: the segmenter is then as before. Out of memory: it may have some of them.
    pub fn load_dictionaries(&mut self, folder: impl AsRef<Path>) -> Result<Vec<Script>, DictionaryError> {
        let lists = dictionaries::lists_in(folder.as_ref(), kind::number::<K>() == kind::number::<kind::Line>())?;
        let mut loaded = Vec::new();
        for (list, script) in lists {
            self.change(Change::Dictionary(list, script))?;
            loaded.push(script);
        }
        Ok(loaded)
    }
}

impl<K: Kind> Segmenter<K> {
    fn open(options: LineOptions) -> Result<Self, Error> {
        Self::holding(Origin::Data { kind: kind::number::<K>(), options })
    }

    fn holding(origin: Origin) -> Result<Self, Error> {
        Ok(Self { held: Arc::new(Held::open(origin)?), kind: PhantomData })
    }

    #[inline]
    fn slot(&self) -> &Slot {
        self.held.slot()
    }

    fn change(&mut self, change: Change) -> Result<(), Error> {
        Held::change(&mut self.held, change)
    }

    /// The boundaries of a text: 0 first, its length last.
    ///
    /// ```
    /// # use yengatomu::WordSegmenter;
    /// let words = WordSegmenter::new().unwrap();
    /// assert_eq!(words.boundaries("pay 3.14!").collect::<Vec<_>>(), [0, 3, 4, 8, 9]);
    /// assert_eq!(words.boundaries(b"pay \xff".as_slice()).collect::<Vec<_>>(), [0, 3, 4, 5]);
    /// assert_eq!(words.boundaries("").collect::<Vec<_>>(), [0]);
    /// ```
    #[inline]
    pub fn boundaries<'t, T: ?Sized + Text>(&self, text: &'t T) -> Boundaries<'_, 't, T::Slice> {
        Boundaries { feed: Feed::new(Ends { slot: self.slot(), text: text.as_slice() }), is_begun: false }
    }

    /// The segments of a text, from the first to the last or back. Together they are the text.
    ///
    /// ```
    /// # use yengatomu::GraphemeSegmenter;
    /// let graphemes = GraphemeSegmenter::new().unwrap();
    /// assert_eq!(graphemes.segments("ae\u{301}\r\n").collect::<Vec<_>>(), ["a", "e\u{301}", "\r\n"]);
    /// assert_eq!(graphemes.segments("ae\u{301}\r\n").next_back(), Some("\r\n"));
    /// ```
    #[inline]
    pub fn segments<'t, T: ?Sized + Text>(&self, text: &'t T) -> Segments<'_, 't, T::Slice> {
        Segments { pieces: Pieces::new(Ends { slot: self.slot(), text: text.as_slice() }) }
    }

    /// The segments of a text, each with the place where it begins.
    ///
    /// ```
    /// # use yengatomu::GraphemeSegmenter;
    /// let graphemes = GraphemeSegmenter::new().unwrap();
    /// // Limits a field to two clusters.
    /// let text = "ae\u{301}b";
    /// let field = match graphemes.segment_indices(text).nth(2) {
    ///     Some((place, _)) => &text[..place],
    ///     None => text,
    /// };
    /// assert_eq!(field, "ae\u{301}");
    /// ```
    #[inline]
    pub fn segment_indices<'t, T: ?Sized + Text>(&self, text: &'t T) -> SegmentIndices<'_, 't, T::Slice> {
        SegmentIndices { pieces: Pieces::new(Ends { slot: self.slot(), text: text.as_slice() }) }
    }

    /// How many segments a text has.
    ///
    /// ```
    /// # use yengatomu::GraphemeSegmenter;
    /// let graphemes = GraphemeSegmenter::new().unwrap();
    /// assert_eq!(graphemes.count("ae\u{301}"), 2);
    /// ```
    pub fn count<T: ?Sized + Text>(&self, text: &T) -> usize {
        Calls::count(self.slot(), text.as_slice().units())
    }

    /// The nearest boundary above a place, as an arrow key moves a cursor. The place may be any number; at the text's end and past it the
    /// answer is None.
    ///
    /// It reads from the start of the place's line, so it is quicker than going through the boundaries.
    ///
    /// ```
    /// # use yengatomu::GraphemeSegmenter;
    /// let graphemes = GraphemeSegmenter::new().unwrap();
    /// assert_eq!(graphemes.next_boundary("ae\u{301}", 1), Some(4));
    /// assert_eq!(graphemes.next_boundary("ae\u{301}", 4), None);
    /// ```
    pub fn next_boundary<T: ?Sized + Text>(&self, text: &T, place: usize) -> Option<usize> {
        Calls::next(self.slot(), text.as_slice().units(), place)
    }

    /// The nearest boundary below a place. The place may be any number; at 0 the answer is None.
    ///
    /// ```
    /// # use yengatomu::GraphemeSegmenter;
    /// let graphemes = GraphemeSegmenter::new().unwrap();
    /// assert_eq!(graphemes.previous_boundary("ae\u{301}", 4), Some(1));
    /// assert_eq!(graphemes.previous_boundary("ae\u{301}", 0), None);
    /// ```
    pub fn previous_boundary<T: ?Sized + Text>(&self, text: &T, place: usize) -> Option<usize> {
        Calls::previous(self.slot(), text.as_slice().units(), place)
    }

    /// Whether a place is a boundary.
    ///
    /// ```
    /// # use yengatomu::GraphemeSegmenter;
    /// let graphemes = GraphemeSegmenter::new().unwrap();
    /// assert!(graphemes.is_boundary("ae\u{301}", 1));
    /// assert!(!graphemes.is_boundary("ae\u{301}", 2));
    /// ```
    pub fn is_boundary<T: ?Sized + Text>(&self, text: &T, place: usize) -> bool {
        match place.checked_sub(1) {
            None => true,
            Some(before) => self.next_boundary(text, before) == Some(place),
        }
    }

    /// The version of the Unicode data by which this kind is segmented: 18.0.0. The rules of lines are those of UAX #14 revision 55, which
    /// belongs to Unicode 17; those of the other kinds belong to Unicode 18.
    #[must_use]
    pub fn unicode_version() -> (u32, u32, u32) {
        parts(raw::unicode_version(kind::number::<K>()))
    }
}

// A derived one would ask that K is Clone.
impl<K: Kind> Clone for Segmenter<K> {
    fn clone(&self) -> Self {
        Self { held: Arc::clone(&self.held), kind: PhantomData }
    }
}

impl<K: Kind> fmt::Debug for Segmenter<K> {
    fn fmt(&self, f: &mut fmt::Formatter<'_>) -> fmt::Result {
        f.debug_struct("Segmenter").field("kind", &kind::name::<K>()).field("has_words", &self.slot().has_words()).finish_non_exhaustive()
    }
}

/// The version of the library.
#[must_use]
pub fn version() -> (u32, u32, u32) {
    parts(raw::version())
}

fn parts(version: u32) -> (u32, u32, u32) {
    (version / 10_000, version / 100 % 100, version % 100)
}

/// The examples of the README.
#[cfg(all(doctest, feature = "unicode-segmentation"))]
#[doc = include_str!("../README.md")]
struct Readme;
