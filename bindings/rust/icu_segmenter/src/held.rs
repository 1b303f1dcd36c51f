//! What a segmenter of this crate holds: one of the library, of its own or of the whole program.
use std::path::Path;
use std::sync::OnceLock;

use yengatomu::kind::Marked;
use yengatomu::{Error, GraphemeSegmenter, LineOptions, LineSegmenter, Script, Segmenter, SentenceSegmenter, WordSegmenter};

use crate::dictionaries::{DictionaryError, ListError};
use crate::encoding::Encoding;
use crate::places::Places;
use crate::provider::DataError;

/// A segmenter of the library, of which the program shares one for each choice of options.
pub(crate) trait Finder: 'static + Sized {
    /// What it is opened with.
    type Options: Copy;

    fn open(options: Self::Options) -> Result<Self, Error>;

    /// Where the program's own is, once it was made.
    fn shared(options: Self::Options) -> &'static OnceLock<Self>;

    /// Writes the first boundaries above `from`, as many as both buffers have room for, with their marks if it has some, and returns how many.
    fn fill<Y: Encoding>(&self, text: &[Y::Unit], from: usize, places: &mut [usize], marks: &mut [u8]) -> usize;

    /// Whether boundaries go on only from behind a line feed.
    fn has_words(&self) -> bool;
}

macro_rules! without_marks {
    ($($segmenter:ident),*) => { $(
        impl Finder for $segmenter {
            type Options = ();

            fn open((): ()) -> Result<Self, Error> {
                Self::new()
            }

            fn shared((): ()) -> &'static OnceLock<Self> {
                static SHARED: OnceLock<$segmenter> = OnceLock::new();
                &SHARED
            }

            #[inline]
            fn fill<Y: Encoding>(&self, text: &[Y::Unit], from: usize, places: &mut [usize], _: &mut [u8]) -> usize {
                Y::fill(self, text, from, places)
            }

            fn has_words(&self) -> bool {
                self.has_words()
            }
        }
    )* };
}

without_marks!(GraphemeSegmenter, SentenceSegmenter);

impl Finder for WordSegmenter {
    type Options = ();

    fn open((): ()) -> Result<Self, Error> {
        Self::new()
    }

    fn shared((): ()) -> &'static OnceLock<Self> {
        static SHARED: OnceLock<WordSegmenter> = OnceLock::new();
        &SHARED
    }

    #[inline]
    fn fill<Y: Encoding>(&self, text: &[Y::Unit], from: usize, places: &mut [usize], marks: &mut [u8]) -> usize {
        Y::fill_marked(self, text, from, places, marks)
    }

    fn has_words(&self) -> bool {
        self.has_words()
    }
}

const STRICTNESSES: usize = 4;
const WORD_BREAKS: usize = 3;
const LANGUAGES: usize = 2;

impl Finder for LineSegmenter {
    type Options = LineOptions;

    fn open(options: LineOptions) -> Result<Self, Error> {
        Self::new(options)
    }

    fn shared(options: LineOptions) -> &'static OnceLock<Self> {
        static SHARED: [OnceLock<LineSegmenter>; STRICTNESSES * WORD_BREAKS * LANGUAGES] =
            [const { OnceLock::new() }; STRICTNESSES * WORD_BREAKS * LANGUAGES];
        let LineOptions { strictness, word_break, chinese_or_japanese } = options;
        &SHARED[(strictness as usize * WORD_BREAKS + word_break as usize) * LANGUAGES + usize::from(chinese_or_japanese)]
    }

    #[inline]
    fn fill<Y: Encoding>(&self, text: &[Y::Unit], from: usize, places: &mut [usize], marks: &mut [u8]) -> usize {
        Y::fill_marked(self, text, from, places, marks)
    }

    fn has_words(&self) -> bool {
        self.has_words()
    }
}

/// The program's own segmenter, which is made if it isn't there yet.
fn shared<F: Finder>(options: F::Options) -> Result<&'static F, DataError> {
    let at = F::shared(options);
    if let Some(known) = at.get() {
        return Ok(known);
    }
    let made = F::open(options)?;
    Ok(at.get_or_init(|| made))
}

/// A segmenter that is borrowed: another's, or the program's own.
pub(crate) struct Borrowed<'data, F: Finder> {
    options: F::Options,
    others: Option<&'data F>,
}

impl<'data, F: Finder> Borrowed<'data, F> {
    /// The program's own.
    pub(crate) const fn shared(options: F::Options) -> Self {
        Self { options, others: None }
    }

    /// The boundaries of a text. Panics where the program's own has to be made and there is no memory for it.
    pub(crate) fn segment<'s, Y: Encoding>(self, text: &'s [Y::Unit]) -> Places<'data, 's, F, Y> {
        let finder = match self.others {
            Some(other) => other,
            None => shared(self.options).unwrap_or_else(|error| panic!("no segmenter was made: {error}")),
        };
        Places::new(finder, text)
    }
}

impl<F: Finder> Borrowed<'static, F> {
    pub(crate) const fn static_to_owned(self) -> Owned<F> {
        let holds = match self.others {
            None => Holds::Shared,
            Some(other) => Holds::Others(other),
        };
        Owned { options: self.options, holds }
    }
}

impl<F: Finder> Copy for Borrowed<'_, F> {}

impl<F: Finder> Clone for Borrowed<'_, F> {
    fn clone(&self) -> Self {
        *self
    }
}

/// A segmenter that is owned.
pub(crate) struct Owned<F: Finder> {
    options: F::Options,
    holds: Holds<F>,
}

enum Holds<F: 'static> {
    /// The program's own.
    Shared,
    Others(&'static F),
    Own(F),
}

impl<F: Finder> Owned<F> {
    /// The program's own, which is made now.
    pub(crate) fn try_shared(options: F::Options) -> Result<Self, DataError> {
        shared::<F>(options)?;
        Ok(Self { options, holds: Holds::Shared })
    }

    pub(crate) fn as_borrowed(&self) -> Borrowed<'_, F> {
        let others = match &self.holds {
            Holds::Shared => None,
            Holds::Others(other) => Some(*other),
            Holds::Own(own) => Some(own),
        };
        Borrowed { options: self.options, others }
    }

    /// One of its own, which is made if there is none yet.
    fn own(&mut self) -> Result<&mut F, DictionaryError> {
        if let Holds::Others(other) = self.holds {
            if other.has_words() {
                return Err(DictionaryError::NotOwned);
            }
        }
        if !matches!(self.holds, Holds::Own(_)) {
            self.holds = Holds::Own(F::open(self.options).map_err(ListError::from)?);
        }
        match &mut self.holds {
            Holds::Own(own) => Ok(own),
            Holds::Shared | Holds::Others(_) => unreachable!("one of its own was made"),
        }
    }
}

impl<K: 'static + Marked> Owned<Segmenter<K>>
where
    Segmenter<K>: Finder,
{
    pub(crate) fn load_dictionaries(&mut self, folder: &Path) -> Result<Vec<Script>, DictionaryError> {
        Ok(self.own()?.load_dictionaries(folder)?)
    }

    pub(crate) fn load_words<W: AsRef<[u8]>>(&mut self, words: &[W], script: Script) -> Result<(), DictionaryError> {
        Ok(self.own()?.load_dictionary(words, script).map_err(ListError::from)?)
    }
}

/// What the four pairs of an owned and a borrowed segmenter have in common.
macro_rules! segmenters {
    ($owned:ident, $borrowed:ident, $iterator:ident) => {
        impl $owned {
            /// The same segmenter, borrowed: it segments.
            pub fn as_borrowed(&self) -> $borrowed<'_> {
                $borrowed(self.0.as_borrowed())
            }
        }

        impl<'data> $borrowed<'data> {
            /// The boundaries of a text, in bytes.
            pub fn segment_str<'s>(self, input: &'s str) -> $iterator<'data, 's, $crate::scaffold::Utf8> {
                $iterator(self.0.segment(input.as_bytes()))
            }

            /// The boundaries of a text in UTF-8 that may be ill-formed, in bytes.
            pub fn segment_utf8<'s>(self, input: &'s [u8]) -> $iterator<'data, 's, $crate::scaffold::PotentiallyIllFormedUtf8> {
                $iterator(self.0.segment(input))
            }

            /// The boundaries of a text in Latin-1, in bytes.
            pub fn segment_latin1<'s>(self, input: &'s [u8]) -> $iterator<'data, 's, $crate::scaffold::Latin1> {
                $iterator(self.0.segment(input))
            }

            /// The boundaries of a text in UTF-16 that may be ill-formed, in 16-bit units.
            pub fn segment_utf16<'s>(self, input: &'s [u16]) -> $iterator<'data, 's, $crate::scaffold::Utf16> {
                $iterator(self.0.segment(input))
            }
        }

        impl $borrowed<'static> {
            /// The same segmenter, owned: it takes no time.
            pub const fn static_to_owned(self) -> $owned {
                $owned(self.0.static_to_owned())
            }
        }

        impl ::std::fmt::Debug for $owned {
            fn fmt(&self, f: &mut ::std::fmt::Formatter<'_>) -> ::std::fmt::Result {
                f.debug_struct(stringify!($owned)).finish_non_exhaustive()
            }
        }

        impl ::std::fmt::Debug for $borrowed<'_> {
            fn fmt(&self, f: &mut ::std::fmt::Formatter<'_>) -> ::std::fmt::Result {
                f.debug_struct(stringify!($borrowed)).finish_non_exhaustive()
            }
        }
    };
}

pub(crate) use segmenters;
