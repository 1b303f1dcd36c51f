//! Dictionaries, which the original has compiled in: here a segmenter takes those that it is given.
use std::{error, fmt};

pub use yengatomu::{DictionaryError as ListError, Error, Script};

/// Why a segmenter took no dictionary.
#[derive(Debug)]
#[non_exhaustive]
pub enum DictionaryError {
    /// A list can't be taken, or there is no memory.
    Lists(ListError),
    /// The segmenter was made by `static_to_owned` from one that has dictionaries: those belong to another segmenter, which is the one that takes more.
    NotOwned,
}

impl From<ListError> for DictionaryError {
    fn from(error: ListError) -> Self {
        Self::Lists(error)
    }
}

impl fmt::Display for DictionaryError {
    fn fmt(&self, f: &mut fmt::Formatter<'_>) -> fmt::Result {
        match self {
            Self::Lists(error) => error.fmt(f),
            Self::NotOwned => f.write_str("the dictionaries belong to another segmenter"),
        }
    }
}

impl error::Error for DictionaryError {
    fn source(&self) -> Option<&(dyn error::Error + 'static)> {
        match self {
            Self::Lists(error) => Some(error),
            Self::NotOwned => None,
        }
    }
}

/// The calls that give an owned segmenter dictionaries; `$made` makes one, in the examples.
macro_rules! takes_dictionaries {
    ($owned:ident, $made:literal) => {
        impl $owned {
            /// Takes the dictionaries of a folder: `thai.txt`, `lao.txt`, `khmer.txt`, `myanmar.txt` and, of words, `cj.txt`, as many as there are. They
            /// are as `tools/dictionaries` of the repository writes them: UTF-8, a word a line. Returns their scripts. A script that has a dictionary keeps
            /// it.
            ///
            /// The segmenter becomes one of its own, which no other shares. To load all five lists takes about 0.2 seconds, so do it once, for a segmenter
            /// that the program keeps:
            ///
            /// ```no_run
            /// use std::sync::LazyLock;
            #[doc = concat!("use icu_segmenter::", stringify!($owned), ";")]
            ///
            #[doc = concat!("static THAI: LazyLock<", stringify!($owned), "> = LazyLock::new(|| {")]
            #[doc = concat!("    let mut made = ", $made, ";")]
            ///     made.load_dictionaries("words").unwrap();
            ///     made
            /// });
            /// assert!(THAI.as_borrowed().segment_str("ภาษาไทย").eq([0, 12, 21]));
            /// ```
            ///
            /// # Errors
            ///
            /// [`DictionaryError`]($crate::dictionaries::DictionaryError): the segmenter then segments as before, but out of memory it may have some of the
            /// lists.
            pub fn load_dictionaries(
                &mut self,
                folder: impl AsRef<::std::path::Path>,
            ) -> Result<Vec<$crate::dictionaries::Script>, $crate::dictionaries::DictionaryError> {
                self.0.load_dictionaries(folder.as_ref())
            }

            /// Takes a dictionary: the words of a script that is written without spaces, in any order. White space around a word isn't part of it, and blank
            /// words are left out; so they may be lines of a file. A script that has a dictionary keeps it.
            ///
            /// ```
            /// use icu_segmenter::dictionaries::Script;
            #[doc = concat!("use icu_segmenter::", stringify!($owned), ";")]
            ///
            #[doc = concat!("let mut thai = ", $made, ";")]
            /// thai.load_words(&["ภาษา", "ไทย"], Script::Thai).unwrap();
            /// assert!(thai.as_borrowed().segment_str("ภาษาไทย").eq([0, 12, 21]));
            /// ```
            ///
            /// # Errors
            ///
            /// [`DictionaryError`]($crate::dictionaries::DictionaryError): the segmenter then segments as before.
            pub fn load_words<W: AsRef<[u8]>>(
                &mut self,
                words: &[W],
                script: $crate::dictionaries::Script,
            ) -> Result<(), $crate::dictionaries::DictionaryError> {
                self.0.load_words(words, script)
            }
        }
    };
}

pub(crate) use takes_dictionaries;
