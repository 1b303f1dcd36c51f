//! What segmenters take, and what they say.
use std::fmt;

use yengatomu_sys as sys;

/// Where lines may break.
///
/// The default is [`Strictness::Strict`] and [`WordBreak::Normal`], for text that is neither Chinese nor Japanese.
///
/// ```
/// # use yengatomu::{LineOptions, Strictness};
/// let options = LineOptions { strictness: Strictness::Loose, ..LineOptions::default() };
/// ```
#[derive(Clone, Copy, Debug, Default, PartialEq, Eq, Hash)]
pub struct LineOptions {
    /// `line-break` of CSS Text 3.
    pub strictness: Strictness,
    /// `word-break` of CSS Text 3.
    pub word_break: WordBreak,
    /// Whether the text is Chinese or Japanese, of which CSS Text 3 has rules of its own.
    pub chinese_or_japanese: bool,
}

/// How strictly lines break: `line-break` of CSS Text 3.
#[derive(Clone, Copy, Debug, Default, PartialEq, Eq, Hash)]
#[repr(u32)]
pub enum Strictness {
    /// The most rules, as `line-break: strict`.
    #[default]
    Strict = sys::YENGATOMU_STRICT,
    /// As `line-break: normal`.
    Normal = sys::YENGATOMU_NORMAL,
    /// The fewest rules, as `line-break: loose`.
    Loose = sys::YENGATOMU_LOOSE,
    /// Lines break at each grapheme cluster, as `line-break: anywhere`. A word option other than normal overrides it.
    Anywhere = sys::YENGATOMU_ANYWHERE,
}

/// Whether lines break in words: `word-break` of CSS Text 3.
#[derive(Clone, Copy, Debug, Default, PartialEq, Eq, Hash)]
#[repr(u32)]
pub enum WordBreak {
    /// As is usual in each script.
    #[default]
    Normal = sys::YENGATOMU_BREAK_NORMAL,
    /// Between any two letters, as `word-break: break-all`.
    BreakAll = sys::YENGATOMU_BREAK_ALL,
    /// Not between ideographs either, as `word-break: keep-all`.
    KeepAll = sys::YENGATOMU_KEEP_ALL,
}

/// A script that is written without spaces, whose words a dictionary lists.
#[derive(Clone, Copy, Debug, PartialEq, Eq, Hash)]
#[repr(u32)]
pub enum Script {
    /// Myanmar.
    Myanmar = sys::YENGATOMU_MYANMAR,
    /// Chinese or Japanese. Lines don't need it.
    ChineseOrJapanese = sys::YENGATOMU_CHINESE_OR_JAPANESE,
    /// Khmer.
    Khmer = sys::YENGATOMU_KHMER,
    /// Lao.
    Lao = sys::YENGATOMU_LAO,
    /// Thai.
    Thai = sys::YENGATOMU_THAI,
}

/// What a segment between two word boundaries is.
#[derive(Clone, Copy, Debug, PartialEq, Eq, Hash)]
#[repr(u8)]
pub enum WordType {
    /// No word: spaces, punctuation, symbols.
    None = sys::YENGATOMU_NO_WORD,
    /// A number.
    Number = sys::YENGATOMU_NUMBER,
    /// A word of letters, syllables or ideographs.
    Letters = sys::YENGATOMU_LETTERS,
}

impl WordType {
    /// Whether it is a word: of letters, or a number.
    #[must_use]
    pub fn is_word(self) -> bool {
        self != Self::None
    }

    #[inline]
    pub(crate) fn of_mark(mark: u8) -> Self {
        match mark {
            sys::YENGATOMU_NUMBER => Self::Number,
            sys::YENGATOMU_LETTERS => Self::Letters,
            _ => Self::None,
        }
    }
}

/// Whether a line must break where a segment ends.
#[derive(Clone, Copy, Debug, PartialEq, Eq, Hash)]
pub enum LineBreak {
    /// A line may break here, but needn't.
    Allowed,
    /// A line breaks here, as behind a line feed.
    Mandatory,
}

/// A line of wrapped text.
#[derive(Clone, Copy, Debug, PartialEq, Eq, Hash)]
pub struct Line<'t, S: ?Sized> {
    /// Where the line begins, in bytes from the start of the text.
    pub start: usize,
    /// The line, with the spaces and the line feed at its end.
    pub text: &'t S,
    /// How many columns it takes, without the spaces, line feeds and carriage returns at its end.
    pub columns: usize,
}

/// Why a segmenter wasn't made, or took no words.
#[derive(Clone, Copy, Debug, PartialEq, Eq, Hash)]
#[non_exhaustive]
pub enum Error {
    /// Out of memory.
    OutOfMemory,
    /// A word of a dictionary, or an abbreviation, isn't UTF-8.
    NotUtf8,
    /// A word of a dictionary, or an abbreviation, has a line feed in it.
    LineFeed,
    /// The segmenter has abbreviations already.
    HasAbbreviations,
    /// A line of rules is wrong: its number, from 1 on.
    WrongRules(usize),
    /// Rules are too large, or need to know too much of the text to be followed: the line of a rule that shows it, if one does.
    NoMachine(Option<usize>),
    /// The library doesn't know the kind, option or script: it is of another version than this crate.
    NotSupported,
}

impl fmt::Display for Error {
    fn fmt(&self, f: &mut fmt::Formatter<'_>) -> fmt::Result {
        match self {
            Self::OutOfMemory => f.write_str("out of memory"),
            Self::NotUtf8 => f.write_str("a word isn't UTF-8"),
            Self::LineFeed => f.write_str("a word has a line feed in it"),
            Self::HasAbbreviations => f.write_str("the segmenter has abbreviations already"),
            Self::WrongRules(line) => write!(f, "line {line} of the rules is wrong"),
            Self::NoMachine(Some(line)) => write!(f, "the rules can't be followed, as line {line} shows"),
            Self::NoMachine(None) => f.write_str("the rules can't be followed"),
            Self::NotSupported => f.write_str("libyengatomu doesn't support it"),
        }
    }
}

impl std::error::Error for Error {}
