//! What segmenters take, and what they say.
use yengatomu::{LineOptions, Strictness, WordBreak};

use crate::LanguageIdentifier;

/// How strictly lines break: `line-break` of CSS Text 3.
#[non_exhaustive]
#[derive(Copy, Clone, PartialEq, Eq, Debug, Default)]
pub enum LineBreakStrictness {
    /// The fewest rules, as `line-break: loose`.
    Loose,
    /// As `line-break: normal`.
    Normal,
    /// The most rules, as `line-break: strict`.
    #[default]
    Strict,
    /// Lines break at each grapheme cluster, as `line-break: anywhere`; but a word option other than [`LineBreakWordOption::Normal`] overrides it.
    Anywhere,
}

/// Whether lines break in words: `word-break` of CSS Text 3.
#[non_exhaustive]
#[derive(Copy, Clone, PartialEq, Eq, Debug, Default)]
pub enum LineBreakWordOption {
    /// As is usual in each script.
    #[default]
    Normal,
    /// Between any two letters, as `word-break: break-all`.
    BreakAll,
    /// Not between ideographs either, as `word-break: keep-all`.
    KeepAll,
}

/// Where lines may break.
///
/// ```
/// use icu_segmenter::options::{LineBreakOptions, LineBreakStrictness};
/// use icu_segmenter::{LanguageIdentifier, LineSegmenter};
///
/// let japanese: LanguageIdentifier = "ja".parse()?;
/// let mut options = LineBreakOptions::default();
/// options.strictness = Some(LineBreakStrictness::Normal);
/// options.content_locale = Some(&japanese);
/// let lines = LineSegmenter::new_auto(options);
/// assert!(lines.segment_str("一〜一").eq([0, 3, 6, 9]));
/// # Ok::<(), icu_segmenter::ParseError>(())
/// ```
#[non_exhaustive]
#[derive(Copy, Clone, PartialEq, Eq, Debug, Default)]
pub struct LineBreakOptions<'a> {
    /// `line-break`; none: [`LineBreakStrictness::Strict`].
    pub strictness: Option<LineBreakStrictness>,
    /// `word-break`; none: [`LineBreakWordOption::Normal`].
    pub word_option: Option<LineBreakWordOption>,
    /// The language of the text: CSS Text 3 has rules of its own for `zh` and `ja`. None: neither.
    pub content_locale: Option<&'a LanguageIdentifier>,
}

impl LineBreakOptions<'_> {
    /// No option is chosen.
    #[must_use]
    pub const fn default() -> Self {
        Self { strictness: None, word_option: None, content_locale: None }
    }

    /// The same as the library takes it.
    pub(crate) const fn resolved(self) -> LineOptions {
        let strictness = match self.strictness {
            Some(LineBreakStrictness::Loose) => Strictness::Loose,
            Some(LineBreakStrictness::Normal) => Strictness::Normal,
            Some(LineBreakStrictness::Strict) | None => Strictness::Strict,
            Some(LineBreakStrictness::Anywhere) => Strictness::Anywhere,
        };
        let word_break = match self.word_option {
            Some(LineBreakWordOption::Normal) | None => WordBreak::Normal,
            Some(LineBreakWordOption::BreakAll) => WordBreak::BreakAll,
            Some(LineBreakWordOption::KeepAll) => WordBreak::KeepAll,
        };
        let chinese_or_japanese = match self.content_locale {
            Some(locale) => locale.is_chinese_or_japanese(),
            None => false,
        };
        LineOptions { strictness, word_break, chinese_or_japanese }
    }
}

/// What words are found by. There is no choice.
#[non_exhaustive]
#[derive(Copy, Clone, PartialEq, Eq, Debug, Default)]
pub struct WordBreakInvariantOptions {}

impl WordBreakInvariantOptions {
    /// The only one.
    #[must_use]
    pub const fn default() -> Self {
        Self {}
    }
}

/// What words are found by, with a language, which changes nothing: the rules of UAX #29 are those of every language here.
#[non_exhaustive]
#[derive(Copy, Clone, PartialEq, Eq, Debug, Default)]
pub struct WordBreakOptions<'a> {
    /// The language of the text. Not read.
    pub content_locale: Option<&'a LanguageIdentifier>,
    /// The options that have no language. Not read.
    pub invariant_options: WordBreakInvariantOptions,
}

impl WordBreakOptions<'_> {
    /// No option is chosen.
    #[must_use]
    pub const fn default() -> Self {
        Self { content_locale: None, invariant_options: WordBreakInvariantOptions::default() }
    }
}

/// What sentences are found by. There is no choice.
#[non_exhaustive]
#[derive(Copy, Clone, PartialEq, Eq, Debug, Default)]
pub struct SentenceBreakInvariantOptions {}

impl SentenceBreakInvariantOptions {
    /// The only one.
    #[must_use]
    pub const fn default() -> Self {
        Self {}
    }
}

/// What sentences are found by, with a language, which changes nothing: the rules of UAX #29 are those of every language here.
#[non_exhaustive]
#[derive(Copy, Clone, PartialEq, Eq, Debug, Default)]
pub struct SentenceBreakOptions<'a> {
    /// The language of the text. Not read.
    pub content_locale: Option<&'a LanguageIdentifier>,
    /// The options that have no language. Not read.
    pub invariant_options: SentenceBreakInvariantOptions,
}

impl SentenceBreakOptions<'_> {
    /// No option is chosen.
    #[must_use]
    pub const fn default() -> Self {
        Self { content_locale: None, invariant_options: SentenceBreakInvariantOptions::default() }
    }
}

/// What ends at a boundary of words.
#[non_exhaustive]
#[derive(Copy, Clone, PartialEq, Eq, Debug)]
#[repr(u8)]
pub enum WordType {
    /// No word: spaces, punctuation, symbols.
    None = 0,
    /// A number.
    Number = 1,
    /// A word of letters, syllables or ideographs.
    Letter = 2,
}

impl WordType {
    /// Whether it is a word: of letters, or a number.
    #[must_use]
    pub fn is_word_like(&self) -> bool {
        *self != Self::None
    }
}
