//! Language identifiers, as `ja-JP`.
use std::error::Error;
use std::fmt;
use std::str::FromStr;

/// The longest language that Unicode's locale identifiers have.
const LONGEST_LANGUAGE: usize = 8;

/// The language of a text, with its script, region and variants, as `zh-Hant-TW`.
///
/// It is parsed as Unicode's language identifiers are: subtags between `-` or `_`, in upper or lower case. The crate reads only whether the language is `zh` or
/// `ja`.
///
/// ```
/// use icu_segmenter::LanguageIdentifier;
///
/// let japanese: LanguageIdentifier = "JA_jp".parse()?;
/// assert_eq!(japanese.language(), "ja");
/// assert_eq!(japanese.to_string(), "ja-JP");
/// assert!("j".parse::<LanguageIdentifier>().is_err());
/// # Ok::<(), icu_segmenter::ParseError>(())
/// ```
#[derive(Clone, Debug, PartialEq, Eq, PartialOrd, Ord, Hash)]
pub struct LanguageIdentifier {
    /// The language in lower case, filled up with zeros; only zeros where it is unknown.
    language: [u8; LONGEST_LANGUAGE],
    /// What follows it, with its hyphens, as it is written by rule.
    rest: String,
}

/// What was parsed is no language identifier.
#[derive(Clone, Copy, Debug, PartialEq, Eq)]
pub struct ParseError;

impl fmt::Display for ParseError {
    fn fmt(&self, f: &mut fmt::Formatter<'_>) -> fmt::Result {
        f.write_str("no language identifier")
    }
}

impl Error for ParseError {}

impl LanguageIdentifier {
    /// An unknown language: `und`.
    pub const UNKNOWN: Self = Self { language: [0; LONGEST_LANGUAGE], rest: String::new() };

    /// Parses an identifier.
    ///
    /// # Errors
    ///
    /// [`ParseError`] where it is none.
    pub fn try_from_str(text: &str) -> Result<Self, ParseError> {
        let mut subtags = text.split(['-', '_']).peekable();
        let language = subtags.next().and_then(language_of).ok_or(ParseError)?;
        let mut rest = String::new();
        if let Some(script) = subtags.next_if(|subtag| subtag.len() == 4 && is_letters(subtag)) {
            rest.push('-');
            rest.push_str(&script[..1].to_ascii_uppercase());
            rest.push_str(&script[1..].to_ascii_lowercase());
        }
        if let Some(region) = subtags.next_if(|subtag| is_region(subtag)) {
            rest.push('-');
            rest.push_str(&region.to_ascii_uppercase());
        }
        for variant in variants_of(subtags)? {
            rest.push('-');
            rest.push_str(&variant);
        }
        Ok(Self { language, rest })
    }

    /// The language alone, in lower case, as `ja`; `und` where it is unknown.
    #[must_use]
    pub fn language(&self) -> &str {
        let length = self.language.iter().position(|&byte| byte == 0).unwrap_or(LONGEST_LANGUAGE);
        match std::str::from_utf8(&self.language[..length]) {
            Ok(known) if length > 0 => known,
            _ => "und",
        }
    }

    /// Whether the language is Chinese or Japanese.
    pub(crate) const fn is_chinese_or_japanese(&self) -> bool {
        matches!(self.language, [b'z', b'h', 0, ..] | [b'j', b'a', 0, ..])
    }
}

fn is_letters(subtag: &str) -> bool {
    subtag.bytes().all(|byte| byte.is_ascii_alphabetic())
}

fn is_region(subtag: &str) -> bool {
    let is_number = subtag.bytes().all(|byte| byte.is_ascii_digit());
    subtag.len() == 2 && is_letters(subtag) || subtag.len() == 3 && is_number
}

fn is_variant(subtag: &str) -> bool {
    let is_long = (5..=8).contains(&subtag.len());
    let is_year = subtag.len() == 4 && subtag.as_bytes()[0].is_ascii_digit();
    (is_long || is_year) && subtag.bytes().all(|byte| byte.is_ascii_alphanumeric())
}

fn language_of(subtag: &str) -> Option<[u8; LONGEST_LANGUAGE]> {
    if !matches!(subtag.len(), 2 | 3 | 5..=LONGEST_LANGUAGE) || !is_letters(subtag) {
        return None;
    }
    let mut language = [0; LONGEST_LANGUAGE];
    if !subtag.eq_ignore_ascii_case("und") {
        language[..subtag.len()].copy_from_slice(subtag.as_bytes());
        language.make_ascii_lowercase();
    }
    Some(language)
}

/// The variants in lower case and in order. There is no other subtag behind a region, and none twice.
fn variants_of<'t>(subtags: impl Iterator<Item = &'t str>) -> Result<Vec<String>, ParseError> {
    let mut variants = Vec::new();
    for subtag in subtags {
        let variant = subtag.to_ascii_lowercase();
        if !is_variant(subtag) || variants.contains(&variant) {
            return Err(ParseError);
        }
        variants.push(variant);
    }
    variants.sort();
    Ok(variants)
}

impl Default for LanguageIdentifier {
    fn default() -> Self {
        Self::UNKNOWN
    }
}

impl FromStr for LanguageIdentifier {
    type Err = ParseError;

    fn from_str(text: &str) -> Result<Self, ParseError> {
        Self::try_from_str(text)
    }
}

impl fmt::Display for LanguageIdentifier {
    fn fmt(&self, f: &mut fmt::Formatter<'_>) -> fmt::Result {
        f.write_str(self.language())?;
        f.write_str(&self.rest)
    }
}
