//! Words of dictionaries and abbreviations, and lists of them in files.
use std::path::{Path, PathBuf};
use std::{error, fmt, fs, io};

use crate::{Error, Script};

/// The lists that a folder may have, as `tools/dictionaries` of the repository writes them.
const LISTS: [(&str, Script); 5] = [
    ("thai.txt", Script::Thai),
    ("lao.txt", Script::Lao),
    ("khmer.txt", Script::Khmer),
    ("myanmar.txt", Script::Myanmar),
    ("cj.txt", Script::ChineseOrJapanese),
];
const MARK: char = '\u{feff}';

/// The words of a list: its lines without the white space around them, but for blank ones.
pub(crate) fn words_in(list: &str) -> impl Iterator<Item = &str> {
    list.trim_start_matches(MARK).lines().map(str::trim).filter(|word| !word.is_empty())
}

/// A list of these words.
pub(crate) fn listed<W: AsRef<[u8]>>(words: &[W]) -> Result<String, Error> {
    let mut list = String::with_capacity(words.iter().map(|word| word.as_ref().len() + 1).sum());
    for word in words {
        let word = std::str::from_utf8(word.as_ref()).map_err(|_| Error::NotUtf8)?;
        if word.trim().contains('\n') {
            return Err(Error::LineFeed);
        }
        list.push_str(word);
        list.push('\n');
    }
    Ok(list)
}

/// The texts of the lists in a folder, each with its script; of lines without that of Chinese and Japanese, of which they take none.
pub(crate) fn lists_in(folder: &Path, of_lines: bool) -> Result<Vec<(String, Script)>, DictionaryError> {
    fs::metadata(folder).map_err(|error| DictionaryError::Unreadable(folder.to_owned(), error))?;
    let mut is_there = false;
    let mut found = Vec::new();
    for (name, script) in LISTS {
        let path = folder.join(name);
        if !path.exists() {
            continue;
        }
        is_there = true;
        if of_lines && script == Script::ChineseOrJapanese {
            continue;
        }
        found.push((list_at(&path)?, script));
    }
    if is_there {
        Ok(found)
    } else {
        Err(DictionaryError::NoLists(folder.to_owned()))
    }
}

/// The text of a list.
fn list_at(path: &Path) -> Result<String, DictionaryError> {
    let bytes = fs::read(path).map_err(|error| DictionaryError::Unreadable(path.to_owned(), error))?;
    let text = String::from_utf8(bytes).map_err(|_| DictionaryError::NotUtf8(path.to_owned()))?;
    if text.trim_start_matches(MARK).trim().is_empty() {
        return Err(DictionaryError::NoWords(path.to_owned()));
    }
    Ok(text)
}

/// The text of the list of a language's abbreviations in a folder.
pub(crate) fn abbreviations_in(folder: &Path, language: &str) -> Result<String, DictionaryError> {
    list_at(&folder.join(format!("abbreviations-{language}.txt")))
}

/// Why a folder's lists of words weren't loaded.
#[derive(Debug)]
#[non_exhaustive]
pub enum DictionaryError {
    /// The folder has no list.
    NoLists(PathBuf),
    /// The folder or a list can't be read.
    Unreadable(PathBuf, io::Error),
    /// A list isn't UTF-8.
    NotUtf8(PathBuf),
    /// A list has no words.
    NoWords(PathBuf),
    /// The library took no words: out of memory, or it has abbreviations already.
    Library(Error),
}

impl fmt::Display for DictionaryError {
    fn fmt(&self, f: &mut fmt::Formatter<'_>) -> fmt::Result {
        match self {
            Self::NoLists(folder) => {
                write!(f, "{}: there is no thai.txt, lao.txt, khmer.txt, myanmar.txt or cj.txt in it", folder.display())
            }
            Self::Unreadable(path, error) => write!(f, "{}: {error}", path.display()),
            Self::NotUtf8(path) => write!(f, "{}: it isn't UTF-8", path.display()),
            Self::NoWords(path) => write!(f, "{}: it has no words", path.display()),
            Self::Library(error) => error.fmt(f),
        }
    }
}

impl error::Error for DictionaryError {
    fn source(&self) -> Option<&(dyn error::Error + 'static)> {
        match self {
            Self::Unreadable(_, error) => Some(error),
            Self::Library(error) => Some(error),
            Self::NoLists(_) | Self::NotUtf8(_) | Self::NoWords(_) => None,
        }
    }
}

impl From<Error> for DictionaryError {
    fn from(error: Error) -> Self {
        Self::Library(error)
    }
}
