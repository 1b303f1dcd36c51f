//! What is done to a text before it is cut or wrapped.
use crate::feed::Wraps;
use crate::iter::Lines;
use crate::text::{Slice, Unit};
use crate::{LineSegmenter, Text};

type Owned<T> = <<T as Text>::Slice as Slice>::Owned;

fn is_white_space<U: Unit>(unit: &U) -> bool {
    b" \t\n\r".iter().any(|&it| *unit == it.into())
}

/// The indentation of a line, unless that is blank, quoted or begins as a signature does.
fn indentation<U: Unit>(line: &[U]) -> Option<&[U]> {
    let indented = line.iter().take_while(|unit| is_white_space(*unit)).count();
    let (indentation, words) = line.split_at(indented);
    let begins = |with: &[u8]| words.len() >= with.len() && words.iter().zip(with).all(|(&unit, &byte)| unit == byte.into());
    (!words.is_empty() && !begins(b">") && !begins(b"-- ")).then_some(indentation)
}

/// The text in which the lines of each paragraph are joined, as by `fmt` and by the program `segment` with `--join`.
///
/// A line feed between two words becomes one space, with the spaces, tabs and carriage returns around it. All stays where lines are blank, indented
/// otherwise, or begin with `>` or `-- `, as the quotes and signatures of mail do, and at the text's start and end.
///
/// ```
/// assert_eq!(yengatomu::join_lines("It was\nlate.\n\n  We\r\n  left.\n"), "It was late.\n\n  We left.\n");
/// ```
pub fn join_lines<T: ?Sized + Text>(text: &T) -> Owned<T> {
    let mut made: Vec<<T::Slice as Slice>::Unit> = Vec::new();
    let mut before = None;
    for (number, line) in text.as_slice().units().split(|&unit| unit == b'\n'.into()).enumerate() {
        let indented = indentation(line);
        let joins = number > 0 && indented.is_some() && indented == before;
        if joins {
            made.truncate(made.iter().rposition(|unit| !is_white_space(unit)).map_or(0, |it| it + 1));
            made.push(b' '.into());
        } else if number > 0 {
            made.push(b'\n'.into());
        }
        made.extend_from_slice(&line[indented.filter(|_| joins).map_or(0, <[_]>::len)..]);
        before = indented;
    }
    T::Slice::owned(made)
}

impl LineSegmenter {
    /// The text in which each tab is the spaces up to the next multiple of so many columns of its line, at least one, as by `expand` and by the
    /// program `segment` with `--tabs`. Lines end with line feeds. For 0 columns there are no spaces.
    ///
    /// The columns are those of [`wrap`](Self::wrap): of wide characters two, of marks none; or by cluster, where the segmenter counts so, which the
    /// program doesn't. So it takes a segmenter of lines, of any options.
    ///
    /// ```
    /// use yengatomu::{LineOptions, LineSegmenter};
    ///
    /// let lines = LineSegmenter::new(LineOptions::default()).unwrap();
    /// assert_eq!(lines.expand_tabs("東\tb\n\tc", 4), "東  b\n    c");
    /// ```
    pub fn expand_tabs<T: ?Sized + Text>(&self, text: &T, columns: usize) -> Owned<T> {
        let mut rest = text.as_slice();
        let mut made = Vec::with_capacity(rest.units().len());
        let is_stop = |&unit: &<T::Slice as Slice>::Unit| unit == b'\t'.into() || unit == b'\n'.into();
        while let Some(end) = rest.units().iter().position(is_stop) {
            let (field, behind) = rest.split(end);
            let (stop, behind) = behind.split(1);
            made.extend_from_slice(field.units());
            if stop.units()[0] == b'\n'.into() {
                made.push(b'\n'.into());
            } else if columns > 0 {
                let spaces = columns - self.width(field) % columns;
                made.resize(made.len() + spaces, b' '.into());
            }
            rest = behind;
        }
        made.extend_from_slice(rest.units());
        T::Slice::owned(made)
    }

    /// The columns of a text in the middle of a line: those of its lines, with the spaces at their ends.
    fn width<S: ?Sized + Slice>(&self, text: &S) -> usize {
        Lines::new(Wraps { slot: self.slot(), text, columns: usize::MAX })
            .map(|line| {
                let units = line.text.units();
                let trailing = units.iter().rev().take_while(|unit| is_white_space(*unit));
                line.columns + trailing.filter(|&&unit| unit == b' '.into()).count()
            })
            .sum()
    }
}
