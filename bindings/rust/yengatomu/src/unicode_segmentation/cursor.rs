//! A cursor over the clusters of a text that comes in chunks.
//!
//! A cluster boundary depends on the characters beside it and, by UAX #29 of Unicode 18.0, on three things before the last of them: whether an
//! odd number of regional indicators stands there (GB12, GB13), an emoji with marks behind it (GB11), or a linker of conjuncts with marks behind
//! it (GB9c). So all texts that may stand before a chunk are as one of five: [`BEFORE`]. Where a question has the same answer behind each of them, no
//! more of the text is needed; where it hasn't, the answers are kept until the chunk before comes, and are asked for by what that makes of each.
use super::Kind;
use crate::raw::Calls;

/// What a chunk was that isn't enough for an answer: which text the cursor needs.
#[derive(Clone, Copy, Debug, PartialEq, Eq)]
pub enum GraphemeIncomplete {
    /// More of the text before is needed: call [`provide_context`](GraphemeCursor::provide_context) with a chunk that ends at this place, in
    /// bytes, and ask again. The place is always one where a chunk began, and above 0.
    PreContext(usize),
    /// [`prev_boundary`](GraphemeCursor::prev_boundary) has come to the chunk's start: ask again with the chunk before. It comes only where
    /// the chunk doesn't begin at 0.
    PrevChunk,
    /// [`next_boundary`](GraphemeCursor::next_boundary) has come to the chunk's end: ask again with the chunk behind. It comes only where the
    /// chunk ends before the text.
    NextChunk,
    /// The chunk doesn't have the cursor's place, or ends there, so that the character behind it isn't known.
    InvalidOffset,
}

/// The texts that all others are like, as what stands before: nothing, a regional indicator, an emoji, a linker, an emoji with a linker.
const BEFORE: [&str; 5] = ["", FLAG, EMOJI, "\u{94d}", "\u{1f469}\u{94d}"];
const FLAG: &str = "\u{1f1e6}";
const EMOJI: &str = "\u{1f469}";
const CONSONANT: &str = "\u{915}";
const JOINER: &str = "\u{200d}";

/// Something for each of these texts, or such a text by its number.
type ByBefore<T> = [T; BEFORE.len()];
type Before = usize;

/// What is known of an answer.
#[derive(Clone, Copy, Debug)]
enum Known<T> {
    Sure(T),
    /// It is this by what stands before the place.
    By(usize, ByBefore<T>),
}

impl<T: Copy> Known<T> {
    fn map<R: Copy + PartialEq>(self, call: impl FnMut(T) -> R) -> Known<R> {
        let mut call = call;
        match self {
            Self::Sure(one) => Known::Sure(call(one)),
            Self::By(place, each) => sure_where_equal(place, each.map(call)),
        }
    }
}

fn sure_where_equal<T: Copy + PartialEq>(place: usize, each: ByBefore<T>) -> Known<T> {
    if each.iter().all(|one| *one == each[0]) {
        Known::Sure(each[0])
    } else {
        Known::By(place, each)
    }
}

/// The text before a place: its last character, and what stands before that.
#[derive(Clone, Copy, Debug)]
struct Behind {
    place: usize,
    last: char,
    before: Known<Before>,
}

impl Behind {
    /// What stands before the place.
    fn state(&self) -> Known<Before> {
        self.before.map(|before| state_behind(before, self.last.encode_utf8(&mut [0; 4])))
    }
}

/// What is asked about the text before a place.
#[derive(Clone, Copy, Debug)]
enum Question {
    /// Whether a cluster ends there, before this character.
    Ends(char),
    /// Which of these answers it gives.
    Which(ByBefore<bool>),
}

#[derive(Clone, Copy, Debug, PartialEq, Eq)]
enum Toward {
    Start,
    End,
}

/// Whether the text has a boundary at a place above 0.
fn has_boundary(text: &str, place: usize) -> bool {
    Calls::next(Kind::Grapheme.slot(), text.as_bytes(), place - 1) == Some(place)
}

/// Whether a cluster ends behind a text, before a character.
fn ends(before: Before, text: &str, after: char) -> bool {
    let mut whole = [BEFORE[before], text].concat();
    let place = whole.len();
    whole.push(after);
    has_boundary(&whole, place)
}

/// Which text is as one of these with another behind it.
fn state_behind(before: Before, text: &str) -> Before {
    let start = [BEFORE[before], text].concat();
    // Whether two more characters, or texts, are parted.
    let parts = |one: &str, other: &str| has_boundary(&[start.as_str(), one, other].concat(), start.len() + one.len());
    if parts(FLAG, FLAG) {
        return 1;
    }
    match (parts(JOINER, EMOJI), parts(JOINER, CONSONANT)) {
        (true, true) => 0,
        (false, true) => 2,
        (true, false) => 3,
        (false, false) => 4,
    }
}

/// What is known of an answer about a text that begins at a place. It asks about its end first, and about twice as much where that isn't enough.
fn known<T: Copy + PartialEq>(text: &str, start: usize, answer: impl Fn(Before, &str) -> T) -> Known<T> {
    let mut count = 1;
    loop {
        let from = text.char_indices().rev().nth(count - 1).map_or(0, |(place, _)| place);
        let end = &text[from..];
        if from == 0 && start == 0 {
            return Known::Sure(answer(0, end));
        }
        let found = sure_where_equal(start, std::array::from_fn(|before| answer(before, end)));
        if from == 0 || matches!(found, Known::Sure(_)) {
            return found;
        }
        count *= 2;
    }
}

/// A cursor over the grapheme clusters of a text that may come in chunks, as that of a rope or of an editor.
///
/// It begins at a place of a text whose length is given. Each question comes with a chunk of the text and the place where that begins, and is
/// answered, or refused with what is needed as well: [`GraphemeIncomplete`]. Answers are those of the whole text, however it is cut into chunks.
/// The cursor keeps no text.
///
/// Places are in bytes, and have to be between characters. Chunks have to be of one text, and to hold the cursor's place.
///
/// ```
/// use yengatomu::unicode_segmentation::{GraphemeCursor, GraphemeIncomplete};
///
/// let text = "e\u{301}🇻🇳";
/// let mut cursor = GraphemeCursor::new(0, text.len(), true);
/// assert_eq!(cursor.next_boundary(text, 0), Ok(Some(3)));
/// assert_eq!(cursor.next_boundary(text, 0), Ok(Some(11)));
/// assert_eq!(cursor.next_boundary(text, 0), Ok(None));
///
/// // In two chunks, which part the flag.
/// let (first, second) = text.split_at(7);
/// let mut cursor = GraphemeCursor::new(7, text.len(), true);
/// assert_eq!(cursor.is_boundary(second, 7), Err(GraphemeIncomplete::PreContext(7)));
/// cursor.provide_context(first, 0);
/// assert_eq!(cursor.is_boundary(second, 7), Ok(false));
/// ```
///
/// What `is_extended` says isn't heeded: clusters are extended ones.
#[derive(Clone, Debug)]
pub struct GraphemeCursor {
    offset: usize,
    len: usize,
    /// Whether its place is a boundary, where that is known.
    is_boundary: Option<bool>,
    /// The character behind its place, where a chunk had it.
    after: Option<char>,
    /// What a chunk left of the text before a place.
    behind: Option<Behind>,
    /// What has to be known of the text before a place.
    wanted: Option<(usize, Question)>,
    /// Where it is going, if it has moved on and hasn't yet found out whether its place is a boundary.
    going: Option<Toward>,
}

impl GraphemeCursor {
    /// A cursor at a place of a text of `len` bytes.
    #[must_use]
    pub fn new(offset: usize, len: usize, _is_extended: bool) -> Self {
        let mut cursor = Self { offset, len, is_boundary: None, after: None, behind: None, wanted: None, going: None };
        cursor.move_to(offset);
        cursor
    }

    fn move_to(&mut self, offset: usize) {
        self.offset = offset;
        self.is_boundary = (offset == 0 || offset == self.len).then_some(true);
        self.after = None;
        self.wanted = None;
        self.going = None;
    }

    /// Moves it to another place of the text.
    pub fn set_cursor(&mut self, offset: usize) {
        if offset != self.offset {
            self.move_to(offset);
        }
    }

    /// The place where it is: that of `new`, of `set_cursor` or of the last boundary; and, where [`GraphemeIncomplete`] was returned, how far it has come.
    #[must_use]
    pub fn cur_cursor(&self) -> usize {
        self.offset
    }

    /// Takes a chunk that ends where [`GraphemeIncomplete::PreContext`] said. Then ask the question again.
    ///
    /// # Panics
    ///
    /// Where nothing was asked for, or the chunk ends elsewhere.
    pub fn provide_context(&mut self, chunk: &str, chunk_start: usize) {
        let (place, question) = self.wanted.expect("a chunk was asked for");
        assert_eq!(chunk_start + chunk.len(), place, "the chunk ends where it was asked for");
        if chunk.is_empty() {
            return;
        }
        let found = match question {
            Question::Ends(after) => known(chunk, chunk_start, |before, text| ends(before, text, after)),
            Question::Which(answers) => known(chunk, chunk_start, |before, text| answers[state_behind(before, text)]),
        };
        // (the error is said when the question is asked again)
        let _ = self.take(found);
    }

    /// Keeps an answer, or what it needs.
    fn take(&mut self, found: Known<bool>) -> Result<bool, GraphemeIncomplete> {
        match found {
            Known::Sure(is_boundary) => {
                self.is_boundary = Some(is_boundary);
                self.wanted = None;
                Ok(is_boundary)
            }
            Known::By(place, answers) => {
                self.wanted = Some((place, Question::Which(answers)));
                Err(GraphemeIncomplete::PreContext(place))
            }
        }
    }

    /// Its place in a chunk.
    fn place_in(&self, chunk: &str, chunk_start: usize) -> Result<usize, GraphemeIncomplete> {
        self.offset.checked_sub(chunk_start).filter(|&place| place <= chunk.len()).ok_or(GraphemeIncomplete::InvalidOffset)
    }

    /// What is known of an answer about a text, by what the last chunk left where that is before it.
    fn known<T: Copy + PartialEq>(&self, text: &str, start: usize, answer: impl Fn(Before, &str) -> T) -> Known<T> {
        match (known(text, start, answer), &self.behind) {
            (Known::By(place, each), Some(behind)) if behind.place == place => behind.state().map(|before| each[before]),
            (found, _) => found,
        }
    }

    /// Whether its place is a boundary.
    ///
    /// # Errors
    ///
    /// [`GraphemeIncomplete::PreContext`] where that depends on the text before the chunk, [`GraphemeIncomplete::InvalidOffset`] where the chunk
    /// hasn't the character behind the place.
    pub fn is_boundary(&mut self, chunk: &str, chunk_start: usize) -> Result<bool, GraphemeIncomplete> {
        if let Some(is_boundary) = self.is_boundary {
            return Ok(is_boundary);
        }
        let place = self.place_in(chunk, chunk_start)?;
        let after = self.after.or_else(|| chunk[place..].chars().next()).ok_or(GraphemeIncomplete::InvalidOffset)?;
        if let Some((place, _)) = self.wanted {
            return Err(GraphemeIncomplete::PreContext(place));
        }
        let text = &chunk[..place];
        let found = match (text.as_bytes().last(), &self.behind) {
            // (GB3 to GB5, GB999)
            (Some(before), _) if before.is_ascii() && after.is_ascii() => Known::Sure(*before != b'\r' || after != '\n'),
            (Some(_), _) => self.known(text, chunk_start, |before, text| ends(before, text, after)),
            (None, Some(behind)) if behind.place == self.offset => {
                behind.before.map(|before| ends(before, behind.last.encode_utf8(&mut [0; 4]), after))
            }
            (None, _) => {
                self.wanted = Some((self.offset, Question::Ends(after)));
                return Err(GraphemeIncomplete::PreContext(self.offset));
            }
        };
        self.take(found)
    }

    /// Moves it to the next boundary, and returns that. None at the end of the text.
    ///
    /// # Errors
    ///
    /// [`GraphemeIncomplete::NextChunk`] where it has come to the chunk's end, [`GraphemeIncomplete::PreContext`] where a boundary depends on the text
    /// before the chunk, [`GraphemeIncomplete::InvalidOffset`] where the chunk hasn't its place. Then it goes on where it was, with the next call.
    pub fn next_boundary(&mut self, chunk: &str, chunk_start: usize) -> Result<Option<usize>, GraphemeIncomplete> {
        if self.offset == self.len {
            return Ok(None);
        }
        let end = chunk_start + chunk.len();
        loop {
            let rest = &chunk[self.place_in(chunk, chunk_start)?..];
            if self.going == Some(Toward::End) {
                if rest.is_empty() && self.is_boundary.is_none() {
                    return Err(GraphemeIncomplete::NextChunk);
                }
                let is_boundary = self.is_boundary(chunk, chunk_start)?;
                self.going = None;
                if is_boundary {
                    return Ok(Some(self.offset));
                }
            }
            let Some(first) = rest.chars().next() else {
                return Err(GraphemeIncomplete::NextChunk);
            };
            let is_boundary = self.is_boundary == Some(true);
            // From a boundary on clusters are as in the rest of the text alone; so the first one is found at once, unless it ends with the chunk.
            let length = if is_boundary { first_boundary(rest) } else { first.len_utf8() };
            let place = self.offset + length;
            if place == end && end < self.len {
                self.behind = Some(self.behind_end(chunk, chunk_start, is_boundary));
            }
            self.move_to(place);
            if place < end && is_boundary {
                self.is_boundary = Some(true);
            }
            self.going = Some(Toward::End);
        }
    }

    /// What a chunk leaves of the text up to its end.
    fn behind_end(&self, chunk: &str, chunk_start: usize, is_boundary: bool) -> Behind {
        let place = chunk_start + chunk.len();
        let mut start = chunk_start;
        let mut text = chunk;
        if is_boundary {
            text = &chunk[self.offset - chunk_start..];
            // (as at the start of a text)
            start = 0;
        }
        let mut before = text.chars();
        let last = before.next_back().expect("the chunk isn't empty");
        Behind { place, last, before: self.known(before.as_str(), start, state_behind) }
    }

    /// Moves it to the boundary before, and returns that. None at the start of the text.
    ///
    /// # Errors
    ///
    /// [`GraphemeIncomplete::PrevChunk`] where it has come to the chunk's start, [`GraphemeIncomplete::PreContext`] where a boundary depends on the text
    /// before the chunk, [`GraphemeIncomplete::InvalidOffset`] where the chunk hasn't its place. Then it goes on where it was, with the next call.
    pub fn prev_boundary(&mut self, chunk: &str, chunk_start: usize) -> Result<Option<usize>, GraphemeIncomplete> {
        if self.offset == 0 {
            return Ok(None);
        }
        loop {
            let place = self.place_in(chunk, chunk_start)?;
            if self.going == Some(Toward::Start) {
                if place == 0 && self.is_boundary.is_none() {
                    return Err(GraphemeIncomplete::PrevChunk);
                }
                let is_boundary = self.is_boundary(chunk, chunk_start)?;
                self.going = None;
                if is_boundary {
                    return Ok(Some(self.offset));
                }
            }
            let Some(last) = chunk[..place].chars().next_back() else {
                return Err(GraphemeIncomplete::PrevChunk);
            };
            self.move_to(self.offset - last.len_utf8());
            self.after = Some(last);
            self.going = Some(Toward::Start);
        }
    }
}

/// Where the first cluster of a text ends that isn't empty.
fn first_boundary(text: &str) -> usize {
    let mut found = [0];
    Calls::boundaries(Kind::Grapheme.slot(), text.as_bytes(), 0, &mut found);
    found[0]
}
