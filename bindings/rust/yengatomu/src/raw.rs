//! The calls of the C library, made safe. All unsafe code of this crate is here.
use yengatomu_sys as sys;

use crate::dictionaries::words_in;
use crate::{Error, LineOptions, Script};

/// A slot that holds a segmenter.
pub(crate) struct Slot {
    slot: sys::yengatomu_slot,
    has_words: bool,
}

// What makes the calls below sound, each over a slot that `open` has filled:
// - A call that changes a slot has it alone: it is made of `&mut Slot`, or in `drop`. Calls that read take `&Slot`, and write to no slot.
// - A slot isn't copied: `Slot` is no `Copy` or `Clone`, and what it has is private. It is moved only while nothing borrows it.
// - Lengths are those of slices, whose pointers are never null. Buffers are `&mut`, so they overlap nothing.

// SAFETY: a slot may be opened, used and closed by different threads one after another, as yengatomu.h says; what its pointer leads to is its
// own.
unsafe impl Send for Slot {}

// SAFETY: of a `&Slot` only calls that read are made, which any number of threads may make at once, as yengatomu.h says; those that change a
// slot take `&mut Slot`.
unsafe impl Sync for Slot {}

fn done(result: u32) -> Result<(), Error> {
    match result {
        sys::YENGATOMU_OK => Ok(()),
        sys::YENGATOMU_NO_MEMORY => Err(Error::OutOfMemory),
        sys::YENGATOMU_NOT_UTF8 => Err(Error::NotUtf8),
        _ => Err(Error::NotSupported),
    }
}

/// The words of a list as the library takes them: where each begins, and its length.
fn words_of(list: &str) -> Vec<sys::yengatomu_word> {
    words_in(list).map(|word| sys::yengatomu_word { bytes: word.as_ptr(), len: word.len() }).collect()
}

impl Slot {
    pub(crate) fn open(kind: u32, options: LineOptions) -> Result<Self, Error> {
        let LineOptions { strictness, word_break, chinese_or_japanese } = options;
        let mut slot = sys::yengatomu_slot::EMPTY;
        // SAFETY: the slot began empty.
        done(unsafe { sys::yengatomu_open(&mut slot, kind, strictness as u32, word_break as u32, chinese_or_japanese) })?;
        Ok(Self { slot, has_words: false })
    }

    pub(crate) fn open_rules(rules: &str) -> Result<Self, Error> {
        let (mut slot, mut line) = (sys::yengatomu_slot::EMPTY, 0);
        // SAFETY: the slot began empty; the rules are borrowed until the call returns, which keeps no pointer to them.
        match unsafe { sys::yengatomu_open_rules(&mut slot, rules.as_ptr(), rules.len(), &mut line) } {
            sys::YENGATOMU_WRONG_RULES => Err(Error::WrongRules(line)),
            sys::YENGATOMU_NO_MACHINE => Err(Error::NoMachine((line > 0).then_some(line))),
            result => done(result).map(|()| Self { slot, has_words: false }),
        }
    }

    pub(crate) fn load_dictionary(&mut self, list: &str, script: Script) -> Result<(), Error> {
        let words = words_of(list);
        // SAFETY: above; the words are borrowed until the call returns, which keeps no pointer to them.
        done(unsafe { sys::yengatomu_load_dictionary(&mut self.slot, words.as_ptr(), words.len(), script as u32) })?;
        self.has_words = true;
        Ok(())
    }

    pub(crate) fn load_abbreviations(&mut self, list: &str) -> Result<(), Error> {
        let words = words_of(list);
        // SAFETY: above; the words are borrowed until the call returns, which keeps no pointer to them.
        match unsafe { sys::yengatomu_load_abbreviations(&mut self.slot, words.as_ptr(), words.len()) } {
            sys::YENGATOMU_NO_SUCH => return Err(Error::HasAbbreviations),
            result => done(result)?,
        }
        self.has_words = true;
        Ok(())
    }

    pub(crate) fn count_by_cluster(&mut self) -> Result<(), Error> {
        // SAFETY: above.
        done(unsafe { sys::yengatomu_count_by_cluster(&mut self.slot) })
    }

    /// Whether it has a dictionary or abbreviations: then boundaries go on only from behind a line feed.
    pub(crate) fn has_words(&self) -> bool {
        self.has_words
    }
}

impl Drop for Slot {
    fn drop(&mut self) {
        // SAFETY: above; nothing uses the slot any more.
        unsafe { sys::yengatomu_close(&mut self.slot) }
    }
}

/// The calls on texts of 8-bit or 16-bit units.
pub(crate) trait Calls: Sized {
    fn boundaries(slot: &Slot, text: &[Self], from: usize, out: &mut [usize]) -> usize;
    fn marked_boundaries(slot: &Slot, text: &[Self], from: usize, out: &mut [usize], marks: &mut [u8]) -> usize;
    fn count(slot: &Slot, text: &[Self]) -> usize;
    fn count_words(slot: &Slot, text: &[Self]) -> usize;
    fn next(slot: &Slot, text: &[Self], place: usize) -> Option<usize>;
    fn previous(slot: &Slot, text: &[Self], place: usize) -> Option<usize>;
    fn wrap(slot: &Slot, text: &[Self], from: usize, columns: usize, ends: &mut [usize], widths: &mut [usize]) -> usize;
    /// How many balanced lines the paragraph has; None when out of memory.
    fn wrap_balanced(slot: &Slot, text: &[Self], from: usize, columns: u32, ends: &mut [usize], widths: &mut [usize]) -> Option<usize>;
}

/// The place that a call returns, if there is one.
fn place(found: usize) -> Option<usize> {
    (found != sys::YENGATOMU_NONE).then_some(found)
}

macro_rules! calls {
    ($unit:ty: $boundaries:ident, $marked_boundaries:ident, $count:ident, $count_words:ident, $next:ident, $previous:ident, $wrap:ident, $wrap_balanced:ident) => {
        impl Calls for $unit {
            #[inline]
            fn boundaries(slot: &Slot, text: &[Self], from: usize, out: &mut [usize]) -> usize {
                // SAFETY: above.
                unsafe { sys::$boundaries(&slot.slot, text.as_ptr(), text.len(), from, out.as_mut_ptr(), out.len()) }
            }

            #[inline]
            fn marked_boundaries(slot: &Slot, text: &[Self], from: usize, out: &mut [usize], marks: &mut [u8]) -> usize {
                // SAFETY: above.
                unsafe {
                    sys::$marked_boundaries(
                        &slot.slot,
                        text.as_ptr(),
                        text.len(),
                        from,
                        out.as_mut_ptr(),
                        out.len(),
                        marks.as_mut_ptr(),
                        marks.len(),
                    )
                }
            }

            fn count(slot: &Slot, text: &[Self]) -> usize {
                // SAFETY: above.
                unsafe { sys::$count(&slot.slot, text.as_ptr(), text.len()) }
            }

            fn count_words(slot: &Slot, text: &[Self]) -> usize {
                // SAFETY: above.
                unsafe { sys::$count_words(&slot.slot, text.as_ptr(), text.len()) }
            }

            fn next(slot: &Slot, text: &[Self], from: usize) -> Option<usize> {
                // SAFETY: above.
                place(unsafe { sys::$next(&slot.slot, text.as_ptr(), text.len(), from) })
            }

            fn previous(slot: &Slot, text: &[Self], from: usize) -> Option<usize> {
                // SAFETY: above.
                place(unsafe { sys::$previous(&slot.slot, text.as_ptr(), text.len(), from) })
            }

            fn wrap(slot: &Slot, text: &[Self], from: usize, columns: usize, ends: &mut [usize], widths: &mut [usize]) -> usize {
                // SAFETY: above.
                unsafe {
                    sys::$wrap(
                        &slot.slot,
                        text.as_ptr(),
                        text.len(),
                        from,
                        columns,
                        ends.as_mut_ptr(),
                        ends.len(),
                        widths.as_mut_ptr(),
                        widths.len(),
                    )
                }
            }

            fn wrap_balanced(
                slot: &Slot,
                text: &[Self],
                from: usize,
                columns: u32,
                ends: &mut [usize],
                widths: &mut [usize],
            ) -> Option<usize> {
                // SAFETY: above.
                place(unsafe {
                    sys::$wrap_balanced(
                        &slot.slot,
                        text.as_ptr(),
                        text.len(),
                        from,
                        columns,
                        ends.as_mut_ptr(),
                        ends.len(),
                        widths.as_mut_ptr(),
                        widths.len(),
                    )
                })
            }
        }
    };
}

calls!(
    u8: yengatomu_boundaries,
    yengatomu_marked_boundaries,
    yengatomu_count,
    yengatomu_count_words,
    yengatomu_next,
    yengatomu_previous,
    yengatomu_wrap_columns,
    yengatomu_wrap_balanced
);
calls!(
    u16: yengatomu_boundaries_utf16,
    yengatomu_marked_boundaries_utf16,
    yengatomu_count_utf16,
    yengatomu_count_words_utf16,
    yengatomu_next_utf16,
    yengatomu_previous_utf16,
    yengatomu_wrap_columns_utf16,
    yengatomu_wrap_balanced_utf16
);

/// The calls on texts in Latin-1.
impl Slot {
    #[inline]
    pub(crate) fn boundaries_latin1(&self, text: &[u8], from: usize, out: &mut [usize]) -> usize {
        // SAFETY: above.
        unsafe { sys::yengatomu_boundaries_latin1(&self.slot, text.as_ptr(), text.len(), from, out.as_mut_ptr(), out.len()) }
    }

    #[inline]
    pub(crate) fn marked_boundaries_latin1(&self, text: &[u8], from: usize, out: &mut [usize], marks: &mut [u8]) -> usize {
        // SAFETY: above.
        unsafe {
            sys::yengatomu_marked_boundaries_latin1(
                &self.slot,
                text.as_ptr(),
                text.len(),
                from,
                out.as_mut_ptr(),
                out.len(),
                marks.as_mut_ptr(),
                marks.len(),
            )
        }
    }
}

pub(crate) fn version() -> u32 {
    // SAFETY: it takes nothing.
    unsafe { sys::yengatomu_version() }
}

pub(crate) fn unicode_version(kind: u32) -> u32 {
    // SAFETY: it takes any number.
    unsafe { sys::yengatomu_unicode_version(kind) }
}
