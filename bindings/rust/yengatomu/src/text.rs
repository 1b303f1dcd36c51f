//! What counts as a text.
use std::borrow::Cow;

use crate::raw::Calls;

mod sealed {
    pub trait Unit {}
    pub trait Slice {}
}

/// What a text is counted in: `u8` of UTF-8, `u16` of UTF-16.
///
/// All places that this crate takes and returns are numbers of units from the start of the text.
#[allow(private_bounds)]
pub trait Unit: Calls + Copy + From<u8> + PartialEq + sealed::Unit {}

/// A text as it is segmented: `str`; `[u8]`, UTF-8 that may be ill-formed; or `[u16]`, UTF-16 that may be ill-formed.
///
/// In UTF-8 what is ill-formed counts as U+FFFD, one for each maximal part that begins a character, as [`String::from_utf8_lossy`] has it.
/// In UTF-16 a surrogate that stands alone counts as itself.
/// Segments keep their bytes as they are.
pub trait Slice: sealed::Slice {
    /// The unit that places count.
    type Unit: Unit;

    #[doc(hidden)]
    fn units(&self) -> &[Self::Unit];

    #[doc(hidden)]
    fn split(&self, place: usize) -> (&Self, &Self);

    /// A text of its own that was made from such a one: `String`, `Vec<u8>` or `Vec<u16>`.
    type Owned;

    #[doc(hidden)]
    fn owned(units: Vec<Self::Unit>) -> Self::Owned;
}

/// What can be segmented: a [`Slice`], or a type that holds one.
///
/// You may implement it for string types of your own; each call on a segmenter asks once for the slice.
pub trait Text {
    /// What a segment of the text is.
    type Slice: ?Sized + Slice;

    /// The text itself.
    fn as_slice(&self) -> &Self::Slice;
}

impl sealed::Unit for u8 {}
impl sealed::Unit for u16 {}
impl Unit for u8 {}
impl Unit for u16 {}

impl sealed::Slice for str {}
impl Slice for str {
    type Unit = u8;
    type Owned = String;

    #[inline]
    fn units(&self) -> &[u8] {
        self.as_bytes()
    }

    #[inline]
    fn split(&self, place: usize) -> (&Self, &Self) {
        self.split_at(place)
    }

    fn owned(units: Vec<u8>) -> String {
        String::from_utf8(units).expect("only white space in ASCII was changed")
    }
}

impl<U: Unit> sealed::Slice for [U] {}
impl<U: Unit> Slice for [U] {
    type Unit = U;
    type Owned = Vec<U>;

    #[inline]
    fn units(&self) -> &[U] {
        self
    }

    #[inline]
    fn split(&self, place: usize) -> (&Self, &Self) {
        self.split_at(place)
    }

    fn owned(units: Vec<U>) -> Vec<U> {
        units
    }
}

macro_rules! texts {
    ($($holder:ty => $slice:ty;)*) => { $(
        impl Text for $holder {
            type Slice = $slice;

            #[inline]
            fn as_slice(&self) -> &$slice {
                self
            }
        }
    )* };
}

texts! {
    str => str;
    String => str;
    Cow<'_, str> => str;
    [u8] => [u8];
    Vec<u8> => [u8];
    Cow<'_, [u8]> => [u8];
    [u16] => [u16];
    Vec<u16> => [u16];
}

impl<U: Unit, const N: usize> Text for [U; N] {
    type Slice = [U];

    #[inline]
    fn as_slice(&self) -> &[U] {
        self
    }
}

macro_rules! pointers {
    ($($pointer:ty),*) => { $(
        impl<T: ?Sized + Text> Text for $pointer {
            type Slice = T::Slice;

            #[inline]
            fn as_slice(&self) -> &T::Slice {
                (**self).as_slice()
            }
        }
    )* };
}

pointers!(&T, &mut T, Box<T>, std::rc::Rc<T>, std::sync::Arc<T>);
