//! Data, of which there are no others than the library's: constructors that take a provider take [`Baked`] alone.
use std::{error, fmt};

/// Unicode's data, which the library has inside.
#[derive(Debug)]
pub struct Baked;

/// What constructors take that end in `_unstable`: [`Baked`], and nothing else.
///
/// ```
/// use icu_segmenter::provider::Baked;
/// use icu_segmenter::SentenceSegmenter;
///
/// assert!(SentenceSegmenter::try_new_unstable(&Baked, Default::default()).is_ok());
/// ```
///
/// ```compile_fail,E0277
/// icu_segmenter::SentenceSegmenter::try_new_unstable("my data", Default::default());
/// ```
#[diagnostic::on_unimplemented(
    message = "`{Self}` can't be read: the data of this `icu_segmenter` are inside the library yengatomu",
    note = "pass `icu_segmenter::provider::Baked`, or call the constructor without a provider; words of dictionaries are taken by `load_dictionaries`"
)]
pub trait DataProvider: sealed::Sealed {}

impl DataProvider for Baked {}

/// What constructors take that end in `_with_buffer_provider`: nothing is one, so that none of them can be called.
///
/// ```compile_fail,E0277
/// icu_segmenter::SentenceSegmenter::try_new_with_buffer_provider("my data", Default::default());
/// ```
#[diagnostic::on_unimplemented(
    message = "`{Self}` can't be read: the data of this `icu_segmenter` are inside the library yengatomu",
    note = "call the constructor without a provider; words of dictionaries are taken by `load_dictionaries`"
)]
pub trait BufferProvider: sealed::Sealed {
    #[doc(hidden)]
    fn refused<T>(&self) -> T;
}

mod sealed {
    pub trait Sealed {}

    impl Sealed for super::Baked {}
}

/// Why no segmenter was made: out of memory, or the library is of another version than this crate.
#[derive(Clone, Copy, Debug, PartialEq, Eq)]
pub struct DataError(yengatomu::Error);

impl From<yengatomu::Error> for DataError {
    fn from(error: yengatomu::Error) -> Self {
        Self(error)
    }
}

impl fmt::Display for DataError {
    fn fmt(&self, f: &mut fmt::Formatter<'_>) -> fmt::Result {
        self.0.fmt(f)
    }
}

impl error::Error for DataError {
    fn source(&self) -> Option<&(dyn error::Error + 'static)> {
        Some(&self.0)
    }
}

/// The constructors that take a provider: first those that take a [`DataProvider`], and then those that take a [`BufferProvider`].
macro_rules! with_providers {
    ($owned:ident, $options:ty: $($unstable:ident),*; $($buffer:ident),*;) => {
        impl $owned {
            $(
                /// The same as without a provider, made now, and owned: [`Baked`]($crate::provider::Baked) is the only provider.
                ///
                /// # Errors
                ///
                /// [`DataError`]($crate::provider::DataError) where there is no memory.
                pub fn $unstable<D>(_: &D, options: $options) -> Result<Self, $crate::provider::DataError>
                where
                    D: $crate::provider::DataProvider + ?Sized,
                {
                    Self::try_shared(options)
                }
            )*

            $(
                /// Can't be called: nothing is such a provider.
                ///
                /// # Errors
                ///
                /// It never returns.
                pub fn $buffer<D>(provider: &D, _: $options) -> Result<Self, $crate::provider::DataError>
                where
                    D: $crate::provider::BufferProvider + ?Sized,
                {
                    provider.refused()
                }
            )*
        }
    };
}

pub(crate) use with_providers;
