//! Stands in the place of the crate unicode-segmentation 1.12, over yengatomu, without a change of the program that uses it:
//!
//! ```toml
//! [patch.crates-io]
//! unicode-segmentation = { path = "../yengatomu/bindings/rust/unicode-segmentation-shim" }
//! ```
#![deny(missing_docs, unsafe_code)]

pub use yengatomu::unicode_segmentation::*;
