#![cfg_attr(any(feature = "std", not(doctest)), doc = include_str!("../README.md"))]
#![no_std]
#![forbid(unsafe_code)]
#![warn(missing_docs)]

#[cfg(feature = "alloc")]
extern crate alloc;
#[cfg(not(feature = "std"))]
extern crate core as std; // what the modules use of `std` is in `core` too
#[cfg(feature = "std")]
extern crate std;

#[rustfmt::skip] // made by tools/generate
pub mod codes;
mod error;
#[cfg(feature = "alloc")]
pub mod form;
pub mod list;
mod multihash;
#[cfg(not(feature = "std"))]
pub mod no_std_io;
mod proved;
#[cfg(any(feature = "serde", feature = "serde-codec"))]
mod serde;
mod stream;
mod text;

// The package `multihash` re-exports this if its feature `std` is off. Another dependent may still turn on `std` here.
#[cfg(feature = "std")]
#[doc(hidden)]
pub use std::io as no_std_io;

pub use crate::error::Error;
pub use crate::multihash::Multihash;
pub use crate::proved::{varint, Head};
pub use crate::stream::Decoder;
#[cfg(feature = "std")]
pub use crate::stream::Reader;
pub use crate::text::TextError;
