#![cfg_attr(any(feature = "std", not(doctest)), doc = include_str!("../README.md"))]
#![no_std]
#![forbid(unsafe_code)]
#![warn(missing_docs)]

#[cfg(feature = "scale-codec")]
compile_error!("multihash has no feature scale-codec here: call scale_encode and scale_decode of a Multihash");
#[cfg(feature = "arb")]
compile_error!("multihash has no feature arb here: make a Multihash of an arbitrary code and digest by wrap");

#[cfg(not(feature = "std"))]
pub use verified_multihash::no_std_io;
pub use verified_multihash::{Error, Multihash};

/// The result of a call.
#[deprecated(note = "name the error: `Result<Value, Error>`")]
pub type Result<Value> = core::result::Result<Value, Error>;

/// The name of [`Multihash`] in earlier versions of upstream's package, for code written for them.
#[deprecated(note = "use `Multihash`")]
pub type MultihashGeneric<const S: usize> = Multihash<S>;
