//! The Rattle source without its contracts, which `proof/check_rust.py` compares with it.
#![allow(clippy::len_zero)]
#![allow(dead_code)] // the public type has its own `wrap`, `read` and `into_inner`

pub use self::head::Head;
pub use self::multihash::Multihash;
pub use crate::error::Error;

mod binary;
mod compare;
mod head;
mod multihash;
pub mod no_std_io;
mod scale;
pub mod varint;
