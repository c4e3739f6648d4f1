//! The error of reading and writing forms.
use crate::proved::{no_std_io, Error};
use alloc::collections::TryReserveError;
use std::fmt;

/// The error of reading or writing a form.
#[derive(Debug)]
#[non_exhaustive]
pub enum FormError {
    /// A varint or a multihash is malformed, the input is truncated, the reader or the writer failed, or an
    /// allocation did.
    Failed(Error),
    /// There are this many items, more than the limit.
    TooMany(u64),
    /// The block has this many bytes, more than the limit.
    TooLong(u64),
    /// This number is none of the tags that may come here.
    OtherTag(u64),
    /// This many bytes follow the encoding.
    Trailing(usize),
}

impl FormError {
    /// Returns whether the input is truncated: with more bytes it could be valid.
    pub fn is_incomplete(&self) -> bool {
        match self {
            FormError::Failed(e) => e.is_incomplete(),
            _ => false,
        }
    }
}

impl fmt::Display for FormError {
    fn fmt(&self, f: &mut fmt::Formatter) -> fmt::Result {
        match self {
            FormError::Failed(e) => fmt::Display::fmt(e, f),
            FormError::TooMany(n) => write!(f, "too many items: {n}"),
            FormError::TooLong(n) => write!(f, "a block is too long, in bytes: {n}"),
            FormError::OtherTag(n) => write!(f, "unexpected tag: {n}"),
            FormError::Trailing(n) => write!(f, "trailing bytes: {n}"),
        }
    }
}

impl std::error::Error for FormError {}

impl From<Error> for FormError {
    fn from(e: Error) -> Self {
        FormError::Failed(e)
    }
}

impl From<no_std_io::Error> for FormError {
    fn from(e: no_std_io::Error) -> Self {
        FormError::Failed(Error::from(e))
    }
}

impl From<TryReserveError> for FormError {
    fn from(e: TryReserveError) -> Self {
        FormError::Failed(Error::from(e))
    }
}
