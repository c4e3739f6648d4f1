//! Where an input is wrong, for those who ask after an error.
use crate::form::{read, Form, FormError};

/// An error, and where it is.
#[derive(Debug)]
pub struct LocatedError {
    /// The error.
    pub error: FormError,
    /// The number of values before the wrong one.
    pub item: usize,
    /// The offset at which the wrong value starts.
    pub start: usize,
    /// The offset after the byte that shows the error, or the length of a truncated input. It is not stated where
    /// memory ran out.
    pub offset: usize,
}

/// Returns the first error of the values whose encodings fill `bytes`, one after another, and where it is, or `None` if
/// there is none. It reads as [`all_from_bytes`](crate::form::all_from_bytes) does, and keeps no value: for a caller that got
/// an error and asks for its place. Out of memory is an error, too.
pub fn first_error<T: Form>(bytes: &[u8]) -> Option<LocatedError> {
    let mut item = 0;
    let mut rest = bytes;
    while !rest.is_empty() {
        let start = bytes.len() - rest.len();
        if let Err(error) = read::<T, &[u8]>(&mut rest) {
            let offset = if error.is_incomplete() { bytes.len() } else { bytes.len().saturating_sub(rest.len()) };
            return Some(LocatedError { error, item, start, offset });
        }
        item += 1;
    }
    None
}
