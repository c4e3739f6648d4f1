//! Values that fill an input, one after another.
use crate::form::{read_front, Form, FormError};
use alloc::vec::Vec;

/// Reads the values whose encodings, one after another, are the whole of `bytes`.
///
/// # Errors
///
/// Out of memory, or the first error of [`Form::read`].
pub fn all_from_bytes<T: Form>(bytes: &[u8]) -> Result<Vec<T>, FormError> {
    let mut items = Vec::new();
    let mut rest = bytes;
    while !rest.is_empty() {
        let (item, left) = read_front::<T>(rest)?;
        items.try_reserve(1)?;
        items.push(item);
        rest = left;
    }
    Ok(items)
}

/// Reads a head, and then the values that fill the rest of `bytes`, one after another: an archive, such as a CAR file.
///
/// # Errors
///
/// Out of memory, or the first error of [`Form::read`].
pub fn head_and_all_from_bytes<H: Form, T: Form>(bytes: &[u8]) -> Result<(H, Vec<T>), FormError> {
    let (head, rest) = read_front::<H>(bytes)?;
    let items = all_from_bytes::<T>(rest)?;
    Ok((head, items))
}
