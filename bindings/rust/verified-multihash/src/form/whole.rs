//! The functions that read and write a value of any form.
use crate::form::{ByteCount, Form, FormError};
use crate::proved::no_std_io::Read;

/// Reads the value whose encoding comes next, as [`Form::read`] does.
///
/// # Errors
///
/// Those of [`Form::read`].
pub fn read<T: Form, R: Read>(r: &mut R) -> Result<T, FormError> {
    T::read(r)
}

/// Reads the value whose encoding is the whole of `bytes`.
///
/// # Errors
///
/// - Those of [`Form::read`].
/// - [`FormError::Trailing`] with the number of bytes that follow the encoding.
pub fn from_bytes<T: Form>(bytes: &[u8]) -> Result<T, FormError> {
    let mut rest = bytes;
    let value = read::<T, &[u8]>(&mut rest)?;
    if rest.is_empty() {
        Ok(value)
    } else {
        Err(FormError::Trailing(rest.len()))
    }
}

/// Reads the value whose encoding is at the start of `bytes`, and returns it with the bytes that follow: for a format
/// whose last part has no length.
///
/// # Errors
///
/// Those of [`Form::read`].
pub fn read_front<T: Form>(bytes: &[u8]) -> Result<(T, &[u8]), FormError> {
    let mut rest = bytes;
    let value = read::<T, &[u8]>(&mut rest)?;
    Ok((value, rest))
}

/// Returns the number of bytes of the encoding, or `u64::MAX` if it has more. It writes the value to a [`ByteCount`].
pub fn encoded_len<T: Form>(value: &T) -> u64 {
    let mut counter = ByteCount { count: 0 };
    value.write(&mut counter).unwrap();
    counter.count
}
