//! Unsigned varints of multiformats, for numbers below 2^63: at most nine bytes.
//!
//! The base-128 digits of a number, lowest first, one a byte, with 128 added to each byte but the last
//! (<https://github.com/multiformats/unsigned-varint>). Multiformats encodes its numbers so: the code
//! and the length of a multihash, the version and the codec of a content identifier, the parts of a
//! multiaddr.
pub(crate) mod word;

use crate::proved::no_std_io::{self, Read, Write};
use crate::proved::Error;

/// The maximum number of continuation bytes of a varint.
const MAX_CONTINUATION: usize = 8;

/// After that many continuation bytes, the last byte is below this number.
const LAST_BYTE_LIMIT: u8 = 128;

/// The largest number that has a varint: 2^63 - 1.
pub const MAX: u64 = (((LAST_BYTE_LIMIT as u128) << (7 * MAX_CONTINUATION)) - 1) as u64;

/// The maximum number of bytes of a varint.
const MAX_LEN: usize = MAX_CONTINUATION + 1;

/// Writes the varint of a number to the front of the buffer, and returns its bytes, one to nine.
#[inline]
fn encode(n: u64, buffer: &mut [u8; MAX_LEN]) -> &[u8] {
    let mut rest = n;
    // The loop has a fixed limit, so that the compiler unrolls it and tests no index.
    for len in 0..MAX_CONTINUATION {
        if rest < 128 {
            buffer[len] = rest as u8;
            return &buffer[..len + 1];
        }
        buffer[len] = (rest & 0x7f) as u8 | 0x80;
        rest >>= 7;
    }
    buffer[MAX_CONTINUATION] = rest as u8;
    buffer
}

/// Returns the length of a number's varint in bytes: one to nine.
///
/// # Errors
///
/// [`Error::invalid_code`] with the number if it is 2^63 or more.
pub fn len(n: u64) -> Result<usize, Error> {
    if n > MAX {
        return Err(Error::from_code(n));
    }
    Ok(len_in_range(n))
}

/// Appends the varint of a number to `w` by one call of `write_all`. Returns its length in bytes: one
/// to nine.
///
/// # Errors
///
/// - [`Error::invalid_code`] with the number if it is 2^63 or more; the writer was not called.
/// - [`Error::io`] with the writer's error: it is full, it failed, or, if it allocates, it is out of
///   memory. A strict prefix of the varint has been appended then.
// This is in line, since a call would return its result in memory.
#[inline(always)]
pub fn write<W: Write>(n: u64, w: &mut W) -> Result<usize, Error> {
    if n > MAX {
        return Err(Error::from_code(n));
    }
    Ok(write_in_range(n, w)?)
}

/// Reads the varint at the front of the bytes. Returns its number and the bytes that follow it.
///
/// # Errors
///
/// - [`Error::is_insufficient`] if the bytes end before or inside the varint.
/// - [`Error::is_overflow`] if the varint has more than nine bytes, as every number of 2^63 or more needs.
/// - [`Error::is_not_minimal`] if a varint of more than one byte ends in a zero byte.
pub fn read_front(bytes: &[u8]) -> Result<(u64, &[u8]), Error> {
    let (n, len) = word::read_front(bytes)?;
    Ok((n, &bytes[len..]))
}

/// Returns the length of the varint of a number that is known to be in range.
#[inline(always)]
pub(crate) fn len_in_range(n: u64) -> usize {
    if n < 128 {
        return 1;
    }
    // Each byte has seven bits.
    (70 - n.leading_zeros() as usize) / 7
}

/// Appends the varint of a number that is known to be in range, as `write` does.
#[inline(always)]
pub(crate) fn write_in_range<W: Write>(n: u64, w: &mut W) -> Result<usize, no_std_io::Error> {
    // Most numbers have one byte.
    if n < 128 {
        w.write_all(&[n as u8])?;
        return Ok(1);
    }
    let mut buffer = [0; MAX_LEN];
    let varint = encode(n, &mut buffer);
    w.write_all(varint)?;
    Ok(varint.len())
}

/// Reads the varint that comes next, one byte at a time. Returns its number and leaves what follows in
/// `r` unread.
///
/// # Errors
///
/// - [`Error::is_insufficient`] if the input ends before or inside the varint; all of it was consumed.
/// - [`Error::is_overflow`] if the varint has more than nine bytes, as every number of 2^63 or more needs,
///   and [`Error::is_not_minimal`] if a varint of more than one byte ends in a zero byte; the last byte
///   consumed is the one that determines the error.
/// - [`Error::io`] with the reader's own error if it failed; what was consumed is a truncated varint.
// This is in line, so that the most common varint, of one byte, needs no call.
#[inline(always)]
pub fn read<R: Read>(r: &mut R) -> Result<u64, Error> {
    match read_next(r)? {
        Some(n) => Ok(n),
        None => Err(Error::insufficient()),
    }
}

/// Reads the varint that comes next, as [`read`] does, but returns `None` at the end of the input, where
/// the reader's first `read` returns 0: for a loop over a stream.
///
/// # Errors
///
/// Those of [`read`], except that of an input which ends before the varint.
#[inline(always)]
pub fn read_next<R: Read>(r: &mut R) -> Result<Option<u64>, Error> {
    let first = match read_byte(r)? {
        Some(first) => first,
        None => return Ok(None),
    };
    if first < 128 {
        return Ok(Some(u64::from(first)));
    }
    Ok(Some(read_after(r, first)?))
}

/// Reads the rest of a varint whose first byte was read and is a continuation byte, as `read` does.
#[inline(never)]
fn read_after<R: Read>(r: &mut R, first: u8) -> Result<u64, Error> {
    let mut value = u64::from(first & 0x7f);
    for i in 1..MAX_LEN {
        let byte = match read_byte(r)? {
            Some(byte) => byte,
            None => return Err(Error::insufficient()),
        };
        if i == MAX_CONTINUATION && byte >= LAST_BYTE_LIMIT {
            return Err(Error::overflow());
        }
        value |= u64::from(byte & 0x7f) << (7 * i);
        if byte == 0 {
            return Err(Error::not_minimal());
        }
        if byte < 128 {
            return Ok(value);
        }
    }
    unreachable!()
}

/// Reads the next byte. Returns `None` at the end of the input.
#[inline(always)]
fn read_byte<R: Read>(r: &mut R) -> Result<Option<u8>, no_std_io::Error> {
    let mut byte = [0u8; 1];
    match r.read(&mut byte)? {
        0 => Ok(None),
        _ => Ok(Some(byte[0])),
    }
}
