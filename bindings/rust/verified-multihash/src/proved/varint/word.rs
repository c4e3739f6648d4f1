//! Reads the varint at the front of a slice from one word of 128 bits, with its first bytes.
use super::MAX_CONTINUATION;
use crate::proved::Error;

/// The number of bytes of a word.
const WORD_LEN: usize = 16;

/// The high bit of each byte of a word.
const HIGH_BITS: u128 = 0x8080_8080_8080_8080_8080_8080_8080_8080;

/// The bits of a byte that are its digit.
const DIGIT: u128 = 0x7f;

/// Reads the varint at the front of the bytes. Returns its number and its length.
#[inline(always)]
pub(crate) fn read_front(bytes: &[u8]) -> Result<(u64, usize), Error> {
    // Most varints have one byte.
    if bytes.len() >= 1 && bytes[0] < 128 {
        return Ok((u64::from(bytes[0]), 1));
    }
    let word = first_word(bytes);
    // The index of the first byte that is not a continuation byte. A missing byte is a zero, so it is not one either.
    let last = ((!word & HIGH_BITS).trailing_zeros() / 8) as usize;
    if last > MAX_CONTINUATION {
        return Err(Error::overflow());
    }
    if last >= bytes.len() {
        return Err(Error::insufficient());
    }
    if bytes[last] == 0 {
        return Err(Error::not_minimal());
    }
    let len = last + 1;
    Ok((join_digits(word & ((1 << (8 * len)) - 1)), len))
}

/// Returns the first sixteen bytes as a number, the lowest first, with zeros for those that are missing.
#[inline(always)]
fn first_word(bytes: &[u8]) -> u128 {
    if let Some(front) = bytes.get(..WORD_LEN).map(|front| <&[u8; WORD_LEN]>::try_from(front).unwrap()) {
        return u128::from_le_bytes(*front);
    }
    let mut front = [0; WORD_LEN];
    front[..bytes.len()].copy_from_slice(bytes);
    u128::from_le_bytes(front)
}

/// Returns the number of the low seven bits of each byte of a varint.
#[inline(always)]
fn join_digits(varint: u128) -> u64 {
    (varint & DIGIT) as u64
        + ((((varint >> 8) & DIGIT) as u64) << 7)
        + ((((varint >> 16) & DIGIT) as u64) << 14)
        + ((((varint >> 24) & DIGIT) as u64) << 21)
        + ((((varint >> 32) & DIGIT) as u64) << 28)
        + ((((varint >> 40) & DIGIT) as u64) << 35)
        + ((((varint >> 48) & DIGIT) as u64) << 42)
        + ((((varint >> 56) & DIGIT) as u64) << 49)
        + ((((varint >> 64) & DIGIT) as u64) << 56)
}
