//! The two varints at the front of an encoding, for callers that keep the digest where it is.
use crate::proved::varint::word;
use crate::proved::Error;

/// The code and the digest's length at the front of an encoding.
#[derive(Clone, Copy, Debug, PartialEq, Eq)]
pub struct Head {
    /// The code, which names the hash function: less than 2^63.
    pub code: u64,
    /// The digest's length in bytes as encoded; it may exceed 255.
    pub digest_len: u64,
    /// The number of bytes of both varints: the index at which the digest starts.
    pub digest_offset: usize,
}

impl Head {
    /// Reads the two varints at the front of `bytes`. It does not check whether the digest is there,
    /// nor whether it fits a buffer.
    ///
    /// # Errors
    ///
    /// - [`Error::is_insufficient`] if the bytes end before or inside a varint.
    /// - [`Error::is_overflow`] if a varint has more than nine bytes, as every number of 2^63 or more
    ///   needs.
    /// - [`Error::is_not_minimal`] if a varint of more than one byte ends in a zero byte.
    ///
    /// `from_bytes` and `read` return the same error for every capacity.
    #[inline(always)]
    pub fn read_front(bytes: &[u8]) -> Result<Self, Error> {
        // Most of the time each varint has one byte.
        if bytes.len() >= 2 && bytes[0] < 128 && bytes[1] < 128 {
            return Ok(Head { code: u64::from(bytes[0]), digest_len: u64::from(bytes[1]), digest_offset: 2 });
        }
        Self::read_longer(bytes)
    }

    /// Does what `read_front` does. It is out of line, since `read_front` is in line in many functions.
    #[inline(never)]
    fn read_longer(bytes: &[u8]) -> Result<Self, Error> {
        let (code, code_len) = word::read_front(bytes)?;
        let (digest_len, size_len) = word::read_front(&bytes[code_len..])?;
        Ok(Head { code, digest_len, digest_offset: code_len + size_len })
    }
}
