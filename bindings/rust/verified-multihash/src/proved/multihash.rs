//! The type: its fields, their limits, and the functions that make a value or return a part of it.
use crate::proved::{varint, Error};
use std::fmt;

/// A code below 2^63 and a digest of at most `min(S, 255)` bytes, in a buffer of the capacity `S`.
#[derive(Clone, Copy)]
pub struct Multihash<const S: usize> {
    // The digest comes first, so that in a `Result` no part of it straddles two words.
    pub(crate) digest: [u8; S],
    pub(crate) code: u64,
    // The size is a machine word, so that no padding is copied.
    pub(crate) size: usize,
}

impl<const S: usize> Multihash<S> {
    /// Returns the multihash of a code and a digest.
    ///
    /// # Errors
    ///
    /// - [`Error::invalid_size`] with the digest's length if it exceeds `min(S, 255)`.
    /// - Otherwise [`Error::invalid_code`] with the code if it is 2^63 or more.
    pub fn wrap(code: u64, digest: &[u8]) -> Result<Self, Error> {
        let len = digest.len();
        if !Self::is_valid_size(len as u64) {
            return Err(Error::from_size(len as u64));
        }
        if code > varint::MAX {
            return Err(Error::from_code(code));
        }
        Ok(Self::of_digest(code, digest))
    }

    /// Returns the code, which names the hash function: less than 2^63.
    pub const fn code(&self) -> u64 {
        self.code
    }

    /// Returns the digest's length in bytes, at most `min(S, 255)`.
    pub const fn size(&self) -> u8 {
        self.size as u8
    }

    /// Returns the bytes of the digest.
    pub fn digest(&self) -> &[u8] {
        prefix(&self.digest, self.size)
    }

    /// Returns the same code with the first `size` bytes of the digest, or with all of it if it is
    /// shorter.
    ///
    /// The caller must decide whether the shorter digest is still secure.
    pub fn truncate(&self, size: u8) -> Self {
        // This copies the value once. A literal of its fields would copy the digest by way of the stack.
        let mut truncated = *self;
        truncated.size = self.size.min(usize::from(size));
        truncated
    }

    /// Returns the same code and digest in a buffer of the capacity `R`.
    ///
    /// # Errors
    ///
    /// [`Error::invalid_size`] with the digest's length if it exceeds `R`.
    pub fn resize<const R: usize>(&self) -> Result<Multihash<R>, Error> {
        if self.size > R {
            return Err(Error::from_size(self.size as u64));
        }
        Ok(Multihash::of_digest(self.code, self.digest()))
    }

    /// Returns the code, the digest padded with zeros to `S` bytes, and the digest's length in bytes.
    pub fn into_inner(self) -> (u64, [u8; S], u8) {
        (self.code, Self::array_of(self.digest()), self.size())
    }

    /// Returns whether a digest of `size` bytes fits the buffer.
    #[inline(always)]
    pub(crate) fn is_valid_size(size: u64) -> bool {
        size <= S as u64 && size <= 255
    }

    /// Returns the multihash of a code and a digest that fit.
    #[inline(always)]
    pub(crate) fn of_digest(code: u64, digest: &[u8]) -> Self {
        Self::in_buffer(code, digest.len(), Self::array_of(digest))
    }

    /// Returns the multihash of a buffer that starts with the digest.
    #[inline(always)]
    pub(crate) fn in_buffer(code: u64, size: usize, buffer: [u8; S]) -> Self {
        Multihash { code, digest: buffer, size }
    }

    /// Returns the digest, followed by zeros.
    #[inline(always)]
    fn array_of(digest: &[u8]) -> [u8; S] {
        let mut array = [0; S];
        array[..digest.len()].copy_from_slice(digest);
        array
    }
}

/// Prints the code, the size and the digest, and no byte after the digest.
impl<const S: usize> fmt::Debug for Multihash<S> {
    fn fmt(&self, f: &mut fmt::Formatter) -> fmt::Result {
        f.debug_struct("Multihash")
            .field("code", &self.code())
            .field("size", &self.size())
            .field("digest", &self.digest())
            .finish()
    }
}

/// The code 0 and the empty digest.
impl<const S: usize> Default for Multihash<S> {
    fn default() -> Self {
        Multihash { code: 0, size: 0, digest: [0; S] }
    }
}

/// Returns the first `len` bytes.
#[inline(always)]
fn prefix(bytes: &[u8], len: usize) -> &[u8] {
    &bytes[..len]
}
