//! The type, with upstream's functions and names, over the proved one.
use crate::no_std_io::{Read, Write};
use crate::proved::{self, varint};
use crate::Error;
use core::cmp::Ordering;
use core::fmt;
use core::hash::{Hash, Hasher};

/// A code, which names the hash function, and a digest of at most `S` bytes.
///
/// `S` is the longest digest that you accept: 64 suffices for SHA2-512 and BLAKE2b-512, 32 for SHA2-256. The code
/// is below 2^63, and the digest has at most 255 bytes. Values of different `S` with the same code and digest are
/// equal and have the same hash.
///
/// The field is private, so these limits always hold:
///
/// ```compile_fail,E0423
/// let multihash: verified_multihash::Multihash<64> = verified_multihash::Multihash(Default::default());
/// ```
#[derive(Clone, Copy, Default)]
pub struct Multihash<const S: usize>(pub(crate) proved::Multihash<S>);

impl<const S: usize> Multihash<S> {
    /// Makes a multihash of a code and a digest.
    ///
    /// # Errors
    ///
    /// - [`Error::invalid_size`] with the digest's length if it exceeds `S` or 255.
    /// - Otherwise [`Error::invalid_code`] with the code if it is 2^63 or more.
    ///
    /// # Examples
    ///
    /// ```
    /// # use verified_multihash::{Error, Multihash};
    /// const ABC: Result<Multihash<32>, Error> = Multihash::wrap(0x12, b"abc");
    /// let multihash = ABC?;
    /// assert_eq!((multihash.code(), multihash.digest()), (0x12, &b"abc"[..]));
    /// # Ok::<(), Error>(())
    /// ```
    // By hand, since the proved function is not `const`.
    pub const fn wrap(code: u64, digest: &[u8]) -> Result<Self, Error> {
        let size = digest.len();
        if size > S || size > 255 {
            return Err(Error::too_long(size as u64, S, None));
        }
        if code > varint::MAX {
            return Err(Error::from_code(code));
        }
        let mut value = proved::Multihash { digest: [0; S], code, size };
        let mut index = 0;
        while index < size {
            value.digest[index] = digest[index];
            index += 1;
        }
        Ok(Self(value))
    }

    /// Returns the code, which names the hash function: less than 2^63.
    pub const fn code(&self) -> u64 {
        self.0.code()
    }

    /// Returns the length of the digest in bytes, at most `S` and at most 255.
    pub const fn size(&self) -> u8 {
        self.0.size()
    }

    /// Returns the bytes of the digest.
    pub fn digest(&self) -> &[u8] {
        self.0.digest()
    }

    /// Reads the next multihash, and stops right after it.
    ///
    /// # Errors
    ///
    /// The bytes that were read before an error are consumed.
    ///
    /// - [`Error::io`] with the reader's error, if it fails. `Interrupted` is returned too, except inside the digest.
    /// - The errors of [`Multihash::from_bytes`], except that more bytes may follow. If a digest is too long, none of
    ///   its bytes is read.
    pub fn read<R: Read>(mut r: R) -> Result<Self, Error> {
        Self::read_from(&mut r)
    }

    /// As [`Multihash::read`], by the trait of the proved source, which every reader implements.
    // The proved `read` does not say whether the input is empty.
    #[inline(always)]
    pub(crate) fn read_from<R: proved::no_std_io::Read>(r: &mut R) -> Result<Self, Error> {
        match proved::Multihash::read_next(r) {
            Ok(Some(value)) => Ok(Self(value)),
            Ok(None) => Err(Error::empty()),
            Err(error) => Err(error.in_stream(S)),
        }
    }

    /// Reads the next multihash, as [`Multihash::read`] does, but returns `None` at the end of the input.
    ///
    /// # Errors
    ///
    /// Those of [`Multihash::read`], except that of an input that ends before the multihash.
    pub fn read_next<R: Read>(mut r: R) -> Result<Option<Self>, Error> {
        proved::Multihash::read_next(&mut r).map_err(|error| error.in_stream(S)).map(|value| value.map(Self))
    }

    /// Decodes the multihash whose encoding is the whole of `bytes`.
    ///
    /// # Errors
    ///
    /// - [`Error::is_insufficient`] if the bytes end before or inside a varint.
    /// - [`Error::is_overflow`] if a varint has more than nine bytes.
    /// - [`Error::is_not_minimal`] if a varint of more than one byte ends in a zero byte.
    /// - [`Error::invalid_size`] with the digest's length if it exceeds `S` or 255, and with the number of trailing
    ///   bytes if some follow the multihash.
    /// - [`Error::io`] with an unexpected end of file if the bytes end before the end of the digest.
    ///
    /// # Examples
    ///
    /// ```
    /// # use verified_multihash::{Error, Multihash};
    /// assert_eq!(Multihash::<64>::from_bytes(b"\x12\x03abc")?.digest(), b"abc");
    /// let error = Multihash::<64>::from_bytes(b"\x12\x03abc, and more").unwrap_err();
    /// assert_eq!(error.to_string(), "10 bytes follow the multihash");
    /// # Ok::<(), Error>(())
    /// ```
    pub fn from_bytes(bytes: &[u8]) -> Result<Self, Error> {
        proved::Multihash::from_bytes(bytes).map_err(|error| error.in_bytes(bytes, S)).map(Self)
    }

    /// Writes the encoding, and returns its length.
    ///
    /// # Errors
    ///
    /// [`Error::io`] with the writer's error, if it fails. A prefix of the encoding may have been written.
    pub fn write<W: Write>(&self, mut w: W) -> Result<usize, Error> {
        self.0.write(&mut w)
    }

    /// Returns the length of the encoding in bytes, at most 266.
    pub fn encoded_len(&self) -> usize {
        self.0.encoded_len()
    }

    /// Returns the encoding.
    #[cfg(feature = "alloc")]
    pub fn to_bytes(&self) -> alloc::vec::Vec<u8> {
        let mut bytes = alloc::vec::Vec::with_capacity(self.encoded_len());
        self.write(&mut bytes).expect("a vector grows");
        bytes
    }

    /// Returns the multihash with the first `size` bytes of the digest, or with all if it has fewer.
    ///
    /// The caller must decide whether the shorter digest is still secure. [`Multihash::into_inner`] and `Debug`
    /// still expose the bytes that were removed.
    pub fn truncate(&self, size: u8) -> Self {
        Self(self.0.truncate(size))
    }

    /// Returns the multihash with capacity for a digest of at most `R` bytes.
    ///
    /// # Errors
    ///
    /// [`Error::invalid_size`] with the digest's length if it exceeds `R`.
    pub fn resize<const R: usize>(&self) -> Result<Multihash<R>, Error> {
        self.0.resize().map_err(|error| error.in_stream(R)).map(Multihash)
    }

    /// Returns the code, the array that starts with the digest, and the length of the digest.
    pub fn into_inner(self) -> (u64, [u8; S], u8) {
        (self.code(), self.0.digest, self.size())
    }

    /// Writes the SCALE encoding, nine bytes and the digest, and returns its length: the code in eight bytes, least
    /// significant first, the length of the digest in one byte, and the digest.
    ///
    /// # Errors
    ///
    /// [`Error::io`] with the writer's error, if it fails. A prefix of the encoding may have been written.
    pub fn scale_encode<W: Write>(&self, mut w: W) -> Result<usize, Error> {
        self.0.scale_encode(&mut w)
    }

    /// Reads the multihash whose SCALE encoding comes next, and stops right after it.
    ///
    /// # Errors
    ///
    /// The bytes that were read before an error are consumed.
    ///
    /// - [`Error::io`] with the reader's error, if it fails, and with an unexpected end of file if the input ends inside
    ///   the encoding.
    /// - [`Error::invalid_code`] with the code if it is 2^63 or more.
    /// - [`Error::invalid_size`] with the digest's length if it exceeds `S`. None of its bytes is read.
    pub fn scale_decode<R: Read>(mut r: R) -> Result<Self, Error> {
        proved::Multihash::scale_decode(&mut r).map_err(|error| error.in_stream(S)).map(Self)
    }
}

impl<const S: usize> fmt::Debug for Multihash<S> {
    fn fmt(&self, f: &mut fmt::Formatter<'_>) -> fmt::Result {
        let (code, digest, size) = self.into_inner();
        f.debug_struct("Multihash").field("code", &code).field("size", &size).field("digest", &digest).finish()
    }
}

impl<const A: usize, const B: usize> PartialEq<Multihash<B>> for Multihash<A> {
    fn eq(&self, other: &Multihash<B>) -> bool {
        self.0.same_as(&other.0)
    }
}

impl<const S: usize> Eq for Multihash<S> {}

/// By code, then by digest length, then by the first digest byte that differs.
impl<const S: usize> Ord for Multihash<S> {
    fn cmp(&self, other: &Self) -> Ordering {
        self.0.cmp(&other.0)
    }
}

impl<const S: usize> PartialOrd for Multihash<S> {
    fn partial_cmp(&self, other: &Self) -> Option<Ordering> {
        Some(self.cmp(other))
    }
}

/// Hashes as the pair of the code and the digest, `(u64, &[u8])`, does.
impl<const S: usize> Hash for Multihash<S> {
    fn hash<H: Hasher>(&self, state: &mut H) {
        self.0.hash(state);
    }
}

#[cfg(feature = "alloc")]
impl<const S: usize> From<Multihash<S>> for alloc::vec::Vec<u8> {
    fn from(multihash: Multihash<S>) -> Self {
        multihash.to_bytes()
    }
}

/// From an encoding, as [`Multihash::from_bytes`].
impl<const S: usize> TryFrom<&[u8]> for Multihash<S> {
    type Error = Error;

    fn try_from(bytes: &[u8]) -> Result<Self, Error> {
        Self::from_bytes(bytes)
    }
}
