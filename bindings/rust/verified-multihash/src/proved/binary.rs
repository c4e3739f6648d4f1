//! The binary encoding: the varint of the code, the varint of the digest's length, and the digest.
use crate::no_std_io::ErrorKind;
use crate::proved::no_std_io::{self, Read, Write};
use crate::proved::{varint, Error, Head, Multihash};

impl<const S: usize> Multihash<S> {
    /// Reads the multihash whose encoding comes next. It consumes exactly that encoding and leaves what
    /// follows in `r` unread. Within a varint it reads one byte at a time, and it checks the size
    /// before it reads the digest.
    ///
    /// # Errors
    ///
    /// - [`Error::is_insufficient`] if the input ends before or inside a varint; all of it was
    ///   consumed.
    /// - [`Error::is_overflow`] if a varint has more than nine bytes, as every number of 2^63 or more
    ///   needs, and [`Error::is_not_minimal`] if a varint of more than one byte ends in a zero byte; the
    ///   last byte consumed is the one that determines the error.
    /// - [`Error::invalid_size`] with the digest's length if it exceeds `min(S, 255)`; both varints
    ///   were consumed, and none of the digest.
    /// - [`Error::io`] with an unexpected end of file if the input ends within the digest; both varints
    ///   were consumed. How much of the digest was consumed depends on the reader's `read_exact`.
    /// - [`Error::io`] with the reader's own error if it failed; what was consumed is by itself a
    ///   truncated input.
    #[inline(always)]
    pub fn read<R: Read>(r: &mut R) -> Result<Self, Error> {
        let code = varint::read(r)?;
        Self::read_after(r, code)
    }

    /// Reads the multihash whose encoding comes next, as [`Multihash::read`] does, but returns `None`
    /// at the end of the input, where the reader's first `read` returns 0: for a loop over a stream.
    ///
    /// # Errors
    ///
    /// Those of [`Multihash::read`], except that of an input which ends before the encoding.
    #[inline(always)]
    pub fn read_next<R: Read>(r: &mut R) -> Result<Option<Self>, Error> {
        match varint::read_next(r)? {
            Some(code) => Ok(Some(Self::read_after(r, code)?)),
            None => Ok(None),
        }
    }

    /// Reads the rest of an encoding whose code was read, as `read` does.
    #[inline(always)]
    fn read_after<R: Read>(r: &mut R, code: u64) -> Result<Self, Error> {
        let len = varint::read(r)?;
        if !Self::is_valid_size(len) {
            return Err(Error::from_size(len));
        }
        let size = len as u8;
        let mut digest = [0; S];
        Self::read_digest(r, size, &mut digest)?;
        Ok(Self::in_buffer(code, usize::from(size), digest))
    }

    /// Reads the multihash whose encoding is the whole of `bytes`: the varint of the code, the varint
    /// of the digest's length, and the digest.
    ///
    /// # Errors
    ///
    /// - [`Error::is_insufficient`] if the bytes end before or inside a varint.
    /// - [`Error::is_overflow`] if a varint has more than nine bytes, as every number of 2^63 or more
    ///   needs.
    /// - [`Error::is_not_minimal`] if a varint of more than one byte ends in a zero byte.
    /// - [`Error::invalid_size`] with the digest's length if it exceeds `min(S, 255)`, and with the
    ///   number of trailing bytes if some follow the digest.
    /// - [`Error::io`] with an unexpected end of file if the bytes end within the digest.
    pub fn from_bytes(bytes: &[u8]) -> Result<Self, Error> {
        let head = Head::read_front(bytes)?;
        if !Self::is_valid_size(head.digest_len) {
            return Err(Error::from_size(head.digest_len));
        }
        let code = head.code;
        let len = head.digest_len as usize;
        let digest = &bytes[head.digest_offset..];
        if digest.len() < len {
            return Err(Error::from(no_std_io::Error::from(ErrorKind::UnexpectedEof)));
        }
        if digest.len() > len {
            return Err(Error::from_size((digest.len() - len) as u64));
        }
        Ok(Self::of_digest(code, digest))
    }

    /// Appends the encoding to `w`: the varint of the code, the varint of the digest's length, and the
    /// digest, each by one call of `write_all`. Returns the number of bytes.
    ///
    /// # Errors
    ///
    /// [`Error::io`] with the writer's error: it is full, it failed, or, if it allocates, it is out of
    /// memory. A strict prefix of the encoding has been appended then.
    #[inline(always)]
    pub fn write<W: Write>(&self, w: &mut W) -> Result<usize, Error> {
        let digest = self.digest();
        let code = varint::write_in_range(self.code(), w)?;
        let size = varint::write_in_range(u64::from(self.size()), w)?;
        w.write_all(digest)?;
        Ok(code + size + digest.len())
    }

    /// Returns the length of the encoding in bytes, at most 266.
    pub fn encoded_len(&self) -> usize {
        let code = varint::len_in_range(self.code());
        let size = varint::len_in_range(u64::from(self.size()));
        code + size + usize::from(self.size())
    }

    /// Reads a digest of `size` bytes into the front of the buffer.
    #[inline(always)]
    pub(crate) fn read_digest<R: Read>(r: &mut R, size: u8, buffer: &mut [u8; S]) -> Result<(), no_std_io::Error> {
        r.read_exact(&mut buffer[..usize::from(size)])
    }
}
