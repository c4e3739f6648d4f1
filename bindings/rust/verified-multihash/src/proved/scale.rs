//! The SCALE encoding: the code in eight bytes, least significant first, the digest's length in one byte, the digest.
use crate::proved::no_std_io::{self, Read, Write};
use crate::proved::{varint, Error, Multihash};

impl<const S: usize> Multihash<S> {
    /// Appends the SCALE encoding to `w`: nine bytes and the digest. Returns the number of bytes.
    ///
    /// # Errors
    ///
    /// [`Error::io`] with the writer's error: it is full, it failed, or, if it allocates, it is out of
    /// memory. A strict prefix of the encoding has been appended then.
    pub fn scale_encode<W: Write>(&self, w: &mut W) -> Result<usize, Error> {
        let digest = self.digest();
        w.write_all(&self.scale_head())?;
        w.write_all(digest)?;
        Ok(9 + digest.len())
    }

    /// Returns the bytes before the digest. As one array they need one test of a slice's length.
    #[inline(always)]
    fn scale_head(&self) -> [u8; 9] {
        let mut head = [self.size(); 9];
        head[..8].copy_from_slice(&self.code().to_le_bytes());
        head
    }

    /// Reads the multihash whose SCALE encoding comes next. It consumes exactly that and leaves what
    /// follows in `r` unread.
    ///
    /// # Errors
    ///
    /// - [`Error::invalid_code`] with the code if it is 2^63 or more; exactly eight bytes were
    ///   consumed.
    /// - [`Error::invalid_size`] with the size if it exceeds `S`; exactly nine bytes were consumed.
    /// - [`Error::io`] with an unexpected end of file if the input ends before the size or within the
    ///   digest.
    /// - [`Error::io`] with the reader's own error if it failed.
    ///
    /// In the last two cases what was consumed is by itself a truncated input.
    pub fn scale_decode<R: Read>(r: &mut R) -> Result<Self, Error> {
        let code_bytes = read_array::<8, R>(r)?;
        let code = u64::from_le_bytes(code_bytes);
        if code > varint::MAX {
            return Err(Error::from_code(code));
        }
        let size_byte = read_array::<1, R>(r)?;
        let size = usize::from(size_byte[0]);
        if size > S {
            return Err(Error::from_size(size as u64));
        }
        let mut digest = [0; S];
        Self::read_digest(r, size_byte[0], &mut digest)?;
        Ok(Self::in_buffer(code, size, digest))
    }
}

/// Reads the next `N` bytes.
fn read_array<const N: usize, R: Read>(r: &mut R) -> Result<[u8; N], no_std_io::Error> {
    let mut bytes = [0; N];
    r.read_exact(&mut bytes)?;
    Ok(bytes)
}
