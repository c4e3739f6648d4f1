//! Traits of readers and writers, whose implementations keep the laws that are stated here.
use super::Error;
use crate::no_std_io::ErrorKind;

/// A source of bytes.
pub trait Read {
    /// Reads some of the next bytes into the front of `buf`, and returns their number, which is at most the length of
    /// `buf`. The rest of `buf` is unchanged. It returns 0 for a non-empty buffer only at the end of the input.
    ///
    /// # Errors
    ///
    /// An error of the reader itself. Nothing was consumed then, and the contents of `buf` are unspecified.
    fn read(&mut self, buf: &mut [u8]) -> Result<usize, Error>;

    /// Reads as many of the next bytes as `buf` holds. It always succeeds for an empty buffer.
    ///
    /// # Errors
    ///
    /// - Of the kind `UnexpectedEof` if fewer bytes remain.
    /// - An error of the reader itself.
    ///
    /// Fewer bytes than `buf` holds were consumed then, and the contents of `buf` are unspecified.
    fn read_exact(&mut self, buf: &mut [u8]) -> Result<(), Error> {
        let mut filled = 0;
        while filled < buf.len() {
            match self.read(&mut buf[filled..]) {
                Ok(0) => return Err(Error::from(ErrorKind::UnexpectedEof)),
                // The slice panics if the reader returns too large a count.
                Ok(n) => filled += buf[filled..][..n].len(),
                Err(e) => return Err(e),
            }
        }
        Ok(())
    }
}

/// A sink of bytes.
pub trait Write {
    /// Appends some of the first bytes of `buf`, and returns their number, which is at most the length of `buf`. It
    /// returns 0 for a non-empty buffer only if it is full.
    ///
    /// # Errors
    ///
    /// An error of the writer itself. Nothing was appended then.
    fn write(&mut self, buf: &[u8]) -> Result<usize, Error>;

    /// Appends the whole of `buf`. It always succeeds for an empty buffer.
    ///
    /// # Errors
    ///
    /// - Of the kind `WriteZero` if the writer is full.
    /// - Otherwise the errors of [`Write::write`].
    ///
    /// A strict prefix of `buf` has been appended then.
    fn write_all(&mut self, buf: &[u8]) -> Result<(), Error> {
        let mut left = buf;
        while !left.is_empty() {
            match self.write(left) {
                Ok(0) => return Err(Error::from(ErrorKind::WriteZero)),
                Ok(n) => left = &left[n..],
                Err(e) => return Err(e),
            }
        }
        Ok(())
    }
}
