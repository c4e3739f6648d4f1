//! Readers and writers for targets without `std`: the part of `std::io` that this crate uses.
pub use crate::proved::no_std_io::{Read, Write};
use core::fmt;

/// The error of a reader or a writer of this module.
#[derive(Debug)]
pub struct Error(ErrorKind);

#[derive(Clone, Copy, Debug, PartialEq)]
pub(crate) enum ErrorKind {
    UnexpectedEof,
    WriteZero,
    #[cfg(feature = "alloc")]
    OutOfMemory,
    Other(&'static str),
}

impl Error {
    /// Returns an error of the reader or the writer itself, with its text.
    pub const fn other(text: &'static str) -> Self {
        Self(ErrorKind::Other(text))
    }

    pub(crate) fn kind(&self) -> ErrorKind {
        self.0
    }
}

impl From<ErrorKind> for Error {
    fn from(kind: ErrorKind) -> Self {
        Self(kind)
    }
}

impl fmt::Display for Error {
    fn fmt(&self, f: &mut fmt::Formatter<'_>) -> fmt::Result {
        f.pad(match self.0 {
            ErrorKind::UnexpectedEof => "failed to fill whole buffer",
            ErrorKind::WriteZero => "failed to write whole buffer",
            #[cfg(feature = "alloc")]
            ErrorKind::OutOfMemory => "out of memory",
            ErrorKind::Other(text) => text,
        })
    }
}

impl core::error::Error for Error {}

impl<R: Read + ?Sized> Read for &mut R {
    fn read(&mut self, buf: &mut [u8]) -> Result<usize, Error> {
        R::read(self, buf)
    }

    fn read_exact(&mut self, buf: &mut [u8]) -> Result<(), Error> {
        R::read_exact(self, buf)
    }
}

impl<W: Write + ?Sized> Write for &mut W {
    fn write(&mut self, buf: &[u8]) -> Result<usize, Error> {
        W::write(self, buf)
    }

    fn write_all(&mut self, buf: &[u8]) -> Result<(), Error> {
        W::write_all(self, buf)
    }
}

/// Consumes the bytes from the front of the slice. A `read_exact` that fails consumes none.
impl Read for &[u8] {
    fn read(&mut self, buf: &mut [u8]) -> Result<usize, Error> {
        let (front, rest) = self.split_at(self.len().min(buf.len()));
        buf[..front.len()].copy_from_slice(front);
        *self = rest;
        Ok(front.len())
    }

    fn read_exact(&mut self, buf: &mut [u8]) -> Result<(), Error> {
        if self.len() < buf.len() {
            return Err(ErrorKind::UnexpectedEof.into());
        }
        self.read(buf).map(|_| ())
    }
}

/// Overwrites the front of the slice, and advances past what was written.
impl Write for &mut [u8] {
    fn write(&mut self, buf: &[u8]) -> Result<usize, Error> {
        let length = self.len().min(buf.len());
        let (front, rest) = core::mem::take(self).split_at_mut(length);
        front.copy_from_slice(&buf[..length]);
        *self = rest;
        Ok(length)
    }
}

/// Appends to the vector.
#[cfg(feature = "alloc")]
impl Write for alloc::vec::Vec<u8> {
    fn write(&mut self, buf: &[u8]) -> Result<usize, Error> {
        self.extend_from_slice(buf);
        Ok(buf.len())
    }
}
