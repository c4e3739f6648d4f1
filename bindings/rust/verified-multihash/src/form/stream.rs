//! Values one after another, up to the end of the input.
use crate::form::{read, Form, FormError};
use crate::proved::no_std_io::{Error, Read};
use alloc::vec::Vec;

/// A reader that reports the end of its input, for which it may have to read one byte ahead.
pub struct Stream<R> {
    /// The reader.
    pub inner: R,
    /// The byte that was read ahead.
    pub ahead: Option<u8>,
}

impl<R: Read> Stream<R> {
    /// Returns a reader of the same input.
    pub fn new(inner: R) -> Self {
        Stream { inner, ahead: None }
    }

    /// Returns whether the input has ended. Nothing is consumed.
    ///
    /// # Errors
    ///
    /// The reader's own error.
    pub fn is_at_end(&mut self) -> Result<bool, Error> {
        if self.ahead.is_some() {
            return Ok(false);
        }
        let mut byte = [0; 1];
        if self.inner.read(&mut byte)? == 0 {
            return Ok(true);
        }
        self.ahead = Some(byte[0]);
        Ok(false)
    }

    /// Reads the value whose encoding comes next, as [`Form::read`] does, but returns `None` instead of an error if the
    /// input ended before the encoding.
    ///
    /// # Errors
    ///
    /// Those of [`Form::read`], except that for an input that ended before the encoding.
    pub fn read_next<T: Form>(&mut self) -> Result<Option<T>, FormError> {
        if self.is_at_end()? {
            return Ok(None);
        }
        let value = read::<T, Stream<R>>(self)?;
        Ok(Some(value))
    }

    /// Reads values, one after another, and appends them to `list`: `n` values, or all that come before the end of the
    /// input if these are fewer.
    ///
    /// # Errors
    ///
    /// Those of [`Stream::read_next`], and out of memory. The values before the error have been appended.
    pub fn read_up_to<T: Form>(&mut self, n: usize, list: &mut Vec<T>) -> Result<(), FormError> {
        for _ in 0..n {
            let value = match self.read_next::<T>()? {
                Some(value) => value,
                None => return Ok(()),
            };
            list.try_reserve(1)?;
            list.push(value);
        }
        Ok(())
    }
}

impl<R: Read> Read for Stream<R> {
    fn read(&mut self, buf: &mut [u8]) -> Result<usize, Error> {
        if buf.is_empty() {
            return Ok(0);
        }
        let byte = match self.ahead {
            Some(byte) => byte,
            None => return self.inner.read(buf),
        };
        buf[0] = byte;
        self.ahead = None;
        Ok(1)
    }
}
