//! A writer that counts bytes and keeps none.
use crate::proved::no_std_io::{Error, Write};

/// A writer that counts the bytes, up to `u64::MAX`.
#[derive(Clone, Copy, Debug, PartialEq, Eq, PartialOrd, Ord, Hash)]
pub struct ByteCount {
    /// The number of bytes.
    pub count: u64,
}

impl Write for ByteCount {
    fn write(&mut self, buf: &[u8]) -> Result<usize, Error> {
        self.count = self.count.saturating_add(buf.len() as u64);
        Ok(buf.len())
    }
}
