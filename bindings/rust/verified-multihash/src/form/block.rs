//! A block of bytes with its length before it.
use crate::form::{Form, FormError};
use crate::proved::no_std_io::{Read, Write};
use crate::proved::varint;
use alloc::vec::Vec;

/// The maximum number of bytes that are read at once.
const CHUNK: usize = 256;

/// At most `MAX` bytes. The encoding is the varint of their number, and the bytes.
///
/// `read` returns the errors of [`varint::read`], [`FormError::TooLong`] with the length if that is above `MAX`, an
/// unexpected end within the block, and out of memory. Memory grows with the bytes that arrive: a length that is only
/// claimed allocates 256 bytes at most.
#[derive(Clone, Debug, PartialEq, Eq, PartialOrd, Ord, Hash)]
pub struct Block<const MAX: usize> {
    /// The bytes.
    pub(crate) bytes: Vec<u8>,
}

impl<const MAX: usize> Block<MAX> {
    /// Returns the value of these bytes.
    ///
    /// # Errors
    ///
    /// [`FormError::TooLong`] if there are more than `MAX` bytes.
    pub fn new(bytes: Vec<u8>) -> Result<Self, FormError> {
        if bytes.len() > MAX {
            return Err(FormError::TooLong(bytes.len() as u64));
        }
        Ok(Block { bytes })
    }
}

impl<const MAX: usize> Form for Block<MAX> {
    fn write<W: Write>(&self, w: &mut W) -> Result<(), FormError> {
        varint::write(self.bytes.len() as u64, w)?;
        w.write_all(&self.bytes)?;
        Ok(())
    }

    fn read<R: Read>(r: &mut R) -> Result<Self, FormError> {
        let len = varint::read(r)?;
        if len > MAX as u64 {
            return Err(FormError::TooLong(len));
        }
        let bytes = read_bytes(r, len as usize)?;
        Ok(Block { bytes })
    }
}

/// Reads `len` bytes.
fn read_bytes<R: Read>(r: &mut R, len: usize) -> Result<Vec<u8>, FormError> {
    let mut bytes = Vec::new();
    let mut chunk = [0; CHUNK];
    while bytes.len() < len {
        let more = (len - bytes.len()).min(CHUNK);
        bytes.try_reserve(more)?;
        r.read_exact(&mut chunk[..more])?;
        bytes.write_all(&chunk[..more]).unwrap();
    }
    Ok(bytes)
}
