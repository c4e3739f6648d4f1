//! Exactly `N` bytes, without a length before them.
use crate::form::{Form, FormError};
use crate::no_std_io::ErrorKind;
use crate::proved::no_std_io::{self, Read, Write};

/// `N` bytes, with no length before them. `N` is at least 1, since no encoding is empty.
///
/// `read` returns an unexpected end if fewer bytes remain, or if `N` is 0.
#[derive(Clone, Copy, Debug, PartialEq, Eq, PartialOrd, Ord, Hash)]
pub struct Bytes<const N: usize> {
    /// The bytes.
    pub(crate) bytes: [u8; N],
}

impl<const N: usize> Form for Bytes<N> {
    fn write<W: Write>(&self, w: &mut W) -> Result<(), FormError> {
        w.write_all(&self.bytes)?;
        Ok(())
    }

    fn read<R: Read>(r: &mut R) -> Result<Self, FormError> {
        if N == 0 {
            return Err(no_std_io::Error::from(ErrorKind::UnexpectedEof).into());
        }
        let mut bytes = [0; N];
        r.read_exact(&mut bytes)?;
        Ok(Bytes { bytes })
    }
}
