//! Numbers of a fixed number of bytes.
use crate::form::{Form, FormError};
use crate::no_std_io::ErrorKind;
use crate::proved::no_std_io::{self, Read, Write};

/// A number below 256^`N` in `N` bytes, the highest of them first. `N` is 1 to 8.
pub type BigEndian<const N: usize> = Fixed<N, 1>;

/// A number below 256^`N` in `N` bytes, the lowest of them first. `N` is 1 to 8.
pub type LittleEndian<const N: usize> = Fixed<N, 0>;

/// A number below 256^`N` in `N` bytes, the lowest of them first if `BIG` is 0, otherwise the highest. `N` is 1 to 8.
///
/// `read` returns an unexpected end if fewer bytes remain, or if `N` is not 1 to 8.
#[derive(Clone, Copy, Debug, PartialEq, Eq, PartialOrd, Ord, Hash)]
pub struct Fixed<const N: usize, const BIG: u8> {
    /// The number.
    pub(crate) value: u64,
}

impl<const N: usize, const BIG: u8> Form for Fixed<N, BIG> {
    fn write<W: Write>(&self, w: &mut W) -> Result<(), FormError> {
        let mut bytes = self.value.to_le_bytes();
        order::<BIG>(&mut bytes[..N]);
        w.write_all(&bytes[..N])?;
        Ok(())
    }

    fn read<R: Read>(r: &mut R) -> Result<Self, FormError> {
        if N == 0 || N > 8 {
            return Err(no_std_io::Error::from(ErrorKind::UnexpectedEof).into());
        }
        let mut bytes = [0; 8];
        r.read_exact(&mut bytes[..N])?;
        order::<BIG>(&mut bytes[..N]);
        Ok(Fixed { value: number_of(bytes) })
    }
}

/// Reverses the bytes if the highest comes first in the encoding.
fn order<const BIG: u8>(bytes: &mut [u8]) {
    if BIG != 0 {
        bytes.reverse();
    }
}

/// Returns the number of these bytes, the lowest first.
fn number_of(bytes: [u8; 8]) -> u64 {
    u64::from_le_bytes(bytes)
}
