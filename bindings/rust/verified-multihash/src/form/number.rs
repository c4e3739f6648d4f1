//! A number below 2^63, as its varint.
use crate::form::{Form, FormError};
use crate::proved::no_std_io::{Read, Write};
use crate::proved::varint;

/// A number below 2^63. Its encoding is its varint.
///
/// `read` returns the errors of [`varint::read`].
#[derive(Clone, Copy, Debug, PartialEq, Eq, PartialOrd, Ord, Hash)]
pub struct Number {
    /// The number.
    pub(crate) value: u64,
}

impl Number {
    /// Returns the number as a form, or `None` if it is 2^63 or more.
    pub fn new(value: u64) -> Option<Self> {
        if value > varint::MAX {
            return None;
        }
        Some(Number { value })
    }
}

impl Form for Number {
    fn write<W: Write>(&self, w: &mut W) -> Result<(), FormError> {
        varint::write(self.value, w)?;
        Ok(())
    }

    fn read<R: Read>(r: &mut R) -> Result<Self, FormError> {
        let value = varint::read(r)?;
        Ok(Number { value })
    }
}
