//! A fixed number, as a varint.
use crate::form::{Form, FormError};
use crate::proved::no_std_io::{Read, Write};
use crate::proved::varint;

/// The number `N`, which is below 2^63, such as a version or the code of a format. Its encoding is its varint.
///
/// `read` returns the errors of [`varint::read`], and [`FormError::OtherTag`] with the number that comes next if that
/// is not `N`.
#[derive(Clone, Copy, Debug, PartialEq, Eq, PartialOrd, Ord, Hash)]
#[non_exhaustive]
pub struct Tag<const N: u64> {}

impl<const N: u64> Form for Tag<N> {
    fn write<W: Write>(&self, w: &mut W) -> Result<(), FormError> {
        varint::write(N, w)?;
        Ok(())
    }

    fn read<R: Read>(r: &mut R) -> Result<Self, FormError> {
        let number = varint::read(r)?;
        if number != N {
            return Err(FormError::OtherTag(number));
        }
        Ok(Tag {})
    }
}
