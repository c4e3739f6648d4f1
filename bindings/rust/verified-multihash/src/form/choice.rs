//! One of any number of formats, which the tag at the start of the encoding determines.
use crate::form::cases::Cases;
use crate::form::{Form, FormError, Number};
use crate::proved::no_std_io::{Read, Write};
use crate::proved::varint;

/// One of the cases of `C`, such as `Case<Bytes<4>, 4, Tagged<Bytes<2>, 6>>`. The encoding is the varint of its
/// tag, and the encoding of its value.
///
/// `read` returns the errors of [`varint::read`], [`FormError::OtherTag`] with the number that comes next if that is
/// the tag of no case, and the errors of what follows.
#[derive(Clone, Debug, PartialEq, Eq, PartialOrd, Ord, Hash)]
pub struct Choice<C> {
    /// The case.
    pub case: C,
}

impl<C: Cases> Form for Choice<C> {
    fn write<W: Write>(&self, w: &mut W) -> Result<(), FormError> {
        self.case.tag().write(w)?;
        self.case.write_value(w)
    }

    fn read<R: Read>(r: &mut R) -> Result<Self, FormError> {
        let tag = varint::read(r)?;
        let case = C::read_value(r, Number { value: tag })?;
        Ok(Choice { case })
    }
}
