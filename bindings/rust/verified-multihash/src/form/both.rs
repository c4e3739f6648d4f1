//! Two parts, one after the other.
use crate::form::{Form, FormError};
use crate::proved::no_std_io::{Read, Write};

/// One part, and then the other. The encoding is the encodings of both.
///
/// `read` returns the errors of both.
#[derive(Clone, Debug, PartialEq, Eq, PartialOrd, Ord, Hash)]
pub struct Both<A, B> {
    /// The first part.
    pub first: A,
    /// The second part.
    pub second: B,
}

impl<A: Form, B: Form> Form for Both<A, B> {
    fn write<W: Write>(&self, w: &mut W) -> Result<(), FormError> {
        write_two(&self.first, &self.second, w)
    }

    fn read<R: Read>(r: &mut R) -> Result<Self, FormError> {
        let first = A::read(r)?;
        let second = B::read(r)?;
        Ok(Both { first, second })
    }
}

/// Appends the encodings of two parts to `w`, as `write` of [`Both`] does: for a struct whose fields have names.
///
/// # Errors
///
/// The writer's error. A strict prefix of the encoding has been appended then.
pub fn write_two<A: Form, B: Form, W: Write>(first: &A, second: &B, w: &mut W) -> Result<(), FormError> {
    first.write(w)?;
    second.write(w)
}

/// Appends the encodings of three parts to `w`, as [`write_two`] does.
///
/// # Errors
///
/// The writer's error. A strict prefix of the encoding has been appended then.
pub fn write_three<A: Form, B: Form, C: Form, W: Write>(
    first: &A,
    second: &B,
    third: &C,
    w: &mut W,
) -> Result<(), FormError> {
    first.write(w)?;
    write_two(second, third, w)
}
