//! The trait of the cases of a choice.
use crate::form::{FormError, Number};
use crate::proved::no_std_io::{Read, Write};

/// A value that has a tag, which determines how the value is encoded: what a [`Choice`](crate::form::Choice) is made of.
/// [`Case`](crate::form::Case) and [`Tagged`](crate::form::Tagged) implement it.
///
/// The laws of [`Form`](crate::form::Form) hold of the values with one tag.
pub trait Cases: super::values::Part {
    /// Returns the tag.
    fn tag(&self) -> Number;

    /// Appends the encoding without its tag to `w`.
    ///
    /// # Errors
    ///
    /// The writer's error. A strict prefix of what was to be written has been appended then.
    fn write_value<W: Write>(&self, w: &mut W) -> Result<(), FormError>;

    /// Reads the value that has this tag, which was consumed, and leaves what follows it in `r` unread.
    ///
    /// # Errors
    ///
    /// [`FormError::OtherTag`] with the tag if it is that of no case, or those of [`Form::read`](crate::form::Form::read).
    fn read_value<R: Read>(r: &mut R, tag: Number) -> Result<Self, FormError>;
}
