//! The trait of types whose values have exactly one encoding each.
use crate::form::FormError;
use crate::proved::no_std_io::{Read, Write};

/// A value with one encoding, which is not empty and no prefix of another one.
///
/// Each implementation keeps these laws. Those of the parts are proved:
///
/// - A value has one encoding, and values that differ have different ones. What was written is read back, and what
///   follows it is left unread.
/// - No encoding is empty or a prefix of another one, so concatenated encodings can be split in one way only.
/// - An input that starts with no encoding has one error. One byte shows it, whatever follows that byte, and `read`
///   consumes the input up to there.
/// - An input that ends before that is incomplete. Its error says so, and no other one does.
pub trait Form: super::values::Part {
    /// Appends the encoding to `w`.
    ///
    /// # Errors
    ///
    /// The writer's error. A strict prefix of the encoding has been appended then.
    fn write<W: Write>(&self, w: &mut W) -> Result<(), FormError>;

    /// Reads the value whose encoding comes next, and leaves what follows it in `r` unread.
    ///
    /// # Errors
    ///
    /// The reader's own error, or one of those in the description of the type:
    ///
    /// - If the encoding of a value comes next, out of memory is the only one.
    /// - If the input is malformed, it was consumed up to the byte that shows the error.
    /// - If the input ends before that, [`FormError::is_incomplete`] or out of memory.
    fn read<R: Read>(r: &mut R) -> Result<Self, FormError>;
}
