//! Items with their number before them.
use crate::form::{Form, FormError};
use crate::proved::no_std_io::{Read, Write};
use crate::proved::varint;
use alloc::vec::Vec;

/// At most `MAX` items. The encoding is the varint of their number, and the encodings of the items in order.
///
/// `read` returns the errors of [`varint::read`], [`FormError::TooMany`] with the number of items if that is above
/// `MAX`, and the errors of the items. Memory grows with the items that arrive.
#[derive(Clone, Debug, PartialEq, Eq, PartialOrd, Ord, Hash)]
pub struct Counted<T, const MAX: usize> {
    /// The items.
    pub(crate) items: Vec<T>,
}

impl<T: Form, const MAX: usize> Form for Counted<T, MAX> {
    fn write<W: Write>(&self, w: &mut W) -> Result<(), FormError> {
        varint::write(self.items.len() as u64, w)?;
        write_items(&self.items, w)
    }

    fn read<R: Read>(r: &mut R) -> Result<Self, FormError> {
        let count = varint::read(r)?;
        if count > MAX as u64 {
            return Err(FormError::TooMany(count));
        }
        let items = read_items(r, count as usize)?;
        Ok(Counted { items })
    }
}

/// Appends the encodings of the items, one after another.
pub fn write_items<T: Form, W: Write>(items: &[T], w: &mut W) -> Result<(), FormError> {
    for item in items {
        item.write(w)?;
    }
    Ok(())
}

/// Reads `count` items, one after another, and leaves what follows them in `r` unread. Memory grows with the items that
/// arrive.
///
/// # Errors
///
/// Out of memory, or the first error of an item's `read`. The items that were read are dropped.
pub fn read_items<T: Form, R: Read>(r: &mut R, count: usize) -> Result<Vec<T>, FormError> {
    let mut items = Vec::new();
    for _ in 0..count {
        let item = T::read(r)?;
        items.try_reserve(1)?;
        items.push(item);
    }
    Ok(items)
}
