//! Many multihashes in one stream, one after another.
use crate::no_std_io::Write;
use crate::{Error, Multihash};
#[cfg(feature = "alloc")]
use {crate::no_std_io::Read, alloc::vec::Vec};

/// Writes the encodings of the items, in order.
///
/// # Errors
///
/// Those of [`Multihash::write`]. A prefix of all encodings may have been written.
pub fn write_list<const S: usize, W: Write>(items: &[Multihash<S>], mut w: W) -> Result<(), Error> {
    for item in items {
        item.write(&mut w)?;
    }
    Ok(())
}

/// Reads `count` multihashes, one after another, and stops right after them.
///
/// **Warning:** capacity for exactly `count` values is allocated before anything is read, however short the input is. A
/// `count` that comes from the input needs a limit.
///
/// # Errors
///
/// - [`Error::io`] if out of memory, always for a `count` too large to allocate; nothing was read.
/// - Otherwise the first error of [`Multihash::read`]. The values that were read are dropped.
#[cfg(feature = "alloc")]
pub fn read_list<const S: usize, R: Read>(mut r: R, count: usize) -> Result<Vec<Multihash<S>>, Error> {
    let mut list = Vec::new();
    list.try_reserve_exact(count)?;
    for _ in 0..count {
        list.push(Multihash::read(&mut r)?);
    }
    Ok(list)
}
