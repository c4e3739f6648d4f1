//! Comparison and hashing.
use crate::proved::Multihash;
use std::cmp::Ordering;
use std::hash::{Hash, Hasher};

impl<const S: usize> Multihash<S> {
    /// Returns whether both have the same code and the same digest, whatever their capacities.
    pub fn same_as<const B: usize>(&self, other: &Multihash<B>) -> bool {
        self.code() == other.code() && self.digest() == other.digest()
    }
}

/// Equal if the codes and the digests are equal; [`Multihash::same_as`] compares across capacities.
impl<const S: usize> PartialEq for Multihash<S> {
    fn eq(&self, other: &Self) -> bool {
        self.same_as(other)
    }
}

impl<const S: usize> Eq for Multihash<S> {}

/// By code, then by digest length, then by the first digest byte that differs.
impl<const S: usize> Ord for Multihash<S> {
    fn cmp(&self, other: &Self) -> Ordering {
        if self.code != other.code {
            return self.code.cmp(&other.code);
        }
        if self.size != other.size {
            return self.size.cmp(&other.size);
        }
        self.digest().cmp(other.digest())
    }
}

impl<const S: usize> PartialOrd for Multihash<S> {
    fn partial_cmp(&self, other: &Self) -> Option<Ordering> {
        Some(self.cmp(other))
    }
}

/// Hashes as the pair of the code and the digest, `(u64, &[u8])`, does.
impl<const S: usize> Hash for Multihash<S> {
    fn hash<H: Hasher>(&self, state: &mut H) {
        self.code.hash(state);
        self.digest().hash(state);
    }
}
