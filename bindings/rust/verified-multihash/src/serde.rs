//! For serde: bytes, and with the feature `serde` alone hexadecimal in formats for people, such as JSON.
use crate::text::LENGTH_MAX;
use crate::Multihash;
use core::fmt;
use serde::de::{Error, SeqAccess, Unexpected, Visitor};
use serde::{ser, Deserialize, Deserializer, Serialize, Serializer};

/// Whether each format has bytes, as upstream. Formats without bytes, such as JSON, have a sequence of numbers.
const HAS_BYTES: bool = cfg!(feature = "serde-codec");

/// The encoding: in hexadecimal if the format is human readable, otherwise, or with the feature `serde-codec`, as bytes.
impl<const S: usize> Serialize for Multihash<S> {
    fn serialize<T: Serializer>(&self, serializer: T) -> Result<T::Ok, T::Error> {
        if !HAS_BYTES && serializer.is_human_readable() {
            return serializer.collect_str(self);
        }
        let mut bytes = [0; LENGTH_MAX];
        let length = self.write(&mut bytes[..]).map_err(ser::Error::custom)?;
        serializer.serialize_bytes(&bytes[..length])
    }
}

/// Reads what [`Serialize`] writes.
impl<'de, const S: usize> Deserialize<'de> for Multihash<S> {
    fn deserialize<D: Deserializer<'de>>(deserializer: D) -> Result<Self, D::Error> {
        if HAS_BYTES {
            // as upstream
            deserializer.deserialize_bytes(Encoding("a valid Multihash in bytes"))
        } else if deserializer.is_human_readable() {
            deserializer.deserialize_str(Encoding("a multihash in hexadecimal"))
        } else {
            deserializer.deserialize_bytes(Encoding("a multihash"))
        }
    }
}

/// What is expected, for errors.
struct Encoding<const S: usize>(&'static str);

impl<const S: usize> Encoding<S> {
    /// The maximum length of a sequence, as upstream: that of the longest encoding for a capacity up to 255. The error of a
    /// longer one is its length, also if the input ends inside it: more input would not change the result.
    const SEQUENCE_MAX: usize = if S < 128 || S > 255 { S + 10 } else { S + 11 };
}

impl<'de, const S: usize> Visitor<'de> for Encoding<S> {
    type Value = Multihash<S>;

    fn expecting(&self, f: &mut fmt::Formatter<'_>) -> fmt::Result {
        f.write_str(self.0)
    }

    fn visit_str<E: Error>(self, text: &str) -> Result<Multihash<S>, E> {
        if HAS_BYTES {
            return Err(E::invalid_type(Unexpected::Str(text), &self));
        }
        text.parse().map_err(E::custom)
    }

    fn visit_bytes<E: Error>(self, bytes: &[u8]) -> Result<Multihash<S>, E> {
        Multihash::from_bytes(bytes).map_err(E::custom)
    }

    fn visit_seq<A: SeqAccess<'de>>(self, mut numbers: A) -> Result<Multihash<S>, A::Error> {
        let mut bytes = [0; LENGTH_MAX];
        let mut length = 0;
        while let Some(byte) = numbers.next_element()? {
            if length == Self::SEQUENCE_MAX {
                return Err(A::Error::invalid_length(length + 1, &self));
            }
            if let Some(slot) = bytes.get_mut(length) {
                *slot = byte;
            }
            length += 1;
        }
        match bytes.get(..length) {
            Some(bytes) => self.visit_bytes(bytes),
            None => Err(A::Error::invalid_length(length, &self)),
        }
    }
}
