//! Hexadecimal strings.
use crate::{Error, Multihash};
use core::{fmt, str};

/// The maximum length of an encoding in bytes.
pub(crate) const LENGTH_MAX: usize = 266;

/// The encoding in hexadecimal. A precision shortens it: `{:.8}` prints the first 8 digits.
impl<const S: usize> fmt::Display for Multihash<S> {
    fn fmt(&self, f: &mut fmt::Formatter<'_>) -> fmt::Result {
        let mut bytes = [0; LENGTH_MAX];
        let mut digits = [0; 2 * LENGTH_MAX];
        let length = self.write(&mut bytes[..]).map_err(|_| fmt::Error)?;
        for (pair, byte) in digits.chunks_exact_mut(2).zip(&bytes[..length]) {
            pair[0] = b"0123456789abcdef"[usize::from(byte >> 4)];
            pair[1] = b"0123456789abcdef"[usize::from(byte & 15)];
        }
        f.pad(str::from_utf8(&digits[..2 * length]).map_err(|_| fmt::Error)?)
    }
}

/// Why a text is not the encoding of a multihash in hexadecimal.
#[derive(Debug)]
#[non_exhaustive]
pub enum TextError {
    /// A character is not a hexadecimal digit.
    NotHexadecimal {
        /// The index of its first byte.
        index: usize,
        /// The first such character.
        character: char,
    },
    /// The text has an odd number of digits.
    OddLength(usize),
    /// The bytes are not a multihash.
    NotMultihash(Error),
}

impl fmt::Display for TextError {
    fn fmt(&self, f: &mut fmt::Formatter<'_>) -> fmt::Result {
        match self {
            Self::NotHexadecimal { index, character } => {
                let mut buffer = [0; 4];
                let character: &str = character.encode_utf8(&mut buffer);
                write!(f, "the text has {character:?} at index {index}, which is not a hexadecimal digit")
            }
            Self::OddLength(length) => write!(f, "the text has an odd number of digits, {length}"),
            Self::NotMultihash(error) => error.fmt(f),
        }
    }
}

impl std::error::Error for TextError {}

/// From hexadecimal digits, lower or upper case, without `0x`.
impl<const S: usize> str::FromStr for Multihash<S> {
    type Err = TextError;

    fn from_str(text: &str) -> Result<Self, TextError> {
        let mut bytes = [0; LENGTH_MAX];
        for (index, character) in text.char_indices() {
            let digit = character.to_digit(16).ok_or(TextError::NotHexadecimal { index, character })?;
            if let Some(byte) = bytes.get_mut(index / 2) {
                *byte = *byte << 4 | digit as u8;
            }
        }
        if text.len() % 2 != 0 {
            return Err(TextError::OddLength(text.len()));
        }
        let length = text.len() / 2;
        let bytes = &bytes[..length.min(LENGTH_MAX)]; // no encoding is longer
        let multihash = Self::read(bytes).map_err(|error| TextError::NotMultihash(error.in_bytes(bytes, S)))?;
        let end = multihash.encoded_len();
        if end < length {
            return Err(TextError::NotMultihash(Error::trailing(length - end, end)));
        }
        Ok(multihash)
    }
}
