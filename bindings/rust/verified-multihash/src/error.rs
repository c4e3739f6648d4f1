//! The error of reading and writing multihashes.
use crate::no_std_io as io;
use crate::proved::varint;
#[cfg(feature = "alloc")]
use alloc::collections::TryReserveError;
use core::fmt;
use io::ErrorKind;

/// The error of reading, writing or constructing a multihash or a varint.
///
/// Its message is a sentence: `the input ends inside the digest (12 of 32 bytes)`. An error has exactly one kind:
/// [`invalid_size`](Self::invalid_size), [`invalid_code`](Self::invalid_code) or [`io`](Self::io) is `Some`, or one of
/// [`is_insufficient`](Self::is_insufficient), [`is_overflow`](Self::is_overflow) and
/// [`is_not_minimal`](Self::is_not_minimal) is true. The [`source`](std::error::Error::source) is the error of the reader
/// or the writer, if one of these failed or ended.
#[derive(Debug)]
pub struct Error {
    kind: Kind,
    place: Place,
    /// The number of bytes that were consumed.
    consumed: Option<u16>,
}

#[derive(Debug)]
enum Kind {
    Io(io::Error),
    /// The end of the input before or inside a varint, as an error of a reader.
    Insufficient(io::Error),
    InvalidSize(u64),
    InvalidCode(u64),
    Overflow,
    NotMinimal,
}

/// What is known of where the error is. `present` is the number of bytes of that part in the input.
#[derive(Clone, Copy, Debug)]
enum Place {
    Unknown,
    Code { present: u8 },
    Length { present: u8 },
    Digest { present: u8, length: u8 },
    TooLong { limit: u8 },
    Trailing,
}

impl Place {
    const fn varint(self) -> &'static str {
        match self {
            Self::Code { .. } => "varint of the code",
            Self::Length { .. } => "varint of the digest's length",
            _ => "varint",
        }
    }
}

impl Error {
    const fn new(kind: Kind) -> Self {
        Self { kind, place: Place::Unknown, consumed: None }
    }

    pub(crate) const fn from_size(size: u64) -> Self {
        Self::new(Kind::InvalidSize(size))
    }

    #[cold]
    #[inline(never)] // or `Multihash::wrap` takes more instructions
    pub(crate) const fn from_code(code: u64) -> Self {
        Self::new(Kind::InvalidCode(code))
    }

    #[cold]
    pub(crate) fn insufficient() -> Self {
        Self::new(Kind::Insufficient(ErrorKind::UnexpectedEof.into()))
    }

    pub(crate) const fn overflow() -> Self {
        Self::new(Kind::Overflow)
    }

    pub(crate) const fn not_minimal() -> Self {
        Self::new(Kind::NotMinimal)
    }

    /// Returns the error of an input without a byte.
    #[cold]
    pub(crate) fn empty() -> Self {
        Self::insufficient().at(Place::Code { present: 0 }, 0)
    }

    /// Returns the error of a digest that is longer than a capacity.
    #[cold]
    #[inline(never)] // as `from_code`
    pub(crate) const fn too_long(size: u64, capacity: usize, consumed: Option<u16>) -> Self {
        let limit = if capacity < 255 { capacity as u8 } else { 255 };
        Self { kind: Kind::InvalidSize(size), place: Place::TooLong { limit }, consumed }
    }

    /// Returns the error of bytes that follow a multihash of a length.
    pub(crate) fn trailing(count: usize, length: usize) -> Self {
        Self::from_size(count as u64).at(Place::Trailing, length)
    }

    /// Returns the error with its place, and how many bytes were consumed.
    fn at(self, place: Place, consumed: usize) -> Self {
        Self { place, consumed: Some(consumed as u16), ..self }
    }

    /// Returns an error of reading from a stream, for a capacity.
    #[cold]
    pub(crate) fn in_stream(self, capacity: usize) -> Self {
        match self.kind {
            Kind::InvalidSize(size) => Self::too_long(size, capacity, None),
            _ => self,
        }
    }

    /// Returns an error of decoding these bytes, for a capacity: finds its place.
    #[cold]
    pub(crate) fn in_bytes(self, bytes: &[u8], capacity: usize) -> Self {
        let mut rest = bytes;
        let code = varint::read(&mut rest);
        let code_end = bytes.len() - rest.len();
        if code.is_err() {
            return self.at(Place::Code { present: code_end as u8 }, code_end);
        }
        let length = varint::read(&mut rest);
        let head_end = bytes.len() - rest.len();
        let length = match length {
            Ok(length) => length,
            Err(_) => return self.at(Place::Length { present: (head_end - code_end) as u8 }, head_end),
        };
        if length > capacity.min(255) as u64 {
            return Self::too_long(length, capacity, Some(head_end as u16));
        }
        let end = head_end + length as usize;
        if end < bytes.len() {
            return Self::trailing(bytes.len() - end, end);
        }
        self.at(Place::Digest { present: rest.len() as u8, length: length as u8 }, bytes.len())
    }

    /// Returns the invalid size: the length of a digest that is longer than its capacity or than 255 bytes, or the number
    /// of bytes that follow the multihash.
    pub const fn invalid_size(&self) -> Option<u64> {
        match self.kind {
            Kind::InvalidSize(size) => Some(size),
            _ => None,
        }
    }

    /// Returns the invalid code, which is 2^63 or more.
    pub const fn invalid_code(&self) -> Option<u64> {
        match self.kind {
            Kind::InvalidCode(code) => Some(code),
            _ => None,
        }
    }

    /// Returns whether the input ended before or inside a varint.
    pub const fn is_insufficient(&self) -> bool {
        matches!(self.kind, Kind::Insufficient(_))
    }

    /// Returns whether a varint has more than nine bytes, as every number of 2^63 or more needs.
    pub const fn is_overflow(&self) -> bool {
        matches!(self.kind, Kind::Overflow)
    }

    /// Returns whether a varint of more than one byte ends in a zero byte.
    pub const fn is_not_minimal(&self) -> bool {
        matches!(self.kind, Kind::NotMinimal)
    }

    /// Returns the error of the reader or the writer: it failed, the input ended inside a digest or another part of fixed
    /// size, the writer is full, or an allocation failed.
    pub const fn io(&self) -> Option<&io::Error> {
        match &self.kind {
            Kind::Io(error) => Some(error),
            _ => None,
        }
    }

    /// Returns whether the input is incomplete: more input can change the result.
    pub fn is_incomplete(&self) -> bool {
        match &self.kind {
            Kind::Io(error) => error.kind() == ErrorKind::UnexpectedEof,
            Kind::Insufficient(_) => true,
            _ => false,
        }
    }

    /// Returns the number of bytes from the start of the multihash up to and including the one that determines the error,
    /// or up to the end of the input. It is known if the bytes are: to `from_bytes`, `parse`, `Decoder` and `Reader`.
    pub fn consumed(&self) -> Option<usize> {
        self.consumed.map(usize::from)
    }
}

/// Returns whether an error is that of input that ends, and not an error of the reader itself.
fn is_end(error: &io::Error) -> bool {
    #[cfg(feature = "std")]
    let is_of_reader = error.get_ref().is_some();
    #[cfg(not(feature = "std"))]
    let is_of_reader = false;
    error.kind() == ErrorKind::UnexpectedEof && !is_of_reader
}

impl From<io::Error> for Error {
    fn from(error: io::Error) -> Self {
        Self::new(Kind::Io(error))
    }
}

#[cfg(feature = "alloc")]
impl From<TryReserveError> for Error {
    fn from(_: TryReserveError) -> Self {
        io::Error::from(ErrorKind::OutOfMemory).into()
    }
}

impl fmt::Display for Error {
    fn fmt(&self, f: &mut fmt::Formatter<'_>) -> fmt::Result {
        match (&self.kind, self.place) {
            (Kind::Io(_), Place::Digest { present, length }) => {
                let place = if present == 0 { "before" } else { "inside" };
                write!(f, "the input ends {place} the digest ({present} of {length} {})", bytes(length.into()))
            }
            (Kind::Io(error), _) if is_end(error) => f.write_str("the input is truncated"),
            (Kind::Io(error), _) => write!(f, "{error}"), // ignores width and precision, as upstream
            (Kind::Insufficient(_), Place::Code { present: 0 }) => f.write_str("the input is empty"),
            (Kind::Insufficient(_), Place::Code { .. }) => f.write_str("the input ends inside the code"),
            (Kind::Insufficient(_), Place::Length { present: 0 }) => {
                f.write_str("the input ends before the digest's length")
            }
            (Kind::Insufficient(_), Place::Length { .. }) => f.write_str("the input ends inside the digest's length"),
            (Kind::Insufficient(_), _) => f.write_str("the input ends before the end of a varint"),
            (Kind::Overflow, place) => write!(f, "the {} has more than nine bytes", place.varint()),
            (Kind::NotMinimal, place) => write!(f, "the {} is not minimal: it ends in a zero byte", place.varint()),
            (Kind::InvalidSize(size), Place::TooLong { limit }) => {
                write!(f, "the digest has {size} {}, and the limit is {limit}", bytes(*size))
            }
            (Kind::InvalidSize(1), _) => f.write_str("1 byte follows the multihash"),
            (Kind::InvalidSize(count), _) => write!(f, "{count} bytes follow the multihash"),
            (Kind::InvalidCode(code), _) => write!(f, "the code {code} is 2^63 or more"),
        }
    }
}

/// Returns the word for a number of bytes.
const fn bytes(count: u64) -> &'static str {
    if count == 1 {
        "byte"
    } else {
        "bytes"
    }
}

impl std::error::Error for Error {
    fn source(&self) -> Option<&(dyn std::error::Error + 'static)> {
        match &self.kind {
            Kind::Io(error) | Kind::Insufficient(error) => Some(error),
            _ => None,
        }
    }
}

/// The error of the reader or the writer itself, if it failed. Otherwise the kind is `UnexpectedEof` if the input is
/// incomplete, and else `InvalidData`, and [`io::Error::get_ref`](std::io::Error::get_ref) returns the error.
#[cfg(feature = "std")]
impl From<Error> for io::Error {
    fn from(error: Error) -> Self {
        let kind = match error.kind {
            Kind::Io(error) if !is_end(&error) => return error,
            _ if error.is_incomplete() => ErrorKind::UnexpectedEof,
            _ => ErrorKind::InvalidData,
        };
        Self::new(kind, error)
    }
}
