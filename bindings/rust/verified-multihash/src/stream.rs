//! Multihashes from an input that arrives in parts.
use crate::text::LENGTH_MAX;
use crate::{Error, Head, Multihash};
#[cfg(feature = "std")]
use std::io::{self, BufRead, ErrorKind};

/// Decodes concatenated multihashes from parts of an input, and keeps one that is incomplete until its rest arrives.
///
/// It neither allocates nor reads, so a program that awaits its input can use it. A multihash that is whole in a part is
/// decoded there; the bytes of others are copied once, into a buffer of 266 bytes.
///
/// # Examples
///
/// ```
/// use verified_multihash::{Decoder, Multihash};
///
/// let mut decoder = Decoder::<32>::new();
/// let mut multihashes = Vec::new();
/// for part in [&b"\x12\x03ab"[..], b"c\x12\x03de", b"f"] {
///     let mut rest = part;
///     while let Some(multihash) = decoder.decode(&mut rest)? {
///         multihashes.push(multihash);
///     }
/// }
/// decoder.finish()?; // an error if the input ended inside a multihash
/// assert_eq!(multihashes, [Multihash::<32>::wrap(0x12, b"abc")?, Multihash::wrap(0x12, b"def")?]);
/// # Ok::<(), verified_multihash::Error>(())
/// ```
#[derive(Clone, Debug)]
pub struct Decoder<const S: usize> {
    bytes: [u8; LENGTH_MAX],
    length: usize,
}

impl<const S: usize> Decoder<S> {
    /// Returns a decoder for the start of an input.
    pub const fn new() -> Self {
        Self { bytes: [0; LENGTH_MAX], length: 0 }
    }

    /// Returns the bytes received of an incomplete or, after an error, invalid multihash.
    pub fn rest(&self) -> &[u8] {
        &self.bytes[..self.length]
    }

    /// Decodes the next multihash, and advances `part` past the bytes consumed, which are none after the multihash.
    /// Returns `None` if the multihash is incomplete: then all of `part` was consumed.
    ///
    /// # Errors
    ///
    /// [`Error::is_overflow`], [`Error::is_not_minimal`] or [`Error::invalid_size`], as [`Multihash::read`] returns them.
    /// The part was consumed up to and including the byte that determines the error, and each later call returns the same
    /// error.
    pub fn decode(&mut self, part: &mut &[u8]) -> Result<Option<Multihash<S>>, Error> {
        if self.length == 0 {
            let mut input = *part;
            if let Ok(multihash) = Multihash::read(&mut input) {
                *part = input;
                return Ok(Some(multihash));
            }
        }
        self.decode_rest(part)
    }

    /// Decodes a multihash that is not whole in the part.
    #[cold]
    fn decode_rest(&mut self, part: &mut &[u8]) -> Result<Option<Multihash<S>>, Error> {
        let head = loop {
            match Head::read_front(self.rest()) {
                Err(error) if error.is_insufficient() && !part.is_empty() => self.receive(part, self.length + 1),
                head => break head,
            }
        };
        if let Ok(head) = head {
            if head.digest_len <= S.min(255) as u64 {
                self.receive(part, head.digest_offset + head.digest_len as usize);
            }
        }
        match Multihash::read(&mut self.rest()) {
            Ok(multihash) => {
                self.length = 0;
                Ok(Some(multihash))
            }
            Err(error) if error.is_incomplete() => Ok(None),
            Err(error) => Err(error.in_bytes(self.rest(), S)),
        }
    }

    /// Moves bytes from the part to the buffer, until the buffer has `length` bytes or the part is empty.
    fn receive(&mut self, part: &mut &[u8], length: usize) {
        let (received, rest) = part.split_at(part.len().min(length - self.length));
        self.bytes[self.length..][..received.len()].copy_from_slice(received);
        self.length += received.len();
        *part = rest;
    }

    /// Checks that the input may end here.
    ///
    /// # Errors
    ///
    /// If the input ends inside a multihash: the error is incomplete, the bytes are still kept, and more parts may follow.
    /// After an error of [`Decoder::decode`] that error.
    pub fn finish(&self) -> Result<(), Error> {
        match Multihash::<S>::read(&mut self.rest()) {
            Err(error) if self.length > 0 => Err(error.in_bytes(self.rest(), S)),
            _ => Ok(()),
        }
    }
}

impl<const S: usize> Default for Decoder<S> {
    fn default() -> Self {
        Self::new()
    }
}

/// Reads multihashes from a source that may end early or fail, and continues after that.
///
/// It consumes no byte after the multihash that it returns. What it received of an incomplete one is kept, so after a
/// timeout, or when a file has grown, the next call continues. Calls that are interrupted are repeated.
///
/// As an iterator it ends after an error; [`Reader::read_next`] continues. The [page of the crate](crate#streams) reads a
/// file.
///
/// # Examples
///
/// ```
/// use verified_multihash::{Multihash, Reader};
///
/// let mut reader = Reader::<_, 64>::new(&b"\x12\x03abc\x12\x03d"[..]);
/// assert_eq!(reader.read_next()?, Some(Multihash::wrap(0x12, b"abc")?));
/// let error = reader.read_next().unwrap_err(); // of the kind `UnexpectedEof`
/// assert_eq!(error.to_string(), "the input ends inside the digest (1 of 3 bytes)");
///
/// *reader.get_mut() = b"ef"; // what comes later
/// assert_eq!(reader.read_next()?, Some(Multihash::wrap(0x12, b"def")?));
/// assert_eq!(reader.read_next()?, None);
/// # Ok::<(), std::io::Error>(())
/// ```
#[cfg(feature = "std")]
#[derive(Clone, Debug)]
pub struct Reader<R, const S: usize> {
    source: R,
    decoder: Decoder<S>,
    has_failed: bool,
}

#[cfg(feature = "std")]
impl<R, const S: usize> Reader<R, S> {
    /// Returns a reader of a source that is at the start of a multihash.
    pub const fn new(source: R) -> Self {
        Self { source, decoder: Decoder::new(), has_failed: false }
    }

    /// Returns the source.
    pub fn get_ref(&self) -> &R {
        &self.source
    }

    /// Returns the source. Its replacement, if any, must continue where it ended.
    pub fn get_mut(&mut self) -> &mut R {
        &mut self.source
    }

    /// Returns the bytes received of an incomplete or, after an error, invalid multihash.
    pub fn rest(&self) -> &[u8] {
        self.decoder.rest()
    }
}

#[cfg(feature = "std")]
impl<R: BufRead, const S: usize> Reader<R, S> {
    /// Returns the next multihash, or `None` at the end of the source.
    ///
    /// # Errors
    ///
    /// - The error of the source itself, if it failed. The next call continues.
    /// - `UnexpectedEof` if the source ends inside a multihash. The next call continues.
    /// - `InvalidData` if the next bytes are not a multihash with a digest of at most `S` bytes. Each later call returns
    ///   the same error.
    ///
    /// The last two are made of an [`Error`], which [`io::Error::get_ref`] returns.
    pub fn read_next(&mut self) -> io::Result<Option<Multihash<S>>> {
        if !self.rest().is_empty() {
            self.decoder.decode(&mut &[][..])?; // the error of an earlier call
        }
        loop {
            let part = match self.source.fill_buf() {
                Err(error) if error.kind() == ErrorKind::Interrupted => continue,
                part => part?,
            };
            if part.is_empty() {
                self.decoder.finish()?;
                return Ok(None);
            }
            let mut rest = part;
            let decoded = self.decoder.decode(&mut rest);
            let consumed = part.len() - rest.len();
            self.source.consume(consumed);
            if let Some(multihash) = decoded? {
                return Ok(Some(multihash));
            }
        }
    }
}

#[cfg(feature = "std")]
impl<R: BufRead, const S: usize> Iterator for Reader<R, S> {
    type Item = io::Result<Multihash<S>>;

    fn next(&mut self) -> Option<Self::Item> {
        if self.has_failed {
            return None;
        }
        let next = self.read_next();
        self.has_failed = next.is_err();
        next.transpose()
    }
}
