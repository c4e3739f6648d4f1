//! Readers and writers, of `std::io` or `no_std_io`, that are short, interrupted or full, or fail; the kinds of errors.
#[cfg(feature = "std")]
use std::io;
#[cfg(not(feature = "std"))]
use verified_multihash::no_std_io as io;

use io::{Read, Write};
use std::error::Error as _;
#[cfg(feature = "alloc")]
use verified_multihash::list;
use verified_multihash::{varint, Error, Multihash};

type Value = Multihash<200>;
type Event = fn() -> Result<usize, io::Error>;

/// Reads or writes one byte a call, except that before the byte at `index` one call returns what `event` returns.
struct Slow<T> {
    bytes: T,
    index: usize,
    event: Event,
}

impl<T> Slow<T> {
    fn next(&mut self) -> Option<Event> {
        let is_event = self.index == 0;
        self.index = self.index.wrapping_sub(1);
        is_event.then_some(self.event)
    }
}

impl Read for Slow<&[u8]> {
    fn read(&mut self, out: &mut [u8]) -> Result<usize, io::Error> {
        self.next().map_or_else(|| self.bytes.read(&mut out[..1]), |event| event())
    }
}

impl Write for Slow<Vec<u8>> {
    fn write(&mut self, bytes: &[u8]) -> Result<usize, io::Error> {
        if let Some(event) = self.next() {
            return event();
        }
        self.bytes.push(bytes[0]);
        Ok(1)
    }

    #[cfg(feature = "std")]
    fn flush(&mut self) -> Result<(), io::Error> {
        unreachable!("nothing flushes")
    }
}

/// Appends by `write_all` alone.
struct Whole(Vec<u8>);

impl Write for Whole {
    fn write(&mut self, _: &[u8]) -> Result<usize, io::Error> {
        unreachable!("`write_all` does not call it")
    }

    fn write_all(&mut self, bytes: &[u8]) -> Result<(), io::Error> {
        self.0.extend_from_slice(bytes);
        Ok(())
    }

    #[cfg(feature = "std")]
    fn flush(&mut self) -> Result<(), io::Error> {
        unreachable!("nothing flushes")
    }
}

/// Returns a value whose encoding has two numbers of two bytes.
fn value() -> Value {
    Value::wrap(0x100, &[7; 150]).expect("it fits")
}

type Reads = fn(&mut Slow<&[u8]>) -> Result<Value, Error>;
type Writes = fn(&Value, &mut Slow<Vec<u8>>) -> Result<(), Error>;

const CALLS: &[(Reads, Writes)] = &[
    (|input| Value::read(input as &mut dyn Read), |value, out| value.write(out as &mut dyn Write).map(|_| ())),
    (|input| Value::scale_decode(input), |value, out| value.scale_encode(out).map(|_| ())),
    #[cfg(feature = "alloc")]
    (|input| list::read_list(input, 1).map(|list| list[0]), |value, out| list::write_list(&[*value], out)),
];

/// Reads and writes two encodings, with an event before each byte of the second, and calls `check` with the error, and
/// whether it is that of a reader. Nothing after the event is read or written.
fn each_byte(event: Event, check: impl Fn(Error, bool)) {
    for (read, write) in CALLS {
        let mut whole = Slow { bytes: Vec::new(), index: usize::MAX, event };
        write(&value(), &mut whole).expect("memory");
        let both = [&whole.bytes[..], &whole.bytes].concat();
        let length = whole.bytes.len();
        for index in length..2 * length {
            let mut reader = Slow { bytes: &both[..], index, event };
            assert_eq!(read(&mut reader).expect("it is whole"), value());
            check(read(&mut reader).expect_err("the event"), true);
            let mut writer = Slow { bytes: Vec::new(), index, event };
            write(&value(), &mut writer).expect("it is whole");
            check(write(&value(), &mut writer).expect_err("the event"), false);
            assert_eq!((reader.bytes, &writer.bytes[..]), (&both[index..], &both[..index]));
        }
    }
}

fn source(error: &Error) -> &io::Error {
    error.source().and_then(|source| source.downcast_ref()).expect("an error of the reader or the writer")
}

/// The source of the error, and the `io::Error` that `?` converts it to, are the error of the reader or the writer.
#[test]
fn failures() {
    #[cfg(not(feature = "std"))]
    let events: [Event; 1] = [|| Err(io::Error::other("größer"))];
    #[cfg(feature = "std")]
    let events: [Event; 4] = [
        || Err(io::Error::new(io::ErrorKind::TimedOut, "größer")),
        || Err(io::Error::new(io::ErrorKind::UnexpectedEof, "größer")),
        || Err(io::Error::from_raw_os_error(5)),
        || Err(io::ErrorKind::WouldBlock.into()),
    ];
    for event in events {
        let expected = event().expect_err("a failure");
        each_byte(event, |error, _| {
            assert_eq!((error.to_string(), error.consumed()), (expected.to_string(), None));
            assert_eq!((source(&error).to_string(), error.io().is_some()), (expected.to_string(), true));
            #[cfg(feature = "std")]
            {
                assert_eq!(error.is_incomplete(), expected.kind() == io::ErrorKind::UnexpectedEof);
                let converted = io::Error::from(error);
                assert_eq!((converted.kind(), converted.raw_os_error()), (expected.kind(), expected.raw_os_error()));
                assert_eq!(converted.to_string(), expected.to_string());
            }
        });
    }
}

/// At the end of the input, and if a writer is full.
#[test]
fn ends() {
    let end: Event = || Ok(0);
    each_byte(end, |error, is_reader| {
        assert_eq!(error.is_incomplete(), is_reader);
        let kind = if is_reader { "UnexpectedEof" } else { "WriteZero" };
        assert!(format!("{:?}", source(&error)).contains(kind));
    });
    assert_eq!(Value::read_next(&b""[..]).expect("the end"), None);
    assert_eq!(varint::read_next(&mut &b""[..]).expect("the end"), None);
}

/// A borrowed writer has the `write_all` of the writer, and not the trait's default.
#[test]
fn borrowed_writer() {
    let mut writer = Whole(Vec::new());
    value().write(&mut writer).expect("memory");
    assert_eq!(Value::read(&writer.0[..]).expect("it is whole"), value());
}

/// A slice of `no_std_io` keeps a truncated digest.
#[cfg(not(feature = "std"))]
#[test]
fn truncated_slice() {
    let mut rest = &b"\x12\x03ab"[..];
    assert!(Value::read(&mut rest).expect_err("an end").is_incomplete());
    assert_eq!(rest, b"ab");
}

/// A writer's count that is too large is a panic, and a reader's within a digest.
#[test]
fn too_large_counts() {
    let (bytes, event): (_, Event) = (&[0x12, 2, 7, 7][..], || Ok(1000));
    for index in 0..3 {
        let written = std::panic::catch_unwind(|| value().write(&mut Slow { bytes: Vec::new(), index, event }));
        let read = std::panic::catch_unwind(|| Value::read(&mut Slow { bytes, index, event }));
        assert_eq!((written.is_err(), read.is_err()), (true, index > 1));
    }
}

#[cfg(feature = "std")]
mod of_std {
    use super::*;
    use std::io::{BufReader, ErrorKind};
    use verified_multihash::Reader;

    /// As upstream, `read` repeats an interrupted call only within the digest, and `write` repeats each.
    #[test]
    fn interrupted_calls() {
        let (encoding, event): (_, Event) = (value().to_bytes(), || Err(ErrorKind::Interrupted.into()));
        for index in 0..encoding.len() {
            let mut reader = Slow { bytes: &encoding[..], index, event };
            match Value::read(&mut reader) {
                Ok(read) => assert!(read == value() && index >= 4),
                Err(error) => assert!(source(&error).kind() == ErrorKind::Interrupted && index < 4),
            }
            let mut writer = Slow { bytes: Vec::new(), index, event };
            value().write(&mut writer).expect("it is written");
            assert_eq!(writer.bytes, encoding);
        }
    }

    /// The kind is that of a reader or a writer that failed, and otherwise says whether the input is incomplete.
    #[test]
    fn kinds() {
        let kind = |error: Error| {
            let text = error.to_string();
            let error = io::Error::from(error);
            let inner = error.get_ref().and_then(|inner| inner.downcast_ref::<Error>());
            assert_eq!(inner.map(Error::to_string), Some(text));
            error.kind()
        };
        for bytes in [&b"\x12\xff\x01"[..], b"\x92\x00", &[0xff; 9], b"\x00\x00\x00"] {
            assert_eq!(kind(Value::from_bytes(bytes).expect_err("no multihash")), ErrorKind::InvalidData);
        }
        assert_eq!(kind(Value::wrap(u64::MAX, b"").expect_err("too large")), ErrorKind::InvalidData);
        for bytes in [&b"\x12\x03ab"[..], b"\x12"] {
            assert_eq!(kind(Value::from_bytes(bytes).expect_err("an end")), ErrorKind::UnexpectedEof);
            assert_eq!(kind(Value::read(bytes).expect_err("an end")), ErrorKind::UnexpectedEof);
        }
        let full = value().write(&mut [0; 9][..]).expect_err("it is full");
        assert_eq!(io::Error::from(full).kind(), ErrorKind::WriteZero);
        let out_of_memory = list::read_list::<4, _>(io::empty(), usize::MAX).expect_err("out of memory");
        assert_eq!(io::Error::from(out_of_memory).kind(), ErrorKind::OutOfMemory);
    }

    /// A `Reader` continues after a source that fails, is interrupted or ends before any byte, and loses none.
    #[test]
    fn calls_after_failures() {
        let events: [(Event, Option<ErrorKind>); 4] = [
            (|| Err(ErrorKind::TimedOut.into()), Some(ErrorKind::TimedOut)),
            (|| Err(ErrorKind::WouldBlock.into()), Some(ErrorKind::WouldBlock)),
            (|| Err(ErrorKind::Interrupted.into()), None),
            (|| Ok(0), Some(ErrorKind::UnexpectedEof)),
        ];
        let encoding = value().to_bytes();
        let both = [&encoding[..], &encoding].concat();
        for (event, kind) in events {
            for index in 0..both.len() {
                let source = Slow { bytes: &both[..], index, event };
                let mut reader = Reader::<_, 200>::new(BufReader::with_capacity(1, source));
                let (mut multihashes, mut failure) = (Vec::new(), None);
                while multihashes.len() < 2 {
                    match reader.read_next() {
                        Ok(Some(multihash)) => multihashes.push(multihash),
                        Ok(None) => failure = Some(ErrorKind::UnexpectedEof), // between two multihashes
                        Err(error) => failure = Some(error.kind()),
                    }
                    let consumed = both.len() - reader.get_ref().get_ref().bytes.len();
                    assert_eq!(multihashes.len() * encoding.len() + reader.rest().len(), consumed);
                }
                assert_eq!((multihashes, failure), (vec![value(); 2], kind));
            }
        }
    }

    /// Nothing after a multihash is consumed. The error of one that is malformed stays, and the source is not read
    /// again, which could fail or wait.
    #[test]
    fn malformed_input() {
        let source = Slow { bytes: &b"\x12\x03abc\x12\x05a"[..], index: 7, event: || Err(ErrorKind::TimedOut.into()) };
        let mut reader = Reader::<_, 4>::new(BufReader::with_capacity(1, source));
        assert_eq!(reader.read_next().expect("it is whole").map(|multihash| multihash.size()), Some(3));
        assert_eq!(reader.get_ref().get_ref().bytes, b"\x12\x05a");
        for _ in 0..2 {
            let error = reader.read_next().expect_err("it is too long");
            let inner = error.get_ref().and_then(|inner| inner.downcast_ref::<Error>()).expect("an error");
            assert_eq!((error.kind(), inner.invalid_size()), (ErrorKind::InvalidData, Some(5)));
            assert_eq!(reader.rest(), b"\x12\x05");
        }
    }

    /// A loop over a `Reader` ends after the error of an input that is malformed or truncated, which was consumed up to
    /// the byte that determines the error.
    #[test]
    fn loops() {
        for (bytes, errors, rest) in [
            (&b"\0\0\x12\x05abcde"[..], [false, true], &b"abcde"[..]),
            (b"\0\0\x12\x01", [false, true], b""),
            (b"\0\0\x12\x01a", [false, false], b""),
        ] {
            let mut reader = Reader::<_, 4>::new(bytes);
            let is_error: Vec<_> = reader.by_ref().take(3).map(|next| next.is_err()).collect();
            assert_eq!((&is_error[..], *reader.get_ref()), (&errors[..], rest));
        }
    }
}
