//! The test vectors, compared with what each function returns.
#[cfg(feature = "std")]
use std::io;
#[cfg(not(feature = "std"))]
use verified_multihash::no_std_io as io;

use io::Read;
use std::collections::hash_map::DefaultHasher;
use std::hash::{Hash, Hasher};
use std::path::PathBuf;
use verified_multihash::{varint, Decoder, Error, Head, Multihash, TextError};

/// Panics if an error is not that of a column.
fn check_error(error: &Error, column: &str) {
    let kind = match (error.invalid_size(), error.invalid_code()) {
        (Some(size), _) => format!("invalid_size {size}"),
        (_, Some(code)) => format!("invalid_code {code}"),
        _ if error.is_insufficient() => "insufficient".into(),
        _ if error.is_overflow() => "overflow".into(),
        _ if error.is_not_minimal() => "not_minimal".into(),
        _ if error.io().is_some() && error.is_incomplete() => "unexpected_eof".into(),
        _ => format!("{error:?}"),
    };
    assert_eq!(kind, column);
}

/// Panics if a result is not that of a column: a code and a digest, or an error.
fn check_result<const S: usize>(result: &Result<Multihash<S>, Error>, column: &str) {
    match result {
        Ok(multihash) => {
            let pair = column.strip_prefix("pair ").and_then(|pair| pair.split_once(' '));
            let (code, digits) = pair.expect("an error");
            assert_eq!((code.parse(), &bytes_of(digits)[..]), (Ok(multihash.code()), multihash.digest()));
        }
        Err(error) => check_error(error, column),
    }
}

/// Reads hexadecimal digits, `-` if there are no bytes.
fn bytes_of(digits: &str) -> Vec<u8> {
    let pairs = (0..digits.len() / 2).map(|index| &digits[2 * index..2 * index + 2]);
    pairs.map(|pair| u8::from_str_radix(pair, 16).expect("hexadecimal")).collect()
}

/// A reader that returns one byte a call, with the trait's default `read_exact`.
struct Slow<'a>(&'a [u8]);

impl Read for Slow<'_> {
    fn read(&mut self, out: &mut [u8]) -> Result<usize, io::Error> {
        self.0.read(&mut out[..1])
    }
}

/// What is read and decoded from an input. A call consumes `consumed` bytes, or all if more can change the result.
fn check<const S: usize>(input: &[u8], [read, consumed, whole, scale, scale_consumed]: [&str; 5]) {
    let count = consumed.parse().unwrap_or(input.len());
    let (mut rest, mut slow) = (input, Slow(input));
    let result = Multihash::<S>::read(&mut rest);
    check_result(&result, read);
    check_result(&Multihash::<S>::read(&mut slow), read);
    assert_eq!(slow.0.len(), input.len() - count);
    // a slice may keep a truncated digest: that of `std` does in some versions of Rust
    assert!(rest.len() == slow.0.len() || read == "unexpected_eof");
    match &result {
        Ok(multihash) => check_multihash(multihash, &input[..count]),
        Err(error) => assert_eq!(error.is_incomplete(), consumed == "-"),
    }
    match Multihash::<S>::read_next(input).transpose() {
        Some(next) => check_result(&next, read),
        None => assert!(input.is_empty()),
    }
    check_whole::<S>(input, whole, count);
    check_head(input, read, count);
    for length in [1, 3, input.len().max(1)] {
        check_parts::<S>(input, length, read, count);
    }
    let mut rest = input;
    check_result(&Multihash::<S>::scale_decode(&mut rest), scale);
    assert!(scale_consumed == "-" || scale_consumed.parse() == Ok(input.len() - rest.len()));
}

/// The bytes are decoded, and converted, as their text is. The text of a value is that of its encoding.
fn check_whole<const S: usize>(input: &[u8], whole: &str, count: usize) {
    let decoded = Multihash::<S>::from_bytes(input);
    check_result(&decoded, whole);
    if let Err(error) = &decoded {
        assert_eq!(error.consumed(), Some(count));
    }
    check_result(&Multihash::<S>::try_from(input), whole);
    let text: String = input.iter().map(|byte| format!("{byte:02x}")).collect();
    match text.parse::<Multihash<S>>() {
        Ok(multihash) => {
            check_result(&Ok(multihash), whole);
            assert_eq!((text.to_uppercase().parse().ok(), multihash.to_string()), (Some(multihash), text));
        }
        Err(TextError::NotMultihash(error)) => check_error(&error, whole),
        Err(error) => panic!("{error}"),
    }
}

/// Both varints, decoded at once and one by one, end where an error is determined, or before the digest. They are
/// written as they were read.
fn check_head(input: &[u8], column: &str, count: usize) {
    let mut rest = input;
    let code = varint::read(&mut rest);
    let varints = code.and_then(|code| varint::read(&mut rest).map(|length| (code, length)));
    let offset = input.len() - rest.len();
    match (Head::read_front(input), varints) {
        (Ok(head), Ok((code, length))) => {
            assert_eq!((head.code, head.digest_len, head.digest_offset), (code, length, offset));
            assert!(column.starts_with("pair") || column == "unexpected_eof" || count == offset);
            let (mut out, code_len) = ([0; 18], varint::len(code).expect("it was read"));
            varint::write(code, &mut &mut out[..code_len]).expect("enough capacity");
            varint::write(length, &mut &mut out[code_len..offset]).expect("enough capacity");
            assert_eq!(out[..offset], input[..offset]);
            assert_eq!(varint::read_front(input).ok(), Some((code, &input[code_len..])));
        }
        (Err(error), Err(other)) => {
            assert_eq!(offset, count);
            check_error(&error, column);
            check_error(&other, column);
        }
        _ => panic!("one of them fails"),
    }
}

/// An input that arrives in parts is decoded as `read` decodes it, and consumed up to there. The decoder
/// keeps bytes that are not a multihash.
fn check_parts<const S: usize>(input: &[u8], length: usize, column: &str, count: usize) {
    let (mut decoder, mut decoded, mut consumed) = (Decoder::<S>::new(), Ok(None), 0);
    for part in input.chunks(length) {
        let mut rest = part;
        decoded = decoder.decode(&mut rest);
        consumed += part.len() - rest.len();
        if !matches!(decoded, Ok(None)) {
            break;
        }
    }
    let rest = if matches!(decoded, Ok(Some(_))) { &[] } else { &input[..count] };
    assert_eq!((consumed, decoder.rest()), (count, rest));
    match decoded {
        Ok(Some(multihash)) => check_result(&Ok(multihash), column),
        Ok(None) if input.is_empty() => decoder.finish().expect("no byte"),
        Ok(None) => check_error(&decoder.finish().expect_err("it is incomplete"), column),
        Err(error) => {
            let again = decoder.decode(&mut &b"\0"[..]).expect_err("the same");
            for error in [error, again, decoder.finish().expect_err("the same")] {
                check_error(&error, column);
            }
        }
    }
}

/// Each writer writes the encoding, and the value is that of its parts.
fn check_multihash<const S: usize>(multihash: &Multihash<S>, encoding: &[u8]) {
    let (length, mut out) = (encoding.len(), [0xa5; 267]);
    assert!(multihash.write(&mut out[..length - 1]).is_err());
    assert_eq!((&out[..length - 1], out[length - 1]), (&encoding[..length - 1], 0xa5));
    assert_eq!((multihash.write(&mut out[..]).ok(), multihash.encoded_len()), (Some(length), length));
    assert_eq!((&out[..length], &out[length..]), (encoding, &[0xa5; 267][length..]));
    #[cfg(feature = "alloc")]
    {
        let mut written = b"before".to_vec();
        assert_eq!(multihash.write(&mut written).ok(), Some(length));
        assert_eq!((&written[6..], &Vec::from(*multihash)[..]), (encoding, encoding));
    }
    let (code, digest, size) = multihash.into_inner();
    let (prefix, rest) = digest.split_at(size.into());
    assert_eq!((code, size, prefix), (multihash.code(), multihash.size(), multihash.digest()));
    assert!(rest.iter().all(|byte| *byte == 0));
    assert_eq!(Multihash::<S>::wrap(code, prefix).expect("it fits"), *multihash);
    assert!(multihash.resize::<32>().map_or(size > 32, |small| small == *multihash));
    assert!(multihash.resize::<255>().expect("it fits") == *multihash);
}

/// A code and a digest: both encodings, or the error.
fn check_value<const S: usize>(code: u64, digest: &[u8], encoding: &str, scale: &str) {
    match Multihash::<S>::wrap(code, digest) {
        Ok(multihash) => {
            check_multihash(&multihash, &bytes_of(encoding));
            let mut out = [0xa5; 264];
            let length = multihash.scale_encode(&mut out[..]).expect("enough capacity");
            assert_eq!(&out[..length], bytes_of(scale));
        }
        Err(error) => check_error(&error, encoding),
    }
}

fn hash_of(value: impl Hash) -> u64 {
    let mut hasher = DefaultHasher::new();
    value.hash(&mut hasher);
    hasher.finish()
}

/// How two multihashes compare, of other capacities and after `truncate` too, and their hashes: two codes and digests,
/// and -1, 0 or 1.
fn check_order([code, digest, other_code, other, order]: [&str; 5]) {
    let order = order.parse::<i32>().expect("a number").cmp(&0);
    let [(a, longer), (b, other_longer)] = [(code, digest), (other_code, other)].map(|(code, digits)| {
        let (code, digest) = (code.parse().expect("a code"), bytes_of(digits));
        let multihash = Multihash::<255>::wrap(code, &digest).expect("it fits");
        assert_eq!(hash_of(multihash), hash_of((code, &digest[..])));
        let longer = [&digest[..], &[0xa5; 255]].concat();
        (multihash, Multihash::<300>::wrap(code, &longer[..255]).expect("it fits").truncate(digest.len() as u8))
    });
    assert_eq!([a.cmp(&b), longer.cmp(&other_longer)], [order; 2]);
    assert_eq!(a.partial_cmp(&b), Some(order));
    assert_eq!([a == b, a == other_longer, longer == other_longer], [order.is_eq(); 3]);
    assert_eq!([hash_of(b), hash_of(other_longer)].map(|hash| hash == hash_of(a)), [order.is_eq(); 2]);
}

/// The message of an input that a call rejects. Those of SCALE are not compared, since here it reads from a stream.
fn check_message<const S: usize>(call: &str, input: &[u8], message: &str) {
    let (mut decoder, mut rest) = (Decoder::<S>::new(), input);
    let error = match call {
        "from_bytes" => Multihash::<S>::from_bytes(input).expect_err("no multihash"),
        "read" if input.is_empty() => Multihash::<S>::read(input).expect_err("no multihash"),
        "read" => match decoder.decode(&mut rest) {
            Ok(multihash) => decoder.finish().expect_err(&format!("{multihash:?}")),
            Err(error) => error,
        },
        _ => return,
    };
    assert_eq!(error.to_string(), message);
}

/// Panics if a line of a list, by its columns, is not what the package finds.
fn check_line<const S: usize>(columns: &[&str]) {
    match *columns {
        ["value", _, code, digest, encoding, scale, ..] => {
            check_value::<S>(code.parse().expect("a code"), &bytes_of(digest), encoding, scale);
        }
        ["message", call, _, input, _, message] => check_message::<S>(call, &bytes_of(input), message),
        [_, input, read, consumed, whole, scale, scale_consumed, ..] => {
            check::<S>(&bytes_of(input), [read, consumed, whole, scale, scale_consumed]);
        }
        _ => panic!("a column is missing"),
    }
}

macro_rules! capacities {
    ($($capacity:literal)*) => { [$((stringify!($capacity), check_line::<$capacity> as fn(&[&str]))),*] };
}

/// Checks each line of the list that MULTIHASH_VERDICTS names, or of the list with a name beside it.
fn check_list(name: Option<&str>) {
    let stored = concat!(env!("CARGO_MANIFEST_DIR"), "/../../../crates/vectors/data/verdicts.tsv");
    let path = PathBuf::from(std::env::var("MULTIHASH_VERDICTS").unwrap_or_else(|_| stored.into()));
    let path = name.map_or(path.clone(), |name| path.with_file_name(name));
    if std::env::var("MULTIHASH_VERDICTS").is_err() && !path.exists() {
        return eprintln!("left out: MULTIHASH_VERDICTS is not set, and the repository is not there");
    }
    for line in std::fs::read_to_string(path).expect("the list").lines().skip(1) {
        println!("{line}"); // shown where the test fails
        let columns: Vec<&str> = line.split('\t').collect();
        let capacity = match columns[0] {
            "order" => {
                check_order(columns[1..].try_into().expect("five columns"));
                continue;
            }
            "value" => columns[1],
            "message" if columns[2].len() > 3 => "300", // 2^64 - 1
            "message" => columns[2],
            capacity => capacity,
        };
        let calls = capacities!(0 1 2 4 16 32 64 128 200 255 256 300);
        calls.iter().find(|(name, _)| *name == capacity).expect("a capacity of this test").1(&columns);
    }
}

#[test]
fn vectors() {
    check_list(None);
}

/// Encodings, errors of values, and how values compare.
#[test]
fn values() {
    check_list(Some("values.tsv"));
}

/// The packages for other languages have the same messages.
#[test]
fn messages() {
    check_list(Some("messages.tsv"));
}
