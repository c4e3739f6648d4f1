//! Values, their texts, names of codes, and the texts of errors that the test vectors do not have.
use verified_multihash::{codes, Decoder, Error, Head, Multihash, TextError};

type Value = Multihash<64>;

// These bounds are part of the API.
fn is_value<T: Copy + Default + Eq + Ord + std::hash::Hash + std::fmt::Debug + Send + Sync + Unpin>() {}
fn is_head<T: Copy + Eq + std::fmt::Debug + Send + Sync>() {}
fn is_stream<T: Clone + std::fmt::Debug + Send + Sync + Unpin>() {}
fn is_error<T: std::error::Error + Send + Sync + 'static>() {}

#[test]
fn traits() {
    is_value::<Value>();
    is_head::<Head>();
    is_error::<Error>();
    is_error::<TextError>();
    is_stream::<Decoder<64>>();
    #[cfg(feature = "std")]
    {
        is_stream::<verified_multihash::Reader<&[u8], 64>>();
        // a result with a varint has three words, and one with a multihash has one word more than the multihash
        assert_eq!([24, 88], [std::mem::size_of::<Error>(), std::mem::size_of::<Result<Value, Error>>()]);
    }
}

#[test]
fn shorter_digests() {
    let value = Value::wrap(0x12, b"abc").expect("it fits");
    assert_eq!([3, 4, 64, 255].map(|size| value.truncate(size)), [value; 4]);
    // `truncate` keeps the bytes that are removed, as upstream, and `resize` does not copy them
    let short = value.truncate(2);
    assert_eq!((short.digest(), &short.into_inner().1[..4]), (&b"ab"[..], &b"abc\0"[..]));
    assert_eq!(short.resize::<4>().expect("it fits").into_inner(), (0x12, *b"ab\0\0", 2));
    let debug = "Multihash { code: 18, size: 2, digest: [97, 98, 99, 0] }";
    assert_eq!(format!("{:?}", value.resize::<4>().expect("it fits").truncate(2)), debug);
}

/// Codes and names of the multicodec table, and some that it does not have.
#[test]
fn names() {
    for (constant, code, name) in [
        (codes::IDENTITY, 0, "identity"),
        (codes::SHA2_256, 0x12, "sha2-256"),
        (codes::BLAKE2B_8, 0xb201, "blake2b-8"),
        (codes::BLAKE2S_256, 0xb260, "blake2s-256"),
        (codes::SKEIN1024_1024, 0xb3e0, "skein1024-1024"),
        (codes::POSEIDON_BLS12_381_A2_FC1_SC, 0xb402, "poseidon-bls12_381-a2-fc1-sc"),
    ] {
        assert_eq!((constant, codes::name(code), codes::code(name)), (code, Some(name), Some(code)));
    }
    assert_eq!([1, 0xb200, 0xb261, 1 << 32 | 0x12, u64::MAX].map(codes::name), [None; 5]);
    assert_eq!(["", "sha256", "SHA2-256", "blake2b-520", "blake2b-"].map(codes::code), [None; 5]);
    for code in (0..0x100).chain(0xb200..0xb400) {
        assert!(codes::name(code).map_or(true, |name| codes::code(name) == Some(code)));
    }
}

#[test]
fn long_slices() {
    // 2^32 and 1, or as much as fits: no page is touched but the first
    let long = vec![0; 1_usize.checked_shl(32).unwrap_or(1 << 16) + 1];
    let length = long.len();
    assert_eq!(Value::wrap(1, &long).expect_err("too long").invalid_size(), Some(length as u64));
    assert_eq!(Value::from_bytes(&long).expect_err("trailing bytes").invalid_size(), Some(length as u64 - 2));
    assert_eq!(Head::read_front(&long).map(|head| head.digest_offset).ok(), Some(2));
    let (mut rest, mut scale_rest) = (&long[..], &long[..]);
    assert_eq!(Value::read(&mut rest).map(|multihash| multihash.size()).ok(), Some(0));
    assert_eq!(Value::scale_decode(&mut scale_rest).map(|multihash| multihash.code()).ok(), Some(0));
    assert_eq!((rest.len(), scale_rest.len()), (length - 2, length - 9));
    // a length that a word of 32 bits does not have
    let head = Head::read_front(b"\x12\x83\x80\x80\x80\x10abc").expect("a head");
    assert_eq!(head.digest_len, (1 << 32) + 3);
}

/// The text of a value, which an alignment and a precision shape, and which is read in either case.
#[test]
fn hexadecimal() {
    let value: Value = "12034A4b4C".parse().expect("a multihash");
    assert_eq!(value, Value::wrap(0x12, b"JKL").expect("it fits"));
    assert_eq!(format!("{value} {value:.4}|{value:12}|{value:>12}|"), "12034a4b4c 1203|12034a4b4c  |  12034a4b4c|");
    let full = Multihash::<255>::wrap(u64::MAX >> 1, &[0xf7; 255]).expect("it fits");
    assert_eq!(full.to_string().parse().ok(), Some(full));
}

/// Texts that are not a multihash, some longer than any encoding.
#[test]
fn rejected_texts() {
    let full = Multihash::<255>::wrap(u64::MAX >> 1, &[7; 255]).expect("it fits");
    for (text, message) in [
        (&*"0".repeat(535), "the text has an odd number of digits, 535"),
        ("1203é1", "the text has \"é\" at index 4, which is not a hexadecimal digit"),
        ("+1", "the text has \"+\" at index 0, which is not a hexadecimal digit"),
        (&*("0".repeat(535) + " "), "the text has \" \" at index 535, which is not a hexadecimal digit"),
        (&*format!("{full}00"), "1 byte follows the multihash"),
        (&*"00".repeat(300), "298 bytes follow the multihash"),
        (&*format!("12ac02{}", "00".repeat(300)), "the digest has 300 bytes, and the limit is 255"),
    ] {
        assert_eq!(text.parse::<Multihash<255>>().expect_err("no multihash").to_string(), message);
    }
}

/// Errors of calls that do not know the bytes name the limit. Width and precision change nothing, as upstream.
#[test]
fn limits() {
    type Small = Multihash<4>;
    for result in [
        Small::wrap(18, b"abcde"),
        Small::read(&b"\x12\x05abcde"[..]),
        Small::read_next(&b"\x12\x05abcde"[..]).map(Option::unwrap_or_default),
        Small::scale_decode(&b"\x12\0\0\0\0\0\0\0\x05abcde"[..]),
        Multihash::<5>::wrap(18, b"abcde").expect("it fits").resize(),
    ] {
        let text = format!("{:99.3}", result.expect_err("it is too long"));
        assert_eq!(text, "the digest has 5 bytes, and the limit is 4");
    }
}
