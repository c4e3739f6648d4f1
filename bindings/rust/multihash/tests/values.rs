//! What callers of upstream's package name: the exact types of functions, what is implemented, and serde as upstream.
#[cfg(not(feature = "std"))]
use multihash::no_std_io as io;
use multihash::{Error, Multihash};
#[cfg(feature = "std")]
use std::io;

type Value = Multihash<64>;

// The arguments and results are of no other types, and callers can name the parameters.
const WRAPPED: Result<Value, Error> = Value::wrap(0x12, b"abc");
const _: fn(u64, &[u8]) -> Result<Value, Error> = Value::wrap;
const _: fn(&[u8]) -> Result<Value, Error> = Value::from_bytes;
const _: fn(&'static [u8]) -> Result<Value, Error> = Value::read::<&[u8]>;
const _: fn(&Value, &'static mut [u8]) -> Result<usize, Error> = Value::write::<&mut [u8]>;
const _: fn(&mut dyn io::Read) -> Result<Value, Error> = |reader| Value::read(reader);
const _: fn(&Value, &mut dyn io::Write) -> Result<usize, Error> = |value, writer| value.write(writer);
const _: fn(&Value) -> u64 = Value::code;
const _: fn(&Value) -> u8 = Value::size;
const _: fn(&Value) -> &[u8] = Value::digest;
const _: fn(&Value) -> usize = Value::encoded_len;
#[cfg(feature = "alloc")]
const _: fn(&Value) -> Vec<u8> = Value::to_bytes;
#[cfg(feature = "alloc")]
const _: fn(Value) -> Vec<u8> = Vec::from;
const _: fn(&Value, u8) -> Value = Value::truncate;
const _: fn(&Value) -> Result<Multihash<32>, Error> = Value::resize::<32>;
const _: fn(Value) -> (u64, [u8; 64], u8) = Value::into_inner;
const _: fn(Error) -> Box<dyn std::error::Error + Send + Sync> = |error| error.into();
#[allow(deprecated)] // earlier names
const _: fn(multihash::MultihashGeneric<3>) -> multihash::Result<Multihash<3>> = Ok;

const fn code_and_size(value: &Value) -> (u64, u8) {
    (value.code(), value.size())
}

#[test]
fn parts() {
    let multihash = WRAPPED.expect("a multihash");
    assert_eq!((code_and_size(&multihash), multihash.digest()), ((0x12, 3), &b"abc"[..]));
    assert_eq!(Multihash::<3>::default().into_inner(), (0, [0; 3], 0));
    assert_eq!(std::mem::size_of::<Value>(), 80);
}

#[cfg(feature = "serde")]
mod serde {
    use super::*;

    /// The encoding is bytes, in JSON an array of numbers.
    #[test]
    fn json() {
        let text = serde_json::to_string(&WRAPPED.expect("a multihash")).expect("JSON");
        assert_eq!(text, "[18,3,97,98,99]");
        // a text is accepted for bytes, and for nothing else that this could ask for
        for text in [&text, r#""\u0012\u0003abc""#] {
            assert_eq!(serde_json::from_str::<Value>(text).ok(), WRAPPED.ok());
        }
        let error = |text| serde_json::from_str::<Multihash<3>>(text).expect_err("an error").to_string();
        assert!(error("[18,4,97,98,99,100]").starts_with("the digest has 4 bytes, and the limit is 3"));
        assert!(error("[18,1]").starts_with("the input ends before the digest (0 of 1 byte)"));
        assert!(error("[18,256]").contains("256"));
        assert!(error("7").contains("expected a valid Multihash in bytes at"));
        // a text that serde has kept is not read as hexadecimal
        assert!(serde_json::from_value::<Value>("1203616263".into()).is_err());
    }

    /// The longest encoding is decoded, and a sequence of more than `limit` numbers is an error before its end: as upstream,
    /// that is more than an encoding has for a capacity above 255.
    #[test]
    fn long_sequences() {
        fn check<const S: usize>(longest: usize, limit: usize) {
            let value = Multihash::<S>::wrap(u64::MAX >> 1, &[7; 255][..S.min(255)]).expect("it fits");
            let text = serde_json::to_string(&value).expect("JSON");
            assert_eq!(value.encoded_len(), longest);
            assert_eq!(serde_json::from_str::<Multihash<S>>(&text).expect("the longest"), value);
            let zeros = |count: usize, end: &str| {
                let text = format!("[0{}{end}", ",0".repeat(count - 1));
                serde_json::from_str::<Multihash<S>>(&text).expect_err("an error")
            };
            assert!(zeros(longest, "]").to_string().contains(" bytes follow the multihash"));
            assert!(zeros(longest + 1, "]").to_string().starts_with(&format!("invalid length {}", longest + 1)));
            assert!(zeros(limit, ",").is_eof() && zeros(limit + 1, ",").is_data());
        }
        check::<3>(13, 13);
        check::<127>(137, 137);
        check::<128>(139, 139);
        check::<255>(266, 266);
        check::<300>(266, 310);
    }
}
