//! The feature `serde`: JSON, and a format of bytes.
#![cfg(all(feature = "serde", not(feature = "serde-codec")))]
use serde::de::value::{BytesDeserializer, Error, StrDeserializer};
use serde::de::{Deserializer, IntoDeserializer, Visitor};
use serde::ser::{Impossible, Serializer};
use serde::{forward_to_deserialize_any, Deserialize, Serialize};
use verified_multihash::Multihash;

type Value = Multihash<4>;

fn value() -> Value {
    Value::wrap(0x12, b"abc").expect("it fits")
}

#[test]
fn json() {
    assert_eq!(serde_json::to_string(&value()).expect("JSON"), r#""1203616263""#);
    let of = |text| serde_json::from_str::<Value>(text).map_err(|error| error.to_string());
    // with an escape, the text is not borrowed
    for text in [r#""1203616263""#, r#""12\u0030361626\u0033""#] {
        assert_eq!(of(text), Ok(value()));
    }
    for (text, message) in [
        (r#""12036162""#, "the input ends inside the digest (2 of 3 bytes)"),
        (r#""120""#, "the text has an odd number of digits, 3"),
        ("[18,3,97,98,99]", "invalid type: sequence, expected a multihash in hexadecimal"),
    ] {
        let error = of(text).expect_err("no multihash");
        assert!(error.starts_with(message), "{error}");
    }
}

/// A format that is not for people, and has bytes and no other values.
struct Bytes<'a>(&'a [u8]);

impl<'de> Deserializer<'de> for Bytes<'de> {
    type Error = Error;

    fn deserialize_any<V: Visitor<'de>>(self, _: V) -> Result<V::Value, Error> {
        unreachable!("bytes are asked for")
    }

    fn deserialize_bytes<V: Visitor<'de>>(self, visitor: V) -> Result<V::Value, Error> {
        visitor.visit_borrowed_bytes(self.0)
    }

    fn is_human_readable(&self) -> bool {
        false
    }

    forward_to_deserialize_any! {
        bool i8 i16 i32 i64 u8 u16 u32 u64 f32 f64 char str string byte_buf option unit unit_struct newtype_struct seq
        tuple tuple_struct map struct enum identifier ignored_any
    }
}

macro_rules! unreachable_values {
    ($($name:ident $([$($bounds:tt)*])? ($($type:ty),*) -> $result:ty;)*) => {
        $(fn $name $(<$($bounds)*>)? (self $(, _: $type)*) -> Result<$result, Error> {
            unreachable!("bytes are written")
        })*
    };
}

struct ToBytes;
type No = Impossible<Vec<u8>, Error>;

impl Serializer for ToBytes {
    type Ok = Vec<u8>;
    type Error = Error;
    type SerializeSeq = No;
    type SerializeTuple = No;
    type SerializeTupleStruct = No;
    type SerializeTupleVariant = No;
    type SerializeMap = No;
    type SerializeStruct = No;
    type SerializeStructVariant = No;

    fn serialize_bytes(self, bytes: &[u8]) -> Result<Vec<u8>, Error> {
        Ok(bytes.to_vec())
    }

    fn is_human_readable(&self) -> bool {
        false
    }

    unreachable_values! {
        serialize_bool(bool) -> Vec<u8>; serialize_char(char) -> Vec<u8>; serialize_str(&str) -> Vec<u8>;
        serialize_i8(i8) -> Vec<u8>; serialize_i16(i16) -> Vec<u8>; serialize_i32(i32) -> Vec<u8>;
        serialize_i64(i64) -> Vec<u8>; serialize_u8(u8) -> Vec<u8>; serialize_u16(u16) -> Vec<u8>;
        serialize_u32(u32) -> Vec<u8>; serialize_u64(u64) -> Vec<u8>; serialize_f32(f32) -> Vec<u8>;
        serialize_f64(f64) -> Vec<u8>; serialize_none() -> Vec<u8>; serialize_unit() -> Vec<u8>;
        serialize_some[T: ?Sized + Serialize](&T) -> Vec<u8>;
        serialize_unit_struct(&'static str) -> Vec<u8>;
        serialize_newtype_struct[T: ?Sized + Serialize](&'static str, &T) -> Vec<u8>;
        serialize_unit_variant(&'static str, u32, &'static str) -> Vec<u8>;
        serialize_newtype_variant[T: ?Sized + Serialize](&'static str, u32, &'static str, &T) -> Vec<u8>;
        serialize_seq(Option<usize>) -> No; serialize_tuple(usize) -> No; serialize_map(Option<usize>) -> No;
        serialize_tuple_struct(&'static str, usize) -> No; serialize_struct(&'static str, usize) -> No;
        serialize_tuple_variant(&'static str, u32, &'static str, usize) -> No;
        serialize_struct_variant(&'static str, u32, &'static str, usize) -> No;
    }
}

#[test]
fn bytes() {
    assert_eq!(value().serialize(ToBytes).expect("bytes"), b"\x12\x03abc");
    assert_eq!(Value::deserialize(Bytes(b"\x12\x03abc")), Ok(value()));
    let error = Value::deserialize(Bytes(b"\x12\x03abcd")).expect_err("bytes follow");
    assert_eq!(error.to_string(), "1 byte follows the multihash");
    let full = Multihash::<255>::wrap(u64::MAX >> 1, &[7; 255]).expect("it fits");
    let encoding = full.serialize(ToBytes).expect("bytes");
    assert_eq!((encoding.len(), Multihash::<255>::deserialize(Bytes(&encoding))), (266, Ok(full)));
}

/// Where serde has buffered a value, as for a flattened struct, it may have another kind than the format was asked for.
#[test]
fn buffered_values() {
    assert_eq!(Value::deserialize(BytesDeserializer::<Error>::new(b"\x12\x03abc")), Ok(value()));
    let text: StrDeserializer<Error> = "1203616263".into_deserializer();
    assert_eq!(Value::deserialize(text), Ok(value()));
}
