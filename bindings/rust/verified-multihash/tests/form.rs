//! Formats: types of `form!`, beside the same parts, and the constructors of the parts.
#![cfg(feature = "alloc")]
use std::fmt::Debug;
use verified_multihash::form::*;
use verified_multihash::{form, Multihash};

/// Pseudo-random numbers, by xorshift.
struct Draw(u64);

impl Draw {
    fn next(&mut self) -> u64 {
        self.0 ^= self.0 << 13;
        self.0 ^= self.0 >> 7;
        self.0 ^= self.0 << 17;
        self.0.wrapping_mul(0x2545_f491_4f6c_dd1d)
    }

    fn below(&mut self, limit: u64) -> u64 {
        (self.next() >> 11) % limit
    }

    /// Returns a number, of each length of a varint.
    fn number(&mut self) -> Number {
        let bits = 1 + self.below(63);
        Number::new(self.next() >> (64 - bits)).expect("it is below 2^63")
    }

    /// Returns at most that many bytes.
    fn bytes(&mut self, limit: u64) -> Vec<u8> {
        (0..self.below(limit + 1)).map(|_| self.next() as u8).collect()
    }

    fn multihash(&mut self) -> Multihash<64> {
        let (code, digest) = (self.number().get(), self.bytes(64));
        Multihash::wrap(code, &digest).expect("it fits")
    }

    fn named(&mut self) -> Named {
        Named { version: Tag::new(), codec: self.number(), hash: self.multihash() }
    }

    fn protocol(&mut self) -> Protocol {
        match self.below(5) {
            0 => Protocol::Ip4([self.next() as u8; 4].into()),
            1 => Protocol::Tcp((self.next() as u16).into()),
            2 => Protocol::Dns(Block::new(self.bytes(253)).expect("it fits")),
            3 => Protocol::P2p(self.named()),
            _ => Protocol::Far(self.number()),
        }
    }

    /// Returns the bytes with one to three changes near their start, and sometimes with more at their end.
    fn mutate(&mut self, bytes: &[u8]) -> Vec<u8> {
        let mut other = bytes.to_vec();
        for _ in 0..1 + self.below(3) {
            let index = self.below(other.len().min(24) as u64) as usize;
            match self.below(3) {
                0 => other[index] = self.next() as u8,
                1 => other[index] ^= 0x80,
                _ => other.insert(index, self.next() as u8),
            }
        }
        let limit = 300 * (self.0 % 2);
        other.extend(self.bytes(limit));
        other
    }
}

form! {
    #[derive(Clone, Debug, PartialEq)]
    struct Named { version: Tag<1>, codec: Number, hash: Multihash<64> }
}
form! {
    #[derive(Clone, Debug, PartialEq)]
    enum Protocol {
        Ip4(Bytes<4>) = 4,
        Tcp(BigEndian<2>) = 6,
        Dns(Block<253>) = 53,
        P2p(Named) = 421,
        Far(Number) = 0x7fff_ffff_ffff_ffff, // FAR: a literal
    }
}
/// The same struct and enum by the proved parts alone.
type Cid = Both<Tag<1>, Both<Number, Multihash<64>>>;
type Protocols = Case<Bytes<4>, 4, Case<BigEndian<2>, 6, Case<Block<253>, 53, Case<Cid, 421, Tagged<Number, FAR>>>>>;
const FAR: u64 = 0x7fff_ffff_ffff_ffff;

fn text<T>(result: &Result<T, FormError>) -> String {
    result.as_ref().map_or_else(|error| format!("{error:?}"), |_| String::new())
}

/// A type of `form!` writes what the same parts write. It reads what they read, or has their error, of other inputs too.
fn check<T: Form + PartialEq + Debug, Parts: Form>(value: &T, draw: &mut Draw) {
    let bytes = to_bytes(value).expect("memory");
    assert_eq!(from_bytes::<T>(&bytes).expect("a value"), *value);
    assert_eq!(to_bytes(&from_bytes::<Parts>(&bytes).expect("a value")).expect("memory"), bytes);
    for _ in 0..20 {
        let other = draw.mutate(&bytes);
        let (mut rest, mut rest_of_parts) = (&other[..], &other[..]);
        let (value, parts) = (read::<T, _>(&mut rest), read::<Parts, _>(&mut rest_of_parts));
        assert_eq!((text(&value), rest), (text(&parts), rest_of_parts));
    }
}

#[test]
fn random_values() {
    let draw = &mut Draw(0x9e37_79b9_7f4a_7c15);
    for _ in 0..100 {
        check::<_, Cid>(&draw.named(), draw);
        check::<_, Choice<Protocols>>(&draw.protocol(), draw);
    }
}

#[test]
fn limits() {
    assert!(matches!(Block::<3>::new(b"1234".to_vec()), Err(FormError::TooLong(4))));
    assert_eq!(*Block::<3>::new(b"123".to_vec()).expect("it fits"), *b"123");
    assert!(matches!(Counted::<u8, 1>::new([1, 2]), Err(FormError::TooMany(2))));
    // items without a size, of which there may be 2^63 or more
    assert_eq!(Counted::<(), { usize::MAX }>::new([(); usize::MAX]).is_err(), usize::BITS == 64);
    assert_eq!(Counted::<u8, 1>::new([1]).expect("it fits").into_inner(), [1]);
    for (value, number) in [((1 << 63) - 1, Some((1 << 63) - 1)), (1 << 63, None)] {
        let numbers = [Number::new(value), Number::try_from(value).ok()];
        assert_eq!(numbers.map(|number| number.map(Number::get)), [number; 2]);
    }
    assert!(matches!(from_bytes::<Block<3>>(b"\x041234"), Err(FormError::TooLong(4))));
    assert!(matches!(from_bytes::<Counted<Number, 1>>(b"\x02\0\0"), Err(FormError::TooMany(2))));
    assert_eq!(from_bytes::<Block<3>>(b"\x03123").expect("it fits").into_inner(), b"123");
    assert!(from_bytes::<Bytes<0>>(b"").is_err());
    assert_eq!(to_bytes(&BigEndian::from(1_u8)).expect("memory"), [1]);
    assert_eq!(to_bytes(&BigEndian::from(0x0102_u16)).expect("memory"), [1, 2]);
    assert_eq!(to_bytes(&BigEndian::from(0x0102_u32)).expect("memory"), [0, 0, 1, 2]);
    assert_eq!(to_bytes(&BigEndian::from(0x0102_u64)).expect("memory"), [0, 0, 0, 0, 0, 0, 1, 2]);
    assert_eq!(to_bytes(&LittleEndian::from(1_u8)).expect("memory"), [1]);
    assert_eq!(to_bytes(&LittleEndian::from(0x0102_u16)).expect("memory"), [2, 1]);
    assert_eq!(to_bytes(&LittleEndian::from(0x0102_u32)).expect("memory"), [2, 1, 0, 0]);
    assert_eq!(from_bytes::<BigEndian<1>>(b"\xff").map(u8::from).ok(), Some(255));
    assert_eq!(from_bytes::<LittleEndian<8>>(&[255; 8]).map(u64::from).ok(), Some(u64::MAX));
    assert!(from_bytes::<BigEndian<0>>(b"").is_err() && from_bytes::<LittleEndian<9>>(&[0; 9]).is_err());
    type Two = Case<Number, 3, Tagged<Number, 4>>;
    let other = Two::other(Tagged::new(7.into())).expect("another tag");
    for (case, bytes) in [(Two::this(5.into()), [3, 5]), (other, [4, 7])] {
        assert_eq!(to_bytes(&Choice { case }).expect("memory"), bytes);
    }
    let same_tag = Case::<Number, 4, Tagged<Number, 4>>::other(Tagged::new(8.into()));
    assert!(matches!(same_tag, Err(FormError::OtherTag(4))));
}

/// The kind is that of the error of a multihash or a varint, or says that the input is not the format.
#[cfg(feature = "std")]
#[test]
fn kinds() {
    use std::io::{Error, ErrorKind};
    let kind = |bytes| Error::from(from_bytes::<Counted<Block<3>, 1>>(bytes).expect_err("no value")).kind();
    assert_eq!(kind(b"\x02"), ErrorKind::InvalidData); // too many items
    assert_eq!(kind(b"\x80\0"), ErrorKind::InvalidData);
    assert_eq!(kind(b"\x01\x03ab"), ErrorKind::UnexpectedEof);
    let full = Number::from(300).write(&mut &mut [0; 1][..]).expect_err("it is full");
    assert_eq!(Error::from(full).kind(), ErrorKind::WriteZero);
}
