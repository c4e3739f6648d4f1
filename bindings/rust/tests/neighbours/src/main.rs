//! A test of this library beside Debian's crate `multihash` 0.11. The program is for `bindings/others/compare.py`: it
//! prints 1 for each line of hexadecimal that is accepted by that crate, or with the argument `cid` by the crate `cid` 0.5,
//! else 0. A CID has the bytes `01 55` first.
use std::io::BufRead;

/// Reads hexadecimal digits, `-` if there are no bytes.
fn bytes_of(digits: &str) -> Vec<u8> {
    let pairs = (0..digits.len() / 2).map(|index| &digits[2 * index..2 * index + 2]);
    pairs.map(|pair| u8::from_str_radix(pair, 16).expect("hexadecimal")).collect()
}

fn main() {
    let is_cid = std::env::args().nth(1).as_deref() == Some("cid");
    for line in std::io::stdin().lock().lines() {
        let input = bytes_of(&line.expect("a line"));
        let accepts = std::panic::catch_unwind(|| {
            if is_cid {
                cid::Cid::try_from(&[b"\x01\x55", &input[..]].concat()[..]).is_ok()
            } else {
                multihash_0_11::MultihashRef::from_slice(&input).is_ok()
            }
        });
        println!("{}", u8::from(accepts.unwrap_or(false)));
    }
}

#[cfg(test)]
mod tests {
    use super::*;
    use multihash_0_11::{wrap, MultihashRefGeneric};
    use ours::Multihash;

    /// Every code: this library has no table of codes.
    #[derive(Clone, Copy, Debug)]
    struct AnyCode(u64);

    impl From<u64> for AnyCode {
        fn from(code: u64) -> Self {
            AnyCode(code)
        }
    }

    impl From<AnyCode> for u64 {
        fn from(code: AnyCode) -> Self {
            code.0
        }
    }

    /// That crate also accepts longer digests, longer varints than the shortest, and codes of 2^63 and more.
    #[test]
    fn inputs_are_accepted_as_by_multihash_0_11() {
        let mut accepted = 0;
        for line in include_str!("../../../../../crates/vectors/data/verdicts.tsv").lines().skip(1) {
            let input = bytes_of(line.split('\t').nth(1).expect("the input"));
            let ours = Multihash::<255>::from_bytes(&input).ok();
            let theirs = MultihashRefGeneric::<AnyCode>::from_slice(&input).ok().filter(|theirs| {
                let (code, digest) = (theirs.algorithm().0, theirs.digest());
                code >> 63 == 0 && digest.len() < 256 && wrap(AnyCode(code), digest).as_bytes() == input
            });
            let parts = theirs.map(|theirs| (theirs.algorithm().0, theirs.digest()));
            assert_eq!(ours.as_ref().map(|ours| (ours.code(), ours.digest())), parts, "{input:02x?}");
            accepted += usize::from(ours.is_some());
        }
        assert!(accepted > 0);
    }
}
