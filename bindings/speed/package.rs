//! Calls of a package `multihash`, of this repository or upstream's, for `measure.py`: each is made `TURNS` times, in a
//! function whose instructions callgrind counts, and its name is printed. A build for debugging also compares what the
//! first call returns.
use multihash::{Error, Multihash};
use std::collections::BTreeMap;
use std::hint::black_box;
use std::io::BufReader;

const TURNS: usize = 64;
const VALUES: usize = 500;
/// What callgrind counts.
#[inline(never)]
fn measured<T>(mut call: impl FnMut() -> T) {
    for _ in 0..TURNS {
        black_box(call());
    }
}

#[inline(never)]
fn count<T>(name: &str, mut call: impl FnMut() -> T, is_right: impl Fn(T) -> bool) {
    let first = black_box(call());
    assert!(!cfg!(debug_assertions) || is_right(first), "{name}");
    println!("{name}");
    measured(call);
}

fn calls(code: u64, with: &str) {
    let digest: Vec<u8> = (0..32).collect();
    let value = black_box(Multihash::<64>::wrap(code, &digest).expect("it fits"));
    let same = black_box(value);
    let bytes = black_box(value.to_bytes());
    let stream = bytes.repeat(TURNS + 1);
    let (mut slice, mut buffered) = (&stream[..], BufReader::new(&stream[..]));
    let mut vector = Vec::with_capacity(stream.len());
    let is_value = |it: Result<Multihash<64>, Error>| it.is_ok_and(|it| it == value);
    let is_length = |it: Result<usize, Error>| it.is_ok_and(|it| it == bytes.len());
    let of = |call: &str| format!("{call}{with}");
    count(&of("wrap"), || Multihash::<64>::wrap(black_box(code), black_box(&digest)), is_value);
    count(&of("from_bytes"), || Multihash::<64>::from_bytes(black_box(&bytes)), is_value);
    count(&of("read, slice"), || Multihash::<64>::read(&mut slice), is_value);
    count(&of("read, BufReader"), || Multihash::<64>::read(&mut buffered), is_value);
    count(&of("write, Vec"), || black_box(&value).write(&mut vector), is_length);
    count(&of("to_bytes"), || black_box(&value).to_bytes(), |it| is_value(Multihash::from_bytes(&it)));
    count(&of("=="), || black_box(&value) == black_box(&same), |it| it);
    count(&of("cmp"), || black_box(&value).cmp(black_box(&same)), |it| it.is_eq());
}

/// Sorts and finds values whose digests are pseudo-random.
fn collections(size: usize, with: &str) {
    let mut state = 1_u64;
    let mut random = |_| {
        state = state.wrapping_mul(6364136223846793005).wrapping_add(1442695040888963407);
        (state >> 56) as u8
    };
    let mut value = |_| {
        let digest: Vec<u8> = (0..size).map(&mut random).collect();
        Multihash::<64>::wrap(0x12, &digest).expect("it fits")
    };
    let values: Vec<_> = (0..VALUES).map(&mut value).collect();
    let found: BTreeMap<_, _> = values.iter().map(|value| (*value, value.size())).collect();
    let sorted = || {
        let mut list = black_box(&values).clone();
        list.sort_unstable();
        list
    };
    let is_sorted = |list: Vec<Multihash<64>>| list.windows(2).all(|pair| pair[0].digest() <= pair[1].digest());
    count(&format!("sort_unstable of {VALUES}{with}"), sorted, is_sorted);
    let get = || values.iter().filter(|value| found.get(black_box(*value)).is_some()).count();
    count(&format!("BTreeMap::get of {VALUES}{with}"), get, |number| number == VALUES);
}

fn main() {
    calls(0x12, "");
    calls(0xb220, ", a code of 3 bytes");
    collections(32, "");
    collections(20, ", 20 bytes");
}
