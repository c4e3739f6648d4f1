//! Allocations that fail. Without the feature `alloc` the package makes none.
#![cfg(feature = "alloc")]
use std::alloc::{GlobalAlloc, Layout, System};
use std::cell::Cell;
use verified_multihash::form::{self, from_bytes, Block, Both, Counted, FormError};
use verified_multihash::{list, Multihash};

thread_local! {
    /// How many allocations the thread can still make.
    static ALLOCATIONS: Cell<usize> = const { Cell::new(usize::MAX) };
    /// The length of the largest allocation, also of one that failed.
    static LARGEST: Cell<usize> = const { Cell::new(0) };
}

struct Limited;

fn may_allocate(length: usize) -> bool {
    LARGEST.with(|cell| cell.set(cell.get().max(length)));
    let allocations = ALLOCATIONS.with(Cell::get);
    ALLOCATIONS.with(|cell| cell.set(allocations.saturating_sub(1)));
    allocations > 0
}

// SAFETY: memory is the system allocator's. An allocation may return null.
unsafe impl GlobalAlloc for Limited {
    unsafe fn alloc(&self, layout: Layout) -> *mut u8 {
        if !may_allocate(layout.size()) {
            return std::ptr::null_mut();
        }
        System.alloc(layout)
    }

    unsafe fn realloc(&self, bytes: *mut u8, layout: Layout, length: usize) -> *mut u8 {
        if !may_allocate(length) {
            return std::ptr::null_mut();
        }
        System.realloc(bytes, layout, length)
    }

    unsafe fn dealloc(&self, bytes: *mut u8, layout: Layout) {
        System.dealloc(bytes, layout);
    }
}

#[global_allocator]
static LIMITED: Limited = Limited;

/// Makes a call that can make that many allocations.
fn with<T>(allocations: usize, call: impl FnOnce() -> T) -> T {
    ALLOCATIONS.with(|cell| cell.set(allocations));
    let result = call();
    ALLOCATIONS.with(|cell| cell.set(usize::MAX));
    result
}

fn is_out_of_memory<T>(result: Result<T, impl Into<FormError>>) -> bool {
    match result.map_err(Into::into) {
        Err(FormError::Failed(error)) => format!("{error:?}").contains("OutOfMemory"),
        _ => false,
    }
}

const ENCODING: &[u8] = b"\x12\x03abc";

fn value() -> Multihash<64> {
    Multihash::from_bytes(ENCODING).expect("a multihash")
}

#[test]
fn to_bytes() {
    let bytes = with(1, || value().to_bytes());
    assert_eq!((&bytes[..], bytes.capacity()), (ENCODING, 5));
}

/// Capacity for exactly the list is allocated, once, before anything is read.
#[test]
fn read_list() {
    let all: Vec<Multihash<64>> = (0..1001).map(|code| Multihash::wrap(code, b"abc").expect("it fits")).collect();
    let mut bytes = Vec::new();
    with(16, || list::write_list(&all, &mut bytes)).expect("memory"); // its capacity doubles
    for count in [1, 3, 1001] {
        let mut rest = &bytes[..];
        assert!(is_out_of_memory(with(0, || list::read_list::<64, _>(&mut rest, count))));
        assert_eq!(rest.len(), bytes.len());
        let read = with(1, || list::read_list::<64, _>(&mut rest, count)).expect("one allocation");
        assert_eq!((&read[..], read.capacity()), (&all[..count], count));
        assert_eq!(rest.len(), all[count..].iter().map(Multihash::encoded_len).sum::<usize>());
    }
    assert!(is_out_of_memory(list::read_list::<64, _>(&mut &bytes[..], usize::MAX)));
    assert!(with(0, || list::read_list::<64, _>(&mut &bytes[..], 0)).is_ok());
}

type Node = Both<Counted<Multihash<64>, 1_000_000_000>, Block<1_000_000_000>>;

/// A billion items and a gigabyte that are only claimed.
#[test]
fn claimed_lengths() {
    for bytes in [&b"\x80\x94\xeb\xdc\x03\x12\x00"[..], b"\x00\x80\x94\xeb\xdc\x03abc"] {
        LARGEST.with(|cell| cell.set(0));
        assert!(from_bytes::<Node>(bytes).expect_err("it ends").is_incomplete());
        assert!(LARGEST.with(Cell::get) < 1000);
    }
}

/// A format of which each allocation fails.
#[test]
fn formats() {
    let links = Counted::new(vec![value(); 100]).expect("they fit");
    let node: Node = Both { first: links, second: Block::new(vec![5; 100_000]).expect("it fits") };
    let bytes = form::to_bytes(&node).expect("memory");
    let mut failures = [0; 2];
    for allocations in 0..100 {
        match with(allocations, || from_bytes::<Node>(&bytes)) {
            Ok(read) => assert!(read == node),
            error => failures[0] += usize::from(is_out_of_memory(error)),
        }
        match with(allocations, || form::to_bytes(&node)) {
            Ok(written) => assert!(written == bytes),
            error => failures[1] += usize::from(is_out_of_memory(error)),
        }
    }
    assert!(failures.iter().all(|count| (1..100).contains(count)), "{failures:?}");
}
