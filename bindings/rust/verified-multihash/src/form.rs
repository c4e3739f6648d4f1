#![cfg_attr(any(feature = "std", not(doctest)), doc = include_str!("../FORMATS.md"))]
#![allow(clippy::module_inception)] // the module of the trait `Form`

pub use all::{all_from_bytes, head_and_all_from_bytes};
pub use array::Bytes;
pub use block::Block;
pub use both::{write_three, write_two, Both};
pub use byte_count::ByteCount;
pub use case::{Case, Others, Tagged};
pub use cases::Cases;
pub use choice::Choice;
pub use counted::{read_items, write_items, Counted};
pub use error::FormError;
pub use fixed::{BigEndian, Fixed, LittleEndian};
pub use form::Form;
pub use located::{first_error, LocatedError};
pub use number::Number;
pub use stream::Stream;
pub use tag::Tag;
pub use values::{to_bytes, Position};
pub use whole::{encoded_len, from_bytes, read, read_front};

mod all;
mod array;
mod block;
mod both;
mod byte_count;
mod case;
mod cases;
mod choice;
mod counted;
mod error;
mod fixed;
mod form;
mod located;
mod number;
mod stream;
mod tag;
#[doc(hidden)] // what the macro `form!` needs
pub mod values;
mod whole;
