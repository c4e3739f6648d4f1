//! The constructors of the parts, which test the limits that a caller in Rattle proves; and `form!`.
use crate::form::{encoded_len, Block, Both, Bytes, Case, Cases, Choice, Counted, Fixed, Form, FormError};
use crate::form::{Number, Others, Tag, Tagged};
use crate::no_std_io as io;
pub use crate::proved::no_std_io::{Read, Write};
use crate::{varint, Multihash};
use alloc::vec::Vec;
use core::ops::Deref;

/// What only the parts and `form!` implement, so that each [`Form`](crate::form::Form) is made of parts.
pub trait Part: Sized {
    /// The constants of the parts of this one. A type that contains itself has none, and does not compile: an input
    /// could make `read` of it need any amount of stack.
    const IS_FINITE: ();
}

macro_rules! parts {
    ($([$($parameters:tt)*] $type:ty: $($part:ty),*;)*) => {
        $(impl<$($parameters)*> Part for $type {
            const IS_FINITE: () = { $(let () = <$part>::IS_FINITE;)* };
        })*
    };
}
parts! {
    [] Number:;
    [const N: u64] Tag<N>:;
    [const N: usize] Bytes<N>:;
    [const N: usize, const BIG: u8] Fixed<N, BIG>:;
    [const MAX: usize] Block<MAX>:;
    [const S: usize] Multihash<S>:;
    [A: Part, B: Part] Both<A, B>: A, B;
    [T: Part, const MAX: usize] Counted<T, MAX>: T;
    [C: Cases] Choice<C>: C;
    [A: Part, const M: u64, C: Cases] Case<A, M, C>: A, C;
    [A: Part, const M: u64] Tagged<A, M>: A;
}

macro_rules! derefs {
    ($([$($parameters:tt)*] $type:ty, $field:ident: $target:ty, $inner:ty;)*) => {
        $(
            impl<$($parameters)*> Deref for $type {
                type Target = $target;

                fn deref(&self) -> &$target {
                    &self.$field
                }
            }

            impl<$($parameters)*> $type {
                /// Returns the field of the value.
                pub fn into_inner(self) -> $inner {
                    self.$field
                }
            }
        )*
    };
}
derefs! {
    [const N: usize] Bytes<N>, bytes: [u8; N], [u8; N];
    [const MAX: usize] Block<MAX>, bytes: [u8], Vec<u8>;
    [T, const MAX: usize] Counted<T, MAX>, items: [T], Vec<T>;
    [C: Cases, const M: u64] Others<C, M>, case: C, C;
}

impl Number {
    /// Returns the number.
    pub const fn get(self) -> u64 {
        self.value
    }
}

impl From<u32> for Number {
    fn from(value: u32) -> Self {
        Number { value: value.into() }
    }
}

/// The error of a number of 2^63 or more is that of [`varint::len`].
impl TryFrom<u64> for Number {
    type Error = FormError;

    fn try_from(value: u64) -> Result<Self, FormError> {
        varint::len(value)?;
        Ok(Number { value })
    }
}

impl<const N: u64> Tag<N> {
    const IN_RANGE: () = assert!(N <= varint::MAX, "a tag is below 2^63");

    /// Returns the tag. A tag of 2^63 or more does not compile:
    ///
    /// ```compile_fail
    /// verified_multihash::form::Tag::<{ 1 << 63 }>::new();
    /// ```
    pub const fn new() -> Self {
        let () = Self::IN_RANGE;
        Tag {}
    }
}

impl<const N: u64> Default for Tag<N> {
    fn default() -> Self {
        Self::new()
    }
}

/// An empty array does not compile:
///
/// ```compile_fail
/// verified_multihash::form::Bytes::from([]);
/// ```
impl<const N: usize> From<[u8; N]> for Bytes<N> {
    fn from(bytes: [u8; N]) -> Self {
        let () = Self::IS_NOT_EMPTY;
        Bytes { bytes }
    }
}

impl<const N: usize> Bytes<N> {
    const IS_NOT_EMPTY: () = assert!(N > 0, "no encoding is empty");
}

macro_rules! integers {
    ($($integer:ty: $size:literal;)*) => {
        $(
            impl<const BIG: u8> From<$integer> for Fixed<$size, BIG> {
                fn from(value: $integer) -> Self {
                    Fixed { value: value.into() }
                }
            }

            impl<const BIG: u8> From<Fixed<$size, BIG>> for $integer {
                fn from(number: Fixed<$size, BIG>) -> Self {
                    number.value as $integer
                }
            }
        )*
    };
}
integers! {
    u8: 1;
    u16: 2;
    u32: 4;
    u64: 8;
}

impl<T, const MAX: usize> Counted<T, MAX> {
    /// Returns the value of these items.
    ///
    /// # Errors
    ///
    /// [`FormError::TooMany`] if there are more than `MAX` items.
    pub fn new(items: impl Into<Vec<T>>) -> Result<Self, FormError> {
        let items = items.into();
        // A vector of items without a size may have 2^63 or more of them.
        if items.len() > MAX || items.len() as u64 > varint::MAX {
            return Err(FormError::TooMany(items.len() as u64));
        }
        Ok(Counted { items })
    }
}

impl<A, const M: u64> Tagged<A, M> {
    const IN_RANGE: () = assert!(M <= varint::MAX, "a tag is below 2^63");

    /// Returns the value with the tag `M`. A tag of 2^63 or more does not compile:
    ///
    /// ```compile_fail
    /// verified_multihash::form::Tagged::<u8, { 1 << 63 }>::new(0);
    /// ```
    pub fn new(value: A) -> Self {
        let () = Self::IN_RANGE;
        Tagged { value }
    }
}

impl<A, const M: u64, C: Cases> Case<A, M, C> {
    /// Returns the case with the tag `M`. A tag of 2^63 or more does not compile.
    pub fn this(value: A) -> Self {
        Case::This(Tagged::new(value))
    }

    /// Returns another case.
    ///
    /// # Errors
    ///
    /// [`FormError::OtherTag`] if its tag is `M` too.
    pub fn other(case: C) -> Result<Self, FormError> {
        let tag = case.tag().value;
        if tag == M {
            return Err(FormError::OtherTag(tag));
        }
        Ok(Case::Other(Others { case }))
    }
}

/// `read` returns the errors of [`Multihash::read`].
impl<const S: usize> Form for Multihash<S> {
    fn write<W: Write>(&self, w: &mut W) -> Result<(), FormError> {
        self.0.write(w)?;
        Ok(())
    }

    fn read<R: Read>(r: &mut R) -> Result<Self, FormError> {
        Ok(Self::read_from(r)?)
    }
}

/// A reader that counts the bytes that were read: after an error of [`Form::read`] or [`Stream`](crate::form::Stream) they
/// end with the one that shows it, or with the input.
#[derive(Clone, Debug)]
pub struct Position<R> {
    /// The reader.
    pub inner: R,
    /// How many bytes were read.
    pub offset: u64,
}

impl<R> Position<R> {
    /// Returns a reader that is at the offset 0.
    pub fn new(inner: R) -> Self {
        Position { inner, offset: 0 }
    }
}

impl<R: io::Read> io::Read for Position<R> {
    fn read(&mut self, buf: &mut [u8]) -> Result<usize, io::Error> {
        let count = self.inner.read(buf)?;
        self.offset = self.offset.saturating_add(count as u64);
        Ok(count)
    }
}

/// Returns the encoding, in a vector made by one allocation of its length.
///
/// # Errors
///
/// Out of memory.
pub fn to_bytes<T: Form>(value: &T) -> Result<Vec<u8>, FormError> {
    let length = usize::try_from(encoded_len(value)).unwrap_or(usize::MAX); // more than any vector has
    let mut bytes = Vec::new();
    bytes.try_reserve_exact(length)?;
    value.write(&mut bytes)?;
    Ok(bytes)
}

/// Makes a struct or an enum of yours a [`Form`](crate::form::Form): the fields of a struct one after another, as
/// [`Both`](crate::form::Both) has them; of an enum the varint of the tag and the value of the case, as
/// [`Choice`](crate::form::Choice) has them. It has no parameters. [The module](mod@crate::form) has examples.
///
/// A tag is a number below 2^63. A larger one does not compile, nor do equal tags, nor a type that contains itself:
///
/// ```compile_fail
/// use verified_multihash::{form, form::Number};
/// form! { enum Large { A(Number) = 0x8000_0000_0000_0000 } }
/// ```
///
/// ```compile_fail
/// use verified_multihash::{form, form::Number};
/// form! { enum Twice { A(Number) = 4, B(Number) = 4 } }
/// ```
///
/// ```compile_fail,E0391
/// use verified_multihash::{form, form::{Both, Counted, Number}};
/// form! { struct Tree { name: Number, children: Counted<Both<Number, Tree>, 10> } }
/// ```
#[macro_export]
macro_rules! form {
    ($(#[$about:meta])* $pub:vis struct $name:ident {
        $($(#[$of_field:meta])* $pub_field:vis $field:ident: $type:ty),+ $(,)?
    }) => {
        $(#[$about])*
        $pub struct $name { $($(#[$of_field])* $pub_field $field: $type),+ }

        $crate::form!(@of $name, $($type),+;
            self, w => { $(<$type as $crate::form::Form>::write(&self.$field, w)?;)+ Ok(()) },
            r => { $(let $field = <$type as $crate::form::Form>::read(r)?;)+ Ok(Self { $($field),+ }) }
        );
    };
    ($(#[$about:meta])* $pub:vis enum $name:ident {
        $($(#[$of_case:meta])* $case:ident($type:ty) = $tag:literal),+ $(,)?
    }) => {
        $(#[$about])*
        $pub enum $name { $($(#[$of_case])* $case($type)),+ }

        const _: () = $crate::form::values::check_tags(&[$($tag),+]);

        $crate::form!(@of $name, $($type),+;
            self, w => { match self {
                $(Self::$case(value) => $crate::form::write_two(&$crate::form::Tag::<$tag>::new(), value, w)),+
            } },
            r => { match $crate::varint::read(r)? {
                $($tag => <$type as $crate::form::Form>::read(r).map(Self::$case),)+
                other => Err($crate::form::FormError::OtherTag(other)),
            } }
        );
    };
    (@of $name:ident, $($type:ty),+; $self:ident, $w:ident => $write:block, $r:ident => $read:block) => {
        impl $crate::form::values::Part for $name {
            const IS_FINITE: () = { $(let () = <$type as $crate::form::values::Part>::IS_FINITE;)+ };
        }

        impl $crate::form::Form for $name {
            fn write<W: $crate::form::values::Write>(
                &$self,
                $w: &mut W,
            ) -> ::core::result::Result<(), $crate::form::FormError> $write

            fn read<R: $crate::form::values::Read>(
                $r: &mut R,
            ) -> ::core::result::Result<Self, $crate::form::FormError> $read
        }
    };
}

/// Panics, in a constant, if a tag is too large or two are equal.
pub const fn check_tags(tags: &[u64]) {
    let mut index = 0;
    while index < tags.len() {
        assert!(tags[index] <= varint::MAX, "a tag is below 2^63");
        let mut other = 0;
        while other < index {
            assert!(tags[index] != tags[other], "tags differ");
            other += 1;
        }
        index += 1;
    }
}

/// The kind is that of the multihash's error, and `InvalidData` for the errors that only formats have.
#[cfg(feature = "std")]
impl From<FormError> for io::Error {
    fn from(error: FormError) -> Self {
        match error {
            FormError::Failed(error) => error.into(),
            error => Self::new(io::ErrorKind::InvalidData, error),
        }
    }
}
