//! Cases of a choice: a tag and what follows it, and other cases.
use crate::form::cases::Cases;
use crate::form::{Form, FormError, Number};
use crate::proved::no_std_io::{Read, Write};

/// An `A` with the tag `M`, or one of the other cases `C`.
#[derive(Clone, Debug, PartialEq, Eq, PartialOrd, Ord, Hash)]
pub enum Case<A, const M: u64, C: Cases> {
    /// The tag `M`, and an `A`.
    This(Tagged<A, M>),
    /// Another tag, and its value.
    Other(Others<C, M>),
}

/// What follows the tag `M`, which is below 2^63. As the last case of a choice, it rejects each other tag.
#[derive(Clone, Debug, PartialEq, Eq, PartialOrd, Ord, Hash)]
#[non_exhaustive]
pub struct Tagged<A, const M: u64> {
    /// What follows the tag.
    pub value: A,
}

/// One of the cases `C`, whose tag is not `M`.
#[derive(Clone, Debug, PartialEq, Eq, PartialOrd, Ord, Hash)]
pub struct Others<C: Cases, const M: u64> {
    /// The case.
    pub(crate) case: C,
}

impl<A: Form, const M: u64, C: Cases> Cases for Case<A, M, C> {
    fn tag(&self) -> Number {
        match self {
            Case::This(_) => Number { value: M },
            Case::Other(others) => others.case.tag(),
        }
    }

    fn write_value<W: Write>(&self, w: &mut W) -> Result<(), FormError> {
        match self {
            Case::This(tagged) => tagged.value.write(w),
            Case::Other(others) => others.case.write_value(w),
        }
    }

    fn read_value<R: Read>(r: &mut R, tag: Number) -> Result<Self, FormError> {
        if tag.value == M {
            let value = A::read(r)?;
            return Ok(Case::This(Tagged { value }));
        }
        let case = C::read_value(r, tag)?;
        Ok(Case::Other(Others { case }))
    }
}

impl<A: Form, const M: u64> Cases for Tagged<A, M> {
    fn tag(&self) -> Number {
        Number { value: M }
    }

    fn write_value<W: Write>(&self, w: &mut W) -> Result<(), FormError> {
        self.value.write(w)
    }

    fn read_value<R: Read>(r: &mut R, tag: Number) -> Result<Self, FormError> {
        if tag.value != M {
            return Err(FormError::OtherTag(tag.value));
        }
        let value = A::read(r)?;
        Ok(Tagged { value })
    }
}
