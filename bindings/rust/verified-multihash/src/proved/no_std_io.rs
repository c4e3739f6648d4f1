//! The traits of readers and writers. With `std` those of `std::io` implement these; without, they are public.
use crate::no_std_io as io;
pub use io::Error;

mod traits;

pub use self::traits::{Read, Write};

#[cfg(feature = "std")]
impl<R: io::Read> Read for R {
    #[inline(always)]
    fn read(&mut self, buf: &mut [u8]) -> Result<usize, Error> {
        io::Read::read(self, buf)
    }

    #[inline(always)]
    fn read_exact(&mut self, buf: &mut [u8]) -> Result<(), Error> {
        io::Read::read_exact(self, buf)
    }
}

#[cfg(feature = "std")]
impl<W: io::Write> Write for W {
    #[inline(always)]
    fn write(&mut self, buf: &[u8]) -> Result<usize, Error> {
        io::Write::write(self, buf)
    }

    #[inline(always)]
    fn write_all(&mut self, buf: &[u8]) -> Result<(), Error> {
        io::Write::write_all(self, buf)
    }
}
