use crate::error::{checked, infallible};
use crate::{Cord, Error};
use std::{fmt, io};
use zomtsje_sys as sys;

/// Makes a cord from its beginning to its end: bytes are gathered to leaves of up to 4,096, cords are shared.
///
/// ```
/// use std::fmt::Write;
///
/// let mut made = zomtsje::CordBuilder::new();
/// write!(made, "{} bottles", 99)?;
/// made.push_bytes(b" of beer");
/// assert_eq!(made.build(), "99 bottles of beer");
/// # Ok::<(), std::fmt::Error>(())
/// ```
#[derive(Debug)]
pub struct CordBuilder {
    state: Box<sys::zc_ext>,
}

impl CordBuilder {
    /// The builder of no bytes.
    pub fn new() -> CordBuilder {
        CordBuilder { state: Box::new(sys::zc_ext::EMPTY) }
    }

    /// Adds bytes at the end.
    pub fn push_bytes(&mut self, bytes: &[u8]) {
        infallible(self.try_push_bytes(bytes));
    }

    /// Adds bytes at the end, where it may be refused.
    pub fn try_push_bytes(&mut self, bytes: &[u8]) -> Result<(), Error> {
        // SAFETY: the state is one that the library made, and the pointer leads to so many bytes.
        checked(unsafe { sys::zc_ext_bytes(&mut *self.state, bytes.as_ptr().cast(), bytes.len()) })
    }

    /// Adds a cord at the end, whose parts are shared.
    pub fn push(&mut self, more: &Cord) {
        // SAFETY: both are the library's, here and below.
        infallible(checked(unsafe { sys::zc_ext_cord(&mut *self.state, more.raw()) }));
    }

    /// What was added. It stays, and may grow further.
    pub fn build(&mut self) -> Cord {
        infallible(Cord::made(|out| unsafe { sys::zc_ext_to_cord(&mut *self.state, out) }))
    }

    /// The number of bytes.
    pub fn len(&mut self) -> u64 {
        unsafe { sys::zc_ext_len(&mut *self.state) }
    }

    /// Whether nothing was added.
    pub fn is_empty(&mut self) -> bool {
        self.len() == 0
    }
}

impl Default for CordBuilder {
    fn default() -> CordBuilder {
        CordBuilder::new()
    }
}

impl Drop for CordBuilder {
    fn drop(&mut self) {
        unsafe { sys::zc_ext_free(&mut *self.state) }
    }
}

impl<T: Into<Cord>> Extend<T> for CordBuilder {
    fn extend<I: IntoIterator<Item = T>>(&mut self, parts: I) {
        parts.into_iter().for_each(|part| self.push(&part.into()));
    }
}

impl fmt::Write for CordBuilder {
    fn write_str(&mut self, text: &str) -> fmt::Result {
        self.try_push_bytes(text.as_bytes()).map_err(|_| fmt::Error)
    }
}

impl io::Write for CordBuilder {
    fn write(&mut self, bytes: &[u8]) -> io::Result<usize> {
        self.try_push_bytes(bytes)?;
        Ok(bytes.len())
    }

    fn flush(&mut self) -> io::Result<()> {
        Ok(())
    }
}
