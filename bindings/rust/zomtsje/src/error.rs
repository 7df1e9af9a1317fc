use std::alloc::{handle_alloc_error, Layout};
use std::ffi::c_int;
use std::{fmt, io};
use zomtsje_sys as sys;

/// Why a cord wasn't made.
#[derive(Clone, Copy, Debug, PartialEq, Eq)]
pub enum Error {
    /// It would have more than [`MAX_LEN`](crate::MAX_LEN) bytes.
    TooLong,
    /// Memory was refused.
    NoMemory,
}

impl fmt::Display for Error {
    fn fmt(&self, f: &mut fmt::Formatter<'_>) -> fmt::Result {
        f.write_str(match self {
            Error::TooLong => "a cord would be too long",
            Error::NoMemory => "memory was refused",
        })
    }
}

impl std::error::Error for Error {}

impl From<Error> for io::Error {
    fn from(error: Error) -> io::Error {
        match error {
            Error::TooLong => io::Error::new(io::ErrorKind::Other, error),
            Error::NoMemory => io::Error::new(io::ErrorKind::OutOfMemory, error),
        }
    }
}

/// What a code of a call that makes a cord means.
pub(crate) fn checked(code: c_int) -> Result<(), Error> {
    match code {
        sys::ZC_OK => Ok(()),
        sys::ZC_NO_MEMORY => Err(Error::NoMemory),
        sys::ZC_TOO_LONG => Err(Error::TooLong),
        other => unreachable!("code {other} of a call whose arguments are there"),
    }
}

/// What a code of a call that reads files means; errno is that of the call.
pub(crate) fn checked_io(code: c_int) -> io::Result<()> {
    match code {
        sys::ZC_OK => Ok(()),
        sys::ZC_READ_FAILED | sys::ZC_WRITE_FAILED | sys::ZC_WOULD_BLOCK => Err(io::Error::last_os_error()),
        sys::ZC_TOO_MANY_FILES => Err(io::Error::new(io::ErrorKind::Other, "64 files are open")),
        other => Ok(checked(other)?),
    }
}

/// As `Vec` answers a refusal.
pub(crate) fn infallible<T>(result: Result<T, Error>) -> T {
    match result {
        Ok(value) => value,
        Err(Error::TooLong) => panic!("a cord would be too long"),
        Err(Error::NoMemory) => handle_alloc_error(Layout::new::<sys::zc_cord>()),
    }
}
