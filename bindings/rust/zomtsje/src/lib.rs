//! Cords: byte strings that share their parts, so that texts of any size are joined, cut and edited in almost no time.
//!
//! ```
//! use zomtsje::Cord;
//!
//! let mut text = Cord::from("one three");
//! let old = text.clone(); // shares the bytes
//! text.insert(4, "two ");
//! assert_eq!(text, "one two three");
//! assert_eq!(old, "one three");
//! ```
//!
//! [`CordBuilder`] makes a cord from its beginning to its end, [`CordEditor`] keeps the versions of one under edit,
//! [`LineIndex`] has its lines by number, and [`LazyCord`] has parts in [`Files`] that aren't read until their bytes are
//! asked for.
//!
//! # Memory
//!
//! A cord has at most [`MAX_LEN`] bytes. As with `Vec`, a method that would pass that panics, and one that is refused
//! memory ends the program; those whose names begin with `try_` answer an [`Error`] instead, and change nothing.
//!
//! # Threads
//!
//! Cords that have parts in common count them together, without atomics, and comparisons mark what two cords share.
//! So no type here is `Send` or `Sync`: each cord, with all that share its parts, stays on its thread. Send its bytes
//! instead.
#![warn(missing_docs)]

mod builder;
mod cord;
mod editor;
mod error;
mod iter;
mod lazy;
mod line_index;

pub use builder::CordBuilder;
pub use cord::{Cord, MAX_LEN};
pub use editor::CordEditor;
pub use error::Error;
pub use iter::{Bytes, Chunks, Lines, Reader};
pub use lazy::{Files, LazyCord, LazyReader};
pub use line_index::{LineIndex, LineIter};

/// The version of the C library that was linked.
///
/// ```
/// assert_eq!(zomtsje::version(), env!("CARGO_PKG_VERSION"));
/// ```
pub fn version() -> &'static str {
    // SAFETY: the library gives a constant string.
    let text = unsafe { std::ffi::CStr::from_ptr(zomtsje_sys::zc_version()) };
    text.to_str().unwrap_or("")
}
