use crate::error::{checked, infallible};
use crate::iter::{Bytes, Chunks, Lines, Reader};
use crate::{CordBuilder, Error};
use std::cmp::Ordering;
use std::hash::{Hash, Hasher};
use std::io::{self, Read, Write};
use std::ops::{Add, AddAssign, Bound, RangeBounds};
use std::{fmt, mem};
use zomtsje_sys as sys;

/// The most bytes of a cord: 2^40 - 1.
pub const MAX_LEN: u64 = sys::ZC_MAX_LEN;

/// A byte string that shares its parts.
///
/// A clone shares all of them. Joins, slices and edits copy at most 64 bytes, whatever the lengths.
pub struct Cord {
    handle: sys::zc_cord,
}

impl Cord {
    /// The cord of no bytes. It takes no memory.
    pub const fn new() -> Cord {
        Cord { handle: sys::zc_cord::EMPTY }
    }

    /// So many times one byte, in a few bytes of memory.
    ///
    /// ```
    /// assert_eq!(zomtsje::Cord::repeat(b'x', 1 << 39).len(), 1 << 39);
    /// ```
    ///
    /// # Panics
    /// Where `count` is more than [`MAX_LEN`].
    pub fn repeat(byte: u8, count: u64) -> Cord {
        // SAFETY: `out` is a handle.
        infallible(Cord::made(|out| unsafe { sys::zc_chars(byte, count, out) }))
    }

    /// These bytes, of which it takes a copy.
    pub fn try_from_bytes(bytes: &[u8]) -> Result<Cord, Error> {
        // SAFETY: `out` is a handle, and the pointer leads to so many bytes.
        Cord::made(|out| unsafe { sys::zc_from_bytes(bytes.as_ptr().cast(), bytes.len(), out) })
    }

    /// All bytes that a reader gives.
    pub fn from_reader(mut reader: impl Read) -> io::Result<Cord> {
        let mut made = CordBuilder::new();
        io::copy(&mut reader, &mut made)?;
        Ok(made.build())
    }

    // What a call writes to a handle.
    pub(crate) fn made(call: impl FnOnce(*mut sys::zc_cord) -> std::ffi::c_int) -> Result<Cord, Error> {
        let mut made = Cord::new();
        checked(call(made.raw_mut()))?;
        Ok(made)
    }

    // The handle, for calls that read it, and for those that write it.
    pub(crate) fn raw(&self) -> *const sys::zc_cord {
        &self.handle
    }

    pub(crate) fn raw_mut(&mut self) -> *mut sys::zc_cord {
        &mut self.handle
    }

    /// The number of bytes.
    pub fn len(&self) -> u64 {
        // SAFETY: it is a handle, here and below.
        unsafe { sys::zc_len(self.raw()) }
    }

    /// Whether it has no bytes.
    pub fn is_empty(&self) -> bool {
        self.len() == 0
    }

    /// How deep the tree of its parts is: at most 60.
    pub fn depth(&self) -> u32 {
        unsafe { sys::zc_depth(self.raw()) }
    }

    /// The byte at a place.
    pub fn get(&self, place: u64) -> Option<u8> {
        let mut byte = 0;
        let code = unsafe { sys::zc_fetch(self.raw(), place, &mut byte) };
        (code == sys::ZC_OK).then_some(byte)
    }

    /// The bytes of a range, shared.
    ///
    /// ```
    /// let x = zomtsje::Cord::from("one two");
    /// assert_eq!(x.slice(4..), "two");
    /// assert_eq!(x.slice(..=2), "one");
    /// ```
    ///
    /// # Panics
    /// Where the range isn't inside the cord.
    pub fn slice(&self, range: impl RangeBounds<u64>) -> Cord {
        let (start, end) = bounds(range, self.len());
        infallible(Cord::made(|out| unsafe { sys::zc_substr(self.raw(), start, end - start, out) }))
    }

    /// The same bytes in a tree that isn't deep.
    pub fn balanced(&self) -> Cord {
        infallible(Cord::made(|out| unsafe { sys::zc_balance(self.raw(), out) }))
    }

    /// Its bytes and then those of another.
    pub fn try_concat(&self, more: &Cord) -> Result<Cord, Error> {
        Cord::made(|out| unsafe { sys::zc_cat(self.raw(), more.raw(), out) })
    }

    /// Adds bytes at the end.
    pub fn append(&mut self, more: impl Into<Cord>) {
        let more = more.into();
        // SAFETY: both are handles.
        infallible(checked(unsafe { sys::zc_append(self.raw_mut(), more.raw()) }));
    }

    /// Its bytes so many times. It shares its tree with itself.
    ///
    /// # Panics
    /// Where that is more than [`MAX_LEN`] bytes.
    pub fn times(&self, times: u64) -> Cord {
        infallible(Cord::made(|out| unsafe { sys::zc_repeat(self.raw(), times, out) }))
    }

    /// Puts bytes in front of the one at a place.
    ///
    /// # Panics
    /// Where the place is past the end.
    pub fn insert(&mut self, place: u64, more: impl Into<Cord>) {
        self.replace_range(place..place, more);
    }

    /// Takes out the bytes of a range, and gives them.
    ///
    /// # Panics
    /// Where the range isn't inside the cord.
    pub fn remove(&mut self, range: impl RangeBounds<u64>) -> Cord {
        let (start, end) = bounds(range, self.len());
        let removed = self.slice(start..end);
        self.replace_range(start..end, Cord::new());
        removed
    }

    /// Puts other bytes in place of those of a range.
    ///
    /// # Panics
    /// Where the range isn't inside the cord.
    pub fn replace_range(&mut self, range: impl RangeBounds<u64>, with: impl Into<Cord>) {
        infallible(self.try_replace_range(range, &with.into()));
    }

    /// As [`replace_range`](Cord::replace_range), where it may be refused.
    pub fn try_replace_range(&mut self, range: impl RangeBounds<u64>, with: &Cord) -> Result<(), Error> {
        let (start, end) = bounds(range, self.len());
        checked(unsafe { sys::zc_splice(self.raw_mut(), start, end - start, with.raw()) })
    }

    /// The first place where some bytes stand.
    pub fn find(&self, bytes: impl AsRef<[u8]>) -> Option<u64> {
        self.find_in(.., bytes)
    }

    /// The first place from `start` on where some bytes stand. No bytes stand at each place up to the end.
    pub fn find_from(&self, start: u64, bytes: impl AsRef<[u8]>) -> Option<u64> {
        self.find_before(start, self.len(), bytes.as_ref())
    }

    /// The first place where some bytes stand inside a range.
    ///
    /// # Panics
    /// Where the range isn't inside the cord.
    pub fn find_in(&self, range: impl RangeBounds<u64>, bytes: impl AsRef<[u8]>) -> Option<u64> {
        let (start, end) = bounds(range, self.len());
        self.find_before(start, end, bytes.as_ref())
    }

    fn find_before(&self, start: u64, end: u64, bytes: &[u8]) -> Option<u64> {
        let mut place = sys::ZC_NOT_FOUND;
        let code = unsafe { sys::zc_find_in(self.raw(), start, end, bytes.as_ptr().cast(), bytes.len(), &mut place) };
        infallible(checked(code));
        found(place)
    }

    /// The first place from `start` on that has a byte.
    pub fn find_byte(&self, start: u64, byte: u8) -> Option<u64> {
        let mut place = sys::ZC_NOT_FOUND;
        unsafe { sys::zc_chr(self.raw(), start, byte, &mut place) };
        found(place)
    }

    /// The last place before `end` that has a byte.
    pub fn rfind_byte(&self, end: u64, byte: u8) -> Option<u64> {
        let mut place = sys::ZC_NOT_FOUND;
        unsafe { sys::zc_rchr(self.raw(), end, byte, &mut place) };
        found(place)
    }

    /// The last place where some bytes stand.
    pub fn rfind(&self, bytes: impl AsRef<[u8]>) -> Option<u64> {
        self.rfind_before(self.len(), bytes)
    }

    /// The last place where some bytes stand and end at `end` or before. No bytes stand last at `end`, or at the end of
    /// the cord.
    pub fn rfind_before(&self, end: u64, bytes: impl AsRef<[u8]>) -> Option<u64> {
        let (bytes, mut place) = (bytes.as_ref(), sys::ZC_NOT_FOUND);
        let code = unsafe { sys::zc_rfind(self.raw(), end, bytes.as_ptr().cast(), bytes.len(), &mut place) };
        infallible(checked(code));
        found(place)
    }

    /// Whether some bytes stand in it.
    pub fn contains(&self, bytes: impl AsRef<[u8]>) -> bool {
        self.find(bytes).is_some()
    }

    /// How many of its bytes are this one.
    pub fn count_byte(&self, byte: u8) -> u64 {
        unsafe { sys::zc_count(self.raw(), byte) }
    }

    /// Whether it begins with the bytes of another.
    pub fn starts_with(&self, other: impl Into<Cord>) -> bool {
        self.has_at(Some(0), &other.into())
    }

    /// Whether it ends with the bytes of another.
    pub fn ends_with(&self, other: impl Into<Cord>) -> bool {
        let other = other.into();
        self.has_at(self.len().checked_sub(other.len()), &other)
    }

    fn has_at(&self, place: Option<u64>, other: &Cord) -> bool {
        let mut order = 1;
        let Some(place) = place else { return false };
        let count = other.len();
        infallible(checked(unsafe { sys::zc_ncmp(self.raw(), place, other.raw(), 0, count, &mut order) }));
        order == 0
    }

    /// Copies bytes from a place on, as many as there are and `to` has room for: how many.
    pub fn read_at(&self, place: u64, to: &mut [u8]) -> usize {
        let mut got = 0;
        // SAFETY: it is a handle, and the pointer leads to so many bytes. The call is never refused.
        unsafe { sys::zc_read(self.raw(), place, to.as_mut_ptr().cast(), to.len(), &mut got) };
        got
    }

    /// A copy of its bytes.
    pub fn to_vec(&self) -> Vec<u8> {
        let mut bytes = vec![0; usize::try_from(self.len()).expect("a cord that fits the memory")];
        self.read_at(0, &mut bytes);
        bytes
    }

    /// Its bytes one by one, from both ends.
    pub fn bytes(&self) -> Bytes {
        Bytes::new(self.clone())
    }

    /// Its bytes by blocks of up to 65,536.
    pub fn chunks(&self) -> Chunks {
        Chunks::new(self.clone())
    }

    /// Its lines without their ends. A line ends with `\n`, which the last one may lack.
    ///
    /// ```
    /// let x = zomtsje::Cord::from("one\n\nthree");
    /// assert_eq!(x.lines().collect::<Vec<_>>(), ["one", "", "three"]);
    /// ```
    pub fn lines(&self) -> Lines {
        Lines::new(self.clone())
    }

    /// What reads its bytes, as a file.
    pub fn reader(&self) -> Reader {
        Reader::new(self.clone())
    }

    /// Writes its bytes.
    pub fn write_to(&self, mut writer: impl Write) -> io::Result<()> {
        self.chunks().try_for_each(|chunk| writer.write_all(&chunk))
    }
}

// A place that a search gave.
pub(crate) fn found(place: u64) -> Option<u64> {
    (place != sys::ZC_NOT_FOUND).then_some(place)
}

// Where a range begins and ends, which has to be inside.
pub(crate) fn bounds(range: impl RangeBounds<u64>, len: u64) -> (u64, u64) {
    let start = match range.start_bound() {
        Bound::Included(&place) => place,
        Bound::Excluded(&place) => place.saturating_add(1),
        Bound::Unbounded => 0,
    };
    let end = match range.end_bound() {
        Bound::Included(&place) => place.saturating_add(1),
        Bound::Excluded(&place) => place,
        Bound::Unbounded => len,
    };
    assert!(start <= end && end <= len, "range {start}..{end} of a cord of {len} bytes");
    (start, end)
}

impl Drop for Cord {
    fn drop(&mut self) {
        unsafe { sys::zc_free(self.raw_mut()) }
    }
}

impl Clone for Cord {
    fn clone(&self) -> Cord {
        infallible(Cord::made(|out| unsafe { sys::zc_share(self.raw(), out) }))
    }
}

impl Default for Cord {
    fn default() -> Cord {
        Cord::new()
    }
}

impl From<&[u8]> for Cord {
    fn from(bytes: &[u8]) -> Cord {
        infallible(Cord::try_from_bytes(bytes))
    }
}

impl<const N: usize> From<&[u8; N]> for Cord {
    fn from(bytes: &[u8; N]) -> Cord {
        Cord::from(&bytes[..])
    }
}

impl From<&str> for Cord {
    fn from(text: &str) -> Cord {
        Cord::from(text.as_bytes())
    }
}

impl From<String> for Cord {
    fn from(text: String) -> Cord {
        Cord::from(text.as_bytes())
    }
}

impl From<Vec<u8>> for Cord {
    fn from(bytes: Vec<u8>) -> Cord {
        Cord::from(&bytes[..])
    }
}

impl From<&Cord> for Cord {
    fn from(cord: &Cord) -> Cord {
        cord.clone()
    }
}

impl<T: Into<Cord>> FromIterator<T> for Cord {
    fn from_iter<I: IntoIterator<Item = T>>(parts: I) -> Cord {
        let mut made = CordBuilder::new();
        made.extend(parts);
        made.build()
    }
}

impl<T: Into<Cord>> Extend<T> for Cord {
    fn extend<I: IntoIterator<Item = T>>(&mut self, parts: I) {
        self.append(parts.into_iter().collect::<Cord>());
    }
}

impl<T: Into<Cord>> Add<T> for Cord {
    type Output = Cord;

    fn add(mut self, more: T) -> Cord {
        self.append(more);
        self
    }
}

impl<T: Into<Cord>> Add<T> for &Cord {
    type Output = Cord;

    fn add(self, more: T) -> Cord {
        self.clone() + more
    }
}

impl<T: Into<Cord>> AddAssign<T> for Cord {
    fn add_assign(&mut self, more: T) {
        self.append(more);
    }
}

impl Ord for Cord {
    fn cmp(&self, other: &Cord) -> Ordering {
        let mut order = 0;
        infallible(checked(unsafe { sys::zc_cmp(self.raw(), other.raw(), &mut order) }));
        order.cmp(&0)
    }
}

impl PartialOrd for Cord {
    fn partial_cmp(&self, other: &Cord) -> Option<Ordering> {
        Some(self.cmp(other))
    }
}

impl Eq for Cord {}

impl PartialEq for Cord {
    fn eq(&self, other: &Cord) -> bool {
        let mut equal = 0;
        infallible(checked(unsafe { sys::zc_equal(self.raw(), other.raw(), &mut equal) }));
        equal == 1
    }
}

impl PartialEq<[u8]> for Cord {
    fn eq(&self, other: &[u8]) -> bool {
        self.len() == other.len() as u64 && self.chunks().flatten().eq(other.iter().copied())
    }
}

impl PartialEq<str> for Cord {
    fn eq(&self, other: &str) -> bool {
        *self == *other.as_bytes()
    }
}

impl PartialEq<&str> for Cord {
    fn eq(&self, other: &&str) -> bool {
        *self == *other.as_bytes()
    }
}

impl Hash for Cord {
    // The blocks are the same however the tree is, so equal cords have one hash.
    fn hash<H: Hasher>(&self, state: &mut H) {
        state.write_u64(self.len());
        self.chunks().for_each(|chunk| state.write(&chunk));
    }
}

impl fmt::Debug for Cord {
    fn fmt(&self, f: &mut fmt::Formatter<'_>) -> fmt::Result {
        f.write_str("\"")?;
        self.chunks().try_for_each(|chunk| write!(f, "{}", chunk.escape_ascii()))?;
        f.write_str("\"")
    }
}

impl fmt::Display for Cord {
    // Its text; bytes that are no UTF-8 are shown as U+FFFD.
    fn fmt(&self, f: &mut fmt::Formatter<'_>) -> fmt::Result {
        let mut left = Vec::new();
        for chunk in self.chunks() {
            left.extend_from_slice(&chunk);
            let cut = whole_characters(&left);
            let rest = left.split_off(cut);
            f.write_str(&String::from_utf8_lossy(&mem::replace(&mut left, rest)))?;
        }
        f.write_str(&String::from_utf8_lossy(&left))
    }
}

// How many of these bytes there are without a character at the end that isn't whole.
fn whole_characters(bytes: &[u8]) -> usize {
    let last = bytes.len().saturating_sub(3);
    match bytes[last..].iter().rposition(|byte| !(0x80..0xc0).contains(byte)) {
        Some(at) if std::str::from_utf8(&bytes[last + at..]).is_err_and(|it| it.error_len().is_none()) => last + at,
        _ => bytes.len(),
    }
}
