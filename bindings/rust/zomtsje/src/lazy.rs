use crate::cord::{bounds, found};
use crate::error::{checked, checked_io, infallible};
use crate::{Cord, Error};
use std::cell::UnsafeCell;
use std::ffi::{c_int, CString};
use std::fmt;
use std::io::{self, Read, Write};
use std::ops::RangeBounds;
use std::os::unix::ffi::OsStrExt;
use std::path::Path;
use std::rc::Rc;
use zomtsje_sys as sys;

/// The files that lazy cords have parts in, at most 64. They close with the last cord over them.
///
/// They have to keep their bytes meanwhile: save to another path, and rename.
#[derive(Clone)]
pub struct Files {
    open: Rc<Open>,
}

struct Open(UnsafeCell<sys::zc_files>);

impl Drop for Open {
    fn drop(&mut self) {
        // SAFETY: these are files of the library, here and below.
        unsafe { sys::zc_files_free(self.0.get()) }
    }
}

impl Files {
    /// No files.
    pub fn new() -> Files {
        Files { open: Rc::new(Open(UnsafeCell::new(sys::zc_files::NONE))) }
    }

    /// The bytes of the file at a path, of which nothing is read now.
    pub fn open(&self, path: impl AsRef<Path>) -> io::Result<LazyCord> {
        let path = CString::new(path.as_ref().as_os_str().as_bytes())?;
        let mut made = LazyCord::none(self.clone());
        checked_io(unsafe { sys::zc_lazy_from_path(self.raw(), path.as_ptr(), &mut made.handle) })?;
        Ok(made)
    }

    /// A cord in memory, as one that may be joined with those over these files.
    pub fn in_memory(&self, text: impl Into<Cord>) -> LazyCord {
        let text = text.into();
        infallible(LazyCord::made(self.clone(), |out| unsafe { sys::zc_lazy_from_cord(text.raw(), out) }))
    }

    fn raw(&self) -> *mut sys::zc_files {
        self.open.0.get()
    }
}

impl Default for Files {
    fn default() -> Files {
        Files::new()
    }
}

impl fmt::Debug for Files {
    fn fmt(&self, f: &mut fmt::Formatter<'_>) -> fmt::Result {
        f.write_str("Files")
    }
}

/// A cord whose parts may lie in [`Files`]: slices, joins and edits read nothing.
pub struct LazyCord {
    files: Files,
    handle: sys::zc_lazy,
}

impl LazyCord {
    fn none(files: Files) -> LazyCord {
        LazyCord { files, handle: sys::zc_lazy::EMPTY }
    }

    fn made(files: Files, call: impl FnOnce(*mut sys::zc_lazy) -> c_int) -> Result<LazyCord, Error> {
        let mut made = LazyCord::none(files);
        checked(call(&mut made.handle))?;
        Ok(made)
    }

    fn raw(&self) -> *const sys::zc_lazy {
        &self.handle
    }

    /// The number of bytes.
    pub fn len(&self) -> u64 {
        unsafe { sys::zc_lazy_len(self.raw()) }
    }

    /// Whether it has no bytes.
    pub fn is_empty(&self) -> bool {
        self.len() == 0
    }

    /// The bytes of a range, shared.
    ///
    /// # Panics
    /// Where the range isn't inside the cord.
    pub fn slice(&self, range: impl RangeBounds<u64>) -> LazyCord {
        let (start, end) = bounds(range, self.len());
        infallible(LazyCord::made(self.files.clone(), |out| unsafe {
            sys::zc_lazy_substr(self.raw(), start, end - start, out)
        }))
    }

    /// Adds the bytes of another at the end.
    ///
    /// # Panics
    /// Where the other one is over other files.
    pub fn append(&mut self, more: &LazyCord) {
        assert!(Rc::ptr_eq(&self.files.open, &more.files.open), "lazy cords over different files");
        let own: *mut sys::zc_lazy = &mut self.handle;
        infallible(checked(unsafe { sys::zc_lazy_cat(own, more.raw(), own) }));
    }

    /// Puts bytes in front of the one at a place.
    ///
    /// # Panics
    /// Where the place is past the end.
    pub fn insert(&mut self, place: u64, more: impl Into<Cord>) {
        self.replace_range(place..place, more);
    }

    /// Takes out the bytes of a range.
    ///
    /// # Panics
    /// Where the range isn't inside the cord.
    pub fn remove(&mut self, range: impl RangeBounds<u64>) {
        self.replace_range(range, Cord::new());
    }

    /// Puts other bytes in place of those of a range.
    ///
    /// # Panics
    /// Where the range isn't inside the cord.
    pub fn replace_range(&mut self, range: impl RangeBounds<u64>, with: impl Into<Cord>) {
        let (start, end) = bounds(range, self.len());
        let with = self.files.in_memory(with);
        let own: *mut sys::zc_lazy = &mut self.handle;
        infallible(checked(unsafe { sys::zc_lazy_replace(own, start, end - start, with.raw(), own) }));
    }

    /// The first place from `start` on where some bytes stand.
    pub fn find_from(&self, start: u64, bytes: impl AsRef<[u8]>) -> io::Result<Option<u64>> {
        let (bytes, mut place) = (bytes.as_ref(), sys::ZC_NOT_FOUND);
        let (data, count) = (bytes.as_ptr().cast(), bytes.len());
        checked_io(unsafe { sys::zc_lazy_find(self.files.raw(), self.raw(), start, data, count, &mut place) })?;
        Ok(found(place))
    }

    /// The last place before `end` that has a byte.
    pub fn rfind_byte(&self, end: u64, byte: u8) -> io::Result<Option<u64>> {
        let mut place = sys::ZC_NOT_FOUND;
        checked_io(unsafe { sys::zc_lazy_rchr(self.files.raw(), self.raw(), end, byte, &mut place) })?;
        Ok(found(place))
    }

    /// Copies bytes from a place on, as many as there are and `to` has room for: how many.
    pub fn read_at(&self, place: u64, to: &mut [u8]) -> io::Result<usize> {
        let mut got = 0;
        let (data, count) = (to.as_mut_ptr().cast(), to.len());
        checked_io(unsafe { sys::zc_lazy_read(self.files.raw(), self.raw(), place, data, count, &mut got) })?;
        Ok(got)
    }

    /// What reads its bytes, as a file.
    pub fn reader(&self) -> LazyReader {
        LazyReader { cord: self.clone(), place: 0 }
    }

    /// Its bytes, read into memory.
    pub fn to_cord(&self) -> io::Result<Cord> {
        let mut made = Cord::new();
        checked_io(unsafe { sys::zc_lazy_to_cord(self.files.raw(), self.raw(), made.raw_mut()) })?;
        Ok(made)
    }

    /// Writes its bytes, which may not go to a file that it has parts in.
    pub fn write_to(&self, mut writer: impl Write) -> io::Result<()> {
        io::copy(&mut io::BufReader::with_capacity(65_536, self.reader()), &mut writer).map(|_| ())
    }
}

impl Drop for LazyCord {
    fn drop(&mut self) {
        unsafe { sys::zc_lazy_free(&mut self.handle) }
    }
}

impl Clone for LazyCord {
    fn clone(&self) -> LazyCord {
        infallible(LazyCord::made(self.files.clone(), |out| unsafe { sys::zc_lazy_share(self.raw(), out) }))
    }
}

impl fmt::Debug for LazyCord {
    fn fmt(&self, f: &mut fmt::Formatter<'_>) -> fmt::Result {
        write!(f, "LazyCord of {} bytes", self.len())
    }
}

/// Reads the bytes of a lazy cord as a file is read: see [`LazyCord::reader`].
#[derive(Clone, Debug)]
pub struct LazyReader {
    cord: LazyCord,
    place: u64,
}

impl Read for LazyReader {
    fn read(&mut self, to: &mut [u8]) -> io::Result<usize> {
        let got = self.cord.read_at(self.place, to)?;
        self.place += got as u64;
        Ok(got)
    }
}
