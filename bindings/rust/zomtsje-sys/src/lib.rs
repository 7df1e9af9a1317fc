//! The calls of the C library of Zomtsje, as its header `zomtsje.h` has them and says what each does.
#![no_std]
#![allow(non_camel_case_types)]

use core::ffi::{c_char, c_int, c_void};
use core::ptr::null_mut;

/// The call is done.
pub const ZC_OK: c_int = 0;
/// The text would be longer than [`ZC_MAX_LEN`].
pub const ZC_TOO_LONG: c_int = 1;
/// Memory was refused.
pub const ZC_NO_MEMORY: c_int = 2;
/// A read failed, and errno says how.
pub const ZC_READ_FAILED: c_int = 3;
/// A write failed, and errno says how.
pub const ZC_WRITE_FAILED: c_int = 4;
/// There is no such place, or no such line.
pub const ZC_PAST_END: c_int = 5;
/// The bytes lie in a file.
pub const ZC_IN_FILE: c_int = 6;
/// 64 files are open.
pub const ZC_TOO_MANY_FILES: c_int = 7;
/// The descriptor has no bytes now, or takes none.
pub const ZC_WOULD_BLOCK: c_int = 8;
/// A pointer is null.
pub const ZC_NULL: c_int = 9;
/// The bytes are no format.
pub const ZC_BAD_FORMAT: c_int = 10;
/// The format takes another number of arguments, or others' kinds.
pub const ZC_WRONG_ARGUMENTS: c_int = 11;
/// An argument has a value that its conversion doesn't take.
pub const ZC_BAD_VALUE: c_int = 12;
/// One place is given as handles of two kinds.
pub const ZC_BAD_ARGUMENT: c_int = 13;

/// The most bytes of a text.
pub const ZC_MAX_LEN: u64 = (1 << 40) - 1;
/// What searches answer where they find nothing.
pub const ZC_NOT_FOUND: u64 = u64::MAX;

/// A handle of a cord.
#[repr(C)]
#[derive(Debug)]
pub struct zc_cord {
    tree: *mut c_void,
}

impl zc_cord {
    /// `ZC_EMPTY`.
    pub const EMPTY: zc_cord = zc_cord { tree: null_mut() };
}

/// A handle of a cord that may have parts in files.
#[repr(C)]
#[derive(Debug)]
pub struct zc_lazy {
    tree: *mut c_void,
}

impl zc_lazy {
    /// `ZC_LAZY_EMPTY`.
    pub const EMPTY: zc_lazy = zc_lazy { tree: null_mut() };
}

/// The index of the lines of a cord.
#[repr(C)]
#[derive(Debug)]
pub struct zc_lines {
    index: *mut c_void,
}

impl zc_lines {
    /// `ZC_LINES_EMPTY`.
    pub const EMPTY: zc_lines = zc_lines { index: null_mut() };
}

/// A text that grows at its end.
#[repr(C)]
#[derive(Debug)]
pub struct zc_ext {
    built: zc_cord,
    length: u64,
    count: usize,
    bytes: [u8; 4096],
}

impl zc_ext {
    /// `ZC_EXT_EMPTY`.
    pub const EMPTY: zc_ext = zc_ext { built: zc_cord::EMPTY, length: 0, count: 0, bytes: [0; 4096] };
}

/// The files that lazy cords have parts in.
#[repr(C)]
#[derive(Debug)]
pub struct zc_files {
    fds: [c_int; 64],
    numbers: [u32; 64],
    count: u32,
    next: u32,
}

impl zc_files {
    /// `ZC_FILES_NONE`.
    pub const NONE: zc_files = zc_files { fds: [0; 64], numbers: [0; 64], count: 0, next: 0 };
}

extern "C" {
    pub fn zc_version() -> *const c_char;
    pub fn zc_message(code: c_int) -> *const c_char;

    pub fn zc_from_bytes(bytes: *const c_void, count: usize, out: *mut zc_cord) -> c_int;
    pub fn zc_chars(byte: u8, count: u64, out: *mut zc_cord) -> c_int;
    pub fn zc_cat(x: *const zc_cord, y: *const zc_cord, out: *mut zc_cord) -> c_int;
    pub fn zc_cat_bytes(x: *const zc_cord, bytes: *const c_void, count: usize, out: *mut zc_cord) -> c_int;
    pub fn zc_substr(x: *const zc_cord, start: u64, count: u64, out: *mut zc_cord) -> c_int;
    pub fn zc_append(x: *mut zc_cord, y: *const zc_cord) -> c_int;
    pub fn zc_splice(x: *mut zc_cord, start: u64, count: u64, y: *const zc_cord) -> c_int;
    pub fn zc_repeat(x: *const zc_cord, times: u64, out: *mut zc_cord) -> c_int;
    pub fn zc_balance(x: *const zc_cord, out: *mut zc_cord) -> c_int;
    pub fn zc_share(x: *const zc_cord, out: *mut zc_cord) -> c_int;
    pub fn zc_free(x: *mut zc_cord);

    pub fn zc_len(x: *const zc_cord) -> u64;
    pub fn zc_depth(x: *const zc_cord) -> u32;
    pub fn zc_fetch(x: *const zc_cord, place: u64, byte: *mut u8) -> c_int;
    pub fn zc_chr(x: *const zc_cord, start: u64, byte: u8, place: *mut u64) -> c_int;
    pub fn zc_rchr(x: *const zc_cord, end: u64, byte: u8, place: *mut u64) -> c_int;
    pub fn zc_find_in(
        x: *const zc_cord,
        start: u64,
        end: u64,
        bytes: *const c_void,
        count: usize,
        place: *mut u64,
    ) -> c_int;
    pub fn zc_rfind(x: *const zc_cord, end: u64, bytes: *const c_void, count: usize, place: *mut u64) -> c_int;
    pub fn zc_equal(x: *const zc_cord, y: *const zc_cord, equal: *mut i32) -> c_int;
    pub fn zc_cmp(x: *const zc_cord, y: *const zc_cord, order: *mut i32) -> c_int;
    pub fn zc_ncmp(x: *const zc_cord, i: u64, y: *const zc_cord, j: u64, count: u64, order: *mut i32) -> c_int;
    pub fn zc_count(x: *const zc_cord, byte: u8) -> u64;
    pub fn zc_read(x: *const zc_cord, start: u64, bytes: *mut c_void, count: usize, got: *mut usize) -> c_int;

    pub fn zc_ext_bytes(x: *mut zc_ext, bytes: *const c_void, count: usize) -> c_int;
    pub fn zc_ext_cord(x: *mut zc_ext, y: *const zc_cord) -> c_int;
    pub fn zc_ext_to_cord(x: *mut zc_ext, out: *mut zc_cord) -> c_int;
    pub fn zc_ext_len(x: *const zc_ext) -> u64;
    pub fn zc_ext_free(x: *mut zc_ext);

    pub fn zc_lines_set(x: *const zc_cord, lines: *mut zc_lines) -> c_int;
    pub fn zc_lines_count(lines: *const zc_lines) -> u64;
    pub fn zc_lines_start(lines: *const zc_lines, x: *const zc_cord, number: u64, place: *mut u64) -> c_int;
    pub fn zc_lines_of(lines: *const zc_lines, x: *const zc_cord, place: u64, number: *mut u64) -> c_int;
    pub fn zc_lines_utf8(lines: *const zc_lines, x: *const zc_cord, start: u64, count: u64, chars: *mut u64) -> c_int;
    pub fn zc_lines_line(lines: *const zc_lines, x: *const zc_cord, number: u64, out: *mut zc_cord) -> c_int;
    pub fn zc_lines_edited(
        lines: *mut zc_lines,
        after: *const zc_cord,
        start: u64,
        removed: u64,
        inserted: u64,
    ) -> c_int;
    pub fn zc_lines_edited_from(
        lines: *mut zc_lines,
        before: *const zc_cord,
        after: *const zc_cord,
        start: u64,
        removed: u64,
        inserted: u64,
    ) -> c_int;
    pub fn zc_lines_free(lines: *mut zc_lines);

    pub fn zc_lazy_from_path(files: *mut zc_files, path: *const c_char, out: *mut zc_lazy) -> c_int;
    pub fn zc_lazy_from_cord(x: *const zc_cord, out: *mut zc_lazy) -> c_int;
    pub fn zc_lazy_cat(x: *const zc_lazy, y: *const zc_lazy, out: *mut zc_lazy) -> c_int;
    pub fn zc_lazy_substr(x: *const zc_lazy, start: u64, count: u64, out: *mut zc_lazy) -> c_int;
    pub fn zc_lazy_replace(x: *const zc_lazy, start: u64, count: u64, y: *const zc_lazy, out: *mut zc_lazy) -> c_int;
    pub fn zc_lazy_share(x: *const zc_lazy, out: *mut zc_lazy) -> c_int;
    pub fn zc_lazy_len(x: *const zc_lazy) -> u64;
    pub fn zc_lazy_free(x: *mut zc_lazy);
    pub fn zc_lazy_read(
        files: *mut zc_files,
        x: *const zc_lazy,
        start: u64,
        bytes: *mut c_void,
        count: usize,
        got: *mut usize,
    ) -> c_int;
    pub fn zc_lazy_find(
        files: *mut zc_files,
        x: *const zc_lazy,
        start: u64,
        bytes: *const c_void,
        count: usize,
        place: *mut u64,
    ) -> c_int;
    pub fn zc_lazy_rchr(files: *mut zc_files, x: *const zc_lazy, end: u64, byte: u8, place: *mut u64) -> c_int;
    pub fn zc_lazy_to_cord(files: *mut zc_files, x: *const zc_lazy, out: *mut zc_cord) -> c_int;
    pub fn zc_files_free(files: *mut zc_files);
}
