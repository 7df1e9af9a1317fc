"""The C library, loaded by ctypes: its handles, its calls and what their codes mean."""
from __future__ import annotations

import ctypes
import errno
import os
from collections.abc import Callable
from ctypes import POINTER, c_char_p, c_int, c_int32, c_size_t, c_ubyte, c_uint32, c_uint64, c_void_p

NAME = "libzomtsje.so.0.6"
NOT_FOUND = 2**64 - 1
MAX_LEN = 2**40 - 1


class CordHandle(ctypes.Structure):
    """A zc_cord. Each of these handles frees what it owns when it goes, as an argument of a call only after that."""

    _fields_ = [("tree", c_void_p)]


class LazyHandle(ctypes.Structure):
    """A zc_lazy."""

    _fields_ = [("tree", c_void_p)]


class LinesHandle(ctypes.Structure):
    """A zc_lines."""

    _fields_ = [("index", c_void_p)]


class ExtHandle(ctypes.Structure):
    """A zc_ext."""

    _fields_ = [("built", CordHandle), ("length", c_uint64), ("count", c_size_t), ("bytes", c_ubyte * 4096)]


class FilesHandle(ctypes.Structure):
    """A zc_files."""

    _fields_ = [("fds", c_int * 64), ("numbers", c_uint32 * 64), ("count", c_uint32), ("next", c_uint32)]


CORD, LAZY, EXT, FILES = POINTER(CordHandle), POINTER(LazyHandle), POINTER(ExtHandle), POINTER(FilesHandle)
LINES = POINTER(LinesHandle)
U64 = c_uint64
PLACE, SIZE, ORDER = POINTER(c_uint64), POINTER(c_size_t), POINTER(c_int32)

# Each call that gives a code, with the types of its arguments.
CODED: dict[str, list[type]] = {
    "zc_from_bytes": [c_char_p, c_size_t, CORD],
    "zc_chars": [c_ubyte, U64, CORD],
    "zc_cat": [CORD, CORD, CORD],
    "zc_substr": [CORD, U64, U64, CORD],
    "zc_insert": [CORD, U64, CORD, CORD],
    "zc_remove": [CORD, U64, U64, CORD],
    "zc_replace": [CORD, U64, U64, CORD, CORD],
    "zc_balance": [CORD, CORD],
    "zc_fetch": [CORD, U64, POINTER(c_ubyte)],
    "zc_chr": [CORD, U64, c_ubyte, PLACE],
    "zc_rchr": [CORD, U64, c_ubyte, PLACE],
    "zc_repeat": [CORD, U64, CORD],
    "zc_equal": [CORD, CORD, ORDER],
    "zc_find_in": [CORD, U64, U64, c_char_p, c_size_t, PLACE],
    "zc_str_in": [CORD, U64, U64, CORD, PLACE],
    "zc_rstr": [CORD, U64, CORD, PLACE],
    "zc_cmp": [CORD, CORD, ORDER],
    "zc_ncmp": [CORD, U64, CORD, U64, U64, ORDER],
    "zc_read": [CORD, U64, c_void_p, c_size_t, SIZE],
    "zc_ext_bytes": [EXT, c_char_p, c_size_t],
    "zc_ext_cord": [EXT, CORD],
    "zc_ext_to_cord": [EXT, CORD],
    "zc_lines_set": [CORD, LINES],
    "zc_lines_start": [LINES, CORD, U64, PLACE],
    "zc_lines_of": [LINES, CORD, U64, PLACE],
    "zc_lines_utf8": [LINES, CORD, U64, U64, PLACE],
    "zc_lines_line": [LINES, CORD, U64, CORD],
    "zc_lines_edited_from": [LINES, CORD, CORD, U64, U64, U64],
    "zc_lazy_from_path": [FILES, c_char_p, LAZY],
    "zc_lazy_from_cord": [CORD, LAZY],
    "zc_lazy_cat": [LAZY, LAZY, LAZY],
    "zc_lazy_substr": [LAZY, U64, U64, LAZY],
    "zc_lazy_replace": [LAZY, U64, U64, LAZY, LAZY],
    "zc_lazy_read": [FILES, LAZY, U64, c_void_p, c_size_t, SIZE],
    "zc_lazy_find": [FILES, LAZY, U64, c_char_p, c_size_t, PLACE],
    "zc_lazy_rchr": [FILES, LAZY, U64, c_ubyte, PLACE],
    "zc_lazy_to_cord": [FILES, LAZY, CORD],
}

# The other calls: what they give, and the types of their arguments.
PLAIN: dict[str, tuple[type | None, list[type]]] = {
    "zc_version": (c_char_p, []),
    "zc_message": (c_char_p, [c_int]),
    "zc_len": (U64, [CORD]),
    "zc_depth": (c_uint32, [CORD]),
    "zc_count": (U64, [CORD, c_ubyte]),
    "zc_free": (None, [CORD]),
    "zc_ext_len": (U64, [EXT]),
    "zc_ext_free": (None, [EXT]),
    "zc_lines_count": (U64, [LINES]),
    "zc_lines_free": (None, [LINES]),
    "zc_lazy_len": (U64, [LAZY]),
    "zc_lazy_free": (None, [LAZY]),
    "zc_files_free": (None, [FILES]),
}


def _raise(code: int) -> None:
    """Raises what a code other than that of success means."""
    text = zc.zc_message(code).decode()
    if code == 1:
        raise OverflowError(f"a cord has at most {MAX_LEN:,} bytes")
    if code == 2:
        raise MemoryError(text)
    if code == 5:
        raise IndexError(text)
    if code == 7:
        raise OSError(errno.EMFILE, text)
    raise OSError(ctypes.get_errno(), text)


def _checked(code: int, _call: object, _arguments: object) -> int:
    if code:
        _raise(code)
    return code


def _load() -> ctypes.PyDLL:
    """The library: what ZOMTSJE_LIBRARY names, or the one beside this file, or the system's.

    A PyDLL keeps the interpreter's lock, so calls of different threads come one after the other."""
    beside = os.path.join(os.path.dirname(__file__), NAME)
    path = os.environ.get("ZOMTSJE_LIBRARY") or (beside if os.path.exists(beside) else NAME)
    made = ctypes.PyDLL(path, use_errno=True)
    for name, arguments in CODED.items():
        call = getattr(made, name)
        call.argtypes, call.restype, call.errcheck = arguments, c_int, _checked
    for name, (result, arguments) in PLAIN.items():
        call = getattr(made, name)
        call.argtypes, call.restype = arguments, result
    return made


zc = _load()


def _frees(handle: type[ctypes.Structure], free: Callable[[ctypes.Structure], None]) -> None:
    """Has handles of a type freed when they go, also while the interpreter ends."""
    handle.__del__ = lambda self, free=free: free(self)  # type: ignore[attr-defined]


_frees(CordHandle, zc.zc_free)
_frees(LazyHandle, zc.zc_lazy_free)
_frees(ExtHandle, zc.zc_ext_free)
_frees(LinesHandle, zc.zc_lines_free)
_frees(FilesHandle, zc.zc_files_free)
