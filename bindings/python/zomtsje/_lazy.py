"""LazyCord, whose parts may lie in files, and Files, which holds these open."""
from __future__ import annotations

import os
from collections.abc import Iterator
from ctypes import byref, c_size_t, c_uint64, create_string_buffer, string_at
from typing import BinaryIO

from ._cord import BLOCK, Bytes, Cord, as_cord
from ._library import NOT_FOUND, CordHandle, FilesHandle, LazyHandle, zc


class Files:
    """The files that lazy cords have parts in, at most 64; close() closes them, and so does the end of a with statement."""

    def __init__(self) -> None:
        self._handle = FilesHandle()

    def open(self, path: str | os.PathLike[str]) -> LazyCord:
        """The bytes of the file at a path, of which nothing is read now."""
        handle = LazyHandle()
        zc.zc_lazy_from_path(self._handle, os.fsencode(path), handle)
        return LazyCord(self, handle)

    def close(self) -> None:
        """Closes the files; cords over them can't be read then."""
        zc.zc_files_free(self._handle)

    def __enter__(self) -> Files:
        return self

    def __exit__(self, *_cause: object) -> None:
        self.close()


class LazyCord:
    """A cord whose parts may lie in files: slices, joins and edits read nothing.

    Cord.lazy(path) makes one. Two that are joined are of one Files."""

    __slots__ = ("_files", "_handle")

    def __init__(self, files: Files, handle: LazyHandle) -> None:
        self._files, self._handle = files, handle

    def __len__(self) -> int:
        return int(zc.zc_lazy_len(self._handle))

    def read(self, start: int, count: int) -> bytes:
        """A copy of at most so many bytes from a place on."""
        room, got = create_string_buffer(max(min(count, len(self) - start), 1)), c_size_t()
        zc.zc_lazy_read(self._files._handle, self._handle, start, room, max(count, 0) and len(room), byref(got))
        return string_at(room, got.value)

    def chunks(self, start: int = 0) -> Iterator[bytes]:
        """Its bytes from a place on, by blocks of up to 65,536."""
        while block := self.read(start, BLOCK):
            start += len(block)
            yield block

    def __bytes__(self) -> bytes:
        return b"".join(self.chunks())

    def cord(self) -> Cord:
        """Its bytes, read into memory."""
        handle = CordHandle()
        zc.zc_lazy_to_cord(self._files._handle, self._handle, handle)
        return Cord._of(handle)

    def __getitem__(self, index: slice) -> LazyCord:
        start, stop, step = index.indices(len(self))
        if step != 1:
            raise ValueError("a lazy cord has slices without a step")
        handle = LazyHandle()
        zc.zc_lazy_substr(self._handle, start, max(stop - start, 0), handle)
        return LazyCord(self._files, handle)

    def __add__(self, other: LazyCord | Cord | Bytes) -> LazyCord:
        handle, more = LazyHandle(), other
        if not isinstance(more, LazyCord):
            more = self._in_memory(other)
        if more._files is not self._files:
            raise ValueError("the two cords are over different files")
        zc.zc_lazy_cat(self._handle, more._handle, handle)
        return LazyCord(self._files, handle)

    def _in_memory(self, text: Cord | Bytes) -> LazyCord:
        made = LazyCord(self._files, LazyHandle())
        zc.zc_lazy_from_cord(as_cord(text)._handle, made._handle)
        return made

    def replace_range(self, start: int, stop: int, more: Cord | Bytes) -> LazyCord:
        """With other bytes in place of those from one place up to another."""
        if not 0 <= start <= stop <= len(self):
            raise IndexError("place out of range")
        handle, added = LazyHandle(), self._in_memory(more)
        zc.zc_lazy_replace(self._handle, start, stop - start, added._handle, handle)
        return LazyCord(self._files, handle)

    def insert(self, place: int, more: Cord | Bytes) -> LazyCord:
        """With more bytes in front of the one at a place."""
        return self.replace_range(place, place, more)

    def remove(self, start: int, stop: int) -> LazyCord:
        """Without the bytes from one place up to another."""
        return self.replace_range(start, stop, b"")

    def find(self, sub: Bytes, start: int = 0) -> int:
        """The first place from start on where some bytes stand; -1 where they don't."""
        place = c_uint64()
        zc.zc_lazy_find(self._files._handle, self._handle, start, bytes(sub), len(sub), byref(place))
        return -1 if place.value == NOT_FOUND else place.value

    def rfind(self, byte: int, end: int | None = None) -> int:
        """The last place before end that has a byte; -1 where none has."""
        place = c_uint64()
        zc.zc_lazy_rchr(self._files._handle, self._handle, NOT_FOUND if end is None else end, byte, byref(place))
        return -1 if place.value == NOT_FOUND else place.value

    def write_to(self, file: BinaryIO) -> None:
        """Writes its bytes to a file that is open for bytes, which isn't one that it has parts in."""
        for chunk in self.chunks():
            left = memoryview(chunk)
            while left:
                left = left[file.write(left) :]

    def __repr__(self) -> str:
        return f"<LazyCord of {len(self):,} bytes>"
