"""Cord, a value like bytes."""
from __future__ import annotations

import codecs
import os
import re
from collections.abc import Iterable, Iterator
from ctypes import byref, c_int32, c_size_t, c_ubyte, c_uint64, create_string_buffer, string_at
from typing import TYPE_CHECKING, BinaryIO, SupportsIndex, Union, overload

from ._library import MAX_LEN, NOT_FOUND, CordHandle, zc

if TYPE_CHECKING:
    from ._lazy import Files, LazyCord

Bytes = Union[bytes, bytearray, memoryview]
BLOCK = 65536
WORD = re.compile(rb"\S+")
END_OF_LINE = re.compile(rb"\r\n?|\n")


def version() -> str:
    """The version of the C library that is loaded."""
    return str(zc.zc_version().decode())


def as_cord(text: Cord | Bytes) -> Cord:
    """A cord as it is, or the cord of some bytes."""
    return text if isinstance(text, Cord) else Cord(text)


def range_of(start: int | None, end: int | None, length: int) -> range:
    """The places from start up to end, as those of a slice; a range whose stop is before its start where there are none
    such, in which not even no bytes stand."""
    first = 0 if start is None else start if start >= 0 else max(start + length, 0)
    last = length if end is None else min(end, length) if end >= 0 else max(end + length, 0)
    return range(first, last)


class Cord:
    """A byte string that shares its parts: joins, slices and edits copy at most 64 bytes.

    Cord(b"..") takes a copy of the bytes. A cord equals the bytes that it has, and has their hash. Indices, slices, +, *, in,
    find, split and the rest do what those of bytes do; split, splitlines and iteration are lazy."""

    __slots__ = ("_handle", "_hash", "_length", "__weakref__")
    _handle: CordHandle
    _hash: int | None
    _length: int

    def __init__(self, data: Cord | Bytes | Iterable[int] = b"") -> None:
        self._handle, self._hash = CordHandle(), None
        if isinstance(data, (str, int)):
            raise TypeError(f"a cord is of bytes, not {type(data).__name__}")
        if isinstance(data, Cord):
            self._handle, self._length = data._handle, data._length
            return
        whole = data if type(data) is bytes else bytes(data)
        self._length = len(whole)
        zc.zc_from_bytes(whole, self._length, self._handle)

    @classmethod
    def _of(cls, handle: CordHandle) -> Cord:
        """The cord that a handle owns, which is the handle's one from now on."""
        made = cls.__new__(cls)
        made._handle, made._hash, made._length = handle, None, zc.zc_len(handle)
        return made

    @classmethod
    def repeat(cls, byte: int, count: int) -> Cord:
        """So many times one byte, in a few bytes of memory."""
        if not 0 <= byte < 256:
            raise ValueError("byte must be in range(0, 256)")
        handle = CordHandle()
        zc.zc_chars(byte, max(count, 0), handle)
        return cls._of(handle)

    @classmethod
    def from_file(cls, file: str | os.PathLike[str] | BinaryIO) -> Cord:
        """All bytes of the file at a path, or those that an open file still has."""
        from ._builder import Builder

        if isinstance(file, (str, os.PathLike)):
            with open(file, "rb", buffering=0) as opened:
                return cls.from_file(opened)
        made = Builder()
        while block := file.read(BLOCK):
            made.append(block)
        return made.cord()

    @staticmethod
    def lazy(path: str | os.PathLike[str], files: Files | None = None) -> LazyCord:
        """The bytes of the file at a path, of which nothing is read now. Its bytes have to stay; save to another path."""
        from ._lazy import Files

        return (files if files is not None else Files()).open(path)

    # ---- what it has ----

    def __len__(self) -> int:
        return self._length

    @property
    def depth(self) -> int:
        """How deep the tree of its parts is: at most 60."""
        return int(zc.zc_depth(self._handle))

    def __bytes__(self) -> bytes:
        return self.read(0, self._length)

    def read(self, start: int, count: int) -> bytes:
        """A copy of at most so many bytes from a place on."""
        room, got = create_string_buffer(max(min(count, self._length - start), 1)), c_size_t()
        zc.zc_read(self._handle, start, room, max(count, 0) and len(room), byref(got))
        return string_at(room, got.value)

    def chunks(self, start: int = 0) -> Iterator[bytes]:
        """Its bytes from a place on, by blocks of up to 65,536."""
        while start < self._length:
            block = self.read(start, BLOCK)
            start += len(block)
            yield block

    def __iter__(self) -> Iterator[int]:
        for chunk in self.chunks():
            yield from chunk

    def __reversed__(self) -> Iterator[int]:
        for end in range(self._length, 0, -BLOCK):
            start = max(end - BLOCK, 0)
            yield from reversed(self.read(start, end - start))

    @overload
    def __getitem__(self, index: SupportsIndex) -> int: ...
    @overload
    def __getitem__(self, index: slice) -> Cord: ...
    def __getitem__(self, index: SupportsIndex | slice) -> int | Cord:
        if isinstance(index, slice):
            start, stop, step = index.indices(self._length)
            return self._part(start, stop) if step == 1 else self._stepped(start, stop, step)
        place, byte = index.__index__(), c_ubyte()
        if not -self._length <= place < self._length:
            raise IndexError("index out of range")
        zc.zc_fetch(self._handle, place % self._length, byref(byte))
        return byte.value

    def _part(self, start: int, stop: int) -> Cord:
        if start <= 0 and stop >= self._length:
            return self
        handle = CordHandle()
        zc.zc_substr(self._handle, start, max(stop - start, 0), handle)
        return Cord._of(handle)

    def _stepped(self, start: int, stop: int, step: int) -> Cord:
        """Each so-manieth byte, a block of the places after the other."""
        from ._builder import Builder

        made, places = Builder(), range(start, stop, step)
        many = max(BLOCK // abs(step), 1)
        for i in range(0, len(places), many):
            some = places[i : i + many]
            low, high = min(some[0], some[-1]), max(some[0], some[-1])
            made.append(self.read(low, high - low + 1)[:: step])
        return made.cord()

    def __repr__(self) -> str:
        if self._length <= 60:
            return f"Cord({bytes(self)!r})"
        return f"<Cord of {self._length:,} bytes: {self.read(0, 30)!r}..{self.read(self._length - 20, 20)!r}>"

    def decode(self, encoding: str = "utf-8", errors: str = "strict") -> str:
        """The text that its bytes are in an encoding."""
        decoder = codecs.getincrementaldecoder(encoding)(errors)
        return "".join([*(decoder.decode(it) for it in self.chunks()), decoder.decode(b"", True)])

    def write_to(self, file: BinaryIO) -> None:
        """Writes its bytes to a file that is open for bytes."""
        for chunk in self.chunks():
            left = memoryview(chunk)
            while left:
                left = left[file.write(left) :]

    # ---- joins and edits, which give new cords ----

    def __add__(self, other: Cord | Bytes) -> Cord:
        if not isinstance(other, (Cord, bytes, bytearray, memoryview)):
            return NotImplemented
        handle = CordHandle()
        zc.zc_cat(self._handle, as_cord(other)._handle, handle)
        return Cord._of(handle)

    def __radd__(self, other: Bytes) -> Cord:
        if not isinstance(other, (bytes, bytearray, memoryview)):
            return NotImplemented
        return Cord(other) + self

    def __mul__(self, times: int) -> Cord:
        if not isinstance(times, int):
            return NotImplemented
        handle = CordHandle()
        zc.zc_repeat(self._handle, min(max(times, 0), MAX_LEN + 1), handle)
        return Cord._of(handle)

    __rmul__ = __mul__

    def insert(self, place: int, more: Cord | Bytes) -> Cord:
        """With more bytes in front of the one at a place."""
        return self.replace_range(place, place, more)

    def remove(self, start: int, stop: int) -> Cord:
        """Without the bytes from one place up to another."""
        return self.replace_range(start, stop, b"")

    def replace_range(self, start: int, stop: int, more: Cord | Bytes) -> Cord:
        """With other bytes in place of those from one place up to another. IndexError where a place is past the end."""
        if not 0 <= start <= stop <= self._length:
            raise IndexError("place out of range")
        handle = CordHandle()
        zc.zc_replace(self._handle, start, stop - start, as_cord(more)._handle, handle)
        return Cord._of(handle)

    def balanced(self) -> Cord:
        """The same bytes in a tree that isn't deep."""
        handle = CordHandle()
        zc.zc_balance(self._handle, handle)
        return Cord._of(handle)

    def join(self, parts: Iterable[Cord | Bytes]) -> Cord:
        """The parts in order, with this cord between two of them."""
        from ._builder import Builder

        made = Builder()
        for number, part in enumerate(parts):
            if number and self._length:
                made.append(self)
            made.append(part)
        return made.cord()

    def replace(self, old: Cord | Bytes, new: Cord | Bytes, count: int = -1) -> Cord:
        """With other bytes in each place, or in the first count ones, where some stand."""
        if len(old) == 0:
            return Cord(bytes(self).replace(b"", bytes(new), count))
        return as_cord(new).join(self._split(as_cord(old), count))

    # ---- searches ----

    def find(self, sub: Cord | Bytes | int, start: int | None = None, end: int | None = None) -> int:
        """The first place where some bytes, or one, stand; -1 where they don't."""
        within = range_of(start, end, self._length)
        if within.start > within.stop:
            return -1
        place = c_uint64()
        if isinstance(sub, Cord):
            zc.zc_str_in(self._handle, within.start, within.stop, sub._handle, byref(place))
        elif isinstance(sub, int) and within.stop == self._length:
            zc.zc_chr(self._handle, within.start, self._byte(sub), byref(place))
        else:
            wanted = bytes([self._byte(sub)]) if isinstance(sub, int) else bytes(sub)
            zc.zc_find_in(self._handle, within.start, within.stop, wanted, len(wanted), byref(place))
        return -1 if place.value == NOT_FOUND else place.value

    def rfind(self, sub: Cord | Bytes | int, start: int | None = None, end: int | None = None) -> int:
        """The last place where some bytes, or one, stand; -1 where they don't."""
        within = range_of(start, end, self._length)
        first, last = within.start, within.stop
        place = c_uint64()
        if isinstance(sub, int):
            zc.zc_rchr(self._handle, last, self._byte(sub), byref(place))
            return -1 if place.value == NOT_FOUND or place.value < first else place.value
        if first > last:
            return -1
        part = self._part(first, last) if first else self
        zc.zc_rstr(part._handle, last - first, as_cord(sub)._handle, byref(place))
        return -1 if place.value == NOT_FOUND else first + place.value

    @staticmethod
    def _byte(value: int) -> int:
        if not 0 <= value < 256:
            raise ValueError("byte must be in range(0, 256)")
        return value

    def index(self, sub: Cord | Bytes | int, start: int | None = None, end: int | None = None) -> int:
        """As find; ValueError where they don't stand."""
        if (found := self.find(sub, start, end)) < 0:
            raise ValueError("subsection not found")
        return found

    def rindex(self, sub: Cord | Bytes | int, start: int | None = None, end: int | None = None) -> int:
        """As rfind; ValueError where they don't stand."""
        if (found := self.rfind(sub, start, end)) < 0:
            raise ValueError("subsection not found")
        return found

    def __contains__(self, sub: object) -> bool:
        if not isinstance(sub, (Cord, bytes, bytearray, memoryview, int)):
            raise TypeError(f"a bytes-like object or an int is required, not {type(sub).__name__}")
        return self.find(sub) >= 0

    def count(self, sub: Cord | Bytes | int, start: int | None = None, end: int | None = None) -> int:
        """How often some bytes, or one, stand, without overlaps."""
        within = range_of(start, end, self._length)
        if within.start > within.stop:
            return 0
        part = self._part(within.start, within.stop)
        if isinstance(sub, int):
            return int(zc.zc_count(part._handle, self._byte(sub)))
        if len(sub) == 0:
            return len(part) + 1
        if len(sub) == 1:
            return int(zc.zc_count(part._handle, as_cord(sub)[0]))
        return sum(1 for _ in part._split(as_cord(sub), -1)) - 1

    def startswith(self, prefix: Cord | Bytes | tuple[Cord | Bytes, ...], start: int = 0, end: int | None = None) -> bool:
        """Whether its part from start up to end begins with some bytes, or with one of several."""
        within = range_of(start, end, self._length)
        several = prefix if isinstance(prefix, tuple) else (prefix,)
        return any(self._has(within, within.start, as_cord(it)) for it in several)

    def endswith(self, suffix: Cord | Bytes | tuple[Cord | Bytes, ...], start: int = 0, end: int | None = None) -> bool:
        """Whether its part from start up to end ends with some bytes, or with one of several."""
        within = range_of(start, end, self._length)
        several = suffix if isinstance(suffix, tuple) else (suffix,)
        return any(self._has(within, within.stop - len(it), as_cord(it)) for it in several)

    def _has(self, within: range, place: int, other: Cord) -> bool:
        """Whether another cord stands at a place, all of it within a range."""
        if place < within.start or place + len(other) > within.stop:
            return False
        order = c_int32()
        zc.zc_ncmp(self._handle, place, other._handle, 0, len(other), byref(order))
        return order.value == 0

    def split(self, sep: Cord | Bytes | None = None, maxsplit: int = -1) -> Iterator[Cord]:
        """Its parts between separators, one after the other; without one, its words between white space."""
        if sep is None:
            return self._words(maxsplit)
        if len(sep) == 0:
            raise ValueError("empty separator")
        return self._split(as_cord(sep), maxsplit)

    def _split(self, sep: Cord, maxsplit: int) -> Iterator[Cord]:
        begin = 0
        while maxsplit != 0 and (found := self.find(sep, begin)) >= 0:
            yield self._part(begin, found)
            begin = found + len(sep)
            maxsplit -= 1
        yield self._part(begin, self._length)

    def _spans(self) -> Iterator[tuple[int, int]]:
        """Where words begin and end; one that goes on in the next block is one."""
        begin = end = offset = 0
        for chunk in self.chunks():
            for found in WORD.finditer(chunk):
                if begin < end and offset + found.start() > end:
                    yield begin, end
                if begin == end or offset + found.start() > end:
                    begin = offset + found.start()
                end = offset + found.end()
            offset += len(chunk)
        if begin < end:
            yield begin, end

    def _words(self, maxsplit: int) -> Iterator[Cord]:
        for begin, end in self._spans():
            if maxsplit == 0:
                yield self._part(begin, self._length)
                return
            yield self._part(begin, end)
            maxsplit -= 1

    def splitlines(self, keepends: bool = False) -> Iterator[Cord]:
        """Its lines, one after the other, which end with \\n, \\r or \\r\\n."""
        begin = place = 0
        while place < self._length:
            block = self.read(place, BLOCK)
            found = END_OF_LINE.search(block)
            if found is None:
                place += len(block)
                continue
            end = place + found.start()
            place += found.end()
            if found[0] == b"\r" and place < self._length and self[place] == 10:
                place += 1
            yield self._part(begin, place if keepends else end)
            begin = place
        if begin < self._length:
            yield self._part(begin, self._length)

    # ---- order ----

    def _order(self, other: object) -> int | None:
        if not isinstance(other, (Cord, bytes, bytearray, memoryview)):
            return None
        order = c_int32()
        zc.zc_cmp(self._handle, as_cord(other)._handle, byref(order))
        return order.value

    def __eq__(self, other: object) -> bool:
        if not isinstance(other, (Cord, bytes, bytearray, memoryview)):
            return NotImplemented
        if self._length != len(other):
            return False
        equal = c_int32()
        zc.zc_equal(self._handle, as_cord(other)._handle, byref(equal))
        return equal.value != 0

    def __lt__(self, other: Cord | Bytes) -> bool:
        order = self._order(other)
        return NotImplemented if order is None else order < 0

    def __le__(self, other: Cord | Bytes) -> bool:
        order = self._order(other)
        return NotImplemented if order is None else order <= 0

    def __gt__(self, other: Cord | Bytes) -> bool:
        order = self._order(other)
        return NotImplemented if order is None else order > 0

    def __ge__(self, other: Cord | Bytes) -> bool:
        order = self._order(other)
        return NotImplemented if order is None else order >= 0

    def __hash__(self) -> int:
        if self._hash is None:
            self._hash = hash(bytes(self))
        return self._hash

    def __copy__(self) -> Cord:
        return self

    def __deepcopy__(self, _memo: object) -> Cord:
        return self

    def __reduce__(self) -> tuple[type[Cord], tuple[bytes]]:
        return Cord, (bytes(self),)
