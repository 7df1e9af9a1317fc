"""LineIndex, the lines of a cord by number."""
from __future__ import annotations

from collections.abc import Iterator, Sequence
from ctypes import byref, c_uint64
from typing import overload

from ._cord import Bytes, Cord, as_cord
from ._library import CordHandle, LinesHandle, zc


class LineIndex(Sequence[Cord]):
    """The lines of a cord without their ends, each found without a walk through the text, and made when it is asked for.

    text is the cord, and replace edits it. A line ends with \\n, which the last one may lack; numbers are from 0."""

    def __init__(self, text: Cord | Bytes = b"") -> None:
        self.text: Cord = as_cord(text)
        self._handle = LinesHandle()
        zc.zc_lines_set(self.text._handle, self._handle)

    def __len__(self) -> int:
        return int(zc.zc_lines_count(self._handle))

    @overload
    def __getitem__(self, number: int) -> Cord: ...
    @overload
    def __getitem__(self, number: slice) -> list[Cord]: ...
    def __getitem__(self, number: int | slice) -> Cord | list[Cord]:
        places = range(len(self))[number]
        return self._line(places) if isinstance(places, int) else [self._line(it) for it in places]

    def __iter__(self) -> Iterator[Cord]:
        for number in range(len(self)):
            yield self._line(number)

    def _line(self, number: int) -> Cord:
        made = CordHandle()
        zc.zc_lines_line(self._handle, self.text._handle, number, made)
        return Cord._of(made)

    def line_start(self, number: int) -> int:
        """The place where a line begins."""
        place = c_uint64()
        zc.zc_lines_start(self._handle, self.text._handle, range(len(self))[number], byref(place))
        return place.value

    def line_of(self, place: int) -> int:
        """The line that holds the byte at a place: at the end how many lines end."""
        number = c_uint64()
        zc.zc_lines_of(self._handle, self.text._handle, range(len(self.text) + 1)[place], byref(number))
        return number.value

    def utf8_len(self, start: int, stop: int) -> int:
        """How many characters of UTF-8 begin between two places."""
        chars = c_uint64()
        zc.zc_lines_utf8(self._handle, self.text._handle, start, max(stop - start, 0), byref(chars))
        return chars.value

    def replace(self, start: int, stop: int, more: Cord | Bytes) -> None:
        """Puts other bytes in place of those from one place up to another."""
        more = as_cord(more)
        self._become(self.text.replace_range(start, stop, more), start, stop - start, len(more))

    def _become(self, after: Cord, start: int, removed: int, inserted: int) -> None:
        """It is the index of the text after an edit from now on."""
        zc.zc_lines_edited_from(self._handle, self.text._handle, after._handle, start, removed, inserted)
        self.text = after
