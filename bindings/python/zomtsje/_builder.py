"""Builder, which makes a cord from its beginning to its end."""
from __future__ import annotations

from ._cord import Bytes, Cord
from ._library import CordHandle, ExtHandle, zc


class Builder:
    """A text that grows at its end: bytes are gathered to leaves of up to 4,096, cords are shared.

    append takes bytes, a cord or one byte as an int; += does too. cord() gives what there is, and the builder may grow on."""

    __slots__ = ("_handle",)

    def __init__(self) -> None:
        self._handle = ExtHandle()

    def append(self, more: Cord | Bytes | int) -> None:
        """Adds bytes, a cord or one byte at the end."""
        if isinstance(more, Cord):
            zc.zc_ext_cord(self._handle, more._handle)
        else:
            whole = bytes([more]) if isinstance(more, int) else bytes(more)
            zc.zc_ext_bytes(self._handle, whole, len(whole))

    def __iadd__(self, more: Cord | Bytes | int) -> Builder:
        self.append(more)
        return self

    def write(self, more: Cord | Bytes) -> int:
        """Adds bytes as a file does: how many."""
        self.append(more)
        return len(more)

    def __len__(self) -> int:
        return int(zc.zc_ext_len(self._handle))

    def cord(self) -> Cord:
        """What was added, as a cord."""
        handle = CordHandle()
        zc.zc_ext_to_cord(self._handle, handle)
        return Cord._of(handle)

    def __repr__(self) -> str:
        return f"<Builder of {len(self):,} bytes>"
