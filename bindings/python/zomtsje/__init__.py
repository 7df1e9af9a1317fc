"""Cords: byte strings that share their parts, so that texts of any size are joined, cut and edited in almost no time.

    >>> from zomtsje import Cord
    >>> old = Cord(b"one three")
    >>> new = old.insert(4, b"two ")
    >>> bytes(new), bytes(old)
    (b'one two three', b'one three')

Cord is a value like bytes: it never changes. Builder makes one from its beginning to its end, Editor keeps the versions of one
under edit, LineIndex has its lines by number, and Cord.lazy opens a file that isn't read until its bytes are asked for. What
is refused raises MemoryError, OverflowError (a cord has less than 2**40 bytes), OSError or IndexError.
"""
from ._builder import Builder
from ._cord import Cord, version
from ._editor import Editor
from ._lazy import Files, LazyCord
from ._lines import LineIndex

__all__ = ["Builder", "Cord", "Editor", "Files", "LazyCord", "LineIndex", "version"]
__version__ = version()
