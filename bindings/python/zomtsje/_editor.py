"""Editor, which keeps the versions of a cord."""
from __future__ import annotations

from typing import NamedTuple

from ._cord import Bytes, Cord, as_cord
from ._lines import LineIndex


class _Version(NamedTuple):
    """A text, and the edit of the one that it takes the place of."""

    text: Cord
    start: int
    removed: int
    inserted: int


class Editor:
    """A cord under edit, with all its versions, which share what they have in common.

    text is the current one. undo and redo say whether there was a step to go."""

    def __init__(self, text: Cord | Bytes = b"") -> None:
        self.text: Cord = as_cord(text)
        self._done: list[_Version] = []
        self._undone: list[_Version] = []
        self._lines: LineIndex | None = None

    def __len__(self) -> int:
        return len(self.text)

    @property
    def lines(self) -> LineIndex:
        """The lines of the text as it is now. The index is made when it is first asked for, and kept along edits."""
        if self._lines is None:
            self._lines = LineIndex(self.text)
        return self._lines

    def replace(self, start: int, stop: int, more: Cord | Bytes) -> None:
        """Puts other bytes in place of those from one place up to another."""
        more = as_cord(more)
        changed = self.text.replace_range(start, stop, more)
        self._done.append(self._become(_Version(changed, start, stop - start, len(more))))
        self._undone.clear()

    def insert(self, place: int, more: Cord | Bytes) -> None:
        """Puts more bytes in front of the one at a place."""
        self.replace(place, place, more)

    def delete(self, start: int, stop: int) -> None:
        """Takes out the bytes from one place up to another."""
        self.replace(start, stop, b"")

    def undo(self) -> bool:
        """Goes back to the version before the last change."""
        return self._step(self._done, self._undone)

    def redo(self) -> bool:
        """Goes forward again to the version that was undone last."""
        return self._step(self._undone, self._done)

    def _become(self, next: _Version) -> _Version:
        """Has another text from now on: gives the way back."""
        if self._lines is not None:
            self._lines._become(*next)
        back = _Version(self.text, next.start, next.inserted, next.removed)
        self.text = next.text
        return back

    def _step(self, source: list[_Version], target: list[_Version]) -> bool:
        if not source:
            return False
        target.append(self._become(source[-1]))
        source.pop()
        return True
