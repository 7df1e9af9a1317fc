"""The formats of sprintf over plain bytes (C's printf, and %r of cord.h)."""
import re
from dataclasses import dataclass

GREATEST = 9999
NUMBERS = "diuoxXc"
CORDS = "sr"
SHOWN = {"d": "d", "i": "d", "u": "d", "o": "o", "x": "x", "X": "X"}
CONVERSION = re.compile(rb"%([-0+]*)([1-9][0-9]*)?(\.[0-9]*)?(ll?)?([diuoxXcsr%])")
FLAGS = {"d": "-0+", "i": "-0+", "u": "-0", "o": "-0", "x": "-0", "X": "-0", "c": "-", "s": "-", "r": "-", "%": ""}


@dataclass
class Conversion:
    letter: str
    flags: set
    width: int
    precision: int | None

    def wants(self):
        """'number', 'cord', or None where it takes no argument."""
        return "number" if self.letter in NUMBERS else "cord" if self.letter in CORDS else None


def conversion_of(found):
    """The conversion that was found, or None where its letter may not have what stands before it."""
    flags, width, precision, long, letter = (part and part.decode() for part in found.groups())
    has_width, has_precision = width is not None, precision is not None
    width = int(width or 0)
    precision = int(precision[1:] or 0) if has_precision else None
    if width > GREATEST or (precision or 0) > GREATEST:
        return None
    if set(flags) - set(FLAGS[letter]) or (has_width and letter == "%"):
        return None
    if has_precision and letter in "c%" or long and letter in "csr%":
        return None
    return Conversion(letter, set(flags), width, precision)


def pieces_of(form):
    """The pieces of a format, each bytes or a Conversion; None where it is no format."""
    pieces, place = [], 0
    while place < len(form):
        if form[place] != ord("%"):
            end = form.find(b"%", place)
            end = len(form) if end < 0 else end
            pieces.append(form[place:end])
            place = end
            continue
        found = CONVERSION.match(form, place)
        piece = found and conversion_of(found)
        if not piece:
            return None
        pieces.append(piece)
        place = found.end()
    return pieces


def padded(piece, sign, text):
    """sign and text, filled up to the width."""
    missing = piece.width - len(sign) - len(text)
    if missing <= 0:
        return sign + text
    if "-" in piece.flags:
        return sign + text + b" " * missing
    if "0" in piece.flags and piece.precision is None:
        return sign + b"0" * missing + text
    return b" " * missing + sign + text


def text_of(piece, argument):
    """The text of a piece with its argument: a number, bytes, or None."""
    if isinstance(piece, bytes):
        return piece
    if piece.letter == "%":
        return b"%"
    if piece.letter in CORDS:
        return padded(piece, b"", argument[: piece.precision])
    if piece.letter == "c":
        return padded(piece, b"", bytes([argument]))
    digits = format(abs(argument), SHOWN[piece.letter]).rjust(piece.precision or 0, "0")
    if piece.precision == 0 and argument == 0:
        digits = ""
    sign = b"-" if argument < 0 else b"+" if "+" in piece.flags else b""
    return padded(piece, sign, digits.encode())
