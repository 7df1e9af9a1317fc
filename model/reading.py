"""How the bytes of a script are read, and what is wrong first with a script that is refused (docs/GRAMMAR.md)."""
import re
from dataclasses import dataclass, field
from enum import Enum

from formats import Conversion, pieces_of

GREATEST_SCRIPT = 1_048_576
MOST_LINES = 65_536
MOST_NAMES = 256
MOST_PATHS = 64
MOST_BLOCKS = 8
GREATEST_TEXT = 65_535
GREATEST_PATH = 4_095
BLANKS = b" \t\r"
NAME = re.compile(rb"[A-Za-z_][A-Za-z0-9_]{0,31}")
NUMERAL = re.compile(rb"-?[0-9]+")
PLAIN = re.compile(rb'[^ \t\r"]+')
ESCAPE = re.compile(rb'\\(?:([\\"nt])|x([0-9a-fA-F]{2}))')
SIMPLE_ESCAPES = {b"\\": 92, b'"': 34, b"n": 10, b"t": 9}


class Refused(Exception):
    """The script is refused; the text says why."""


class Role(Enum):
    """What a word of a statement has to be."""

    NEW_CORD = "target cord"
    NEW_NUMBER = "target number"
    NEW_EXTENSIBLE = "target extensible"
    CORD = "cord"
    EXTENSIBLE = "extensible"
    NUMBER = "number"
    TEXT = "text"
    PATH = "path"
    FUNCTION = "function"
    RELATION = "relation"
    FORMAT = "format"

    def is_target(self):
        return self in (Role.NEW_CORD, Role.NEW_NUMBER, Role.NEW_EXTENSIBLE)

    def is_quoted(self):
        return self in (Role.TEXT, Role.PATH, Role.FORMAT)

    def kind(self):
        """The kind of the name that stands in this role, or None."""
        last = self.value.split()[-1]
        return last if last in ("cord", "number", "extensible") else None


LETTERS = {
    "z": Role.NEW_CORD, "n": Role.NEW_NUMBER, "e": Role.NEW_EXTENSIBLE, "x": Role.CORD, "E": Role.EXTENSIBLE,
    "i": Role.NUMBER, "t": Role.TEXT, "p": Role.PATH, "f": Role.FUNCTION, "r": Role.RELATION,
}
FORMS = {
    "let": "zt", "file": "zp", "eager": "zp", "lazy": "zp", "chars": "zii", "nul": "zi", "fn": "zfi", "cat": "zxx",
    "catc": "zxi", "substr": "zxii", "balance": "zx", "ectocord": "zE", "len": "nx", "fetch": "nxi", "cmp": "nxx",
    "ncmp": "nxixii", "str": "nxix", "chr": "nxii", "rchr": "nxii", "set": "ni", "add": "nii", "sub": "nii",
    "ecinit": "e", "ecput": "Ei", "eccat": "Ex", "ecstr": "Et", "put": "x", "repeat": "i", "if": "iri", "else": "",
    "end": "",
}
CHOICES = {Role.FUNCTION: (b"digits", b"bytes"), Role.RELATION: (b"lt", b"eq", b"gt")}


@dataclass
class Word:
    quoted: bool
    text: bytes


@dataclass
class Statement:
    """A line: its number, its word, and the values of its other words, each with its role."""

    line: int
    word: str
    roles: list
    values: list
    pieces: list = field(default_factory=list)

    def target(self):
        return self.values[0] if self.roles and self.roles[0].is_target() else None

    def cords(self):
        return [value for role, value in zip(self.roles, self.values) if role is Role.CORD]


@dataclass
class Before:
    """What the lines before have assigned and opened."""

    kinds: dict = field(default_factory=dict)
    paths: set = field(default_factory=set)
    blocks: list = field(default_factory=list)


def quoted_word(line, place):
    """The text of the quoted word whose quote is at place, and the place after it."""
    text = bytearray()
    place += 1
    while place < len(line) and line[place] != ord('"'):
        byte, step = line[place], 1
        if byte == ord("\\"):
            escape = ESCAPE.match(line, place)
            if not escape:
                raise Refused("bad escape")
            byte = SIMPLE_ESCAPES[escape[1]] if escape[1] else int(escape[2], 16)
            step = len(escape[0])
        if len(text) == GREATEST_TEXT:
            raise Refused("text too long")
        text.append(byte)
        place += step
    if place >= len(line):
        raise Refused("quote not closed")
    return bytes(text), place + 1


def words_of(line):
    words, place = [], 0
    while place < len(line):
        if line[place] in BLANKS:
            place += 1
        elif line[place] == ord('"'):
            text, place = quoted_word(line, place)
            words.append(Word(True, text))
        else:
            plain = PLAIN.match(line, place)
            words.append(Word(False, plain[0]))
            place = plain.end()
    return words


def name_of(word):
    if word.quoted or not NAME.fullmatch(word.text):
        raise Refused("bad name")
    return word.text.decode()


def number_of(word):
    """A number, or the name of one."""
    if word.quoted:
        raise Refused("bad number")
    if word.text[0] not in b"-0123456789":
        return name_of(word)
    if not NUMERAL.fullmatch(word.text) or not -(1 << 63) <= int(word.text) < 1 << 63:
        raise Refused("bad number")
    return int(word.text)


def path_of(word):
    if not 1 <= len(word.text) <= GREATEST_PATH or 0 in word.text:
        raise Refused("bad name")
    try:
        word.text.decode("utf-8")
    except UnicodeDecodeError:
        raise Refused("bad name") from None
    return word.text


def value_of(role, word):
    """What the word says in its role."""
    if role.is_quoted() and not word.quoted:
        raise Refused("wrong kind")
    if role is Role.NUMBER:
        return number_of(word)
    if role is Role.PATH:
        return path_of(word)
    if role in CHOICES:
        if word.quoted or word.text not in CHOICES[role]:
            raise Refused("bad name")
        return word.text.decode()
    return word.text if role.is_quoted() else name_of(word)


def roles_of(word, count):
    """The roles of the words after a statement's word, of which there are count; those of a format come later."""
    if word == "catn":
        right, roles = 3 <= count <= 17, [Role.NEW_CORD] + [Role.CORD] * (count - 1)
    elif word == "sprintf":
        right, roles = count >= 2, [Role.NEW_CORD, Role.FORMAT]
    else:
        roles = [LETTERS[letter] for letter in FORMS[word]]
        right = count == len(roles)
    if not right:
        raise Refused("wrong number of words")
    return roles


def statement_of(line, words):
    """The statement that the words say, whatever its names are."""
    first, others = words[0], words[1:]
    word = first.text.decode("latin-1")
    if first.quoted or word not in FORMS and word not in ("catn", "sprintf"):
        raise Refused("unknown statement")
    roles = roles_of(word, len(others))
    values = [value_of(role, other) for role, other in zip(roles, others)]
    if word != "sprintf":
        return Statement(line, word, roles, values)
    pieces = pieces_of(values[1])
    if pieces is None:
        raise Refused("bad format")
    wanted = [piece.wants() for piece in pieces if isinstance(piece, Conversion) and piece.wants()]
    if len(wanted) != len(others) - 2:
        raise Refused("wrong number of words")
    more = [Role.NUMBER if want == "number" else Role.CORD for want in wanted]
    values += [value_of(role, other) for role, other in zip(more, others[2:])]
    return Statement(line, word, roles + more, values, pieces)


def check_names(statement, before):
    """The used names from left to right, then the target and the path."""
    for role, value in zip(statement.roles, statement.values):
        if role.is_target() or role.kind() is None or not isinstance(value, str):
            continue
        if value not in before.kinds:
            raise Refused("unknown name")
        if before.kinds[value] != role.kind():
            raise Refused("wrong kind")
    target = statement.target()
    if target is not None:
        kind = statement.roles[0].kind()
        if before.kinds.get(target, kind) != kind:
            raise Refused("wrong kind")
        if target not in before.kinds and len(before.kinds) == MOST_NAMES:
            raise Refused("too many")
    if Role.PATH in statement.roles and statement.values[1] not in before.paths and len(before.paths) == MOST_PATHS:
        raise Refused("too many")


def check_blocks(statement, before):
    innermost = before.blocks[-1] if before.blocks else None
    if statement.word in ("repeat", "if") and len(before.blocks) == MOST_BLOCKS:
        raise Refused("loops too deep")
    if statement.word == "else" and (innermost is None or innermost.word != "if"):
        raise Refused("else without if")
    if statement.word == "end" and innermost is None:
        raise Refused("end without repeat")


def take(statement, before):
    """What stands after the line; an if that had its else stands among the blocks as the else."""
    if statement.target() is not None:
        before.kinds[statement.target()] = statement.roles[0].kind()
    if Role.PATH in statement.roles:
        before.paths.add(statement.values[1])
    if statement.word in ("else", "end"):
        opened = before.blocks.pop()
        if statement.word == "else":
            before.blocks.append(Statement(opened.line, "else", [], []))
    if statement.word in ("repeat", "if"):
        before.blocks.append(statement)


def read(script):
    """The statements of a script, or the line and the text of its refusal."""
    if len(script) > GREATEST_SCRIPT:
        return None, (0, "script too big")
    lines = script.split(b"\n")
    statements, before = [], Before()
    for number, line in enumerate(lines if lines[-1] else lines[:-1], 1):
        if number > MOST_LINES:
            return None, (number, "script too big")
        if line.strip(BLANKS) == b"" or line.lstrip(BLANKS).startswith(b"#"):
            continue
        try:
            statement = statement_of(number, words_of(line))
            check_names(statement, before)
            check_blocks(statement, before)
        except Refused as refused:
            return None, (number, str(refused))
        take(statement, before)
        statements.append(statement)
    if before.blocks:
        opened = before.blocks[-1]
        return None, (opened.line, "repeat without end" if opened.word == "repeat" else "if without end")
    return statements, None
