"""Random scripts: most are read, and some are changed in places so that most of those are refused."""
from random import Random

from reading import FORMS

CORDS, NUMBERS, GROWN = "abcdtuz", "nmik", "ef"
FILES = {b"short": b"hello file\n", b"long": bytes(range(256)) * 9, b"empty": b"", 'odd"\\\u00e9'.encode(): b"odd"}
PATHS = [*FILES, b"short", b"long", b"none", b"directory", b"short/x"]
STATEMENTS = sorted([*FORMS, "catn", "sprintf"])
OFTEN = ["let", "cat", "substr", "put", "catc", "chars", "catn", "sprintf"]
WEIGHTS = [3, 6, 6, 7, 3, 2, 2, 1]
GREAT = [-(1 << 63), (1 << 63) - 1, 1 << 40, -1, 255, 256, 300]


class Scripts:
    """Scripts from a seed; the same seed gives the same scripts."""

    def __init__(self, seed):
        self.random = Random(seed)
        self.assigned = set()
        self.careless = False

    def chance(self, share):
        return self.random.random() < share

    def quoted(self, text):
        """The text as a quoted word, some bytes by escapes."""
        word = b""
        for byte in text:
            if byte in b'"\\' and self.chance(0.7):
                word += b"\\" + bytes([byte])
            elif byte in b"\n\t" and self.chance(0.7):
                word += {10: b"\\n", 9: b"\\t"}[byte]
            elif byte in b'"\\\n' or self.chance(0.05):
                word += f"\\x{byte:02{self.random.choice('xX')}}".encode()
            else:
                word += bytes([byte])
        return b'"' + word + b'"'

    def text(self):
        if self.chance(0.1):
            return bytes(self.random.choices(range(256), k=self.random.randint(1, 200)))
        return bytes(self.random.choices(b'abcab"\\\n\t %\x00\xff', k=self.random.randint(0, 8)))

    def name(self, among):
        """A name that is assigned, if there is one of these; now and then any other."""
        known = sorted(self.assigned & set(among))
        if known and not (self.careless and self.chance(0.03)):
            return self.random.choice(known).encode()
        return self.random.choice(CORDS + NUMBERS + GROWN if self.careless else among).encode()

    def number(self, most=12):
        known = self.assigned & set(NUMBERS)
        if known and self.chance(0.2):
            return self.name(NUMBERS)
        if self.chance(0.05):
            return str(self.random.choice(GREAT)).encode()
        return str(self.random.randint(0, most)).encode()

    def conversion(self):
        """A conversion, and the words that it takes."""
        letter = self.random.choice("diuoxXcsrdrs%")
        allowed = {"%": "", "c": "-", "s": "-", "r": "-", "d": "-0+", "i": "-0+"}.get(letter, "-0")
        flags = "".join(self.random.choices(allowed, k=self.random.randint(0, 2))) if allowed else ""
        width = str(self.random.choice([1, 5, 12])) if letter != "%" and self.chance(0.5) else ""
        precision = self.random.choice([".", ".0", ".3", ".00012"]) if letter not in "c%" and self.chance(0.4) else ""
        long = self.random.choice(["l", "ll"]) if letter in "diuoxX" and self.chance(0.2) else ""
        if self.careless and self.chance(0.1):
            width, flags = self.random.choice(["9999", "10000", "0"]), flags + self.random.choice("+-#")
        words = [] if letter == "%" else [self.name(CORDS) if letter in "sr" else self.number(120)]
        return f"%{flags}{width}{precision}{long}{letter}".encode(), words

    def printing(self):
        """The format and the arguments of a sprintf."""
        form, words = b"", []
        for _ in range(self.random.randint(0, 4)):
            piece, more = (b"ab ", []) if self.chance(0.3) else self.conversion()
            form += piece
            words += more
        return [self.quoted(form), *words]

    def word(self, letter):
        """A word for a letter of the table of forms."""
        if letter in "zne":
            return self.random.choice({"z": CORDS, "n": NUMBERS, "e": GROWN}[letter]).encode()
        if letter in "xE":
            return self.name(CORDS if letter == "x" else GROWN)
        if letter in "tp":
            return self.quoted(self.text() if letter == "t" else self.random.choice(PATHS))
        if letter in "fr":
            return self.random.choice([b"digits", b"bytes"] if letter == "f" else [b"lt", b"eq", b"gt"])
        return self.number(self.random.choice([1, 12, 120]))

    def words(self, statement):
        if statement == "catn":
            return [self.word(letter) for letter in "z" + "x" * self.random.choice([2, 3, 4, 16])]
        if statement == "sprintf":
            return [self.word("z"), *self.printing()]
        return [self.word(letter) for letter in FORMS[statement]]

    def line(self, statement=None):
        """A line that stands outside blocks' own lines."""
        while statement is None or statement in ("repeat", "if", "else", "end"):
            often = self.random.choices(OFTEN, WEIGHTS)[0]
            statement = often if self.chance(0.7) else self.random.choice(STATEMENTS)
        if statement in ("ectocord", "ecput", "eccat", "ecstr") and not self.assigned & set(GROWN):
            statement = "ecinit"
        words = [statement.encode(), *self.words(statement)]
        if statement in ("catn", "sprintf") or FORMS[statement][0] in "zne":
            self.assigned.add(words[1].decode())
        blank = self.random.choice([b" "] * 9 + [b"\t", b"  ", b" \r"])
        return blank.join(words)

    def lines(self, count, depth):
        """count lines, with blocks among them, and what closes these."""
        lines = []
        for _ in range(count):
            if depth < 5 and self.chance(0.07):
                begin = b"repeat " + self.number(4) if self.chance(0.5) else None
                lines.append(begin or b" ".join([b"if", *map(self.word, "iri")]))
                lines += self.lines(self.random.randint(0, 5), depth + 1)
                if begin is None and self.chance(0.5):
                    lines += [b"else", *self.lines(self.random.randint(0, 5), depth + 1)]
                lines.append(b"end")
            else:
                lines.append(self.random.choice([b"", b"  ", b'# "note']) if self.chance(0.02) else self.line())
        return lines

    def deep_rope(self):
        """A loop that joins more than a rope's depth may be, and a part of what it made."""
        rope, part = (name.encode() for name in self.random.sample(CORDS, 2))
        joins = [b"cat %b %b %b" % (rope, *pair) for pair in [(rope, part), (part, rope)]]
        joins.append(b"catc %b %b 10" % (rope, rope))
        lines = [b"let " + part + b" " + self.quoted(bytes(self.random.choices(b"ab ", k=self.random.randint(60, 90))))]
        lines += [b"let " + rope + b' ""', b"repeat %d" % self.random.randint(20, 150)]
        lines += [*self.random.choices(joins, k=self.random.randint(1, 3)), b"end"]
        lines.append(b"substr %b %b %d %d" % (part, rope, self.random.randint(0, 9000), self.random.randint(0, 9000)))
        self.assigned |= {rope.decode(), part.decode()}
        return [*lines, b"put " + self.random.choice([rope, part])]

    def moving_window(self):
        """A loop that lets a text grow at its end and keeps a range of it, now and then with a line of any kind."""
        seen, more = (name.encode() for name in self.random.sample(CORDS, 2))
        most = self.random.choice([20, 120, 40000])
        changes = [b"catc %b %b %d" % (seen, seen, self.random.randint(0, 255)), b"cat %b %b %b" % (seen, seen, more)]
        for first, last in [(3, 12), (most // 40, most), (0, most)]:
            start, count = self.random.randint(0, first), self.random.randint(last // 2, last)
            changes.append(b"substr %b %b %d %d" % (seen, seen, start, count))
        body = self.random.choices(changes, k=self.random.randint(1, 5))
        if self.chance(0.2):
            body.append(b"substr %b %b %b %b" % (seen, seen, self.number(3), self.number(120)))
        if self.chance(0.3):
            body.insert(self.random.randrange(len(body) + 1), self.line())
        lines = [b"let " + more + b" " + self.quoted(self.text()), b"chars %b 97 %d" % (seen, self.random.randint(0, most))]
        self.assigned |= {seen.decode(), more.decode()}
        return [*lines, b"repeat %d" % self.random.randint(1, 150), *body, b"end", b"put " + seen]

    def edits(self):
        """Edits of a text: what stands before a place, another text, and what is after a second place. Now and then
        these overlap, bytes are lost at the end, the other text is the name's own, or a name holds the old text."""
        seen, more, prefix, suffix, held = (name.encode() for name in self.random.sample(CORDS, 5))
        size = self.random.choice([6, 300, 20000])
        begun = [b"let %b %b" % (name, self.quoted(self.text())) for name in (more, prefix, held)]
        begun.append(b"fn %b bytes %d" % (seen, size))
        lines = []
        for _ in range(self.random.randint(1, 12)):
            place = self.random.choice([0, size, self.random.randint(0, size)])
            after = self.random.choice([place, place + self.random.randint(0, 9), self.random.randint(0, size)])
            most = self.random.choice([99999, size, self.random.randint(0, size)])
            if self.chance(0.2):
                lines.append(b"cat %b %b %b" % (held, seen, self.random.choice([seen, more, prefix])))
            count = self.number() if self.chance(0.1) else b"%d" % place
            lines.append(b"substr %b %b %d %b" % (prefix, seen, self.chance(0.05), count))
            lines.append(b"substr %b %b %d %d" % (suffix, seen, after, most))
            between = self.random.choices([b"", more, prefix, seen, more + b" " + more], [2, 6, 1, 1, 1])[0]
            joined = [b"catn", seen, prefix, between, suffix] if between else [b"cat", seen, prefix, suffix]
            lines.append(b" ".join(joined))
        self.assigned |= {name.decode() for name in (seen, more, prefix, suffix, held)}
        if self.chance(0.3):
            lines = [b"repeat %d" % self.random.randint(0, 30), *lines, b"end"]
        return [*begun, *lines, b"put " + seen, b"put " + held]

    def changed(self, script):
        """The script with a byte, a word or a line put elsewhere, changed or left out."""
        place, way = self.random.randrange(len(script)), self.random.choice(["byte", "more", "less", "lines", "words"])
        byte = bytes([self.random.choice([0, 10, 34, 255, 92, 32, 45, 48, 35, 37, 9, 95])])
        if way in ("byte", "more", "less"):
            return script[:place] + (b"" if way == "less" else byte) + script[place if way == "more" else place + 1 :]
        lines = script.split(b"\n")
        first, second = self.random.randrange(len(lines)), self.random.randrange(len(lines))
        if way == "lines":
            lines[first], lines[second] = lines[second], lines[first]
        else:
            words = lines[first].split(b" ")
            lines[first] = b" ".join(self.random.sample(words, len(words)))
        return b"\n".join(lines)

    def script(self):
        self.assigned, self.careless = set(), self.chance(0.3)
        lines = [self.line("let") for _ in range(self.random.randint(2, 6))]
        if self.chance(0.6):
            lines.append(self.line("set"))
        if self.chance(0.1):
            lines += self.deep_rope()
        if self.chance(0.1):
            lines += self.moving_window()
        if self.chance(0.2):
            lines += self.edits()
        script = b"\n".join(lines + self.lines(self.random.choice([3, 10, 20, 40]), 0) + [b""])
        for _ in range(self.random.randint(1, 3) if self.careless else 0):
            script = self.changed(script)
        return script
