"""Tests of the package: what bytes do is asked of bytes.

    cd bindings/python && ZOMTSJE_LIBRARY=PREFIX/lib/libzomtsje.so python3 -m unittest tests/test_zomtsje.py
"""
import copy
import doctest
import io
import os
import pickle
import random
import subprocess
import sys
import tempfile
import unittest

import zomtsje
from zomtsje import Builder, Cord, Editor, Files, LineIndex

SHORT = b"abc ab\n\r\nb\0 \xffca\n"


def some_bytes(rng, most=40):
    return bytes(rng.choice(b"ab \n\r") for _ in range(rng.randrange(most)))


def joined(data):
    """A cord of several parts that has these bytes."""
    third = len(data) // 3
    return Cord(data[:third]) + data[third : 2 * third] + Cord(data[2 * third :])


class OfBytes(unittest.TestCase):
    """Each call beside the same of bytes, over random bytes and over long ones."""

    def setUp(self):
        self.rng = random.Random(72)

    def cases(self, count=300):
        for _ in range(count):
            data = some_bytes(self.rng)
            yield joined(data), data
        long = bytes(self.rng.choice(b"abc\n") for _ in range(200_000))
        yield joined(long), long

    def place(self, data):
        return self.rng.choice([None, 0, len(data), self.rng.randrange(-len(data) - 2, len(data) + 3)])

    def test_indices_and_slices(self):
        for x, data in self.cases():
            self.assertEqual(len(x), len(data))
            for _ in range(6):
                part = slice(self.place(data), self.place(data), self.rng.choice([None, 1, 2, 3, -1, -2, 7]))
                self.assertEqual(bytes(x[part]), data[part])
                place = self.rng.randrange(-len(data) - 1, len(data) + 1)
                if -len(data) <= place < len(data):
                    self.assertEqual(x[place], data[place])
                else:
                    self.assertRaises(IndexError, lambda: x[place])

    def test_searches(self):
        for x, data in self.cases():
            for _ in range(6):
                sub, start, end = some_bytes(self.rng, 4), self.place(data), self.place(data)
                for wanted in sub, (sub + b"a")[0]:
                    self.assertEqual(x.find(wanted, start, end), data.find(wanted, start, end), (data, wanted, start, end))
                    self.assertEqual(x.rfind(wanted, start, end), data.rfind(wanted, start, end), (data, wanted, start, end))
                    self.assertEqual(x.count(wanted, start, end), data.count(wanted, start, end), (data, wanted, start, end))
                    self.assertEqual(wanted in x, wanted in data)
                self.assertEqual(Cord(sub) in x, sub in data)

    def test_index(self):
        x, data = Cord(b"abcab"), b"abcab"
        self.assertEqual((x.index(b"ab", 1), x.rindex(b"ab"), x.index(99)), (data.index(b"ab", 1), data.rindex(b"ab"), data.index(99)))
        self.assertRaises(ValueError, lambda: x.index(b"z"))
        self.assertRaises(ValueError, lambda: x.rindex(b"z"))
        self.assertRaises(ValueError, lambda: x.find(256))

    def test_begins_and_ends(self):
        for x, data in self.cases():
            sub, start, end = some_bytes(self.rng, 4), self.rng.randrange(len(data) + 2), self.place(data)
            for wanted in sub, (sub, b"a"):
                self.assertEqual(x.startswith(wanted, start, end), data.startswith(wanted, start, end), (data, wanted, start, end))
                self.assertEqual(x.endswith(wanted, start, end), data.endswith(wanted, start, end), (data, wanted, start, end))

    def test_splits(self):
        for x, data in self.cases():
            most = self.rng.choice([-1, 0, 1, 2, 5])
            self.assertEqual([bytes(it) for it in x.split(b"a", most)], data.split(b"a", most))
            self.assertEqual([bytes(it) for it in x.split(Cord(b"ab"), most)], data.split(b"ab", most))
            self.assertEqual([bytes(it) for it in x.split(None, most)], data.split(None, most))
            for keepends in False, True:
                self.assertEqual([bytes(it) for it in x.splitlines(keepends)], data.splitlines(keepends))
        self.assertRaises(ValueError, lambda: Cord(b"a").split(b""))
        block = b"a" * 65535 + b"\r"
        self.assertEqual([bytes(it) for it in Cord(block + b"\nb").splitlines()], (block + b"\nb").splitlines())
        self.assertEqual([len(it) for it in Cord(b"a" * 65536 + b"b c").split()], [65537, 1])

    def test_splits_are_lazy(self):
        lines = Cord(b"one\n" + b"x" * 10_000_000).splitlines()
        self.assertEqual(bytes(next(lines)), b"one")
        self.assertEqual(bytes(next(Cord.repeat(97, 2**39).split(b"a"))), b"")

    def test_replacements(self):
        for x, data in self.cases(100):
            old, new, most = some_bytes(self.rng, 3), some_bytes(self.rng, 5), self.rng.choice([-1, 0, 1, 3])
            self.assertEqual(bytes(x.replace(old, new, most)), data.replace(old, new, most))

    def test_joins(self):
        for x, data in self.cases(100):
            other, times = some_bytes(self.rng), self.rng.randrange(-1, 6)
            self.assertEqual(bytes(x + other), data + other)
            self.assertEqual(bytes(other + x), other + data)
            self.assertEqual(bytes(x * times), data * times)
            self.assertEqual(bytes(times * x), times * data)
            self.assertEqual(bytes(Cord(other).join([x, data, x])), other.join([data, data, data]))
        self.assertEqual(len(Cord(b"ab") * 500_000_000), 1_000_000_000)
        self.assertRaises(OverflowError, lambda: Cord(b"ab") * 2**64)
        self.assertEqual(Cord() * 2**64, b"")
        self.assertEqual(Cord(b",").join([]), b"")

    def test_order(self):
        for x, data in self.cases(100):
            for y in some_bytes(self.rng, 4), data, data + b"!", data[:-1]:
                for other in y, Cord(y), bytearray(y):
                    answers = x == other, x != other, x < other, x <= other, x > other, x >= other
                    self.assertEqual(answers, (data == y, data != y, data < y, data <= y, data > y, data >= y))
            self.assertEqual(hash(x), hash(data))
        self.assertEqual({Cord(b"ab"): 1}[b"ab"], 1)
        self.assertNotEqual(Cord(b"a"), "a")
        self.assertRaises(TypeError, lambda: Cord(b"a") < "a")

    def test_iteration(self):
        for x, data in self.cases(50):
            self.assertEqual(bytes(iter(x)), data)
            self.assertEqual(bytes(reversed(x)), data[::-1])
            self.assertEqual(b"".join(x.chunks(3)), data[3:])


class Values(unittest.TestCase):
    def test_made_of(self):
        self.assertEqual([bytes(Cord(it)) for it in (b"a\0", bytearray(b"b"), memoryview(b"c"), [1, 2], Cord(b"d"))], [b"a\0", b"b", b"c", b"\1\2", b"d"])
        self.assertRaises(TypeError, lambda: Cord("text"))
        self.assertRaises(TypeError, lambda: Cord(5))
        self.assertEqual(bytes(Cord.repeat(120, 3)), b"xxx")
        self.assertRaises(ValueError, lambda: Cord.repeat(256, 1))

    def test_edits(self):
        x = Cord(b"one three")
        self.assertEqual([bytes(x.insert(4, b"two ")), bytes(x.remove(3, 9)), bytes(x.replace_range(0, 3, Cord(b"1")))], [b"one two three", b"one", b"1 three"])
        self.assertEqual([bytes(x.insert(9, b"!")), bytes(x), bytes(x.balanced())], [b"one three!", b"one three", b"one three"])
        for start, stop in (-1, 2), (3, 2), (0, 10):
            self.assertRaises(IndexError, x.replace_range, start, stop, b"")

    def test_copies(self):
        x = joined(SHORT)
        self.assertEqual([bytes(it) for it in (copy.copy(x), copy.deepcopy(x), pickle.loads(pickle.dumps(x)))], [SHORT] * 3)

    def test_shown(self):
        self.assertEqual(repr(Cord(b"ab")), "Cord(b'ab')")
        self.assertIn("1,000 bytes", repr(Cord.repeat(97, 1000)))
        self.assertEqual(Cord("zoë\n".encode() * 30_000).decode(), "zoë\n" * 30_000)
        self.assertRaises(UnicodeDecodeError, Cord(b"\xff").decode)
        self.assertLessEqual(Cord(b"x" * 100).depth, 60)

    def test_refusals(self):
        self.assertRaises(OverflowError, Cord.repeat, 0, 2**40)
        self.assertRaises(OverflowError, lambda: Cord.repeat(0, 2**40 - 1) + b"x")
        program = (
            "import resource, zomtsje\n"
            "data = bytes(300_000_000)\n"
            "used = int(open('/proc/self/statm').read().split()[0]) * 4096\n"
            "resource.setrlimit(resource.RLIMIT_AS, (used + 100_000_000,) * 2)\n"
            "try: zomtsje.Cord(data)\n"
            "except MemoryError: print('refused')\n"
        )
        env = {**os.environ, "PYTHONPATH": os.path.dirname(os.path.dirname(zomtsje.__file__))}
        ended = subprocess.run([sys.executable, "-c", program], env=env, capture_output=True, text=True, check=False)
        self.assertEqual(ended.stdout, "refused\n", ended.stderr)

    def test_documented(self):
        self.assertEqual(doctest.testmod(zomtsje).failed, 0)
        for item in (Cord, Builder, Editor, Files, LineIndex, zomtsje.LazyCord):
            bare = [name for name, it in vars(item).items() if callable(it) and not name.startswith("_") and not it.__doc__]
            self.assertEqual(bare, [])


class Builders(unittest.TestCase):
    def test_grows(self):
        made = Builder()
        made.append(b"one ")
        made += Cord(b"two ")
        made += 33
        self.assertEqual(made.write(b"x" * 5000), 5000)
        self.assertEqual((len(made), bytes(made.cord())), (5009, b"one two !" + b"x" * 5000))
        made.append(b"more")
        self.assertEqual(len(made.cord()), 5013)


class Editors(unittest.TestCase):
    def test_versions(self):
        editor = Editor(b"one three")
        editor.insert(4, b"two ")
        editor.delete(0, 4)
        self.assertEqual((editor.text, len(editor)), (b"two three", 9))
        self.assertTrue(editor.undo() and editor.undo())
        self.assertEqual((editor.text, editor.undo()), (b"one three", False))
        self.assertTrue(editor.redo())
        editor.replace(0, 3, b"1")
        self.assertEqual((editor.text, editor.redo()), (b"1 two three", False))
        self.assertRaises(IndexError, editor.insert, 99, b"x")
        self.assertTrue(editor.undo())
        self.assertEqual(editor.text, b"one two three")


class Lines(unittest.TestCase):
    def test_lines(self):
        text = "one\n\ntwó\nlast".encode()
        lines = LineIndex(text)
        self.assertEqual((len(lines), list(lines), lines[1:3]), (4, text.split(b"\n"), text.split(b"\n")[1:3]))
        self.assertEqual((lines[-1], lines.line_start(3), lines.line_of(9), lines.line_of(14)), (b"last", 10, 2, 3))
        self.assertEqual((lines.utf8_len(5, 10), lines.utf8_len(5, 99), lines.utf8_len(9, 5)), (4, 8, 0))
        for call in lines.line_start, lines.__getitem__, lambda it: lines.line_of(it + 11):
            self.assertRaises(IndexError, call, 4)
        self.assertRaises(IndexError, lines.replace, 14, 15, b"x")
        lines.replace(3, 5, b" and ")
        lines.replace(12, 17, Cord(b"\n"))
        self.assertEqual((lines.text, list(lines)), ("one and twó\n".encode(), ["one and twó".encode()]))
        self.assertEqual((len(LineIndex()), list(LineIndex())), (0, []))

    def test_along_edits(self):
        rng = random.Random(7)
        editor = Editor(b"a line of many\n" * 5000)
        for _ in range(200):
            if rng.randrange(4) == 0:
                editor.undo() if rng.randrange(2) else editor.redo()
            else:
                start = rng.randrange(len(editor) + 1)
                stop = min(start + rng.randrange(100), len(editor))
                editor.replace(start, stop, some_bytes(rng).replace(b"\r", "é".encode()))
            data, place = bytes(editor.text), rng.randrange(len(editor) + 1)
            wanted = data.removesuffix(b"\n").split(b"\n")
            number = data.count(b"\n", 0, place)
            self.assertEqual((len(editor.lines), editor.lines.line_of(place)), (len(wanted), number))
            if number < len(wanted):
                self.assertEqual((editor.lines[number], editor.lines.line_start(number)), (wanted[number], data.rfind(b"\n", 0, place) + 1))
            self.assertEqual(editor.lines.utf8_len(0, place), sum(1 for it in data[:place] if it & 0xC0 != 0x80))


class OverFiles(unittest.TestCase):
    def setUp(self):
        self.directory = tempfile.TemporaryDirectory()
        self.path = f"{self.directory.name}/text"
        self.data = b"." * 150_000 + b"here\n" + b"," * 100_000
        with open(self.path, "wb") as it:
            it.write(self.data)

    def tearDown(self):
        self.directory.cleanup()

    def test_whole_files(self):
        x = Cord.from_file(self.path)
        self.assertEqual(x, self.data)
        self.assertEqual(Cord.from_file(io.BytesIO(b"abc")), b"abc")
        with open(f"{self.directory.name}/copy", "w+b") as it:
            x.write_to(it)
            it.seek(0)
            self.assertEqual(it.read(), self.data)
        self.assertRaises(FileNotFoundError, Cord.from_file, "/tmp/zomtsje_none")

    def test_lazy(self):
        with Files() as files:
            x = Cord.lazy(self.path, files)
            self.assertEqual((len(x), x.find(b"here"), x.find(b"there"), x.rfind(46), x.rfind(33)), (250_005, 150_000, -1, 149_999, -1))
            y = x.replace_range(150_000, 150_004, b"there").insert(0, b"!").remove(1, 2)
            self.assertEqual(bytes(y), b"!" + self.data[1:].replace(b"here", b"there"))
            self.assertEqual((bytes(x), x.cord()), (self.data, self.data))
            self.assertEqual(bytes(x[149_998:150_004] + x[-2:] + Cord(b"?")), b"..here,,?")
            self.assertRaises(IndexError, x.insert, 999_999, b"")
            self.assertRaises(ValueError, lambda: x[::2])
            self.assertRaises(ValueError, lambda: x + Cord.lazy(self.path))
            out = io.BytesIO()
            y.write_to(out)
            self.assertEqual(out.getvalue(), bytes(y))
        self.assertRaises(OSError, bytes, x)

    def test_cannot_be_opened(self):
        with self.assertRaises(FileNotFoundError):
            Cord.lazy("/tmp/zomtsje_none")
        self.assertRaises(OSError, Cord.lazy, self.directory.name)


if __name__ == "__main__":
    unittest.main()
