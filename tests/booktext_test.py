"""Tests of tools/booktext: text to book and back, errors, labels, examples."""

import glob
import os
import random
import subprocess
import sys
import unittest

HERE = os.path.dirname(os.path.abspath(__file__))
ROOT = os.path.dirname(HERE)
sys.path[:0] = [HERE, os.path.join(ROOT, "tools")]

from booklib import MARKS, NO_END, BookError, TextError, decode, encode, pack
from read_model import RANGES, read

BOOKTEXT = os.path.join(ROOT, "tools", "booktext")

# Document 01, "One listing whole": nine records, 50 bytes.
LISTING_BYTES = bytes.fromhex(
    "7475"
    "7473 0000 0000"
    "7675 0000"
    "7672 0100 0200"
    "7069 0700"
    "6563 0100 0300"
    "7361 0400 0500"
    "6576 0100 0700"
    "6562 0100 0100 0600 0700"
)


def example_paths():
    return sorted(glob.glob(os.path.join(ROOT, "examples", "*.txt")))


def text_of(path):
    with open(path, encoding="utf-8") as stream:
        return stream.read()


def back(book):
    """A book as text again."""
    return "\n".join(decode(book, "book"))


def booktext(*arguments, data=b""):
    """Runs the program: (exit code, standard output, standard error)."""
    done = subprocess.run(
        [sys.executable, BOOKTEXT, *arguments], input=data, capture_output=True
    )
    return done.returncode, done.stdout, done.stderr.decode()


class RandomBook:
    """Grows a book that READ accepts, record by record."""

    def __init__(self, seed):
        self.chance = random.Random(seed)
        self.numbers = {shape.kind: [] for shape in MARKS.values()}
        self.free = {"expression": [], "statement": []}
        self.seen = set()
        self.book = b""
        self.count = 0

    def add(self, mark, fields):
        kind = MARKS[mark].kind
        self.book += pack(mark, fields)
        self.numbers[kind].append(self.count)
        if kind in self.free:
            self.free[kind].append(self.count)
        self.count += 1

    def grow(self):
        """Adds a record of a random mark, if the book has what it needs."""
        mark = self.chance.choice(sorted(MARKS))
        shape = MARKS[mark]
        spare = {kind: list(numbers) for kind, numbers in self.free.items()}
        rows = self.chance.randrange(1, 4) if shape.row else 0
        roles = shape.head + shape.row * rows + shape.tail
        fields = [self.field(role, rows, spare) for role in roles]
        alike = shape.kind == "type" and (mark, *fields) in self.seen
        if None in fields or alike:
            return
        self.seen.add((mark, *fields))
        self.free = spare
        self.add(mark, fields)

    def field(self, role, rows, spare):
        """A field for that role; None if there is nothing to name."""
        if role == "end" and not spare["expression"]:
            return NO_END
        role = "expression" if role == "end" else role
        if role in spare:
            return spare[role].pop() if spare[role] else None
        if role in self.numbers:
            return self.chance.choice(self.numbers[role] or [None])
        if role in ("count", "elements", "arms"):
            return rows
        if role == "bound":
            return self.chance.choice([4, 256])
        if role == "index":
            return 0
        return self.chance.choice(RANGES[role])

    def finish(self):
        """Names what is still free, in a block at the end."""
        free = self.free["expression"]
        self.add("et", [self.numbers["type"][0], len(free), *free])
        free = self.free["statement"]
        block = [self.numbers["type"][0], len(free), *free, self.count - 1]
        self.add("eb", block)
        return self.book


def random_book(seed):
    grower = RandomBook(seed)
    grower.add("tu", [])
    grower.seen.add(("tu",))
    for _ in range(200):
        grower.grow()
    return grower.finish()


class RoundTrips(unittest.TestCase):
    def test_examples(self):
        for path in example_paths():
            with self.subTest(path):
                book = encode(text_of(path), path)
                self.assertEqual(encode(back(book), "again"), book)

    def test_random_books(self):
        marks = set()
        for seed in range(60):
            with self.subTest(seed):
                book = random_book(seed)
                text = back(book)
                self.assertEqual(encode(text, "again"), book)
                self.assertEqual(read(book), (0, 0, len(text.splitlines())))
                marks |= {line[:2] for line in text.splitlines()}
        self.assertEqual(marks, set(MARKS))

    def test_program(self):
        for path in example_paths():
            with self.subTest(path):
                code, book, error = booktext("encode", path)
                self.assertEqual((code, error), (0, ""))
                code, text, error = booktext("decode", data=book)
                self.assertEqual((code, error), (0, ""))
                self.assertEqual(booktext("encode", data=text), (0, book, ""))

    def test_numbered_lines(self):
        self.assertEqual(back(LISTING_BYTES).split("\n")[1], "ts 0 0    # 1")

    def test_layout(self):
        text = "\n # nothing\n tu ;; ts 0 0;# end\r\n\t\n\n"
        self.assertEqual(encode(text, "x"), b"tuts\0\0\0\0")
        self.assertEqual(encode("", "x"), b"")
        self.assertEqual(encode("ew 65535 00001", "x"), b"ew\xff\xff\1\0")


class Labels(unittest.TestCase):
    def test_labels_are_numbers(self):
        text = "u: tu\nbit: ts @u @u; vu @u\none : vr @bit 2 # @nothing"
        self.assertEqual(encode(text, "x"), encode("tu; ts 0 0; vu 0; vr 1 2", "x"))

    def test_label_anywhere_a_number_stands(self):
        self.assertEqual(encode("tu; b: tu; ew 0 @b", "x"), b"tutuew\0\0\1\0")


class Errors(unittest.TestCase):
    CASES = (
        ("tu\nts 0", 2, "ts takes 2 fields here, not 1"),
        ("tu\n\nts 0 0 0", 3, "ts takes 2 fields here, not 3"),
        ("tu; tu 0", 1, "tu takes 0 fields here, not 1"),
        ("et 0", 1, "et lacks its count: 1 fields"),
        ("et 0 2 1", 1, "et takes 4 fields here, not 3"),
        ("et 0 1 1 1", 1, "et takes 3 fields here, not 4"),
        ("eb 0 1 1", 1, "eb takes 4 fields here, not 3"),
        ("eh 0 1 2 0 0", 1, "eh takes 7 fields here, not 5"),
        ("fn 0 300 1", 1, "fn takes 603 fields here, not 3"),
        ("tu\nts 0 65536", 2, "over 65535: 65536"),
        ("ts 0 " + "9" * 5000, 1, "over 65535: " + "9" * 5000),
        ("# one\nts 0 x", 2, "no number: x"),
        ("ts 0 -1", 1, "no number: -1"),
        ("ts 0 0x1", 1, "no number: 0x1"),
        ("ts 0 \u0663", 1, "no number: \u0663"),
        ("tu\nTU", 2, "unknown mark TU"),
        ("tux", 1, "unknown mark tux"),
        ("7 0 0", 1, "unknown mark 7"),
        ("tu\nts 0 @a", 2, "unknown label @a"),
        ("a: ts @a 0", 1, "unknown label @a"),
        ("ts 0 @", 1, "unknown label @"),
        ("ts @a 0\na: tu", 1, "unknown label @a"),
        ("a: tu\na: tu", 2, "label a twice"),
        ("a:\ntu", 1, "label without a record"),
        ("tu\n1a: tu", 2, "bad label: 1a"),
        ("a b: tu", 1, "bad label: a b"),
    )

    def test_text(self):
        for text, line, what in self.CASES:
            with self.subTest(text[:40]):
                with self.assertRaises(TextError) as caught:
                    encode(text, "some.txt")
                self.assertEqual(str(caught.exception), f"some.txt:{line}: {what}")

    def test_program_tells_file_and_line(self):
        told = booktext("encode", data=b"tu\n\nts 0")
        self.assertEqual(told, (1, b"", "<stdin>:3: ts takes 2 fields here, not 1\n"))

    def test_no_file(self):
        code, out, error = booktext("encode", "no such file")
        self.assertEqual((code, out), (1, b""))
        self.assertTrue(error.startswith("no such file: "), error)

    def test_raw_leaves_counts(self):
        code, book, error = booktext("encode", "--raw", data=b"tu 1; et 0; et 0 9 1")
        self.assertEqual((code, error), (0, ""))
        self.assertEqual(book, b"tu\1\0et\0\0et\0\0\x09\0\1\0")

    def test_raw_judges_the_rest(self):
        for text in ("ts 0 70000", "ts x", "zz", "ts @a"):
            with self.assertRaises(TextError):
                encode(text, "x", raw=True)


class WitnessLists(unittest.TestCase):
    TEXT = b"u: tu; one: vu @u; two: vu @u; et @u 0"

    def listed(self, *words, data=TEXT):
        return booktext("witnesses", *words, data=data)

    def test_entries(self):
        told = self.listed("-", "@two", "@one", "258")
        self.assertEqual(told, (0, b"\2\0\1\0\2\1", ""))
        self.assertEqual(self.listed("-"), (0, b"", ""))

    def test_behind_the_book(self):
        book = encode(self.TEXT.decode(), "x")
        code, out, error = self.listed("--book", "-", "@two")
        self.assertEqual((code, error), (0, ""))
        self.assertEqual(out, bytes([len(book), 0]) + book + b"\2\0")

    def test_no_entry(self):
        told = self.listed("-", "@three")
        self.assertEqual(told, (1, b"", "unknown label @three\n"))

    def test_a_book_too_long(self):
        long = b"tu;" * 32768
        self.assertEqual(self.listed("-", data=long), (0, b"", ""))
        told = self.listed("--book", "-", data=long)
        self.assertEqual(told, (1, b"", "<stdin>: no book is 65536 bytes long\n"))


class DamagedBooks(unittest.TestCase):
    def decoded(self, book):
        """The lines that come before the fault, and the fault."""
        lines = []
        with self.assertRaises(BookError) as caught:
            for line in decode(book, "book"):
                lines.append(line)
        return lines, str(caught.exception)

    def test_cut(self):
        lines, error = self.decoded(LISTING_BYTES[:-1])
        self.assertEqual((len(lines), lines[8]), (9, "eb 1 1 6    # 8"))
        self.assertEqual(error, "book: record 8 at byte 40: record runs past the end")

    def test_cut_in_head(self):
        lines, error = self.decoded(b"tuet\0\0\1")
        self.assertEqual(lines, ["tu    # 0", "et 0    # 1"])
        self.assertEqual(error, "book: record 1 at byte 2: record runs past the end")

    def test_one_byte_left(self):
        lines, error = self.decoded(b"tut")
        self.assertEqual(lines, ["tu    # 0"])
        self.assertEqual(error, "book: record 1 at byte 2: one byte left")

    def test_unknown_mark(self):
        lines, error = self.decoded(b"tu\0\xff")
        self.assertEqual(lines, ["tu    # 0"])
        self.assertEqual(error, r"book: record 1 at byte 2: unknown mark '\x00ÿ'")

    def test_every_cut_of_the_listing(self):
        ends = {0, 2, 8, 12, 18, 22, 28, 34, 40, 50}
        for length in range(51):
            with self.subTest(length):
                if length in ends:
                    list(decode(LISTING_BYTES[:length], "book"))
                else:
                    self.decoded(LISTING_BYTES[:length])

    def test_program(self):
        code, text, error = booktext("decode", data=LISTING_BYTES[:45])
        self.assertEqual((code, len(text.splitlines())), (1, 9))
        self.assertEqual(
            error, "<stdin>: record 8 at byte 40: record runs past the end\n"
        )


class Examples(unittest.TestCase):
    def test_listing(self):
        path = os.path.join(ROOT, "examples", "listing.txt")
        book = encode(text_of(path), path)
        self.assertEqual(len(book), 50)
        self.assertEqual(book, LISTING_BYTES)

    def test_read_accepts_all(self):
        self.assertGreaterEqual(len(example_paths()), 6)
        for path in example_paths():
            with self.subTest(path):
                book = encode(text_of(path), path)
                self.assertEqual(read(book), (0, 0, len(back(book).splitlines())))

    def test_every_record_has_a_comment(self):
        for path in example_paths():
            for number, line in enumerate(text_of(path).splitlines(), 1):
                record, _, comment = line.partition("#")
                if record.strip():
                    self.assertTrue(comment.strip(), f"{path}:{number}")


if __name__ == "__main__":
    unittest.main()
