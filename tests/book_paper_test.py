"""docs/BOOK.md is read by people who have nothing else: its examples, its table
of marks and its worked example are held against the table that booktext uses
and against the model of READ."""

import os
import re
import sys
import unittest

HERE = os.path.dirname(os.path.abspath(__file__))
ROOT = os.path.dirname(HERE)
sys.path[:0] = [HERE, os.path.join(ROOT, "tools")]

from booklib import MARKS, encode
from read_model import read

LEAST_EXAMPLES = 50


def paper():
    with open(os.path.join(ROOT, "docs", "BOOK.md"), encoding="utf-8") as stream:
        return stream.read()


def answer(book):
    number, place, count = read(book)
    return f"refused {number} at {place}" if number else f"records {count}"


class Paper(unittest.TestCase):
    def test_every_example_gives_what_the_page_says(self):
        rows = re.findall(r"^\| (hex )?`([^`]*)` \| `((?:records|refused)[^`]*)` \|", paper(), re.M)
        self.assertGreaterEqual(len(rows), LEAST_EXAMPLES)
        for is_hex, text, said in rows:
            book = bytes.fromhex(text) if is_hex else encode(text, "docs/BOOK.md")
            self.assertEqual(answer(book), said, text)

    def test_the_marks_stand_in_order_and_are_all_there(self):
        rows = re.findall(r"^\| (\d+) \| `(..)` \|", paper(), re.M)
        self.assertEqual([(int(number), mark) for number, mark in rows], list(enumerate(MARKS, 1)))

    def test_each_mark_has_its_length(self):
        rows = re.findall(r"^\| \d+ \| `(..)` \|.*\| (\d+)(?: \+ (\d+)[nm])? \|$", paper(), re.M)
        self.assertEqual(len(rows), len(MARKS))
        for mark, fixed, each in rows:
            shape = MARKS[mark]
            self.assertEqual(int(fixed), 2 + 2 * (len(shape.head) + len(shape.tail)), mark)
            self.assertEqual(int(each or 0), 2 * len(shape.row), mark)

    def test_the_worked_example_is_the_listing(self):
        rows = re.findall(r"^\| (\d+) \| (\d+) \| `([0-9a-f ]+)` \| `([^`]+)` \|", paper(), re.M)
        at = 0
        for number, (said_number, said_at, said_bytes, text) in enumerate(rows):
            self.assertEqual((int(said_number), int(said_at)), (number, at))
            self.assertEqual(bytes.fromhex(said_bytes), encode(text, "docs/BOOK.md"), text)
            at += len(bytes.fromhex(said_bytes))
        self.assertEqual((len(rows), at), (9, 50))


if __name__ == "__main__":
    unittest.main()
