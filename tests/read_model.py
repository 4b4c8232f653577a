"""A model of READ, written from document 01 alone, to judge the real one by.

read(book) gives (number, place, count): a refusal's number and place with
count 0, or 0, 0 and the number of records.  The marks' table is the one of
tools/booklib.py; every rule of "Refusals by number" stands here, in that
section's order of judgement.
"""

import os
import sys

sys.path.insert(
    0, os.path.join(os.path.dirname(os.path.abspath(__file__)), "..", "tools")
)

from booklib import MARKS, NO_END, fields_due, numbers

SIZE, RECORDS, CUT, MARK, NUMBER, REFERENCE, TWICE, DEPTH, LOOSE = range(1, 10)

MOST_BYTES = 65535
MOST_RECORDS = 4096
MOST_DEPTH = 255

KINDS = {"type", "value", "pattern", "expression", "statement", "function"}
NAMED_ONCE = {"expression", "statement"}

# Document 01, "Numbers".  What an index and a list's elements must be below
# stands in their own record, see in_range.
RANGES = {
    "count": range(0, 257),
    "elements": range(0, 257),
    "arms": range(1, 257),
    "variants": range(1, 257),
    "index": range(0, 256),
    "bound": (2, 4, 8, 16, 32, 64, 128, 256),
    "size": range(1, 257),
    "width": (1, 2, 4, 8, 16),
    "hash_width": (8, 16, 32, 64, 128, 256),
    "jet": range(0, 3),
    "name": range(0, 65536),
    "symbol": range(0, 65536),
}

# A number must also be below another field of its head.
BELOW = {"index": "variants", "elements": "bound"}


class Refused(Exception):
    """A refusal's number and place."""


class Reader:
    """What READ knows of the records before the one it is at."""

    def __init__(self):
        self.kinds = []
        self.depths = []
        self.named = set()  # expressions and statements that a record names
        self.types = set()  # each type as its mark and fields

    def take(self, mark, fields):
        """Judges one whole record and adds it to the known ones."""
        shape = MARKS[mark]
        depth = 1
        for role, field in zip(roles(shape, fields), fields):
            kind = kind_named(role, field)
            if kind:
                self.name(kind, field)
                depth = max(depth, self.depths[field] + 1)
            elif role != "end" and not in_range(role, field, shape, fields):
                self.refuse(NUMBER)
        if shape.kind == "type":
            self.add_type((mark, *fields))
        if depth > MOST_DEPTH:
            self.refuse(DEPTH)
        self.kinds.append(shape.kind)
        self.depths.append(depth)

    def name(self, kind, number):
        """Judges a reference, and that it is the only one where it must be."""
        if number >= len(self.kinds) or self.kinds[number] != kind:
            self.refuse(REFERENCE)
        if kind in NAMED_ONCE:
            if number in self.named:
                self.refuse(TWICE)
            self.named.add(number)

    def add_type(self, written):
        if written in self.types:
            self.refuse(TWICE)
        self.types.add(written)

    def finish(self):
        """Judges what only the end of the book shows."""
        last = len(self.kinds) - 1
        for number, kind in enumerate(self.kinds[:last]):
            if kind in NAMED_ONCE and number not in self.named:
                raise Refused(LOOSE, number)
        if self.kinds[last] != "expression":
            raise Refused(LOOSE, last)

    def refuse(self, number):
        """Refuses the record that is being judged."""
        raise Refused(number, len(self.kinds))


def roles(shape, fields):
    """The roles of all fields of a whole record."""
    rows = 0
    if shape.row:
        rows = fields[len(shape.head) - 1]
    return shape.head + shape.row * rows + shape.tail


def kind_named(role, field):
    """The kind of record that a field must name, or None if it names none."""
    if role == "end":
        return None if field == NO_END else "expression"
    return role if role in KINDS else None


def in_range(role, field, shape, fields):
    """Whether a number is in its range, also by the head it stands in."""
    if field not in RANGES[role]:
        return False
    if role not in BELOW:
        return True
    return field < fields[shape.head.index(BELOW[role])]


def record_at(book, at, number):
    """The mark and fields of record `number` at byte `at`: CUT, MARK, CUT.

    The length is judged by the count as written, in its range or not.
    """
    if len(book) - at < 2:
        raise Refused(CUT, number)
    mark = book[at : at + 2].decode("latin-1")
    if mark not in MARKS:
        raise Refused(MARK, number)
    start = at + 2
    head = numbers(book[start : start + 2 * len(MARKS[mark].head)])
    due = fields_due(MARKS[mark], head)
    if due is None or start + 2 * due > len(book):
        raise Refused(CUT, number)
    return mark, numbers(book[start : start + 2 * due])


def count_records(book):
    """The number of records of a book that READ accepts; else Refused."""
    if not 1 <= len(book) <= MOST_BYTES:
        raise Refused(SIZE, 0)
    reader = Reader()
    at = count = 0
    while at < len(book):
        if count == MOST_RECORDS:
            raise Refused(RECORDS, MOST_RECORDS)
        mark, fields = record_at(book, at, count)
        reader.take(mark, fields)
        at += 2 + 2 * len(fields)
        count += 1
    reader.finish()
    return count


def read(book):
    """READ's answer: number, place, count."""
    try:
        return 0, 0, count_records(book)
    except Refused as refused:
        number, place = refused.args
        return number, place, 0
