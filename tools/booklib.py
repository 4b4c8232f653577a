"""The marks of a book as data, the bytes of records, and books as text.

Document 01, "The book": a record is a two-byte mark, then 16-bit fields, low
byte first.  The marks' table stands here once; tools/booktext, whose opening
says how the text is written, and the tests read it.  Nothing here judges a
book as READ does: tests/read_model.py models that.
"""

import re
from typing import NamedTuple

FIELD_LIMIT = 65535
NO_END = 65535  # eb's last field where the block has no end expression

LABEL = re.compile(r"[A-Za-z_][A-Za-z0-9_]*\Z")
NUMBER = re.compile(r"[0-9]+\Z")


class Shape(NamedTuple):
    """What a mark's record is, and what its fields stand for.

    A mark with a `row` is counted: its head's last field says how often the
    row's fields stand in the record, between head and tail.
    """

    kind: str
    head: tuple = ()
    row: tuple = ()
    tail: tuple = ()


def _shape(kind, head="", row="", tail=""):
    return Shape(kind, tuple(head.split()), tuple(row.split()), tuple(tail.split()))


# Fields named type, value, pattern, expression, statement or function are
# numbers of records of that kind; `end` is an expression or NO_END; `name`
# and `symbol` are any number; the others have ranges of their own.
MARKS = {
    "tu": _shape("type"),
    "ts": _shape("type", "type type"),
    "tp": _shape("type", "type type"),
    "vu": _shape("value", "type"),
    "vl": _shape("value", "type value"),
    "vr": _shape("value", "type value"),
    "vp": _shape("value", "type value value"),
    "pi": _shape("pattern", "name"),
    "pn": _shape("pattern"),
    "pt": _shape("pattern", "count", row="pattern"),
    "ec": _shape("expression", "type value"),
    "ew": _shape("expression", "type name"),
    "ev": _shape("expression", "type name"),
    "et": _shape("expression", "type count", row="expression"),
    "el": _shape("expression", "type bound elements", row="expression"),
    "e0": _shape("expression", "type expression"),
    "e1": _shape("expression", "type expression"),
    "en": _shape("expression", "type index variants count", row="expression"),
    "eb": _shape("expression", "type count", row="statement", tail="end"),
    "sa": _shape("statement", "pattern expression"),
    "se": _shape("statement", "expression"),
    "em": _shape("expression", "type expression pattern expression pattern expression"),
    "eh": _shape("expression", "type expression arms", row="pattern expression"),
    "cj": _shape("expression", "type symbol jet count", row="expression"),
    "cl": _shape("expression", "type symbol expression"),
    "cr": _shape("expression", "type symbol expression"),
    "cd": _shape("expression", "type symbol expression"),
    "ca": _shape("expression", "type symbol expression"),
    "cp": _shape("expression", "type symbol"),
    "cn": _shape("expression", "type expression"),
    "ck": _shape("expression", "type expression"),
    "cf": _shape("expression", "type function count", row="expression"),
    "cq": _shape("expression", "type function bound expression expression"),
    "cy": _shape("expression", "type function size expression expression"),
    "cw": _shape("expression", "type function width expression expression"),
    "ch": _shape("expression", "type symbol count", row="hash_width expression"),
    "fn": _shape("function", "type count", row="name type", tail="expression"),
}


def fields_due(shape, fields):
    """How many fields a record must have, judged by what `fields` starts with.

    None where the count field itself is missing.
    """
    if not shape.row:
        return len(shape.head)
    if len(fields) < len(shape.head):
        return None
    count = fields[len(shape.head) - 1]
    return len(shape.head) + count * len(shape.row) + len(shape.tail)


def pack(mark, fields):
    """The bytes of one record."""
    return mark.encode("ascii") + b"".join(field.to_bytes(2, "little") for field in fields)


def numbers(data):
    """The whole 16-bit numbers in some bytes; an odd last byte is none."""
    return [
        int.from_bytes(data[at : at + 2], "little")
        for at in range(0, len(data) - 1, 2)
    ]


class TextError(Exception):
    """What is wrong with a record's text; the caller knows its line."""


class BookError(Exception):
    """What is wrong with a book's bytes."""


def field_of(word, labels):
    """The number that a field's word stands for."""
    if word.startswith("@"):
        if word[1:] not in labels:
            raise TextError(f"unknown label {word}")
        number = labels[word[1:]]
    elif NUMBER.match(word):
        # Cut before int(), which refuses thousands of digits with a fault of
        # its own; six significant digits are over the limit already.
        number = int(word.lstrip("0")[:6] or "0")
    else:
        raise TextError(f"no number: {word}")
    if number > FIELD_LIMIT:
        raise TextError(f"over {FIELD_LIMIT}: {word}")
    return number


def label_of(text, labels):
    """Takes a label off the front of a record's text: (label or None, rest)."""
    label, colon, rest = text.partition(":")
    if not colon:
        return None, text
    label = label.strip()
    if not LABEL.match(label):
        raise TextError(f"bad label: {label}")
    if label in labels:
        raise TextError(f"label {label} twice")
    return label, rest


def record_of(text, labels, raw):
    """The bytes of the record that `text`, without its label, stands for."""
    if not text.split():
        raise TextError("label without a record")
    mark, *words = text.split()
    if mark not in MARKS:
        raise TextError(f"unknown mark {mark}")
    fields = [field_of(word, labels) for word in words]
    due = fields_due(MARKS[mark], fields)
    if not raw and due is None:
        raise TextError(f"{mark} lacks its count: {len(fields)} fields")
    if not raw and due != len(fields):
        raise TextError(f"{mark} takes {due} fields here, not {len(fields)}")
    return pack(mark, fields)


def encode(text, name, raw=False):
    """The book that a text stands for; TextError with FILE:LINE if none."""
    return encode_labelled(text, name, raw)[0]


def encode_labelled(text, name, raw=False):
    """The same, with the number of each labelled record."""
    book = bytearray()
    labels = {}
    number = 0
    for line_number, line in enumerate(text.split("\n"), 1):
        for part in line.partition("#")[0].split(";"):
            if not part.strip():
                continue
            try:
                label, rest = label_of(part, labels)
                book += record_of(rest, labels, raw)
            except TextError as error:
                raise TextError(f"{name}:{line_number}: {error}") from None
            # Only now, so that a record can't name itself.
            if label is not None:
                labels[label] = number
            number += 1
    return bytes(book), labels


def witness_list(words, labels):
    """The list in which entry k is the record that word k stands for."""
    entries = (field_of(word, labels) for word in words)
    return b"".join(entry.to_bytes(2, "little") for entry in entries)


def decode(book, name):
    """Yields a book's records as lines; BookError where it is damaged."""
    at = number = 0
    while at < len(book):
        where = f"{name}: record {number} at byte {at}"
        mark = book[at : at + 2].decode("latin-1")
        if len(mark) < 2:
            raise BookError(f"{where}: one byte left")
        if mark not in MARKS:
            raise BookError(f"{where}: unknown mark {mark!r}")
        shape = MARKS[mark]
        start = at + 2
        head = numbers(book[start : start + 2 * len(shape.head)])
        due = fields_due(shape, head)
        fields = head if due is None else numbers(book[start : start + 2 * due])
        yield f"{' '.join([mark, *map(str, fields)])}    # {number}"
        if len(fields) != due:
            raise BookError(f"{where}: record runs past the end")
        at = start + 2 * due
        number += 1
