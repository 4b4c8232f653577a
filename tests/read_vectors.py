"""Books with the answer that READ must give to each of them.

    python3 tests/read_vectors.py            checks the stored vectors
    python3 tests/read_vectors.py --write    writes them
    python3 tests/read_vectors.py --list     tells what each vector is

Two sorts of books.  The hand vectors stand on each side of every edge of
READ's refusals 1 to 9; what they must give is written here by hand from
document 01, "Refusals by number", and the model of tests/read_model.py must
agree.  The damaged ones are copies of examples/ whole, cut short, or with one
byte changed; there the model alone says what they must give.

The file crates/read_vectors/stdin holds for each vector: number (1 byte), place (2), count (2),
length of the book (3), the book; low byte first.
"""

import glob
import os
import random
import sys

from vectors import LISTING, ROOT, book, file_of, settle
from booklib import encode
from read_model import (
    CUT,
    DEPTH,
    LOOSE,
    MARK,
    NUMBER,
    RECORDS,
    REFERENCE,
    SIZE,
    TWICE,
    read,
)

EXAMPLES = os.path.join(ROOT, "examples")

LEAST_HAND_VECTORS = 120
MOST_STORED_BYTES = 1_000_000


def ok(count):
    return 0, 0, count


def no(number, place):
    return number, place, 0


def row(first, count):
    """Some record numbers in sequence, as fields."""
    return " ".join(map(str, range(first, first + count)))


# --- Sizes and numbers of records -------------------------------------------


def sizes():
    # 10 bytes for tu, pn and ew, 126 patterns of 516 bytes, one of 508.  The
    # whole is even, as every book of whole records is: at 65,535 bytes one
    # byte is always left.
    widest = "pt 256" + " 1" * 256
    largest = book("tu; pn", *[widest] * 126, "pt 252" + " 1" * 252, "ew 0 0")
    yield "empty", no(SIZE, 0), b""
    yield "one byte", no(CUT, 0), b"t"
    yield "65,534 bytes", ok(130), largest
    yield "65,535 bytes", no(CUT, 130), largest + b"t"
    yield "65,536 bytes", no(SIZE, 0), largest + b"tu"
    # Its length in 16 bits would be 50.
    yield "65,586 bytes", no(SIZE, 0), book(LISTING) + bytes(65536)


def record_counts():
    full = book("tu", *["pn"] * 4094, "ew 0 0")
    yield "4,096 records", ok(4096), full
    yield "4,097 records", no(RECORDS, 4096), full + b"pn"
    yield "4,097 records, the last unknown", no(RECORDS, 4096), full + b"zz"
    yield "4,096 records and one byte", no(RECORDS, 4096), full + b"p"
    yield "4,096 records, none an expression", no(LOOSE, 4095), b"pn" * 4096
    short = book("tu", *["pn"] * 4094)
    yield "4,095 records and one byte", no(CUT, 4095), short + b"e"
    yield "4,095 records, then an unknown mark", no(MARK, 4095), short + b"zz"


# --- Each mark's record, after a base that has something of each kind --------

# Free to be named are the expressions 3, 4, 5, 14 and the statements 9, 11;
# named already are the expressions 6, 8, 10, 12 and the statement 13.
BASE = """
    tu; vu 0; pn            # 0 a type, 1 a value, 2 a pattern
    ew 0 0; ew 0 1; ew 0 2  # 3, 4, 5
    ew 0 3; fn 0 0 6        # 7 a function
    ew 0 4; se 8            # 9
    ew 0 5; se 10           # 11
    ew 0 6; se 12           # 13
    eb 0 1 13 65535         # 14
"""
AT = 15  # the record that follows

BASE_POOLS = {"T": [0], "V": [1], "P": [2], "F": [7], "E": [3, 4, 5, 14], "S": [9, 11]}

# A letter stands for a reference to a record of its kind.
TEMPLATES = (
    "ts T T", "tp T T",
    "vu T", "vl T V", "vr T V", "vp T V V",
    "pi 7", "pn", "pt 2 P P",
    "ec T V", "ew T 7", "ev T 7",
    "et T 2 E E", "el T 4 2 E E", "e0 T E", "e1 T E", "en T 1 2 2 E E",
    "eb T 2 S S E", "sa P E", "se E",
    "em T E P E P E", "eh T E 2 P E P E",
    "cj T 7 0 2 E E", "cl T 7 E", "cr T 7 E", "cd T 7 E", "ca T 7 E",
    "cp T 7", "cn T E", "ck T E",
    "cf T F 2 E E", "cq T F 2 E E", "cy T F 1 E E", "cw T F 1 E E",
    "ch T 7 2 8 E 16 E", "fn T 2 7 T 8 T E",
)  # fmt: skip


def fill(template, number=None, pools=BASE_POOLS):
    """A template's record, and what of the pools it leaves free.

    Expressions and statements are taken in turn, each once; a ? is the number.
    """
    free = {letter: list(pools[letter]) for letter in "ES"}
    words = []
    for word in template.split():
        if word in free:
            word = free[word].pop(0)
        elif word in pools:
            word = pools[word][0]
        elif word == "?":
            word = number
        words.append(str(word))
    return words, free


def record_of(template, number=None):
    return " ".join(fill(template, number)[0])


def closed(template, number=None):
    """BASE, a template's record, and two records that name all that is free.

    The last is a block: the book ends two records after the template's.
    """
    words, free = fill(template, number)
    if words[0][0] in "ec":
        free["E"].append(AT)
    if words[0][0] == "s":
        free["S"].append(AT)
    others = ["et 0", len(free["E"]), *free["E"]]
    block = ["eb 0", len(free["S"]), *free["S"], AT + 1]
    return book(BASE, *(" ".join(map(str, line)) for line in (words, others, block)))


def each_mark():
    """Whole and all named; whole; cut by a byte; cut to the mark alone."""
    first_free = {0: 3, 1: 4, 2: 5, 3: 9}  # by how many expressions it names
    for template in TEMPLATES:
        record = record_of(template)
        bare = book(BASE, record)
        yield f"{record}, all named", ok(AT + 3), closed(template)
        loose = first_free[template.split().count("E")]
        yield f"{record}, some loose", no(LOOSE, loose), bare
        if len(record) > 2:
            yield f"{record}, one byte short", no(CUT, AT), bare[:-1]
            yield f"{record}, its mark only", no(CUT, AT), book(BASE, record[:2])


UNKNOWN_MARKS = (
    b"TU", b"Tu", b"tU", b"ut", b"t\0", b"\0t", b"\0\0", b"\xff\xff", b"tt",
    b"ti", b"vi", b"pu", b"e2", b"eg", b"sb", b"cx", b"nf", b"fu", b"bk", b"  ",
)  # fmt: skip


def unknown_marks():
    yield "one byte left, a mark's first", no(CUT, AT), book(BASE) + b"t"
    yield "one byte left, no mark's first", no(CUT, AT), book(BASE) + b"\0"
    for mark in UNKNOWN_MARKS:
        yield f"mark {mark}", no(MARK, 0), mark
        yield f"mark {mark} later", no(MARK, AT), book(BASE) + mark + bytes(8)


# --- Numbers ----------------------------------------------------------------

BOUNDS = (2, 4, 8, 16, 32, 64, 128, 256)
NO_BOUNDS = (0, 1, 3, 5, 6, 7, 12, 127, 129, 255, 257, 258, 512, 1024, 32768, 65535)
ANY = (0, 1, 255, 256, 65535)

# Template with ? for the number, those in range, those out of it.
RANGES = (
    ("el T ? 0", BOUNDS, NO_BOUNDS),
    ("en T 0 ? 0", (1, 2, 3, 255, 256), (0, 257, 512, 65535)),
    ("en T ? 1 0", (0,), (1, 2, 256, 65535)),
    ("en T ? 3 0", (0, 1, 2), (3, 4, 258)),
    ("en T ? 256 0", (0, 1, 255), (256, 257, 65535)),
    ("en T ? 257 0", (), (0, 255, 256)),
    ("cj T 7 ? 1 E", (0, 1, 2), (3, 4, 10, 11, 256, 257, 65535)),
    ("cq T F ? E E", BOUNDS, NO_BOUNDS),
    ("cy T F ? E E", (1, 2, 3, 5, 128, 255, 256), (0, 257, 512, 513, 65535)),
    (
        "cw T F ? E E",
        (1, 2, 4, 8, 16),
        (0, 3, 5, 6, 7, 9, 12, 15, 17, 32, 64, 256, 257, 65535),
    ),
    (
        "ch T 7 1 ? E",
        (8, 16, 32, 64, 128, 256),
        (0, 1, 2, 4, 7, 9, 15, 24, 48, 127, 129, 255, 257, 264, 512, 65535),
    ),
    ("ch T 7 2 8 E ? E", (8, 256), (0, 1, 512)),
    ("pi ?", ANY, ()),
    ("ew T ?", ANY, ()),
    ("ev T ?", ANY, ()),
    ("cj T ? 0 0", ANY, ()),
    ("cl T ? E", ANY, ()),
    ("cr T ? E", ANY, ()),
    ("cd T ? E", ANY, ()),
    ("ca T ? E", ANY, ()),
    ("cp T ?", ANY, ()),
    ("ch T ? 0", ANY, ()),
    ("fn T 1 ? T E", ANY, ()),
    ("fn T 2 7 T ? T E", (0, 7, 65535), ()),
)


def ranges():
    for template, good, bad in RANGES:
        for number in good:
            yield f"{template}, {number}", ok(AT + 3), closed(template, number)
        for number in bad:
            record = record_of(template, number)
            yield f"{template}, {number}", no(NUMBER, AT), book(BASE, record)


def expressions(count):
    return "ew 0 0;" * count


def pairs(first, numbers):
    """`first` before each number, as fields."""
    return " ".join(f"{first} {number}" for number in numbers)


def statements(count):
    """That many statements, which are the records 2, 4, 6 and so on."""
    return "".join(f"ew 0 0; se {1 + 2 * k};" for k in range(count))


# For each counted mark the text of a book that ends with a record of count n,
# all else named.
COUNTED = {
    "pt": lambda n: f"tu; pn; pt {n}" + " 1" * n,
    "et": lambda n: f"tu; {expressions(n)} et 0 {n} {row(1, n)}",
    "el": lambda n: f"tu; {expressions(n)} el 0 256 {n} {row(1, n)}",
    "en": lambda n: f"tu; {expressions(n)} en 0 0 1 {n} {row(1, n)}",
    "eb": lambda n: f"tu; {statements(n)} eb 0 {n} "
    + " ".join(str(2 + 2 * k) for k in range(n))
    + " 65535",
    "eh": lambda n: f"tu; pn; {expressions(n + 1)} eh 0 2 {n} "
    + pairs(1, range(3, 3 + n)),
    "cj": lambda n: f"tu; {expressions(n)} cj 0 7 0 {n} {row(1, n)}",
    "cf": lambda n: f"tu; ew 0 0; fn 0 0 1; {expressions(n)} cf 0 2 {n} {row(3, n)}",
    "ch": lambda n: f"tu; {expressions(n)} ch 0 7 {n} {pairs(8, range(1, 1 + n))}",
    "fn": lambda n: f"tu; ew 0 0; fn 0 {n} {pairs(7, [0] * n)} 1",
}
NO_EXPRESSION = ("pt", "fn")  # an expression must follow these

COUNT_EDGES = (
    ("pt", 0, ok(4)), ("pt", 1, ok(4)), ("pt", 256, ok(4)), ("pt", 257, no(NUMBER, 2)),
    ("et", 0, ok(2)), ("et", 256, ok(258)), ("et", 257, no(NUMBER, 258)),
    ("el", 0, ok(2)), ("el", 255, ok(257)), ("el", 256, no(NUMBER, 257)),
    ("el", 257, no(NUMBER, 258)),
    ("en", 0, ok(2)), ("en", 256, ok(258)), ("en", 257, no(NUMBER, 258)),
    ("eb", 0, ok(2)), ("eb", 256, ok(514)), ("eb", 257, no(NUMBER, 515)),
    ("eh", 0, no(NUMBER, 3)), ("eh", 1, ok(5)), ("eh", 256, ok(260)),
    ("eh", 257, no(NUMBER, 260)),
    ("cj", 0, ok(2)), ("cj", 256, ok(258)), ("cj", 257, no(NUMBER, 258)),
    ("cf", 0, ok(4)), ("cf", 256, ok(260)), ("cf", 257, no(NUMBER, 260)),
    ("ch", 0, ok(2)), ("ch", 256, ok(258)), ("ch", 257, no(NUMBER, 258)),
    ("fn", 0, ok(4)), ("fn", 1, ok(4)), ("fn", 256, ok(4)), ("fn", 257, no(NUMBER, 2)),
)  # fmt: skip

# Records whose count, the ?, is more than their fields.
SHORT = (
    "pt ? P P", "et T ? E E", "el T 4 ? E E", "en T 0 1 ? E E", "eb T ? S 65535",
    "eh T E ? P E", "cj T 7 0 ? E", "cf T F ? E", "ch T 7 ? 8 E", "fn T ? 7 T E",
)  # fmt: skip


def counts():
    for mark, n, answer in COUNT_EDGES:
        whole = book(COUNTED[mark](n))
        after = book("ew 0 0") if mark in NO_EXPRESSION else b""
        yield f"{mark} of {n}", answer, whole + after
        if n == 257:
            yield f"{mark} of {n}, a byte short", no(CUT, answer[1]), whole[:-1]
    # In 16 bits the lengths of the greater counts would be small again.
    for template in SHORT:
        for n in (3, 256, 257, 16383, 16384, 32767, 32768, 65535):
            record = record_of(template, n)
            yield f"{record}, too few fields", no(CUT, AT), book(BASE, record)
    yield "more fields than the count", no(MARK, AT + 1), book(BASE, "et 0 1 3 4")
    for bound in BOUNDS:
        for n, answer in ((bound - 1, ok(bound + 1)), (bound, no(NUMBER, bound + 1))):
            text = f"tu; {expressions(n)} el 0 {bound} {n} {row(1, n)}"
            yield f"el of bound {bound} with {n}", answer, book(text)


# --- References, and what is named twice --------------------------------------


def references():
    """Each reference of each mark, to what it must not name."""
    for template in TEMPLATES:
        words = template.split()
        for position, letter in enumerate(words):
            if letter not in BASE_POOLS:
                continue
            others = [pool[0] for kind, pool in BASE_POOLS.items() if kind != letter]
            # Itself, a later one, one whose low byte is a type's, the most.
            for number in [*others, AT, AT + 1, 256, 65535]:
                if number == 65535 and words[0] == "eb" and position == len(words) - 1:
                    continue
                yield changed(template, position, number, no(REFERENCE, AT))


def changed(template, position, number, answer):
    """A vector: BASE and a template's record with one field changed."""
    words = fill(template)[0]
    words[position] = str(number)
    record = " ".join(words)
    return f"{record}, field {position - 1} wrong", answer, book(BASE, record)


def named_before():
    """Each expression and statement that a mark names, named before."""
    before = {"E": (6, 8, 10, 12), "S": (13,)}
    for template in TEMPLATES:
        for position, letter in enumerate(template.split()):
            for number in before.get(letter, ()):
                yield changed(template, position, number, no(TWICE, AT))


TWICE_IN_ONE = (
    "et 0 2 3 3", "el 0 4 2 3 3", "en 0 0 1 2 3 3", "eb 0 2 9 9 65535",
    "eb 0 3 9 11 9 65535", "em 0 3 2 3 2 4", "em 0 3 2 4 2 3", "em 0 3 2 4 2 4",
    "eh 0 3 1 2 3", "eh 0 3 2 2 4 2 4", "cj 0 7 1 2 3 3", "cf 0 7 2 3 3",
    "cq 0 7 2 3 3", "cy 0 7 1 3 3", "cw 0 7 1 3 3", "ch 0 7 2 8 3 8 3",
)  # fmt: skip


def named_twice():
    for record in TWICE_IN_ONE:
        yield f"{record}, twice in one", no(TWICE, AT), book(BASE, record)


# --- The order of judgement within a record -----------------------------------

MANY = " 99" * 257

# After BASE: records with two faults or more, and the one that is told.
FAULTS = (
    # The record's end before anything in it.
    ("ts 99", CUT), ("vp 99 99", CUT), ("em 99 99 99 99 99", CUT), ("et 99", CUT),
    ("et 99 2 99", CUT), ("et 0 2 8", CUT), ("et 0 257 8 8", CUT), ("eb 99 0", CUT),
    ("eb 0 1 13", CUT), ("fn 99 0", CUT), ("fn 0 257 7 99", CUT), ("cq 0 7 3 3", CUT),
    ("cj 0 7 3 1", CUT), ("ch 0 7 1 7", CUT), ("el 0 3 1", CUT), ("en 0 2 2 1", CUT),
    ("en 0 2 2", CUT), ("eh 0 8 1 2", CUT), ("eh 99", CUT), ("cf 0", CUT),
    # Then field by field, from the left.
    ("cq 0 7 3 99 4", NUMBER), ("cq 99 7 3 3 4", REFERENCE),
    ("cq 0 99 3 3 4", REFERENCE), ("cq 0 7 3 8 4", NUMBER), ("cq 0 7 2 8 99", TWICE),
    ("cq 0 7 2 99 8", REFERENCE), ("cy 0 3 0 3 4", REFERENCE),
    ("cy 0 7 0 99 4", NUMBER), ("cy 0 7 0 8 4", NUMBER), ("cw 0 2 3 3 4", REFERENCE),
    ("cw 0 7 3 99 4", NUMBER), ("cw 99 7 3 8 4", REFERENCE),
    ("cj 99 7 3 0", REFERENCE), ("cj 0 7 3 1 99", NUMBER), ("cj 0 7 3 1 8", NUMBER),
    ("cj 0 7 3 257" + MANY, NUMBER), ("en 99 2 2 0", REFERENCE),
    ("en 0 2 2 1 99", NUMBER), ("en 0 2 2 1 8", NUMBER), ("el 99 3 0", REFERENCE),
    ("el 0 3 1 99", NUMBER), ("el 0 2 2 99 8", NUMBER), ("eh 0 99 0", REFERENCE),
    ("eh 0 8 0", TWICE), ("eh 99 8 0", REFERENCE), ("eh 0 3 1 99 8", REFERENCE),
    ("eh 0 3 2 2 8 99 4", TWICE), ("eh 0 3 2 99 8 2 4", REFERENCE),
    ("eh 0 99 257" + MANY * 2, REFERENCE), ("eh 0 8 257" + MANY * 2, TWICE),
    ("eh 0 3 257" + MANY * 2, NUMBER), ("ch 0 7 2 8 99 7 4", REFERENCE),
    ("ch 0 7 2 7 99 8 4", NUMBER), ("ch 0 7 2 8 8 7 4", TWICE),
    ("ch 0 7 2 7 8 8 4", NUMBER), ("ch 99 7 257" + MANY * 2, REFERENCE),
    ("et 99 257" + MANY, REFERENCE), ("et 0 257" + MANY, NUMBER),
    ("et 0 2 8 99", TWICE), ("et 0 2 99 8", REFERENCE), ("et 99 2 8 8", REFERENCE),
    ("em 0 8 99 4 2 5", TWICE), ("em 0 3 99 8 2 5", REFERENCE),
    ("eb 0 2 13 99 65535", TWICE), ("eb 0 2 99 13 65535", REFERENCE),
    ("eb 0 1 13 99", TWICE), ("eb 0 1 99 8", REFERENCE), ("eb 0 1 9 8", TWICE),
    ("eb 99 257" + MANY + " 65535", REFERENCE), ("eb 0 257" + MANY + " 65535", NUMBER),
    ("sa 99 8", REFERENCE), ("sa 2 8", TWICE), ("fn 99 0 8", REFERENCE),
    ("fn 0 1 7 99 8", REFERENCE), ("fn 0 1 7 0 8", TWICE),
    ("fn 0 257" + MANY * 2 + " 8", NUMBER), ("fn 99 257" + MANY * 2 + " 8", REFERENCE),
    ("cf 0 99 257" + MANY, REFERENCE), ("cf 0 7 257" + MANY, NUMBER),
    ("pt 257" + MANY, NUMBER), ("vp 0 0 99", REFERENCE),
)  # fmt: skip


def fault_order():
    for record, number in FAULTS:
        yield f"{record[:20]}, two faults", no(number, AT), book(BASE, record)
    yield "unknown mark before its fields", no(MARK, AT), book(BASE) + b"zz\xff\xff"


# --- Whole books --------------------------------------------------------------

WHOLE = (
    (LISTING, ok(9)),
    ("tu; ew 0 0", ok(2)),
    # References to no earlier record, at the book's start.
    ("ts 0 0", no(REFERENCE, 0)),
    ("ts 1 1; tu", no(REFERENCE, 0)),
    ("vu 0", no(REFERENCE, 0)),
    ("ew 0 0; tu", no(REFERENCE, 0)),
    ("pt 1 0", no(REFERENCE, 0)),
    ("tu; e0 0 1", no(REFERENCE, 1)),
    ("tu; e0 0 2; ew 0 0", no(REFERENCE, 1)),
    # A block's end.
    ("tu; eb 0 0 65535", ok(2)),
    ("tu; ew 0 0; eb 0 0 1", ok(3)),
    ("tu; ew 0 0; se 1; eb 0 1 2 65535", ok(4)),
    ("tu; ew 0 0; se 1; ew 0 0; eb 0 1 2 3", ok(5)),
    ("tu; eb 0 0 65534", no(REFERENCE, 1)),
    ("tu; eb 0 0 1", no(REFERENCE, 1)),
    ("tu; eb 0 0 0", no(REFERENCE, 1)),
    ("tu; ew 0 0; se 1; eb 0 0 2", no(REFERENCE, 3)),
    # Named twice, by two records.
    ("tu; ew 0 0; e0 0 1; e1 0 1", no(TWICE, 3)),
    ("tu; ew 0 0; eb 0 0 1; eb 0 0 1", no(TWICE, 3)),
    ("tu; ew 0 0; se 1; eb 0 1 2 1", no(TWICE, 3)),
    ("tu; pn; ew 0 0; sa 1 2; eb 0 1 3 2", no(TWICE, 4)),
    ("tu; ew 0 0; se 1; se 1", no(TWICE, 3)),
    ("tu; pn; ew 0 0; sa 1 2; se 2", no(TWICE, 4)),
    ("tu; ew 0 0; fn 0 0 1; fn 0 0 1", no(TWICE, 3)),
    ("tu; ew 0 0; fn 0 0 1; eb 0 0 1", no(TWICE, 3)),
    ("tu; ew 0 0; se 1; eb 0 1 2 65535; eb 0 1 2 65535", no(TWICE, 4)),
    # Named often, as types, values, patterns and functions may be.
    ("tu; vu 0; ts 0 0; vl 2 1; vr 2 1; ec 0 1; ec 0 1; et 0 2 5 6", ok(8)),
    ("tu; pn; pt 3 1 1 1; ew 0 0; ew 0 0; ew 0 0; em 0 3 2 4 2 5", ok(7)),
    ("tu; ew 0 0; fn 0 0 1; cf 0 2 0; cf 0 2 0; et 0 2 3 4", ok(6)),
    # Only types must not be alike.
    ("tu; vu 0; vu 0; ew 0 7; ew 0 7; et 0 2 3 4", ok(6)),
    ("pn; pn; pi 7; pi 7; tu; ew 4 0", ok(6)),
    ("tu; tu", no(TWICE, 1)),
    ("tu; ts 0 0; ts 0 0", no(TWICE, 2)),
    ("tu; tp 0 0; tp 0 0", no(TWICE, 2)),
    ("tu; ts 0 0; tu; ew 0 0", no(TWICE, 2)),
    ("tu; ts 0 0; tp 0 0; ew 0 0", ok(4)),
    ("tu; ts 0 0; ts 0 1; ts 1 0; tp 0 1; tp 1 0; ew 0 0", ok(7)),
    ("tu; ts 0 0; ts 0 1; ts 1 0; ts 0 1", no(TWICE, 4)),
    ("tu; ts 0 0; ts 0 1; ts 1 0; ts 1 0", no(TWICE, 4)),
    ("tu; tp 0 0; tp 0 1; tp 1 0; tp 0 1", no(TWICE, 4)),
    ("tu; pn; tp 0 0; vu 0; tp 0 0; ew 0 0", no(TWICE, 4)),
    ("tu; ts 0 0; ts 0 9", no(REFERENCE, 2)),
    ("tu; ts 0 0; ew 0 0; ts 0 0", no(TWICE, 3)),
    # Nothing is left: the last record is no expression.
    ("tu", no(LOOSE, 0)),
    ("pn", no(LOOSE, 0)),
    ("tu; ts 0 0", no(LOOSE, 1)),
    ("tu; vu 0", no(LOOSE, 1)),
    ("tu; pi 7", no(LOOSE, 1)),
    ("tu; ew 0 0; se 1", no(LOOSE, 2)),
    ("tu; pn; ew 0 0; sa 1 2", no(LOOSE, 3)),
    ("tu; ew 0 0; fn 0 0 1", no(LOOSE, 2)),
    # Something before the last is left, and comes before the last.
    ("tu; ew 0 0; tp 0 0", no(LOOSE, 1)),
    ("tu; ew 0 0; vu 0", no(LOOSE, 1)),
    ("tu; ew 0 0; pn", no(LOOSE, 1)),
    ("tu; ew 0 0; ew 0 0", no(LOOSE, 1)),
    ("tu; ew 0 0; ew 0 0; se 2", no(LOOSE, 1)),
    ("tu; ew 0 0; se 1; ew 0 0", no(LOOSE, 2)),
    ("tu; pn; ew 0 0; sa 1 2; ew 0 0", no(LOOSE, 3)),
    ("tu; ew 0 0; se 1; ew 0 0; ew 0 0", no(LOOSE, 2)),
    ("tu; ew 0 0; ew 0 0; se 2; ew 0 0", no(LOOSE, 1)),
    ("tu; ew 0 0; ew 0 0; ew 0 0; e0 0 1", no(LOOSE, 2)),
    ("tu; ew 0 0; fn 0 0 1; ew 0 0", ok(4)),
)


def whole_books():
    for text, answer in WHOLE:
        yield text, answer, book(text)


def sums(count):
    """That many sums pairwise unlike, to follow tu.

    Pairs by their greater operand: those below m + 1 are (m + 1) squared, so
    every operand is earlier and all stay shallow.
    """
    pool = sorted(
        ((a, b) for a in range(64) for b in range(64)), key=lambda pair: (max(pair), pair)
    )
    return [f"ts {a} {b}" for a, b in pool[:count]]


def many_types():
    yield "4,095 types", ok(4096), book("tu", *sums(4094), "ew 0 0")
    alike = book("tu", *sums(999), "ts 0 0", "ew 0 0")
    yield "1,000 types, then one alike the second", no(TWICE, 1000), alike
    # ts 0 1 is among the first; these differ from it in high bytes only.
    wide = ["tu", *sums(300), "ts 0 257", "ts 256 1", "ts 256 257"]
    yield "types alike in low bytes", ok(305), book(*wide, "ew 0 0")
    yield "types alike in all bytes", no(TWICE, 304), book(*wide, "ts 256 1", "ew 0 0")


# --- Depth --------------------------------------------------------------------


def chain(start, steps, first, last):
    """`start`, then the records first to last, each naming the one before.

    Several steps are taken in turn.
    """
    links = [
        steps[(number - first) % len(steps)].format(number - 1)
        for number in range(first, last + 1)
    ]
    return "\n".join([start, *links])


# Types to a depth of 100, values to 200, a constant 201 deep: record 200.
MIXED = "\n".join(
    [
        chain("tu", ["ts {} 0"], 1, 99),
        chain("vu 99", ["vl 0 {}"], 101, 199),
        "ec 0 199",
    ]
)

# What a chain begins with, its steps, the number of its first step and of the
# record that is 255 deep, and the answer where that is the deepest.
CHAINS = (
    ("tu", ["ts {} 0"], 1, 254, "ew 0 0", ok(256)),
    ("tu", ["tp 0 {}"], 1, 254, "ew 0 0", ok(256)),
    ("tu", ["tp {0} {0}"], 1, 254, "ew 0 0", ok(256)),
    ("tu; vu 0", ["vl 0 {}"], 2, 254, "ew 0 0", ok(256)),
    ("tu; vu 0", ["vp 0 1 {}"], 2, 254, "ew 0 0", ok(256)),
    ("tu; vu 0", ["vp 0 {0} {0}"], 2, 254, "ew 0 0", ok(256)),
    ("tu; pn", ["pt 1 {}"], 2, 255, "ew 0 0", ok(257)),
    ("tu; pn", ["pt 2 {0} {0}"], 2, 255, "ew 0 0", ok(257)),
    ("tu; pi 7", ["pt 3 1 {} 1"], 2, 255, "ew 0 0", ok(257)),
    ("tu; ew 0 0", ["e0 0 {}"], 2, 254, "", ok(255)),
    ("tu; ew 0 0", ["et 0 1 {}"], 2, 254, "", ok(255)),
    ("tu; ew 0 0", ["eb 0 0 {}"], 2, 254, "", ok(255)),
    ("tu; ew 0 0", ["ck 0 {}", "cd 0 7 {}", "ch 0 7 1 8 {}"], 2, 254, "", ok(255)),
    ("tu; ew 0 0", ["se {}", "eb 0 1 {} 65535"], 2, 254, "", no(LOOSE, 254)),
    ("tu; ew 0 0", ["fn 0 0 {}", "cf 0 {} 0"], 2, 254, "ew 0 0", ok(256)),
    (MIXED, ["e1 0 {}"], 201, 254, "", ok(255)),
    (MIXED, ["se {}", "eb 0 1 {} 65535"], 201, 254, "", ok(255)),
)


def depths():
    for start, steps, first, deepest, after, answer in CHAINS:
        what = f"{'; '.join(steps)} from {first}"
        text = chain(start, steps, first, deepest)
        yield f"{what}, 255 deep", answer, book(text, after)
        text = chain(start, steps, first, deepest + 1)
        yield f"{what}, 256 deep", no(DEPTH, deepest + 1), book(text, "ew 0 0")


# Record 254 is a type 255 deep, 255 such a value, 256 an expression, 258 a
# function, 260 a statement; then shallow ones, each free to be named.
DEEP = "\n".join(
    [
        chain("tu", ["ts {} 0"], 1, 254),
        "vu 253; ew 253 0; ew 0 0; fn 253 0 257; ew 252 0; se 259",
        "vu 0; pn; ew 0 0; ew 0 0; ew 0 0",  # 261 to 265
        "ew 0 0; fn 0 0 266; ew 0 0; se 268; ew 0 0; se 270",  # to 271
    ]
)
DEEP_AT = 272
DEEP_POOLS = {
    "T": [0], "V": [261], "P": [262], "F": [267], "E": [263, 264, 265], "S": [269, 271],
}  # fmt: skip
DEEPEST = {"T": 254, "V": 255, "E": 256, "F": 258, "S": 260}

# Record 255 is a pattern 255 deep; three expressions follow.
DEEP_PATTERN = chain("tu; pn", ["pt 1 {}"], 2, 255) + "\n" + expressions(3)
DEEP_PATTERN_AT = 259
DEEP_PATTERN_POOLS = {"T": [0], "P": [1], "E": [256, 257, 258], "S": []}

# After DEEP: too deep as well, but another fault comes first.
BEFORE_DEPTH = (
    ("e0 254 257", TWICE),  # 257 is a function's body already
    ("e0 254 99", REFERENCE),
    ("cq 254 267 3 263 264", NUMBER),
    ("et 254 257", CUT),
    ("ts 253 0", TWICE),  # alike 254, and no deeper than it
    ("ts 254 0", DEPTH),
    ("ts 0 254", DEPTH),
)


def depths_by_field():
    """Each reference of each mark, to a record that is 255 deep."""
    for template in TEMPLATES:
        for position, letter in enumerate(template.split()):
            if letter == "P":
                words = fill(template, pools=DEEP_PATTERN_POOLS)[0]
                start, at, deepest = DEEP_PATTERN, DEEP_PATTERN_AT, 255
            elif letter in DEEPEST:
                words = fill(template, pools=DEEP_POOLS)[0]
                start, at, deepest = DEEP, DEEP_AT, DEEPEST[letter]
            else:
                continue
            words[position] = str(deepest)
            record = " ".join(words)
            yield f"{record}, too deep", no(DEPTH, at), book(start, record)
    for record, number in BEFORE_DEPTH:
        yield f"{record}, too deep", no(number, DEEP_AT), book(DEEP, record)


HAND = (
    sizes,
    record_counts,
    each_mark,
    unknown_marks,
    ranges,
    counts,
    references,
    named_before,
    named_twice,
    fault_order,
    whole_books,
    many_types,
    depths,
    depths_by_field,
)


def hand_vectors():
    return [vector for family in HAND for vector in family()]


# --- Damaged copies of the examples -------------------------------------------

CHANGED_BYTES = 13_000  # for each example, to keep the file small
MOST_CHANGES = 300


def damaged_vectors():
    """The examples whole, cut and changed; the model answers.

    A copy that another gave already is left out: examples begin alike.
    """
    vectors = {}
    for path in sorted(glob.glob(os.path.join(EXAMPLES, "*.txt"))):
        name = os.path.basename(path)
        with open(path, encoding="utf-8") as stream:
            whole = encode(stream.read(), name)
        for what, copy in [("whole", whole), *cuts(whole), *changes(whole, name)]:
            vectors.setdefault(copy, (f"{name}, {what}", read(copy), copy))
    return list(vectors.values())


def cuts(whole):
    """Every length up to 60, a few further on, and all near the end."""
    lengths = {*range(61), *range(61, len(whole), 37), *range(len(whole) - 9, len(whole))}
    for length in sorted(lengths & set(range(len(whole)))):
        yield f"{length} bytes", whole[:length]


def changes(whole, name):
    """Copies with one byte changed, seeded by the example's name."""
    chance = random.Random(name)

    def below(limit):
        # Of random's methods only random() is promised never to change.
        return int(chance.random() * limit)

    for _ in range(min(MOST_CHANGES, CHANGED_BYTES // len(whole))):
        at = below(len(whole))
        old = whole[at]
        # Near numbers meet more edges than any numbers do.
        new = (old + 1, old - 1, old ^ 1 << below(8), below(256))[below(4)] % 256
        yield f"byte {at} is {new}", whole[:at] + bytes([new]) + whole[at + 1 :]


# --- The file -----------------------------------------------------------------


def complaints(hand, data):
    """What is wrong with the vectors themselves."""
    for what, answer, entry in hand:
        if read(entry) != answer:
            yield f"{what}: the model gives {read(entry)}, expected {answer}"
    if len(hand) < LEAST_HAND_VECTORS:
        yield f"only {len(hand)} hand vectors"
    missing = set(range(10)) - {answer[0] for _, answer, _ in hand}
    if missing:
        yield f"no hand vector gives {sorted(missing)}"
    if len(data) > MOST_STORED_BYTES:
        yield f"{len(data)} bytes are too many to store"


def main():
    hand, damaged = hand_vectors(), damaged_vectors()
    vectors = hand + damaged
    data = file_of(vectors)
    listed = [(what, answer) for what, answer, _ in vectors]
    said = f"read vectors: {len(hand)} by hand, {len(damaged)} damaged"
    return settle("read_vectors", listed, data, complaints(hand, data), said)


if __name__ == "__main__":
    sys.exit(main())
