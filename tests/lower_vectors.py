"""Books with the answer that LOWER must give to each of them.

    python3 tests/lower_vectors.py            checks the stored vectors
    python3 tests/lower_vectors.py --write    writes them
    python3 tests/lower_vectors.py --list     tells what each vector is

Two sorts.  The edges are written here by hand from document 01: its listing
and the rooms about it, each fold and loop at its least and greatest size with
the count by document 01's formula, the 257th binding, a name that is not in
scope.  Each of them is tried in exactly the room it needs and in one node
less.  The others are the original's answers, with every node, as
compare/answers has them.

LOWER looks at no type, so the edges are not well typed: all is unit.

The file crates/lower_vectors/stdin holds for each vector: symbols (1 byte), number (1), place (2), count (2), length
of the table (3), of the book (3) and of the nodes (3), the book, the nodes; low byte first.
"""

import os
import sys
from typing import NamedTuple

from vectors import LISTING, LISTING_NODES, ROOT, book, packed, settle, stored, table_of

ANSWERS = os.path.join(ROOT, "compare", "answers")

UNDEFINED, ROOM, BINDINGS = 10, 11, 12

# What the program has room for: MOST in crates/lower_vectors/src/main.rt.
MOST = 8192


class Vector(NamedTuple):
    what: str
    symbols: int
    answer: tuple  # number, place, count
    table: int
    book: bytes
    nodes: bytes = b""  # empty where only their count is known


def accepted(what, data, count, last, symbols=0):
    """A book of so many nodes, in its own room, in some bytes more, and in one node less.

    `last` is the record that its last node belongs to.
    """
    for table in (5 * count, 5 * count + 4):
        yield Vector(f"{what}, {table} bytes", symbols, (0, 0, count), table, data)
    for table in (5 * count - 1, 5 * count - 5):
        yield Vector(f"{what}, {table} bytes", symbols, (ROOM, last, 0), table, data)


# --- Document 01, "One listing whole" -----------------------------------------


def listing():
    data, nodes = book(LISTING), table_of(LISTING_NODES)
    for table in (30, 31, 34, 35, 8000):
        yield Vector(f"the listing, {table} bytes", 0, (0, 0, 6), table, data, nodes)
    # A node's record: the constant, the assignment and its comp, the variable.
    for room, place in enumerate((5, 6, 6, 7, 7, 6)):
        for odd in (0, 4):
            table = 5 * room + odd
            yield Vector(f"the listing, {table} bytes", 0, (ROOM, place, 0), table, data)


# --- Folds and loops: document 01, "Stored order" ------------------------------


def list_fold_nodes(bound):
    k = bound.bit_length() - 1
    return 3 + 37 * (k - 1)


def array_fold_nodes(size):
    top, ones = size.bit_length() - 1, bin(size).count("1")
    return 12 * (top + ones - 1)


def for_while_nodes(width):
    return 26 * width + 17 * (width - 1)


# A function of two or three parameters gives its first: a selector of two
# nodes, with an injr for the loop's.  Then the two arguments, a node each.
FOLD = "tu; ev 0 7; fn 0 2 7 0 8 0 1; ew 0 0; ew 0 1; {} 0 2 {} 3 4"
LOOP = "tu; ev 0 7; e1 0 1; fn 0 3 7 0 8 0 9 0 2; ew 0 0; ew 0 1; cw 0 3 {} 4 5"
AROUND = 4  # the two arguments and their pair, and the comp of it all


def folds():
    for bound in (2, 4, 8, 16, 32, 64, 128, 256):
        count = AROUND + 2 + list_fold_nodes(bound)
        yield from accepted(f"list fold of {bound}", book(FOLD.format("cq", bound)), count, 5)
    for size in (1, 2, 3, 4, 7, 8, 127, 128, 129, 254, 255, 256):
        count = AROUND + 2 + array_fold_nodes(size)
        yield from accepted(f"array fold of {size}", book(FOLD.format("cy", size)), count, 5)
    for width in (1, 2, 4, 8, 16):
        count = AROUND + 3 + for_while_nodes(width)
        for symbols in (0, 1):
            yield from accepted(f"loop of {width}", book(LOOP.format(width)), count, 6, symbols)


# --- Symbols: document 01, "Stored order" ---------------------------------------

# Debug of a witness: the witness, iden and comp; with a symbol that is asked
# for also bit false, pair, drop and assertl.
DEBUG = "tu; ew 0 0; cd 0 {} 1"


def symbols():
    for symbol, asked, count in ((0, 0, 3), (0, 1, 3), (5, 0, 3), (5, 1, 8), (5, 255, 8), (65535, 1, 8)):
        yield from accepted(f"debug {symbol}", book(DEBUG.format(symbol)), count, 2, asked)


# --- Refusals 10 and 12, and READ's ---------------------------------------------


def bindings(count):
    """A block that binds an empty tuple so often: records 2 and 3 on, then the block."""
    lines = ["tu; pn"] + [f"et 0 0; sa 1 {2 + 2 * k}" for k in range(count)]
    row = " ".join(str(3 + 2 * k) for k in range(count))
    return book(*lines, f"eb 0 {count} {row} 65535")


def limits():
    # Each statement stores its tuple, iden and pair before the next, its comp
    # at the end; the unit of the block's end comes between.
    yield from accepted("255 bindings", bindings(255), 4 * 255 + 1, 3)
    full = 3 * 255 + 1  # with the tuple of the 256th
    for table, answer in ((5 * full, (BINDINGS, 2 + 2 * 255 + 1, 0)), (5 * full - 1, (ROOM, 2 + 2 * 255, 0))):
        yield Vector(f"256 bindings, {table} bytes", 0, answer, table, bindings(256))
    unknown = book("tu; ew 0 0; pi 7; sa 2 1; ev 0 8; eb 0 1 3 4")
    for table, answer in ((15, (UNDEFINED, 4, 0)), (14, (ROOM, 3, 0)), (0, (ROOM, 1, 0))):
        yield Vector(f"a name that is not bound, {table} bytes", 0, answer, table, unknown)
    for table in (0, 4, 1000):
        yield Vector(f"an empty book, {table} bytes", 1, (1, 0, 0), table, b"")
        yield Vector(f"a loose expression, {table} bytes", 0, (9, 1, 0), table, book("tu; ew 0 0; ew 0 0"))


# --- The original's answers -------------------------------------------------------


def answers():
    """The stored answers, in their own room, in a few bytes more and in more room, in turn."""
    data, at = stored(ANSWERS), 0

    def take(width):
        nonlocal at
        at += width
        return data[at - width : at]

    def number(width):
        return int.from_bytes(take(width), "little")

    while at < len(data):
        asked, answer = number(1), (number(1), number(2), number(2))
        entry = take(number(3))
        nodes = take(5 * answer[2])
        # Nodes may be stored before a name is found not to be in scope.
        table = len(nodes) + (0, 4, 1000)[at % 3] if answer[0] == 0 else 8000
        yield Vector("an answer of the original's", asked, answer, table, entry, nodes)


# --- The file -----------------------------------------------------------------------


def file_of(vectors):
    out = bytearray()
    for each in vectors:
        number, place, count = each.answer
        lengths = [(len(part), 3) for part in (each.book, each.nodes)]
        out += packed((each.symbols, 1), (number, 1), (place, 2), (count, 2), (each.table, 3), *lengths)
        out += each.book + each.nodes
    return bytes(out)


def main():
    edges = [vector for family in (listing, folds, symbols, limits) for vector in family()]
    vectors = edges + list(answers())
    wrong = [f"{each.what}: too long" for each in vectors if max(each.table, len(each.book)) > MOST]
    listed = [(each.what, each.answer) for each in vectors]
    said = f"lower vectors: {len(edges)} edges, {len(vectors) - len(edges)} answers of the original's"
    return settle("lower_vectors", listed, file_of(vectors), wrong, said)


if __name__ == "__main__":
    sys.exit(main())
