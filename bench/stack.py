#!/usr/bin/env python3
"""Finds how much stack READ, CHECK, LOWER and RUN need on what is worst for them, through the program of compare/library.

    bench/stack.py [WORD]...      every call, or those whose names have these words in them

LOWER recurses as deep as a book's expressions nest, which READ bounds by 255. So each construct is nested in each of
its own places as deep as may be: no mixture of constructs takes more than the dearest of them does. At the innermost
place of those that are dearest stand, in turn, the searches and recipes that recurse by themselves.  CHECK goes down the
same way; it judges parts before the whole, so all but a match's scrutinee may be of any type.
READ does not recurse, and is tried on books that are as small, as long, as deep and as full of records as may be.
RUN keeps its depth in a row of its own; it is tried on tables that are as deep, as long or as full as may be.
For each call it prints the request's bytes, the answer, and the least number of bytes of stack, to a page, with which
the call returns. That the library does without more is a matter of its compilation, and the same on every x86-64.
"""
import os
import struct
import subprocess
import sys

ROOT = os.path.dirname(os.path.dirname(os.path.abspath(__file__)))
sys.path[:0] = [os.path.join(ROOT, "tools")]

from booklib import NO_END, pack

SERVICE = os.path.join(ROOT, "target", "library", "service")
FULL = 5 * 65535
PAGE = 4096
MOST = 1 << 27
DEEPEST = 255

# The kinds of nodes that tables for RUN are made of.
IDEN, UNIT, INJL, INJR, DROP, COMP, PAIR, JET = 1, 2, 3, 4, 6, 7, 9, 15

# A construct's record, nested in its field @. T is the unit type, P a pattern that ignores, E an expression of its
# own, S a statement, F a function; @S is a statement, and @F a function, that holds what is nested. B is the type of a
# bit, C an expression of that type.
NESTS = (
    "e0 T @", "e1 T @", "en T 1 3 1 @", "et T 1 @", "et T 3 E E @", "el T 4 1 @", "el T 4 3 E E @",
    "eb T 0 @", "eb T 1 S @", "eb T 1 @S @N", "eb T 2 S @S @N", "eb T 1 @SA @N",
    "em T @ P E P E", "em T E P @ P E", "em T E P E P @",
    "eh T @ 1 P E", "eh T E 1 P @", "eh T E 3 P E P E P @",
    "cj T 1 2 2 E @", "cl T 1 @", "cr T 1 @", "cd T 1 @", "ca T 1 @", "cn T @", "ck T @",
    "cf T F 1 @", "cf T @F 0", "cq T F 256 @ E", "cq T F 256 E @", "cq T @F 256 E E",
    "cy T F 255 E @", "cy T @F 255 E E", "cw T F 16 E @", "cw T @F 16 E E", "ch T 1 1 256 @", "ch T 1 2 8 E 256 @",
)  # fmt: skip

# Matches that CHECK goes into.
TYPED_NESTS = ("em B @ P C P C", "em T C P @ P E", "em T C P E P @", "eh T C 2 P @ P E", "eh T C 2 P E P @")


class Writer:
    """A book being written, with the depth of each record."""

    def __init__(self):
        self.bytes = bytearray()
        self.depths = []
        self.bit = None

    def put(self, mark, *fields, names=()):
        """A record that names `names`; its number."""
        self.bytes += pack(mark, fields)
        self.depths.append(1 + max((self.depths[name] for name in names), default=0))
        return len(self.depths) - 1


def nested(nest, innermost, bind=None):
    """The book of one construct in itself, as deep as READ allows; `bind` makes a pattern that is bound around it."""
    book = Writer()
    unit, nothing = book.put("tu"), book.put("pn")
    function = empty_function(book, unit)
    pattern = bind(book) if bind else None
    whole = innermost(book, unit)
    top = DEEPEST - (1 if bind else 0)
    while True:
        # A level takes up to two records more in depth: it is written on a copy, and kept if it fits.
        bytes_before, depths_before = bytes(book.bytes), list(book.depths)
        level = write_level(book, nest, whole, unit, nothing, function)
        if book.depths[level] > top or len(book.depths) > 4000:
            book.bytes, book.depths = bytearray(bytes_before), depths_before
            break
        whole = level
    if bind:
        value = empty(book, unit)
        assign = book.put("sa", pattern, value, names=[pattern, value])
        book.put("eb", unit, 1, assign, whole, names=[assign, whole])
    return bytes(book.bytes)


def empty(book, unit):
    return book.put("et", unit, 0, names=[unit])


def bit(book, unit):
    """The type of a bit, written once."""
    if book.bit is None:
        book.bit = book.put("ts", unit, unit, names=[unit])
    return book.bit


def bit_witness(book, unit):
    t = bit(book, unit)
    return book.put("ew", t, 0, names=[t])


def empty_function(book, unit):
    body = empty(book, unit)
    return book.put("fn", unit, 0, body, names=[unit, body])


def write_level(book, nest, whole, unit, nothing, function):
    mark, *words = nest.split()
    fields, names = [], []

    def statement(e):
        return book.put("se", e, names=[e])

    made = {
        "T": lambda: unit,
        "P": lambda: nothing,
        "F": lambda: function,
        "B": lambda: bit(book, unit),
        "C": lambda: bit_witness(book, unit),
        "E": lambda: empty(book, unit),
        "S": lambda: statement(empty(book, unit)),
        "@": lambda: whole,
        "@S": lambda: statement(whole),
        "@SA": lambda: book.put("sa", nothing, whole, names=[nothing, whole]),
        "@F": lambda: book.put("fn", unit, 0, whole, names=[unit, whole]),
    }
    for word in words:
        if word in made:
            fields.append(made[word]())
            names.append(fields[-1])
        else:
            fields.append(NO_END if word == "@N" else int(word))
    return book.put(mark, *fields, names=names)


def deep_pattern(book):
    """250 rows in one another, the name at the last place."""
    pattern = book.put("pi", 7)
    nothing = book.put("pn")
    for _ in range(250):
        pattern = book.put("pt", 2, nothing, pattern, names=[nothing, pattern])
    return pattern


def wide_pattern(book):
    """A row of 256 rows of 256, the name at the last place."""
    nothing, name = book.put("pn"), book.put("pi", 7)
    row = book.put("pt", 256, *[nothing] * 256, names=[nothing])
    last = book.put("pt", 256, *[nothing] * 255, name, names=[nothing, name])
    return book.put("pt", 256, *[row] * 255, last, names=[row, last])


def wide_scope():
    """A block of 255 bindings, the name in the oldest."""
    book = Writer()
    unit, nothing, name = book.put("tu"), book.put("pn"), book.put("pi", 7)
    statements = []
    for k in range(255):
        e = empty(book, unit)
        statements.append(book.put("sa", name if k == 0 else nothing, e, names=[nothing, e]))
    end = variable(book, unit)
    book.put("eb", unit, 255, *statements, end, names=[*statements, end])
    return bytes(book.bytes)


def variable(book, unit):
    return book.put("ev", unit, 7, names=[unit])


def hash_of_256(book, unit):
    words = [empty(book, unit) for _ in range(256)]
    return book.put("ch", unit, 1, 256, *(x for e in words for x in (256, e)), names=words)


def fold_of(mark, size):
    """A fold or loop of empty tuples."""

    def innermost(book, unit):
        function = empty_function(book, unit)
        parts = [empty(book, unit), empty(book, unit)]
        return book.put(mark, unit, function, size, *parts, names=[function, *parts])

    return innermost


def books():
    yield "an empty tuple", pack("tu", []) + pack("et", [0, 0])
    yield "255 bindings", wide_scope()
    for nest in NESTS:
        yield f"{nest}, nested", nested(nest, empty)
    for nest in ("et T 1 @", "eh T E 1 P @"):
        yield f"{nest}, in it a pattern 250 deep", nested(nest, variable, deep_pattern)
        yield f"{nest}, in it a pattern of 65,536 places", nested(nest, variable, wide_pattern)
        yield f"{nest}, in it a hash of 256 words", nested(nest, hash_of_256)
        yield f"{nest}, in it an array fold of 255", nested(nest, fold_of("cy", 255))
        yield f"{nest}, in it a loop of 16 bits", nested(nest, fold_of("cw", 16))


def flat_books():
    """Those that are as much as READ takes, and one byte of a book."""
    yield "a byte", b"t"
    yield "an empty tuple", pack("tu", []) + pack("et", [0, 0])
    yield "4,000 values", values()
    book = Writer()
    t = book.put("tu")
    while len(book.bytes) + 6 <= 65535:
        t = book.put("ts", t, 0, names=[0])
    yield "types to the last byte, 255 deep", bytes(book.bytes)


def typed_books():
    """Those that CHECK goes down in, beside the others."""
    for nest in TYPED_NESTS:
        # A scrutinee that is nested is a bit itself.
        yield f"{nest}, nested", nested(nest, bit_witness if "B" in nest else empty)
    for nest in ("et T 1 @", "em T C P E P @"):
        yield f"{nest}, in it a pattern 250 deep", deep_variable(nest)


def deep_variable(nest):
    """A name at the end of a pattern 250 deep, bound to a type as deep, asked for at the innermost place."""
    book = Writer()
    unit, nothing = book.put("tu"), book.put("pn")
    function = empty_function(book, unit)
    t, pattern = unit, book.put("pi", 7)
    for _ in range(250):
        t = book.put("tp", unit, t, names=[unit, t])
        pattern = book.put("pt", 2, nothing, pattern, names=[nothing, pattern])
    value = book.put("ew", t, 0, names=[t])
    assign = book.put("sa", pattern, value, names=[pattern, value])
    whole = variable(book, unit)
    while book.depths[whole] < DEEPEST - 1:
        whole = write_level(book, nest, whole, unit, nothing, function)
    book.put("eb", unit, 1, assign, whole, names=[assign, whole])
    return bytes(book.bytes)


def table(*nodes):
    """Nodes as they lie in a table."""
    return b"".join(struct.pack("<BHH", *node) for node in nodes)


def deep(kind, side, depth=4096):
    """A node of one kind in another, the last of them unit; `side` is the operand that is nested."""
    wraps = ((kind, k, 0) if side == 0 else (kind, 0, k) for k in range(depth - 1))
    return table((UNIT, 0, 0), *wraps)


def adding():
    """A byte doubled by add_8 a dozen times."""
    byte = [(UNIT, 0, 0), (INJR, 0, 0), (PAIR, 1, 1), (PAIR, 2, 2), (PAIR, 3, 3)]
    double = [(IDEN, 0, 0), (PAIR, 5, 5), (JET, 2, 0), (DROP, 5, 0), (COMP, 7, 8), (COMP, 6, 9)]
    times = [(COMP, 4, 10), *((COMP, k, 10) for k in range(11, 22))]
    return table(*byte, *double, *times)


def values():
    """A book whose 4,000 values all have a cell."""
    book = Writer()
    unit = book.put("tu")
    for _ in range(4000):
        book.put("vu", unit, names=[unit])
    empty(book, unit)
    return bytes(book.bytes)


def tables():
    """Node tables for RUN, each with its book."""
    plain = pack("tu", []) + pack("et", [0, 0])
    yield "unit alone", plain, table((UNIT, 0, 0))
    yield "unit alone, beside 4,000 values", values(), table((UNIT, 0, 0))
    yield "65,535 nodes", plain, table(*[(UNIT, 0, 0)] * 65534, (PAIR, 65533, 0))
    yield "4,096 deep by injl", plain, deep(INJL, 0)
    yield "4,096 deep by comp on the left", plain, deep(COMP, 0)
    yield "4,096 deep by comp on the right", plain, deep(COMP, 1)
    yield "4,096 deep by pair on the left", plain, deep(PAIR, 0)
    yield "4,097 deep", plain, deep(PAIR, 1, 4097)
    yield "add_8", plain, adding()
    doubled = ((COMP, k, k) for k in range(1, 18))
    yield "pairs until the cells are full", plain, table((IDEN, 0, 0), (PAIR, 0, 0), *doubled)


def calls():
    """Each call's name and request."""
    for name, book in flat_books():
        yield f"READ: {name}", struct.pack("<BI", 2, len(book)) + book
    for name, book in books():
        yield f"LOWER: {name}", struct.pack("<BBII", 0, 1, FULL, len(book)) + book
    for name, book in (*books(), *typed_books()):
        yield f"CHECK: {name}", struct.pack("<BI", 3, len(book)) + book
    for name, book, nodes in tables():
        lengths = FULL, len(book), 0, len(nodes)
        yield f"RUN: {name}", struct.pack("<BIIIII", 1, len(nodes) // 5, *lengths) + book + nodes


def answer(request, stack):
    """The call's number, place, count and cell with so much stack, or None where that is too little."""
    done = subprocess.run([SERVICE, str(stack)], input=request, stdout=subprocess.PIPE, stderr=subprocess.DEVNULL)
    return struct.unpack("<IIII", done.stdout[:16]) if done.returncode == 0 else None


def least_stack(request):
    """The least number of pages with which the call answers."""
    low, high = 0, MOST // PAGE
    while low + 1 < high:
        middle = (low + high) // 2 if high < MOST // PAGE else 2 * max(low, 16)
        if answer(request, PAGE * middle):
            high = middle
        else:
            low = middle
    return high


def main():
    subprocess.run([os.path.join(ROOT, "compare", "library", "build")], check=True)
    worst = {}
    for name, request in calls():
        if not all(word in name for word in sys.argv[1:]):
            continue
        answered = answer(request, MOST)
        if answered is None:
            raise SystemExit(f"{name}: no answer with {MOST} bytes of stack")
        stack = PAGE * least_stack(request)
        call = name.partition(":")[0]
        worst[call] = max(worst.get(call, 0), stack)
        print(f"| {name} | {len(request)} | {answered} | {stack} |", flush=True)
    for call, stack in worst.items():
        print(f"the most of {call}: {stack} bytes")
    return 0


if __name__ == "__main__":
    sys.exit(main())
