"""What RUN must answer, written by hand from document 01.

Each family of vectors stands on both sides of the edges of a refusal, or shows
what nodes do.  tests/run_vectors.py holds them against the model and stores
them.
"""

from typing import NamedTuple

from vectors import LISTING, LISTING_NODES, WIDTH, book, packed, table_of
from run_model import CELLS, JET, NODES, STEEP, STUCK, WITNESS

CELL_KINDS = "unit left right pair".split()
ROOM = 80 * WIDTH + 3  # bytes of cells, where nothing else is said

# A node less a byte, as the program fills a table before it reads nodes into it.
FILLED = b"\xa5" * 4

# A book without values: its one initial cell is cell 0.
PLAIN = "tu; et 0 0"

# Values 3 to 6 are (), false, true and (false, true): the cells 1 to 4.
VALUES = "tu; ts 0 0; tp 1 1; vu 0; vl 1 3; vr 1 3; vp 2 4 5; et 0 0"
VALUE_CELLS = "unit; unit; left 1; right 1; pair 2 3"


class Due(NamedTuple):
    number: int
    place: int
    count: int = 0
    cell: int = 0
    cells: bytes = b""


def value(cell, cells):
    """A value's cell, and all cells."""
    data = table_of(cells, CELL_KINDS)
    return Due(0, 0, len(data) // WIDTH, cell, data)


def no(number, place):
    return Due(number, place)


FAILED = Due(0, 0)


class Vector(NamedTuple):
    what: str
    nodes: bytes
    due: Due
    count: int
    book: bytes
    witnesses: bytes
    size: int  # of the cells, in bytes
    result: int = 0  # bits of a jet's result, where it is run on every two bytes
    places: bytes = b""  # of the bits


def vector(what, nodes, due, text=PLAIN, witnesses=(), count=None, size=ROOM):
    """A vector from text; witnesses are bytes, or the numbers of entries."""
    data = nodes if isinstance(nodes, bytes) else table_of(nodes)
    count = len(data) // WIDTH if count is None else count
    if not isinstance(witnesses, bytes):
        witnesses = packed(*((entry, 2) for entry in witnesses))
    what = f"{what}: {nodes[:60]}" if isinstance(nodes, str) else what
    return Vector(what, data, due, count, book(text), witnesses, size)


# --- What each kind of node does ------------------------------------------------

# Nodes 0 to 3 make (left (), ()), or (right (), ()), at cell 2.
LEFT_PAIR = "unit; injl 0; iden; pair 1 2; "
RIGHT_PAIR = "unit; injr 0; iden; pair 1 2; "
# Nodes 0 to 4: the same with values within, so that all parts differ.
LEFT_WITHIN = "unit; injr 0; injl 1; injl 0; pair 2 3; "  # (left right (), left ())
WITHIN_CELLS = "unit; right 0; left 1; left 0; pair 2 3"

MEANINGS = (
    ("unit", value(0, "unit")),
    ("iden", value(0, "unit")),
    ("unit; injl 0", value(1, "unit; left 0")),
    ("unit; injr 0", value(1, "unit; right 0")),
    ("iden; injl 0; injr 1; injl 2", value(3, "unit; left 0; right 1; left 2")),
    # A pair: left operand first, each on the pair's own input.
    ("unit; injl 0; injr 0; pair 1 2", value(3, "unit; left 0; right 0; pair 1 2")),
    ("unit; injl 0; injr 0; pair 2 1", value(3, "unit; right 0; left 0; pair 1 2")),
    ("iden; injl 0; pair 1 1", value(3, "unit; left 0; left 0; pair 1 2")),
    ("iden; pair 0 0", value(1, "unit; pair 0 0")),
    ("iden; injl 0; pair 0 1; injr 2; pair 3 1; comp 1 4",
     value(6, "unit; left 0; left 1; pair 1 2; right 3; left 1; pair 4 5")),
    # A part of a pair.
    ("unit; injl 0; injr 0; pair 1 2; iden; take 4; comp 3 5",
     value(1, "unit; left 0; right 0; pair 1 2")),
    ("unit; injl 0; injr 0; pair 1 2; iden; drop 4; comp 3 5",
     value(2, "unit; left 0; right 0; pair 1 2")),
    ("unit; injl 0; injr 0; pair 1 2; iden; injr 4; drop 5; comp 3 6",
     value(4, "unit; left 0; right 0; pair 1 2; right 2")),
    # One after the other.
    ("unit; injl 0; iden; injr 2; comp 1 3", value(2, "unit; left 0; right 1")),
    ("unit; injl 0; iden; injr 2; comp 3 1", value(2, "unit; right 0; left 0")),
    ("unit; injl 0; comp 1 0", value(0, "unit; left 0")),
    # A case: the pair that is handed on has the side's part and the rest.
    (LEFT_WITHIN + "iden; injl 5; injr 5; case 6 7; comp 4 8",
     value(6, WITHIN_CELLS + "; pair 1 3; left 5")),
    ("unit; injr 0; injr 1; injl 0; pair 2 3; iden; injl 5; injr 5; case 6 7; comp 4 8",
     value(6, "unit; right 0; right 1; left 0; pair 2 3; pair 1 3; right 5")),
    (LEFT_PAIR + "take 2; drop 2; case 4 5; comp 3 6",
     value(0, "unit; left 0; pair 1 0; pair 0 0")),
    # Asserts; of the symbol nothing is asked.
    (LEFT_WITHIN + "iden; assertl 5 0; comp 4 6", value(5, WITHIN_CELLS + "; pair 1 3")),
    (LEFT_WITHIN + "iden; assertl 5 65535; comp 4 6", value(5, WITHIN_CELLS + "; pair 1 3")),
    (RIGHT_PAIR + "drop 2; assertr 0 4; comp 3 5", value(0, "unit; right 0; pair 1 0; pair 0 0")),
    (RIGHT_PAIR + "drop 2; assertr 65535 4; comp 3 5",
     value(0, "unit; right 0; pair 1 0; pair 0 0")),
    (RIGHT_PAIR + "assertl 2 0; comp 3 4", FAILED),
    (LEFT_PAIR + "assertr 0 2; comp 3 4", FAILED),
    # The first failure ends all, whatever was stored before it.
    ("fail", FAILED),
    ("unit; injl 0; fail; pair 1 2", FAILED),
    ("unit; fail; injl 1", FAILED),
    ("unit; fail; comp 0 1", FAILED),
    ("unit; fail; comp 1 0", FAILED),
    (LEFT_PAIR + "fail; case 4 2; comp 3 5", FAILED),
    (LEFT_PAIR + "fail; case 2 4; comp 3 5", value(3, "unit; left 0; pair 1 0; pair 0 0")),
    (RIGHT_PAIR + "fail; case 4 2; comp 3 5", value(3, "unit; right 0; pair 1 0; pair 0 0")),
    # verify makes a unit of its own.
    ("unit; injr 0; jet 0; comp 1 2", value(2, "unit; right 0; unit")),
    ("unit; injl 0; jet 0; comp 1 2", FAILED),
)  # fmt: skip

# Over the values of VALUES.  Each scribe, and each witness, gives its value's own cell.
GIVEN = (
    ("scribe 3", (), value(1, VALUE_CELLS)),
    ("scribe 6", (), value(4, VALUE_CELLS)),
    ("scribe 4; scribe 5; pair 0 1", (), value(5, VALUE_CELLS + "; pair 2 3")),
    ("scribe 6; iden; drop 1; comp 0 2", (), value(3, VALUE_CELLS)),
    ("scribe 5; jet 0; comp 0 1", (), value(5, VALUE_CELLS + "; unit")),
    ("scribe 4; jet 0; comp 0 1", (), FAILED),
    ("scribe 6; jet 0; comp 0 1", (), no(STUCK, 1)),
    ("scribe 3; jet 0; comp 0 1", (), no(STUCK, 1)),
    ("witness 0 0", (3,), value(1, VALUE_CELLS)),
    ("witness 0 1", (4,), value(2, VALUE_CELLS)),
    ("witness 0 2", (6,), value(4, VALUE_CELLS)),
    ("witness 2 1", (9, 9, 5), value(3, VALUE_CELLS)),
    # One name, one entry.
    ("witness 1 1; pair 0 0", (3, 5), value(5, VALUE_CELLS + "; pair 3 3")),
    ("witness 1 1; witness 1 1; pair 0 1", (3, 5), value(5, VALUE_CELLS + "; pair 3 3")),
    ("witness 1 1; witness 1 2; pair 0 1", (3, 5), no(WITNESS, 1)),
    # The entry is absent; an odd last byte is none.
    ("witness 0 1", (), no(WITNESS, 0)),
    ("witness 0 1", b"\4", no(WITNESS, 0)),
    ("witness 0 1", b"\4\0\4", value(2, VALUE_CELLS)),
    ("witness 1 1", b"\4\0\4", no(WITNESS, 0)),
    ("witness 1 1", b"\4\0\4\0", value(2, VALUE_CELLS)),
    ("witness 65535 1", (4, 4), no(WITNESS, 0)),
    # Not a value record: a type, an expression, none at all.
    ("witness 0 1", (1,), no(WITNESS, 0)),
    ("witness 0 1", (7,), no(WITNESS, 0)),
    ("witness 0 1", (8,), no(WITNESS, 0)),
    ("witness 0 1", (4 + 256,), no(WITNESS, 0)),
    ("witness 0 1", (65535,), no(WITNESS, 0)),
    # Of another type.
    ("witness 0 0", (4,), no(WITNESS, 0)),
    ("witness 0 2", (4,), no(WITNESS, 0)),
    ("witness 0 1", (3,), no(WITNESS, 0)),
    ("witness 0 1", (6,), no(WITNESS, 0)),
    # Only where it is reached.
    ("witness 9 1; unit; comp 1 0", (), no(WITNESS, 0)),
    ("witness 9 1; unit; injl 1", (), value(5, VALUE_CELLS + "; left 0")),
    ("witness 9 1; fail; pair 1 0", (), FAILED),
    ("witness 9 1; fail; pair 0 1", (), no(WITNESS, 0)),
)  # fmt: skip

# Values between other records, of types that they do not have: RUN asks only
# for the number of a declared type.
MIXED = (
    "pn; tu; vu 1; pi 3; ts 1 1; vl 1 2; ew 1 9; fn 1 0 6; vr 4 5; vp 4 8 2; vu 4; et 1 0"
)
MIXED_CELLS = "unit; unit; left 1; right 2; pair 3 1; unit"
AMONG = (
    ("scribe 2", (), value(1, MIXED_CELLS)),
    ("scribe 5", (), value(2, MIXED_CELLS)),
    ("scribe 8", (), value(3, MIXED_CELLS)),
    ("scribe 9", (), value(4, MIXED_CELLS)),
    ("scribe 10", (), value(5, MIXED_CELLS)),
    ("witness 0 4", (9,), value(4, MIXED_CELLS)),
    ("witness 0 4", (10,), value(5, MIXED_CELLS)),
    ("witness 0 1", (10,), no(WITNESS, 0)),
    ("witness 0 1", (5,), value(2, MIXED_CELLS)),
    ("witness 0 1", (0,), no(WITNESS, 0)),
    ("witness 0 1", (3,), no(WITNESS, 0)),
    ("witness 0 1", (6,), no(WITNESS, 0)),
    ("witness 0 1", (7,), no(WITNESS, 0)),
)


def meanings():
    for nodes, due in MEANINGS:
        yield vector("meaning", nodes, due)
    for text, rows in ((VALUES, GIVEN), (MIXED, AMONG)):
        for nodes, entries, due in rows:
            yield vector("given", nodes, due, text, entries)
    cells = "unit; unit; right 1; pair 2 0"
    yield vector("the listing", LISTING_NODES, value(2, cells), LISTING)


def many_values():
    """As many records as a book may have, all of them values but two."""
    text = "tu; " + "vu 0; " * 4094 + "et 0 0"
    whole = value(4094, "unit; " * 4095)
    for room, due in ((4095, whole), (4094, no(CELLS, 0))):
        yield vector("4,094 values", "scribe 4094", due, text, size=WIDTH * room)
        yield vector("4,094 values", "witness 1 0", due, text, (0, 4094), size=WIDTH * room)
    yield vector("4,094 values", "scribe 4095", no(NODES, 0), text)
    yield vector("4,094 values", "witness 0 0", no(WITNESS, 0), text, (4095,), size=WIDTH * 4095)
    yield vector("4,094 values", "witness 0 0", no(WITNESS, 0), text, (4096,), size=WIDTH * 4095)


def many_names():
    entries = packed(*[(0, 2)] * 65535, (4, 2))
    due = value(2, VALUE_CELLS)
    yield vector("the last name", "witness 65535 1", due, VALUES, entries, size=WIDTH * due.count)


# --- 15, the node table ------------------------------------------------------------

# After the book VALUES and node 0: node 1 alone is at fault, or is not.  None
# of them is reached.
BAD = """
    0 0 0; 16 0 0; 17 0 0; 255 0 0
    injl 1; injl 2; injl 256; injl 65535; injr 1; injr 2; take 1; take 2; drop 1; drop 2
    comp 1 0; comp 0 1; comp 1 1; comp 2 0; comp 0 2; comp 256 0; comp 0 256
    case 1 0; case 0 1; case 2 0; case 0 65535; pair 1 0; pair 0 1; pair 65535 0; pair 0 2
    assertl 1 0; assertl 2 0; assertl 65535 0; assertr 0 1; assertr 0 2; assertr 0 65535
    witness 0 3; witness 0 6; witness 0 7; witness 0 8; witness 0 256; witness 0 65535
    scribe 0; scribe 2; scribe 7; scribe 8; scribe 259; scribe 65535
    jet 11; jet 12; jet 256; jet 65535
"""
GOOD = """
    iden 9 9; unit 65535 65535; injl 0 9; injr 0 9; take 0 9; drop 0 9
    comp 0 0; case 0 0; pair 0 0; assertl 0 9; assertl 0 65535; assertr 9 0; assertr 65535 0
    fail 9 9; witness 0 0; witness 65535 1; witness 9 2
    scribe 3 9; scribe 4 9; scribe 5 65535; scribe 6 9; jet 0 9; jet 2 9; jet 3 9; jet 10 9
"""


def lines(text):
    return [part for line in text.split("\n") for part in line.split(";") if part.strip()]


def tables():
    for node in lines(BAD):
        yield vector("bad", f"unit; {node}; unit; comp 0 2", no(NODES, 1), VALUES)
    for node in lines(GOOD):
        yield vector("good", f"unit; {node}; unit; comp 0 2", value(0, VALUE_CELLS), VALUES)
    for node in ("0", "16", "injl 0", "pair 0 0", "assertl 0", "scribe 0", "witness 0 1", "jet 11"):
        yield vector("bad at 0", node, no(NODES, 0))
    # The first of several; beyond the count nothing is looked at.
    yield vector("bad", "unit; unit; jet 11; 0; unit", no(NODES, 2))
    yield vector("bad", "16; jet 11; unit", no(NODES, 0))
    yield vector("beyond", "unit; injl 0; 16; injl 9", value(1, "unit; left 0"), count=2)
    yield vector("beyond", table_of("unit; injl 0") + b"\x10\1\2\3", value(1, "unit; left 0"))


def counts():
    """How many nodes there are, and bytes to hold them."""
    unit, odd = table_of("unit"), FILLED
    most = unit * 65535
    one = value(0, "unit")
    for nodes in (b"", unit, unit * 3):
        yield vector("count 0", nodes, no(NODES, 0), count=0)
    for count in (65536, 65537, 1 << 24, (1 << 32) - 1):
        for nodes in (b"", unit, unit * 65536):
            yield vector(f"count {count}", nodes, no(NODES, 65535), count=count)
    yield vector("count 65,535", most, one)
    yield vector("count 65,535", most + unit, one, count=65535)
    yield vector("count 65,535, a byte short", most[:-5] + odd, no(NODES, 65534), count=65535)
    yield vector("count 65,535, a node short", most[:-5], no(NODES, 65534), count=65535)
    # Children up to 65,533 pass; then the node that is 4,097 deep.
    yield vector("count 65,535, a chain", injected("unit", 65534), no(STEEP, 65534 - 4096))
    for there in range(4):
        nodes = unit * there
        yield vector(f"{there} of 4", nodes, no(NODES, there), count=4)
        yield vector(f"{there} of 4, a byte short", nodes + odd, no(NODES, there), count=4)
        if there:
            yield vector(f"{there} of 4, 0 bad", table_of("16") * there, no(NODES, there), count=4)


# --- READ's refusals, and what comes before the run ----------------------------------

# One for each of READ's refusals, document 01, "Refusals by number".
REFUSED = (
    (b"", no(1, 0)),
    (bytes(65536), no(1, 0)),
    (book("tu", *["pn"] * 4096), no(2, 4096)),
    (b"t", no(3, 0)),
    (book("tu; et 0 0") + b"e", no(3, 2)),
    (b"tutx", no(4, 1)),
    (book("tu; ew 0 1; fn 0 0 1; ew 0 1; ew 0 1; cq 0 2 3 3 4"), no(5, 5)),
    (book("tu; ew 0 1; cq 0 1 2 1 1"), no(6, 2)),
    (book("tu; tu"), no(7, 1)),
    (book("tu", *[f"ts {k} 0" for k in range(255)], "ew 0 0"), no(8, 255)),
    (book("tu; ew 0 0; ew 0 0"), no(9, 1)),
)


def passed_on():
    """Before the table's check, which comes before the initial cells."""
    for data, due in REFUSED:
        for nodes, size in (("16", 0), ("unit", ROOM), ("", 4))[: 1 if len(data) > 999 else 3]:
            yield vector(f"a book of {len(data)} bytes", nodes, due, size=size)._replace(book=data)


def before_the_run():
    """The table's check, then the initial cells."""
    for size in (0, 1, 4):
        yield vector("no cell 0", "unit", no(CELLS, 0), size=size)
        yield vector("no cell 0", "fail", no(CELLS, 0), size=size)
        yield vector("no cell 0", "16", no(NODES, 0), size=size)
        yield vector("no cell 0", "jet 3", no(CELLS, 0), size=size)
    for size in (5, 9):
        yield vector("cell 0 alone", "unit", value(0, "unit"), size=size)
        yield vector("cell 0 alone", "fail", FAILED, size=size)
    for size in (0, 5, 10, 15, 20, 24):
        yield vector("no cell for a value", "unit", no(CELLS, 0), VALUES, size=size)
        yield vector("no cell for a value", "unit; injl 0; jet 11", no(NODES, 2), VALUES, size=size)
    yield vector("cells for all values", "scribe 6", value(4, VALUE_CELLS), VALUES, size=25)


# --- 16, how deep -------------------------------------------------------------------

# Values 3 and 5 are (left (), ()) and (right (), ()): the cells 3 and 5.
SUMS = "tu; vu 0; vl 0 1; vp 0 2 1; vr 0 1; vp 0 4 1; et 0 0"
SUM_CELLS = "unit; unit; left 1; pair 2 1; right 1; pair 4 1"

# Node 2, whose child is the iden at node 0; the value that it is run on; the
# cell that it gives, and the cells that it stores.
PARENTS = (
    ("injl 0", 3, 6, "; left 3"),
    ("injr 0", 3, 6, "; right 3"),
    ("take 0", 3, 2, ""),
    ("drop 0", 3, 1, ""),
    ("comp 0 0", 3, 3, ""),
    ("case 0 0", 3, 6, "; pair 1 1"),
    ("case 0 0", 5, 6, "; pair 1 1"),
    ("pair 0 0", 3, 6, "; pair 3 3"),
    ("assertl 0 0", 3, 6, "; pair 1 1"),
    ("assertr 0 0", 5, 6, "; pair 1 1"),
)

# Node 2, whose second child is the injl at node 1, on cell 0.
SECOND = (("comp 0 1", 6, "; left 0"), ("pair 0 1", 7, "; left 0; pair 0 6"))

# A chain of injl on each of these is as deep as it has nodes.
LEAVES = (
    ("unit", None),
    ("iden", None),
    ("fail", FAILED),
    ("witness 0 0", no(WITNESS, 0)),
    ("jet 3", no(JET, 0)),
    ("jet 0", no(STUCK, 0)),
)

DEEP = WIDTH * 4200  # bytes of cells for a chain of injl


def injected(nodes, times):
    """The last node below so many injl."""
    first = len(lines(nodes))
    return "; ".join([nodes, *(f"injl {first - 1 + k}" for k in range(times))])


def lefts(cell, start, times):
    """Cells: the start's, then so many lefts above a cell; and the last of them."""
    first = len(lines(start))
    chain = [f"left {first - 1 + k if k else cell}" for k in range(times)]
    return value(first - 1 + times if times else cell, "; ".join([start, *chain]))


def depths():
    """A node that is 4,096 deep, then 4,097."""
    for leaf, due in LEAVES:
        due = due or lefts(0, "unit", 4095)
        yield vector("4,096 deep", injected(leaf, 4095), due, size=DEEP)
        yield vector("4,097 deep", injected(leaf, 4096), no(STEEP, 0), size=DEEP)
    for parent, given, cell, stored in PARENTS:
        nodes = f"iden; scribe {given}; {parent}; comp 1 2"
        due = lefts(cell, SUM_CELLS + stored, 4093)
        yield vector("a child 4,096 deep", injected(nodes, 4093), due, SUMS, size=DEEP)
        yield vector("a child 4,097 deep", injected(nodes, 4094), no(STEEP, 0), SUMS, size=DEEP)
    # A second child is no less deep than a first.
    for parent, cell, stored in SECOND:
        nodes = f"iden; injl 0; {parent}"
        due = lefts(cell, SUM_CELLS + stored, 4093)
        yield vector("a grandchild 4,096 deep", injected(nodes, 4093), due, SUMS, size=DEEP)
        yield vector("a grandchild 4,097 deep", injected(nodes, 4094), no(STEEP, 0), SUMS, size=DEEP)


def depths_of_comps():
    rights = "unit; unit; " + "; ".join(f"comp 0 {k}" for k in range(1, 4097))
    for count, due in ((4096, value(0, "unit")), (4097, value(0, "unit")), (4098, no(STEEP, 0))):
        yield vector(f"{count - 2} comps", rights, due, count=count)
    # How often is no matter: 4,096 injl one after the other, none deep.
    doubled = "iden; injl 0; " + "; ".join(f"comp {k} {k}" for k in range(1, 13))
    yield vector("4,096 in a row", doubled, lefts(0, "unit", 4096), size=DEEP)
    # A case stores its pair before its child is too deep.
    nodes = injected("iden; scribe 3; case 0 0; comp 1 2", 4094)
    yield vector("no cell for a deep case", nodes, no(CELLS, 2), SUMS, size=30)
    yield vector("a cell for a deep case", nodes, no(STEEP, 0), SUMS, size=35)


# --- 18, the cells --------------------------------------------------------------------

# Nodes, and for each number of cells from 1 on the node whose cell does not
# fit, until all fit.
ROOMS = (
    ("unit; injl 0", [1]),
    ("unit; injr 0", [1]),
    ("unit; injl 0; injr 1; injl 2", [1, 2, 3]),
    ("unit; injl 0; injr 0; pair 2 1", [2, 1, 3]),
    (LEFT_PAIR + "case 2 2; comp 3 4", [1, 3, 4]),
    (RIGHT_PAIR + "case 2 2; comp 3 4", [1, 3, 4]),
    (LEFT_PAIR + "assertl 2; comp 3 4", [1, 3, 4]),
    (RIGHT_PAIR + "assertr 0 2; comp 3 4", [1, 3, 4]),
    ("unit; injr 0; jet 0; comp 1 2", [1, 2]),
)

# Node 1 + k puts 2 to the k lefts around its input.
POWERS = "iden; injl 0; " + "; ".join(f"comp {k} {k}" for k in range(1, 16))


def many_lefts(count):
    """Nodes that put so many lefts, below 65,536, around their input."""
    nodes = lines(POWERS)
    parts = [1 + k for k in range(16) if count >> k & 1]
    for part in parts[1:]:
        nodes.append(f"comp {parts[0] if len(nodes) == 17 else len(nodes) - 1} {part}")
    return "; ".join(nodes)


def rooms():
    for nodes, places in ROOMS:
        for room, place in enumerate(places, 1):
            for odd in (0, 4):
                yield vector(f"{room} cells", nodes, no(CELLS, place), size=WIDTH * room + odd)
    # An assert or a verify that fails stores nothing.
    for nodes in (RIGHT_PAIR + "assertl 2; comp 3 4", LEFT_PAIR + "assertr 0 2; comp 3 4"):
        yield vector("no cell for a failing assert", nodes, FAILED, size=15)
    yield vector("no cell for a failing verify", "unit; injl 0; jet 0; comp 1 2", FAILED, size=10)


def most_cells():
    """Never more than 65,535 cells, cell 0 among them."""
    most = lefts(0, "unit", 65534)
    for size in (327675, 327679, 327680, 327685):
        yield vector("65,534 lefts", many_lefts(65534), most, size=size)
        yield vector("65,535 lefts", many_lefts(65535), no(CELLS, 1), size=size)
    yield vector("65,534 lefts", many_lefts(65534), no(CELLS, 1), size=327674)
    # One more of any sort.
    full = many_lefts(65534)
    last = len(lines(full))
    for node in ("injr 0", "pair 0 0"):
        nodes = f"{full}; {node}; comp {last - 1} {last}"
        yield vector("65,536 cells", nodes, no(CELLS, last), size=327680)
    # After 31 cells for its input, the 26th cell of the jet is the 65,536th.
    full = many_lefts(65535 - 1 - 31 - 25)
    last = len(lines(full))
    nodes = "; ".join([full, on_words(2, 1, 2, last), f"comp {last - 1} {last + 33}"])
    yield vector("65,536 cells", nodes, no(CELLS, last + 32), size=327680)


# --- Jets, 19 and 20 --------------------------------------------------------------------


def two_words(a, b, first=0):
    """32 nodes from number `first` on: a unit, 16 bits, their pairs up to (a, b)."""
    nodes = ["unit", *(f"inj{'lr'[int(bit)]} {first}" for bit in f"{a:08b}{b:08b}")]
    row = range(1, 17)
    while len(row) > 1:
        nodes += [f"pair {first + k} {first + k + 1}" for k in row[::2]]
        row = range(row[-1] + 1, len(nodes))
    return nodes


def on_words(jet, a, b, first=0):
    """34 nodes: a jet, at 32, on two words."""
    return "; ".join([*two_words(a, b, first), f"jet {jet}", f"comp {first + 31} {first + 32}"])


def word_cells(bits, first, unit=None):
    """The cells of a word from number `first` on; bits have a unit of their own, or that one."""
    if len(bits) == 1:
        side = "left" if bits == "0" else "right"
        return [f"{side} {unit}"] if unit is not None else ["unit", f"{side} {first}"]
    half = len(bits) // 2
    left = word_cells(bits[:half], first, unit)
    right = word_cells(bits[half:], first + len(left), unit)
    ends = first + len(left) - 1, first + len(left) + len(right) - 1
    return [*left, *right, f"pair {ends[0]} {ends[1]}"]


def jet_cells(jet, a, b, first=1):
    """A jet's cells: 31 of two words on cell 0, then those of its result."""
    words, at = word_cells(f"{a:08b}{b:08b}", first, 0), first + 31
    if jet == 1:
        return [*words, *word_cells(str(int(a == b)), at)]
    carry, low = word_cells(str((a + b) // 256), at), word_cells(f"{(a + b) % 256:08b}", at + 2)
    return [*words, *carry, *low, f"pair {at + 1} {at + 24}"]


def jet_due(jet, a, b):
    cells = ["unit", *jet_cells(jet, a, b)]
    return value(len(cells) - 1, "; ".join(cells))


# Document 01's order, written out: the carry of 255 + 6, then 5 = 0000 0101.
SUM_OF_255_AND_6 = """
    unit; right 32
    unit; left 34; unit; left 36; pair 35 37; unit; left 39; unit; left 41; pair 40 42; pair 38 43
    unit; left 45; unit; right 47; pair 46 48; unit; left 50; unit; right 52; pair 51 53; pair 49 54
    pair 44 55; pair 33 56
"""

# What is no bit, at a bit's place: unit, a pair, and the sides of a bit.
NO_BITS = ("unit", "pair 0 0", "injl {}", "injr {}")

# What is no two bytes, made of the nodes of two_words: each byte too narrow,
# too wide, or none.
BIT_AT, PAIR_AT, HALF_AT, BYTE_AT, BOTH_AT = 1, 17, 25, 29, 31
NO_BYTES = (
    (0, BYTE_AT), (BYTE_AT, 0), (BIT_AT, BYTE_AT), (BYTE_AT, BIT_AT), (PAIR_AT, BYTE_AT),
    (BYTE_AT, PAIR_AT), (HALF_AT, BYTE_AT), (BYTE_AT, HALF_AT), (BOTH_AT, BYTE_AT),
    (BYTE_AT, BOTH_AT), (HALF_AT, HALF_AT), (BOTH_AT, BOTH_AT), (BIT_AT, BIT_AT),
)  # fmt: skip


def jets():
    cells = ["unit", *jet_cells(2, 255, 6)[:31], *lines(SUM_OF_255_AND_6)]
    yield vector("255 + 6", on_words(2, 255, 6), value(57, "; ".join(cells)))
    for a, b in ((0, 0), (1, 2), (255, 1), (1, 255), (255, 255), (128, 128), (127, 128), (85, 170)):
        yield vector(f"{a} + {b}", on_words(2, a, b), jet_due(2, a, b))
        yield vector(f"{a} = {b}", on_words(1, a, b), jet_due(1, a, b))
        yield vector(f"{b} = {b}", on_words(1, b, b), jet_due(1, b, b))
    for room in range(32, 58):
        yield vector(f"add_8 in {room} cells", on_words(2, 3, 4), no(CELLS, 32), size=WIDTH * room)
    for room in (32, 33):
        yield vector(f"eq_8 in {room} cells", on_words(1, 3, 4), no(CELLS, 32), size=WIDTH * room)
    for jet in range(3, 11):
        yield vector("no such jet here", f"jet {jet}", no(JET, 0), size=5)
        yield vector("no such jet here", on_words(jet, 1, 2), no(JET, 32))


def stuck_nodes():
    for node in ("take 0", "drop 0", "case 0 0", "assertl 0", "assertr 0 0", "jet 0", "jet 1", "jet 2"):
        for size in (5, ROOM):
            yield vector("stuck on unit", f"iden; {node}", no(STUCK, 1), size=size)
        for side in ("injl", "injr"):
            nodes = f"iden; {side} 0; {side} 1; {node}; comp 2 3"
            yield vector("stuck on a side", nodes, no(STUCK, 3), size=15)
    for node in ("case 0 0", "assertl 0", "assertr 0 0", "jet 0", "jet 1", "jet 2"):
        for inner in ("pair 0 0", "pair 1 1"):
            nodes = f"iden; pair 0 0; {inner}; {node}; comp 2 3"
            yield vector("stuck on a pair", nodes, no(STUCK, 3))


def stuck_jets():
    for jet in (1, 2):
        for place in range(1, 17):
            for bit in NO_BITS[: 2 if place == 1 else 4]:
                nodes = on_words(jet, 1, 2).split("; ")
                nodes[place] = bit.format(place - 1)
                yield vector(f"no bit at {place}", "; ".join(nodes), no(STUCK, 32))
        for left, right in NO_BYTES:
            nodes = [*two_words(1, 2), f"pair {left} {right}", f"jet {jet}", "comp 32 33"]
            yield vector(f"no bytes, {left} and {right}", "; ".join(nodes), no(STUCK, 33))
        for side in ("injl", "injr"):
            nodes = [*two_words(1, 2), f"{side} 31", f"jet {jet}", "comp 32 33"]
            yield vector(f"no bytes, {side}", "; ".join(nodes), no(STUCK, 33))


# Two nodes that end a run each in its own way, met in a pair's order and in a comp's.
ENDS = {
    "fail": FAILED,
    "witness 9 0": no(WITNESS, 0),
    "jet 10": no(JET, 0),
    "jet 2": no(STUCK, 0),
}


def orders():
    for first, due in ENDS.items():
        for second in ENDS:
            for join in ("pair 0 1", "comp 0 1"):
                yield vector("the first end", f"{first}; {second}; {join}", due, size=5)
        for parent in ("injl 0", "injr 0", "pair 0 0", "comp 0 0"):
            yield vector("an end before its cell", f"{first}; {parent}", due, size=5)


HAND = (
    meanings, many_values, many_names, tables, counts, passed_on, before_the_run, depths,
    depths_of_comps, rooms, most_cells, jets, stuck_nodes, stuck_jets, orders,
)  # fmt: skip


def hand_vectors():
    return [vector for family in HAND for vector in family()]
