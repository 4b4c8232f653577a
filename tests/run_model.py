"""A model of RUN, written from document 01 alone, to judge the real one by.

run(book, witnesses, nodes, count, size) gives an Answer: the number, place,
count and cell that a run must answer with, and the cells of its table, which
has `size` bytes.  The section "CHECK and the meanings" stands here, and the
refusals 15 to 20 in the order that it gives them; the model of READ passes on
the others.
"""

from typing import NamedTuple

from vectors import ENTRY, KINDS, WIDTH
from booklib import MARKS
from read_model import read, record_at

NODES, STEEP, WITNESS, CELLS, STUCK, JET = range(15, 21)

MOST_ENTRIES = 65535
MOST_DEPTH = 4096

CHILDREN = {
    "injl": (1,), "injr": (1,), "take": (1,), "drop": (1,), "comp": (1, 2), "case": (1, 2),
    "pair": (1, 2), "assertl": (1,), "assertr": (2,),
}  # fmt: skip
VERIFY, EQ_8, ADD_8, FINALIZE = 0, 1, 2, 10

UNIT, LEFT, RIGHT, PAIR = 1, 2, 3, 4


class Answer(NamedTuple):
    number: int
    place: int
    count: int
    cell: int
    cells: tuple = ()  # (kind, left, right) of each


class Refused(Exception):
    """A refusal's number and place."""


class Failed(Exception):
    """FAILED."""


def records_of(book):
    """The mark and fields of each record of a book that READ accepts."""
    records, at = [], 0
    while at < len(book):
        mark, fields = record_at(book, at, len(records))
        records.append((mark, fields))
        at += 2 + 2 * len(fields)
    return records


def is_of(records, number, kind):
    return number < len(records) and MARKS[records[number][0]].kind == kind


def is_formed(records, number, node):
    """Whether a node of the table may stand there."""
    kind, *operands = node
    if not 1 <= kind <= len(KINDS):
        return False
    name = KINDS[kind - 1]
    if name == "witness":
        return is_of(records, operands[1], "type")
    if name == "scribe":
        return is_of(records, operands[0], "value")
    if name == "jet":
        return operands[0] <= FINALIZE
    return all(operands[place - 1] < number for place in CHILDREN.get(name, ()))


def table_of(records, data, count):
    """The nodes of a table, which is judged whole and then node by node."""
    if count == 0:
        raise Refused(NODES, 0)
    if count > MOST_ENTRIES:
        raise Refused(NODES, MOST_ENTRIES)
    if len(data) // WIDTH < count:
        raise Refused(NODES, len(data) // WIDTH)
    nodes = list(ENTRY.iter_unpack(data[: WIDTH * count]))
    for number, node in enumerate(nodes):
        if not is_formed(records, number, node):
            raise Refused(NODES, number)
    return nodes


class Run:
    """The cells, and what is fixed while nodes are entered."""

    def __init__(self, records, witnesses, nodes, room):
        self.records = records
        self.witnesses = witnesses
        self.nodes = nodes
        self.room = room
        self.cells = []
        self.values = {}  # the cell of each value record

    def store(self, node, kind, left=0, right=0):
        if len(self.cells) >= self.room:
            raise Refused(CELLS, node)
        self.cells.append((kind, left, right))
        return len(self.cells) - 1

    def start(self):
        """Cell 0, and one for each value record."""
        self.store(0, UNIT)
        for number, (mark, fields) in enumerate(self.records):
            if MARKS[mark].kind == "value":
                parts = [self.values[field] for field in fields[1:]]
                kind = {"vu": UNIT, "vl": LEFT, "vr": RIGHT, "vp": PAIR}[mark]
                self.values[number] = self.store(0, kind, *parts)

    def enter(self, node, x):
        """A node on cell x: yields each child with its cell, is sent what the child gives."""
        kind, first, second = self.nodes[node]
        name = KINDS[kind - 1]
        if name == "iden":
            return x
        if name == "unit":
            return 0
        if name in ("injl", "injr"):
            inner = yield first, x
            return self.store(node, LEFT if name == "injl" else RIGHT, inner)
        if name in ("take", "drop"):
            parts = self.pair_at(node, x)
            return (yield first, parts[0 if name == "take" else 1])
        if name == "comp":
            middle = yield first, x
            return (yield second, middle)
        if name == "pair":
            left = yield first, x
            right = yield second, x
            return self.store(node, PAIR, left, right)
        if name in ("case", "assertl", "assertr"):
            return (yield self.chosen(node, name, x))
        if name == "fail":
            raise Failed
        if name == "witness":
            return self.witness(node, first, second)
        if name == "scribe":
            return self.values[first]
        return self.jet(node, first, x)

    def pair_at(self, node, x):
        kind, left, right = self.cells[x]
        if kind != PAIR:
            raise Refused(STUCK, node)
        return left, right

    def chosen(self, node, name, x):
        """The side that a case or an assert takes, and the pair that it hands on."""
        _, *sides = self.nodes[node]
        whole, rest = self.pair_at(node, x)
        kind, inner, _ = self.cells[whole]
        if kind not in (LEFT, RIGHT):
            raise Refused(STUCK, node)
        if (name, kind) in (("assertl", RIGHT), ("assertr", LEFT)):
            raise Failed
        return sides[0 if kind == LEFT else 1], self.store(node, PAIR, inner, rest)

    def witness(self, node, name, of_type):
        entry = self.witnesses[2 * name : 2 * name + 2]
        value = int.from_bytes(entry, "little")
        if len(entry) < 2 or not is_of(self.records, value, "value"):
            raise Refused(WITNESS, node)
        if self.records[value][1][0] != of_type:
            raise Refused(WITNESS, node)
        return self.values[value]

    def jet(self, node, jet, x):
        if jet not in (VERIFY, EQ_8, ADD_8):
            raise Refused(JET, node)
        if jet == VERIFY:
            if self.bits(node, x, 1) == "0":
                raise Failed
            return self.store(node, UNIT)
        a, b = (self.bits(node, word, 8) for word in self.pair_at(node, x))
        if jet == EQ_8:
            return self.store_bits(node, "01"[a == b])
        both = format(int(a, 2) + int(b, 2), "09b")
        carry = self.store_bits(node, both[0])
        return self.store(node, PAIR, carry, self.store_bits(node, both[1:]))

    def bits(self, node, x, width):
        """The word of so many bits at cell x, high bit first."""
        if width > 1:
            return "".join(self.bits(node, half, width // 2) for half in self.pair_at(node, x))
        kind, inner, _ = self.cells[x]
        if kind not in (LEFT, RIGHT) or self.cells[inner][0] != UNIT:
            raise Refused(STUCK, node)
        return "0" if kind == LEFT else "1"

    def store_bits(self, node, bits):
        """A word's cells: parts first, left first, and none shared."""
        if len(bits) == 1:
            return self.store(node, RIGHT if bits == "1" else LEFT, self.store(node, UNIT))
        half = len(bits) // 2
        return self.store(
            node, PAIR, self.store_bits(node, bits[:half]), self.store_bits(node, bits[half:])
        )

    def whole(self):
        """The cell that the last node gives for cell 0.

        Those that are entered and have not given a cell yet stand in a row:
        its length is how deep the newest is.
        """
        entered = [self.enter(len(self.nodes) - 1, 0)]
        given = None
        while entered:
            try:
                node, x = entered[-1].send(given)
            except StopIteration as end:
                entered.pop()
                given = end.value
                continue
            if len(entered) == MOST_DEPTH:
                raise Refused(STEEP, node)
            entered.append(self.enter(node, x))
            given = None
        return given


def run(book, witnesses, nodes, count, size):
    """RUN's answer, and its cells."""
    number, place, _ = read(book)
    if number:
        return Answer(number, place, 0, 0)
    records = records_of(book)
    try:
        table = table_of(records, nodes, count)
        state = Run(records, witnesses, table, min(size // WIDTH, MOST_ENTRIES))
        state.start()
        cell = state.whole()
    except Refused as refused:
        return Answer(*refused.args, 0, 0)
    except Failed:
        return Answer(0, 0, 0, 0)
    return Answer(0, 0, len(state.cells), cell, tuple(state.cells))
