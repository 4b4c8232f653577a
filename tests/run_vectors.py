"""Node tables with the answer that RUN must give to each of them.

    python3 tests/run_vectors.py            checks the stored vectors
    python3 tests/run_vectors.py --write    writes them
    python3 tests/run_vectors.py --list     tells what each vector is

Those of tests/run_cases.py are written by hand, with every cell, and the model
of tests/run_model.py must agree.  Those that end with a value are also run in
exactly their cells and in a byte less.  The vectors of chance are small tables
of any nodes.  For both of these the model alone says what they must give.  A
jet's vector is run on every two bytes: the program works out the result, and
here the model is asked about some of them.

The file crates/run_vectors/stdin is told in crates/run_vectors/src/main.rt.
"""

import random
import sys

from vectors import ENTRY, KINDS, WIDTH, packed, settle
from run_cases import FILLED, ROOM, VALUES, Due, hand_vectors, jet_cells, on_words, value, vector
from run_model import LEFT, RIGHT, STUCK, run

LEAST_HAND_VECTORS = 600
MOST_STORED_BYTES = 1_000_000

# What the program has room for: the constants of crates/run_vectors/src/main.rt.
MOST_BOOK, MOST_WITNESSES, MOST_TABLE = 65536, 131072, 327690
PLACES = 164  # how many it reads of a jet's bits

INJL = 1 + KINDS.index("injl")


def answer_of(each):
    """What the model says."""
    answer = run(each.book, each.witnesses, each.nodes, each.count, each.size)
    return Due(*answer[:4], b"".join(ENTRY.pack(*cell) for cell in answer.cells))


def exact(vectors):
    """Those that end with a value, in exactly their cells and in a byte less."""
    for each in vectors:
        size = WIDTH * each.due.count
        if size and each.size == ROOM:
            whole = each._replace(what=f"{each.what}, in its cells", size=size)
            less = whole._replace(what=f"{each.what}, in a byte less", size=size - 1)
            yield whole
            yield less._replace(due=answer_of(less))


# --- Tables of any nodes -------------------------------------------------------------

CHANCE_TABLES = 800

# Kinds as often as they stand here: the leaves that end a run are rare.
CHANCE_KINDS = (
    "iden " * 5 + "unit " * 3 + "injl " * 4 + "injr " * 4 + "take " * 4 + "drop " * 4 + "comp " * 9
    + "case " * 5 + "pair " * 9 + "assertl " * 2 + "assertr " * 2 + "fail witness witness scribe "
    + "scribe scribe jet"
).split()  # fmt: skip


class Chance:
    """Random numbers, the same everywhere: of random's methods only random() never changes."""

    def __init__(self, seed):
        self.source = random.Random(seed)

    def below(self, limit):
        return int(self.source.random() * limit)

    def of(self, row):
        return row[self.below(len(row))]

    def child(self, number):
        """A node below, rather a near one."""
        return number - 1 - min(self.below(number), self.below(number))

    def node(self, number):
        kind = "iden" if number == 0 else self.of(CHANCE_KINDS)
        children = f"{self.child(number)} {self.child(number)}" if number else ""
        operands = {
            "witness": f"{self.below(3)} {self.below(3)}",
            "scribe": f"{3 + self.below(4)}",
            "jet": f"{self.below(4)}",
        }
        return f"{kind} {operands.get(kind, children)}"


def chance_vectors():
    """Of those that are stuck, as most would be, one in five."""
    for seed in range(CHANCE_TABLES):
        chance = Chance(seed)
        nodes = "; ".join(chance.node(number) for number in range(4 + chance.below(9)))
        entries = [3 + chance.below(4) for _ in range(chance.below(4))]
        size = 25 + chance.below(150)
        made = vector("chance", nodes, None, VALUES, entries, size=size)
        due = answer_of(made)
        if due.number != STUCK or seed % 5 == 0:
            yield made._replace(due=due)


# --- A jet on every two bytes ----------------------------------------------------------


def four_uses(jet, words):
    """A vector: a jet on two words, four times, joined by pairs."""
    nodes = [on_words(jet, a, b, 34 * use) for use, (a, b) in enumerate(words)]
    cells, ends = ["unit"], []
    for use, (a, b) in enumerate(words):
        cells += jet_cells(jet, a, b, len(cells))
        ends.append(len(cells) - 1)
        if use % 2:
            cells.append(f"pair {ends[-2]} {ends[-1]}")
            ends[-2:] = [len(cells) - 1]
    joins = ["pair 33 67", "pair 101 135", "pair 136 137"]
    due = value(len(cells), "; ".join([*cells, f"pair {ends[0]} {ends[1]}"]))
    return vector(f"jet {jet} on every two bytes", "; ".join([*nodes, *joins]), due, size=1500)


def every_two_bytes():
    """Each jet on zeros, and where the bits of each use stand, from the lowest on.

    Their places are 16 nodes, 16 cells and the cells of the result.
    """
    for jet in (2, 1):
        made = four_uses(jet, [(0, 0)] * 4)
        cells = made.due.cells
        sides = [k for k in range(made.due.count) if cells[WIDTH * k] in (LEFT, RIGHT)]
        bits, places = len(sides) // 4, []
        for use in range(4):
            own = sides[bits * use : bits * (use + 1)]
            places += [*range(34 * use + 16, 34 * use, -1), *own[15::-1], *own[:15:-1]]
        yield made._replace(result=bits - 16, places=bytes(places).ljust(PLACES, b"\0"))


def with_bits(table, places, kind, number):
    """A table with entries of this kind, or the next, by the bits of a number."""
    out = bytearray(table)
    for k, place in enumerate(places):
        out[WIDTH * place] = kind + (number >> k & 1)
    return bytes(out)


def on_numbers(each, first):
    """A jet's vector on four numbers of two bytes, as the program makes it."""
    nodes, cells, width = each.nodes, each.due.cells, 32 + each.result
    for use in range(4):
        places = each.places[width * use : width * (use + 1)]
        a, b = divmod(first + use, 256)
        nodes = with_bits(nodes, places[:16], INJL, first + use)
        cells = with_bits(cells, places[16:32], LEFT, first + use)
        cells = with_bits(cells, places[32:], LEFT, a + b if each.result == 9 else int(a == b))
    return each._replace(nodes=nodes, due=each.due._replace(cells=cells))


# --- The file -----------------------------------------------------------------------------


def grown(entry, growth):
    """The next entry of a table that grows: its numbers are more by the bits of growth."""
    kind, left, right = entry
    return kind, (left + growth % 2) % 65536, (right + growth // 2) % 65536


def shortest(table):
    """As few bytes as a table can be grown from, and how it grows.

    Odd bytes at its end are not grown; what is not given of them is as the
    program fills a table.
    """
    whole = len(table) - len(table) % WIDTH
    if table[whole:] != FILLED[: len(table) - whole]:
        return table, 0
    entries = list(ENTRY.iter_unpack(table[:whole]))
    kept = []
    for growth in range(4):
        k = len(entries)
        while k > 1 and grown(entries[k - 2], growth) == entries[k - 1]:
            k -= 1
        kept.append(k)
    growth = kept.index(min(kept))
    return table[: WIDTH * kept[growth]], growth


def packed_vector(each):
    nodes, nodes_growth = shortest(each.nodes)
    cells, cells_growth = shortest(each.due.cells)
    head = (
        *each.due[:4], each.count, each.size, len(each.book), len(each.witnesses), len(each.nodes),
        len(nodes), nodes_growth, len(cells), cells_growth, each.result,
    )  # fmt: skip
    data = each.book + each.witnesses + nodes + cells + each.places
    return packed(*((number, 4) for number in head)) + data


def complaints(hand, vectors, swept, data):
    """What is wrong with the vectors themselves."""
    for each in hand:
        answer = answer_of(each)
        if answer != each.due:
            yield f"{each.what}: the model gives {answer[:4]}, expected {each.due[:4]}"
    for each, jet in zip(swept, (2, 1)):
        for first in range(0, 65536, 4 * 97):
            made = on_numbers(each, first)
            due = four_uses(jet, [divmod(first + use, 256) for use in range(4)])
            if (made.nodes, made.due) != (due.nodes, due.due) or answer_of(made) != made.due:
                yield f"{each.what}: another answer from {first} on"
    for each in vectors:
        sizes = len(each.book), len(each.witnesses), max(each.size, len(each.nodes))
        if any(size > most for size, most in zip(sizes, (MOST_BOOK, MOST_WITNESSES, MOST_TABLE))):
            yield f"{each.what}: too long"
    if len(hand) < LEAST_HAND_VECTORS:
        yield f"only {len(hand)} hand vectors"
    missing = {0, *range(1, 10), *range(15, 21)} - {each.due.number for each in hand}
    if missing:
        yield f"no hand vector gives {sorted(missing)}"
    if len(data) > MOST_STORED_BYTES:
        yield f"{len(data)} bytes are too many to store"


def main():
    hand, swept = hand_vectors(), list(every_two_bytes())
    tight, chance = list(exact(hand)), list(chance_vectors())
    vectors = hand + tight + chance + swept
    data = b"".join(map(packed_vector, vectors))
    listed = [(each.what, each.due[:4]) for each in vectors]
    said = f"run vectors: {len(hand)} by hand, {len(tight)} in their cells, {len(chance)} of chance"
    return settle("run_vectors", listed, data, complaints(hand, vectors, swept, data), said)


if __name__ == "__main__":
    sys.exit(main())
