"""What the scripts that make vectors share: books and tables from text, the
stored files of a program that replays vectors, and the command line.

The program NAME is run on crates/NAME/stdin and must print what stands in
crates/NAME/stdout: how many vectors there were, and that none was wrong.
"""

import argparse
import os
import struct
import sys

HERE = os.path.dirname(os.path.abspath(__file__))
ROOT = os.path.dirname(HERE)
sys.path[:0] = [os.path.join(ROOT, "tools")]

from booklib import encode

# Document 01, "One listing whole".
LISTING = "tu; ts 0 0; vu 0; vr 1 2; pi 7; ec 1 3; sa 4 5; ev 1 7; eb 1 1 6 7"
LISTING_NODES = "scribe 3; iden; pair 0 1; iden; take 3; comp 2 4"

# A node or a cell in its table: its kind and two numbers, low byte first.
ENTRY = struct.Struct("<BHH")
WIDTH = ENTRY.size  # five bytes

# Document 01, "Stored order": the kinds of nodes, from 1 on.
KINDS = (
    "iden unit injl injr take drop comp case pair assertl assertr fail witness scribe jet"
).split()


def book(*texts):
    """A book from text, whatever its counts say."""
    return encode("\n".join(texts), "vector", raw=True)


def packed(*fields):
    """Numbers with their widths, each low byte first."""
    return b"".join(value.to_bytes(width, "little") for value, width in fields)


def file_of(vectors):
    """The file of a call that is given a book alone: each book behind the answer that is due, as number, place and count."""
    out = bytearray()
    for _, (number, place, count), data in vectors:
        out += packed((number, 1), (place, 2), (count, 2), (len(data), 3)) + data
    return bytes(out)


def records(text):
    """The records of a text in which a field may be a label as it is."""
    for record in text.replace("\n", ";").split(";"):
        label, colon, rest = record.rpartition(":")
        words = rest.split()
        if words:
            fields = [word if word.isdigit() else f"@{word}" for word in words[1:]]
            yield f"{label}{colon} {' '.join([words[0], *fields])}"


def split(count):
    """Document 01, "Balanced trees": how many of a row of 2 or more stand on the left."""
    return count - (1 << (count - 1).bit_length()) // 2


class Types:
    """The records of a book whose types are made as they are asked for, each once."""

    def __init__(self):
        self.lines = []
        self.types = {}

    def record(self, mark, *fields):
        self.lines.append(" ".join(map(str, (mark, *fields))))
        return len(self.lines) - 1

    def type(self, *what):
        if what not in self.types:
            self.types[what] = self.record(*what)
        return self.types[what]

    def unit(self):
        return self.type("tu")

    def bit(self):
        return self.type("ts", self.unit(), self.unit())

    def row(self, mark, types):
        """A balanced tree: a row of products, or an enum's sums."""
        if len(types) == 1:
            return types[0]
        left = split(len(types))
        return self.type(mark, self.row(mark, types[:left]), self.row(mark, types[left:]))

    def array(self, element, size):
        return self.row("tp", [element] * size)

    def block(self, element, size):
        return self.type("ts", self.unit(), self.array(element, size))

    def list(self, bound, element, alien=None):
        """The type of lists; `alien` may change a block, by its size."""
        half = bound // 2
        block = (alien and alien(self, half)) or self.block(element, half)
        return block if half == 1 else self.type("tp", block, self.list(half, element, alien))


def table_of(text, kinds=KINDS):
    """A table from text: entries, each its kind and two numbers.

    A kind may also be a number, so that it can be a wrong one; numbers that
    are left out are 0.
    """
    return b"".join(entry(words, kinds) for words in map(str.split, text.split(";")) if words)


def entry(words, kinds):
    kind, left, right = (*words, 0, 0)[:3]
    number = int(kind) if kind.isdigit() else kinds.index(kind) + 1
    return ENTRY.pack(number, int(left), int(right))


def stored(path):
    if not os.path.exists(path):
        return b""
    with open(path, "rb") as stream:
        return stream.read()


def write(path, data):
    with open(path, "wb") as stream:
        stream.write(data)


def files(program, data, count):
    """The stored files of a program, with what each must hold."""
    folder = os.path.join(ROOT, "crates", program)
    yield os.path.join(folder, "stdin"), data
    yield os.path.join(folder, "stdout"), b"vectors %d\nwrong 0\n" % count


def settle(program, listed, data, wrong, said):
    """Does what the command line asks for, and gives the exit status.

    `listed` has what each vector is and what it must give, `data` them all,
    `wrong` what is wrong with them; `said` is told in the end.
    """
    parser = argparse.ArgumentParser(description=f"the vectors of {program}")
    parser.add_argument("--write", action="store_true", help="write the stored files")
    parser.add_argument("--list", action="store_true", help="tell each vector")
    chosen = parser.parse_args()
    if chosen.list:
        for number, (what, answer) in enumerate(listed):
            print(number, *answer, what)
    wrong = list(wrong)
    for path, due in files(program, data, len(listed)):
        if chosen.write and not wrong:
            write(path, due)
        if stored(path) != due:
            wrong.append(f"{os.path.relpath(path, ROOT)} differs: run with --write")
    for line in wrong:
        print(line, file=sys.stderr)
    print(said)
    return 1 if wrong else 0
