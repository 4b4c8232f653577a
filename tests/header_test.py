"""include/simplicityhl.h gives a name to each number of the library: these are held against the papers' tables."""

import os
import re
import unittest

ROOT = os.path.dirname(os.path.dirname(os.path.abspath(__file__)))


def text_of(*path):
    with open(os.path.join(ROOT, *path), encoding="utf-8") as stream:
        return stream.read()


def header(prefix):
    """The header's names that begin so, without that, in order, each with its number."""
    found = re.findall(rf"\bSIMPLICITYHL_{prefix}(\w+) = (\d+)", text_of("include", "simplicityhl.h"))
    return [(int(number), name) for name, number in found]


class Header(unittest.TestCase):
    def test_refusals(self):
        rows = re.findall(r"^\| (\d+) \| ([A-Z]+) \|", text_of("docs", "BOOK.md"), re.M)
        self.assertEqual(header("REFUSED_"), [(int(number), name) for number, name in rows])
        self.assertEqual(len(rows), 20)

    def test_kinds_of_nodes(self):
        kinds = re.findall(r"\| (\d+) \| ([a-z]+) (?=\|)", text_of("docs", "LOWERING.md"))
        self.assertEqual(header("NODE_"), sorted((int(number), kind.upper()) for number, kind in kinds))
        self.assertEqual(len(kinds), 15)

    def test_jets_and_cells_are_all_there(self):
        self.assertEqual([number for number, _ in header("JET_")], list(range(11)))
        self.assertEqual([number for number, _ in header("CELL_")], [1, 2, 3, 4])

    def test_no_name_twice(self):
        names = [name for _, name in header("")]
        self.assertEqual(len(names), len(set(names)))


if __name__ == "__main__":
    unittest.main()
