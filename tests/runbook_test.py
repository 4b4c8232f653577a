"""The program runbook from outside: how it takes its input, and how it prints a
value. It is run as a user runs it, so rt must have proved it before."""

import os
import subprocess
import unittest

from vectors import LISTING, ROOT, book, packed, stored
from booklib import encode_labelled, witness_list

MOST = 65536  # characters of a value's text

# Types 0 to 2 are unit, bit and two bits; values 3 to 5 are (), false and true.
BITS = "tu; ts 0 0; tp 1 1; vu 0; vl 1 3; vr 1 3;"


def given(text, witnesses=()):
    """The program's input: length, book, witness list."""
    data = book(text)
    return packed((len(data), 2)) + data + packed(*((entry, 2) for entry in witnesses))


def example(name, *words):
    """The same from a text of examples/, with witnesses by their labels."""
    text = stored(os.path.join(ROOT, "examples", name + ".txt")).decode()
    data, labels = encode_labelled(text, name)
    return packed((len(data), 2)) + data + witness_list(words, labels)


def word(bits):
    """A word's text, from its bits."""
    if len(bits) == 1:
        return "L ()" if bits == "0" else "R ()"
    half = len(bits) // 2
    return f"({word(bits[:half])}, {word(bits[half:])})"


def printed(data):
    command = [os.path.join(ROOT, "run"), "runbook"]
    return subprocess.run(command, input=data, stdout=subprocess.PIPE, check=True).stdout.decode()


def wide(size):
    """Records of a constant whose text has this even number of characters: 2 for
    (), 2 more for a left, 4 more for a pair. The pair of two alike is one record more."""
    lines, texts = ["tu; vu 0"], ["()"]

    def add(line, text):
        lines.append(line)
        texts.append(text)

    while 2 * len(texts[-1]) + 4 <= size:
        add(f"vp 0 {len(texts)} {len(texts)}", f"({texts[-1]}, {texts[-1]})")
    while len(texts[-1]) < size:
        short = size - len(texts[-1])
        part = max(k for k, text in enumerate(texts) if len(text) + 4 <= short or k == 0)
        if short >= 6:
            add(f"vp 0 {len(texts)} {part + 1}", f"({texts[-1]}, {texts[part]})")
        else:
            add(f"vl 0 {len(texts)}", f"L {texts[-1]}")
    return "; ".join([*lines, f"ec 0 {len(texts)}"]), texts[-1]


class Values(unittest.TestCase):
    def test_the_listing(self):
        self.assertEqual(printed(given(LISTING)), "value\nR ()\n")

    def test_an_example_vault(self):
        paid = f"value\n({word('00000000')}, {word('00001000')})\n"
        shut = f"value\n({word('00000001')}, {word('11111111')})\n"
        cases = {"@small": paid, "@large": "failed\n", "@ours": shut, "@theirs": "failed\n"}
        for choice, said in cases.items():
            self.assertEqual(printed(example("vault_two", choice)), said, choice)
        self.assertEqual(printed(example("vault_two")), "refused 17 at 51\n")
        # rt runs the program on the first of them.
        folder = os.path.join(ROOT, "crates", "runbook")
        self.assertEqual(stored(os.path.join(folder, "stdin")), example("vault_two", "@small"))
        self.assertEqual(stored(os.path.join(folder, "stdout")).decode(), paid)

    def test_sides_and_pairs(self):
        cases = {
            "ec 0 3": "()",
            "ec 1 4": "L ()",
            "vp 2 4 5; ec 2 6": "(L (), R ())",
            "vp 2 4 5; vp 0 6 6; ec 0 7": "((L (), R ()), (L (), R ()))",
            "vl 0 4; vr 0 6; vp 0 7 3; ec 0 8": "(R L L (), ())",
            "et 0 0; e1 0 6; e0 0 7": "L R ()",
            "ec 0 4; ec 0 3; ec 0 5; et 0 3 6 7 8": "(L (), ((), R ()))",
        }
        for text, said in cases.items():
            self.assertEqual(printed(given(BITS + text)), f"value\n{said}\n", text)

    def test_a_text_is_cut_after_65536_characters(self):
        for size in (2, 4, 100, MOST - 2, MOST):
            text, said = wide(size)
            self.assertEqual(len(said), size)
            self.assertEqual(printed(given(text)), f"value\n{said}\n")
        for size in (MOST + 2, MOST + 4, 4 * MOST):
            text, said = wide(size)
            self.assertEqual(printed(given(text)), f"value\n{said[:MOST]} ...\n")

    def test_a_value_wider_than_the_world(self):
        pairs = "; ".join(f"vp 0 {k} {k}" for k in range(1, 251))
        said = printed(given(f"tu; vu 0; {pairs}; ec 0 251"))
        self.assertEqual(len(said), len("value\n") + MOST + len(" ...\n"))
        self.assertTrue(said.startswith("value\n" + 250 * "(" + "()"))

    def test_a_value_that_nests_deeply(self):
        # Function 4 pairs its accumulator with (), function 24 does so 16 times,
        # and the last record has it do so 256 times: 4,096 pairs in each other.
        row = "; ".join(["et 0 0"] * 16)
        inner = " ".join(str(k) for k in range(5, 21))
        step = "tu; ev 0 2; et 0 0; et 0 2 1 2; fn 0 2 1 0 2 0 3"
        twice = f"{row}; et 0 16 {inner}; ev 0 2; cy 0 4 16 21 22; fn 0 2 1 0 2 0 23"
        outer = " ".join(str(k) for k in range(25, 281))
        whole = f"{'; '.join(['et 0 0'] * 256)}; et 0 256 {outer}; et 0 0; cy 0 24 256 281 282"
        said = printed(given(f"{step}; {twice}; {whole}"))
        self.assertEqual(said, "value\n" + 4096 * "(" + "()" + 4096 * ", ())" + "\n")


class Ends(unittest.TestCase):
    def test_failures_and_refusals(self):
        cases = {
            "cp 0 0": "failed",
            "ec 1 4; ca 0 0 6": "failed",
            "ec 1 5; ca 0 0 6": "value\n()",
            "ev 0 9": "refused 10 at 6",
            "tu": "refused 7 at 6",
            "ew 1 3": "refused 17 at 0",
            "ec 0 3; ck 1 6; ca 0 0 7": "refused 19 at 1",
        }
        for text, said in cases.items():
            self.assertEqual(printed(given(BITS + text)), said + "\n", text)

    def test_the_witness_list(self):
        text = BITS + "ew 1 1"
        no, yes = "refused 17 at 0\n", "value\nR ()\n"
        cases = {(): no, (5,): no, (0, 5): yes, (5, 3): no, (9, 5, 9): yes}
        for entries, said in cases.items():
            self.assertEqual(printed(given(text, entries)), said, entries)
        whole = given(text, (9, 5))
        self.assertEqual(printed(whole[:-1]), no)
        self.assertEqual(printed(whole + b"\7"), yes)
        # The last name that a witness may have; what follows is not looked at.
        last = given(BITS + "ew 1 65535", [0] * 65535 + [5])
        for data, said in ((last, yes), (last + bytes(9), yes), (last[:-2], no)):
            self.assertEqual(printed(data), said)


class ShortInputs(unittest.TestCase):
    """The listing's records begin at the bytes 0, 2, 8, 12, 18, 22, 28, 34 and 40."""

    STARTS = (0, 2, 8, 12, 18, 22, 28, 34, 40, 50)

    def test_a_book_that_ends_early_is_cut(self):
        whole = given(LISTING)
        for there in range(50):
            record = max(k for k, start in enumerate(self.STARTS) if start <= there)
            self.assertEqual(printed(whole[: 2 + there]), f"refused 3 at {record}\n", there)

    def test_a_whole_book_is_not_run_where_more_is_announced(self):
        data = book(LISTING)
        for more in (1, 2, 3, 100):
            self.assertEqual(printed(packed((50 + more, 2)) + data), "refused 3 at 9\n", more)
        self.assertEqual(printed(packed((65535, 2)) + data), "refused 3 at 9\n")

    def test_no_length_or_none_of_it(self):
        for data in (b"", b"\0", b"\0\0", b"\0\0tu"):
            self.assertEqual(printed(data), "refused 1 at 0\n", data)
        for data in (b"\1", b"\1\0", b"\0\1"):
            self.assertEqual(printed(data), "refused 3 at 0\n", data)


if __name__ == "__main__":
    unittest.main()
