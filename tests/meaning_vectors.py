"""Books with the outcome that they must have through CHECK, LOWER and RUN.

    python3 tests/meaning_vectors.py            checks the stored cases
    python3 tests/meaning_vectors.py --write    writes them
    python3 tests/meaning_vectors.py --list     tells what each case is

tests/meaning_cases.py has them, each outcome worked out by hand.  compare/ has the source meaning of its model give
them all, and the model's lowered runs.

The file crates/meaning_vectors/stdin is told in crates/meaning_vectors/src/main.rt.
"""

import glob
import os
import sys

from vectors import ROOT, packed, settle
from booklib import MARKS, decode
from meaning_cases import EXAMPLES, FAILED, all_cases

LEAST_CASES = 300
LEAST_FAILURES = 40
MOST_STORED_BYTES = 500_000


def packed_case(each):
    parts = each.book, each.witnesses, each.due
    return packed(*((len(part), 2) for part in parts)) + b"".join(parts)


def marks_of(each):
    return {line.split()[0] for line in decode(each.book, each.what)}


def complaints(cases, data):
    """What is wrong with the cases themselves."""
    if len(cases) < LEAST_CASES:
        yield f"only {len(cases)} cases"
    failures = sum(each.due == FAILED for each in cases)
    if failures < LEAST_FAILURES:
        yield f"only {failures} failures"
    missing = set(MARKS).difference(*map(marks_of, cases))
    if missing:
        yield f"no case has {sorted(missing)}"
    for path in glob.glob(os.path.join(ROOT, "examples", "*.txt")):
        if os.path.basename(path)[: -len(".txt")] not in EXAMPLES:
            yield f"{os.path.relpath(path, ROOT)} is no case"
    if len(data) > MOST_STORED_BYTES:
        yield f"{len(data)} bytes are too many to store"


def main():
    cases = all_cases()
    data = b"".join(map(packed_case, cases))
    listed = [(each.what, ("failed" if each.due == FAILED else "value",)) for each in cases]
    failures = sum(each.due == FAILED for each in cases)
    said = f"meaning vectors: {len(cases)} by hand, {failures} of them failures"
    return settle("meaning_vectors", listed, data, complaints(cases, data), said)


if __name__ == "__main__":
    sys.exit(main())
