"""Books with the answer that CHECK must give to each of them.

    python3 tests/check_vectors.py            checks the stored vectors
    python3 tests/check_vectors.py --write    writes them
    python3 tests/check_vectors.py --list     tells what each vector is

All are written by hand from document 01, "CHECK and the meanings" and the order of judgement under "Refusals by
number": each rule broken alone, and of two faults the one that comes first.  A case is a line: what CHECK must say, and
the records after the base.  `ok` is a book that passes, with as many records as it has; else the refusal and the label of
its place.  The examples of docs/CHECKING.md are among them, and examples/ whole.  compare/ has the model answer them all.

The file crates/check_vectors/stdin holds for each vector: number (1 byte), place (2), count (2),
length of the book (3), the book; low byte first.
"""

import glob
import os
import re
import sys

from vectors import LISTING, ROOT, Types, book, file_of, records, settle, split
from booklib import decode, encode, encode_labelled

UNDEFINED, TYPE, NAME = 10, 13, 14
REFUSALS = {"UNDEFINED": UNDEFINED, "TYPE": TYPE, "NAME": NAME}

LEAST_HAND_VECTORS = 150
LEAST_EXAMPLES = 30
MOST_STORED_BYTES = 1_000_000

# Words of 2 to 256 bits, the results of the jets, options, enums, lists and tuples.  Patterns x, y and z bind 1, 2 and 3.
BASE = """
    u: tu; bit: ts u u
    w2: tp bit bit; w4: tp w2 w2; w8: tp w4 w4; w16: tp w8 w8; w32: tp w16 w16
    w64: tp w32 w32; w128: tp w64 w64; w256: tp w128 w128
    carried: tp bit w8; uu: tp u u; two: tp u bit; three: tp bit w2; five: tp bit w4
    opt: ts u bit; some2: ts u w2; list4: tp some2 opt; enum3: ts two opt
    U: vu u; no: vl bit U; yes: vr bit U
    x: pi 1; y: pi 2; z: pi 3; any: pn; none: pt 0; xy: pt 2 x y; xx: pt 2 x x
"""


def answer_of(due, labels, count):
    if due == "ok":
        return 0, 0, count
    refusal, label = due.split()
    return REFUSALS[refusal], labels[label], 0


def vector(what, due, text):
    lines = list(records(text))
    data, labels = encode_labelled("\n".join(lines), what)
    return what, answer_of(due, labels, len(lines)), data


def cases(text, first=""):
    """The cases of a text; a line without a bar is a comment."""
    for line in text.splitlines():
        due, bar, rest = line.partition("|")
        if bar:
            yield vector(rest.strip(), due.strip(), f"{BASE};{first};{rest}")


# --- Values ---------------------------------------------------------------------

VALUES = """
    ok     | a: vu u; ec u a
    TYPE a | a: vu bit; ec u U
    TYPE a | a: vu two; ec u U
    ok     | a: vl opt U; ec opt a
    TYPE a | a: vl opt no; ec u U
    TYPE a | a: vl two U; ec u U
    TYPE a | a: vl u U; ec u U
    ok     | a: vr opt yes; ec opt a
    TYPE a | a: vr opt U; ec u U
    TYPE a | a: vr two yes; ec u U
    TYPE a | a: vr u U; ec u U
    ok     | a: vp two U no; ec two a
    TYPE a | a: vp two no no; ec u U
    TYPE a | a: vp two U U; ec u U
    TYPE a | a: vp opt U no; ec u U
    TYPE a | a: vp u U U; ec u U
  the first of two; a part that is wrong itself has its declared type all the same
    TYPE a | a: vu bit; b: vu bit; ec u U
    TYPE a | a: vu bit; b: vp w2 a U; ec u U
    TYPE b | a: vl opt U; b: vp w2 a no; ec u U
  before functions and the root, though it stands behind them
    TYPE a | e: ev u 1; g: fn u 0 e; a: vu bit; ec u U
    TYPE a | e: ew u 0; g: fn u 2 1 u 1 u e; a: vu bit; ec u U
    TYPE a | e: ec u no; s: se e; a: vu bit; eb u 1 s 65535
"""

# --- Leaves, tuples and injections ------------------------------------------------

LEAVES = """
    ok     | ec bit yes
    TYPE r | r: ec u yes
    TYPE r | r: ec opt yes
    ok     | ew w256 7
    ok     | cp u 0
    ok     | cp w256 9
    ok     | cp opt 0
  the input has no name
    UNDEFINED r | r: ev u 0
    UNDEFINED r | r: ev bit 1
"""

TUPLES = """
    ok     | et u 0
    TYPE r | r: et bit 0
    TYPE r | r: et uu 0
    TYPE r | r: et two 0
    ok     | a: ew bit 0; et bit 1 a
    TYPE r | a: ew bit 0; r: et u 1 a
    ok     | a: ew uu 0; et uu 1 a
    ok     | a: ew u 0; b: ew bit 0; et two 2 a b
    TYPE r | a: ew bit 0; b: ew u 0; r: et two 2 a b
    TYPE r | a: ew bit 0; b: ew bit 0; r: et two 2 a b
    TYPE r | a: ew u 0; b: ew u 0; r: et two 2 a b
    TYPE r | a: ew u 0; b: ew bit 0; r: et opt 2 a b
    TYPE r | a: ew u 0; r: et two 1 a
    TYPE r | a: ew u 0; b: ew bit 0; c: ew u 0; r: et two 3 a b c
  three are one and two, five one and four
    ok     | a: ew bit 0; b: ew bit 0; c: ew bit 0; et three 3 a b c
    ok     | a: ew bit 0; b: ew w2 0; et three 2 a b
    TYPE r | t: tp w2 bit; a: ew bit 0; b: ew bit 0; c: ew bit 0; r: et t 3 a b c
    ok     | a: ew bit 0; b: ew bit 0; c: ew bit 0; d: ew bit 0; e: ew bit 0; et five 5 a b c d e
    TYPE r | t: tp w2 three; a: ew bit 0; b: ew bit 0; c: ew bit 0; d: ew bit 0; e: ew bit 0; r: et t 5 a b c d e
    TYPE r | a: ew bit 0; b: ew bit 0; c: ew bit 0; d: ew bit 0; e: ew u 0; r: et five 5 a b c d e
  parts first, and from the left
    TYPE a | a: ec u yes; b: ev bit 1; et w2 2 a b
    UNDEFINED b | a: ew u 0; b: ev bit 1; et w2 2 a b
    UNDEFINED a | a: ev u 1; b: ec bit U; et two 2 a b
    TYPE a | a: ec bit U; b: et bit 1 a; et u 1 b
"""

INJECTIONS = """
    ok     | a: ew u 0; e0 opt a
    TYPE r | a: ew bit 0; r: e0 opt a
    TYPE r | a: ew u 0; r: e0 two a
    TYPE r | a: ew u 0; r: e0 u a
    TYPE a | a: ec u yes; e0 two a
    ok     | a: ew bit 0; e1 opt a
    TYPE r | a: ew u 0; r: e1 opt a
    TYPE r | a: ew bit 0; r: e1 two a
    TYPE r | a: ew u 0; r: e1 u a
    UNDEFINED a | a: ev bit 1; e1 two a
  None and Some
    ok     | a: et u 0; e0 some2 a
    TYPE r | t: ts bit w2; a: et u 0; r: e0 t a
"""

# --- Variants -----------------------------------------------------------------------

VARIANTS = """
    ok     | en u 0 1 0
    TYPE r | r: en bit 0 1 0
    TYPE r | r: en uu 0 1 0
    ok     | a: ew bit 0; en bit 0 1 1 a
    ok     | a: ew bit 0; b: ew bit 0; en w2 0 1 2 a b
    TYPE r | a: ew bit 0; b: ew u 0; r: en w2 0 1 2 a b
    ok     | en opt 0 2 0
    TYPE r | a: ew bit 0; r: en opt 0 2 1 a
    ok     | a: ew bit 0; en opt 1 2 1 a
    TYPE r | r: en opt 1 2 0
    TYPE r | a: ew bit 0; r: en two 1 2 1 a
    ok     | a: ew u 0; b: ew bit 0; en enum3 0 3 2 a b
    TYPE r | a: ew u 0; r: en enum3 0 3 1 a
    TYPE r | a: ew bit 0; b: ew u 0; r: en enum3 0 3 2 a b
    ok     | en enum3 1 3 0
    TYPE r | a: ew bit 0; r: en enum3 1 3 1 a
    ok     | a: ew bit 0; en enum3 2 3 1 a
    TYPE r | r: en enum3 2 3 0
  a place for each variant, not only for this one
    TYPE r | r: en some2 0 3 0
    TYPE r | t: ts bit w2; r: en t 0 4 0
    TYPE r | t: ts w2 bit; r: en t 3 4 0
    ok     | t: ts bit opt; en t 0 4 0
    TYPE r | t: ts bit opt; r: en t 3 4 0
    ok     | t: ts bit opt; a: ew bit 0; en t 3 4 1 a
    UNDEFINED a | a: ev u 1; en some2 0 3 1 a
"""

# --- Blocks ---------------------------------------------------------------------------

BLOCKS = """
    ok     | eb u 0 65535
    TYPE r | r: eb bit 0 65535
    TYPE r | r: eb uu 0 65535
    ok     | a: ew bit 0; eb bit 0 a
    TYPE r | a: ew bit 0; r: eb u 0 a
    TYPE a | a: ec bit U; eb u 0 a
    ok     | a: ew u 0; s: se a; eb u 1 s 65535
    TYPE s | a: ew bit 0; s: se a; eb u 1 s 65535
    TYPE s | a: ew uu 0; s: se a; eb u 1 s 65535
    TYPE a | a: ec bit U; s: se a; eb u 1 s 65535
  statements in their order, then the end, then the block
    TYPE s | a: ew bit 0; s: se a; b: ev u 9; eb u 1 s b
    TYPE s | a: ew bit 0; s: se a; b: ev u 9; k: se b; eb u 2 s k 65535
    UNDEFINED b | a: ew u 0; s: se a; b: ev u 9; k: se b; eb bit 2 s k 65535
    UNDEFINED b | b: ev u 9; a: ew u 0; s: se a; eb bit 1 s b
    TYPE r | a: ew u 0; s: se a; r: eb bit 1 s 65535
    TYPE k | a: ew bit 0; k: se a; b: ew bit 0; s: se b; eb u 2 k s 65535
    TYPE s | a: ew bit 0; k: se a; b: ew bit 0; s: se b; eb u 2 s k 65535
"""

# --- Names --------------------------------------------------------------------------------

NAMES = """
    ok     | a: ew bit 0; s: sa x a; b: ev bit 1; eb bit 1 s b
    TYPE b | a: ew bit 0; s: sa x a; b: ev u 1; eb u 1 s b
    UNDEFINED b | a: ew bit 0; s: sa x a; b: ev bit 2; eb bit 1 s b
    UNDEFINED b | a: ew bit 0; s: sa any a; b: ev bit 1; eb bit 1 s b
    UNDEFINED b | a: ew u 0; s: sa none a; b: ev u 1; eb u 1 s b
    UNDEFINED b | a: ew bit 0; s: sa x a; b: ev u 9; eb u 1 s b
  a binding begins after its own expression
    UNDEFINED a | a: ev bit 1; s: sa x a; eb u 1 s 65535
    UNDEFINED a | a: ev bit 1; k: se a; b: ew bit 0; s: sa x b; eb u 2 k s 65535
  the newest binding of a name
    ok     | a: ew bit 0; s: sa x a; b: ew u 0; k: sa x b; c: ev u 1; eb u 2 s k c
    TYPE c | a: ew bit 0; s: sa x a; b: ew u 0; k: sa x b; c: ev bit 1; eb bit 2 s k c
    ok     | a: ew bit 0; s: sa x a; b: ev bit 1; k: sa x b; c: ev bit 1; eb bit 2 s k c
    ok     | a: ew bit 0; s: sa x a; b: ew two 0; k: sa xy b; c: ev u 1; eb u 2 s k c
    ok     | a: ew two 0; s: sa xy a; b: ew two 0; k: sa x b; c: ev bit 2; eb bit 2 s k c
  a block ends its bindings, and sees those around it
    ok     | a: ew bit 0; s: sa x a; b: ev bit 1; i: eb bit 0 b; eb bit 1 s i
    UNDEFINED b | a: ew u 0; s: sa x a; i: eb u 1 s 65535; b: ev u 1; et uu 2 i b
    UNDEFINED b | a: ew u 0; s: sa x a; i: eb u 1 s 65535; k: se i; b: ev u 1; eb u 1 k b
    ok     | o: ew bit 0; k: sa x o; a: ew u 0; s: sa x a; i: eb u 1 s 65535; l: se i; b: ev bit 1; eb bit 2 k l b
    TYPE b | o: ew bit 0; k: sa x o; a: ew u 0; s: sa x a; i: eb u 1 s 65535; l: se i; b: ev u 1; eb u 2 k l b
    TYPE b | o: ew bit 0; k: sa x o; a: ew u 0; s: sa x a; b: ev bit 1; i: eb bit 1 s b; eb bit 1 k i
  an arm ends its own
    UNDEFINED b | m: ew bit 0; a: ev u 1; b: ev u 1; em u m x a any b
    UNDEFINED m | m: ev bit 1; a: ev u 1; b: ev u 1; em u m x a x b
    UNDEFINED c | m: ew bit 0; a: ev u 1; b: ev u 1; e: em u m x a x b; c: ev u 1; et uu 2 e c
    ok     | o: ew opt 0; s: sa x o; m: ew bit 0; a: ew opt 0; b: ev opt 1; e: em opt m x a any b; eb opt 1 s e
    TYPE b | o: ew opt 0; s: sa x o; m: ew bit 0; a: ew opt 0; b: ev opt 1; e: em opt m any a x b; eb opt 1 s e
    ok     | o: ew opt 0; s: sa x o; m: ev opt 1; a: ew u 0; b: ew u 0; e: em u m x a x b; eb u 1 s e
    UNDEFINED b | m: ew enum3 0; a: ev two 1; b: ev two 1; c: ew two 0; eh two m 3 x a y b any c
  a name's type is that of its place
    ok     | a: ew two 0; s: sa xy a; b: ev u 1; eb u 1 s b
    ok     | a: ew two 0; s: sa xy a; b: ev bit 2; eb bit 1 s b
    TYPE b | a: ew two 0; s: sa xy a; b: ev bit 1; eb bit 1 s b
    ok     | p: pt 5 any any any any x; q: tp w2 two; r5: tp bit q; a: ew r5 0; s: sa p a; b: ev bit 1; eb bit 1 s b
    ok     | p: pt 5 any any any x y; q: tp w2 two; r5: tp bit q; a: ew r5 0; s: sa p a; b: ev u 1; eb u 1 s b
    ok     | p: pt 2 any xy; q: tp w2 two; a: ew q 0; s: sa p a; b: ev u 1; eb u 1 s b
    TYPE b | p: pt 2 any xy; q: tp w2 two; a: ew q 0; s: sa p a; b: ev bit 1; eb bit 1 s b
    ok     | p: pt 1 x; a: ew two 0; s: sa p a; b: ev two 1; eb two 1 s b
"""

# --- Patterns ---------------------------------------------------------------------------------

PATTERNS = """
    ok     | a: ew w256 0; s: sa any a; eb u 1 s 65535
    ok     | a: ew opt 0; s: sa x a; eb u 1 s 65535
  an empty row is for unit alone
    ok     | a: ew u 0; s: sa none a; eb u 1 s 65535
    TYPE s | a: ew bit 0; s: sa none a; eb u 1 s 65535
    TYPE s | a: ew uu 0; s: sa none a; eb u 1 s 65535
    TYPE s | a: ew two 0; s: sa none a; eb u 1 s 65535
    ok     | p: pt 2 none none; a: ew uu 0; s: sa p a; eb u 1 s 65535
    TYPE s | p: pt 2 none none; a: ew two 0; s: sa p a; eb u 1 s 65535
    TYPE s | p: pt 1 none; a: ew uu 0; s: sa p a; eb u 1 s 65535
    ok     | p: pt 1 none; q: pt 1 p; a: ew u 0; s: sa q a; eb u 1 s 65535
  rows by their splits
    TYPE s | a: ew bit 0; s: sa xy a; eb u 1 s 65535
    TYPE s | a: ew u 0; s: sa xy a; eb u 1 s 65535
    ok     | p: pt 3 x y z; a: ew three 0; s: sa p a; eb u 1 s 65535
    TYPE s | p: pt 3 x y z; t: tp w2 bit; a: ew t 0; s: sa p a; eb u 1 s 65535
    TYPE s | p: pt 3 x y z; a: ew two 0; s: sa p a; eb u 1 s 65535
    ok     | p: pt 2 xy z; t: tp w2 bit; a: ew t 0; s: sa p a; eb u 1 s 65535
    TYPE s | p: pt 2 xy z; a: ew three 0; s: sa p a; eb u 1 s 65535
    TYPE s | p: pt 2 any none; a: ew two 0; s: sa p a; eb u 1 s 65535
    ok     | p: pt 2 none any; a: ew two 0; s: sa p a; eb u 1 s 65535
  one pattern, fit for one type and not for another
    TYPE k | a: ew two 0; s: sa xy a; b: ew bit 0; k: sa xy b; eb u 2 s k 65535
    TYPE s | a: ew bit 0; s: sa xy a; b: ew two 0; k: sa xy b; eb u 2 s k 65535
    ok     | a: ew two 0; s: sa xy a; b: ew w2 0; k: sa xy b; eb u 2 s k 65535
  a name twice
    NAME s | a: ew two 0; s: sa xx a; eb u 1 s 65535
    NAME s | p: pt 2 xy x; a: ew w4 0; s: sa p a; eb u 1 s 65535
    NAME s | p: pt 2 xy xy; a: ew w4 0; s: sa p a; eb u 1 s 65535
    NAME s | p: pt 2 any xx; a: ew w4 0; s: sa p a; eb u 1 s 65535
    NAME s | p: pt 3 x any x; a: ew three 0; s: sa p a; eb u 1 s 65535
    NAME s | o: pi 1; p: pt 2 x o; a: ew w2 0; s: sa p a; eb u 1 s 65535
    NAME s | o: pi 65535; p: pt 2 o o; a: ew w2 0; s: sa p a; eb u 1 s 65535
    ok     | o: pi 65535; k: pi 0; p: pt 2 o k; a: ew w2 0; s: sa p a; eb u 1 s 65535
    ok     | p: pt 2 any any; a: ew w2 0; s: sa p a; eb u 1 s 65535
    ok     | p: pt 2 xy z; a: ew w4 0; s: sa p a; eb u 1 s 65535
    ok     | a: ew two 0; s: sa xy a; b: ew two 0; k: sa xy b; eb u 2 s k 65535
  only where it fits, and only where it is bound
    TYPE s | a: ew bit 0; s: sa xx a; eb u 1 s 65535
    TYPE s | p: pt 2 xx any; a: ew three 0; s: sa p a; eb u 1 s 65535
    ok     | et u 0
  its expression first, then what follows it
    TYPE a | a: ec two U; s: sa xx a; eb u 1 s 65535
    NAME s | a: ew two 0; s: sa xx a; b: ev u 9; eb bit 1 s b
    TYPE s | a: ew bit 0; s: sa xy a; b: ev u 9; eb bit 1 s b
    NAME s | a: ew two 0; s: sa xx a; b: ew bit 0; k: sa xy b; eb u 2 s k 65535
    TYPE k | a: ew two 0; s: sa xx a; b: ew bit 0; k: sa xy b; eb u 2 k s 65535
"""

# --- Matches --------------------------------------------------------------------------------------

MATCHES = """
    ok     | m: ew opt 0; a: ev u 1; b: ew u 0; em u m x a y b
    ok     | m: ew opt 0; a: ew bit 0; b: ev bit 2; em bit m x a y b
    ok     | m: ew enum3 0; a: ev bit 2; b: ew bit 0; em bit m xy a z b
    TYPE a | m: ew opt 0; a: ev bit 1; b: ew bit 0; em bit m x a y b
    TYPE b | m: ew opt 0; a: ew u 0; b: ev u 2; em u m x a y b
  the scrutinee's type before the first arm
    TYPE r | m: ew two 0; a: ev u 9; b: ev u 9; r: em u m x a y b
    TYPE r | m: ew u 0; a: ev u 9; b: ev u 9; r: em u m x a y b
    TYPE r | m: ev two 9; a: ev u 9; b: ev u 9; r: em u m xx a y b
  each pattern before its own arm, each arm before the next pattern
    TYPE r | m: ew opt 0; a: ev u 9; b: ev u 9; r: em u m xy a y b
    NAME r | m: ew enum3 0; a: ev u 9; b: ev u 9; r: em u m xx a y b
    UNDEFINED a | m: ew opt 0; a: ev u 9; b: ev u 9; em u m x a xy b
    TYPE r | m: ew opt 0; a: ew u 0; b: ev u 9; r: em u m x a xy b
    NAME r | m: ew some2 0; a: ew u 0; b: ev u 9; r: em u m x a xx b
    TYPE r | m: ew opt 0; a: ew u 0; b: ev u 9; r: em u m x a xx b
    UNDEFINED b | m: ew opt 0; a: ew u 0; b: ev u 9; em u m x a y b
  arms before the scrutinee, the scrutinee before the whole
    UNDEFINED a | m: ec opt U; a: ev u 9; b: ew u 0; em u m x a y b
    TYPE r | m: ec opt U; a: ew u 0; b: ew u 0; r: em u m x a xy b
    TYPE m | m: ec opt U; a: ew u 0; b: ew u 0; em u m x a y b
    TYPE m | m: ec opt U; a: ew u 0; b: ew bit 0; em bit m x a y b
    UNDEFINED m | m: ev opt 9; a: ew u 0; b: ew bit 0; em w2 m x a y b
    TYPE r | m: ew opt 0; a: ew u 0; b: ew bit 0; r: em u m x a y b
    TYPE r | m: ew opt 0; a: ew bit 0; b: ew u 0; r: em u m x a y b
    TYPE r | m: ew opt 0; a: ew u 0; b: ew u 0; r: em bit m x a y b
"""

ENUM_MATCHES = """
    ok     | m: ew bit 0; a: ev bit 1; eh bit m 1 x a
    ok     | m: ew two 0; a: ev bit 2; eh bit m 1 xy a
    NAME r | m: ew two 0; a: ev bit 2; r: eh bit m 1 xx a
    TYPE r | m: ew bit 0; a: ev bit 2; r: eh bit m 1 xy a
    ok     | m: ew opt 0; a: ev u 1; b: ew u 0; eh u m 2 x a y b
    ok     | m: ew enum3 0; a: ev bit 2; b: ew bit 0; c: ev bit 3; eh bit m 3 xy a any b z c
    TYPE r | m: ew enum3 0; a: ev u 9; b: ew u 0; c: ew u 0; d: ew u 0; r: eh u m 4 any a any b any c any d
    TYPE r | m: ew some2 0; a: ev u 9; b: ew u 0; c: ew u 0; r: eh u m 3 any a any b any c
    TYPE r | t: ts bit w2; m: ew t 0; a: ev u 9; b: ew u 0; c: ew u 0; d: ew u 0; r: eh u m 4 any a any b any c any d
    ok     | t: ts bit opt; m: ew t 0; a: ev u 1; b: ev u 1; c: ev u 1; d: ew u 0; eh u m 4 x a x b x c x d
    TYPE d | t: ts bit opt; m: ew t 0; a: ev u 1; b: ev u 1; c: ev u 1; d: ev u 1; eh u m 4 x a x b x c x d
    TYPE r | m: ew list4 0; a: ev u 9; b: ew u 0; r: eh u m 2 x a y b
    TYPE r | m: ew enum3 0; a: ew u 0; b: ev u 9; c: ew u 0; r: eh u m 3 x a xy b z c
    UNDEFINED b | m: ew enum3 0; a: ew u 0; b: ev u 9; c: ew u 0; eh u m 3 x a y b xy c
    TYPE r | m: ew enum3 0; a: ew u 0; b: ew u 0; c: ev u 9; r: eh u m 3 x a y b xy c
    UNDEFINED c | m: ev enum3 9; a: ew u 0; b: ew u 0; c: ev u 9; eh u m 3 x a y b z c
    UNDEFINED m | m: ev enum3 9; a: ew u 0; b: ew u 0; c: ew bit 0; eh u m 3 x a y b z c
    TYPE r | m: ew enum3 0; a: ew u 0; b: ew u 0; c: ew bit 0; r: eh u m 3 x a y b z c
    TYPE r | m: ew enum3 0; a: ew u 0; b: ew bit 0; c: ew u 0; r: eh u m 3 x a y b z c
    TYPE r | m: ew enum3 0; a: ew bit 0; b: ew u 0; c: ew u 0; r: eh u m 3 x a y b z c
    TYPE r | m: ew enum3 0; a: ew u 0; b: ew u 0; c: ew u 0; r: eh bit m 3 x a y b z c
"""

# --- Calls ---------------------------------------------------------------------------------------------

JETS = """
    ok     | a: ew bit 0; cj u 0 0 1 a
    TYPE r | a: ew u 0; r: cj u 0 0 1 a
    TYPE r | a: ew opt 0; r: cj u 0 0 1 a
    TYPE r | a: ew bit 0; r: cj bit 0 0 1 a
    TYPE r | r: cj u 0 0 0
    TYPE r | a: ew bit 0; b: ew bit 0; r: cj u 0 0 2 a b
    ok     | a: ew w8 0; b: ew w8 0; cj bit 0 1 2 a b
    TYPE r | a: ew w4 0; b: ew w8 0; r: cj bit 0 1 2 a b
    TYPE r | a: ew w8 0; b: ew w16 0; r: cj bit 0 1 2 a b
    TYPE r | a: ew w8 0; b: ew w8 0; r: cj u 0 1 2 a b
    TYPE r | a: ew w8 0; r: cj bit 0 1 1 a
    TYPE r | a: ew w16 0; r: cj bit 0 1 1 a
    TYPE r | a: ew w8 0; b: ew w8 0; c: ew w8 0; r: cj bit 0 1 3 a b c
    TYPE r | r: cj bit 0 1 0
    ok     | a: ew w8 0; b: ew w8 0; cj carried 0 2 2 a b
    TYPE r | a: ew w8 0; b: ew w8 0; r: cj bit 0 2 2 a b
    TYPE r | a: ew w8 0; b: ew w8 0; r: cj w8 0 2 2 a b
    TYPE r | a: ew w8 0; b: ew w8 0; t: tp w8 bit; r: cj t 0 2 2 a b
    TYPE r | a: ew w8 0; b: ew w8 0; t: tp u w8; r: cj t 0 2 2 a b
    TYPE r | a: ew w8 0; b: ew w8 0; r: cj five 0 2 2 a b
    TYPE r | a: ew w8 0; b: ew bit 0; r: cj carried 0 2 2 a b
    TYPE r | a: ew w8 0; r: cj carried 0 2 1 a
    UNDEFINED b | a: ew u 0; b: ev w8 9; cj u 0 1 2 a b
    UNDEFINED c | a: ew w8 0; b: ew w8 0; c: ev w8 9; cj bit 0 1 3 a b c
"""

BUILTINS = """
    ok     | a: ew opt 0; cl u 0 a
    TYPE r | a: ew opt 0; r: cl bit 0 a
    TYPE r | a: ew two 0; r: cl u 0 a
    TYPE r | a: ew u 0; r: cl u 0 a
    UNDEFINED a | a: ev two 9; cl u 0 a
    ok     | a: ew opt 0; cr bit 0 a
    TYPE r | a: ew opt 0; r: cr u 0 a
    TYPE r | a: ew two 0; r: cr bit 0 a
    TYPE r | a: ew u 0; r: cr u 0 a
    ok     | a: ew two 0; cd two 5 a
    TYPE r | a: ew two 0; r: cd uu 5 a
    TYPE a | a: ec two U; cd uu 5 a
    ok     | a: ew bit 0; ca u 0 a
    TYPE r | a: ew bit 0; r: ca bit 0 a
    TYPE r | a: ew u 0; r: ca u 0 a
    TYPE r | a: ew opt 0; r: ca u 0 a
    TYPE r | t: ts bit u; a: ew t 0; r: ca u 0 a
    TYPE r | a: ew w2 0; r: ca u 0 a
    ok     | a: ew opt 0; cn bit a
    ok     | a: ew bit 0; cn bit a
    ok     | a: ew enum3 0; cn bit a
    TYPE r | a: ew opt 0; r: cn opt a
    TYPE r | a: ew opt 0; r: cn u a
    TYPE r | a: ew two 0; r: cn bit a
    TYPE r | a: ew u 0; r: cn bit a
    TYPE a | a: ec opt U; cn u a
    ok     | a: ew two 0; ck two a
    TYPE r | a: ew two 0; r: ck uu a
    UNDEFINED a | a: ev two 9; ck uu a
"""

FUNCTIONS = """
    ok     | a: ew u 0; b: ew bit 0; cf bit g 2 a b
    TYPE r | r: cf bit g 0
    TYPE r | a: ew u 0; r: cf bit g 1 a
    TYPE r | a: ew u 0; b: ew bit 0; c: ew bit 0; r: cf bit g 3 a b c
    TYPE r | a: ew two 0; r: cf bit g 1 a
    TYPE r | a: ew bit 0; b: ew bit 0; r: cf bit g 2 a b
    TYPE r | a: ew u 0; b: ew u 0; r: cf bit g 2 a b
    TYPE r | a: ew u 0; b: ew bit 0; r: cf u g 2 a b
    UNDEFINED b | a: ew bit 0; b: ev bit 9; cf u g 2 a b
    UNDEFINED a | a: ev u 9; cf bit g 1 a
    ok     | cf bit zero 0
    TYPE r | a: ew u 0; r: cf bit zero 1 a
  called twice, and from a function
    ok     | a: cf bit zero 0; b: cf bit zero 0; et w2 2 a b
    ok     | a: cf bit zero 0; h: fn bit 0 a; cf bit h 0
    TYPE a | a: cf u zero 0; h: fn u 0 a; ew u 0
  not called, and judged all the same
    TYPE h | e: ev u 1; h: fn bit 1 1 u e; ew u 0
    TYPE e | e: ec u yes; h: fn u 0 e; ew u 0
    NAME h | e: ew u 0; h: fn u 2 1 u 1 u e; ew u 0
    NAME h | e: ew u 0; h: fn u 3 1 u 2 bit 1 u e; ew u 0
  parameter names, the body, what it gives
    NAME h | e: ev u 9; h: fn bit 2 1 u 1 u e; ew u 0
    UNDEFINED e | e: ev u 9; h: fn bit 1 1 u e; ew u 0
    TYPE h | e: ew u 0; h: fn bit 0 e; ec u yes
  in record order, before the root
    NAME h | e: ew u 0; h: fn u 2 1 u 1 u e; k: ev u 9; l: fn u 0 k; ew u 0
    UNDEFINED k | k: ev u 9; l: fn u 0 k; e: ew u 0; h: fn u 2 1 u 1 u e; ew u 0
    UNDEFINED k | o: ec u yes; s: se o; k: ev u 9; l: fn u 0 k; eb u 1 s 65535
  its parameters only
    ok     | e: ev bit 1; h: fn bit 1 1 bit e; a: ew bit 0; cf bit h 1 a
    UNDEFINED e | e: ev u 1; h: fn u 0 e; a: ew u 0; s: sa x a; c: cf u h 0; eb u 1 s c
    UNDEFINED e | e: ev u 1; h: fn u 1 2 u e; a: ew u 0; s: sa x a; b: ev u 1; c: cf u h 1 b; eb u 1 s c
    UNDEFINED a | e: ev u 1; h: fn u 1 1 u e; a: ev u 1; cf u h 1 a
    TYPE e | e: ev u 1; h: fn u 2 1 bit 2 u e; ew u 0
    ok     | e: ev u 2; h: fn u 2 1 bit 2 u e; ew u 0
    ok     | e: ew u 0; s: sa x e; k: ev u 1; b: eb u 1 s k; h: fn u 1 1 bit b; ew u 0
    TYPE k | e: ew u 0; s: sa x e; k: ev bit 1; b: eb bit 1 s k; h: fn bit 1 1 bit b; ew u 0
    ok     | e: ev bit 1; s: sa y e; k: ev bit 2; b: eb bit 1 s k; h: fn bit 1 1 bit b; ew u 0
  one name for two functions' parameters
    ok     | e: ev u 1; h: fn u 1 1 u e; k: ev bit 1; l: fn bit 1 1 bit k; ew u 0
"""

FUNCTIONS_FIRST = "e0: ev bit 2; g: fn bit 2 1 u 2 bit e0; e1: ew bit 0; zero: fn bit 0 e1"

# Folds over bits with an accumulator of two bits.
FOLDS_FIRST = """
    e0: ev w2 2; fold: fn w2 2 1 bit 2 w2 e0
    e1: ew u 0; gives: fn u 2 1 bit 2 w2 e1
    e2: ew w2 0; element: fn w2 2 1 u 2 w2 e2
    e3: ew w2 0; started: fn w2 2 1 bit 2 u e3
    e4: ew w2 0; more: fn w2 3 1 bit 2 w2 3 u e4
    e5: ew w2 0; one: fn w2 1 1 bit e5
    e6: ew w2 0; turned: fn w2 2 1 w2 2 bit e6
"""

FOLDS = """
    ok     | a: ew {row} 0; b: ew w2 0; {fold} w2 fold {size} a b
    TYPE r | a: ew {other} 0; b: ew w2 0; r: {fold} w2 fold {size} a b
    TYPE r | a: ew u 0; b: ew w2 0; r: {fold} w2 fold {size} a b
    TYPE r | a: ew w256 0; b: ew w2 0; r: {fold} w2 fold {size} a b
    TYPE r | a: ew {row} 0; b: ew u 0; r: {fold} w2 fold {size} a b
    TYPE r | a: ew {row} 0; b: ew w2 0; r: {fold} u fold {size} a b
    TYPE r | a: ew {row} 0; b: ew w2 0; r: {fold} w2 gives {size} a b
    TYPE r | a: ew {row} 0; b: ew w2 0; r: {fold} u gives {size} a b
    TYPE r | a: ew {row} 0; b: ew w2 0; r: {fold} w2 element {size} a b
    TYPE r | a: ew {row} 0; b: ew w2 0; r: {fold} w2 started {size} a b
    TYPE r | a: ew {row} 0; b: ew u 0; r: {fold} w2 started {size} a b
    TYPE r | a: ew {row} 0; b: ew w2 0; r: {fold} w2 more {size} a b
    TYPE r | a: ew {row} 0; b: ew w2 0; r: {fold} w2 one {size} a b
    TYPE r | a: ew {row} 0; b: ew w2 0; r: {fold} w2 turned {size} a b
  the row, then the accumulator, then the whole
    UNDEFINED a | a: ev {row} 9; b: ec w2 U; {fold} u fold {size} a b
    TYPE b | a: ew u 0; b: ec w2 U; {fold} u fold {size} a b
"""

# Loops of width 4 over an accumulator of a bit, in a context of two.
LOOPS_FIRST = """
    e0: ew opt 0; loop: fn opt 3 1 bit 2 w2 3 w4 e0
    e1: ew opt 0; counts: fn opt 3 1 bit 2 w2 3 w2 e1
    e2: ew opt 0; context: fn opt 3 1 bit 2 u 3 w4 e2
    e3: ew opt 0; carries: fn opt 3 1 u 2 w2 3 w4 e3
    e4: ew two 0; pairs: fn two 3 1 bit 2 w2 3 w4 e4
    e5: ew opt 0; none3: fn opt 2 1 bit 2 w2 e5
    e6: ew opt 0; more: fn opt 4 1 bit 2 w2 3 w4 4 u e6
    back: ts bit u; e7: ew back 0; turned: fn back 3 1 bit 2 w2 3 w4 e7
"""

LOOPS = """
    ok     | a: ew bit 0; b: ew w2 0; cw opt loop 4 a b
    TYPE r | a: ew bit 0; b: ew w2 0; r: cw opt counts 4 a b
    TYPE r | a: ew bit 0; b: ew w2 0; r: cw opt loop 2 a b
    TYPE r | a: ew bit 0; b: ew w2 0; r: cw opt loop 8 a b
    TYPE r | a: ew u 0; b: ew w2 0; r: cw opt loop 4 a b
    TYPE r | a: ew bit 0; b: ew u 0; r: cw opt loop 4 a b
    TYPE r | a: ew w2 0; b: ew bit 0; r: cw opt loop 4 a b
    TYPE r | a: ew bit 0; b: ew w2 0; r: cw bit loop 4 a b
    TYPE r | a: ew bit 0; b: ew w2 0; r: cw opt context 4 a b
    TYPE r | a: ew bit 0; b: ew w2 0; r: cw opt carries 4 a b
    TYPE r | a: ew u 0; b: ew w2 0; r: cw opt carries 4 a b
    TYPE r | a: ew bit 0; b: ew w2 0; r: cw two pairs 4 a b
    TYPE r | a: ew bit 0; b: ew w2 0; r: cw opt none3 4 a b
    TYPE r | a: ew bit 0; b: ew w2 0; r: cw opt more 4 a b
    TYPE r | a: ew bit 0; b: ew w2 0; r: cw back turned 4 a b
    UNDEFINED a | a: ev bit 9; b: ec w2 U; cw bit loop 4 a b
    TYPE b | a: ew u 0; b: ec w2 U; cw bit loop 4 a b
"""

HASHES = """
    ok     | ch w256 0 0
    TYPE r | r: ch w128 0 0
    TYPE r | r: ch u 0 0
    ok     | a: ew w8 0; b: ew w256 0; ch w256 0 2 8 a 256 b
    TYPE r | a: ew w8 0; b: ew w256 0; r: ch w256 0 2 256 a 8 b
    TYPE r | a: ew w8 0; b: ew w128 0; r: ch w256 0 2 8 a 256 b
    TYPE r | a: ew u 0; r: ch w256 0 1 8 a
    UNDEFINED b | a: ew u 0; b: ev w8 9; ch w256 0 2 8 a 8 b
    TYPE b | a: ew w8 0; b: ec w8 U; ch u 0 2 8 a 8 b
"""


def folds():
    lists = FOLDS.format(fold="cq", size=4, row="list4", other="opt")
    arrays = FOLDS.format(fold="cy", size=3, row="three", other="w2")
    yield from cases(lists, FOLDS_FIRST)
    yield from cases(arrays, FOLDS_FIRST)


# --- Every size of lists, arrays, words, rows and enums ---------------------------------------------------


class Writer(Types):
    """A book whose types are made as they are asked for, each once."""

    def witness(self, t):
        return self.record("ew", t, 0)

    def vector(self, what, number=0):
        """Refused at the last record, or passed."""
        count = len(self.lines)
        answer = (number, count - 1, 0) if number else (0, 0, count)
        return what, answer, book(*self.lines)


BOUNDS = (2, 4, 8, 16, 32, 64, 128, 256)

# A block is another in its element, in its size, in what stands left of it, or is no sum.
ALIENS = {
    "of units": lambda writer, size: writer.block(writer.unit(), size),
    "of twice the size": lambda writer, size: writer.block(writer.bit(), 2 * size),
    "with a bit on its left": lambda writer, size: writer.type("ts", writer.bit(), writer.array(writer.bit(), size)),
    "that is never empty": lambda writer, size: writer.array(writer.bit(), size),
    "turned": lambda writer, size: writer.type("ts", writer.array(writer.bit(), size), writer.unit()),
}
# With these for its only block, a type of bound 2 is that of other lists.
OTHER_LISTS = ("of units", "of twice the size", "that is never empty")


def lists():
    for bound in BOUNDS:
        for count in sorted({0, 1, bound // 2, bound - 1}):
            writer = Writer()
            t = writer.list(bound, writer.bit())
            elements = [writer.witness(writer.bit()) for _ in range(count)]
            writer.record("el", t, bound, count, *elements)
            yield writer.vector(f"a list of bound {bound}, {count} elements")
        yield from wrong_elements(bound)
        yield from alien_blocks(bound)


def wrong_elements(bound):
    for wrong in sorted({0, bound - 2}):
        writer = Writer()
        t = writer.list(bound, writer.bit())
        types = [writer.bit()] * (bound - 1)
        types[wrong] = writer.unit()
        writer.record("el", t, bound, bound - 1, *[writer.witness(each) for each in types])
        yield writer.vector(f"a list of bound {bound}, element {wrong} is unit", TYPE)
    for other in {bound // 2, 2 * bound} & set(BOUNDS):
        writer = Writer()
        writer.record("el", writer.list(other, writer.bit()), bound, 0)
        yield writer.vector(f"a list of bound {bound}, of the type of bound {other}", TYPE)


def alien_blocks(bound):
    """Each block in turn is another; only the last says by itself what the elements are."""
    for size in (half for half in (1, *BOUNDS) if half < bound):
        for what, alien in ALIENS.items():
            if bound == 2 and what in OTHER_LISTS:
                continue
            writer = Writer()
            t = writer.list(bound, writer.bit(), lambda w, s: alien(w, s) if s == size else None)
            writer.record("el", t, bound, 0)
            yield writer.vector(f"a list of bound {bound}, the block of {size} {what}", TYPE)


def fold_sizes():
    for mark, sizes in (("cq", BOUNDS), ("cy", (1, 2, 3, 4, 5, 8, 127, 128, 255, 256))):
        for size in sizes:
            yield fold_of(mark, size, size, 0)
            for other in {size - 1, size + 1, 2 * size, size // 2} & set(range(1 if mark == "cy" else 2, 257)):
                if mark == "cy" or other in BOUNDS:
                    yield fold_of(mark, size, other, TYPE)


def fold_of(mark, size, real, number):
    """A fold of a size over the type of another."""
    writer = Writer()
    unit, bit = writer.unit(), writer.bit()
    t = writer.list(real, bit) if mark == "cq" else writer.array(bit, real)
    function = writer.record("fn", unit, 2, 1, bit, 2, unit, writer.witness(unit))
    writer.record(mark, unit, function, size, writer.witness(t), writer.witness(unit))
    return writer.vector(f"{mark} of {size} over {real}", number)


def words():
    """The counter of a loop and the arguments of a hash, of each width with each word."""
    for width in (1, 2, 4, 8, 16):
        for bits in (1, 2, 4, 8, 16, 32):
            writer = Writer()
            unit, bit = writer.unit(), writer.bit()
            word = writer.array(bit, bits)
            function = writer.record("fn", bit, 3, 1, unit, 2, unit, 3, word, writer.witness(bit))
            writer.record("cw", bit, function, width, writer.witness(unit), writer.witness(unit))
            yield writer.vector(f"cw of {width} with a counter of {bits}", 0 if bits == width else TYPE)
    for width in (8, 16, 32, 64, 128, 256):
        for bits in (4, 8, 16, 32, 64, 128, 256):
            writer = Writer()
            whole = writer.array(writer.bit(), 256)
            writer.record("ch", whole, 0, 1, width, writer.witness(writer.array(writer.bit(), bits)))
            yield writer.vector(f"ch of {width} with a word of {bits}", 0 if bits == width else TYPE)
    # Of the right size and shape, but its last bits are units or options.
    for what in ("tu", "ts"):
        writer = Writer()
        alien = writer.unit() if what == "tu" else writer.type("ts", writer.unit(), writer.bit())
        byte = writer.row("tp", [writer.bit()] * 7 + [alien])
        whole = writer.array(writer.bit(), 256)
        writer.record("ch", whole, 0, 1, 8, writer.witness(byte))
        yield writer.vector(f"ch of a byte whose last bit is another type, {what}", TYPE)


def wide_rows():
    for size in (2, 3, 5, 6, 7, 8, 9, 31, 32, 33, 255, 256):
        for wrong in (None, 0, size - 1):
            writer = Writer()
            unit, bit = writer.unit(), writer.bit()
            t = writer.array(bit, size)
            types = [unit if k == wrong else bit for k in range(size)]
            writer.record("et", t, size, *[writer.witness(each) for each in types])
            yield writer.vector(f"a tuple of {size}, part {wrong} is unit", 0 if wrong is None else TYPE)


def wide_enums():
    for size in (2, 3, 5, 8, 9, 255, 256):
        for index in sorted({0, size // 2, size - 1}):
            for short in (False, True):
                yield enum_of(size, index, short)
        for arms in sorted({1, size - 1, size, size + 1} & set(range(1, 257))):
            yield enum_match(size, arms)


def places(writer, size):
    """The types of an enum's variants, no two alike and none a sum: units in pairs, ever deeper."""
    kinds = [writer.unit()]
    while len(kinds) < 4:
        kinds.append(writer.type("tp", kinds[-1], writer.unit()))
    return [kinds[k % 4] for k in range(size)]


def enum_of(size, index, short):
    """A variant whose payload is right, of a type that lacks a place if it is `short`."""
    writer = Writer()
    types = places(writer, size - 1 if short else size)
    payload = types[min(index, len(types) - 1)]
    writer.record("en", writer.row("ts", types), index, size, 1, writer.witness(payload))
    return writer.vector(f"variant {index} of {size}, {'a place short' if short else 'whole'}", TYPE if short else 0)


def enum_match(size, arms):
    writer = Writer()
    unit = writer.unit()
    t = writer.row("ts", places(writer, size))
    nothing = writer.record("pn")
    scrutinee = writer.witness(t)
    row = [field for _ in range(arms) for field in (nothing, writer.witness(unit))]
    writer.record("eh", unit, scrutinee, arms, *row)
    number = 0 if has_places(size, arms) else TYPE
    return writer.vector(f"a match of {arms} arms on an enum of {size}", number)


def has_places(size, arms):
    """Whether an enum of so many variants, none a sum, has a place for each of so many arms."""
    if arms == 1:
        return True
    if size == 1:
        return False
    left, first = split(size), split(arms)
    return has_places(left, first) and has_places(size - left, arms - first)


# --- Many bindings, shared patterns -------------------------------------------------------------------------


def many_bindings():
    """Blocks in blocks, which bind far more names than LOWER can hold at once, and ask for the oldest."""
    for name, t, number in ((1, "bit", 0), (1, "unit", TYPE), (2, "unit", 0), (3, "unit", UNDEFINED)):
        writer = Writer()
        unit, bit = writer.unit(), writer.bit()
        patterns = {n: writer.record("pi", n) for n in (1, 2)}
        declared = {"bit": bit, "unit": unit}[t]
        whole = asked = writer.record("ev", declared, name)
        for level in range(7, 0, -1):
            statements = []
            for k in range(256):
                first = level == 1 and k == 0
                e = writer.witness(bit if first else unit)
                statements.append(writer.record("sa", patterns[1 if first else 2], e))
            whole = writer.record("eb", declared, 256, *statements, whole)
        answer = (number, asked, 0) if number else (0, 0, len(writer.lines))
        yield f"1,792 bindings live, name {name} as {t}", answer, book(*writer.lines)


DEPTH = 250


def doubled(writer, first, mark):
    """A record of 2 to the 250 leaves, and those below it."""
    rows = [first]
    for _ in range(DEPTH):
        fields = (2, rows[-1], rows[-1]) if mark == "pt" else (rows[-1], rows[-1])
        rows.append(writer.type(mark, *fields))
    return rows


def bound(writer, pattern, t, due, name=7):
    """The answer and the book of a block that binds the pattern to a witness and asks for the name."""
    unit = writer.unit()
    statement = writer.record("sa", pattern, writer.witness(t))
    asked = writer.record("ev", unit, name)
    writer.record("eb", unit, 1, statement, asked)
    places = {0: 0, TYPE: statement, NAME: statement, UNDEFINED: asked}
    return (due, places[due], 0 if due else len(writer.lines)), book(*writer.lines)


def shared_patterns():
    def start():
        writer = Writer()
        return writer, doubled(writer, writer.unit(), "tp"), doubled(writer, writer.record("pn"), "pt")

    writer, types, nameless = start()
    yield "2^250 leaves without a name", *bound(writer, nameless[-1], types[-1], UNDEFINED)
    writer, types, nameless = start()
    named = doubled(writer, writer.record("pi", 7), "pt")
    yield "2^250 leaves of one name", *bound(writer, named[-1], types[-1], NAME)
    for turned in (False, True):
        for other in (None, 7, 8):
            writer, types, nameless = start()
            pattern = writer.record("pi", 7)
            for level in range(DEPTH):
                beside = nameless[level]
                if level == DEPTH - 1 and other is not None:
                    # The other half has a name too, at the end of its own path.
                    beside = writer.record("pi", other)
                    for below in range(DEPTH - 1):
                        beside = writer.record("pt", 2, nameless[below], beside)
                row = (beside, pattern) if turned else (pattern, beside)
                pattern = writer.record("pt", 2, *row)
            due = NAME if other == 7 else 0
            what = f"one name 7 in 2^250 leaves, {'last' if turned else 'first'}, and {other}"
            yield what, *bound(writer, pattern, types[-1], due)
    # Patterns a level too deep or too shallow, and a type with one odd leaf.
    writer, types, nameless = start()
    yield "patterns of a level more", *bound(writer, nameless[-1], types[-2], TYPE)
    writer, types, nameless = start()
    yield "patterns of a level less", *bound(writer, nameless[-2], types[-1], UNDEFINED)
    for turned in (False, True):
        for leaf in ("pn", "pt 0"):
            writer = Writer()
            types = doubled(writer, writer.unit(), "tp")
            rows = doubled(writer, writer.record(*leaf.split()), "pt")
            odd = writer.bit()
            for level in range(DEPTH - 2):
                odd = writer.type("tp", *((types[level], odd) if turned else (odd, types[level])))
            t = writer.type("tp", types[DEPTH - 2], odd)
            due = TYPE if leaf == "pt 0" else UNDEFINED
            what = f"2^249 rows of {leaf}, one leaf is a bit, turned {turned}"
            yield what, *bound(writer, rows[DEPTH - 1], t, due)


# --- READ's refusals -------------------------------------------------------------------------------------------

def reads():
    """Passed on, also where CHECK has a refusal of its own for what stands before."""
    for what, answer, data in (
        ("empty", (1, 0, 0), b""),
        ("65,536 bytes", (1, 0, 0), bytes(65536)),
        ("4,097 records", (2, 4096, 0), book("tu", *["pn"] * 4095, "ew 0 0")),
        ("one byte", (3, 0, 0), b"t"),
        ("a value of another type, then an unknown mark", (4, 3, 0), book("tu; ts 0 0; vu 1") + b"zz"),
        ("a name not in scope, then a record cut short", (3, 2, 0), book("tu; ev 0 1; et 0")),
        ("a loop of width 3", (5, 5, 0), book("tu; ev 0 9; fn 0 0 1; ew 0 0; ew 0 0; cw 0 2 3 3 4")),
        ("a value for a type", (6, 2, 0), book("tu; vu 0; ew 1 0")),
        ("a type alike, after a value of another type", (7, 3, 0), book("tu; ts 0 0; vu 1; ts 0 0")),
        ("an expression named twice", (7, 2, 0), book("tu; ev 0 1; et 0 2 1 1")),
        ("256 deep", (8, 255, 0), book("tu", *[f"ts {k} 0" for k in range(255)], "ev 0 0")),
        ("a loose expression whose type is wrong", (9, 3, 0), book("tu; ts 0 0; vu 0; ec 1 2; ev 0 1")),
        ("no expression at the end", (9, 2, 0), book("tu; ts 0 0; vu 1")),
    ):
        yield what, answer, data
    yield "the listing", (0, 0, 9), book(LISTING)


def paper():
    """The examples of docs/CHECKING.md."""
    with open(os.path.join(ROOT, "docs", "CHECKING.md"), encoding="utf-8") as stream:
        text = stream.read()
    rows = re.findall(r"^\| `([^`]*)` \| `(?:checked (\d+)|refused (\d+) at (\d+))` \|", text, re.M)
    for example, count, number, place in rows:
        answer = (0, 0, int(count)) if count else (int(number), int(place), 0)
        yield f"docs/CHECKING.md: {example}", answer, encode(example, "docs/CHECKING.md")


def examples():
    """Each of examples/ passes."""
    for path in sorted(glob.glob(os.path.join(ROOT, "examples", "*.txt"))):
        name = os.path.basename(path)
        with open(path, encoding="utf-8") as stream:
            data = encode(stream.read(), name)
        yield name, (0, 0, len(list(decode(data, name)))), data


def hand_vectors():
    vectors = []
    for text, first in (
        (VALUES, ""), (LEAVES, ""), (TUPLES, ""), (INJECTIONS, ""), (VARIANTS, ""), (BLOCKS, ""), (NAMES, ""),
        (PATTERNS, ""), (MATCHES, ""), (ENUM_MATCHES, ""), (JETS, ""), (BUILTINS, ""), (FUNCTIONS, FUNCTIONS_FIRST),
        (LOOPS, LOOPS_FIRST), (HASHES, ""),
    ):  # fmt: skip
        vectors.extend(cases(text, first))
    for family in (
        folds, lists, fold_sizes, words, wide_rows, wide_enums, many_bindings, shared_patterns, reads, paper, examples,
    ):  # fmt: skip
        vectors.extend(family())
    return vectors


# --- The file -------------------------------------------------------------------------------------------------------


def complaints(vectors, data):
    """What is wrong with the vectors themselves."""
    if len(vectors) < LEAST_HAND_VECTORS:
        yield f"only {len(vectors)} vectors"
    if len(list(paper())) < LEAST_EXAMPLES:
        yield "docs/CHECKING.md lacks its examples"
    due = {*range(11), TYPE, NAME}
    missing = due - {answer[0] for _, answer, _ in vectors}
    if missing:
        yield f"no vector gives {sorted(missing)}"
    if len(data) > MOST_STORED_BYTES:
        yield f"{len(data)} bytes are too many to store"


def main():
    vectors = hand_vectors()
    data = file_of(vectors)
    listed = [(what, answer) for what, answer, _ in vectors]
    said = f"check vectors: {len(vectors)} by hand"
    return settle("check_vectors", listed, data, complaints(vectors, data), said)


if __name__ == "__main__":
    sys.exit(main())
