"""Books whose outcome is known, written by hand from document 01, "CHECK and the meanings".

A case in a text is a line: the outcome, the records after the base and, behind a second bar, the labels of its
witnesses.  In an outcome () is unit, 0 and 1 are bits, #7 is a byte, L and R are sides, and two in parentheses are a
pair; `failed` is a failure.  As a field of a record, #7 is a constant of its own that is put before the record, and so
are $0 and $1; the byte's value has the label b7.  No outcome here was had from a program: those of the families at the
end are worked out beside them, from what their functions do.
"""

import os
import re
from typing import NamedTuple

from vectors import ROOT, Types, book, records, split, stored
from booklib import encode_labelled, witness_list

# --- Outcomes: the kinds of a value's parts, the whole before its parts ------------------------

FAILED = b""
UNIT = b"\1"


def left(part):
    return b"\2" + part


def right(part):
    return b"\3" + part


def pair(first, second):
    return b"\4" + first + second


def word(number, width):
    """High half left, true is right."""
    if width == 1:
        return right(UNIT) if number else left(UNIT)
    half = width // 2
    return pair(word(number >> half, half), word(number % (1 << half), half))


def row(parts):
    if len(parts) == 1:
        return parts[0]
    first = split(len(parts))
    return pair(row(parts[:first]), row(parts[first:]))


def nibbles(*numbers):
    return row([word(number, 4) for number in numbers])


def outcome(text):
    """The outcome that a text tells."""
    if text == "failed":
        return FAILED
    words = re.findall(r"\(\)|[()]|[^\s()]+", text)[::-1]

    def next_value():
        first = words.pop()
        if first == "(":
            made = pair(next_value(), next_value())
            words.pop()
            return made
        if first == "()":
            return UNIT
        if first in "LR":
            return {"L": left, "R": right}[first](next_value())
        return word(int(first[1:]), 8) if first[0] == "#" else word(int(first), 1)

    made = next_value()
    assert not words, text
    return made


class Case(NamedTuple):
    what: str
    due: bytes
    book: bytes
    witnesses: bytes = b""


# --- Cases in texts ----------------------------------------------------------------------------

# A byte, what add_8 gives, an option and a sum of two types; rows of bytes.  Patterns x, y and z bind 1, 2 and 3.
BASE = """
    u: tu; bit: ts u u; w2: tp bit bit; w4: tp w2 w2; w8: tp w4 w4
    sum: tp bit w8; opt: ts u w8; either: ts w8 bit
    w16: tp w8 w8; three: tp w8 w16; four: tp w16 w16; five: tp w8 four
    U: vu u; f: vl bit U; t: vr bit U; q0: vp w2 f f; q1: vp w2 f t; q2: vp w2 t f; q3: vp w2 t t
    x: pi 1; y: pi 2; z: pi 3; any: pn; xy: pt 2 x y; xyz: pt 3 x y z
"""


def bytes_of(text):
    """The records of the bytes that a text speaks of."""
    numbers = sorted({int(number) for number in re.findall(r"(?:\bb|#)(\d+)\b", text)})
    halves = sorted({half for number in numbers for half in divmod(number, 16)})
    yield from (f"h{half}: vp w4 q{half // 4} q{half % 4}" for half in halves)
    yield from (f"b{number}: vp w8 h{number // 16} h{number % 16}" for number in numbers)


def with_constants(text):
    """The text with a record for each constant that is a field."""
    count = 0
    for record in text.replace("\n", ";").split(";"):
        fields = record.split()
        for k, field in enumerate(fields):
            if field[0] in "#$":
                kept = f"w8 b{field[1:]}" if field[0] == "#" else f"bit {'ft'[int(field[1:])]}"
                fields[k] = f"constant{count}"
                yield f"{fields[k]}: ec {kept}"
                count += 1
        yield " ".join(fields)


def entries(words, labels):
    """The witness list of some labels."""
    return witness_list([f"@{label}" for label in words.split()], labels)


def case(due, first, text, words=""):
    base = ";".join([BASE, *bytes_of(text + words), first])
    lines = records(";".join([base, *with_constants(text)]))
    data, labels = encode_labelled("\n".join(lines), text)
    return Case(text.strip(), outcome(due.strip()), data, entries(words, labels))


def cases(text, first=""):
    """The cases of a text; a line without a bar is a comment."""
    for line in text.splitlines():
        due, *rest = line.split("|")
        if rest:
            yield case(due, first, *rest)


VALUES = """
  constants of each shape
    ()      | ec u U
    0       | ec bit f
    1       | ec bit t
    #200    | ec w8 b200
    L ()    | a: vl opt U; ec opt a
    R #7    | a: vr opt b7; ec opt a
    L #7    | a: vl either b7; ec either a
    R 0     | a: vr either f; ec either a
    (1 #5)  | a: vp sum t b5; ec sum a
  the splits of 2 to 7 are 1, 1, 2, 1, 2, 3
    ()                               | et u 0
    #3                               | et w8 1 #3
    (#1 #2)                          | et w16 2 #1 #2
    (#1 (#2 #3))                     | et three 3 #1 #2 #3
    ((#1 #2) (#3 #4))                | et four 4 #1 #2 #3 #4
    (#1 ((#2 #3) (#4 #5)))           | et five 5 #1 #2 #3 #4 #5
    ((#1 #2) ((#3 #4) (#5 #6)))      | six: tp w16 four; et six 6 #1 #2 #3 #4 #5 #6
    ((#1 (#2 #3)) ((#4 #5) (#6 #7))) | seven: tp three four; et seven 7 #1 #2 #3 #4 #5 #6 #7
  all of a tuple is worked out
    failed  | a: cp w8 0; et w16 2 a #2
    failed  | a: cp w8 0; et w16 2 #1 a
  sides, None and Some
    L #1    | e0 either #1
    R 1     | e1 either $1
    L ()    | a: et u 0; e0 opt a
    R #9    | e1 opt #9
  variants of 1, 3 and 5: document 01 has variant 1 of 3 as right left, and variant 1 of 5 as right left left
    #9            | en w8 0 1 1 #9
    L ()          | e: ts u either; en e 0 3 0
    R L #9        | e: ts u either; en e 1 3 1 #9
    R R 1         | e: ts u either; en e 2 3 1 $1
    L ()          | n: ts w16 u; r: ts either n; e: ts u r; en e 0 5 0
    R L L #9      | n: ts w16 u; r: ts either n; e: ts u r; en e 1 5 1 #9
    R L R 0       | n: ts w16 u; r: ts either n; e: ts u r; en e 2 5 1 $0
    R R L (#1 #2) | n: ts w16 u; r: ts either n; e: ts u r; en e 3 5 2 #1 #2
    R R R ()      | n: ts w16 u; r: ts either n; e: ts u r; en e 4 5 0
"""

LISTS_FIRST = "some2: ts u w16; list4: tp some2 opt; some4: ts u four; list8: tp some4 list4"
LISTS = """
    L ()                                       | el opt 2 0
    R #1                                       | el opt 2 1 #1
    (L () L ())                                | el list4 4 0
    (L () R #1)                                | el list4 4 1 #1
    (R (#1 #2) L ())                           | el list4 4 2 #1 #2
    (R (#1 #2) R #3)                           | el list4 4 3 #1 #2 #3
    (L () (L () L ()))                         | el list8 8 0
  document 01 has this one
    (L () (R (#1 #2) R #3))                    | el list8 8 3 #1 #2 #3
    (R ((#1 #2) (#3 #4)) (L () L ()))          | el list8 8 4 #1 #2 #3 #4
    (R ((#1 #2) (#3 #4)) (L () R #5))          | el list8 8 5 #1 #2 #3 #4 #5
    (R ((#1 #2) (#3 #4)) (R (#5 #6) R #7))     | el list8 8 7 #1 #2 #3 #4 #5 #6 #7
"""

WITNESSES = """
    #7      | ew w8 0 | b7
    1       | ew bit 2 | b7 b9 t
    (#7 #9) | a: ew w8 1; b: ew w8 0; et w16 2 a b | b9 b7
  one entry for all records of a name
    (1 1)   | a: ew bit 0; b: ew bit 0; et w2 2 a b | t
  an entry that is absent, or of another type, where it is not reached
    #1      | a: ew w8 5; em w8 $0 any #1 any a
    #1      | a: ew w8 0; em w8 $0 any #1 any a | t
"""

BLOCKS = """
    #1       | eb w8 0 #1
    ()       | eb u 0 65535
    #5       | s: sa x #5; a: ev w8 1; eb w8 1 s a
    (#5 #3)  | s: sa x #3; r: sa y #5; a: ev w8 2; b: ev w8 1; c: et w16 2 a b; eb w16 2 s r c
    #2       | s: sa any #1; eb w8 1 s #2
  patterns: a pair, a row of three, of five, one in another, an empty one and a row of one
    (#5 #3)      | p: et w16 2 #3 #5; s: sa xy p; a: ev w8 2; b: ev w8 1; c: et w16 2 a b; eb w16 1 s c
    (#2 (#3 #1)) | p: et three 3 #1 #2 #3; s: sa xyz p; a: ev w8 2; b: ev w8 3; c: ev w8 1; d: et three 3 a b c; \
eb three 1 s d
    (#3 #5)      | p: et five 5 #1 #2 #3 #4 #5; q: pt 5 any any x any y; s: sa q p; a: ev w8 1; b: ev w8 2; \
c: et w16 2 a b; eb w16 1 s c
    (#4 (#3 #1)) | p: et four 4 #1 #2 #3 #4; q: pt 2 x any; r: pt 2 y z; o: pt 2 q r; s: sa o p; \
a: ev w8 3; b: ev w8 2; c: ev w8 1; d: et three 3 a b c; eb three 1 s d
    #1           | p: pt 0; a: et u 0; s: sa p a; eb w8 1 s #1
    #6           | p: pt 1 x; s: sa p #6; a: ev w8 1; eb w8 1 s a
  the newest binding of a name; its value may use the one before
    #2       | s: sa x #1; r: sa x #2; a: ev w8 1; eb w8 2 s r a
    #6       | s: sa x #3; a: ev w8 1; b: ev w8 1; c: cj sum 0 2 2 a b; p: pt 2 any x; r: sa p c; d: ev w8 1; \
eb w8 2 s r d
  a name in a newer pattern hides one name of an older, and not the other
    (#3 (#9 #2)) | p: et w16 2 #1 #2; s: sa xy p; o: et w16 2 #3 #9; q: pt 2 z x; r: sa q o; \
a: ev w8 3; b: ev w8 1; c: ev w8 2; d: et three 3 a b c; eb three 2 s r d
  a block in a block: its binding ends with it, and it sees those around it
    (#2 #1)  | s: sa x #1; i: sa x #2; a: ev w8 1; b: eb w8 1 i a; c: ev w8 1; d: et w16 2 b c; eb w16 1 s d
    (#1 #2)  | s: sa x #1; i: sa y #2; a: ev w8 1; b: ev w8 2; c: et w16 2 a b; d: eb w16 1 i c; eb w16 1 s d
    (#2 #3)  | s: sa x #1; r: sa x #2; i: sa x #3; a: ev w8 1; b: eb w8 1 i a; o: sa y b; c: ev w8 1; d: ev w8 2; \
e: et w16 2 c d; eb w16 3 s r o e
  statements: each is worked out, in its place
    #5       | a: cj u 0 0 1 $1; s: se a; eb w8 1 s #5
    failed   | a: cj u 0 0 1 $0; s: se a; eb w8 1 s #5
    ()       | a: ca u 9 $1; s: se a; eb u 1 s 65535
    failed   | a: ca u 9 $0; s: se a; eb u 1 s 65535
    #4       | s: sa x #4; a: ev w8 1; b: cj bit 0 1 2 a #4; c: ca u 2 b; r: se c; d: ev w8 1; eb w8 2 s r d
    #5       | s: sa x #4; a: et u 0; r: se a; o: sa y #5; b: ev w8 2; eb w8 3 s r o b
    failed   | a: cp w8 0; s: sa any a; eb w8 1 s #1
    failed   | s: sa x #1; a: cp w8 3; eb w8 1 s a
"""

MATCHES = """
    #1      | em w8 $0 any #1 any #2
    #2      | em w8 $1 any #1 any #2
  only the chosen arm is worked out
    #7      | m: e0 either #7; a: ev w8 1; b: cp w8 0; em w8 m x a any b
    1       | m: e1 either $1; a: cp bit 0; b: ev bit 1; em bit m any a x b
    failed  | m: e0 either #7; a: cp w8 0; em w8 m any a any #1
    failed  | m: e1 either $1; a: cp w8 0; em w8 m any #1 any a
    failed  | m: cp either 0; em w8 m any #1 any #1
    #1      | m: cp bit 0; a: em w8 m any #5 any #6; em w8 $0 any #1 any a
  an arm sees what is around it; its own binding hides that, and ends with it
    (#7 #9) | s: sa y #9; m: e0 either #7; a: ev w8 1; b: ev w8 2; c: et w16 2 a b; d: et w16 2 #0 #0; \
e: em w16 m x c any d; eb w16 1 s e
    (1 #9)  | s: sa y #9; m: e1 either $1; a: ev bit 1; b: ev w8 2; c: et sum 2 a b; d: et sum 2 $0 #0; \
e: em sum m any d x c; eb sum 1 s e
    #7      | s: sa x #9; m: e0 either #7; a: ev w8 1; e: em w8 m x a any #0; eb w8 1 s e
    (#7 #9) | s: sa x #9; m: e0 either #7; a: ev w8 1; e: em w8 m x a any #0; b: ev w8 1; c: et w16 2 e b; eb w16 1 s c
    #9      | s: sa x #9; m: e1 either $0; a: ev w8 1; e: em w8 m any #0 y a; eb w8 1 s e
  a pattern in an arm, a match in an arm, a match as scrutinee
    #4      | t2: ts w16 bit; p: et w16 2 #3 #4; m: e0 t2 p; a: ev w8 2; em w8 m xy a any #0
    #2      | m: e1 either $1; a: ev bit 2; b: em w8 a any #1 any #2; em w8 m any #0 y b
    #1      | m: e1 either $0; a: ev bit 2; b: em w8 a any #1 any #2; em w8 m any #0 y b
    #8      | a: em bit $0 any $1 any $0; em w8 a any #7 any #8
  an enum's match: what is around it, and fewer arms than variants, so that the last has the rest whole
    (#4 #9) | t3: ts u either; s: sa y #9; m: en t3 1 3 1 #4; a: ev w8 1; b: ev w8 2; c: et w16 2 a b; \
d: et w16 2 #0 #0; \
e: cp w16 0; o: eh w16 m 3 any d x c any e; eb w16 1 s o
    1       | t3: ts u either; m: en t3 2 3 1 $1; a: ev either 1; b: cr bit 0 a; eh bit m 2 any $0 x b
    failed  | t3: ts u either; m: en t3 1 3 1 #4; a: ev either 1; b: cr bit 0 a; eh bit m 2 any $0 x b
"""

CALLS = """
  verify, eq_8 and add_8
    ()       | cj u 0 0 1 $1
    failed   | cj u 0 0 1 $0
    ()       | cj u 5 0 1 $1
    failed   | cj u 5 0 1 $0
    1        | cj bit 0 1 2 #7 #7
    0        | cj bit 0 1 2 #7 #6
    0        | cj bit 3 1 2 #128 #0
    1        | cj bit 3 1 2 #255 #255
    (0 #8)   | cj sum 0 2 2 #3 #5
    (0 #255) | cj sum 0 2 2 #128 #127
    (1 #0)   | cj sum 7 2 2 #255 #1
    (1 #254) | cj sum 7 2 2 #255 #255
  the unwraps, each on both sides
    #7       | m: e0 either #7; cl w8 0 m
    failed   | m: e1 either $1; cl w8 0 m
    1        | m: e1 either $1; cr bit 0 m
    failed   | m: e0 either #7; cr bit 0 m
    #7       | m: e0 either #7; cl w8 61 m
    failed   | m: e1 either $1; cl w8 61 m
    1        | m: e1 either $1; cr bit 62 m
    failed   | m: e0 either #7; cr bit 62 m
    #9       | m: e1 opt #9; cr w8 63 m
    failed   | n: et u 0; m: e0 opt n; cr w8 63 m
  IsNone is true on the left
    1        | n: et u 0; m: e0 opt n; cn bit m
    0        | m: e1 opt #0; cn bit m
    1        | m: e0 either #0; cn bit m
  Assert, Panic, Debug and TypeCast
    ()       | ca u 0 $1
    failed   | ca u 0 $0
    ()       | ca u 64 $1
    failed   | ca u 64 $0
    failed   | cp u 0
    failed   | cp w16 65
    #7       | cd w8 0 #7
    (#3 #7)  | p: et w16 2 #3 #7; cd w16 66 p
    #7       | ck w8 #7
    (#3 #7)  | p: et w16 2 #3 #7; ck w16 p
  all arguments are worked out
    failed   | a: cp w8 0; cj bit 0 1 2 a #1
    failed   | a: cp w8 0; cj bit 0 1 2 #1 a
    failed   | a: cp either 0; cd either 0 a
"""

# g adds its two parameters; k has g add its one parameter to itself.
ADD = "a1: ev w8 1; a2: ev w8 2; a3: cj sum 0 2 2 a1 a2; ap: pt 2 any z; as: sa ap a3; a4: ev w8 3; \
a5: eb w8 1 as a4; g: fn w8 2 1 w8 2 w8 a5"
FUNCTIONS = f"""
    #5      | g: fn w8 0 #5; cf w8 g 0
    #7      | a: ev w8 1; g: fn w8 1 1 w8 a; cf w8 g 1 #7
    (#5 #3) | a: ev w8 2; b: ev w8 1; c: et w16 2 a b; g: fn w16 2 1 w8 2 w8 c; cf w16 g 2 #3 #5
    (#3 (#1 #2)) | a: ev w8 3; b: ev w8 1; c: ev w8 2; d: et three 3 a b c; g: fn three 3 1 w8 2 w8 3 w8 d; \
cf three g 3 #1 #2 #3
    (#5 ((#4 #3) (#2 #1))) | a: ev w8 5; b: ev w8 4; c: ev w8 3; d: ev w8 2; e: ev w8 1; i: et five 5 a b c d e; \
g: fn five 5 1 w8 2 w8 3 w8 4 w8 5 w8 i; cf five g 5 #1 #2 #3 #4 #5
    (1 #9)  | a: ev bit 2; b: ev w8 7; c: et sum 2 a b; g: fn sum 4 4 u 2 bit 9 opt 7 w8 c; n: et u 0; m: e1 opt #4; \
cf sum g 4 n $1 m #9
  a function that is called twice, and one that calls another
    #7      | {ADD}; h: cf w8 g 2 #1 #2; cf w8 g 2 h #4
    #42     | {ADD}; i: ev w8 1; j: ev w8 1; l: cf w8 g 2 i j; k: fn w8 1 1 w8 l; cf w8 k 1 #21
  a function sees its parameters alone, and its caller's names stay
    (#3 #9) | a: ev w8 1; g: fn w8 1 1 w8 a; s: sa x #9; h: cf w8 g 1 #3; b: ev w8 1; c: et w16 2 h b; eb w16 1 s c
    #9      | a: ev w8 1; g: fn w8 1 1 w8 a; s: sa y #9; b: ev w8 2; h: cf w8 g 1 b; eb w8 1 s h
    #2      | a: ev w8 1; g: fn w8 2 1 w8 2 w8 a; s: sa x #1; r: sa y #2; b: ev w8 2; c: ev w8 1; h: cf w8 g 2 b c; \
eb w8 2 s r h
  its own bindings hide its parameters
    #6      | s: sa x #6; a: ev w8 1; b: eb w8 1 s a; g: fn w8 1 1 w8 b; cf w8 g 1 #3
  arguments are worked out though no one uses them, and so is a body
    failed  | g: fn w8 1 1 w8 #5; a: cp w8 0; cf w8 g 1 a
    failed  | a: cp w8 0; g: fn w8 0 a; cf w8 g 0
    #4      | a: cp w8 0; g: fn w8 0 a; b: cf w8 g 0; em w8 $0 any #4 any b
    (#7 #7) | a: ew w8 0; g: fn w8 0 a; h: cf w8 g 0; i: cf w8 g 0; et w16 2 h i | b7
"""

# A hash has no meaning here: it stands where no run comes.
HASHES_FIRST = "w64: tp four four; w128: tp w64 w64; w256: tp w128 w128"
HASHES = """
    #1 | h: ch w256 6 2 8 #1 8 #2; s: sa any h; e: eb w8 1 s #2; em w8 $0 any #1 any e
    #1 | h: ch w256 0 0; g: fn w256 0 h; em w8 $0 any #1 any #2
"""

# g asserts each element and leaves the accumulator as it is.
ASSERTING = "a1: ev bit 1; a2: ca u 31 a1; as: se a2; a3: ev w8 2; a4: eb w8 1 as a3; g: fn w8 2 1 bit 2 w8 a4; \
t3: tp bit w2; ob: ts u bit; s2: ts u w2; l4: tp s2 ob"
FAILING_FOLDS = """
    #9     | a: et t3 3 $1 $1 $1; cy w8 g 3 a #9
    failed | a: et t3 3 $0 $1 $1; cy w8 g 3 a #9
    failed | a: et t3 3 $1 $0 $1; cy w8 g 3 a #9
    failed | a: et t3 3 $1 $1 $0; cy w8 g 3 a #9
    #9     | a: el l4 4 0; cq w8 g 4 a #9
    #9     | a: el l4 4 3 $1 $1 $1; cq w8 g 4 a #9
    failed | a: el l4 4 1 $0; cq w8 g 4 a #9
    failed | a: el l4 4 3 $1 $1 $0; cq w8 g 4 a #9
    failed | a: el l4 4 2 $1 $1; b: cp w8 0; cq w8 g 4 a b
    failed | a: cp l4 0; cq w8 g 4 a #9
"""

# g asserts that its counter is 0; then its context stops it, or not.
COUNTING = "a1: ev bit 3; a2: cn bit a1; a3: ca u 41 a2; as: se a3; r1: ev w8 1; r2: e1 opt r1; l1: et u 0; \
l2: e0 opt l1; \
c1: ev bit 2; m1: em opt c1 any r2 any l2; m2: eb opt 1 as m1; g: fn opt 3 1 w8 2 bit 3 bit m2"
FAILING_LOOPS = """
    L ()   | cw opt g 1 #5 $1
    failed | cw opt g 1 #5 $0
    failed | a: cp w8 0; cw opt g 1 a $1
    failed | a: cp bit 0; cw opt g 1 #5 a
"""

TEXTS = (
    (VALUES, ""), (LISTS, LISTS_FIRST), (WITNESSES, ""), (BLOCKS, ""), (MATCHES, ""), (CALLS, ""), (FUNCTIONS, ""),
    (HASHES, HASHES_FIRST), (FAILING_FOLDS, ASSERTING), (FAILING_LOOPS, COUNTING),
)  # fmt: skip


def in_texts():
    for text, first in TEXTS:
        yield from cases(text, first)


# --- Every example, with each of its choices -------------------------------------------------------

# What each choice comes to is said at the head of its text.
EXAMPLES = {
    "listing": {"": "1"},
    "fold_list": {"": "#26"},
    "loop": {"": "#32"},
    "vault_shut": {"v0": "failed"},
    "vault_two": {"small": "(#0 #8)", "large": "failed", "ours": "(#1 #255)", "theirs": "failed"},
    "vault_five": {
        "hot_1": "(#0 ())", "code_1": "failed", "both_1": "(#1 ())", "late_1": "(#2 ())", "soon_1": "failed",
        "cold_1": "(#3 ())", "burn_1": "failed",
    },
    "fold_array": {
        "v7 v7 v7 v7 v7": "()", "v7 v0 v7 v0 v7": "()", "v0 v0 v7 v7 v7": "()", "v7 v7 v0 v0 v0": "failed",
        "v0 v0 v0 v0 v0": "failed",
    },
    "tuple_match": {"calm": "#7", "fast": "#21", "odd": "failed"},
}  # fmt: skip


def examples():
    for name, choices in EXAMPLES.items():
        text = stored(os.path.join(ROOT, "examples", name + ".txt")).decode()
        data, labels = encode_labelled(text, name)
        for words, due in choices.items():
            yield Case(f"examples/{name}.txt {words}".strip(), outcome(due), data, entries(words, labels))


# --- Families of every size -----------------------------------------------------------------------


class Writer(Types):
    """A book of nibbles, bytes and wider words, whose values are made as they are asked for too."""

    def __init__(self):
        super().__init__()
        self.values = {}

    def word(self, width):
        return self.array(self.bit(), width)

    def value(self, number, width):
        """The record of a word's value."""
        if (number, width) not in self.values:
            self.values[number, width] = self.make_value(number, width)
        return self.values[number, width]

    def make_value(self, number, width):
        if width == 0:
            return self.record("vu", self.unit())
        if width == 1:
            return self.record("vr" if number else "vl", self.bit(), self.value(0, 0))
        high, low = divmod(number, 1 << (width // 2))
        return self.record("vp", self.word(width), self.value(high, width // 2), self.value(low, width // 2))

    def constant(self, number, width=4):
        return self.record("ec", self.word(width), self.value(number, width))

    def constants(self, numbers):
        return [self.constant(number) for number in numbers]

    def variable(self, t, name):
        return self.record("ev", t, name)

    def case(self, what, due):
        return Case(what, due, book(*self.lines))


def enums():
    """A match of each number of arms up to 8, taken at each arm.

    Variant k holds k modulo 3 nibbles, 9 and 12.  Its arm gives k and what it holds, or zeros.
    """
    for size in range(1, 9):
        for index in range(size):
            held = [9, 12][: index % 3]
            due = nibbles(index, *held, *[0, 0][len(held) :])
            yield enum(size, index, held).case(f"arm {index} of {size}", due)


def enum(size, index, held):
    writer = Writer()
    nibble = writer.word(4)
    nothing, one, two = writer.record("pn"), writer.record("pi", 1), writer.record("pi", 2)
    patterns = [nothing, one, writer.record("pt", 2, one, two)]
    payloads = [writer.array(nibble, k % 3) if k % 3 else writer.unit() for k in range(size)]
    scrutinee = writer.record("en", writer.row("ts", payloads), index, size, len(held), *writer.constants(held))
    row_of_three, arms = writer.array(nibble, 3), []
    for k in range(size):
        names = [writer.variable(nibble, name) for name in (1, 2)[: k % 3]]
        parts = [writer.constant(k), *names, *writer.constants([0, 0][len(names) :])]
        arms += [patterns[k % 3], writer.record("et", row_of_three, 3, *parts)]
    writer.record("eh", row_of_three, scrutinee, size, *arms)
    return writer


def shift(writer, size):
    """A function of an element and a row of so many: the row without its first, and the element behind it."""
    nibble = writer.word(4)
    whole = writer.array(nibble, size)
    pattern = writer.record("pt", size, *[writer.record("pi", 3 + k) for k in range(size)])
    taken = writer.record("sa", pattern, writer.variable(whole, 2))
    parts = [writer.variable(nibble, 3 + k) for k in range(1, size)] + [writer.variable(nibble, 1)]
    body = writer.record("eb", whole, 1, taken, writer.record("et", whole, size, *parts))
    return writer.record("fn", whole, 2, 1, nibble, 2, whole, body)


MOST_SHIFTED = 32  # a row of 256 that is made anew for each of 255 elements would take all cells


def shifted(size, elements):
    """What the fold of `shift` comes to from a row of fifteens: the last so many."""
    return nibbles(*([15] * size + elements)[-size:])


def fold(mark, number, count):
    """A list of a bound or an array of a size, folded by `shift`; its elements are 1, 2 and so on."""
    writer = Writer()
    nibble = writer.word(4)
    size = min(count + 1, MOST_SHIFTED)
    function = shift(writer, size)
    elements = [(k + 1) % 16 for k in range(count)]
    made = writer.constants(elements)
    if mark == "cq":
        over = writer.record("el", writer.list(number, nibble), number, count, *made)
    else:
        over = writer.record("et", writer.array(nibble, number), number, *made)
    start = writer.record("et", writer.array(nibble, size), size, *writer.constants([15] * size))
    writer.record(mark, writer.array(nibble, size), function, number, over, start)
    return writer, shifted(size, elements)


def list_folds():
    """Bounds up to 16 with every length, greater ones at their edges."""
    for bound in (2, 4, 8, 16, 32, 64, 128, 256):
        counts = range(bound) if bound <= 16 else (0, 1, bound // 2 - 1, bound // 2, bound - 1)
        for count in counts:
            writer, due = fold("cq", bound, count)
            yield writer.case(f"a list fold of bound {bound}, {count} elements", due)


def array_folds():
    for size in (*range(1, 18), 31, 32, 33, 255, 256):
        writer, due = fold("cy", size, size)
        yield writer.case(f"an array fold of {size}", due)


def fold_of_folds():
    """A list of two rows, (1, 2) and (3, 4): each is folded by a function that folds it."""
    writer = Writer()
    nibble = writer.word(4)
    two, five = writer.array(nibble, 2), writer.array(nibble, 5)
    inner = shift(writer, 5)
    body = writer.record("cy", five, inner, 2, writer.variable(two, 1), writer.variable(five, 2))
    outer = writer.record("fn", five, 2, 1, two, 2, five, body)
    rows = [writer.record("et", two, 2, *writer.constants(pair)) for pair in ((1, 2), (3, 4))]
    over = writer.record("el", writer.list(4, two), 4, 2, *rows)
    start = writer.record("et", five, 5, *writer.constants([15] * 5))
    writer.record("cq", five, outer, 4, over, start)
    yield writer.case("a list of arrays, folded by an array fold", shifted(5, [1, 2, 3, 4]))


def bindings():
    """A block that binds 20 names, and gives each of them."""
    writer = Writer()
    nibble, size = writer.word(4), 20
    whole = writer.array(nibble, size)
    made = [writer.record("sa", writer.record("pi", k), writer.constant(k % 16)) for k in range(size)]
    parts = [writer.variable(nibble, k) for k in range(size)]
    writer.record("eb", whole, size, *made, writer.record("et", whole, size, *parts))
    yield writer.case("20 bindings live", nibbles(*[k % 16 for k in range(size)]))


# Where each loop stops; None is never.  A loop of width 16 has more counts than a run has cells.
STOPS = {
    1: (0, 1, None),
    2: (0, 1, 2, 3, None),
    4: (0, 1, 6, 7, 8, 15, None),
    8: (0, 1, 15, 16, 100, 127, 128, 254, 255, None),
    16: (0, 1, 255, 256, 258),
}


def wide(writer, width, count):
    """A counter as a byte, from an expression: zeros before it, or its low byte."""
    if width == 16:
        low = writer.record("pt", 2, writer.record("pn"), writer.record("pi", 9))
        bound = writer.record("sa", low, count)
        return writer.record("eb", writer.word(8), 1, bound, writer.variable(writer.word(8), 9))
    while width < 8:
        zeros = writer.constant(0, width)
        width *= 2
        count = writer.record("et", writer.word(width), 2, zeros, count)
    return count


def halves(writer, width, count):
    """The bytes of a counter, high before low; each takes an expression of its own, which `count` makes."""
    if width < 16:
        return [wide(writer, width, count())]
    high = writer.record("pt", 2, writer.record("pi", 9), writer.record("pn"))
    bound = writer.record("sa", high, count())
    first = writer.record("eb", writer.word(8), 1, bound, writer.variable(writer.word(8), 9))
    return [first, wide(writer, width, count())]


def step(writer):
    """A function of an accumulator and a byte: the accumulator, turned left by a bit, and the byte added."""
    bit, byte = writer.bit(), writer.word(8)
    pattern = writer.record("pt", 8, *[writer.record("pi", 3 + k) for k in range(8)])
    taken = writer.record("sa", pattern, writer.variable(byte, 1))
    turned = writer.record("et", byte, 8, *[writer.variable(bit, 3 + (k + 1) % 8) for k in range(8)])
    added = writer.record("cj", writer.type("tp", bit, byte), 0, 2, 2, turned, writer.variable(byte, 2))
    sum_only = writer.record("pt", 2, writer.record("pn"), writer.record("pi", 11))
    bound = writer.record("sa", sum_only, added)
    body = writer.record("eb", byte, 2, taken, bound, writer.variable(byte, 11))
    return writer.record("fn", byte, 2, 1, byte, 2, byte, body)


def is_at(writer, width):
    """Whether the counter, name 3, is the limit, name 4, byte by byte."""
    bit, nothing = writer.bit(), writer.record("pn")
    here = halves(writer, width, lambda: writer.variable(writer.word(width), 3))
    limit = halves(writer, width, lambda: writer.variable(writer.word(width), 4))
    tests = [writer.record("cj", bit, 0, 1, 2, a, b) for a, b in zip(here, limit)]
    if len(tests) == 1:
        return tests[0]
    return writer.record("em", bit, tests[0], nothing, writer.constant(0, 1), nothing, tests[1])


def loop(width, limit):
    """A loop that stops at a limit, if its context has one, with the accumulator and the count; else it does a step."""
    writer = Writer()
    byte, counter, nothing = writer.word(8), writer.word(width), writer.record("pn")
    stopped = writer.type("tp", byte, counter)
    either, context = writer.type("ts", stopped, byte), writer.type("ts", writer.unit(), counter)
    function = step(writer)

    def goes_on():
        count = wide(writer, width, writer.variable(counter, 3))
        return writer.record("e1", either, writer.record("cf", byte, function, 2, writer.variable(byte, 1), count))

    result = writer.record("et", stopped, 2, writer.variable(byte, 1), writer.variable(counter, 3))
    stops = writer.record("e0", either, result)
    test = is_at(writer, width)
    chosen = writer.record("em", either, test, nothing, goes_on(), nothing, stops)
    limited = writer.variable(context, 2)
    body = writer.record("em", either, limited, nothing, goes_on(), writer.record("pi", 4), chosen)
    turn = writer.record("fn", either, 3, 1, byte, 2, context, 3, counter, body)
    start = writer.constant(START, 8)
    if limit is None:
        given = writer.record("e0", context, writer.record("et", writer.unit(), 0))
    else:
        given = writer.record("e1", context, writer.constant(limit, width))
    writer.record("cw", either, turn, width, start, given)
    return writer


START = 77


def looped(width, limit):
    """What the loop comes to: from count 0 upward, left at the limit, right after the last count."""
    total = START
    for count in range(1 << width):
        if count == limit:
            return left(pair(word(total, 8), word(count, width)))
        total = (total * 2 % 256 + total // 128 + count) % 256
    return right(word(total, 8))


def loops():
    for width, limits in STOPS.items():
        for limit in limits:
            what = f"a loop of width {width} that stops at {limit}"
            yield loop(width, limit).case(what, looped(width, limit))


def unwrapped_loops():
    """A loop's result is unwrapped: left where it stops, and a failure where it does not."""
    for limit in (2, None):
        writer = loop(2, limit)
        last = len(writer.lines) - 1
        writer.record("cl", writer.type("tp", writer.word(8), writer.word(2)), 71, last)
        due = looped(2, limit)
        yield writer.case(f"unwrap_left of a loop that stops at {limit}", due[1:] if due[:1] == b"\2" else FAILED)


FAMILIES = (
    in_texts, examples, enums, list_folds, array_folds, fold_of_folds, bindings, loops, unwrapped_loops,
)  # fmt: skip


def all_cases():
    return [case for family in FAMILIES for case in family()]
