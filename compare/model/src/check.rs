//! CHECK: each declared type against the one its parts give.

use crate::book::{read, split, Book, Kind, Mark, Mark::*, Names, Record};
use crate::Refusal;
use std::collections::{HashMap, HashSet};

const UNDEFINED: u16 = 10;
const TYPE: u16 = 13;
const NAME: u16 = 14;

/// CHECK: the number of records, or READ's refusal, or the first of 10, 13
/// and 14.
pub fn check(book: &[u8]) -> Result<usize, Refusal> {
    let book = read(book)?;
    check_book(&book)?;
    Ok(book.records.len())
}

/// CHECK of a book that READ accepts: values, functions, then the root.
pub fn check_book(book: &Book) -> Result<(), Refusal> {
    let mut checker = Checker::new(book);
    for r in checker.all(Kind::Value) {
        hold(checker.value(book.at(r)), TYPE, r)?;
    }
    for r in checker.all(Kind::Function) {
        checker.function(r)?;
    }
    checker.expression(book.root())
}

fn hold(holds: bool, number: u16, place: u16) -> Result<(), Refusal> {
    match holds {
        true => Ok(()),
        false => Err(Refusal::new(number, usize::from(place))),
    }
}

/// A type put together from others: its record, or nothing if the book has no
/// such type. READ refuses alike types, so two types are one exactly if their
/// records are; and a type that the book lacks is nobody's declared type.
type Built = Option<u16>;

enum Binding {
    /// A pattern and the type that it takes apart.
    Pattern(u16, u16),
    /// The parameters of a function.
    Parameters(u16),
}

struct Checker<'a> {
    book: &'a Book,
    types: HashMap<(Mark, &'a [u16]), u16>,
    names: Names,
    /// Whether a pattern fits a type, once known.
    fits: HashMap<(u16, u16), bool>,
    /// The live bindings, newest last.
    scope: Vec<Binding>,
}

impl<'a> Checker<'a> {
    fn new(book: &'a Book) -> Checker<'a> {
        let records = (0..).zip(&book.records);
        let types = records.filter(|(_, record)| record.mark.kind() == Kind::Type);
        let types = types.map(|(r, record)| ((record.mark, record.fields.as_slice()), r));
        Checker {
            book,
            types: types.collect(),
            names: Names::of(book),
            fits: HashMap::new(),
            scope: Vec::new(),
        }
    }

    fn all(&self, kind: Kind) -> Vec<u16> {
        let is = |r: &u16| self.book.at(*r).mark.kind() == kind;
        (0..=self.book.root()).filter(is).collect()
    }

    fn value(&self, record: &Record) -> bool {
        let t = record.ty();
        let part = |k: usize| self.book.ty(record.fields[k]);
        match record.mark {
            Vu => Some(t) == self.unit(),
            Vl => self.left(t) == Some(part(1)),
            Vr => self.right(t) == Some(part(1)),
            _ => self.halves(Tp, t) == Some((part(1), part(2))),
        }
    }

    fn function(&mut self, r: u16) -> Result<(), Refusal> {
        let record = self.book.at(r);
        let mut seen = HashSet::new();
        let mut parameters = record.row().chunks_exact(2);
        hold(parameters.all(|pair| seen.insert(pair[0])), NAME, r)?;
        let body = record.parts()[0];
        self.scope.push(Binding::Parameters(r));
        self.expression(body)?;
        self.scope.clear();
        hold(self.book.ty(body) == record.ty(), TYPE, r)
    }

    /// The parts in the order in which they are lowered, then the whole.
    fn expression(&mut self, r: u16) -> Result<(), Refusal> {
        let record = self.book.at(r);
        let live = self.scope.len();
        match record.mark {
            Ev => {
                let found = self.find(record.fields[1]);
                hold(found.is_some(), UNDEFINED, r)?;
                hold(found == Some(record.ty()), TYPE, r)?;
            }
            Em => {
                let halves = self.halves(Ts, self.book.ty(record.fields[1]));
                let types = halves.map(|(left, right)| vec![left, right]);
                self.arms(r, types, &record.fields[2..])?;
            }
            Eh => {
                let arms = record.row();
                let scrutinee = self.book.ty(record.fields[1]);
                let types = self.places(Ts, scrutinee, arms.len() / 2);
                self.arms(r, types, arms)?;
            }
            Eb => {
                for &s in record.row() {
                    self.statement(s)?;
                }
                self.expressions(&record.parts())?;
            }
            _ => self.expressions(&record.parts())?,
        }
        self.scope.truncate(live);
        hold(self.whole(record), TYPE, r)
    }

    fn expressions(&mut self, all: &[u16]) -> Result<(), Refusal> {
        all.iter().try_for_each(|&e| self.expression(e))
    }

    /// The arms, each behind its pattern, then the scrutinee: the lowering
    /// stores it after them.
    fn arms(&mut self, r: u16, types: Option<Vec<u16>>, arms: &[u16]) -> Result<(), Refusal> {
        hold(types.is_some(), TYPE, r)?;
        let live = self.scope.len();
        for (t, arm) in types.into_iter().flatten().zip(arms.chunks_exact(2)) {
            self.bind(arm[0], t, r)?;
            self.expression(arm[1])?;
            self.scope.truncate(live);
        }
        self.expression(self.book.at(r).fields[1])
    }

    fn statement(&mut self, s: u16) -> Result<(), Refusal> {
        let record = self.book.at(s);
        let e = record.parts()[0];
        self.expression(e)?;
        let t = self.book.ty(e);
        match record.mark {
            Sa => self.bind(record.fields[0], t, s),
            _ => hold(Some(t) == self.unit(), TYPE, s),
        }
    }

    fn bind(&mut self, pattern: u16, t: u16, place: u16) -> Result<(), Refusal> {
        hold(self.fit(pattern, t), TYPE, place)?;
        hold(!self.names.twice(pattern), NAME, place)?;
        self.scope.push(Binding::Pattern(pattern, t));
        Ok(())
    }

    fn fit(&mut self, pattern: u16, t: u16) -> bool {
        let record = self.book.at(pattern);
        if record.mark != Pt {
            return true;
        }
        if let Some(&known) = self.fits.get(&(pattern, t)) {
            return known;
        }
        let row = record.row();
        let fits = match self.places(Tp, t, row.len()) {
            _ if row.is_empty() => Some(t) == self.unit(),
            Some(types) => row.iter().zip(types).all(|(&p, t)| self.fit(p, t)),
            None => false,
        };
        self.fits.insert((pattern, t), fits);
        fits
    }

    /// The type of a name: of its newest binding, there of its first place.
    fn find(&self, name: u16) -> Option<u16> {
        self.scope.iter().rev().find_map(|binding| match *binding {
            Binding::Pattern(pattern, t) => self.find_in(pattern, t, name),
            Binding::Parameters(function) => {
                let mut row = self.book.at(function).row().chunks_exact(2);
                row.find(|pair| pair[0] == name).map(|pair| pair[1])
            }
        })
    }

    fn find_in(&self, pattern: u16, t: u16, name: u16) -> Option<u16> {
        if !self.names.has(pattern, name) {
            return None;
        }
        let record = self.book.at(pattern);
        if record.mark == Pi {
            return Some(t);
        }
        let row = record.row();
        let k = row.iter().position(|&p| self.names.has(p, name))?;
        self.find_in(row[k], self.place(Tp, t, k, row.len())?, name)
    }

    /// Whether the declared type is the one that the parts' declared types
    /// give.
    fn whole(&self, record: &Record) -> bool {
        let t = record.ty();
        let parts = record.parts();
        let parts: Vec<u16> = parts.iter().map(|&e| self.book.ty(e)).collect();
        match record.mark {
            Ec => self.book.ty(record.fields[1]) == t,
            // A variable was judged where it was found.
            Ew | Ev | Cp => true,
            Et => self.row(&parts) == Some(t),
            El => self.list_of(record, &parts),
            E0 => self.left(t) == Some(parts[0]),
            E1 => self.right(t) == Some(parts[0]),
            En => self.variant(record, &parts),
            Eb => parts.first().copied().or(self.unit()) == Some(t),
            Em | Eh => parts[1..].iter().all(|&arm| arm == t),
            _ => self.call(record, &parts),
        }
    }

    fn list_of(&self, record: &Record, parts: &[u16]) -> bool {
        let bound = record.fields[1];
        // The last block is one element, so it tells the elements' type.
        let mut tail = Some(record.ty());
        for _ in 1..bound.ilog2() {
            tail = tail.and_then(|t| self.halves(Tp, t)).map(|(_, rest)| rest);
        }
        let element = tail.and_then(|t| self.right(t));
        let built = self.list(bound, element);
        built == Some(record.ty()) && parts.iter().all(|&part| Some(part) == element)
    }

    fn variant(&self, record: &Record, parts: &[u16]) -> bool {
        let (index, variants) = (record.fields[1], record.fields[2]);
        let places = self.places(Ts, record.ty(), usize::from(variants));
        places.is_some_and(|places| Some(places[usize::from(index)]) == self.row(parts))
    }

    fn call(&self, record: &Record, parts: &[u16]) -> bool {
        let t = record.ty();
        match record.mark {
            Cl => self.left(parts[0]) == Some(t),
            Cr => self.right(parts[0]) == Some(t),
            Cd | Ck => parts[0] == t,
            Ca => Some(parts[0]) == self.bit() && Some(t) == self.unit(),
            Cn => self.left(parts[0]).is_some() && Some(t) == self.bit(),
            Cj => self.jet(record, parts),
            Ch => {
                let widths = record.row().chunks_exact(2).map(|pair| pair[0]);
                let words = widths.map(|width| self.word(width));
                words.eq(parts.iter().map(|&part| Some(part))) && Some(t) == self.word(256)
            }
            _ => self.applied(record, parts),
        }
    }

    fn jet(&self, record: &Record, parts: &[u16]) -> bool {
        let (bit, byte) = (self.bit(), self.word(8));
        let (takes, gives) = match record.fields[2] {
            0 => (vec![bit], self.unit()),
            1 => (vec![byte, byte], bit),
            _ => (vec![byte, byte], self.both(Tp, bit, byte)),
        };
        let parts = parts.iter().map(|&part| Some(part));
        parts.eq(takes) && Some(record.ty()) == gives
    }

    /// The calls of a function: plain, folds and the loop.
    fn applied(&self, record: &Record, parts: &[u16]) -> bool {
        let (t, function) = (record.ty(), self.book.at(record.fields[1]));
        let number = record.fields[2];
        let takes = function.row().chunks_exact(2).map(|pair| pair[1]);
        let takes: Vec<u16> = takes.collect();
        let fits = match (record.mark, takes.as_slice()) {
            (Cf, takes) => takes == parts,
            (Cq, &[element, acc]) => {
                let list = self.list(number, Some(element));
                Some(parts[0]) == list && parts[1] == acc && t == acc
            }
            (Cy, &[element, acc]) => {
                let array = self.power(Some(element), number);
                Some(parts[0]) == array && parts[1] == acc && t == acc
            }
            (Cw, &[acc, context, counter]) => {
                let counts = Some(counter) == self.word(number);
                counts && parts == [acc, context] && self.right(t) == Some(acc)
            }
            _ => false,
        };
        fits && function.ty() == t
    }
}

/// Types taken apart and put together.
impl Checker<'_> {
    /// Both sides of a sum (ts) or a product (tp).
    fn halves(&self, mark: Mark, t: u16) -> Option<(u16, u16)> {
        let record = self.book.at(t);
        (record.mark == mark).then(|| (record.fields[0], record.fields[1]))
    }

    /// The left of a sum.
    fn left(&self, t: u16) -> Option<u16> {
        self.halves(Ts, t).map(|(left, _)| left)
    }

    /// The right of a sum.
    fn right(&self, t: u16) -> Option<u16> {
        self.halves(Ts, t).map(|(_, right)| right)
    }

    /// Place k of n in a balanced tree of sums or of products.
    fn place(&self, mark: Mark, t: u16, k: usize, n: usize) -> Option<u16> {
        if n == 1 {
            return Some(t);
        }
        let (left, right) = self.halves(mark, t)?;
        match k.checked_sub(split(n)) {
            None => self.place(mark, left, k, split(n)),
            Some(k) => self.place(mark, right, k, n - split(n)),
        }
    }

    /// All n places, 1 or more, if the tree has them.
    fn places(&self, mark: Mark, t: u16, n: usize) -> Option<Vec<u16>> {
        (0..n).map(|k| self.place(mark, t, k, n)).collect()
    }

    fn unit(&self) -> Built {
        self.types.get(&(Tu, [].as_slice())).copied()
    }

    fn both(&self, mark: Mark, left: Built, right: Built) -> Built {
        self.types.get(&(mark, [left?, right?].as_slice())).copied()
    }

    fn bit(&self) -> Built {
        self.both(Ts, self.unit(), self.unit())
    }

    fn word(&self, width: u16) -> Built {
        self.power(self.bit(), width)
    }

    fn row(&self, parts: &[u16]) -> Built {
        match parts {
            [] => self.unit(),
            [one] => Some(*one),
            _ => {
                let (left, right) = parts.split_at(split(parts.len()));
                self.both(Tp, self.row(left), self.row(right))
            }
        }
    }

    /// A row of n, 1 or more, of one type.
    fn power(&self, element: Built, n: u16) -> Built {
        let element = element?;
        self.row(&vec![element; usize::from(n)])
    }

    fn list(&self, bound: u16, element: Built) -> Built {
        if bound == 2 {
            return self.both(Ts, self.unit(), element);
        }
        let half = bound / 2;
        let block = self.both(Ts, self.unit(), self.power(element, half));
        self.both(Tp, block, self.list(half, element))
    }
}

#[cfg(test)]
mod tests {
    use super::*;
    use crate::book::tests::{cases, write};

    /// What the cases start from. Patterns x and y bind the names 1 and 2.
    const FIRST: &str = "u: tu; bit: ts u u; w2: tp bit bit; w4: tp w2 w2; w8: tp w4 w4; \
        carried: tp bit w8; opt: ts u bit; two: tp u bit; three: tp bit w2; \
        some2: ts u w2; list4: tp some2 opt; enum3: ts two opt; \
        U: vu u; f: vl bit U; t: vr bit U; \
        x: pi 1; y: pi 2; any: pn; none: pt 0; xy: pt 2 x y; xx: pt 2 x x; ";

    /// Each case is right, or names its refusal's number and place.
    fn all(first: &str, text: &str) {
        for (expected, text) in cases(text) {
            let (bytes, labels) = write(&format!("{FIRST}{first}{text}"));
            let expected = expected.split_once(' ').map(|(number, label)| Refusal {
                number: number.parse().unwrap(),
                place: labels[label],
            });
            assert_eq!(check(&bytes).err(), expected, "{text}");
        }
    }

    #[test]
    fn values() {
        let text = "
            ok   | ec bit t
            13 a | a: vu bit; ec u U
            ok   | a: vl opt U; ec opt a
            13 a | a: vl opt f; ec u U
            ok   | a: vr opt f; ec opt a
            13 a | a: vr opt U; ec u U
            13 a | a: vl w2 f; ec u U
            ok   | a: vp w2 f t; ec w2 a
            13 a | a: vp w2 f U; ec u U
            13 a | a: vp bit U U; ec u U
            before functions, though these stand first
            13 a | e: ev u 1; g: fn u 0 e; a: vu bit; ec u U";
        all("", text);
    }

    #[test]
    fn leaves_and_rows() {
        let text = "
            13 r | r: ec u t
            10 r | r: ev u 1
            ok   | et u 0
            13 r | r: et bit 0
            ok   | a: ec bit t; et bit 1 a
            ok   | a: ec u U; b: ec bit t; et two 2 a b
            13 r | a: ec u U; b: ec bit t; r: et two 2 b a
            13 a | a: ec u t; b: ev bit 1; et two 2 a b
            ok   | a: ec u U; e0 opt a
            13 r | a: ec bit t; r: e0 opt a
            ok   | a: ec bit t; e1 opt a
            13 r | a: ec u U; r: e1 opt a
            13 r | a: ec u U; r: e1 two a
            three split into one and two
            ok   | a: ew bit 0; b: ew bit 0; c: ew bit 0; et three 3 a b c
            13 r | a: ew bit 0; b: ew bit 0; c: ew bit 0; s: tp w2 bit; r: et s 3 a b c";
        all("", text);
    }

    #[test]
    fn lists() {
        let text = "
            ok   | el opt 2 0
            ok   | a: ew bit 0; el opt 2 1 a
            13 r | a: ew u 0; r: el opt 2 1 a
            13 r | r: el two 2 0
            ok   | el list4 4 0
            ok   | a: ew bit 0; b: ew bit 0; el list4 4 2 a b
            13 r | a: ew bit 0; b: ew u 0; r: el list4 4 2 a b
            10 b | a: ew u 0; b: ev bit 1; el list4 4 2 a b
            blocks of different element types, even when it's empty
            13 r | wrong: tp some2 bit; r: el wrong 4 0
            13 r | wrong: tp opt opt; r: el wrong 4 0
            13 r | r: el list4 8 0";
        all("", text);
    }

    #[test]
    fn variants() {
        let text = "
            ok   | a: ew bit 0; en opt 1 2 1 a
            13 r | a: ew bit 0; r: en opt 0 2 1 a
            ok   | en opt 0 2 0
            ok   | a: ew bit 0; b: ew bit 0; en w2 0 1 2 a b
            ok   | a: ew bit 0; en enum3 2 3 1 a
            ok   | en enum3 1 3 0
            13 r | r: en enum3 2 3 0
            a place for each of the variants, not only for this one
            13 r | r: en some2 0 3 0";
        all("", text);
    }

    #[test]
    fn blocks() {
        let text = "
            ok   | eb u 0 65535
            13 r | r: eb bit 0 65535
            ok   | a: ew u 0; s: se a; eb u 1 s 65535
            13 s | a: ew bit 0; s: se a; b: ev u 9; eb u 1 s b
            13 a | a: ec u t; s: se a; eb u 1 s 65535
            13 r | a: ew u 0; r: eb bit 0 a
            ok   | a: ew bit 0; s: sa x a; b: ev bit 1; eb bit 1 s b
            13 b | a: ew bit 0; s: sa x a; b: ev u 1; eb u 1 s b
            10 b | a: ew bit 0; s: sa any a; b: ev bit 1; eb bit 1 s b
            10 a | a: ev bit 1; s: sa x a; eb u 1 s 65535
            the newest binding of a name
            ok   | a: ew bit 0; s: sa x a; c: ew u 0; z: sa x c; b: ev u 1; eb u 2 s z b
            13 b | a: ew bit 0; s: sa x a; c: ew u 0; z: sa x c; b: ev bit 1; eb bit 2 s z b
            a block ends its bindings
            10 b | a: ew u 0; s: sa x a; i: eb u 1 s 65535; b: ev bit 1; et two 2 i b";
        all("", text);
    }

    #[test]
    fn patterns() {
        let text = "
            ok   | a: ew two 0; s: sa xy a; b: ev bit 2; eb bit 1 s b
            13 s | a: ew bit 0; s: sa xy a; b: ev bit 9; eb bit 1 s b
            13 s | a: ew bit 0; s: sa xx a; eb u 1 s 65535
            14 s | a: ew two 0; s: sa xx a; b: ev bit 9; eb u 1 s b
            ok   | a: ew u 0; s: sa none a; eb u 1 s 65535
            13 s | a: ew bit 0; s: sa none a; eb u 1 s 65535
            ok   | p: pt 1 x; a: ew bit 0; s: sa p a; b: ev bit 1; eb bit 1 s b
            ok   | p: pt 3 x any y; a: ew three 0; s: sa p a; b: ev bit 2; eb bit 1 s b
            13 s | p: pt 3 x any y; q: tp w2 bit; a: ew q 0; s: sa p a; eb u 1 s 65535
            ok   | p: pt 2 xy any; a: ew w4 0; s: sa p a; b: ev bit 2; eb bit 1 s b
            14 s | p: pt 2 xy y; a: ew w4 0; s: sa p a; eb u 1 s 65535
            14 s | p: pt 2 xy xy; a: ew w4 0; s: sa p a; eb u 1 s 65535
            14 s | p: pt 2 xx any; a: ew w4 0; s: sa p a; eb u 1 s 65535";
        all("", text);
    }

    #[test]
    fn matches() {
        let text = "
            ok   | m: ew opt 0; a: ew bit 0; b: ev bit 1; em bit m any a x b
            ok   | m: ew opt 0; a: ev u 1; b: ew u 0; em u m x a any b
            13 r | m: ec two U; a: ev u 1; b: ev u 1; r: em u m x a any b
            arms before the scrutinee
            10 b | m: ec opt U; a: ev u 1; b: ev u 9; em u m x a any b
            13 m | m: ec opt U; a: ev u 1; b: ew u 0; em u m x a any b
            13 m | m: ec opt U; a: ev u 1; b: ew u 0; em bit m x a any b
            10 m | m: ev opt 1; a: ev u 1; b: ew u 0; em u m x a any b
            each pattern before its own arm
            13 r | m: ew opt 0; a: ev u 9; b: ew u 0; r: em u m xy a any b
            10 a | m: ew opt 0; a: ev u 9; b: ew u 0; em u m x a xy b
            13 r | m: ew opt 0; a: ev u 1; b: ev u 9; r: em u m x a xy b
            14 r | m: ew enum3 0; a: ev u 9; b: ew u 0; r: em u m xx a any b
            10 b | m: ew opt 0; a: ev u 1; b: ev bit 1; em u m x a any b
            13 r | m: ew opt 0; a: ev u 1; b: ew bit 0; r: em u m x a any b
            13 r | m: ew opt 0; a: ew bit 0; b: ew u 0; r: em u m x a any b
            13 r | m: ew opt 0; a: ev u 1; b: ew u 0; r: em bit m x a any b";
        all("", text);
    }

    #[test]
    fn enum_matches() {
        let text = "
            ok   | m: ew opt 0; a: ev opt 1; eh opt m 1 x a
            ok   | m: ew enum3 0; a: ev u 1; b: ev u 2; c: ew u 0; eh u m 3 xy a y b any c
            13 r | m: ew list4 0; a: ev u 9; b: ew u 0; r: eh u m 2 xy a any b
            13 r | s: ts two u; m: ew s 0; a: ev u 9; b: ew u 0; c: ew u 0; r: eh u m 3 x a y b x c
            13 b | m: ew enum3 0; a: ev u 1; b: ev bit 2; c: ew u 0; eh u m 3 xy a y b xy c
            13 r | m: ew enum3 0; a: ev u 1; b: ev u 2; c: ev u 9; r: eh u m 3 xy a y b xy c
            14 r | m: ew enum3 0; a: ev u 9; b: ev u 2; c: ew u 0; r: eh u m 3 xx a y b any c
            10 m | m: ev enum3 0; a: ev u 1; b: ev u 2; c: ew bit 0; eh u m 3 xy a y b any c
            13 r | m: ew enum3 0; a: ev u 1; b: ev u 2; c: ew bit 0; r: eh u m 3 xy a y b any c";
        all("", text);
    }

    #[test]
    fn jets() {
        let text = "
            ok   | a: ew bit 0; cj u 0 0 1 a
            13 r | a: ew u 0; r: cj u 0 0 1 a
            13 r | r: cj u 0 0 0
            ok   | a: ew w8 0; b: ew w8 0; cj bit 0 1 2 a b
            13 r | a: ew w8 0; b: ew w8 0; r: cj u 0 1 2 a b
            13 r | a: ew w8 0; r: cj bit 0 1 1 a
            10 c | a: ew w8 0; b: ew w8 0; c: ev u 1; cj bit 0 1 3 a b c
            ok   | a: ew w8 0; b: ew w8 0; cj carried 0 2 2 a b
            13 r | a: ew w8 0; b: ew w4 0; r: cj carried 0 2 2 a b";
        all("", text);
    }

    #[test]
    fn builtin_calls() {
        let text = "
            ok   | a: ew bit 0; ca u 0 a
            13 r | a: ew bit 0; r: ca bit 0 a
            13 r | a: ew u 0; r: ca u 0 a
            ok   | a: ew opt 0; cl u 0 a
            13 r | a: ew opt 0; r: cr u 0 a
            ok   | a: ew opt 0; cr bit 0 a
            13 r | a: ew two 0; r: cl u 0 a
            ok   | a: ew two 0; cd two 0 a
            13 r | a: ew two 0; r: cd u 0 a
            ok   | a: ew two 0; ck two a
            13 r | a: ew two 0; r: ck u a
            ok   | cp two 0
            ok   | a: ew opt 0; cn bit a
            13 r | a: ew opt 0; r: cn opt a
            13 r | a: ew two 0; r: cn bit a
            13 r | r: ch w8 0 0";
        all("", text);
    }

    #[test]
    fn hashes() {
        let wide = "w16: tp w8 w8; w32: tp w16 w16; w64: tp w32 w32; \
            w128: tp w64 w64; w256: tp w128 w128; ";
        let text = "
            ok   | ch w256 0 0
            ok   | a: ew w8 0; b: ew w256 0; ch w256 0 2 8 a 256 b
            13 r | a: ew w8 0; r: ch w256 0 1 16 a
            13 r | a: ew w8 0; r: ch w128 0 1 8 a";
        all(wide, text);
    }

    #[test]
    fn functions() {
        let text = "
            ok   | a: ew u 0; b: ew bit 0; cf bit g 2 a b
            13 r | a: ew u 0; r: cf bit g 1 a
            13 r | a: ew u 0; b: ew u 0; r: cf bit g 2 a b
            13 r | a: ew u 0; b: ew bit 0; r: cf u g 2 a b
            10 b | a: ew u 0; b: ev bit 1; cf u g 2 a b
            not called, and judged all the same
            13 h | e: ev u 1; h: fn bit 1 1 u e; ew u 0
            14 h | e: ev u 9; h: fn u 2 1 u 1 u e; ew u 0
            10 e | e: ev u 9; h: fn u 1 1 u e; ec u t
            no name from where it's called
            10 e | e: ev u 1; h: fn u 0 e; a: ew u 0; s: sa x a; c: cf u h 0; eb u 1 s c";
        all("e0: ev bit 2; g: fn bit 2 1 u 2 bit e0; ", text);
    }

    #[test]
    fn folds() {
        let functions = "e1: ev u 2; fold: fn u 2 1 bit 2 u e1; \
            e2: ew bit 0; other: fn bit 2 1 bit 2 u e2; \
            e3: ew u 0; more: fn u 3 1 bit 2 u 3 u e3; ";
        let text = "
            ok   | a: ew list4 0; b: ew u 0; cq u fold 4 a b
            13 r | a: ew list4 0; b: ew u 0; r: cq u fold 2 a b
            ok   | a: ew opt 0; b: ew u 0; cq u fold 2 a b
            13 r | a: ew opt 0; b: ew bit 0; r: cq u fold 2 a b
            13 r | a: ew opt 0; b: ew u 0; r: cq bit fold 2 a b
            13 r | a: ew opt 0; b: ew u 0; r: cq u other 2 a b
            13 r | a: ew opt 0; b: ew u 0; r: cq bit other 2 a b
            13 r | a: ew opt 0; b: ew u 0; r: cq u more 2 a b
            10 b | a: ew opt 0; b: ev u 1; cq u more 2 a b
            ok   | a: ew bit 0; b: ew u 0; cy u fold 1 a b
            ok   | a: ew three 0; b: ew u 0; cy u fold 3 a b
            13 r | a: ew w2 0; b: ew u 0; r: cy u fold 3 a b
            13 r | a: ew bit 0; b: ew bit 0; r: cy u fold 1 a b
            13 r | a: ew bit 0; b: ew u 0; r: cy bit other 1 a b
            13 r | a: ew w2 0; b: ew u 0; r: cy u more 2 a b";
        all(functions, text);
    }

    #[test]
    fn loops() {
        let functions = "e1: ew opt 0; loop: fn opt 3 1 bit 2 u 3 w2 e1; \
            e2: ew opt 0; left: fn opt 3 1 u 2 u 3 w2 e2; ";
        let text = "
            ok   | a: ew bit 0; b: ew u 0; cw opt loop 2 a b
            13 r | a: ew bit 0; b: ew u 0; r: cw opt loop 4 a b
            13 r | a: ew u 0; b: ew u 0; r: cw opt loop 2 a b
            13 r | a: ew bit 0; b: ew bit 0; r: cw opt loop 2 a b
            13 r | a: ew bit 0; b: ew u 0; r: cw bit loop 2 a b
            13 r | a: ew u 0; b: ew u 0; r: cw opt left 2 a b
            10 a | a: ev bit 1; b: ec u t; cw opt loop 2 a b";
        all(functions, text);
    }

    #[test]
    fn shared_patterns_take_no_time() {
        // 2^120 leaves, with one name among them.
        let mut text = String::from("t0: tu; p0: pn; q0: pi 7; ");
        for k in 0..120 {
            let next = k + 1;
            text += &format!("t{next}: tp t{k} t{k}; p{next}: pt 2 p{k} p{k}; ");
            text += &format!("q{next}: pt 2 p{k} q{k}; ");
        }
        text += "d: pt 2 q119 q119; e: ew t120 0; ";
        let (once, _) = write(&format!("{text} s: sa q120 e; v: ev t0 7; eb t0 1 s v"));
        assert!(check(&once).is_ok());
        let (twice, labels) = write(&format!("{text} s: sa d e; v: ev t0 7; eb t0 1 s v"));
        assert_eq!(
            check(&twice).unwrap_err(),
            Refusal::new(14, labels["s"].into())
        );
    }
}
