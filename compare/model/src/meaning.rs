//! The source meaning: what a book's expression is worth, by names and arms.

use crate::book::{split, Book, Kind, Mark::*, Names, Record};
use std::collections::HashMap;
use std::rc::Rc;

pub type Value = Rc<Tree>;

#[derive(Debug, PartialEq, Eq)]
pub enum Tree {
    Unit,
    Left(Value),
    Right(Value),
    Pair(Value, Value),
}

use Tree::*;

#[derive(Clone, Debug, PartialEq, Eq)]
pub enum Meaning {
    Value(Value),
    Failed,
}

/// Why there is no meaning to compare: a premise of demand 3 isn't met.
#[derive(Clone, Copy, Debug, PartialEq, Eq)]
pub enum Premise {
    /// The entry is absent, no value record, or of another type.
    Witness(u16),
    /// A hash is reached.
    Hash(u16),
    /// More expressions would be worked out than the caller allows.
    Steps,
    /// A value has another shape than its place asks for, or a variable has
    /// no binding: not in a checked book.
    Shape(u16),
}

/// The meaning of the root. Parts are worked out from left to right, and the
/// first failure or unmet premise ends it.
pub fn mean(book: &Book, witnesses: &[u8], steps: u64) -> Result<Meaning, Premise> {
    let mut source = Source {
        book,
        witnesses,
        names: Names::of(book),
        values: HashMap::new(),
        steps,
    };
    match source.expression(book.root(), &mut Vec::new()) {
        Ok(value) => Ok(Meaning::Value(value)),
        Err(Stop::Failed) => Ok(Meaning::Failed),
        Err(Stop::Premise(premise)) => Err(premise),
    }
}

enum Stop {
    Failed,
    Premise(Premise),
}

fn shape(r: u16) -> Stop {
    Stop::Premise(Premise::Shape(r))
}

enum Binding {
    Pattern(u16, Value),
    Parameter(u16, Value),
}

/// The live bindings, newest last.
type Scope = Vec<Binding>;

struct Source<'a> {
    book: &'a Book,
    witnesses: &'a [u8],
    names: Names,
    /// The value records worked out already: they may share their parts.
    values: HashMap<u16, Value>,
    /// How many expressions may still be worked out.
    steps: u64,
}

impl Source<'_> {
    fn expression(&mut self, r: u16, scope: &mut Scope) -> Result<Value, Stop> {
        let steps = self.steps.checked_sub(1);
        self.steps = steps.ok_or(Stop::Premise(Premise::Steps))?;
        let record = self.book.at(r);
        match record.mark {
            Ec => Ok(self.value(record.fields[1])),
            Ew => self.witness(r, record),
            Ev => self.find(scope, record.fields[1]).ok_or(shape(r)),
            Eb => self.block(record, scope),
            Em | Eh => self.chosen_arm(r, record, scope),
            _ => {
                let parts = record.parts();
                let parts = parts.iter().map(|&e| self.expression(e, scope));
                let parts = parts.collect::<Result<Vec<Value>, Stop>>()?;
                self.whole(r, record, parts)
            }
        }
    }

    fn value(&mut self, r: u16) -> Value {
        if let Some(known) = self.values.get(&r) {
            return known.clone();
        }
        let record = self.book.at(r);
        let made = match record.mark {
            Vu => Unit,
            Vl => Left(self.value(record.fields[1])),
            Vr => Right(self.value(record.fields[1])),
            _ => Pair(self.value(record.fields[1]), self.value(record.fields[2])),
        };
        let made = Rc::new(made);
        self.values.insert(r, made.clone());
        made
    }

    fn witness(&mut self, r: u16, record: &Record) -> Result<Value, Stop> {
        let mut entries = self.witnesses.chunks_exact(2);
        let entry = entries.nth(usize::from(record.fields[1]));
        let entry = entry.map(|two| u16::from_le_bytes([two[0], two[1]]));
        let is_right = |entry: &u16| {
            let found = self.book.records.get(usize::from(*entry));
            found.is_some_and(|v| v.mark.kind() == Kind::Value && v.ty() == record.ty())
        };
        let entry = entry.filter(is_right);
        let entry = entry.ok_or(Stop::Premise(Premise::Witness(r)))?;
        Ok(self.value(entry))
    }

    /// The value of a name: of its newest binding, there of its first place.
    fn find(&self, scope: &Scope, name: u16) -> Option<Value> {
        for binding in scope.iter().rev() {
            match binding {
                Binding::Parameter(of, value) if *of == name => return Some(value.clone()),
                Binding::Pattern(pattern, value) if self.names.has(*pattern, name) => {
                    return self.find_in(*pattern, value, name);
                }
                _ => {}
            }
        }
        None
    }

    fn find_in(&self, pattern: u16, value: &Value, name: u16) -> Option<Value> {
        let record = self.book.at(pattern);
        if record.mark == Pi {
            return Some(value.clone());
        }
        let row = record.row();
        let k = row.iter().position(|&p| self.names.has(p, name))?;
        self.find_in(row[k], &element(value, k, row.len())?, name)
    }

    fn block(&mut self, record: &Record, scope: &mut Scope) -> Result<Value, Stop> {
        let live = scope.len();
        for &s in record.row() {
            let statement = self.book.at(s);
            let value = self.expression(statement.parts()[0], scope)?;
            if statement.mark == Sa {
                scope.push(Binding::Pattern(statement.fields[0], value));
            }
        }
        let end = record.parts().first().copied();
        let value = end.map_or(Ok(Rc::new(Unit)), |e| self.expression(e, scope))?;
        scope.truncate(live);
        Ok(value)
    }

    fn chosen_arm(&mut self, r: u16, record: &Record, scope: &mut Scope) -> Result<Value, Stop> {
        let arms = match record.mark {
            Em => &record.fields[2..],
            _ => record.row(),
        };
        let scrutinee = self.expression(record.fields[1], scope)?;
        let (k, payload) = chosen(&scrutinee, arms.len() / 2).ok_or(shape(r))?;
        let live = scope.len();
        scope.push(Binding::Pattern(arms[2 * k], payload));
        let value = self.expression(arms[2 * k + 1], scope)?;
        scope.truncate(live);
        Ok(value)
    }

    /// What an expression makes of its parts.
    fn whole(&mut self, r: u16, record: &Record, parts: Vec<Value>) -> Result<Value, Stop> {
        match record.mark {
            Et => Ok(row(&parts)),
            El => Ok(list(&parts, usize::from(record.fields[1]))),
            E0 => Ok(Rc::new(Left(parts[0].clone()))),
            E1 => Ok(Rc::new(Right(parts[0].clone()))),
            En => {
                let (index, variants) = (record.fields[1], record.fields[2]);
                Ok(variant(
                    row(&parts),
                    usize::from(index),
                    usize::from(variants),
                ))
            }
            Cd | Ck => Ok(parts[0].clone()),
            Cl | Cr => match (record.mark, parts[0].as_ref()) {
                (Cl, Left(x)) | (Cr, Right(x)) => Ok(x.clone()),
                (_, Left(_) | Right(_)) => Err(Stop::Failed),
                _ => Err(shape(r)),
            },
            Ca => verify(&parts).unwrap_or(Err(shape(r))),
            Cp => Err(Stop::Failed),
            Cn => match *parts[0] {
                Left(_) => Ok(bit(true)),
                Right(_) => Ok(bit(false)),
                _ => Err(shape(r)),
            },
            Cj => jet(record.fields[2], &parts).unwrap_or(Err(shape(r))),
            Ch => Err(Stop::Premise(Premise::Hash(r))),
            _ => self.called(r, record, parts),
        }
    }

    fn called(&mut self, r: u16, record: &Record, parts: Vec<Value>) -> Result<Value, Stop> {
        let (function, number) = (record.fields[1], usize::from(record.fields[2]));
        let over = match record.mark {
            Cf => return self.apply(r, function, parts),
            Cw => return self.counted(r, record, &parts),
            Cq => list_elements(&parts[0], number),
            _ => elements(&parts[0], number),
        };
        let mut acc = parts[1].clone();
        for element in over.ok_or(shape(r))? {
            acc = self.apply(r, function, vec![element, acc])?;
        }
        Ok(acc)
    }

    /// The loop: from count 0, until the function gives left.
    fn counted(&mut self, r: u16, record: &Record, parts: &[Value]) -> Result<Value, Stop> {
        let (function, width) = (record.fields[1], usize::from(record.fields[2]));
        let mut acc = parts[0].clone();
        for count in 0..1 << width {
            let arguments = vec![acc, parts[1].clone(), word(count, width)];
            let turn = self.apply(r, function, arguments)?;
            acc = match turn.as_ref() {
                Left(_) => return Ok(turn),
                Right(acc) => acc.clone(),
                _ => return Err(shape(r)),
            };
        }
        Ok(Rc::new(Right(acc)))
    }

    /// A function sees its parameters and no other name.
    fn apply(&mut self, r: u16, function: u16, arguments: Vec<Value>) -> Result<Value, Stop> {
        let record = self.book.at(function);
        let names = record.row().chunks_exact(2).map(|pair| pair[0]);
        if names.len() != arguments.len() {
            return Err(shape(r));
        }
        let bindings = names.zip(arguments).rev();
        let bindings = bindings.map(|(name, value)| Binding::Parameter(name, value));
        self.expression(record.parts()[0], &mut bindings.collect())
    }
}

fn bit(set: bool) -> Value {
    let unit = Rc::new(Unit);
    Rc::new(if set { Right(unit) } else { Left(unit) })
}

fn pair(a: Value, b: Value) -> Value {
    Rc::new(Pair(a, b))
}

/// A balanced row.
fn row(parts: &[Value]) -> Value {
    match parts {
        [] => Rc::new(Unit),
        [one] => one.clone(),
        _ => {
            let (left, right) = parts.split_at(split(parts.len()));
            pair(row(left), row(right))
        }
    }
}

/// Element k of a row of n.
fn element(value: &Value, k: usize, n: usize) -> Option<Value> {
    match value.as_ref() {
        _ if n == 1 => Some(value.clone()),
        Pair(left, _) if k < split(n) => element(left, k, split(n)),
        Pair(_, right) => element(right, k - split(n), n - split(n)),
        _ => None,
    }
}

/// All n elements of a row, 1 or more.
fn elements(value: &Value, n: usize) -> Option<Vec<Value>> {
    (0..n).map(|k| element(value, k, n)).collect()
}

/// A list of fewer elements than its bound.
fn list(parts: &[Value], bound: usize) -> Value {
    let half = bound / 2;
    let (block, rest) = match parts.len() >= half {
        true => (Right(row(&parts[..half])), &parts[half..]),
        false => (Left(Rc::new(Unit)), parts),
    };
    match half {
        1 => Rc::new(block),
        _ => pair(Rc::new(block), list(rest, half)),
    }
}

fn list_elements(value: &Value, bound: usize) -> Option<Vec<Value>> {
    let half = bound / 2;
    let (block, rest) = match value.as_ref() {
        Pair(block, rest) if half > 1 => (block, list_elements(rest, half)?),
        _ if half == 1 => (value, Vec::new()),
        _ => return None,
    };
    let mut all = match block.as_ref() {
        Left(_) => Vec::new(),
        Right(full) => elements(full, half)?,
        _ => return None,
    };
    all.extend(rest);
    Some(all)
}

/// Variant k of n.
fn variant(payload: Value, k: usize, n: usize) -> Value {
    if n == 1 {
        return payload;
    }
    let left = split(n);
    Rc::new(match k < left {
        true => Left(variant(payload, k, left)),
        false => Right(variant(payload, k - left, n - left)),
    })
}

/// Which of n variants a value is, and what it holds.
fn chosen(value: &Value, n: usize) -> Option<(usize, Value)> {
    if n == 1 {
        return Some((0, value.clone()));
    }
    let left = split(n);
    match value.as_ref() {
        Left(inner) => chosen(inner, left),
        Right(inner) => chosen(inner, n - left).map(|(k, payload)| (left + k, payload)),
        _ => None,
    }
}

/// A number as a word: high half left, true is right.
fn word(number: u32, width: usize) -> Value {
    let bits = (0..width).rev().map(|place| bit(number >> place & 1 == 1));
    row(&bits.collect::<Vec<Value>>())
}

fn is_true(value: &Value) -> Option<bool> {
    match value.as_ref() {
        Left(_) => Some(false),
        Right(_) => Some(true),
        _ => None,
    }
}

fn byte(value: &Value) -> Option<u8> {
    let bits = elements(value, 8)?;
    bits.iter()
        .try_fold(0, |high, low| Some(high << 1 | u8::from(is_true(low)?)))
}

/// Nothing if an argument has not the jet's shape.
fn jet(number: u16, parts: &[Value]) -> Option<Result<Value, Stop>> {
    if number == 0 {
        return verify(parts);
    }
    let [a, b] = parts else { return None };
    let (a, b) = (byte(a)?, byte(b)?);
    Some(Ok(match number {
        1 => bit(a == b),
        _ => {
            let sum = u32::from(a) + u32::from(b);
            pair(bit(sum > 255), word(sum % 256, 8))
        }
    }))
}

fn verify(parts: &[Value]) -> Option<Result<Value, Stop>> {
    let [condition] = parts else { return None };
    Some(match is_true(condition)? {
        true => Ok(Rc::new(Unit)),
        false => Err(Stop::Failed),
    })
}

#[cfg(test)]
mod tests {
    use super::*;
    use crate::book::tests::{cases, write};
    use crate::book::{read, Mark};
    use crate::check::check_book;

    /// What the cases start from. Patterns x and y bind the names 1 and 2.
    const FIRST: &str = "u: tu; bit: ts u u; w2: tp bit bit; w4: tp w2 w2; w8: tp w4 w4; \
        carried: tp bit w8; opt: ts u bit; two: tp u bit; three: tp bit w2; \
        some2: ts u w2; list4: tp some2 opt; enum3: ts w2 opt; \
        w16: tp w8 w8; w32: tp w16 w16; w64: tp w32 w32; w128: tp w64 w64; w256: tp w128 w128; \
        U: vu u; f: vl bit U; t: vr bit U; q0: vp w2 f f; q1: vp w2 f t; q3: vp w2 t t; \
        h0: vp w4 q0 q0; h1: vp w4 q0 q1; hf: vp w4 q3 q3; \
        v0: vp w8 h0 h0; v1: vp w8 h0 h1; v16: vp w8 h1 h0; v255: vp w8 hf hf; \
        no: vl opt U; yes: vr opt t; x: pi 1; y: pi 2; any: pn; xy: pt 2 x y; ";

    /// Bits as 0 and 1, bytes as numbers.
    fn show(value: &Value) -> String {
        match value.as_ref() {
            _ if byte(value).is_some() => byte(value).unwrap().to_string(),
            Unit => "()".into(),
            Left(inner) if **inner == Unit => "0".into(),
            Right(inner) if **inner == Unit => "1".into(),
            Left(inner) => format!("L {}", show(inner)),
            Right(inner) => format!("R {}", show(inner)),
            Pair(a, b) => format!("({} {})", show(a), show(b)),
        }
    }

    /// Entry 0 of the witness list is true, entry 1 a type, entry 2 absent.
    fn meaning(text: &str, steps: u64) -> String {
        let (bytes, labels) = write(&format!("{FIRST}{text}"));
        let book = read(&bytes).unwrap();
        assert_eq!(check_book(&book), Ok(()), "{text}");
        let mut witnesses = [labels["t"].to_le_bytes(), labels["bit"].to_le_bytes()].concat();
        witnesses.push(0);
        match mean(&book, &witnesses, steps) {
            Ok(Meaning::Value(value)) => show(&value),
            Ok(Meaning::Failed) => "failed".into(),
            Err(Premise::Witness(r)) if book.at(r).mark == Mark::Ew => "witness".into(),
            Err(Premise::Hash(r)) if book.at(r).mark == Mark::Ch => "hash".into(),
            Err(other) => format!("{other:?}"),
        }
    }

    fn all(first: &str, text: &str) {
        for (expected, text) in cases(text) {
            assert_eq!(
                meaning(&format!("{first}{text}"), 10_000),
                expected,
                "{text}"
            );
        }
    }

    #[test]
    fn expressions() {
        let text = "
            (0 1)     | ec w2 q1
            ()        | et u 0
            1         | a: ec bit t; et bit 1 a
            (() 1)    | a: ec u U; b: ec bit t; et two 2 a b
            (0 (1 1)) | a: ec bit f; b: ec bit t; c: ec bit t; et three 3 a b c
            0         | a: ec u U; e0 opt a
            R 0       | a: ec bit f; e1 opt a
            R 0       | en enum3 1 3 0
            R R 1     | a: ec bit t; en enum3 2 3 1 a
            L (1 0)   | a: ec bit t; b: ec bit f; en enum3 0 3 2 a b
            (0 0)     | el list4 4 0
            (0 R 1)   | a: ec bit t; el list4 4 1 a
            a failure anywhere in a row
            failed    | a: ec u U; b: cp bit 0; et two 2 a b
            failed    | a: cp u 0; b: ec bit t; et two 2 a b";
        all("", text);
    }

    #[test]
    fn blocks() {
        let text = "
            1      | a: ec bit t; s: sa x a; b: ev bit 1; eb bit 1 s b
            ()     | a: ec u U; s: se a; eb u 1 s 65535
            failed | a: cp u 0; s: se a; eb u 1 s 65535
            failed | a: cp bit 0; s: sa any a; b: ec bit t; eb bit 1 s b
            (1 0)  | a: ec w2 q1; s: sa xy a; b: ev bit 2; c: ev bit 1; d: et w2 2 b c; eb w2 1 s d
            the newest binding of a name, until its block ends
            (0 1)  | b: ec bit f; z: sa x b; c: ev bit 1; i: eb bit 1 z c; d: ev bit 1; \
                e: et w2 2 i d; a: ec bit t; s: sa x a; eb w2 1 s e";
        all("", text);
    }

    #[test]
    fn arms() {
        let text = "
            1      | m: ec opt yes; a: cp bit 0; b: ev bit 1; em bit m any a x b
            0      | m: ec opt no; a: ec bit f; b: cp bit 0; em bit m any a x b
            failed | m: cp opt 0; a: ec bit f; b: ec bit f; em bit m any a x b
            1      | m: ec bit t; a: ev bit 1; eh bit m 1 x a
            0      | k: ec bit f; m: en enum3 2 3 1 k; a: cp bit 0; b: cp bit 0; c: ev bit 1; \
                eh bit m 3 any a any b x c";
        all("", text);
    }

    #[test]
    fn lists_both_ways() {
        let leaf = |n: u32| word(n, 4);
        let parts: Vec<Value> = (1..4).map(leaf).collect();
        let [a, b, c] = [1, 2, 3].map(leaf);
        let right = |value| Rc::new(Right(value));
        let expected = pair(bit(false), pair(right(pair(a, b)), right(c)));
        assert_eq!(list(&parts, 8), expected);
        for bound in [2, 4, 8, 256] {
            for n in 0..bound {
                let parts: Vec<Value> = (0..n as u32).map(leaf).collect();
                assert_eq!(elements(&row(&parts), n).as_ref(), Some(&parts));
                assert_eq!(list_elements(&list(&parts, bound), bound), Some(parts));
            }
        }
    }

    #[test]
    fn variants_both_ways() {
        let path = |k: usize, n: usize| show(&variant(word(9, 8), k, n));
        assert_eq!((path(1, 3), path(1, 5)), ("R L 9".into(), "R L L 9".into()));
        for n in 1..20 {
            for k in 0..n {
                let value = word(9, 8);
                assert_eq!(chosen(&variant(value.clone(), k, n), n), Some((k, value)));
            }
        }
    }

    #[test]
    fn builtin_calls() {
        let text = "
            ()      | a: ec bit t; cj u 0 0 1 a
            failed  | a: ec bit f; cj u 0 0 1 a
            ()      | a: ec bit t; ca u 5 a
            failed  | a: ec bit f; ca u 5 a
            1       | a: ec w8 v16; b: ec w8 v16; cj bit 0 1 2 a b
            0       | a: ec w8 v16; b: ec w8 v1; cj bit 0 1 2 a b
            (0 17)  | a: ec w8 v16; b: ec w8 v1; cj carried 0 2 2 a b
            (0 255) | a: ec w8 v0; b: ec w8 v255; cj carried 0 2 2 a b
            (1 0)   | a: ec w8 v255; b: ec w8 v1; cj carried 0 2 2 a b
            (1 254) | a: ec w8 v255; b: ec w8 v255; cj carried 0 2 2 a b
            ()      | a: ec opt no; cl u 0 a
            failed  | a: ec opt yes; cl u 0 a
            1       | a: ec opt yes; cr bit 0 a
            failed  | a: ec opt no; cr bit 0 a
            1       | a: ec opt no; cn bit a
            0       | a: ec opt yes; cn bit a
            R 1     | a: ec opt yes; cd opt 0 a
            R 1     | a: ec opt yes; ck opt a
            failed  | cp bit 0";
        all("", text);
    }

    #[test]
    fn functions_and_folds() {
        // Of e and (a, b) it makes (b, e): the last two elements, in order.
        let shift = "a1: ev w2 2; ab: pt 2 any y; s1: sa ab a1; b1: ev bit 2; e1: ev bit 1; \
            p1: et w2 2 b1 e1; k1: eb w2 1 s1 p1; shift: fn w2 2 1 bit 2 w2 k1; \
            e: ec bit f; c: ec bit t; b: ec w2 q0; ";
        let text = "
            (0 1) | d: et w2 2 e c; n: ec bit t; s: sa any d; o: cf w2 shift 2 n b; eb w2 1 s o
            (0 1) | a: el list4 4 2 e c; cq w2 shift 4 a b
            (1 0) | a: el list4 4 2 c e; cq w2 shift 4 a b
            (0 1) | d: ec bit t; a: el list4 4 3 c e d; cq w2 shift 4 a b
            (1 0) | a: et w2 2 c e; cy w2 shift 2 a b
            (0 1) | d: ec bit t; a: et three 3 c e d; cy w2 shift 3 a b";
        all(shift, text);
    }

    #[test]
    fn loops() {
        // The accumulator, left where the counter equals the context, else
        // right of one more.
        let count = "sum: ts w8 w8; c: ev w8 2; n: ev w8 3; q: cj bit 0 1 2 c n; \
            a: ev w8 1; i: ec w8 v1; p: cj carried 0 2 2 a i; s: sa xy p; m: ev w8 2; \
            k: eb w8 1 s m; on: e1 sum k; o: ev w8 1; off: e0 sum o; \
            e: em sum q any on any off; g: fn sum 3 1 w8 2 w8 3 w8 e; z: ec w8 v255; ";
        all(count, "L 15 | d: ec w8 v16; cw sum g 8 z d");
        // Never left: four rounds of plus one.
        let on = "sum: ts u w8; a: ev w8 1; i: ec w8 v1; p: cj carried 0 2 2 a i; s: sa xy p; \
            m: ev w8 2; k: eb w8 1 s m; e: e1 sum k; g: fn sum 3 1 w8 2 u 3 w2 e; d: ec u U; ";
        all(on, "R 3 | z: ec w8 v255; cw sum g 2 z d");
    }

    #[test]
    fn premises() {
        let text = "
            1       | ew bit 0
            witness | ew u 0
            witness | ew u 1
            witness | ew bit 2
            0       | m: ec bit t; w: ew bit 2; b: ec bit f; em bit m any w any b
            hash    | a: ec w8 v0; ch w256 0 1 8 a
            what comes first decides
            failed  | a: cp u 0; w: ew bit 2; et two 2 a w
            witness | w: ew u 0; a: cp bit 0; et two 2 w a
            failed  | a: cp w8 0; ch w256 0 1 8 a";
        all("", text);
        let three = "a: ec u U; b: ec bit t; et two 2 a b";
        assert_eq!(meaning(three, 2), "Steps");
        assert_eq!(meaning(three, 3), "(() 1)");
    }
}
