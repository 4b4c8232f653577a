//! What node tables for RUN are made of: nodes, values, and a book that has
//! values of many shapes.

use std::rc::Rc;

use crate::writer::{Id, Writer};
use crate::Case;

/// A node: its kind and its operands.
pub type Node = (u8, u16, u16);

/// What a call of RUN is given, but for its cells.
#[derive(Clone)]
pub struct Table {
    pub case: Case,
    pub nodes: Vec<u8>,
    pub count: u32,
}

impl AsRef<Case> for Table {
    fn as_ref(&self) -> &Case {
        &self.case
    }
}

/// Nodes as they lie in a table.
pub fn bytes(nodes: &[Node]) -> Vec<u8> {
    let row = |&(kind, left, right): &Node| {
        let ([a, b], [c, d]) = (left.to_le_bytes(), right.to_le_bytes());
        [kind, a, b, c, d]
    };
    nodes.iter().flat_map(row).collect()
}

/// A value, to know what a table made at random meets when it is run.
#[derive(Clone, Debug, PartialEq, Eq)]
pub enum Value {
    Unit,
    Left(Rc<Value>),
    Right(Rc<Value>),
    Pair(Rc<Value>, Rc<Value>),
}

impl Value {
    pub fn left(inner: Value) -> Value {
        Value::Left(Rc::new(inner))
    }

    pub fn right(inner: Value) -> Value {
        Value::Right(Rc::new(inner))
    }

    pub fn pair(first: Value, second: Value) -> Value {
        Value::Pair(Rc::new(first), Rc::new(second))
    }

    pub fn word(bits: usize, number: usize) -> Value {
        match (bits, number & 1) {
            (1, 0) => Value::left(Value::Unit),
            (1, _) => Value::right(Value::Unit),
            _ => {
                let half = bits / 2;
                Value::pair(Value::word(half, number >> half), Value::word(half, number))
            }
        }
    }

    /// The number that a word stands for, if the value is one of so many bits.
    pub fn number(&self, bits: usize) -> Option<usize> {
        match self {
            Value::Left(inner) if bits == 1 && **inner == Value::Unit => Some(0),
            Value::Right(inner) if bits == 1 && **inner == Value::Unit => Some(1),
            Value::Pair(high, low) if bits > 1 => {
                let half = bits / 2;
                Some(high.number(half)? << half | low.number(half)?)
            }
            _ => None,
        }
    }

    /// The two words of eight bits that `eq_8` and `add_8` take.
    pub fn two_words(&self) -> Option<(usize, usize)> {
        match self {
            Value::Pair(a, b) => Some((a.number(8)?, b.number(8)?)),
            _ => None,
        }
    }
}

/// The book that hand-made and random tables stand beside: values of many
/// shapes, each with its record and its type.
pub struct Stock {
    pub book: Vec<u8>,
    pub records: u16,
    pub values: Vec<(u16, u16, Value)>,
}

impl Stock {
    pub fn new() -> Stock {
        let mut shelf = Shelf::default();
        let unit = shelf.writer.unit_value();
        shelf.put(unit, Value::Unit);
        let bits = [0, 1].map(|bit| shelf.word(1, bit));
        shelf.word(4, 9);
        for a in [0, 1, 128, 255] {
            let first = shelf.word(8, a);
            shelf.put_sides(first);
            for b in [0, 1, 127, 255] {
                let second = shelf.word(8, b);
                shelf.put_pair(first, second);
            }
        }
        shelf.put_pair(bits[1], unit);
        shelf.put_sides(bits[1]);
        // Two records that begin as a value of the unit type does, and are none.
        let unit = shelf.writer.unit();
        shelf.writer.name_pattern(unit);
        shelf.writer.unit_expression();
        Stock {
            book: shelf.writer.bytes(),
            records: shelf.writer.count() as u16,
            values: shelf.values,
        }
    }

    /// A table of these nodes beside this book.
    pub fn table(&self, label: String, witnesses: Vec<u8>, nodes: &[Node]) -> Table {
        let case = Case {
            label,
            book: self.book.clone(),
            witnesses,
        };
        Table {
            case,
            nodes: bytes(nodes),
            count: nodes.len() as u32,
        }
    }
}

impl Default for Stock {
    fn default() -> Stock {
        Stock::new()
    }
}

/// A stock that is being laid in.
#[derive(Default)]
struct Shelf {
    writer: Writer,
    values: Vec<(u16, u16, Value)>,
}

impl Shelf {
    fn put(&mut self, id: Id, value: Value) {
        let record = (id as u16, self.writer.ty(id) as u16, value);
        if !self.values.contains(&record) {
            self.values.push(record);
        }
    }

    fn word(&mut self, bits: usize, number: usize) -> Id {
        let id = self.writer.word_value(bits, number);
        self.put(id, Value::word(bits, number));
        id
    }

    fn put_pair(&mut self, first: Id, second: Id) {
        let (a, b) = (self.writer.ty(first), self.writer.ty(second));
        let ty = self.writer.product(a, b);
        let id = self.writer.pair_value(ty, first, second);
        self.put(id, Value::pair(self.value(first), self.value(second)));
    }

    /// Left and right of a value, alone and in pairs as a case takes them.
    fn put_sides(&mut self, inner: Id) {
        let ty = self.writer.ty(inner);
        let sum = self.writer.sum(ty, ty);
        let left = self.writer.left_value(sum, inner);
        self.put(left, Value::left(self.value(inner)));
        let right = self.writer.right_value(sum, inner);
        self.put(right, Value::right(self.value(inner)));
        self.put_pair(left, inner);
        self.put_pair(right, inner);
    }

    fn value(&self, id: Id) -> Value {
        let found = self.values.iter().find(|value| value.0 == id as u16);
        found.expect("it was put there").2.clone()
    }
}
