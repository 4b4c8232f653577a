//! Writing a book record by record.

use std::collections::HashMap;

/// A record's number.
pub type Id = usize;

/// What a type record says. Types are written once each, as READ asks.
#[derive(Clone, Copy, Debug, PartialEq, Eq, Hash)]
pub enum Ty {
    Unit,
    Sum(Id, Id),
    Product(Id, Id),
}

/// What a value record says, with its type.
#[derive(Clone, Copy, Debug, PartialEq, Eq, Hash)]
enum Val {
    Unit,
    Left(Id),
    Right(Id),
    Pair(Id, Id),
}

/// A book being written. Types and values are shared; all else is new.
#[derive(Clone, Default)]
pub struct Writer {
    bytes: Vec<u8>,
    count: usize,
    types: HashMap<Ty, Id>,
    shapes: HashMap<Id, Ty>,
    values: HashMap<(Id, Val), Id>,
    declared: HashMap<Id, Id>,
}

/// `eb`'s last field where the block has no end.
pub const NO_END: usize = 65_535;

impl Writer {
    pub fn new() -> Writer {
        Writer::default()
    }

    pub fn bytes(&self) -> Vec<u8> {
        self.bytes.clone()
    }

    pub fn count(&self) -> usize {
        self.count
    }

    pub fn len(&self) -> usize {
        self.bytes.len()
    }

    pub fn is_empty(&self) -> bool {
        self.bytes.is_empty()
    }

    /// Any record. What is declared of it can be asked for if it is an
    /// expression or a value, whose first field is its type.
    pub fn record(&mut self, mark: &str, fields: &[usize]) -> Id {
        self.bytes.extend(mark.bytes());
        for &field in fields {
            let field = u16::try_from(field).expect("a field has 16 bits");
            self.bytes.extend(field.to_le_bytes());
        }
        if matches!(mark.as_bytes()[0], b'v' | b'e' | b'c') {
            self.declared.insert(self.count, fields[0]);
        }
        self.count += 1;
        self.count - 1
    }

    /// A record whose row is counted: `head`, the row's length over `step`,
    /// the row, `tail`.
    pub fn row(
        &mut self,
        mark: &str,
        head: &[usize],
        step: usize,
        row: &[usize],
        tail: &[usize],
    ) -> Id {
        let mut fields = head.to_vec();
        fields.push(row.len() / step);
        fields.extend(row);
        fields.extend(tail);
        self.record(mark, &fields)
    }

    /// The declared type of a value or an expression.
    pub fn ty(&self, id: Id) -> Id {
        self.declared[&id]
    }

    pub fn shape(&self, ty: Id) -> Ty {
        self.shapes[&ty]
    }

    fn type_record(&mut self, ty: Ty) -> Id {
        if let Some(&id) = self.types.get(&ty) {
            return id;
        }
        let id = match ty {
            Ty::Unit => self.record("tu", &[]),
            Ty::Sum(a, b) => self.record("ts", &[a, b]),
            Ty::Product(a, b) => self.record("tp", &[a, b]),
        };
        self.types.insert(ty, id);
        self.shapes.insert(id, ty);
        id
    }

    pub fn unit(&mut self) -> Id {
        self.type_record(Ty::Unit)
    }

    pub fn sum(&mut self, a: Id, b: Id) -> Id {
        self.type_record(Ty::Sum(a, b))
    }

    pub fn product(&mut self, a: Id, b: Id) -> Id {
        self.type_record(Ty::Product(a, b))
    }

    pub fn bit(&mut self) -> Id {
        let unit = self.unit();
        self.sum(unit, unit)
    }

    /// The word of `width` bits, a power of two.
    pub fn word(&mut self, width: usize) -> Id {
        if width == 1 {
            return self.bit();
        }
        let half = self.word(width / 2);
        self.product(half, half)
    }

    /// The row of types, folded by its splits.
    pub fn tuple(&mut self, row: &[Id]) -> Id {
        match row {
            [] => self.unit(),
            [one] => *one,
            _ => {
                let (left, right) = row.split_at(split(row.len()));
                let (left, right) = (self.tuple(left), self.tuple(right));
                self.product(left, right)
            }
        }
    }

    pub fn array(&mut self, element: Id, size: usize) -> Id {
        self.tuple(&vec![element; size])
    }

    /// The type of lists of fewer than `bound` elements.
    pub fn list(&mut self, element: Id, bound: usize) -> Id {
        let unit = self.unit();
        let block = self.array(element, bound / 2);
        let block = self.sum(unit, block);
        if bound == 2 {
            return block;
        }
        let rest = self.list(element, bound / 2);
        self.product(block, rest)
    }

    /// The sum with a place for each payload.
    pub fn variants(&mut self, payloads: &[Id]) -> Id {
        if let [one] = payloads {
            return *one;
        }
        let (left, right) = payloads.split_at(split(payloads.len()));
        let (left, right) = (self.variants(left), self.variants(right));
        self.sum(left, right)
    }

    fn value_record(&mut self, ty: Id, value: Val) -> Id {
        if let Some(&id) = self.values.get(&(ty, value)) {
            return id;
        }
        let id = match value {
            Val::Unit => self.record("vu", &[ty]),
            Val::Left(v) => self.record("vl", &[ty, v]),
            Val::Right(v) => self.record("vr", &[ty, v]),
            Val::Pair(a, b) => self.record("vp", &[ty, a, b]),
        };
        self.values.insert((ty, value), id);
        id
    }

    pub fn unit_value(&mut self) -> Id {
        let unit = self.unit();
        self.value_record(unit, Val::Unit)
    }

    pub fn left_value(&mut self, ty: Id, value: Id) -> Id {
        self.value_record(ty, Val::Left(value))
    }

    pub fn right_value(&mut self, ty: Id, value: Id) -> Id {
        self.value_record(ty, Val::Right(value))
    }

    pub fn pair_value(&mut self, ty: Id, a: Id, b: Id) -> Id {
        self.value_record(ty, Val::Pair(a, b))
    }

    /// The word of `width` bits that holds `number`, high half left.
    pub fn word_value(&mut self, width: usize, number: usize) -> Id {
        let ty = self.word(width);
        if width == 1 {
            let unit = self.unit_value();
            return match number & 1 {
                0 => self.left_value(ty, unit),
                _ => self.right_value(ty, unit),
            };
        }
        let half = width / 2;
        let high = self.word_value(half, number.checked_shr(half as u32).unwrap_or(0));
        let low = self.word_value(half, number);
        self.pair_value(ty, high, low)
    }

    /// The constant expression of a value record.
    pub fn constant(&mut self, value: Id) -> Id {
        let ty = self.ty(value);
        self.record("ec", &[ty, value])
    }

    /// The constant expression of a word.
    pub fn word_constant(&mut self, width: usize, number: usize) -> Id {
        let value = self.word_value(width, number);
        self.constant(value)
    }

    /// The empty tuple.
    pub fn unit_expression(&mut self) -> Id {
        let unit = self.unit();
        self.record("et", &[unit, 0])
    }

    pub fn name_pattern(&mut self, name: usize) -> Id {
        self.record("pi", &[name])
    }

    pub fn row_pattern(&mut self, row: &[Id]) -> Id {
        self.row("pt", &[], 1, row, &[])
    }

    pub fn variable(&mut self, ty: Id, name: usize) -> Id {
        self.record("ev", &[ty, name])
    }

    pub fn tuple_expression(&mut self, row: &[Id]) -> Id {
        let types: Vec<Id> = row.iter().map(|&e| self.ty(e)).collect();
        let ty = self.tuple(&types);
        self.row("et", &[ty], 1, row, &[])
    }

    /// A block of statements with its end.
    pub fn block(&mut self, statements: &[Id], end: Id) -> Id {
        let ty = self.ty(end);
        self.row("eb", &[ty], 1, statements, &[end])
    }

    /// A function: names and types of its parameters, then its body.
    pub fn function(&mut self, parameters: &[(usize, Id)], body: Id) -> Id {
        let ty = self.ty(body);
        let row: Vec<usize> = parameters
            .iter()
            .flat_map(|&(name, ty)| [name, ty])
            .collect();
        self.row("fn", &[ty], 2, &row, &[body])
    }
}

/// Where a row of n, 2 or more, is split: n less half the least power of two
/// that is not below n.
pub fn split(n: usize) -> usize {
    n - n.next_power_of_two() / 2
}
