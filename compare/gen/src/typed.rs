//! Random books that are well typed, each with a witness list of its declared
//! types. Most of them yield a value; some fail.

use crate::rng::Rng;
use crate::writer::{split, Id, Ty, Writer, NO_END};
use crate::Case;

struct Function {
    id: Id,
    parameters: Vec<Id>,
    result: Id,
    weight: usize,
}

struct Maker {
    rng: Rng,
    writer: Writer,
    scope: Vec<(usize, Id)>,
    functions: Vec<Function>,
    /// Each witness name's value record.
    witnesses: Vec<Id>,
    /// How many more expressions may have parts.
    budget: usize,
    /// How many times a run works out what is written now.
    times: usize,
}

/// No part of a program is worked out more often than this.
const TIMES: usize = 3_000;

/// No type but a hash's has more leaves than this.
const LEAVES: usize = 90;

/// The book of `seed`.
pub fn book(seed: u64) -> Case {
    let mut rng = Rng::new("typed", seed);
    let budget = rng.within(1, 200);
    let mut maker = Maker {
        rng,
        writer: Writer::new(),
        scope: Vec::new(),
        functions: Vec::new(),
        witnesses: Vec::new(),
        budget,
        times: 1,
    };
    let ty = match maker.rng.chance(1, 40) {
        true => maker.writer.word(256),
        false => maker.ty(4),
    };
    let fuel = maker.rng.within(1, 8);
    match maker.rng.chance(1, 2) {
        true => maker.block(ty, fuel),
        false => maker.expression(ty, fuel),
    };
    let witnesses = maker
        .witnesses
        .iter()
        .flat_map(|&id| (id as u16).to_le_bytes())
        .collect();
    Case {
        label: format!("typed {seed}"),
        book: maker.writer.bytes(),
        witnesses,
    }
}

impl Maker {
    /// A type of few enough leaves that a value of it is soon written.
    fn ty(&mut self, fuel: usize) -> Id {
        let ty = self.any_type(fuel);
        match self.leaves(ty) <= LEAVES {
            true => ty,
            false => self.any_type(0),
        }
    }

    fn leaves(&self, ty: Id) -> usize {
        match self.writer.shape(ty) {
            Ty::Unit => 1,
            Ty::Sum(a, b) | Ty::Product(a, b) => self.leaves(a) + self.leaves(b),
        }
    }

    fn any_type(&mut self, fuel: usize) -> Id {
        if fuel == 0 {
            return match self.rng.below(3) {
                0 => self.writer.unit(),
                1 => self.writer.bit(),
                _ => self.writer.word(8),
            };
        }
        match self.rng.below(9) {
            0 => self.any_type(0),
            1 => self.writer.word(1 << self.rng.below(5)),
            2 | 3 => self.row_type(fuel),
            4 => {
                let (size, element) = (self.rng.within(1, 9), self.ty(fuel - 1));
                self.writer.array(element, size)
            }
            5 => {
                let (bound, element) = (2 << self.rng.below(3), self.ty(fuel.min(2) - 1));
                self.writer.list(element, bound)
            }
            6 => {
                let places: Vec<Id> = (0..self.rng.within(1, 6))
                    .map(|_| self.ty(fuel - 1))
                    .collect();
                self.writer.variants(&places)
            }
            7 => {
                let (unit, some) = (self.writer.unit(), self.ty(fuel - 1));
                self.writer.sum(unit, some)
            }
            _ => self.sum_type(fuel),
        }
    }

    fn row_type(&mut self, fuel: usize) -> Id {
        let row: Vec<Id> = (0..self.rng.within(0, 5))
            .map(|_| self.ty(fuel - 1))
            .collect();
        self.writer.tuple(&row)
    }

    fn sum_type(&mut self, fuel: usize) -> Id {
        let (a, b) = (self.ty(fuel - 1), self.ty(fuel - 1));
        self.writer.sum(a, b)
    }

    /// A value record of the type.
    fn value(&mut self, ty: Id) -> Id {
        match self.writer.shape(ty) {
            Ty::Unit => self.writer.unit_value(),
            Ty::Sum(a, b) => match self.rng.chance(1, 2) {
                true => {
                    let value = self.value(a);
                    self.writer.left_value(ty, value)
                }
                false => {
                    let value = self.value(b);
                    self.writer.right_value(ty, value)
                }
            },
            Ty::Product(a, b) => {
                let (a, b) = (self.value(a), self.value(b));
                self.writer.pair_value(ty, a, b)
            }
        }
    }

    /// The `n` parts of a type that is a row of `n`, or nothing.
    fn parts(&self, ty: Id, n: usize, sums: bool) -> Option<Vec<Id>> {
        if n == 1 {
            return Some(vec![ty]);
        }
        let (a, b) = match self.writer.shape(ty) {
            Ty::Sum(a, b) if sums => (a, b),
            Ty::Product(a, b) if !sums => (a, b),
            _ => return None,
        };
        let mut row = self.parts(a, split(n), sums)?;
        row.extend(self.parts(b, n - split(n), sums)?);
        Some(row)
    }

    /// A row, of any length that the type allows, whose tree is the type.
    fn some_parts(&mut self, ty: Id, sums: bool) -> Vec<Id> {
        let rows: Vec<Vec<Id>> = (1..=12).filter_map(|n| self.parts(ty, n, sums)).collect();
        self.rng.pick(&rows).clone()
    }

    /// Element and bound, where the type is that of a list.
    fn listed(&mut self, ty: Id) -> Option<(Id, usize)> {
        let unit = self.writer.unit();
        match self.writer.shape(ty) {
            Ty::Sum(empty, element) if empty == unit => Some((element, 2)),
            Ty::Product(_, rest) => {
                let (element, half) = self.listed(rest)?;
                (half < 128 && self.writer.list(element, half * 2) == ty)
                    .then_some((element, half * 2))
            }
            _ => None,
        }
    }

    fn expression(&mut self, ty: Id, fuel: usize) -> Id {
        self.budget = self.budget.saturating_sub(1);
        if fuel == 0 || self.budget == 0 {
            return self.leaf(ty);
        }
        match self.rng.below(20) {
            0..=2 => self.leaf(ty),
            3..=6 => self.structural(ty, fuel - 1),
            7..=9 => self.block(ty, fuel - 1),
            10 | 11 => self.either_match(ty, fuel - 1),
            12 => self.enum_match(ty, fuel - 1),
            13 => self.argument_call(ty, fuel - 1),
            14 | 15 => self.function_call(ty, fuel - 1),
            16 => self.fold(ty, fuel - 1),
            _ => self.special(ty, fuel - 1),
        }
    }

    fn leaf(&mut self, ty: Id) -> Id {
        let named = self.named(ty);
        match self.rng.below(6) {
            0 => self.witness(ty),
            1..=3 if !named.is_empty() => {
                let name = *self.rng.pick(&named);
                self.writer.variable(ty, name)
            }
            4 if self.rng.chance(1, 40) => {
                let symbol = self.symbol();
                self.writer.record("cp", &[ty, symbol])
            }
            _ => {
                let value = self.value(ty);
                self.writer.constant(value)
            }
        }
    }

    /// The names in scope whose newest binding has the type.
    fn named(&self, ty: Id) -> Vec<usize> {
        let mut seen = Vec::new();
        let mut found = Vec::new();
        for &(name, of) in self.scope.iter().rev() {
            if !seen.contains(&name) {
                seen.push(name);
                if of == ty {
                    found.push(name);
                }
            }
        }
        found
    }

    fn witness(&mut self, ty: Id) -> Id {
        let known: Vec<usize> = (0..self.witnesses.len())
            .filter(|&name| self.writer.ty(self.witnesses[name]) == ty)
            .collect();
        let name = if !known.is_empty() && self.rng.chance(1, 2) {
            *self.rng.pick(&known)
        } else {
            let value = self.value(ty);
            self.witnesses.push(value);
            self.witnesses.len() - 1
        };
        self.writer.record("ew", &[ty, name])
    }

    fn symbol(&mut self) -> usize {
        match self.rng.chance(1, 2) {
            true => 0,
            false => self.rng.within(1, 65_535),
        }
    }

    fn expressions(&mut self, types: &[Id], fuel: usize) -> Vec<Id> {
        types.iter().map(|&ty| self.expression(ty, fuel)).collect()
    }

    /// What the type itself asks for: a row, a list, a side, a variant.
    fn structural(&mut self, ty: Id, fuel: usize) -> Id {
        if self.rng.chance(1, 2) {
            if let Some((element, bound)) = self.listed(ty) {
                let length = self.rng.below(bound);
                let row = self.expressions(&vec![element; length], fuel);
                return self.writer.row("el", &[ty, bound], 1, &row, &[]);
            }
        }
        match self.writer.shape(ty) {
            Ty::Unit => self.writer.unit_expression(),
            Ty::Product(..) => {
                let types = self.some_parts(ty, false);
                let row = self.expressions(&types, fuel);
                self.writer.row("et", &[ty], 1, &row, &[])
            }
            Ty::Sum(a, b) => {
                if self.rng.chance(1, 2) {
                    return self.variant(ty, fuel);
                }
                let (mark, part) = *self.rng.pick(&[("e0", a), ("e1", b)]);
                let e = self.expression(part, fuel);
                self.writer.record(mark, &[ty, e])
            }
        }
    }

    fn variant(&mut self, ty: Id, fuel: usize) -> Id {
        let places = self.some_parts(ty, true);
        let index = self.rng.below(places.len());
        let unit = self.writer.unit();
        let types = match places[index] == unit {
            true => Vec::new(),
            false => self.some_parts(places[index], false),
        };
        let row = self.expressions(&types, fuel);
        self.writer
            .row("en", &[ty, index, places.len()], 1, &row, &[])
    }

    /// A pattern that fits the type; its names go into the scope.
    fn pattern(&mut self, ty: Id, fuel: usize, names: &mut Vec<usize>) -> Id {
        let unit = self.writer.unit();
        if fuel > 0 && self.rng.chance(1, 2) {
            let types = match ty == unit && self.rng.chance(1, 2) {
                true => Vec::new(),
                false => self.some_parts(ty, false),
            };
            let row: Vec<Id> = types
                .iter()
                .map(|&ty| self.pattern(ty, fuel - 1, names))
                .collect();
            return self.writer.row_pattern(&row);
        }
        let name = self.rng.below(14);
        if names.contains(&name) || self.rng.chance(1, 8) {
            return self.writer.record("pn", &[]);
        }
        names.push(name);
        self.scope.push((name, ty));
        self.writer.name_pattern(name)
    }

    fn block(&mut self, ty: Id, fuel: usize) -> Id {
        let (live, unit) = (self.scope.len(), self.writer.unit());
        let mut statements = Vec::new();
        for _ in 0..self.rng.within(0, 4) {
            if self.rng.chance(1, 4) {
                let e = self.expression(unit, fuel);
                statements.push(self.writer.record("se", &[e]));
                continue;
            }
            let bound = self.ty(2);
            let e = self.expression(bound, fuel);
            let pattern = self.pattern(bound, 3, &mut Vec::new());
            statements.push(self.writer.record("sa", &[pattern, e]));
        }
        let end = match ty == unit && self.rng.chance(1, 2) {
            true => NO_END,
            false => self.expression(ty, fuel),
        };
        self.scope.truncate(live);
        self.writer.row("eb", &[ty], 1, &statements, &[end])
    }

    /// Pattern and expression of an arm.
    fn arm(&mut self, bound: Id, ty: Id, fuel: usize) -> [Id; 2] {
        let live = self.scope.len();
        let pattern = self.pattern(bound, 3, &mut Vec::new());
        let e = self.expression(ty, fuel);
        self.scope.truncate(live);
        [pattern, e]
    }

    fn either_match(&mut self, ty: Id, fuel: usize) -> Id {
        let (a, b) = (self.ty(2), self.ty(2));
        let sum = self.writer.sum(a, b);
        let scrutinee = self.expression(sum, fuel);
        let [left, e] = self.arm(a, ty, fuel);
        let [right, f] = self.arm(b, ty, fuel);
        self.writer
            .record("em", &[ty, scrutinee, left, e, right, f])
    }

    fn enum_match(&mut self, ty: Id, fuel: usize) -> Id {
        let places: Vec<Id> = (0..self.rng.within(1, 9)).map(|_| self.ty(1)).collect();
        let sum = self.writer.variants(&places);
        let scrutinee = self.expression(sum, fuel);
        let arms: Vec<Id> = places
            .iter()
            .flat_map(|&place| self.arm(place, ty, fuel))
            .collect();
        self.writer.row("eh", &[ty, scrutinee], 2, &arms, &[])
    }

    /// A call whose argument has the type, or holds it on one side.
    fn argument_call(&mut self, ty: Id, fuel: usize) -> Id {
        let symbol = self.symbol();
        match self.rng.below(4) {
            0 => {
                let e = self.expression(ty, fuel);
                self.writer.record("cd", &[ty, symbol, e])
            }
            1 => {
                let e = self.expression(ty, fuel);
                self.writer.record("ck", &[ty, e])
            }
            side => {
                let other = self.ty(1);
                let (call, mark, sum) = match side {
                    2 => ("cl", "e0", self.writer.sum(ty, other)),
                    _ => ("cr", "e1", self.writer.sum(other, ty)),
                };
                let e = if self.rng.chance(5, 6) {
                    let e = self.expression(ty, fuel);
                    self.writer.record(mark, &[sum, e])
                } else {
                    self.expression(sum, fuel)
                };
                self.writer.record(call, &[ty, symbol, e])
            }
        }
    }

    /// A new function; its body sees its parameters alone and is worked out
    /// `times` as often as what calls it.
    fn function(&mut self, parameters: &[Id], result: Id, times: usize, fuel: usize) -> Id {
        let names: Vec<usize> = (0..parameters.len())
            .map(|i| i * 3 % 14 + i / 14 * 100)
            .collect();
        let named: Vec<(usize, Id)> = names.into_iter().zip(parameters.iter().copied()).collect();
        let outside = std::mem::replace(&mut self.scope, named.clone());
        let before = self.times;
        self.times *= times;
        let body = self.expression(result, fuel);
        self.times = before;
        self.scope = outside;
        let id = self.writer.function(&named, body);
        self.functions.push(Function {
            id,
            parameters: parameters.to_vec(),
            result,
            weight: before,
        });
        id
    }

    fn function_call(&mut self, ty: Id, fuel: usize) -> Id {
        // A function that holds folds was weighed where it was made: it may
        // be called again where no more is worked out.
        let known: Vec<usize> = (0..self.functions.len())
            .filter(|&i| self.functions[i].result == ty && self.times <= self.functions[i].weight)
            .collect();
        let (id, parameters) = if !known.is_empty() && self.rng.chance(1, 2) {
            let function = &self.functions[*self.rng.pick(&known)];
            (function.id, function.parameters.clone())
        } else {
            let parameters: Vec<Id> = (0..self.rng.within(0, 5)).map(|_| self.ty(2)).collect();
            (self.function(&parameters, ty, 1, fuel), parameters)
        };
        let row = self.expressions(&parameters, fuel);
        self.writer.row("cf", &[ty, id], 1, &row, &[])
    }

    fn fold(&mut self, ty: Id, fuel: usize) -> Id {
        let element = self.ty(1);
        let (mark, size, row) = match self.rng.chance(1, 2) {
            true => {
                let bound = 2 << self.rng.below(4);
                ("cq", bound, self.writer.list(element, bound))
            }
            false => {
                let size = self.rng.within(1, 20);
                ("cy", size, self.writer.array(element, size))
            }
        };
        if self.times * size > TIMES {
            return self.leaf(ty);
        }
        let function = self.function(&[element, ty], ty, size, fuel);
        let (row, accumulator) = (self.expression(row, fuel), self.expression(ty, fuel));
        self.writer
            .record(mark, &[ty, function, size, row, accumulator])
    }

    /// Calls that give one type alone.
    fn special(&mut self, ty: Id, fuel: usize) -> Id {
        let (unit, bit, byte, hashed) = (
            self.writer.unit(),
            self.writer.bit(),
            self.writer.word(8),
            self.writer.word(256),
        );
        let symbol = self.symbol();
        let carried = self.writer.product(bit, byte);
        if ty == unit {
            let e = self.truth(fuel);
            return match self.rng.chance(1, 2) {
                true => self.writer.record("ca", &[unit, symbol, e]),
                false => self.writer.record("cj", &[unit, symbol, 0, 1, e]),
            };
        }
        if ty == bit && self.rng.chance(1, 2) {
            let sum = self.sum_type(2);
            let e = self.expression(sum, fuel);
            return self.writer.record("cn", &[bit, e]);
        }
        if ty == bit || ty == carried {
            let (a, b) = (self.expression(byte, fuel), self.expression(byte, fuel));
            let jet = if ty == bit { 1 } else { 2 };
            return self.writer.record("cj", &[ty, symbol, jet, 2, a, b]);
        }
        if ty == hashed {
            return self.hash(symbol, fuel);
        }
        match self.writer.shape(ty) {
            Ty::Sum(_, accumulator) => self.for_while(ty, accumulator, fuel),
            _ => self.structural(ty, fuel),
        }
    }

    /// A bit that is mostly true.
    fn truth(&mut self, fuel: usize) -> Id {
        match self.rng.chance(6, 7) {
            true => self.writer.word_constant(1, 1),
            false => {
                let bit = self.writer.bit();
                self.expression(bit, fuel)
            }
        }
    }

    fn hash(&mut self, symbol: usize, fuel: usize) -> Id {
        let mut row = Vec::new();
        for _ in 0..self.rng.within(0, 5) {
            let width = 8 << self.rng.below(6);
            let ty = self.writer.word(width);
            row.extend([width, self.expression(ty, fuel)]);
        }
        let ty = self.writer.word(256);
        self.writer.row("ch", &[ty, symbol], 2, &row, &[])
    }

    fn for_while(&mut self, ty: Id, accumulator: Id, fuel: usize) -> Id {
        let width = *self.rng.pick(&[1, 1, 2, 2, 4, 4, 8]);
        if self.times << width > TIMES {
            return self.leaf(ty);
        }
        let (context, counter) = (self.ty(1), self.writer.word(width));
        let function = self.function(&[accumulator, context, counter], ty, 1 << width, fuel);
        let (a, c) = (
            self.expression(accumulator, fuel),
            self.expression(context, fuel),
        );
        self.writer.record("cw", &[ty, function, width, a, c])
    }
}
