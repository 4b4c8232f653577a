//! Random books of every mark whose names are nearly all in scope. Types are
//! declared at random: lowering does not look at them.

use crate::rng::Rng;
use crate::writer::{Id, Writer, NO_END};
use crate::Case;

struct Maker {
    rng: Rng,
    writer: Writer,
    types: Vec<Id>,
    values: Vec<Id>,
    patterns: Vec<(Id, Vec<usize>)>,
    functions: Vec<Id>,
    scope: Vec<usize>,
    /// How many more expressions may have parts.
    budget: usize,
}

/// The book of `seed`.
pub fn book(seed: u64) -> Case {
    let mut maker = Maker::new(seed);
    let (fuel, mark) = (maker.rng.within(1, 7), *maker.rng.pick(&WHOLES));
    maker.whole(mark, fuel);
    Case::plain(format!("scoped {seed}"), &maker.writer)
}

/// The marks that name no expression.
const LEAVES: [&str; 4] = ["ec", "ew", "ev", "cp"];

/// The marks that may name some.
const WHOLES: [&str; 20] = [
    "et", "el", "e0", "e1", "en", "eb", "em", "eh", "cj", "cl", "cr", "cd", "ca", "cn", "ck", "cf",
    "cq", "cy", "cw", "ch",
];

impl Maker {
    fn new(seed: u64) -> Maker {
        let mut rng = Rng::new("scoped", seed);
        let mut writer = Writer::new();
        let mut types = vec![writer.unit()];
        for _ in 0..rng.below(6) {
            let (a, b) = (*rng.pick(&types), *rng.pick(&types));
            types.push(match rng.chance(1, 2) {
                true => writer.sum(a, b),
                false => writer.product(a, b),
            });
        }
        let unit = writer.unit_value();
        let mut maker = Maker {
            budget: rng.within(1, 120),
            rng,
            writer,
            types,
            values: vec![unit],
            patterns: Vec::new(),
            functions: Vec::new(),
            scope: Vec::new(),
        };
        for _ in 0..maker.rng.below(4) {
            maker.value();
        }
        maker
    }

    fn ty(&mut self) -> Id {
        *self.rng.pick(&self.types)
    }

    fn value(&mut self) {
        let (ty, a, b) = (
            self.ty(),
            *self.rng.pick(&self.values),
            *self.rng.pick(&self.values),
        );
        let value = match self.rng.below(3) {
            0 => self.writer.record("vl", &[ty, a]),
            1 => self.writer.record("vr", &[ty, b]),
            _ => self.writer.record("vp", &[ty, a, b]),
        };
        self.values.push(value);
    }

    fn name(&mut self) -> usize {
        match self.rng.chance(1, 12) {
            true => self.rng.below(65_536),
            false => self.rng.below(9),
        }
    }

    /// The length of a row: mostly short, at times long.
    fn length(&mut self, most: usize) -> usize {
        match self.rng.chance(1, 15) {
            true => self.rng.within(0, most),
            false => self.rng.within(0, most.min(4)),
        }
    }

    /// A pattern with its names: one that is there already, or a new one.
    fn pattern(&mut self, fuel: usize) -> (Id, Vec<usize>) {
        if !self.patterns.is_empty() && self.rng.chance(1, 3) {
            return self.rng.pick(&self.patterns).clone();
        }
        let made = match self.rng.below(if fuel == 0 { 3 } else { 6 }) {
            0 => (self.writer.record("pn", &[]), Vec::new()),
            1 | 2 => {
                let name = self.name();
                (self.writer.name_pattern(name), vec![name])
            }
            _ => {
                let length = self.length(20);
                let parts: Vec<(Id, Vec<usize>)> =
                    (0..length).map(|_| self.pattern(fuel - 1)).collect();
                let row: Vec<Id> = parts.iter().map(|part| part.0).collect();
                let names = parts.into_iter().flat_map(|part| part.1).take(64).collect();
                (self.writer.row_pattern(&row), names)
            }
        };
        self.patterns.push(made.clone());
        made
    }

    fn expressions(&mut self, length: usize, fuel: usize) -> Vec<Id> {
        (0..length).map(|_| self.expression(fuel)).collect()
    }

    fn expression(&mut self, fuel: usize) -> Id {
        self.budget = self.budget.saturating_sub(1);
        if fuel == 0 || self.budget == 0 || self.rng.chance(1, 6) {
            let mark = *self.rng.pick(&LEAVES);
            return self.leaf(mark);
        }
        let mark = *self.rng.pick(&WHOLES);
        self.whole(mark, fuel)
    }

    fn whole(&mut self, mark: &str, fuel: usize) -> Id {
        match mark {
            "eb" => self.block(fuel - 1),
            "em" | "eh" => self.matching(mark, fuel - 1),
            "cf" | "cq" | "cy" | "cw" => self.function_call(mark, fuel - 1),
            "et" | "el" | "en" | "cj" | "ch" => self.rowed(mark, fuel - 1),
            _ => self.single(mark, fuel - 1),
        }
    }

    fn leaf(&mut self, mark: &str) -> Id {
        let ty = self.ty();
        let field = match mark {
            "ec" => *self.rng.pick(&self.values),
            "ev" if !self.scope.is_empty() && self.rng.chance(199, 200) => {
                *self.rng.pick(&self.scope)
            }
            // With nothing in scope a variable would end the lowering at once.
            "ev" if self.rng.chance(19, 20) => return self.leaf("ew"),
            "cp" => self.symbol(),
            _ => self.name(),
        };
        self.writer.record(mark, &[ty, field])
    }

    fn symbol(&mut self) -> usize {
        match self.rng.chance(1, 2) {
            true => 0,
            false => self.rng.within(1, 65_535),
        }
    }

    fn single(&mut self, mark: &str, fuel: usize) -> Id {
        let ty = self.ty();
        let e = self.expression(fuel);
        match mark {
            "cl" | "cr" | "cd" | "ca" => {
                let symbol = self.symbol();
                self.writer.record(mark, &[ty, symbol, e])
            }
            _ => self.writer.record(mark, &[ty, e]),
        }
    }

    fn rowed(&mut self, mark: &str, fuel: usize) -> Id {
        let ty = self.ty();
        let (head, length) = match mark {
            "el" => {
                let bound = 2 << self.rng.below(4);
                (vec![ty, bound], self.rng.below(bound))
            }
            "en" => {
                let variants = 1 + self.length(255);
                (
                    vec![ty, self.rng.below(variants), variants],
                    self.length(20),
                )
            }
            "cj" => (vec![ty, self.symbol(), self.rng.below(3)], self.length(20)),
            "ch" => (vec![ty, self.symbol()], self.length(20)),
            _ => (vec![ty], self.length(40)),
        };
        let row = self.expressions(length, fuel);
        if mark != "ch" {
            return self.writer.row(mark, &head, 1, &row, &[]);
        }
        let row: Vec<usize> = row
            .iter()
            .flat_map(|&e| [8 << self.rng.below(6), e])
            .collect();
        self.writer.row(mark, &head, 2, &row, &[])
    }

    fn block(&mut self, fuel: usize) -> Id {
        let (ty, live, length) = (self.ty(), self.scope.len(), self.length(20));
        let mut statements = Vec::new();
        for _ in 0..length {
            let e = self.expression(fuel);
            if self.rng.chance(1, 4) {
                statements.push(self.writer.record("se", &[e]));
                continue;
            }
            let (pattern, names) = self.pattern(2);
            self.scope.extend(names);
            statements.push(self.writer.record("sa", &[pattern, e]));
        }
        let end = match self.rng.chance(1, 5) {
            true => NO_END,
            false => self.expression(fuel),
        };
        self.scope.truncate(live);
        self.writer.row("eb", &[ty], 1, &statements, &[end])
    }

    fn matching(&mut self, mark: &str, fuel: usize) -> Id {
        let ty = self.ty();
        let scrutinee = self.expression(fuel);
        let arms = if mark == "em" { 2 } else { 1 + self.length(30) };
        let mut row = Vec::new();
        for _ in 0..arms {
            let live = self.scope.len();
            let (pattern, names) = self.pattern(2);
            self.scope.extend(names);
            row.extend([pattern, self.expression(fuel)]);
            self.scope.truncate(live);
        }
        match mark {
            "em" => {
                row.splice(0..0, [ty, scrutinee]);
                self.writer.record("em", &row)
            }
            _ => self.writer.row("eh", &[ty, scrutinee], 2, &row, &[]),
        }
    }

    fn function(&mut self, fuel: usize) -> Id {
        if !self.functions.is_empty() && self.rng.chance(1, 2) {
            return *self.rng.pick(&self.functions);
        }
        let names: Vec<usize> = (0..self.length(20)).map(|_| self.name()).collect();
        let outside = std::mem::replace(&mut self.scope, names.clone());
        let body = self.expression(fuel);
        self.scope = outside;
        let parameters: Vec<(usize, Id)> =
            names.into_iter().map(|name| (name, self.ty())).collect();
        let function = self.writer.function(&parameters, body);
        self.functions.push(function);
        function
    }

    fn function_call(&mut self, mark: &str, fuel: usize) -> Id {
        let ty = self.ty();
        let function = self.function(fuel);
        if mark == "cf" {
            let length = self.length(20);
            let row = self.expressions(length, fuel);
            return self.writer.row("cf", &[ty, function], 1, &row, &[]);
        }
        let size = match mark {
            "cq" => 2 << self.rng.below(8),
            "cy" => self.rng.within(1, 256),
            _ => 1 << self.rng.below(5),
        };
        let (a, b) = (self.expression(fuel), self.expression(fuel));
        self.writer.record(mark, &[ty, function, size, a, b])
    }
}
