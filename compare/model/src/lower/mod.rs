//! LOWER: from a book to a table of nodes.

mod array;
pub mod node;
mod recipes;
mod scope;

#[cfg(test)]
pub(crate) mod tests;

use crate::book::{read, Book, Mark, Record};
use crate::Refusal;

use self::array::{fold_row, partition, path, Side};
use self::node::{Answer, Pen, Store, WIDTH};
use self::scope::{Patterns, Scope};

pub use self::node::Stored;

/// Stands in a block for the expression that it does not end with.
const NO_END: u16 = 65_535;

/// The jet that an Assert calls.
const VERIFY: u16 = 0;

/// The nodes in stored order, at most `room` of them, and never more than a
/// table can number.
pub fn trace(book: &Book, symbols: bool, room: usize) -> Result<Vec<Stored>, Refusal> {
    let mut lowering = Lowering {
        book,
        patterns: Patterns::new(book),
        symbols,
        store: Store::new(room),
    };
    let root = book.records.len() - 1;
    lowering.expression(root as u16, &mut Scope::program())?;
    Ok(lowering.store.into_nodes())
}

/// LOWER: READ's refusals, then 10, 11, 12, the first met. The table is zero
/// wherever no node was stored, and throughout after a refusal.
pub fn lower(book: &[u8], symbols: bool, nodes: &mut [u8]) -> Result<usize, Refusal> {
    nodes.fill(0);
    let book = read(book)?;
    let stored = trace(&book, symbols, nodes.len() / WIDTH)?;
    for (place, node) in nodes.chunks_exact_mut(WIDTH).zip(&stored) {
        place.copy_from_slice(&node.bytes());
    }
    Ok(stored.len())
}

struct Lowering<'a> {
    book: &'a Book,
    patterns: Patterns<'a>,
    symbols: bool,
    store: Store,
}

impl<'a> Lowering<'a> {
    fn record(&self, number: u16) -> &'a Record {
        &self.book.records[usize::from(number)]
    }

    fn at(&mut self, record: u16) -> Pen<'_> {
        self.store.pen(record)
    }

    fn expression(&mut self, r: u16, scope: &mut Scope) -> Answer {
        let record = self.record(r);
        let fields = &record.fields;
        match record.mark {
            Mark::Ec => self.at(r).scribe(fields[1]),
            Mark::Ew => self.at(r).witness(fields[1], fields[0]),
            Mark::Ev => self.variable(r, fields[1], scope),
            Mark::Et => self.row(r, &fields[2..], scope),
            Mark::El => self.list(r, usize::from(fields[1]), &fields[3..], scope),
            Mark::E0 => {
                let inner = self.expression(fields[1], scope)?;
                self.at(r).injl(inner)
            }
            Mark::E1 => {
                let inner = self.expression(fields[1], scope)?;
                self.at(r).injr(inner)
            }
            Mark::En => self.variant(r, scope),
            Mark::Eb => self.block(r, scope),
            Mark::Em => self.two_arms(r, scope),
            Mark::Eh => self.many_arms(r, scope),
            _ => self.call(r, scope),
        }
    }

    fn variable(&mut self, r: u16, name: u16, scope: &Scope) -> Answer {
        match scope.path(&self.patterns, name) {
            Some(path) => self.at(r).select(&path),
            None => Err(Refusal::new(10, usize::from(r))),
        }
    }

    fn each(&mut self, elements: &[u16], scope: &mut Scope) -> Result<Vec<u16>, Refusal> {
        let mut nodes = Vec::new();
        for element in elements {
            nodes.push(self.expression(*element, scope)?);
        }
        Ok(nodes)
    }

    fn row(&mut self, r: u16, elements: &[u16], scope: &mut Scope) -> Answer {
        let nodes = self.each(elements, scope)?;
        let mut pen = self.at(r);
        match nodes.as_slice() {
            [] => pen.unit(),
            nodes => fold_row(nodes, &mut |left, right| pen.pair(left, right)),
        }
    }

    fn list(&mut self, r: u16, bound: usize, elements: &[u16], scope: &mut Scope) -> Answer {
        let nodes = self.each(elements, scope)?;
        let mut pen = self.at(r);
        let mut blocks = Vec::new();
        for block in partition(&nodes, bound) {
            if block.is_empty() {
                let unit = pen.unit()?;
                blocks.push(pen.injl(unit)?);
            } else {
                let tree = fold_row(block, &mut |left, right| pen.pair(left, right))?;
                blocks.push(pen.injr(tree)?);
            }
        }
        let mut list = blocks.pop().expect("a bound is 2 or more");
        while let Some(block) = blocks.pop() {
            list = pen.pair(block, list)?;
        }
        Ok(list)
    }

    fn variant(&mut self, r: u16, scope: &mut Scope) -> Answer {
        let fields = &self.record(r).fields;
        let steps = path(usize::from(fields[1]), usize::from(fields[2]));
        let mut node = self.row(r, &fields[4..], scope)?;
        let mut pen = self.at(r);
        for side in steps.iter().rev() {
            node = match side {
                Side::Left => pen.injl(node)?,
                Side::Right => pen.injr(node)?,
            };
        }
        Ok(node)
    }

    /// Every statement encloses the rest of its block, so they are begun in
    /// order and ended in the opposite order.
    fn block(&mut self, r: u16, scope: &mut Scope) -> Answer {
        let fields = &self.record(r).fields;
        let (end, statements) = fields[2..].split_last().expect("a block has an end");
        let mark = scope.mark();
        let mut begun = Vec::new();
        for statement in statements {
            begun.push(self.begin(*statement, scope)?);
        }
        let mut rest = match *end {
            NO_END => self.at(r).unit()?,
            end => self.expression(end, scope)?,
        };
        for (statement, node) in statements.iter().zip(begun).rev() {
            rest = self.end(*statement, node, rest)?;
        }
        scope.back_to(&self.patterns, mark);
        Ok(rest)
    }

    fn begin(&mut self, s: u16, scope: &mut Scope) -> Answer {
        let record = self.record(s);
        if record.mark == Mark::Se {
            return self.expression(record.fields[0], scope);
        }
        let value = self.expression(record.fields[1], scope)?;
        self.bind(s, record.fields[0], scope)?;
        let mut pen = self.at(s);
        let old = pen.iden()?;
        pen.pair(value, old)
    }

    fn end(&mut self, s: u16, begun: u16, rest: u16) -> Answer {
        let mark = self.record(s).mark;
        let mut pen = self.at(s);
        if mark == Mark::Sa {
            return pen.comp(begun, rest);
        }
        let both = pen.pair(begun, rest)?;
        let second = pen.select(&[Side::Right])?;
        pen.comp(both, second)
    }

    /// A binding in the name of the record that makes it.
    fn bind(&self, r: u16, pattern: u16, scope: &mut Scope) -> Result<(), Refusal> {
        match scope.bind(&self.patterns, pattern) {
            true => Ok(()),
            false => Err(Refusal::new(12, usize::from(r))),
        }
    }

    fn arm(&mut self, r: u16, pattern: u16, e: u16, scope: &mut Scope) -> Answer {
        let mark = scope.mark();
        self.bind(r, pattern, scope)?;
        let node = self.expression(e, scope)?;
        scope.back_to(&self.patterns, mark);
        Ok(node)
    }

    /// The scrutinee beside the environment: what a case takes apart.
    fn scrutinee(&mut self, r: u16, e: u16, scope: &mut Scope) -> Answer {
        let scrutinee = self.expression(e, scope)?;
        let mut pen = self.at(r);
        let environment = pen.iden()?;
        pen.pair(scrutinee, environment)
    }

    fn two_arms(&mut self, r: u16, scope: &mut Scope) -> Answer {
        let fields = &self.record(r).fields;
        let left = self.arm(r, fields[2], fields[3], scope)?;
        let right = self.arm(r, fields[4], fields[5], scope)?;
        let input = self.scrutinee(r, fields[1], scope)?;
        let mut pen = self.at(r);
        let case = pen.case(left, right)?;
        pen.comp(input, case)
    }

    fn many_arms(&mut self, r: u16, scope: &mut Scope) -> Answer {
        let fields = &self.record(r).fields;
        let mut arms = Vec::new();
        for arm in fields[3..].chunks(2) {
            arms.push(self.arm(r, arm[0], arm[1], scope)?);
        }
        let mut pen = self.at(r);
        let cases = fold_row(&arms, &mut |left, right| pen.case(left, right))?;
        let input = self.scrutinee(r, fields[1], scope)?;
        self.at(r).comp(input, cases)
    }

    fn call(&mut self, r: u16, scope: &mut Scope) -> Answer {
        let record = self.record(r);
        let arguments = self.row(r, &arguments(record), scope)?;
        if record.mark == Mark::Ck {
            return Ok(arguments);
        }
        let body = self.body(r)?;
        let symbol = symbol(record);
        if self.symbols && symbol > 0 {
            return recipes::with_symbol(&mut self.at(r), arguments, body, symbol);
        }
        self.at(r).comp(arguments, body)
    }

    fn body(&mut self, r: u16) -> Answer {
        let record = self.record(r);
        let fields = &record.fields;
        match record.mark {
            Mark::Cj => self.at(r).jet(fields[2]),
            Mark::Cl => recipes::unwrap_left(&mut self.at(r)),
            Mark::Cr => recipes::unwrap_right(&mut self.at(r)),
            Mark::Cd => self.at(r).iden(),
            Mark::Ca => self.at(r).jet(VERIFY),
            Mark::Cp => self.at(r).fail(),
            Mark::Cn => recipes::is_none(&mut self.at(r)),
            Mark::Cf => self.function(fields[1]),
            Mark::Ch => {
                let widths: Vec<u16> = fields[3..].chunks(2).map(|word| word[0]).collect();
                recipes::raw_hash(&mut self.at(r), &widths)
            }
            mark => {
                let body = self.function(fields[1])?;
                let size = usize::from(fields[2]);
                let mut pen = self.at(r);
                match mark {
                    Mark::Cq => recipes::list_fold(&mut pen, size, body),
                    Mark::Cy => recipes::array_fold(&mut pen, size, body),
                    Mark::Cw => recipes::for_while(&mut pen, size, body),
                    _ => unreachable!("READ lets only expressions stand here"),
                }
            }
        }
    }

    /// Each call lowers the body anew, in a scope of its own.
    fn function(&mut self, f: u16) -> Answer {
        let body = *self.record(f).fields.last().expect("a function has a body");
        self.expression(body, &mut Scope::function(f))
    }
}

/// The expressions that a call is given, in order.
fn arguments(call: &Record) -> Vec<u16> {
    let fields = &call.fields;
    match call.mark {
        Mark::Cj => fields[4..].to_vec(),
        Mark::Cl | Mark::Cr | Mark::Cd | Mark::Ca => vec![fields[2]],
        Mark::Cp => Vec::new(),
        Mark::Cn | Mark::Ck => vec![fields[1]],
        Mark::Ch => fields[3..].chunks(2).map(|word| word[1]).collect(),
        _ => fields[3..].to_vec(),
    }
}

/// The symbol of a call, 0 where its mark has none.
fn symbol(call: &Record) -> u16 {
    match call.mark {
        Mark::Cj | Mark::Cl | Mark::Cr | Mark::Cd | Mark::Ca | Mark::Cp | Mark::Ch => {
            call.fields[1]
        }
        _ => 0,
    }
}
