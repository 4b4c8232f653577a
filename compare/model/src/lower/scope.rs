//! Bindings, and the path from the environment to a name.

use std::collections::HashMap;

use super::array::{path, Side};
use crate::book::{Book, Mark, Record};

/// Live bindings in one scope, the root among them.
pub const LIVE: usize = 256;

/// Which names each pattern record holds. Patterns share parts, so a tree may
/// have more leaves than can be visited: each record's names are found once,
/// as a row of bits over the names that the book's patterns bind at all.
pub struct Patterns<'a> {
    book: &'a Book,
    /// The bit of each name.
    bits: HashMap<u16, usize>,
    held: Vec<Vec<u64>>,
}

impl<'a> Patterns<'a> {
    pub fn new(book: &'a Book) -> Patterns<'a> {
        let mut bits = HashMap::new();
        for record in book.records.iter().filter(|record| record.mark == Mark::Pi) {
            let next = bits.len();
            bits.entry(record.fields[0]).or_insert(next);
        }
        let held = Vec::new();
        let mut patterns = Patterns { book, bits, held };
        for record in &book.records {
            let row = patterns.gather(record);
            patterns.held.push(row);
        }
        patterns
    }

    /// The names of a record by those of the records before it.
    fn gather(&self, record: &Record) -> Vec<u64> {
        let mut row = vec![0; self.bits.len().div_ceil(64)];
        match record.mark {
            Mark::Pi => {
                let bit = self.bits[&record.fields[0]];
                row[bit / 64] |= 1 << (bit % 64);
            }
            Mark::Pt => {
                for part in &record.fields[1..] {
                    let part = &self.held[usize::from(*part)];
                    row.iter_mut().zip(part).for_each(|(all, one)| *all |= one);
                }
            }
            Mark::Pn => {}
            // A record that is no pattern needs no row.
            _ => row.clear(),
        }
        row
    }

    fn holds(&self, pattern: u16, bit: usize) -> bool {
        self.held[usize::from(pattern)][bit / 64] >> (bit % 64) & 1 == 1
    }

    /// The bits of the names that a pattern holds.
    fn bits_of(&self, pattern: u16) -> impl Iterator<Item = usize> + '_ {
        let words = self.held[usize::from(pattern)].iter().enumerate();
        words.flat_map(|(at, word)| {
            let bits = (0..64).filter(move |bit| word >> bit & 1 == 1);
            bits.map(move |bit| 64 * at + bit)
        })
    }

    /// From the top of a pattern to the first place of a name that it holds.
    fn path_inside(&self, mut pattern: u16, bit: usize) -> Vec<Side> {
        let mut steps = Vec::new();
        loop {
            let record = &self.book.records[usize::from(pattern)];
            if record.mark == Mark::Pi {
                return steps;
            }
            let parts = &record.fields[1..];
            let mut places = 0..parts.len();
            let place = places
                .find(|k| self.holds(parts[*k], bit))
                .expect("a pattern that holds a name has a part that does");
            steps.extend(path(place, parts.len()));
            pattern = parts[place];
        }
    }

    /// From the parameter tuple of a function to a name's first place.
    fn path_to_parameter(&self, function: u16, name: u16) -> Option<Vec<Side>> {
        let fields = &self.book.records[usize::from(function)].fields;
        let count = usize::from(fields[1]);
        let place = (0..count).find(|k| fields[2 + 2 * k] == name)?;
        Some(path(place, count))
    }
}

/// The live bindings: the root, then the patterns bound since, oldest first.
#[derive(Default)]
pub struct Scope {
    function: Option<u16>,
    bound: Vec<u16>,
    /// For each name, by its bit, the bindings that hold it, oldest first.
    /// Names that were never bound here may have no row.
    bindings: Vec<Vec<usize>>,
}

impl Scope {
    /// The program's scope, whose root has no name.
    pub fn program() -> Scope {
        Scope::default()
    }

    /// A function's scope, whose root is its parameter tuple.
    pub fn function(record: u16) -> Scope {
        Scope {
            function: Some(record),
            ..Scope::default()
        }
    }

    /// Binds a pattern, or says that there is one too many.
    pub fn bind(&mut self, patterns: &Patterns, pattern: u16) -> bool {
        let live = 1 + self.bound.len();
        if live >= LIVE {
            return false;
        }
        self.bindings.resize(patterns.bits.len(), Vec::new());
        for bit in patterns.bits_of(pattern) {
            self.bindings[bit].push(self.bound.len());
        }
        self.bound.push(pattern);
        true
    }

    /// Where the bindings made from now on begin.
    pub fn mark(&self) -> usize {
        self.bound.len()
    }

    /// Ends the bindings made since a mark.
    pub fn back_to(&mut self, patterns: &Patterns, mark: usize) {
        for pattern in self.bound.split_off(mark) {
            for bit in patterns.bits_of(pattern) {
                self.bindings[bit].pop();
            }
        }
    }

    /// From the environment to the newest binding of a name.
    pub fn path(&self, patterns: &Patterns, name: u16) -> Option<Vec<Side>> {
        let bit = patterns.bits.get(&name).copied();
        let bindings = bit.and_then(|bit| self.bindings.get(bit));
        if let (Some(bit), Some(&binding)) = (bit, bindings.and_then(|row| row.last())) {
            let newer = self.bound.len() - 1 - binding;
            let mut steps = vec![Side::Right; newer];
            steps.push(Side::Left);
            steps.extend(patterns.path_inside(self.bound[binding], bit));
            return Some(steps);
        }
        let mut steps = vec![Side::Right; self.bound.len()];
        steps.extend(patterns.path_to_parameter(self.function?, name)?);
        Some(steps)
    }
}
