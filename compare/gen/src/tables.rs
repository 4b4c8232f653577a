//! Node tables for RUN, each beside a book and a witness list: random ones that
//! mostly run through, loose ones that are mostly stopped, damaged ones.

use model::lower::node::*;

use crate::damage::strike;
use crate::rng::Rng;
use crate::stock::*;

/// A table that is being made. What a node gives is known as long as nothing
/// stops the run and no node is taken from elsewhere.
struct Maker<'a> {
    stock: &'a Stock,
    rng: Rng,
    nodes: Vec<Node>,
    /// Each witness name's place in the stock.
    witnesses: Vec<usize>,
}

/// A node, and what it gives if that is known.
type Made = (u16, Option<Value>);

impl Maker<'_> {
    fn new<'a>(stock: &'a Stock, family: &str, seed: u64) -> Maker<'a> {
        Maker {
            stock,
            rng: Rng::new(family, seed),
            nodes: Vec::new(),
            witnesses: Vec::new(),
        }
    }

    /// The table so far, now and then with bytes behind it that nobody reads.
    fn table(mut self, label: String) -> Table {
        let entry = |&place: &usize| self.stock.values[place].0.to_le_bytes();
        let witnesses = self.witnesses.iter().flat_map(entry).collect();
        let mut table = self.stock.table(label, witnesses, &self.nodes);
        if self.rng.chance(1, 4) {
            let behind = (0..self.rng.within(1, 12)).map(|_| self.rng.below(256) as u8);
            table.nodes.extend(behind);
        }
        table
    }

    fn push(&mut self, node: Node) -> u16 {
        self.nodes.push(node);
        self.nodes.len() as u16 - 1
    }

    /// An operand that nobody reads.
    fn unread(&mut self) -> u16 {
        match self.rng.chance(1, 2) {
            true => 0,
            false => self.rng.below(65_536) as u16,
        }
    }

    /// A node that is never reached, or of which nothing is known.
    fn any(&mut self) -> u16 {
        match self.nodes.is_empty() {
            true => self.push((UNIT, 0, 0)),
            false => self.rng.below(self.nodes.len()) as u16,
        }
    }

    fn node(&mut self, input: &Option<Value>, fuel: usize) -> Made {
        if fuel == 0 || self.nodes.len() > 200 {
            return self.leaf(input);
        }
        match self.rng.below(16) {
            0 | 1 => self.leaf(input),
            2 => self.side(INJL, input, fuel - 1),
            3 => self.side(INJR, input, fuel - 1),
            4..=6 => self.comp(input, fuel - 1),
            7 | 8 => self.pair(input, fuel - 1),
            9 => self.jet(),
            10 if self.rng.chance(1, 6) => (self.any(), None),
            11 if self.rng.chance(1, 6) => (self.push((FAIL, 0, 0)), None),
            _ => self.by_shape(input, fuel - 1),
        }
    }

    fn leaf(&mut self, input: &Option<Value>) -> Made {
        let (a, b) = (self.unread(), self.unread());
        match self.rng.below(4) {
            0 => (self.push((IDEN, a, b)), input.clone()),
            1 => (self.push((UNIT, a, b)), Some(Value::Unit)),
            2 => {
                let (record, _, value) = self.rng.pick(&self.stock.values).clone();
                (self.push((SCRIBE, record, b)), Some(value))
            }
            _ => self.witness(),
        }
    }

    /// A witness; one in twelve is asked for at another type than its value's.
    fn witness(&mut self) -> Made {
        let place = self.rng.below(self.stock.values.len());
        let (_, of_type, value) = self.stock.values[place].clone();
        let name = self.witnesses.len() as u16;
        self.witnesses.push(place);
        match self.rng.chance(1, 12) {
            true => (self.push((WITNESS, name, 0)), None),
            false => (self.push((WITNESS, name, of_type)), Some(value)),
        }
    }

    fn side(&mut self, kind: u8, input: &Option<Value>, fuel: usize) -> Made {
        let (child, inner) = self.node(input, fuel);
        let unread = self.unread();
        let whole = inner.map(match kind {
            INJL => Value::left,
            _ => Value::right,
        });
        (self.push((kind, child, unread)), whole)
    }

    fn comp(&mut self, input: &Option<Value>, fuel: usize) -> Made {
        let (first, between) = self.node(input, fuel);
        let (second, value) = self.node(&between, fuel);
        (self.push((COMP, first, second)), value)
    }

    fn pair(&mut self, input: &Option<Value>, fuel: usize) -> Made {
        let (first, a) = self.node(input, fuel);
        let (second, b) = self.node(input, fuel);
        let value = a.and_then(|a| Some(Value::pair(a, b?)));
        (self.push((PAIR, first, second)), value)
    }

    /// A jet on a value of the stock that it takes, or one that RUN refuses.
    fn jet(&mut self) -> Made {
        let jet = match self.rng.chance(1, 12) {
            true => self.rng.within(3, 10),
            false => self.rng.within(0, 2),
        };
        let values = &self.stock.values;
        let fits: Vec<_> = values.iter().filter(|value| takes(jet, &value.2)).collect();
        let (record, _, value) = (*self.rng.pick(&fits)).clone();
        let (a, b) = (self.unread(), self.unread());
        let input = self.push((SCRIBE, record, a));
        let jet_node = self.push((JET, jet as u16, b));
        (self.push((COMP, input, jet_node)), answer(jet, &value))
    }

    /// What takes its input apart, if that is known to be a pair.
    fn by_shape(&mut self, input: &Option<Value>, fuel: usize) -> Made {
        let Some(Value::Pair(first, second)) = input else {
            return self.comp(input, fuel);
        };
        let unread = self.unread();
        match (self.rng.below(3), &**first) {
            (0, side @ (Value::Left(inner) | Value::Right(inner))) => {
                let handed = Value::Pair(inner.clone(), second.clone());
                self.branch(matches!(side, Value::Left(_)), handed, fuel)
            }
            (1, first) => {
                let (child, value) = self.node(&Some(first.clone()), fuel);
                (self.push((TAKE, child, unread)), value)
            }
            _ => {
                let (child, value) = self.node(&Some((**second).clone()), fuel);
                (self.push((DROP, child, unread)), value)
            }
        }
    }

    /// A case or an assert, whose child on the met side takes `handed`.
    fn branch(&mut self, left: bool, handed: Value, fuel: usize) -> Made {
        let (child, value) = self.node(&Some(handed), fuel);
        let (other, unread) = (self.any(), self.unread());
        match (self.rng.below(5), left) {
            (0..=2, true) => (self.push((CASE, child, other)), value),
            (0..=2, false) => (self.push((CASE, other, child)), value),
            (3, true) => (self.push((ASSERTL, child, unread)), value),
            (3, false) => (self.push((ASSERTR, unread, child)), value),
            (_, true) => (self.push((ASSERTR, unread, other)), None),
            (_, false) => (self.push((ASSERTL, other, unread)), None),
        }
    }

    /// Any node, its children any earlier ones.
    fn loose(&mut self) {
        let kind = match self.nodes.is_empty() {
            true => *self.rng.pick(&[IDEN, UNIT, FAIL, WITNESS, SCRIBE, JET]),
            false => self.rng.within(1, 15) as u8,
        };
        let (a, b) = (self.unread(), self.unread());
        let stock = self.stock;
        let (record, of_type, _) = self.rng.pick(&stock.values);
        let node = match kind {
            INJL..=DROP | ASSERTL => (kind, self.any(), b),
            COMP..=PAIR => (kind, self.any(), self.any()),
            ASSERTR => (kind, a, self.any()),
            WITNESS => (kind, self.rng.below(4) as u16, *of_type),
            SCRIBE => (kind, *record, b),
            JET => (kind, self.rng.below(11) as u16, b),
            _ => (kind, a, b),
        };
        self.push(node);
    }
}

/// Whether a jet takes the value; one that RUN refuses may be given any.
fn takes(jet: usize, value: &Value) -> bool {
    match jet {
        0 => value.number(1).is_some(),
        1 | 2 => value.two_words().is_some(),
        _ => true,
    }
}

/// What a jet gives, unless it fails or is refused.
fn answer(jet: usize, value: &Value) -> Option<Value> {
    match jet {
        0 => (value.number(1)? == 1).then_some(Value::Unit),
        1 => value
            .two_words()
            .map(|(a, b)| Value::word(1, usize::from(a == b))),
        2 => value
            .two_words()
            .map(|(a, b)| Value::pair(Value::word(1, (a + b) >> 8), Value::word(8, a + b))),
        _ => None,
    }
}

/// A random table, most of which run through.
pub fn random(seed: u64) -> Table {
    let stock = Stock::new();
    let mut maker = Maker::new(&stock, "tables", seed);
    let fuel = maker.rng.within(1, 9);
    maker.node(&Some(Value::Unit), fuel);
    maker.table(format!("random table {seed}"))
}

/// A random table of nodes that know nothing of one another.
pub fn loose(seed: u64) -> Table {
    let stock = Stock::new();
    let mut maker = Maker::new(&stock, "loose", seed);
    for _ in 0..maker.rng.within(1, 14) {
        maker.loose();
    }
    maker.witnesses = (0..maker.rng.below(5))
        .map(|_| maker.rng.below(stock.values.len()))
        .collect();
    maker.table(format!("loose table {seed}"))
}

/// The table with a node or two changed, bytes struck, or another count.
pub fn struck(table: &Table, seed: u64) -> Table {
    let mut rng = Rng::new("struck table", seed);
    let mut table = table.clone();
    table.case.label = format!("{}, table struck {seed}", table.case.label);
    for _ in 0..rng.within(1, 2) {
        match rng.below(8) {
            0 => strike(&mut table.nodes, &mut rng),
            1 => table.count = *rng.pick(&[0, 1, 65_535, 65_536, u32::MAX]),
            2 => table.count = table.count.wrapping_add(*rng.pick(&[1, u32::MAX])),
            _ => change_node(&mut table.nodes, &mut rng),
        }
    }
    table
}

/// A node gets another kind, or an operand that is mostly an earlier node.
fn change_node(nodes: &mut [u8], rng: &mut Rng) {
    let count = nodes.len() / 5;
    if count == 0 {
        return;
    }
    let number = rng.below(count);
    let at = 5 * number;
    if rng.chance(1, 3) {
        nodes[at] = rng.below(17) as u8;
        return;
    }
    let at = at + *rng.pick(&[1, 3]);
    let operand = match rng.below(8) {
        0 => number,
        1 => *rng.pick(&[number + 1, 11, 4_095, 65_535]),
        _ => rng.below(number.max(1)),
    };
    nodes[at..at + 2].copy_from_slice(&(operand as u16).to_le_bytes());
}

/// The table with another witness list: entries struck, moved to other records,
/// cut off, or none left.
pub fn struck_witnesses(table: &Table, seed: u64) -> Table {
    let mut rng = Rng::new("struck witnesses", seed);
    let mut table = table.clone();
    table.case.label = format!("{}, witnesses struck {seed}", table.case.label);
    let list = &mut table.case.witnesses;
    match rng.below(4) {
        0 => list.clear(),
        1 => strike(list, &mut rng),
        2 => list.truncate(rng.below(list.len() + 1)),
        _ => {
            let at = rng.below(list.len().max(2) / 2) * 2;
            let record = rng.below(400) as u16;
            list.resize(list.len().max(at + 2), 0);
            list[at..at + 2].copy_from_slice(&record.to_le_bytes());
        }
    }
    table
}
