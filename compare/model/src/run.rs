//! RUN: the table check, the cells, and a machine with a stack of its own.

use crate::book::{read, Book, Mark};
use crate::Refusal;

/// Bytes of a node or a cell in its table.
const WIDTH: usize = 5;
/// No table holds more nodes or cells.
const MOST: usize = 65_535;
/// How deep a node may be entered; the root is 1 deep.
const DEEPEST: u16 = 4_096;
/// The cell of the input, and of what a unit node gives.
const UNIT_CELL: u16 = 0;

const NODES: u16 = 15;
const STEEP: u16 = 16;
const WITNESS: u16 = 17;
const CELLS: u16 = 18;
const STUCK: u16 = 19;
const JET: u16 = 20;

/// How a run ended: with the cell of its value and the cells used, or FAILED.
#[derive(Clone, Copy, Debug, PartialEq, Eq)]
pub enum Outcome {
    Value { cell: u16, count: u16 },
    Failed,
}

/// RUN: READ's refusals, then the table's, then the initial cells', then what
/// the run meets first. The cells are zero after a refusal and after FAILED.
pub fn run(
    book: &[u8],
    witnesses: &[u8],
    nodes: &[u8],
    count: u32,
    cells: &mut [u8],
) -> Result<Outcome, Refusal> {
    run_within(book, witnesses, nodes, count, cells, u64::MAX)
        .expect("no run lives to enter so many nodes")
}

/// As `run`, but None once more than `steps` nodes were entered, so that a
/// test comes to an end.
pub fn run_within(
    book: &[u8],
    witnesses: &[u8],
    nodes: &[u8],
    count: u32,
    cells: &mut [u8],
    steps: u64,
) -> Option<Result<Outcome, Refusal>> {
    let mut work = || {
        cells.fill(0);
        let book = read(book)?;
        let table = table(&book, nodes, count)?;
        let (values, initial) = initial_cells(&book, cells.len() / WIDTH)?;
        let mut machine = Machine {
            book: &book,
            witnesses,
            table: &table,
            values: &values,
            cells: initial,
            frames: Vec::new(),
        };
        let outcome = machine.run(steps)?;
        if let Some(Outcome::Value { .. }) = outcome {
            machine.cells.write(cells);
        }
        Ok(outcome)
    };
    work().transpose()
}

/// A node of a table that passed the check, its symbol left out.
#[derive(Clone, Copy)]
enum Node {
    Iden,
    Unit,
    Injl(u16),
    Injr(u16),
    Take(u16),
    Drop(u16),
    Comp(u16, u16),
    Case(u16, u16),
    Pair(u16, u16),
    Assertl(u16),
    Assertr(u16),
    Fail,
    Witness { name: u16, of_type: u16 },
    Scribe(u16),
    Jet(u16),
}

fn table(book: &Book, nodes: &[u8], count: u32) -> Result<Vec<Node>, Refusal> {
    let count = count as usize;
    let present = nodes.len() / WIDTH;
    if count == 0 {
        return Err(Refusal::new(NODES, 0));
    }
    if count > MOST {
        return Err(Refusal::new(NODES, MOST));
    }
    if present < count {
        return Err(Refusal::new(NODES, present));
    }
    let rows = nodes.chunks_exact(WIDTH).take(count).enumerate();
    rows.map(|(number, bytes)| node(book, number, bytes).ok_or(Refusal::new(NODES, number)))
        .collect()
}

/// One node, unless its kind, a child or the number that it holds is bad.
fn node(book: &Book, number: usize, bytes: &[u8]) -> Option<Node> {
    let left = u16::from_le_bytes([bytes[1], bytes[2]]);
    let right = u16::from_le_bytes([bytes[3], bytes[4]]);
    let child = |child: u16| (usize::from(child) < number).then_some(child);
    Some(match bytes[0] {
        1 => Node::Iden,
        2 => Node::Unit,
        3 => Node::Injl(child(left)?),
        4 => Node::Injr(child(left)?),
        5 => Node::Take(child(left)?),
        6 => Node::Drop(child(left)?),
        7 => Node::Comp(child(left)?, child(right)?),
        8 => Node::Case(child(left)?, child(right)?),
        9 => Node::Pair(child(left)?, child(right)?),
        10 => Node::Assertl(child(left)?),
        11 => Node::Assertr(child(right)?),
        12 => Node::Fail,
        13 => Node::Witness {
            name: left,
            of_type: holds(book, right, Mark::Tu, Mark::Tp)?,
        },
        14 => Node::Scribe(holds(book, left, Mark::Vu, Mark::Vp)?),
        15 => Node::Jet((left <= 10).then_some(left)?),
        _ => return None,
    })
}

/// The number again, if its record's mark is in a range of the marks' table.
fn holds(book: &Book, number: u16, first: Mark, last: Mark) -> Option<u16> {
    let record = book.records.get(usize::from(number))?;
    (first..=last).contains(&record.mark).then_some(number)
}

/// A value, its parts by the numbers of their cells.
#[derive(Clone, Copy, PartialEq, Eq)]
enum Cell {
    Unit,
    Left(u16),
    Right(u16),
    Pair(u16, u16),
}

struct Cells {
    made: Vec<Cell>,
    room: usize,
}

impl Cells {
    fn get(&self, cell: u16) -> Cell {
        self.made[usize::from(cell)]
    }

    /// Stores a cell in the name of a node.
    fn make(&mut self, cell: Cell, node: u16) -> Result<u16, Refusal> {
        let number = self.made.len();
        if number >= self.room {
            return Err(refusal(CELLS, node));
        }
        self.made.push(cell);
        Ok(number as u16)
    }

    fn count(&self) -> u16 {
        self.made.len() as u16
    }

    fn write(&self, table: &mut [u8]) {
        for (place, cell) in table.chunks_exact_mut(WIDTH).zip(&self.made) {
            let (kind, left, right) = match *cell {
                Cell::Unit => (1, 0, 0),
                Cell::Left(inner) => (2, inner, 0),
                Cell::Right(inner) => (3, inner, 0),
                Cell::Pair(left, right) => (4, left, right),
            };
            place[0] = kind;
            place[1..3].copy_from_slice(&left.to_le_bytes());
            place[3..5].copy_from_slice(&right.to_le_bytes());
        }
    }

    /// The number that a word of some bits stands for, if it is one.
    fn word(&self, cell: u16, bits: u32) -> Option<u16> {
        let of_unit = |inner| (self.get(inner) == Cell::Unit).then_some(());
        match self.get(cell) {
            Cell::Left(inner) if bits == 1 => of_unit(inner).map(|()| 0),
            Cell::Right(inner) if bits == 1 => of_unit(inner).map(|()| 1),
            Cell::Pair(high, low) if bits > 1 => {
                let half = bits / 2;
                Some(self.word(high, half)? << half | self.word(low, half)?)
            }
            _ => None,
        }
    }

    fn two_words(&self, cell: u16) -> Option<(u16, u16)> {
        match self.get(cell) {
            Cell::Pair(first, second) => Some((self.word(first, 8)?, self.word(second, 8)?)),
            _ => None,
        }
    }

    /// A word's cells: parts first, high half first, then the whole.
    fn make_word(&mut self, word: u16, bits: u32, node: u16) -> Result<u16, Refusal> {
        if bits == 1 {
            let unit = self.make(Cell::Unit, node)?;
            return match word & 1 {
                0 => self.make(Cell::Left(unit), node),
                _ => self.make(Cell::Right(unit), node),
            };
        }
        let half = bits / 2;
        let high = self.make_word(word >> half, half, node)?;
        let low = self.make_word(word, half, node)?;
        self.make(Cell::Pair(high, low), node)
    }
}

fn refusal(number: u16, node: u16) -> Refusal {
    Refusal::new(number, usize::from(node))
}

/// Cell 0, then a cell for each value record; and for each record of the book
/// its cell, which says nothing for a record that is no value.
fn initial_cells(book: &Book, room: usize) -> Result<(Vec<u16>, Cells), Refusal> {
    let mut cells = Cells {
        made: Vec::new(),
        room: room.min(MOST),
    };
    let mut values = Vec::new();
    cells.make(Cell::Unit, 0)?;
    for record in &book.records {
        let part = |field: usize| values[usize::from(record.fields[field])];
        let cell = match record.mark {
            Mark::Vu => Some(Cell::Unit),
            Mark::Vl => Some(Cell::Left(part(1))),
            Mark::Vr => Some(Cell::Right(part(1))),
            Mark::Vp => Some(Cell::Pair(part(1), part(2))),
            _ => None,
        };
        values.push(match cell {
            Some(cell) => cells.make(cell, 0)?,
            None => UNIT_CELL,
        });
    }
    Ok((values, cells))
}

/// A node to be entered.
struct Entry {
    node: u16,
    input: u16,
    depth: u16,
}

/// What is left to do with the result of the node that was entered last.
enum Frame {
    Injl { node: u16 },
    Injr { node: u16 },
    Then { child: u16, depth: u16 },
    Second { node: u16, second: Entry },
    Join { node: u16, left: u16 },
}

enum Next {
    Enter(Entry),
    Leave(u16),
    Failed,
}

struct Machine<'a> {
    book: &'a Book,
    witnesses: &'a [u8],
    table: &'a [Node],
    values: &'a [u16],
    cells: Cells,
    frames: Vec<Frame>,
}

impl Machine<'_> {
    fn run(&mut self, mut steps: u64) -> Result<Option<Outcome>, Refusal> {
        let mut next = Next::Enter(Entry {
            node: (self.table.len() - 1) as u16,
            input: UNIT_CELL,
            depth: 1,
        });
        loop {
            next = match next {
                Next::Enter(entry) => {
                    if entry.depth > DEEPEST {
                        return Err(refusal(STEEP, entry.node));
                    }
                    if steps == 0 {
                        return Ok(None);
                    }
                    steps -= 1;
                    self.enter(entry)?
                }
                Next::Leave(cell) => match self.frames.pop() {
                    Some(frame) => self.leave(frame, cell)?,
                    None => {
                        let count = self.cells.count();
                        return Ok(Some(Outcome::Value { cell, count }));
                    }
                },
                Next::Failed => return Ok(Some(Outcome::Failed)),
            };
        }
    }

    fn enter(&mut self, entry: Entry) -> Result<Next, Refusal> {
        let Entry { node, input, depth } = entry;
        let below = |node, input| Entry {
            node,
            input,
            depth: depth + 1,
        };
        match self.table[usize::from(node)] {
            Node::Iden => Ok(Next::Leave(input)),
            Node::Unit => Ok(Next::Leave(UNIT_CELL)),
            Node::Injl(child) => self.enter_under(Frame::Injl { node }, below(child, input)),
            Node::Injr(child) => self.enter_under(Frame::Injr { node }, below(child, input)),
            Node::Take(child) => {
                let (left, _) = self.parts(input, node)?;
                Ok(Next::Enter(below(child, left)))
            }
            Node::Drop(child) => {
                let (_, right) = self.parts(input, node)?;
                Ok(Next::Enter(below(child, right)))
            }
            Node::Comp(first, child) => {
                let depth = depth + 1;
                self.enter_under(Frame::Then { child, depth }, below(first, input))
            }
            Node::Pair(left, right) => {
                let second = below(right, input);
                self.enter_under(Frame::Second { node, second }, below(left, input))
            }
            Node::Case(left, right) => self.branch(entry, Some(left), Some(right)),
            Node::Assertl(left) => self.branch(entry, Some(left), None),
            Node::Assertr(right) => self.branch(entry, None, Some(right)),
            Node::Fail => Ok(Next::Failed),
            Node::Witness { name, of_type } => self.witness(node, name, of_type),
            Node::Scribe(value) => Ok(Next::Leave(self.values[usize::from(value)])),
            Node::Jet(jet) => self.jet(node, jet, input),
        }
    }

    fn enter_under(&mut self, frame: Frame, entry: Entry) -> Result<Next, Refusal> {
        self.frames.push(frame);
        Ok(Next::Enter(entry))
    }

    /// The parts of the pair that a node needs.
    fn parts(&self, cell: u16, node: u16) -> Result<(u16, u16), Refusal> {
        match self.cells.get(cell) {
            Cell::Pair(left, right) => Ok((left, right)),
            _ => Err(refusal(STUCK, node)),
        }
    }

    fn leave(&mut self, frame: Frame, cell: u16) -> Result<Next, Refusal> {
        let (whole, node) = match frame {
            Frame::Then { child, depth } => {
                return Ok(Next::Enter(Entry {
                    node: child,
                    input: cell,
                    depth,
                }))
            }
            Frame::Second { node, second } => {
                return self.enter_under(Frame::Join { node, left: cell }, second)
            }
            Frame::Join { node, left } => (Cell::Pair(left, cell), node),
            Frame::Injl { node } => (Cell::Left(cell), node),
            Frame::Injr { node } => (Cell::Right(cell), node),
        };
        self.cells.make(whole, node).map(Next::Leave)
    }

    /// A case, or an assert, which has no child on the side that fails.
    fn branch(
        &mut self,
        entry: Entry,
        left: Option<u16>,
        right: Option<u16>,
    ) -> Result<Next, Refusal> {
        let (sum, rest) = self.parts(entry.input, entry.node)?;
        let (inner, child) = match self.cells.get(sum) {
            Cell::Left(inner) => (inner, left),
            Cell::Right(inner) => (inner, right),
            _ => return Err(refusal(STUCK, entry.node)),
        };
        let Some(node) = child else {
            return Ok(Next::Failed);
        };
        let input = self.cells.make(Cell::Pair(inner, rest), entry.node)?;
        let depth = entry.depth + 1;
        Ok(Next::Enter(Entry { node, input, depth }))
    }

    fn witness(&self, node: u16, name: u16, of_type: u16) -> Result<Next, Refusal> {
        let entry = self.witnesses.chunks_exact(2).nth(usize::from(name));
        entry
            .map(|bytes| u16::from_le_bytes([bytes[0], bytes[1]]))
            .and_then(|value| holds(self.book, value, Mark::Vu, Mark::Vp))
            .filter(|value| self.book.records[usize::from(*value)].fields[0] == of_type)
            .map(|value| Next::Leave(self.values[usize::from(value)]))
            .ok_or(refusal(WITNESS, node))
    }

    fn jet(&mut self, node: u16, jet: u16, input: u16) -> Result<Next, Refusal> {
        let stuck = refusal(STUCK, node);
        match jet {
            0 => match self.cells.word(input, 1).ok_or(stuck)? {
                0 => Ok(Next::Failed),
                _ => self.cells.make(Cell::Unit, node).map(Next::Leave),
            },
            1 => {
                let (a, b) = self.cells.two_words(input).ok_or(stuck)?;
                let equal = u16::from(a == b);
                self.cells.make_word(equal, 1, node).map(Next::Leave)
            }
            2 => {
                let (a, b) = self.cells.two_words(input).ok_or(stuck)?;
                let carry = self.cells.make_word((a + b) >> 8, 1, node)?;
                let sum = self.cells.make_word(a + b, 8, node)?;
                let whole = Cell::Pair(carry, sum);
                self.cells.make(whole, node).map(Next::Leave)
            }
            _ => Err(refusal(JET, node)),
        }
    }
}

#[cfg(test)]
mod tests {
    use super::*;
    use crate::lower::lower;
    use crate::lower::tests::{book, LISTING};

    const PLAIN: &str = "tu; et 0 0";

    /// A node table from kinds and operands.
    fn table(nodes: &[(u8, u16, u16)]) -> Vec<u8> {
        let row = |&(kind, a, b): &(u8, u16, u16)| {
            let ([a, b], [c, d]) = (a.to_le_bytes(), b.to_le_bytes());
            [kind, a, b, c, d]
        };
        nodes.iter().flat_map(row).collect()
    }

    struct Ran {
        end: Result<Outcome, Refusal>,
        cells: Vec<u8>,
    }

    /// A run of these nodes in room for some cells, with two bytes to spare
    /// and nothing zero before it.
    fn ran(text: &str, witnesses: &[u8], nodes: &[(u8, u16, u16)], room: usize) -> Ran {
        let mut cells = vec![255; room * WIDTH + 2];
        let count = nodes.len() as u32;
        let end = run(&book(text), witnesses, &table(nodes), count, &mut cells);
        Ran { end, cells }
    }

    /// A run of what a book lowers to.
    fn lowered(text: &str) -> Ran {
        let mut nodes = vec![0; MOST * WIDTH];
        let count = lower(&book(text), false, &mut nodes).expect("nodes") as u32;
        let mut cells = vec![255; MOST * WIDTH];
        let end = run(&book(text), &[], &nodes, count, &mut cells);
        Ran { end, cells }
    }

    impl Ran {
        fn cell(&self, number: u16) -> (u8, u16, u16) {
            let at = usize::from(number) * WIDTH;
            let two = |at: usize| u16::from_le_bytes([self.cells[at], self.cells[at + 1]]);
            (self.cells[at], two(at + 1), two(at + 3))
        }

        fn value(&self) -> u16 {
            match self.end {
                Ok(Outcome::Value { cell, .. }) => cell,
                other => panic!("no value but {other:?}"),
            }
        }

        /// The bits of a word, high first, as a string of digits.
        fn digits(&self, cell: u16) -> String {
            match self.cell(cell) {
                (2, inner, 0) if self.cell(inner) == (1, 0, 0) => "0".into(),
                (3, inner, 0) if self.cell(inner) == (1, 0, 0) => "1".into(),
                (4, high, low) => self.digits(high) + &self.digits(low),
                other => panic!("no word: {other:?}"),
            }
        }

        fn number(&self, cell: u16) -> usize {
            usize::from_str_radix(&self.digits(cell), 2).expect("digits")
        }

        /// The left parts of a right-nested row of pairs, and what ends it.
        fn chain(&self, mut cell: u16) -> (Vec<u16>, u16) {
            let mut parts = Vec::new();
            while let (4, left, right) = self.cell(cell) {
                parts.push(left);
                cell = right;
            }
            (parts, cell)
        }

        fn refused(&self, number: u16, place: u16) {
            assert_eq!(self.end, Err(Refusal { number, place }));
            assert!(self.cells.iter().all(|byte| *byte == 0));
        }

        fn failed(&self) {
            assert_eq!(self.end, Ok(Outcome::Failed));
            assert!(self.cells.iter().all(|byte| *byte == 0));
        }
    }

    /// Nodes 0 to 2 are unit, bit false, bit true; then words and their pair.
    fn two_words(a: u16, b: u16) -> Vec<(u8, u16, u16)> {
        let mut nodes = vec![(2, 0, 0), (3, 0, 0), (4, 0, 0)];
        let mut wholes = Vec::new();
        for word in [a, b] {
            let mut row: Vec<u16> = (0..8).rev().map(|k| 1 + (word >> k & 1)).collect();
            while row.len() > 1 {
                row = row
                    .chunks(2)
                    .map(|two| {
                        nodes.push((9, two[0], two[1]));
                        nodes.len() as u16 - 1
                    })
                    .collect();
            }
            wholes.push(row[0]);
        }
        nodes.push((9, wholes[0], wholes[1]));
        nodes
    }

    /// A jet on two words: its node is the last but one.
    fn jet_on(jet: u16, a: u16, b: u16) -> Vec<(u8, u16, u16)> {
        let mut nodes = two_words(a, b);
        let input = nodes.len() as u16 - 1;
        nodes.push((15, jet, 0));
        nodes.push((7, input, input + 1));
        nodes
    }

    #[test]
    fn listing_gives_its_value() {
        let ran = lowered(LISTING);
        // Unit, the two values, and the pair of the new binding and the input.
        assert_eq!(ran.end, Ok(Outcome::Value { cell: 2, count: 4 }));
        let used = [
            [1, 0, 0, 0, 0],
            [1, 0, 0, 0, 0],
            [3, 1, 0, 0, 0],
            [4, 2, 0, 0, 0],
        ];
        assert_eq!(ran.cells[..20], used.concat());
        assert!(ran.cells[20..].iter().all(|byte| *byte == 0));
    }

    #[test]
    fn add_8_of_every_two_bytes() {
        for a in 0..256_u16 {
            for b in 0..256_u16 {
                let ran = ran(PLAIN, &[], &jet_on(2, a, b), 58);
                // Cell 0, two words of 15 cells and their pair; then 26.
                assert_eq!(
                    ran.end,
                    Ok(Outcome::Value {
                        cell: 57,
                        count: 58
                    })
                );
                let (kind, carry, sum) = ran.cell(57);
                assert_eq!((kind, carry, sum), (4, 33, 56));
                assert_eq!(
                    ran.number(carry) * 256 + ran.number(sum),
                    usize::from(a + b)
                );
            }
        }
        ran(PLAIN, &[], &jet_on(2, 1, 2), 57).refused(CELLS, 18);
    }

    #[test]
    fn add_8_stores_parts_first_and_shares_none() {
        let ran = ran(PLAIN, &[], &jet_on(2, 255, 6), 100);
        let kinds: Vec<u8> = (32..58).map(|k| ran.cell(k).0).collect();
        let sum = [
            1, 2, 1, 2, 4, 1, 2, 1, 2, 4, 4, 1, 2, 1, 3, 4, 1, 2, 1, 3, 4, 4, 4,
        ];
        assert_eq!(kinds, [&[1, 3], &sum[..], &[4]].concat());
        let halves = [ran.cell(38), ran.cell(44), ran.cell(56)];
        assert_eq!(halves, [(4, 35, 37), (4, 38, 43), (4, 44, 55)]);
    }

    #[test]
    fn eq_8_and_verify_make_new_cells() {
        for (a, b, kind) in [(7, 7, 3), (7, 6, 2), (135, 7, 2)] {
            let ran = ran(PLAIN, &[], &jet_on(1, a, b), 40);
            assert_eq!(
                ran.end,
                Ok(Outcome::Value {
                    cell: 33,
                    count: 34
                })
            );
            assert_eq!(ran.cell(33), (kind, 32, 0));
        }
        let verify = |bit| [(2, 0, 0), (bit, 0, 0), (15, 0, 0), (7, 1, 2)];
        let held = ran(PLAIN, &[], &verify(4), 40);
        assert_eq!(held.end, Ok(Outcome::Value { cell: 2, count: 3 }));
        ran(PLAIN, &[], &verify(3), 40).failed();
        ran(PLAIN, &[], &verify(4), 2).refused(CELLS, 2);
        ran(PLAIN, &[], &verify(3), 2).failed();
    }

    /// A sum beside a unit, then a last node on it; 2 is the sum of unit.
    fn on_sum(side: u8, last: (u8, u16, u16)) -> [(u8, u16, u16); 7] {
        let take = (5, 3, 0);
        [
            (2, 0, 0),
            (side, 0, 0),
            (9, 1, 0),
            (1, 0, 0),
            take,
            last,
            (7, 2, 5),
        ]
    }

    #[test]
    fn case_and_asserts_on_both_sides() {
        let end = |side, last| ran(PLAIN, &[], &on_sum(side, last), 9);
        // Cells: unit, sum, pair, then the pair that is handed on.
        let whole = Ok(Outcome::Value { cell: 3, count: 4 });
        let part = Ok(Outcome::Value { cell: 0, count: 4 });
        assert_eq!(end(3, (8, 3, 4)).end, whole);
        assert_eq!(end(4, (8, 3, 4)).end, part);
        assert_eq!(end(3, (10, 3, 777)).end, whole);
        assert_eq!(end(4, (11, 777, 4)).end, part);
        assert_eq!(end(3, (10, 3, 777)).cell(3), (4, 0, 0));
        end(4, (10, 3, 0)).failed();
        end(3, (11, 0, 4)).failed();
        ran(PLAIN, &[], &on_sum(3, (8, 3, 4)), 3).refused(CELLS, 5);
        ran(PLAIN, &[], &on_sum(4, (10, 3, 0)), 3).failed();
    }

    #[test]
    fn stuck_on_another_shape() {
        for last in [(5, 0, 0), (6, 0, 0), (8, 0, 0), (10, 0, 0), (11, 0, 0)] {
            ran(PLAIN, &[], &[(2, 0, 0), last], 9).refused(STUCK, 1);
            let on_pair = [(2, 0, 0), (9, 0, 0), last, (7, 1, 2)];
            if last.0 >= 8 {
                ran(PLAIN, &[], &on_pair, 9).refused(STUCK, 2);
            }
        }
        for jet in 0..3 {
            ran(PLAIN, &[], &[(15, jet, 0)], 1).refused(STUCK, 0);
        }
        // A bit is a side of unit: a side of a bit is none.
        let nodes = [(2, 0, 0), (4, 0, 0), (4, 1, 0), (15, 0, 0), (7, 2, 3)];
        ran(PLAIN, &[], &nodes, 9).refused(STUCK, 3);
        // A pair of words of another width.
        let nodes = [(2, 0, 0), (4, 0, 0), (9, 1, 1), (15, 2, 0), (7, 2, 3)];
        ran(PLAIN, &[], &nodes, 9).refused(STUCK, 3);
    }

    /// `n` wraps of one kind around a first node.
    fn deep(first: (u8, u16, u16), kind: u8, n: u16) -> Vec<(u8, u16, u16)> {
        let wraps = (0..n).map(|child| (kind, child, child));
        [first].into_iter().chain(wraps).collect()
    }

    #[test]
    fn depth_4096_and_no_deeper() {
        let end = ran(PLAIN, &[], &deep((2, 0, 0), 3, 4_095), 5_000).end;
        assert_eq!(
            end,
            Ok(Outcome::Value {
                cell: 4_095,
                count: 4_096
            })
        );
        ran(PLAIN, &[], &deep((2, 0, 0), 3, 4_096), 5_000).refused(STEEP, 0);
        // The right child of a comp is one deeper than the comp.
        let right = |n: u16| {
            let comps = (1..n).map(|child| (7, 0, child));
            [(2, 0, 0), (2, 0, 0)]
                .into_iter()
                .chain(comps)
                .collect::<Vec<_>>()
        };
        let end = ran(PLAIN, &[], &right(4_096), 1).end;
        assert_eq!(end, Ok(Outcome::Value { cell: 0, count: 1 }));
        // One more, and the left child of the lowest comp is met first.
        ran(PLAIN, &[], &right(4_097), 1).refused(STEEP, 0);
        // Steep comes before all else at a node, and before its failure.
        for first in [(13, 9, 0), (15, 3, 0), (12, 0, 0), (15, 0, 0)] {
            ran(PLAIN, &[], &deep(first, 3, 4_096), 5_000).refused(STEEP, 0);
        }
    }

    #[test]
    fn orders_at_a_node_and_between_nodes() {
        // A jet that is not there before the shape, the shape before the room.
        ran(PLAIN, &[], &[(15, 3, 0)], 1).refused(JET, 0);
        ran(PLAIN, &[], &[(15, 10, 0)], 1).refused(JET, 0);
        ran(PLAIN, &[], &[(15, 2, 0)], 1).refused(STUCK, 0);
        // A pair's left operand is met first, and the first failure ends all.
        let (fail, stuck) = ((12, 0, 0), (15, 0, 0));
        ran(PLAIN, &[], &[fail, stuck, (9, 0, 1)], 1).failed();
        ran(PLAIN, &[], &[fail, stuck, (9, 1, 0)], 1).refused(STUCK, 1);
        // The room at the node whose cell does not fit: injl below injr.
        let nodes = [(2, 0, 0), (3, 0, 0), (4, 1, 0)];
        ran(PLAIN, &[], &nodes, 1).refused(CELLS, 1);
        ran(PLAIN, &[], &nodes, 2).refused(CELLS, 2);
        assert_eq!(ran(PLAIN, &[], &nodes, 3).value(), 2);
    }

    /// Nodes as text, so that a row of them stays on a line.
    fn nodes(text: &str) -> impl Iterator<Item = (u8, u16, u16)> + '_ {
        text.split(", ").map(|node| {
            let mut words = node.split(' ').map(|word| word.parse().expect("a number"));
            let mut next = || words.next().expect("three numbers");
            (next() as u8, next(), next())
        })
    }

    #[test]
    fn tables_that_are_refused() {
        let text = "tu; ts 0 0; vu 0; et 0 0";
        let refused = |nodes: &[u8], count, number, place| {
            let mut cells = [9; 9];
            let end = run(&book(text), &[], nodes, count, &mut cells);
            assert_eq!(end, Err(Refusal { number, place }));
            assert_eq!(cells, [0; 9]);
        };
        refused(&[], 0, NODES, 0);
        refused(&[], 65_536, NODES, 65_535);
        refused(&table(&[(99, 0, 0), (2, 0, 0)])[..9], 2, NODES, 1);
        let bad = "0 0 0, 16 0 0, 3 1 0, 4 1 0, 5 1 0, 6 2 0, 7 1 0, 7 0 1, 8 1 0, 8 0 1, 9 1 0, \
                   9 0 1, 10 1 0, 11 0 1, 13 0 2, 13 0 4, 14 1 0, 14 3 0, 14 4 0, 15 11 0";
        for bad in nodes(bad) {
            refused(&table(&[(2, 0, 0), bad, bad]), 3, NODES, 1);
        }
        // What no one reads may be anything; then the initial cells come.
        let good = "1 9 9, 2 9 9, 3 0 9, 10 0 9, 11 9 0, 12 9 9, 13 9 1, 14 2 9, 15 10 9";
        for good in nodes(good) {
            refused(&table(&[(2, 0, 0), good, (99, 0, 0)]), 2, CELLS, 0);
        }
        ran("tu; tu", &[], &[], 9).refused(7, 1);
    }

    #[test]
    fn witnesses_by_entry_and_type() {
        let text = "tu; ts 0 0; vu 0; vl 1 2; et 0 0";
        let end = |witnesses: &[u8], of_type| ran(text, witnesses, &[(13, 1, of_type)], 9);
        assert_eq!(end(&[0, 0, 3, 0], 1).value(), 2);
        assert_eq!(end(&[9, 9, 2, 0, 7], 0).value(), 1);
        end(&[0, 0, 3, 0], 0).refused(WITNESS, 0);
        end(&[0, 0, 1, 0], 1).refused(WITNESS, 0);
        end(&[0, 0, 5, 0], 1).refused(WITNESS, 0);
        end(&[3, 0, 3], 1).refused(WITNESS, 0);
        end(&[], 1).refused(WITNESS, 0);
        // An entry that is not reached is not judged.
        let nodes = [(13, 1, 1), (12, 0, 0), (9, 1, 0)];
        ran(text, &[], &nodes, 9).failed();
    }

    #[test]
    fn steps_end_a_run() {
        let nodes = table(&deep((2, 0, 0), 3, 9));
        let mut cells = [7; 100];
        let mut within = |steps| run_within(&book(PLAIN), &[], &nodes, 10, &mut cells, steps);
        assert_eq!(within(9), None);
        assert_eq!(within(10), Some(Ok(Outcome::Value { cell: 9, count: 10 })));
        assert_eq!(within(9), None);
        assert_eq!(cells, [0; 100]);
    }

    /// A fold of `n` values, whose cells are 1 to n, by (element, accumulator)
    /// into a pair of both: the last element ends outermost.
    fn fold(mark: &str, row: &str, size: usize, n: usize) -> Vec<u16> {
        let values = "; vu 0".repeat(n);
        let mut text = format!("tu{values}; ev 0 1; ev 0 2; et 0 2 {} {}", n + 1, n + 2);
        text += &format!("; fn 0 2 1 0 2 0 {}", n + 3);
        text += &(1..=n).map(|k| format!("; ec 0 {k}")).collect::<String>();
        let elements = (n + 5..2 * n + 5).map(|e| format!(" {e}"));
        text += &format!("; {row} {n}{}; et 0 0", elements.collect::<String>());
        text += &format!("; {mark} 0 {} {size} {} {}", n + 4, 2 * n + 5, 2 * n + 6);
        let ran = lowered(&text);
        let (mut folded, start) = ran.chain(ran.value());
        assert_eq!(start, UNIT_CELL);
        folded.reverse();
        folded
    }

    #[test]
    fn folds_go_upward() {
        let upward = |n: usize| (1..=n as u16).collect::<Vec<_>>();
        for n in (1..40).chain(250..257) {
            assert_eq!(fold("cy", "et 0", n, n), upward(n));
        }
        for (bound, n) in (0..16).map(|n| (16, n)).chain([(2, 0), (2, 1)]) {
            assert_eq!(fold("cq", &format!("el 0 {bound}"), bound, n), upward(n));
        }
        for n in [0, 1, 127, 128, 129, 254, 255] {
            assert_eq!(fold("cq", "el 0 256", 256, n), upward(n));
        }
    }

    #[test]
    fn loops_count_from_0_and_stop_on_left() {
        // f(1 accumulator, 2 context, 3 counter) = right (counter, accumulator).
        let counted = "tu; ev 0 3; ev 0 1; et 0 2 1 2; e1 0 3; \
                       fn 0 3 1 0 2 0 3 0 4; et 0 0; et 0 0; cw 0 5";
        for width in [1, 2, 4, 8] {
            let ran = lowered(&format!("{counted} {width} 6 7"));
            let (kind, accumulator, _) = ran.cell(ran.value());
            assert_eq!(kind, 3);
            let (counters, start) = ran.chain(accumulator);
            assert_eq!(start, UNIT_CELL);
            let counters: Vec<usize> = counters.iter().rev().map(|c| ran.number(*c)).collect();
            assert_eq!(counters, (0..1 << width).collect::<Vec<_>>());
        }
        // Left of the counter as soon as it equals the context, 0b1010_0110.
        let stopped = "tu; vu 0; vl 0 1; vr 0 1; vp 0 3 2; vp 0 2 3; vp 0 4 4; vp 0 5 4; \
                       vp 0 6 7; pn; ev 0 2; ev 0 3; cj 0 0 1 2 10 11; ev 0 1; e1 0 13; \
                       ev 0 3; e0 0 15; em 0 12 9 14 9 16; fn 0 3 1 0 2 0 3 0 17; \
                       et 0 0; ec 0 8; cw 0 18 8 19 20";
        let ran = lowered(stopped);
        let (kind, counter, _) = ran.cell(ran.value());
        assert_eq!((kind, ran.digits(counter).as_str()), (2, "10100110"));
    }

    #[test]
    fn unwraps_none_and_panic() {
        let left = "tu; et 0 0; e0 0 1";
        let right = "tu; et 0 0; e1 0 1";
        assert_eq!(lowered(&format!("{left}; cl 0 0 2")).value(), UNIT_CELL);
        assert_eq!(lowered(&format!("{right}; cr 0 0 2")).value(), UNIT_CELL);
        lowered(&format!("{right}; cl 0 0 2")).failed();
        lowered(&format!("{left}; cr 0 0 2")).failed();
        lowered("tu; cp 0 0").failed();
        for (text, digit) in [(left, "1"), (right, "0")] {
            let ran = lowered(&format!("{text}; cn 0 2"));
            assert_eq!(ran.digits(ran.value()), digit);
        }
    }
}
