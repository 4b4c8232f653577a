//! Nodes: their kinds, the store with its room, selectors and bits.

use super::array::Side;
use crate::Refusal;

pub const IDEN: u8 = 1;
pub const UNIT: u8 = 2;
pub const INJL: u8 = 3;
pub const INJR: u8 = 4;
pub const TAKE: u8 = 5;
pub const DROP: u8 = 6;
pub const COMP: u8 = 7;
pub const CASE: u8 = 8;
pub const PAIR: u8 = 9;
pub const ASSERTL: u8 = 10;
pub const ASSERTR: u8 = 11;
pub const FAIL: u8 = 12;
pub const WITNESS: u8 = 13;
pub const SCRIBE: u8 = 14;
pub const JET: u8 = 15;

/// Bytes of a node in a table.
pub const WIDTH: usize = 5;

/// No table holds more nodes, so that every number fits its two bytes.
pub const MOST: usize = 65_535;

/// A node's number, or the refusal that ends the lowering.
pub type Answer = Result<u16, Refusal>;

/// A stored node and the record whose lowering stored it.
#[derive(Clone, Copy, Debug, PartialEq, Eq)]
pub struct Stored {
    pub kind: u8,
    pub left: u16,
    pub right: u16,
    pub record: u16,
}

impl Stored {
    pub fn bytes(&self) -> [u8; WIDTH] {
        let [a, b] = self.left.to_le_bytes();
        let [c, d] = self.right.to_le_bytes();
        [self.kind, a, b, c, d]
    }
}

/// The nodes so far, and how many there may be.
pub struct Store {
    nodes: Vec<Stored>,
    room: usize,
}

impl Store {
    pub fn new(room: usize) -> Store {
        let room = room.min(MOST);
        let nodes = Vec::new();
        Store { nodes, room }
    }

    /// A pen that stores nodes in the name of `record`.
    pub fn pen(&mut self, record: u16) -> Pen<'_> {
        Pen {
            store: self,
            record,
        }
    }

    pub fn into_nodes(self) -> Vec<Stored> {
        self.nodes
    }
}

/// Stores nodes for one record. Each call stores exactly what its name says,
/// and answers with the number of the last.
pub struct Pen<'a> {
    store: &'a mut Store,
    record: u16,
}

impl Pen<'_> {
    fn put(&mut self, kind: u8, left: u16, right: u16) -> Answer {
        let number = self.store.nodes.len();
        if number >= self.store.room {
            return Err(Refusal::new(11, usize::from(self.record)));
        }
        self.store.nodes.push(Stored {
            kind,
            left,
            right,
            record: self.record,
        });
        Ok(number as u16)
    }

    pub fn iden(&mut self) -> Answer {
        self.put(IDEN, 0, 0)
    }

    pub fn unit(&mut self) -> Answer {
        self.put(UNIT, 0, 0)
    }

    pub fn injl(&mut self, child: u16) -> Answer {
        self.put(INJL, child, 0)
    }

    pub fn injr(&mut self, child: u16) -> Answer {
        self.put(INJR, child, 0)
    }

    pub fn take(&mut self, child: u16) -> Answer {
        self.put(TAKE, child, 0)
    }

    pub fn drop(&mut self, child: u16) -> Answer {
        self.put(DROP, child, 0)
    }

    pub fn comp(&mut self, first: u16, second: u16) -> Answer {
        self.put(COMP, first, second)
    }

    pub fn case(&mut self, left: u16, right: u16) -> Answer {
        self.put(CASE, left, right)
    }

    pub fn pair(&mut self, left: u16, right: u16) -> Answer {
        self.put(PAIR, left, right)
    }

    pub fn assertl(&mut self, child: u16, symbol: u16) -> Answer {
        self.put(ASSERTL, child, symbol)
    }

    pub fn assertr(&mut self, symbol: u16, child: u16) -> Answer {
        self.put(ASSERTR, symbol, child)
    }

    pub fn fail(&mut self) -> Answer {
        self.put(FAIL, 0, 0)
    }

    pub fn witness(&mut self, name: u16, of_type: u16) -> Answer {
        self.put(WITNESS, name, of_type)
    }

    pub fn scribe(&mut self, value: u16) -> Answer {
        self.put(SCRIBE, value, 0)
    }

    pub fn jet(&mut self, jet: u16) -> Answer {
        self.put(JET, jet, 0)
    }

    /// What lies at the end of `path`: built from its end, so that its first
    /// step comes to lie outermost.
    pub fn select(&mut self, path: &[Side]) -> Answer {
        let mut node = self.iden()?;
        for side in path.iter().rev() {
            node = match side {
                Side::Left => self.take(node)?,
                Side::Right => self.drop(node)?,
            };
        }
        Ok(node)
    }

    pub fn bit(&mut self, bit: bool) -> Answer {
        let unit = self.unit()?;
        match bit {
            false => self.injl(unit),
            true => self.injr(unit),
        }
    }
}
