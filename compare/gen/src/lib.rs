//! Books to judge by: small ones of every mark, every size of every row, typed
//! ones with their witnesses, damaged ones, hostile ones; and node tables to
//! run. A book or a table is the same on every machine and at every time, by
//! its family and number.

pub mod damage;
pub mod edges;
pub mod fuzz;
pub mod hostile;
pub mod rng;
pub mod scoped;
pub mod stock;
pub mod systematic;
pub mod tables;
pub mod typed;
pub mod writer;

/// A book with the witness list that belongs to it.
#[derive(Clone)]
pub struct Case {
    pub label: String,
    pub book: Vec<u8>,
    pub witnesses: Vec<u8>,
}

impl AsRef<Case> for Case {
    fn as_ref(&self) -> &Case {
        self
    }
}

impl Case {
    /// A book that reads no witness.
    pub fn plain(label: String, writer: &writer::Writer) -> Case {
        Case {
            label,
            book: writer.bytes(),
            witnesses: Vec::new(),
        }
    }
}
