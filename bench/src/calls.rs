//! The four calls, in Rattle and of the model, on what one book gives them.

use gen::Case;
use model::run::Outcome;

/// The bytes of a table with room for every entry that can be numbered.
const FULL: usize = 5 * 65_535;

/// A book, its witnesses, and the nodes that it is lowered to; one node where
/// it is lowered to none.
pub struct Given {
    pub label: String,
    pub book: Vec<u8>,
    pub witnesses: Vec<u8>,
    pub nodes: Vec<u8>,
}

impl Given {
    pub fn new(label: &str, case: Case) -> Given {
        let mut nodes = vec![0; FULL];
        let count = model::lower::lower(&case.book, false, &mut nodes).unwrap_or(0);
        nodes.truncate(5 * count);
        if count == 0 {
            nodes = vec![2, 0, 0, 0, 0];
        }
        Given {
            label: label.to_string(),
            book: case.book,
            witnesses: case.witnesses,
            nodes,
        }
    }

    fn count(&self) -> u32 {
        self.nodes.len() as u32 / 5
    }
}

/// Number, place, count and cell.
pub type Answer = [u32; 4];

#[repr(C)]
struct Outcome3 {
    number: u32,
    place: u32,
    count: u32,
}

#[repr(C)]
struct Outcome4 {
    number: u32,
    place: u32,
    count: u32,
    cell: u32,
}

extern "C" {
    fn simplicityhl_read(book: *const u8, length: usize) -> Outcome3;
    fn simplicityhl_check(book: *const u8, length: usize) -> Outcome3;
    fn simplicityhl_lower(
        book: *const u8,
        book_length: usize,
        symbols: u8,
        nodes: *mut u8,
        nodes_length: usize,
    ) -> Outcome3;
    fn simplicityhl_run(
        book: *const u8,
        book_length: usize,
        witnesses: *const u8,
        witnesses_length: usize,
        nodes: *const u8,
        nodes_length: usize,
        count: u32,
        cells: *mut u8,
        cells_length: usize,
    ) -> Outcome4;
}

#[derive(Clone, Copy, Debug, PartialEq, Eq)]
pub enum Call {
    Read,
    Check,
    Lower,
    Run,
}

pub const CALLS: [Call; 4] = [Call::Read, Call::Check, Call::Lower, Call::Run];

impl Call {
    pub fn name(self) -> &'static str {
        ["READ", "CHECK", "LOWER", "RUN"][self as usize]
    }

    /// The call in Rattle.
    pub fn ours(self, given: &Given, table: &mut [u8]) -> Answer {
        let three = |got: Outcome3| [got.number, got.place, got.count, 0];
        let (book, length) = (given.book.as_ptr(), given.book.len());
        // Every pointer is valid for the length beside it, and the table is
        // lent to this call alone.
        unsafe {
            match self {
                Call::Read => three(simplicityhl_read(book, length)),
                Call::Check => three(simplicityhl_check(book, length)),
                Call::Lower => three(simplicityhl_lower(
                    book,
                    length,
                    0,
                    table.as_mut_ptr(),
                    table.len(),
                )),
                Call::Run => {
                    let got = simplicityhl_run(
                        book,
                        length,
                        given.witnesses.as_ptr(),
                        given.witnesses.len(),
                        given.nodes.as_ptr(),
                        given.nodes.len(),
                        given.count(),
                        table.as_mut_ptr(),
                        table.len(),
                    );
                    [got.number, got.place, got.count, got.cell]
                }
            }
        }
    }

    /// The model's.
    pub fn models(self, given: &Given, table: &mut [u8]) -> Answer {
        let book = &given.book;
        let answer = match self {
            Call::Read => model::book::read(book).map(|book| (book.records.len(), 0)),
            Call::Check => model::check::check(book).map(|count| (count, 0)),
            Call::Lower => model::lower::lower(book, false, table).map(|count| (count, 0)),
            Call::Run => {
                let outcome =
                    model::run::run(book, &given.witnesses, &given.nodes, given.count(), table);
                outcome.map(|outcome| match outcome {
                    Outcome::Value { cell, count } => (count.into(), cell.into()),
                    Outcome::Failed => (0, 0),
                })
            }
        };
        match answer {
            Ok((count, cell)) => [0, 0, count as u32, cell],
            Err(refusal) => [refusal.number.into(), refusal.place.into(), 0, 0],
        }
    }
}

/// A table that is cleared, and its pages there.
pub fn table() -> Vec<u8> {
    let mut table = vec![1; FULL];
    table.fill(0);
    table
}
