//! Inputs at random for all four calls, each made from its number: bytes, whole
//! books, damaged ones and hostile ones, with a table of nodes beside them.

use std::sync::OnceLock;

use crate::damage::{moved, strike, struck};
use crate::rng::Rng;
use crate::stock::Table;
use crate::{edges, hostile, scoped, tables, typed, Case};

/// What the calls are given, but for the lengths of what they write.
pub struct Input {
    pub table: Table,
    /// Whether the nodes are to be those that the book is lowered to, if it is
    /// lowered; if not, and else, they are those of the table.
    pub lowered: bool,
    /// Whether READ, CHECK and LOWER are called too: the book is not the one
    /// that all tables made by hand or at random stand beside.
    pub book: bool,
}

/// Any bytes, with marks and small numbers among them so that they are not all
/// refused at the first.
fn bytes(rng: &mut Rng, most: usize) -> Vec<u8> {
    const MARKS: &[u8] = b"tutstpvuvlvrvppipnptecewevete0enebsaseemehcjclcpcfcqcychfn";
    let mut bytes = Vec::new();
    for _ in 0..rng.below(most) {
        match rng.below(4) {
            0 => bytes.push(rng.below(256) as u8),
            1 => bytes.extend((rng.below(12) as u16).to_le_bytes()),
            _ => {
                let at = 2 * rng.below(MARKS.len() / 2);
                bytes.extend(&MARKS[at..at + 2]);
            }
        }
    }
    bytes
}

/// A witness list of random records.
fn witnesses(rng: &mut Rng) -> Vec<u8> {
    (0..rng.below(8)).map(|_| rng.below(40) as u8).collect()
}

fn random_bytes(rng: &mut Rng, number: u64) -> Input {
    let nodes = bytes(rng, 40);
    let table = Table {
        case: Case {
            label: format!("bytes {number}"),
            book: bytes(rng, 60),
            witnesses: witnesses(rng),
        },
        count: rng.below(nodes.len() / 5 + 3) as u32,
        nodes,
    };
    Input {
        table,
        lowered: false,
        book: true,
    }
}

/// A book beside the nodes that it is lowered to.
fn of_book(case: Case) -> Input {
    let table = Table {
        case,
        nodes: vec![2, 0, 0, 0, 0],
        count: 1,
    };
    Input {
        table,
        lowered: true,
        book: true,
    }
}

fn whole(rng: &mut Rng, number: u64) -> Case {
    match rng.below(2) {
        0 => typed::book(number),
        _ => scoped::book(number),
    }
}

/// The tables made by hand, made once.
static EDGES: OnceLock<Vec<Table>> = OnceLock::new();

fn random_table(rng: &mut Rng, number: u64) -> Table {
    match rng.below(5) {
        0 => tables::loose(number),
        1 => rng.pick(EDGES.get_or_init(edges::all)).clone(),
        _ => tables::random(number),
    }
}

/// The input of a number.
pub fn input(number: u64) -> Input {
    let mut rng = Rng::new("fuzz", number);
    match rng.weighted(&[10, 10, 25, 25, 5, 8, 17]) {
        0 => random_bytes(&mut rng, number),
        1 => of_book(whole(&mut rng, number)),
        2 => of_book(moved(&whole(&mut rng, number), number)),
        3 => of_book(struck(&whole(&mut rng, number), number)),
        4 => {
            let mut case = moved(&whole(&mut rng, number), number);
            strike(&mut case.book, &mut rng);
            of_book(case)
        }
        5 => {
            let shaped = hostile::shaped(&mut rng);
            of_book(match rng.below(4) {
                0 => moved(&shaped, number),
                1 => struck(&shaped, number),
                _ => shaped,
            })
        }
        _ => {
            let table = random_table(&mut rng, number);
            let table = match rng.below(4) {
                0 => tables::struck(&table, number),
                1 => tables::struck_witnesses(&table, number),
                _ => table,
            };
            Input {
                table,
                lowered: false,
                book: false,
            }
        }
    }
}
