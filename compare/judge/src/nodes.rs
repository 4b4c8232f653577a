//! The model's nodes against the original's, byte by byte.

use gen::Case;
use model::book::{self, Book, Mark};
use model::lower::{trace, Stored};
use original::Answer;

/// Room enough for every table that there can be.
pub const ROOM: usize = 65_535;

/// What became of one book, with or without symbols.
#[derive(Clone, Copy, PartialEq, Eq)]
pub enum Verdict {
    /// The same nodes, of which the original built some that it doesn't use.
    Nodes { unused: usize },
    /// The same variable is not in scope.
    Undefined,
    /// The model's own limits, which the original does not have: 11, 12.
    Limit,
    /// READ refuses it: some damaged books are none.
    NotRead,
}

/// The two judges on one book, or how they differ.
pub fn compare(case: &Case, symbols: bool) -> Result<Verdict, String> {
    let Ok(book) = book::read(&case.book) else {
        return Ok(Verdict::NotRead);
    };
    let ours = trace(&book, symbols, ROOM);
    if matches!(ours, Err(refusal) if refusal.number != 10) {
        return Ok(Verdict::Limit);
    }
    let theirs = original::lower(&case.book, symbols, 40 * ROOM).expect("there is a checkout");
    match (ours, theirs) {
        (Ok(ours), Answer::Nodes { nodes, unreached }) => {
            same(&bytes(&ours), &nodes)?;
            let unused = unused_powers(&book, &ours);
            if unused != unreached {
                return Err(format!("{unreached} unused nodes, not {unused}"));
            }
            Ok(Verdict::Nodes { unused })
        }
        (Err(refusal), Answer::Undefined { record }) if refusal.place == record => {
            Ok(Verdict::Undefined)
        }
        (Ok(_), Answer::Undefined { record }) => {
            Err(format!("the original: undefined at {record}"))
        }
        (Ok(_), Answer::TooMany) => Err("the original: too many nodes".to_string()),
        (Err(refusal), Answer::Undefined { record }) => {
            Err(format!("{refusal:?}, the original at {record}"))
        }
        (Err(refusal), _) => Err(format!("{refusal:?}, and the original accepts")),
    }
}

/// The nodes as they lie in a table.
pub fn bytes(nodes: &[Stored]) -> Vec<u8> {
    let mut bytes = Vec::with_capacity(5 * nodes.len());
    for node in nodes {
        bytes.push(node.kind);
        bytes.extend(node.left.to_le_bytes());
        bytes.extend(node.right.to_le_bytes());
    }
    bytes
}

fn same(ours: &[u8], theirs: &[u8]) -> Result<(), String> {
    if ours == theirs {
        return Ok(());
    }
    let at = ours
        .chunks(5)
        .zip(theirs.chunks(5))
        .position(|(a, b)| a != b);
    let at = at.unwrap_or(ours.len().min(theirs.len()) / 5);
    let line = |nodes: &[u8]| {
        original::listing(nodes)
            .lines()
            .nth(at + 1)
            .unwrap_or("nothing")
            .to_string()
    };
    Err(format!(
        "node {at}: {}, the original: {}",
        line(ours),
        line(theirs)
    ))
}

/// How many nodes the original builds and does not use: where an array's size
/// is no power of two, the last power, 12 nodes each time the fold is lowered.
fn unused_powers(book: &Book, nodes: &[Stored]) -> usize {
    let mut unused = 0;
    for (number, record) in book.records.iter().enumerate() {
        let size = match record.mark {
            Mark::Cy => usize::from(record.fields[2]),
            _ => continue,
        };
        if size.is_power_of_two() {
            continue;
        }
        let stored = nodes
            .iter()
            .filter(|node| usize::from(node.record) == number)
            .count();
        // Beside the recipe each lowering stores the arguments' pair and a comp.
        let recipe = 12 * (size.ilog2() + size.count_ones() - 1) as usize;
        unused += 12 * (stored / (recipe + 2));
    }
    unused
}
