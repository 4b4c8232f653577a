//! The original's answers, stored: what a program without the original's text
//! can be held to.
//!
//! An entry: symbols (1 byte, 0 or 1), number (1), place (2), count (2), length
//! of the book (3), the book, the nodes (5 each); low byte first.

use gen::{scoped, systematic, typed, Case};
use model::book;
use model::lower::trace;
use original::Answer;

use crate::nodes::{bytes, ROOM};

/// Small books are stored: a wrong node is seen best where there are few.
const NODES: usize = 260;

/// One stored answer.
struct Entry<'a> {
    symbols: bool,
    number: u8,
    place: u16,
    book: &'a [u8],
    nodes: &'a [u8],
}

/// The books whose answers are stored.
fn sample() -> Vec<Case> {
    let mut cases: Vec<Case> = systematic::all();
    cases.retain(|case| case.book.len() < 400);
    cases.extend((0..220).map(scoped::book));
    cases.extend((0..140).map(typed::book));
    cases
}

/// The original's answers to the sample: the same at any time.
pub fn write() -> Vec<u8> {
    let mut stored = Vec::new();
    for case in sample() {
        for symbols in [false, true] {
            let (number, place, nodes) = match original::lower(&case.book, symbols, 40 * ROOM) {
                Some(Answer::Nodes { nodes, .. }) => (0, 0, nodes),
                Some(Answer::Undefined { record }) => (10, record, Vec::new()),
                _ => continue,
            };
            if nodes.len() > 5 * NODES {
                continue;
            }
            stored.extend([u8::from(symbols), number]);
            stored.extend(place.to_le_bytes());
            stored.extend(((nodes.len() / 5) as u16).to_le_bytes());
            stored.extend(&(case.book.len() as u32).to_le_bytes()[..3]);
            stored.extend(&case.book);
            stored.extend(&nodes);
        }
    }
    stored
}

fn take<'a>(stored: &mut &'a [u8], length: usize) -> Option<&'a [u8]> {
    let part = stored.get(..length)?;
    *stored = &stored[length..];
    Some(part)
}

fn entry<'a>(stored: &mut &'a [u8]) -> Option<Entry<'a>> {
    let head = take(stored, 9)?;
    let count = usize::from(u16::from_le_bytes([head[4], head[5]]));
    let length = u32::from_le_bytes([head[6], head[7], head[8], 0]) as usize;
    Some(Entry {
        symbols: head[0] != 0,
        number: head[1],
        place: u16::from_le_bytes([head[2], head[3]]),
        book: take(stored, length)?,
        nodes: take(stored, 5 * count)?,
    })
}

fn agrees(entry: &Entry) -> bool {
    let Ok(book) = book::read(entry.book) else {
        return false;
    };
    match trace(&book, entry.symbols, ROOM) {
        Ok(nodes) => entry.number == 0 && bytes(&nodes) == entry.nodes,
        Err(refusal) => refusal.number == u16::from(entry.number) && refusal.place == entry.place,
    }
}

/// The model against the stored answers: how many there are.
pub fn replay(mut stored: &[u8]) -> Result<usize, String> {
    let mut count = 0;
    while !stored.is_empty() {
        let entry = entry(&mut stored).ok_or("the stored answers are cut")?;
        if !agrees(&entry) {
            return Err(format!("stored answer {count}: the model gives another"));
        }
        count += 1;
    }
    Ok(count)
}
