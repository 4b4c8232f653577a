//! READ, CHECK and LOWER in Rattle, called from C, and what the program
//! `lowerbook` prints: against the model, and against the original where there
//! is a checkout.

use std::io::Write;

use gen::Case;
use model::book;
use model::check::check;
use model::lower::{lower, trace};
use model::Refusal;

use crate::nodes::ROOM;
use crate::service::{least_room, start, Answer, Service, FULL, LONGER};

/// The bytes of `lowerbook`'s table.
const LOWERBOOK: usize = 5 * 13_000;

/// The model's answer in a table of `length` bytes.
pub fn modelled(book: &[u8], symbols: bool, length: usize) -> Answer {
    let mut table = vec![0xa5; length];
    let count = lower(book, symbols, &mut table);
    Answer::new(count.map(|count| (count as u32, 0)), table)
}

/// The least room in which the model does not say that there is none, if there
/// is one: where nodes are stored before a refusal, they need room too.
fn enough_room(bytes: &[u8], symbols: bool) -> Option<usize> {
    let book = book::read(bytes).ok()?;
    least_room(|room| !matches!(trace(&book, symbols, room), Err(refusal) if refusal.number == 11))
}

/// The lengths of tables that a book is tried in: full room, more than that,
/// and where room matters all about the least that is enough.
fn lengths(bytes: &[u8], symbols: bool) -> Vec<usize> {
    let exact = match enough_room(bytes, symbols) {
        Some(room) => 5 * room,
        None => return vec![FULL, LONGER, 38, 0],
    };
    let mut lengths = vec![FULL, exact, exact + 3];
    if exact > 0 {
        lengths.extend([exact - 1, exact - 5, 0]);
    }
    lengths.dedup();
    lengths
}

/// READ and CHECK in Rattle on one book are the model's: CHECK's number.
pub fn judges(service: &Service, case: &Case) -> Result<u32, String> {
    let ours = |records: Result<usize, Refusal>| {
        Answer::new(records.map(|records| (records as u32, 0)), Vec::new())
    };
    let read = book::read(&case.book).map(|book| book.records.len());
    service
        .read(&case.book)?
        .is_model(&ours(read))
        .map_err(|why| format!("READ: {why}"))?;
    let checked = service.check(&case.book)?;
    checked
        .is_model(&ours(check(&case.book)))
        .map_err(|why| format!("CHECK: {why}"))?;
    Ok(checked.number)
}

/// What was seen of one book.
#[derive(Default)]
pub struct Seen {
    /// The numbers of the answers.
    pub numbers: Vec<u32>,
    /// Whether the original was asked too.
    pub original: bool,
}

/// LOWER in Rattle on one book, without and with symbols and in each length of
/// table, is the model's, and where the original is asked, the original's.
pub fn agrees(service: &Service, case: &Case, ask: bool) -> Result<Seen, String> {
    let mut seen = Seen::default();
    for symbols in [false, true] {
        for length in lengths(&case.book, symbols) {
            let ours = modelled(&case.book, symbols, length);
            let theirs = service.lower(&case.book, symbols, length)?;
            theirs
                .is_model(&ours)
                .map_err(|why| format!("symbols {symbols}, {length} bytes: {why}"))?;
            seen.numbers.push(theirs.number);
            if ask && length == FULL && matches!(theirs.number, 0 | 10) {
                is_original(case, symbols, &theirs)?;
                seen.original = true;
            }
        }
    }
    Ok(seen)
}

/// The original's nodes, or its undefined variable.
fn is_original(case: &Case, symbols: bool, lowered: &Answer) -> Result<(), String> {
    let same = match original::lower(&case.book, symbols, 40 * ROOM) {
        Some(original::Answer::Nodes { nodes, .. }) => {
            lowered.number == 0 && lowered.table[..5 * lowered.count as usize] == nodes
        }
        Some(original::Answer::Undefined { record }) => {
            lowered.number == 10 && lowered.place == u32::from(record)
        }
        Some(original::Answer::TooMany) | None => false,
    };
    match same {
        true => Ok(()),
        false => Err(format!("symbols {symbols}: not what the original gives")),
    }
}

/// What `lowerbook` prints for one book is the listing of the original's nodes
/// where it is asked, else of the model's, or the refusal: whether it was one.
pub fn prints(path: &str, case: &Case, ask: bool) -> Result<bool, String> {
    let ours = modelled(&case.book, false, LOWERBOOK);
    let text = match ours.number {
        0 => original::listing(&ours.table[..5 * ours.count as usize]),
        number => format!("refused {number} at {}\n", ours.place),
    };
    if ask && matches!(ours.number, 0 | 10) && original_text(case).as_ref() != Some(&text) {
        return Err("the model's listing is not the original's".to_string());
    }
    let mut child = start(path)?;
    let mut input = child.stdin.take().expect("it is piped");
    input
        .write_all(&case.book)
        .map_err(|error| format!("{path}: {error}"))?;
    drop(input);
    let done = child
        .wait_with_output()
        .map_err(|error| format!("{path}: {error}"))?;
    match done.status.success() && done.stdout == text.as_bytes() {
        true => Ok(ours.number != 0),
        false => Err(format!("{path} prints something else")),
    }
}

fn original_text(case: &Case) -> Option<String> {
    match original::lower(&case.book, false, 40 * ROOM)? {
        original::Answer::Nodes { nodes, .. } => Some(original::listing(&nodes)),
        original::Answer::Undefined { record } => Some(format!("refused 10 at {record}\n")),
        original::Answer::TooMany => None,
    }
}
