//! Demand 3, tried on the model: a typed book's lowered run against its source
//! meaning, with and without symbols.

use std::collections::HashSet;
use std::rc::Rc;

use gen::Case;
use model::book::{self, Book, Mark};
use model::check;
use model::lower::lower;
use model::meaning::{mean, Meaning, Premise, Tree, Value};
use model::run::{run_within, Outcome};

/// What became of one book.
#[derive(Clone, Copy, PartialEq, Eq)]
pub enum Verdict {
    Value,
    Failed,
    /// LOWER refuses with 11 or 12.
    NotLowered,
    /// A run refuses with 16 or 18.
    NoRoom,
    /// A hash is reached: RUN refuses with 20.
    Hash,
    /// More steps than a test has time for.
    Long,
}

const STEPS: u64 = 3_000_000;

/// The lowered run agrees with the source meaning, or how it does not.
pub fn agrees(case: &Case) -> Result<Verdict, String> {
    check::check(&case.book).map_err(|refusal| format!("CHECK: {refusal:?}"))?;
    let book = book::read(&case.book).expect("CHECK has read it");
    let meaning = match mean(&book, &case.witnesses, STEPS) {
        Ok(meaning) => Some(meaning),
        Err(Premise::Hash(_)) => None,
        Err(Premise::Steps) => return Ok(Verdict::Long),
        Err(Premise::Witness(record)) => return Err(format!("no witness for record {record}")),
        Err(Premise::Shape(record)) => {
            return Err(format!("a value of another shape at record {record}"))
        }
    };
    let plain = one(case, &book, false, &meaning)?;
    let symbols = one(case, &book, true, &meaning)?;
    // Symbols take nodes, depth and cells: they may run short alone.
    let short = |verdict| {
        matches!(
            verdict,
            Verdict::NotLowered | Verdict::NoRoom | Verdict::Long
        )
    };
    if plain != symbols && !short(symbols) {
        return Err("with symbols it ends otherwise".to_string());
    }
    Ok(plain)
}

fn one(
    case: &Case,
    book: &Book,
    symbols: bool,
    meaning: &Option<Meaning>,
) -> Result<Verdict, String> {
    let mut nodes = vec![0; 5 * 65_535];
    let count = match lower(&case.book, symbols, &mut nodes) {
        Ok(count) => count,
        Err(refusal) if matches!(refusal.number, 11 | 12) => return Ok(Verdict::NotLowered),
        Err(refusal) => return Err(format!("LOWER: {refusal:?}")),
    };
    let mut cells = vec![0; 5 * 65_535];
    let ran = run_within(
        &case.book,
        &case.witnesses,
        &nodes,
        count as u32,
        &mut cells,
        STEPS,
    );
    match (ran, meaning) {
        (None, _) => Ok(Verdict::Long),
        (Some(Err(refusal)), _) if matches!(refusal.number, 16 | 18) => Ok(Verdict::NoRoom),
        (Some(Err(refusal)), None) if refusal.number == 20 => Ok(Verdict::Hash),
        (Some(Err(refusal)), _) => Err(format!("RUN: {refusal:?}")),
        (Some(Ok(Outcome::Failed)), Some(Meaning::Failed)) => Ok(Verdict::Failed),
        (Some(Ok(Outcome::Value { cell, .. })), Some(Meaning::Value(value))) => {
            let root = &book.records[book.records.len() - 1];
            if !reads(&cells, cell, value, &mut HashSet::new()) {
                return Err("RUN gives another value".to_string());
            }
            if !is_of(book, value, root.fields[0], &mut HashSet::new()) {
                return Err("the value is not of the root's type".to_string());
            }
            Ok(Verdict::Value)
        }
        (Some(Ok(Outcome::Failed)), _) => Err("RUN fails, the source does not".to_string()),
        (Some(Ok(Outcome::Value { .. })), _) => {
            Err("RUN gives a value, the source does not".to_string())
        }
    }
}

/// Holds the source meaning of each case of the program `meaning_vectors`, and
/// its lowered runs, to the outcome that was worked out by hand. Gives how many
/// cases there are; the program says how they are written.
pub fn replay(mut cases: &[u8]) -> Result<usize, String> {
    let mut count = 0;
    while !cases.is_empty() {
        let head = cases.get(..6).ok_or("the cases are cut")?;
        let size = |at: usize| usize::from(u16::from_le_bytes([head[at], head[at + 1]]));
        let (book, witnesses) = (6 + size(0), 6 + size(0) + size(2));
        let end = witnesses + size(4);
        let whole = cases.get(..end).ok_or("the cases are cut")?;
        let case = Case {
            label: format!("case {count}"),
            book: whole[6..book].to_vec(),
            witnesses: whole[book..witnesses].to_vec(),
        };
        ends(&case, &whole[witnesses..]).map_err(|why| format!("{}: {why}", case.label))?;
        cases = &cases[end..];
        count += 1;
    }
    Ok(count)
}

/// Whether a case ends as is due: with a value's kinds, or none for a failure.
fn ends(case: &Case, due: &[u8]) -> Result<(), String> {
    let book = book::read(&case.book).map_err(|refusal| format!("READ: {refusal:?}"))?;
    let mut kinds = Vec::new();
    match mean(&book, &case.witnesses, STEPS) {
        Ok(Meaning::Value(value)) => spell(&value, &mut kinds),
        Ok(Meaning::Failed) => {}
        Err(premise) => return Err(format!("{premise:?}")),
    }
    if kinds != due {
        return Err(format!("the source means {kinds:?}, not {due:?}"));
    }
    match agrees(case)? {
        Verdict::Value | Verdict::Failed => Ok(()),
        _ => Err("the lowered run does not end".to_string()),
    }
}

/// The kinds of a value's parts, the whole before its parts, left before right.
fn spell(value: &Value, kinds: &mut Vec<u8>) {
    match &**value {
        Tree::Unit => kinds.push(1),
        Tree::Left(inner) => {
            kinds.push(2);
            spell(inner, kinds);
        }
        Tree::Right(inner) => {
            kinds.push(3);
            spell(inner, kinds);
        }
        Tree::Pair(a, b) => {
            kinds.push(4);
            spell(a, kinds);
            spell(b, kinds);
        }
    }
}

fn part(cells: &[u8], cell: u16, at: usize) -> u16 {
    let from = 5 * usize::from(cell) + at;
    u16::from_le_bytes([cells[from], cells[from + 1]])
}

/// Whether the value is what is read back from the cell. What was seen once is
/// not walked again: a shared value may be wider than any table.
fn reads(cells: &[u8], cell: u16, value: &Value, seen: &mut HashSet<(u16, *const Tree)>) -> bool {
    if !seen.insert((cell, Rc::as_ptr(value))) {
        return true;
    }
    let kind = cells[5 * usize::from(cell)];
    match (&**value, kind) {
        (Tree::Unit, 1) => true,
        (Tree::Left(inner), 2) | (Tree::Right(inner), 3) => {
            reads(cells, part(cells, cell, 1), inner, seen)
        }
        (Tree::Pair(a, b), 4) => {
            reads(cells, part(cells, cell, 1), a, seen)
                && reads(cells, part(cells, cell, 3), b, seen)
        }
        _ => false,
    }
}

/// Whether the value is of the type record.
fn is_of(book: &Book, value: &Value, ty: u16, seen: &mut HashSet<(u16, *const Tree)>) -> bool {
    if !seen.insert((ty, Rc::as_ptr(value))) {
        return true;
    }
    let record = &book.records[usize::from(ty)];
    match (&**value, record.mark) {
        (Tree::Unit, Mark::Tu) => true,
        (Tree::Left(inner), Mark::Ts) => is_of(book, inner, record.fields[0], seen),
        (Tree::Right(inner), Mark::Ts) => is_of(book, inner, record.fields[1], seen),
        (Tree::Pair(a, b), Mark::Tp) => {
            is_of(book, a, record.fields[0], seen) && is_of(book, b, record.fields[1], seen)
        }
        _ => false,
    }
}
