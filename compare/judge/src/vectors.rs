//! READ's and CHECK's vectors: those that the project keeps, and new ones for
//! their programs.
//!
//! A vector: number (1 byte), place (2), count (2), length of the book (3), the
//! book; low byte first.

use gen::{damage, hostile, scoped, systematic, typed, Case};
use model::{book, Refusal};

/// Number, place and count of the model's answer, which is how many records
/// there are.
fn answer(records: Result<usize, Refusal>) -> (u8, u16, u16) {
    match records {
        Ok(records) => (0, 0, records as u16),
        Err(refusal) => (refusal.number as u8, refusal.place, 0),
    }
}

/// The model's READ.
pub fn read(bytes: &[u8]) -> Result<usize, Refusal> {
    book::read(bytes).map(|book| book.records.len())
}

/// A call of the model against vectors: how many there are.
pub fn replay(
    mut vectors: &[u8],
    call: impl Fn(&[u8]) -> Result<usize, Refusal>,
) -> Result<usize, String> {
    let mut count = 0;
    while !vectors.is_empty() {
        let head = vectors.get(..8).ok_or("the vectors are cut")?;
        let expected = (
            head[0],
            u16::from_le_bytes([head[1], head[2]]),
            u16::from_le_bytes([head[3], head[4]]),
        );
        let end = 8 + u32::from_le_bytes([head[5], head[6], head[7], 0]) as usize;
        let book = vectors.get(8..end).ok_or("the vectors are cut")?;
        let got = answer(call(book));
        if got != expected {
            return Err(format!("vector {count}: {got:?}, not {expected:?}"));
        }
        vectors = &vectors[end..];
        count += 1;
    }
    Ok(count)
}

/// A damaged book: moved and struck in turn.
pub fn damaged(seed: u64) -> Case {
    let whole = match seed % 4 < 2 {
        true => scoped::book(seed),
        false => typed::book(seed),
    };
    match seed % 2 {
        0 => damage::moved(&whole, seed),
        _ => damage::struck(&whole, seed),
    }
}

/// READ's books: every hostile one, and `count` damaged ones.
pub fn reads(count: usize) -> Vec<Case> {
    let mut cases = hostile::all();
    cases.extend((0..count as u64).map(damaged));
    cases
}

/// CHECK's books: every hostile and systematic one, and `count` each of typed
/// and scoped ones, of both with fields moved, the typed ones twice, and of
/// struck ones.
pub fn checks(count: usize) -> Vec<Case> {
    let mut cases = [hostile::all(), systematic::all()].concat();
    for seed in 0..count as u64 {
        let (typed, scoped) = (typed::book(seed), scoped::book(seed));
        cases.extend([
            damage::moved(&typed, 2 * seed),
            damage::moved(&typed, 2 * seed + 1),
            damage::moved(&scoped, seed),
            damage::struck(&typed, seed),
            typed,
            scoped,
        ]);
    }
    cases
}

/// The vectors of what a call of the model answers to the books.
pub fn write(cases: Vec<Case>, call: impl Fn(&[u8]) -> Result<usize, Refusal>) -> Vec<u8> {
    let mut vectors = Vec::new();
    for case in cases {
        let (number, place, records) = answer(call(&case.book));
        vectors.push(number);
        vectors.extend(place.to_le_bytes());
        vectors.extend(records.to_le_bytes());
        vectors.extend(&(case.book.len() as u32).to_le_bytes()[..3]);
        vectors.extend(&case.book);
    }
    vectors
}
