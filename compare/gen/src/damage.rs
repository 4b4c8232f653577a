//! Damage to books: bytes flipped, cut, added; fields moved to other numbers
//! of their kind, which READ mostly lets through and CHECK must judge.

use crate::rng::Rng;
use crate::Case;

/// A mark's fields, a letter each: before its count, in a row's entry, after
/// the row. A mark with no row has no count.
const LAYOUTS: [(&str, &str, &str, &str); 37] = [
    ("tu", "", "", ""),
    ("ts", "tt", "", ""),
    ("tp", "tt", "", ""),
    ("vu", "t", "", ""),
    ("vl", "tv", "", ""),
    ("vr", "tv", "", ""),
    ("vp", "tvv", "", ""),
    ("pi", "n", "", ""),
    ("pn", "", "", ""),
    ("pt", "", "p", ""),
    ("ec", "tv", "", ""),
    ("ew", "tn", "", ""),
    ("ev", "tn", "", ""),
    ("et", "t", "e", ""),
    ("el", "t#", "e", ""),
    ("e0", "te", "", ""),
    ("e1", "te", "", ""),
    ("en", "t##", "e", ""),
    ("eb", "t", "s", "e"),
    ("sa", "pe", "", ""),
    ("se", "e", "", ""),
    ("em", "tepepe", "", ""),
    ("eh", "te", "pe", ""),
    ("cj", "tn#", "e", ""),
    ("cl", "tne", "", ""),
    ("cr", "tne", "", ""),
    ("cd", "tne", "", ""),
    ("ca", "tne", "", ""),
    ("cp", "tn", "", ""),
    ("cn", "te", "", ""),
    ("ck", "te", "", ""),
    ("cf", "tf", "e", ""),
    ("cq", "tf#ee", "", ""),
    ("cy", "tf#ee", "", ""),
    ("cw", "tf#ee", "", ""),
    ("ch", "tn", "#e", ""),
    ("fn", "t", "nt", "e"),
];

/// A field: where its two bytes are, what it names, in which record.
struct Field {
    at: usize,
    kind: char,
    record: usize,
}

/// The kind that a mark's record is of, in `LAYOUTS`' letters.
fn kind_of(mark: &str) -> char {
    match mark {
        "fn" => 'f',
        _ if mark.starts_with('c') => 'e',
        _ => mark.chars().next().expect("a mark has two letters"),
    }
}

fn word(book: &[u8], at: usize) -> Option<usize> {
    let bytes = book.get(at..at + 2)?;
    Some(usize::from(u16::from_le_bytes([bytes[0], bytes[1]])))
}

/// Every field of a book, and each record's kind; nothing where the bytes are
/// no whole records.
fn fields(book: &[u8]) -> Option<(Vec<Field>, Vec<char>)> {
    let (mut fields, mut kinds, mut at) = (Vec::new(), Vec::new(), 0);
    while at < book.len() {
        let mark = std::str::from_utf8(book.get(at..at + 2)?).ok()?;
        let (_, head, row, tail) = *LAYOUTS.iter().find(|layout| layout.0 == mark)?;
        at += 2;
        let mut letters = head.to_string();
        if !row.is_empty() {
            let count = word(book, at + 2 * head.len())?;
            letters = format!("{head}#{}{tail}", row.repeat(count));
        }
        if at + 2 * letters.len() > book.len() {
            return None;
        }
        for kind in letters.chars() {
            fields.push(Field {
                at,
                kind,
                record: kinds.len(),
            });
            at += 2;
        }
        kinds.push(kind_of(mark));
    }
    (!fields.is_empty()).then_some((fields, kinds))
}

fn set(book: &mut [u8], at: usize, number: usize) {
    book[at..at + 2].copy_from_slice(&(number as u16).to_le_bytes());
}

/// A field gets another number of its kind, mostly an earlier record's.
fn move_field(book: &mut [u8], rng: &mut Rng) -> Option<()> {
    let (fields, kinds) = fields(book)?;
    let field = rng.pick(&fields);
    let like: Vec<usize> = (0..field.record)
        .filter(|&r| kinds[r] == field.kind)
        .collect();
    let number = match like.is_empty() || rng.chance(1, 12) {
        true => *rng.pick(&[0, 1, 2, 3, 4, 8, 255, 256, 257, 65_535]),
        false => *rng.pick(&like),
    };
    set(book, field.at, number);
    Some(())
}

/// Two fields of one kind change places: each expression is still named once.
fn swap_fields(book: &mut [u8], rng: &mut Rng) -> Option<()> {
    let (fields, _) = fields(book)?;
    let one = rng.pick(&fields);
    let like: Vec<&Field> = fields
        .iter()
        .filter(|other| other.kind == one.kind)
        .collect();
    let other = rng.pick(&like);
    let (a, b) = (word(book, one.at)?, word(book, other.at)?);
    set(book, one.at, b);
    set(book, other.at, a);
    Some(())
}

/// One or two fields; where a count has moved, the book may be none after it,
/// and then stays as it is.
fn move_some(book: &mut [u8], rng: &mut Rng) -> Option<()> {
    for _ in 0..rng.within(1, 2) {
        match rng.chance(1, 2) {
            true => move_field(book, rng)?,
            false => swap_fields(book, rng)?,
        }
    }
    Some(())
}

/// Damage to bytes, wherever they are.
pub(crate) fn strike(book: &mut Vec<u8>, rng: &mut Rng) {
    for _ in 0..rng.within(1, 3) {
        if book.is_empty() {
            return;
        }
        let at = rng.below(book.len());
        match rng.below(5) {
            0 => book[at] ^= 1 << rng.below(8),
            1 => book[at] = rng.below(256) as u8,
            2 => book.truncate(at),
            3 => book.insert(at, rng.below(256) as u8),
            _ => {
                let end = (at + rng.within(1, 12)).min(book.len());
                book.drain(at..end);
            }
        }
    }
}

/// The book with fields moved: mostly still one that READ accepts.
pub fn moved(case: &Case, seed: u64) -> Case {
    let mut rng = Rng::new("moved", seed);
    let mut book = case.book.clone();
    let _ = move_some(&mut book, &mut rng);
    Case {
        label: format!("{}, moved {seed}", case.label),
        book,
        witnesses: case.witnesses.clone(),
    }
}

/// The book with bytes struck: mostly one that READ refuses.
pub fn struck(case: &Case, seed: u64) -> Case {
    let mut rng = Rng::new("struck", seed);
    let mut book = case.book.clone();
    strike(&mut book, &mut rng);
    Case {
        label: format!("{}, struck {seed}", case.label),
        book,
        witnesses: case.witnesses.clone(),
    }
}
