//! READ, CHECK, LOWER and RUN in Rattle on inputs at random, against the model.

use gen::fuzz::{input, Input};
use gen::rng::Rng;
use gen::stock::Table;
use gen::tables;

use crate::library;
use crate::runs::{self, End};
use crate::service::{Answer, Service, FULL, LONGER};

/// Each call, and the numbers that it can answer beside READ's.
const CALLS: [(&str, &[u32]); 4] = [
    ("READ", &[]),
    ("CHECK", &[10, 13, 14]),
    ("LOWER", &[10, 11, 12]),
    ("RUN", &[15, 16, 17, 18, 19, 20]),
];

/// How the calls on one input ended, each under its place in `CALLS`; nothing
/// of a run that takes the model too many steps.
pub type Ends = Vec<(usize, End)>;

/// The length of a table of which so many bytes would do: about that, at times
/// as long as can be, or none.
fn length(rng: &mut Rng, exact: usize) -> usize {
    match rng.below(32) {
        0 => FULL,
        1 => LONGER,
        2..=3 => 0,
        4..=11 => exact,
        12..=15 => exact.saturating_sub(1),
        16..=19 => exact.saturating_sub(5),
        20..=23 => rng.below(exact + 1),
        _ => exact + rng.within(1, 200),
    }
}

/// LOWER, in a table about as long as is needed, and what it gives in a full
/// one.
fn lower(service: &Service, book: &[u8], rng: &mut Rng, ends: &mut Ends) -> Result<Answer, String> {
    let symbols = rng.chance(1, 2);
    let ample = library::modelled(book, symbols, FULL);
    let length = match ample.number {
        0 => length(rng, 5 * ample.count as usize),
        _ => length(rng, 100),
    };
    let lowered = service.lower(book, symbols, length)?;
    let ours = library::modelled(book, symbols, length);
    lowered
        .is_model(&ours)
        .map_err(|why| format!("LOWER, symbols {symbols}, {length} bytes: {why}"))?;
    ends.push((2, End::of_number(lowered.number)));
    Ok(ample)
}

/// RUN, in cells about as long as is needed.
fn run(service: &Service, given: &Table, rng: &mut Rng, ends: &mut Ends) -> Result<(), String> {
    let Some(ample) = runs::modelled(given, FULL) else {
        return Ok(());
    };
    let enough = match ample.count as usize {
        0 => rng.within(1, 60),
        count => count,
    };
    let length = length(rng, 5 * enough);
    let ours = runs::modelled(given, length).expect("less room takes no more steps");
    let ran = service.run(given, length)?;
    ran.is_model(&ours)
        .map_err(|why| format!("RUN, {length} bytes of cells: {why}"))?;
    ends.push((3, End::of(&ran)));
    Ok(())
}

/// All calls on one input are the model's.
fn calls(service: &Service, given: Input, number: u64) -> Result<Ends, String> {
    let mut rng = Rng::new("lengths", number);
    let (mut table, mut ends) = (given.table, Ends::new());
    if given.book {
        let checked = library::judges(service, &table.case)?;
        ends.push((0, End::of_number(if checked < 10 { checked } else { 0 })));
        ends.push((1, End::of_number(checked)));
        let lowered = lower(service, &table.case.book, &mut rng, &mut ends)?;
        if given.lowered && lowered.number == 0 {
            table.count = lowered.count;
            table.nodes = lowered.table[..5 * lowered.count as usize].to_vec();
        }
        if rng.chance(1, 4) {
            table = tables::struck(&table, number);
        }
    }
    run(service, &table, &mut rng, &mut ends)?;
    Ok(ends)
}

/// The input of a number: how its calls ended, or how one differs.
pub fn agrees(service: &Service, number: u64) -> Result<Ends, String> {
    let given = input(number);
    let label = given.table.case.label.clone();
    calls(service, given, number).map_err(|why| format!("input {number}, {label}: {why}"))
}

/// How often each call ended in which way.
#[derive(Default)]
pub struct Tally(Vec<(usize, End, usize)>);

impl Tally {
    pub fn add(&mut self, ends: &[(usize, End)]) {
        for &(call, end) in ends {
            match self
                .0
                .iter_mut()
                .find(|seen| (seen.0, seen.1) == (call, end))
            {
                Some(seen) => seen.2 += 1,
                None => self.0.push((call, end, 1)),
            }
        }
    }

    fn count(&self, call: usize, end: End) -> usize {
        let seen = self.0.iter().find(|seen| (seen.0, seen.1) == (call, end));
        seen.map_or(0, |seen| seen.2)
    }

    /// A line for each call. Of `many` inputs, every number that a call can
    /// answer was met.
    pub fn lines(&self, many: bool) -> Result<Vec<String>, String> {
        let line = |(call, (name, own)): (usize, &(&str, &[u32]))| {
            let refusals = (1..=9).chain(own.iter().copied()).map(End::Refused);
            let failed = (*name == "RUN").then_some(End::Failed);
            let ends = [End::Value].into_iter().chain(failed).chain(refusals);
            let tell = |end: End| match self.count(call, end) {
                0 if many => Err(format!("{name} never ends in {}", end.tell())),
                count => Ok(format!("{} {count}", end.tell())),
            };
            let told: Vec<String> = ends.map(tell).collect::<Result<_, _>>()?;
            Ok(format!("{name}: {}", told.join(", ")))
        };
        CALLS.iter().enumerate().map(line).collect()
    }
}
