//! RUN in Rattle, called as the plug-in's host calls it, against the model.

use gen::rng::Rng;
use gen::stock::{bytes, Table};
use gen::{damage, edges, hostile, systematic, tables, typed, Case};
use model::book::{self, Kind};
use model::lower::lower;
use model::lower::node::UNIT;
use model::run::{run_within, Outcome};

use crate::service::{least_room, Answer, Service, FULL, LONGER};

/// A run of more steps is left out: RUN itself has no limit, and a test has.
const STEPS: u64 = 300_000;

/// How many rooms below the least that is enough are tried one by one in a
/// table made by hand: as many as a jet stores cells.
const CLOSE: usize = 26;

/// How a call ended.
#[derive(Clone, Copy, PartialEq, Eq)]
pub enum End {
    Value,
    Failed,
    Refused(u32),
}

/// Each way in which a run can end: READ's refusals are passed on.
pub fn ends() -> impl Iterator<Item = End> {
    let refusals = (1..=9).chain(15..=20).map(End::Refused);
    [End::Value, End::Failed].into_iter().chain(refusals)
}

impl End {
    pub fn of(answer: &Answer) -> End {
        match (answer.number, answer.count) {
            (0, 0) => End::Failed,
            (0, _) => End::Value,
            (number, _) => End::Refused(number),
        }
    }

    /// Of a call that does not fail.
    pub fn of_number(number: u32) -> End {
        match number {
            0 => End::Value,
            _ => End::Refused(number),
        }
    }

    pub fn tell(self) -> String {
        match self {
            End::Value => "an answer".to_string(),
            End::Failed => "FAILED".to_string(),
            End::Refused(number) => number.to_string(),
        }
    }
}

/// Tables of one sort, made by number.
pub struct Family {
    pub count: usize,
    pub table: Box<dyn Fn(usize) -> Table + Sync>,
    /// Whether every room close below the least that is enough is tried, if
    /// the book's values fit in it.
    pub close: bool,
}

impl Family {
    fn new(count: usize, table: impl Fn(u64) -> Table + Sync + 'static) -> Family {
        Family {
            count,
            table: Box::new(move |number| table(number as u64)),
            close: false,
        }
    }
}

/// What a book lowers to; where it is refused, one node that RUN never reaches
/// or gives unit for.
fn lowered(mut case: Case, symbols: bool) -> Table {
    let mut nodes = vec![0; FULL];
    let count = lower(&case.book, symbols, &mut nodes).unwrap_or(0);
    nodes.truncate(5 * count);
    if count == 0 {
        nodes = bytes(&[(UNIT, 0, 0)]);
    }
    case.label = format!("{}, symbols {symbols}", case.label);
    Table {
        case,
        count: nodes.len() as u32 / 5,
        nodes,
    }
}

/// A table that runs: a random one, or what a typed book lowers to. One that
/// is to have witnesses is the next that has some.
fn whole(seed: u64, witnessed: bool) -> Table {
    let made = |seed: u64| match seed % 3 {
        0 => tables::random(seed),
        _ => lowered(typed::book(seed), seed % 2 == 1),
    };
    (seed..)
        .map(made)
        .find(|table| !witnessed || !table.case.witnesses.is_empty())
        .expect("some table has witnesses")
}

/// A damaged book beside the nodes of the whole one.
fn beside_damaged(seed: u64) -> Table {
    let mut table = lowered(typed::book(seed), false);
    table.case = match seed % 4 {
        0 => damage::moved(&table.case, seed),
        _ => damage::struck(&table.case, seed),
    };
    table
}

/// Every table made by hand, every hostile book, and as many of the other sorts
/// as `some` says.
pub fn families(some: usize) -> Vec<Family> {
    let (hand, hostile, systematic) = (edges::all(), hostile::all(), systematic::all());
    let spread = some.min(systematic.len());
    vec![
        Family {
            count: hand.len(),
            table: Box::new(move |number| hand[number].clone()),
            close: true,
        },
        Family::new(2 * hostile.len(), move |number| {
            lowered(hostile[number as usize / 2].clone(), number % 2 == 1)
        }),
        Family::new(spread, move |number| {
            let place = number as usize * systematic.len() / spread;
            lowered(systematic[place].clone(), number % 2 == 1)
        }),
        Family::new(2 * some, |seed| {
            lowered(typed::book(seed / 2), seed % 2 == 1)
        }),
        Family::new(3 * some, tables::random),
        Family::new(2 * some, tables::loose),
        Family::new(3 * some, |seed| tables::struck(&whole(seed, false), seed)),
        Family::new(2 * some, |seed| {
            tables::struck_witnesses(&whole(seed, true), seed)
        }),
        Family::new(some, beside_damaged),
    ]
}

/// The model's answer in cells of `length` bytes, if it takes few enough steps.
pub fn modelled(given: &Table, length: usize) -> Option<Answer> {
    let mut cells = vec![0xa5; length];
    let Case {
        book, witnesses, ..
    } = &given.case;
    let outcome = run_within(
        book,
        witnesses,
        &given.nodes,
        given.count,
        &mut cells,
        STEPS,
    )?;
    let both = outcome.map(|outcome| match outcome {
        Outcome::Value { cell, count } => (count.into(), cell.into()),
        Outcome::Failed => (0, 0),
    });
    Some(Answer::new(both, cells))
}

/// The least room in which the model does not say that there is none, if there
/// is one. A value's count is that room.
fn enough_room(given: &Table, ample: &Answer) -> Option<usize> {
    let fits = |room| modelled(given, 5 * room).is_none_or(|answer| answer.number != 18);
    match End::of(ample) {
        End::Value => Some(ample.count as usize),
        End::Refused(18) => None,
        _ => least_room(fits),
    }
}

/// How many cells there are before a run.
fn initial_cells(given: &Table) -> usize {
    let Ok(book) = book::read(&given.case.book) else {
        return 0;
    };
    let value = |record: &&book::Record| record.mark.kind() == Kind::Value;
    1 + book.records.iter().filter(value).count()
}

/// The lengths of cells that a table is tried in: more than is used, just that,
/// a byte less, less by chance; at times full room, a cell less, and none.
fn lengths(given: &Table, ample: &Answer, close: bool) -> Vec<usize> {
    let mut rng = Rng::new(&given.case.label, 0);
    let Some(room) = enough_room(given, ample) else {
        return vec![FULL, LONGER, rng.below(FULL), 0];
    };
    let exact = 5 * room;
    let mut lengths = vec![exact, exact + rng.within(1, 40)];
    if exact > 0 {
        lengths.extend([exact - 1, rng.below(exact)]);
    }
    if rng.chance(1, 4) {
        lengths.extend([*rng.pick(&[FULL, LONGER]), exact - 5.min(exact), 0]);
    }
    if close {
        let least = initial_cells(given).max(room.saturating_sub(CLOSE));
        lengths.extend((least..room).map(|room| 5 * room));
    }
    lengths
}

/// RUN in Rattle on one table in each length of cells is the model's: how the
/// calls ended; none is made where the model takes too many steps.
pub fn agrees(service: &Service, given: &Table, close: bool) -> Result<Vec<End>, String> {
    let Some(ample) = modelled(given, FULL) else {
        return Ok(Vec::new());
    };
    let mut ends = Vec::new();
    for length in lengths(given, &ample, close) {
        let ours = modelled(given, length).expect("less room takes no more steps");
        let theirs = service.run(given, length)?;
        theirs
            .is_model(&ours)
            .map_err(|why| format!("{length} bytes of cells: {why}"))?;
        ends.push(End::of(&theirs));
    }
    Ok(ends)
}
