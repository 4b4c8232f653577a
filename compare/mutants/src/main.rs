//! Wrong lowerings and wrong runs, each told apart from the model by some
//! generated book or table. If one of them passed for right, the books or the
//! tables would show too little.

use std::panic::{self, UnwindSafe};
use std::process::ExitCode;

use gen::stock::Table;
use gen::{edges, scoped, systematic, tables, typed, Case};
use model::lower::{trace, Stored};
use model::run::{run_within, Outcome};
pub use model::{book, Refusal};

/// What a lowering gives at a room: kind and operands of each node.
type Nodes = Result<Vec<(u8, u16, u16)>, Refusal>;

/// A lowering of a book, with or without symbols, at a room.
type Lower = fn(&book::Book, bool, usize) -> Nodes;

/// What a run gives: its cell and count, or FAILED, with the cells' bytes.
type Ran = (Option<Result<Option<(u16, u16)>, Refusal>>, Vec<u8>);

/// A run of a table in cells of so many bytes.
type Run = fn(&Table, usize) -> Ran;

/// A wrong lowering or run, and what is wrong with it.
pub struct Mutant<F> {
    label: &'static str,
    answer: F,
}

/// No run needs more steps to be told apart.
const STEPS: u64 = 300_000;

macro_rules! nodes {
    ($trace:expr) => {
        $trace.map(|nodes| {
            let node = |node: &_| {
                let Stored {
                    kind, left, right, ..
                } = node;
                (*kind, *left, *right)
            };
            nodes.iter().map(node).collect()
        })
    };
}

macro_rules! wrong {
    ($label:expr, $module:ident) => {
        Mutant {
            label: $label,
            answer: |book, symbols, room| {
                use $module::Stored;
                nodes!($module::trace(book, symbols, room))
            },
        }
    };
}

macro_rules! ran {
    ($run:path, $table:expr, $length:expr) => {{
        let Table { case, nodes, count } = $table;
        let mut cells = vec![0xa5; $length];
        let (book, witnesses) = (&case.book, &case.witnesses);
        let ended = $run(book, witnesses, nodes, *count, &mut cells, STEPS);
        let ended = ended.map(|ended| {
            ended.map(|outcome| match outcome {
                Outcome::Value { cell, count } => Some((cell, count)),
                Outcome::Failed => None,
            })
        });
        (ended, cells)
    }};
}

macro_rules! wrong_run {
    ($label:expr, $module:ident) => {
        Mutant {
            label: $label,
            answer: |table, length| {
                use $module::Outcome;
                ran!($module::run_within, table, length)
            },
        }
    };
}

include!(concat!(env!("OUT_DIR"), "/mutants.rs"));

fn right(book: &book::Book, symbols: bool, room: usize) -> Nodes {
    nodes!(trace(book, symbols, room))
}

fn right_run(table: &Table, length: usize) -> Ran {
    ran!(run_within, table, length)
}

/// Whether a mutant's answer is another. A panic is none: it would be seen
/// without any judge.
fn other<A: PartialEq>(wrong: impl FnOnce() -> A + UnwindSafe, right: &A) -> bool {
    panic::catch_unwind(wrong).is_ok_and(|wrong| wrong != *right)
}

/// A book, with or without symbols, at a room, and what is right there.
struct Trial {
    symbols: bool,
    room: usize,
    right: Nodes,
}

/// Trials with room enough, just enough, and short of the last node or more:
/// a refusal's place is told too.
fn trials(book: &book::Book) -> Vec<Trial> {
    let mut trials = Vec::new();
    for symbols in [false, true] {
        let count = right(book, symbols, 65_535).map_or(0, |nodes| nodes.len());
        let rooms = [65_535, count, count.saturating_sub(1), count / 2];
        trials.extend(rooms.map(|room| Trial {
            symbols,
            room,
            right: right(book, symbols, room),
        }));
    }
    trials
}

/// The wrong lowerings that a book tells apart.
fn told_by_book(case: &Case) -> impl Fn(&Lower) -> bool {
    let book = book::read(&case.book).expect("these books are READ's");
    let trials = trials(&book);
    move |lower| {
        let told = |trial: &Trial| other(|| lower(&book, trial.symbols, trial.room), &trial.right);
        trials.iter().any(told)
    }
}

/// The lengths of cells that a table is tried in: full room, just less than a
/// value uses, and for a small table all rooms near the number of cells that the
/// stock's values take.
fn lengths(table: &Table) -> Vec<usize> {
    let full = 5 * 65_535;
    let mut lengths = vec![full + 5];
    if let (Some(Ok(Some((_, count)))), _) = right_run(table, full) {
        lengths.push(5 * usize::from(count) - 1);
    }
    if table.count < 8 {
        lengths.extend((50..85).map(|room| 5 * room));
    }
    lengths
}

/// The wrong runs that a table tells apart.
fn told_by_table(table: &Table) -> impl Fn(&Run) -> bool + '_ {
    let trials: Vec<(usize, Ran)> = lengths(table)
        .into_iter()
        .map(|length| (length, right_run(table, length)))
        .collect();
    move |run| {
        let mut trials = trials.iter();
        trials.any(|(length, right)| other(|| run(table, *length), right))
    }
}

/// The books, from the shortest on: most mutants need no long one.
fn books() -> Vec<Case> {
    let mut books = systematic::all();
    books.extend((0..400).map(scoped::book));
    books.extend((0..400).map(typed::book));
    books.sort_by_key(|case| case.book.len());
    books
}

/// The tables: those made by hand first, which tell most mutants apart.
fn all_tables() -> Vec<Table> {
    let mut tables = edges::all();
    tables.extend((0..400).map(tables::random));
    tables.extend((0..200).map(tables::loose));
    tables
}

/// The mutants that are still taken for right after all cases.
fn survivors<'a, F, C: AsRef<Case>, T: Fn(&F) -> bool>(
    mutants: &'static [Mutant<F>],
    cases: &'a [C],
    tells: impl Fn(&'a C) -> T,
) -> Vec<&'static str> {
    let mut left: Vec<&Mutant<F>> = mutants.iter().collect();
    for case in cases {
        if left.is_empty() {
            break;
        }
        let told = tells(case);
        left.retain(|mutant| {
            let told = told(&mutant.answer);
            if told {
                let label = &case.as_ref().label;
                println!("mutants: {}: told apart by {label}", mutant.label);
            }
            !told
        });
    }
    left.iter().map(|mutant| mutant.label).collect()
}

/// The survivors of both sorts, which two threads find side by side.
fn all_survivors() -> Vec<&'static str> {
    let sorts: [fn() -> Vec<&'static str>; 2] = [
        || survivors(LOWERINGS, &books(), told_by_book),
        || survivors(RUNS, &all_tables(), told_by_table),
    ];
    let start = |sort| {
        let builder = std::thread::Builder::new().stack_size(256 << 20);
        builder.spawn(sort).expect("a thread starts")
    };
    let left = sorts.map(start);
    left.map(|left| left.join().expect("the cases are made"))
        .concat()
}

fn main() -> ExitCode {
    // A mutant's panic counts for nothing, and is not worth a message.
    panic::set_hook(Box::new(|_| ()));
    let left = all_survivors();
    for label in &left {
        eprintln!("mutants: {label}: no book or table tells it apart");
    }
    println!(
        "mutants: {} wrong lowerings and {} wrong runs, {} not told apart",
        LOWERINGS.len(),
        RUNS.len(),
        left.len(),
    );
    match left.is_empty() && LOWERINGS.len() >= 30 && RUNS.len() >= 30 {
        true => ExitCode::SUCCESS,
        false => ExitCode::FAILURE,
    }
}
