//! The model on damaged and hostile books: it answers, in time, and leaves a
//! refused call's table all zero.

use std::time::{Duration, Instant};

use gen::Case;
use model::lower::lower;
use model::run::run_within;
use model::{book, check, Refusal};

/// No book hangs. The limit is wide, so that a busy machine does not fail a
/// test; how long the dearest book took is reported.
const TIME: Duration = Duration::from_secs(60);

/// A table that holds something before it is lent.
fn lent(length: usize) -> Vec<u8> {
    vec![0xa5; length]
}

fn zeros(table: &[u8], what: &str) -> Result<(), String> {
    match table.iter().all(|&byte| byte == 0) {
        true => Ok(()),
        false => Err(format!("{what} is not all zero")),
    }
}

/// READ, CHECK, LOWER and RUN on one book: the refusals of CHECK and LOWER, and
/// how long it took.
pub fn ends(case: &Case) -> Result<(Vec<Refusal>, Duration), String> {
    let began = Instant::now();
    let read = book::read(&case.book).err();
    let mut refusals = Vec::from_iter(check::check(&case.book).err());
    if read.is_some() && read != refusals.first().copied() {
        return Err("CHECK does not pass READ's refusal on".to_string());
    }
    for symbols in [false, true] {
        refusals.extend(lower_and_run(case, symbols)?);
    }
    match began.elapsed() {
        spent if spent > TIME => Err(format!("took {} ms", spent.as_millis())),
        spent => Ok((refusals, spent)),
    }
}

/// LOWER's refusal, or a run of what it stored.
fn lower_and_run(case: &Case, symbols: bool) -> Result<Option<Refusal>, String> {
    let mut nodes = lent(5 * 65_535 + 3);
    let count = match lower(&case.book, symbols, &mut nodes) {
        Ok(count) => count,
        Err(refusal) => return zeros(&nodes, "a refused LOWER's table").map(|()| Some(refusal)),
    };
    zeros(&nodes[5 * count..], "the table behind the nodes")?;
    let mut cells = lent(5 * 2_000 + 1);
    let (table, steps) = (count as u32, 200_000);
    let ran = run_within(
        &case.book,
        &case.witnesses,
        &nodes,
        table,
        &mut cells,
        steps,
    );
    if matches!(ran, Some(Err(_))) {
        zeros(&cells, "a refused RUN's table")?;
    }
    Ok(None)
}
