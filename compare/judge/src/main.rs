//! What the judges say of one another.
//!
//!     judge gate [FILE]...    a few thousand books of each sort, and these
//!     judge nightly COUNT     COUNT books of each sort
//!     judge store             writes the original's answers to a sample
//!     judge reads COUNT       writes vectors for READ to standard output
//!     judge checks COUNT      and for CHECK, of COUNT books of each sort
//!     judge library COUNT SERVICE LOWERBOOK
//!                             all calls in Rattle on COUNT books or more of
//!                             each sort, through the program of
//!                             `compare/library`, and `lowerbook` on some

mod answers;
mod demand;
mod fuzz;
mod library;
mod nodes;
mod robust;
mod runs;
mod service;
mod vectors;
mod work;

use std::collections::HashMap;
use std::io::Write;
use std::process::ExitCode;

use gen::{damage, hostile, scoped, systematic, typed, Case};
use model::book;
use model::check::check;
use service::Service;

/// Where the stored answers and the vectors of READ and CHECK are, from this
/// crate.
const ANSWERS: &str = concat!(env!("CARGO_MANIFEST_DIR"), "/../answers");
const READS: &str = concat!(
    env!("CARGO_MANIFEST_DIR"),
    "/../../crates/read_vectors/stdin"
);
const CHECKS: &str = concat!(
    env!("CARGO_MANIFEST_DIR"),
    "/../../crates/check_vectors/stdin"
);

/// The cases whose outcome was worked out by hand.
const MEANINGS: &str = concat!(
    env!("CARGO_MANIFEST_DIR"),
    "/../../crates/meaning_vectors/stdin"
);

/// A comparison of fewer books or tables, or with fewer failures, shows too
/// little.
const BOOKS: usize = 2_000;
const CHECKED: usize = 5_000;
const TABLES: usize = 5_000;
const FAILURES: usize = 200;

/// So many inputs at random meet every refusal; and how many are tried before
/// the first that differs is told.
const MANY: usize = 20_000;
const BATCH: usize = 1_000;

/// Of how many books of each sort `lowerbook`'s listing is compared: it is
/// started afresh for each.
const LISTINGS: usize = 12;

fn say(line: &str) {
    println!("judge: {line}");
}

/// What `judge` says of each of `count` books or tables, or of the first that
/// it finds at fault, with its label.
fn each<C: AsRef<Case>, T: Send>(
    count: usize,
    case: impl Fn(usize) -> C + Sync,
    judge: impl Fn(&C) -> Result<T, String> + Sync,
) -> Result<Vec<T>, String> {
    let answers = work::each(count, |number| {
        let case = case(number);
        judge(&case).map_err(|why| format!("{}: {why}", case.as_ref().label))
    });
    answers.into_iter().collect()
}

/// The book of a number: `fixed` ones first, then those that `more` makes.
fn book_of(fixed: &[Case], number: usize, more: impl Fn(usize) -> Case) -> Case {
    match number.checked_sub(fixed.len()) {
        None => fixed[number].clone(),
        Some(past) => more(past),
    }
}

fn count<T: PartialEq>(all: &[T], one: T) -> usize {
    all.iter().filter(|&each| *each == one).count()
}

fn enough(found: usize, least: usize, what: &str) -> Result<(), String> {
    match found >= least {
        true => Ok(()),
        false => Err(format!("only {found} {what}")),
    }
}

/// The two judges on `given` books, on all systematic ones, and on `some` each
/// of scoped, typed and moved ones.
fn compare_nodes(given: Vec<Case>, some: usize) -> Result<(), String> {
    let fixed = [given, systematic::all()].concat();
    let more = |past: usize| match ((past / 3) as u64, past % 3) {
        (seed, 0) => scoped::book(seed),
        (seed, 1) => typed::book(seed),
        (seed, _) => damage::moved(&scoped::book(seed), seed),
    };
    let case = |number| book_of(&fixed, number, more);
    for symbols in [false, true] {
        let verdicts = each(fixed.len() + 3 * some, case, |case| {
            nodes::compare(case, symbols)
        })?;
        tell_nodes(&verdicts, symbols)?;
    }
    Ok(())
}

fn tell_nodes(verdicts: &[nodes::Verdict], symbols: bool) -> Result<(), String> {
    let unused = |verdict: &&nodes::Verdict| matches!(verdict, nodes::Verdict::Nodes { unused } if *unused > 0);
    let limit = count(verdicts, nodes::Verdict::Limit);
    let not_read = count(verdicts, nodes::Verdict::NotRead);
    let same = verdicts.len() - limit - not_read;
    say(&format!(
        "model and original agree on {same} books {} symbols ({} undefined at the same record, {} with an unused power); {limit} beyond the model's limits, {not_read} damaged beyond READ",
        if symbols { "with" } else { "without" },
        count(verdicts, nodes::Verdict::Undefined),
        verdicts.iter().filter(unused).count(),
    ));
    enough(same, BOOKS, "books compared")
}

/// Demand 3 on all systematic books and `some` typed ones.
fn try_demand(some: usize) -> Result<(), String> {
    let systematic = systematic::all();
    let case = |number| book_of(&systematic, number, |past| typed::book(past as u64));
    let verdicts = each(systematic.len() + some, case, demand::agrees)?;
    let (values, failures) = (
        count(&verdicts, demand::Verdict::Value),
        count(&verdicts, demand::Verdict::Failed),
    );
    say(&format!(
        "the lowered run is the source meaning on {} typed books ({values} values, {failures} failures); {} not lowered, {} short of cells or depth, {} at a hash, {} too long",
        values + failures,
        count(&verdicts, demand::Verdict::NotLowered),
        count(&verdicts, demand::Verdict::NoRoom),
        count(&verdicts, demand::Verdict::Hash),
        count(&verdicts, demand::Verdict::Long),
    ));
    enough(values, BOOKS, "values compared")?;
    enough(failures, FAILURES, "failures compared")
}

/// Damaged and hostile books on the model alone.
fn try_robust(some: usize) -> Result<(), String> {
    let hostile = hostile::all();
    let case = |number| book_of(&hostile, number, |past| vectors::damaged(past as u64));
    let ends = each(hostile.len() + some, case, robust::ends)?;
    let refused = |number: &u16| {
        let mut refusals = ends.iter().flat_map(|(refusals, _)| refusals);
        refusals.any(|refusal| refusal.number == *number)
    };
    if let Some(number) = (1..=14).find(|number| !refused(number)) {
        return Err(format!("no damaged or hostile book is refused by {number}"));
    }
    let longest = ends.iter().map(|(_, spent)| spent.as_millis()).max();
    say(&format!(
        "the model answers {} hostile and {some} damaged books, with every refusal from 1 to 14; the dearest takes {} ms",
        hostile.len(),
        longest.unwrap_or(0),
    ));
    Ok(())
}

/// Every mark occurs in many of the scoped books and many of the typed ones.
fn count_marks(some: usize) -> Result<(), String> {
    let case = |number: usize| match number.checked_sub(some) {
        None => scoped::book(number as u64),
        Some(past) => typed::book(past as u64),
    };
    let books = each(2 * some, case, |case| {
        book::read(&case.book).map_err(|refusal| format!("READ: {refusal:?}"))
    })?;
    let mut least = usize::MAX;
    for books in books.chunks(some) {
        let mut tally: HashMap<_, usize> = HashMap::new();
        for record in books.iter().flat_map(|book| &book.records) {
            *tally.entry(record.mark).or_default() += 1;
        }
        if tally.len() < 37 {
            return Err(format!("only {} of 37 marks occur", tally.len()));
        }
        least = least.min(*tally.values().min().expect("there are marks"));
    }
    say(&format!("each of the 37 marks occurs at least {least} times in {some} scoped books, and in {some} typed ones"));
    Ok(())
}

/// What `judge` says of each hostile book, and of `some` each of systematic,
/// scoped, typed and damaged ones. It is told whether to ask the original, which
/// can't walk what is hostile.
fn each_sort<T: Send>(
    some: usize,
    judge: impl Fn(&Case, bool) -> Result<T, String> + Sync,
) -> Result<Vec<T>, String> {
    let (hostile, systematic) = (hostile::all(), systematic::all());
    let spread = some.min(systematic.len());
    let mut others: Vec<Case> = (0..spread)
        .map(|k| systematic[k * systematic.len() / spread].clone())
        .collect();
    for seed in 0..some as u64 {
        let damaged = vectors::damaged(seed);
        others.extend([scoped::book(seed), typed::book(seed), damaged]);
    }
    let all = |cases: &[Case], ask| {
        let case = |number: usize| cases[number].clone();
        each(cases.len(), case, |case| judge(case, ask))
    };
    let mut said = all(&hostile, false)?;
    said.extend(all(&others, original::HERE)?);
    Ok(said)
}

/// READ and CHECK in Rattle against the model.
fn compare_checks(some: usize, service: &str) -> Result<(), String> {
    let service = Service::new(service)?;
    let cases = vectors::checks(some);
    let case = |number: usize| cases[number].clone();
    let numbers = each(cases.len(), case, |case| library::judges(&service, case))?;
    if let Some(number) = [0, 1, 2, 3, 4, 5, 6, 7, 8, 9, 10, 13, 14]
        .iter()
        .find(|number| !numbers.contains(number))
    {
        return Err(format!("CHECK in Rattle never answers {number}"));
    }
    let calls = service.calls();
    say(&format!(
        "READ and CHECK in Rattle are the model's in {} calls on {} books ({} pass, {} refused by 10, {} by 13, {} by 14); a call takes {} microseconds",
        calls.count,
        numbers.len(),
        count(&numbers, 0),
        count(&numbers, 10),
        count(&numbers, 13),
        count(&numbers, 14),
        calls.mean.as_micros(),
    ));
    enough(numbers.len(), CHECKED, "books compared")
}

/// LOWER in Rattle against both judges.
fn compare_library(some: usize, service: &str) -> Result<(), String> {
    let service = Service::new(service)?;
    let seen = each_sort(some, |case, ask| library::agrees(&service, case, ask))?;
    let met = |number: &u32| seen.iter().any(|seen| seen.numbers.contains(number));
    if let Some(number) = (0..=12).find(|number| !met(number)) {
        return Err(format!("LOWER in Rattle never answers {number}"));
    }
    let calls = service.calls();
    say(&format!(
        "LOWER in Rattle is the model's in {} calls on {} books, with every refusal from 1 to 12, and the original's on {} of these; a call takes {} microseconds",
        calls.count,
        seen.len(),
        seen.iter().filter(|seen| seen.original).count(),
        calls.mean.as_micros(),
    ));
    enough(seen.len(), BOOKS, "books compared")
}

/// RUN in Rattle against the model.
fn compare_runs(some: usize, service: &str) -> Result<(), String> {
    let service = Service::new(service)?;
    let mut seen = Vec::new();
    for family in runs::families(some) {
        let judge = |table: &_| runs::agrees(&service, table, family.close);
        seen.extend(each(family.count, &family.table, judge)?);
    }
    let long = seen.iter().filter(|ends| ends.is_empty()).count();
    let met = seen.concat();
    if let Some(end) = runs::ends().find(|end| !met.contains(end)) {
        return Err(format!("RUN in Rattle never ends in {}", end.tell()));
    }
    let each_end: Vec<String> = runs::ends()
        .map(|end| format!("{} {}", end.tell(), count(&met, end)))
        .collect();
    let calls = service.calls();
    say(&format!(
        "RUN in Rattle is the model's in {} calls on {} tables, {long} too long ones left out; a call takes {} microseconds; how they ended: {}",
        calls.count,
        seen.len() - long,
        calls.mean.as_micros(),
        each_end.join(", "),
    ));
    enough(seen.len() - long, TABLES, "tables compared")
}

/// `some` inputs at random, from a number on.
fn fuzz(some: usize, from: usize, service: &str) -> Result<(), String> {
    let service = Service::new(service)?;
    let (mut tally, mut done) = (fuzz::Tally::default(), 0);
    while done < some {
        let few = BATCH.min(some - done);
        let number = |k: usize| (from + done + k) as u64;
        for ends in work::each(few, |k| fuzz::agrees(&service, number(k))) {
            tally.add(&ends?);
        }
        done += few;
        if some > MANY && done % MANY == 0 {
            eprintln!("judge: {done} inputs");
        }
    }
    let lines = tally.lines(some >= MANY)?;
    let calls = service.calls();
    say(&format!(
        "READ, CHECK, LOWER and RUN in Rattle are the model's on {some} inputs at random from {from} on, in {} calls; a call takes {} microseconds, the longest {} ms; how they ended, by number:",
        calls.count,
        calls.mean.as_micros(),
        calls.longest.as_millis(),
    ));
    lines.iter().for_each(|line| say(line));
    Ok(())
}

/// What `lowerbook` prints, against both judges.
fn compare_listings(some: usize, lowerbook: &str) -> Result<(), String> {
    let refused = each_sort(some, |case, ask| library::prints(lowerbook, case, ask))?;
    say(&format!(
        "lowerbook prints the listing of {} books and the refusal of {}",
        count(&refused, false),
        count(&refused, true),
    ));
    enough(count(&refused, true), some, "refusals printed")
}

fn replay() -> Result<(), String> {
    let read = |path| std::fs::read(path).map_err(|error| format!("{path}: {error}"));
    let answers = answers::replay(&read(ANSWERS)?)?;
    say(&format!(
        "the model gives the original's {answers} stored answers"
    ));
    let reads = vectors::replay(&read(READS)?, vectors::read)?;
    let checks = vectors::replay(&read(CHECKS)?, check)?;
    say(&format!(
        "the model's READ gives {reads} stored vectors, its CHECK {checks}"
    ));
    let meanings = demand::replay(&read(MEANINGS)?)?;
    say(&format!(
        "the source meaning and the lowered runs end as is due in {meanings} cases worked out by hand"
    ));
    Ok(())
}

/// Books from files, each of which CHECK passes.
fn given(paths: &[&str]) -> Result<Vec<Case>, String> {
    let one = |path: &&str| {
        let book = std::fs::read(path).map_err(|error| format!("{path}: {error}"))?;
        check(&book).map_err(|refusal| format!("{path}: {refusal:?}"))?;
        Ok(Case {
            label: path.to_string(),
            book,
            witnesses: Vec::new(),
        })
    };
    paths.iter().map(one).collect()
}

fn judge(paths: &[&str], some: usize) -> Result<(), String> {
    let given = given(paths)?;
    match (original::HERE, original::REVISION_MATCHES) {
        (true, true) => say("the original's text is here, as NOTICE names it"),
        (true, false) => {
            return Err("the checkout is not the revision that NOTICE names".to_string())
        }
        _ => say("no checkout of the original is here: its stored answers are replayed instead"),
    }
    replay()?;
    count_marks(some.min(5_000))?;
    if original::HERE {
        compare_nodes(given, some)?;
    }
    try_demand(some)?;
    try_robust(some)
}

fn store() -> Result<(), String> {
    if !original::HERE || !original::REVISION_MATCHES {
        return Err("no checkout of the revision that NOTICE names".to_string());
    }
    std::fs::write(ANSWERS, answers::write()).map_err(|error| format!("{ANSWERS}: {error}"))
}

fn write(vectors: &[u8]) -> Result<(), String> {
    let mut out = std::io::stdout();
    out.write_all(vectors).map_err(|error| error.to_string())
}

fn write_reads(some: usize) -> Result<(), String> {
    write(&vectors::write(vectors::reads(some), vectors::read))
}

fn write_checks(some: usize) -> Result<(), String> {
    write(&vectors::write(vectors::checks(some), check))
}

fn main() -> ExitCode {
    let words: Vec<String> = std::env::args().skip(1).collect();
    let words: Vec<&str> = words.iter().map(String::as_str).collect();
    let number = |word: &str| {
        word.parse::<usize>()
            .map_err(|_| format!("{word} is no number"))
    };
    let done = match words[..] {
        ["gate", ref paths @ ..] => judge(paths, 4_000),
        ["nightly", some] => number(some).and_then(|some| judge(&[], some)),
        ["store"] => store(),
        ["reads", some] => number(some).and_then(write_reads),
        ["checks", some] => number(some).and_then(write_checks),
        ["library", some, service, lowerbook] => number(some).and_then(|some| {
            compare_checks(some, service)?;
            compare_library(some, service)?;
            compare_runs(some, service)?;
            compare_listings(LISTINGS, lowerbook)
        }),
        ["fuzz", some, from, service] => {
            number(some).and_then(|some| fuzz(some, number(from)?, service))
        }
        _ => Err("usage: judge gate [FILE]... | nightly COUNT | store | reads COUNT | checks COUNT | library COUNT SERVICE LOWERBOOK | fuzz COUNT FROM SERVICE".to_string()),
    };
    match done {
        Ok(()) => ExitCode::SUCCESS,
        Err(why) => {
            eprintln!("judge: {why}");
            ExitCode::FAILURE
        }
    }
}
