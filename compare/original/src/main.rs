//! `original [--symbols] < book`: the listing of what the original lowers a book to.

use std::io::{self, Read, Write};
use std::process::ExitCode;

use original::{listing, lower, Answer};

/// More constructions than any table that can be numbered comes from.
const MOST: usize = 1 << 20;

fn main() -> io::Result<ExitCode> {
    let symbols = std::env::args().skip(1).any(|word| word == "--symbols");
    let mut book = Vec::new();
    io::stdin().read_to_end(&mut book)?;
    let (text, status) = match lower(&book, symbols, MOST) {
        Some(Answer::Nodes { nodes, .. }) => (listing(&nodes), 0),
        Some(Answer::Undefined { record }) => (format!("refused 10 at {record}\n"), 0),
        Some(Answer::TooMany) => ("too many nodes\n".to_string(), 1),
        None => ("no checkout of the original\n".to_string(), 2),
    };
    io::stdout().write_all(text.as_bytes())?;
    Ok(ExitCode::from(status))
}
