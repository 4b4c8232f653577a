//! The lowering, where the original's text is there.

use std::panic::resume_unwind;
use std::thread;

use crate::ast::{CoreJetHinter, Program};
use crate::book;
use crate::error::{Diagnostic, Error};
use crate::table;
use crate::Answer;

/// The original calls itself for each nested expression and for each further
/// statement of a block: 4,096 records deep at worst.
const STACK: usize = 256 << 20;

/// A thread for each book, for its stack, and so that what the stand-ins keep
/// for each thread ends with the book.
pub fn lower(book: &[u8], symbols: bool, most: usize) -> Option<Answer> {
    let outcome = thread::scope(|scope| {
        thread::Builder::new()
            .stack_size(STACK)
            .spawn_scoped(scope, || lowered(book, symbols, most))
            .expect("a thread can be had")
            .join()
    });
    match outcome {
        Ok(answer) => Some(answer),
        Err(why) if why.is::<simplicity::Stopped>() => Some(Answer::TooMany),
        Err(why) if why.is::<miniscript::Stopped>() => Some(Answer::TooMany),
        Err(why) => resume_unwind(why),
    }
}

fn lowered(book: &[u8], symbols: bool, most: usize) -> Answer {
    simplicity::set_most(most);
    let hinter = CoreJetHinter::new();
    let made = Program::of_book(&book::records(book), &hinter);
    let compiled = made
        .program
        .compile(made.arguments.clone(), symbols, Box::new(hinter));
    match compiled {
        Ok(template) => {
            let whole = template.instantiate(made.arguments);
            table::table(&whole.log, whole.root, &made.legend)
        }
        Err(diagnostic) => refused(&diagnostic),
    }
}

fn refused(diagnostic: &Diagnostic) -> Answer {
    match *diagnostic.error {
        Error::UndefinedVariable { .. } => Answer::Undefined {
            record: diagnostic.span.0,
        },
        _ => panic!("the lowering refuses nothing else: {diagnostic:?}"),
    }
}
