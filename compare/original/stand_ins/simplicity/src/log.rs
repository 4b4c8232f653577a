//! The log of constructions: one entry for each call of a constructor, in the order of the calls.

use std::cell::Cell;
use std::panic::resume_unwind;
use std::sync::Arc;

use crate::types::Final;
use crate::Cmr;

/// One constructed node. Children are places in the log.
#[derive(Clone, Debug)]
pub enum Entry {
    Iden,
    Unit,
    InjL(usize),
    InjR(usize),
    Take(usize),
    Drop(usize),
    Comp(usize, usize),
    Case(usize, usize),
    Pair(usize, usize),
    AssertL(usize, Cmr),
    AssertR(Cmr, usize),
    Fail,
    Witness { name: u16, ty: Option<Arc<Final>> },
    Scribe(u16),
    Jet(u16),
}

impl Entry {
    pub fn children(&self) -> impl Iterator<Item = usize> {
        let (left, right) = match *self {
            Entry::InjL(child) | Entry::InjR(child) | Entry::Take(child) | Entry::Drop(child) => {
                (Some(child), None)
            }
            Entry::Comp(left, right) | Entry::Case(left, right) | Entry::Pair(left, right) => {
                (Some(left), Some(right))
            }
            Entry::AssertL(child, _) | Entry::AssertR(_, child) => (Some(child), None),
            _ => (None, None),
        };
        left.into_iter().chain(right)
    }
}

/// What a constructor throws when the log is full.
pub struct Stopped;

thread_local! {
    static MOST: Cell<usize> = const { Cell::new(usize::MAX) };
}

/// Bounds the logs that this thread begins from now on. The original makes its
/// own context, so there is no parameter to hand this through.
pub fn set_most(most: usize) {
    MOST.set(most);
}

#[derive(Debug)]
pub(crate) struct Log {
    entries: Vec<Entry>,
    most: usize,
}

impl Log {
    pub(crate) fn begin() -> Log {
        Log {
            entries: Vec::new(),
            most: MOST.get(),
        }
    }

    pub(crate) fn push(&mut self, entry: Entry) -> usize {
        if self.entries.len() >= self.most {
            resume_unwind(Box::new(Stopped));
        }
        self.entries.push(entry);
        self.entries.len() - 1
    }

    /// Notes the type of a witness. The first is the one that the book
    /// declares; what surrounds the witness is unified later.
    pub(crate) fn note(&mut self, place: usize, noted: &Arc<Final>) {
        if let Entry::Witness { ty, .. } = &mut self.entries[place] {
            ty.get_or_insert_with(|| Arc::clone(noted));
        }
    }

    pub(crate) fn take(&mut self) -> Vec<Entry> {
        std::mem::take(&mut self.entries)
    }
}
