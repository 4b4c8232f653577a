//! A judge: the original's own lowering, built from its text unchanged over
//! small stand-ins of ours for what that text calls and the checkout lacks.
//!
//! `build.rs` lays out the original's files next to our stand-ins; nothing of
//! the original's text is in this crate. A book becomes the original's AST,
//! that is lowered, and the nodes constructed on the way are the answer.

#[cfg(original_here)]
mod book;
#[cfg(original_here)]
mod here;
mod listing;
#[cfg(original_here)]
mod table;

#[cfg(original_here)]
include!(concat!(env!("OUT_DIR"), "/staged/modules.rs"));

pub use listing::listing;

/// Whether a checkout was there when this was built.
pub const HERE: bool = cfg!(original_here);

/// Whether it was the revision that `text.txt` lists.
pub const REVISION_MATCHES: bool = cfg!(original_revision);

#[derive(Clone, Debug, PartialEq, Eq)]
pub enum Answer {
    /// The nodes that the root reaches, five bytes each, and how many of the
    /// constructed nodes it does not reach.
    Nodes { nodes: Vec<u8>, unreached: usize },
    /// The record of the variable that is not in scope.
    Undefined { record: u16 },
    /// There were more than `most` constructions, or more nodes than can be
    /// numbered, or a pattern too wide to walk.
    TooMany,
}

/// Lowers a book that READ accepts; `None` where [`HERE`] is false. If the
/// original panics, so does this.
pub fn lower(book: &[u8], symbols: bool, most: usize) -> Option<Answer> {
    here::lower(book, symbols, most)
}

#[cfg(not(original_here))]
mod here {
    pub fn lower(_: &[u8], _: bool, _: usize) -> Option<crate::Answer> {
        None
    }
}
