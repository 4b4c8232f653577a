//! Stands in for rust-simplicity: its constructors write into a log. What
//! can't be seen here: its type inference, its roots, and the subtree that it
//! builds for a scribed value.

pub mod hashes;
pub mod jet;
mod log;
pub mod node;
pub mod types;

pub use log::{set_most, Entry, Stopped};

/// A scribed value: the number of the book's record.
#[derive(Clone, Copy, Debug, PartialEq, Eq, Hash)]
pub struct Value(pub u16);

#[derive(Clone, Copy, Debug, PartialEq, Eq)]
pub struct FailEntropy(());

impl FailEntropy {
    pub const ZERO: FailEntropy = FailEntropy(());
}

/// A root that is either the failing program's or made of a counter.
#[derive(Clone, Copy, Debug, PartialEq, Eq, Hash)]
pub struct Cmr([u8; 32]);

impl Cmr {
    pub fn fail(_: FailEntropy) -> Cmr {
        Cmr([0; 32])
    }

    pub fn from_byte_array(bytes: [u8; 32]) -> Cmr {
        Cmr(bytes)
    }

    /// The four bytes last hashed into this root; none for the failing program's.
    pub fn counter(&self) -> Option<u32> {
        hashes::last_input(&self.0).map(u32::from_be_bytes)
    }
}
