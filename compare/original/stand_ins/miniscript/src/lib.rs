//! Stands in for miniscript's walks over trees. What can't be seen here: its
//! own code, so the order of each walk is taken from how the original uses it.

pub mod iter;

/// What a walk throws when it has gone on for too long. A book may share its
/// patterns so that they have more leaves than any machine has room for, and
/// the original walks them leaf by leaf.
pub struct Stopped;
