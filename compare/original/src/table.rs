//! From the log of constructions to a node table.

use std::collections::HashMap;
use std::sync::Arc;

use simplicity::types::Final;
use simplicity::{Cmr, Entry};

use crate::Answer;

/// What the log's handles are in the book.
#[derive(Default)]
pub struct Legend {
    /// The symbol of each tracked call, in the order of tracking.
    pub symbols: Vec<u16>,
    /// Each type's record.
    pub types: HashMap<Arc<Final>, u16>,
}

impl Legend {
    fn symbol(&self, root: &Cmr) -> u16 {
        match root.counter() {
            Some(id) => self.symbols[id as usize],
            None => 0,
        }
    }

    fn ty(&self, ty: &Option<Arc<Final>>) -> u16 {
        let ty = ty.as_ref().expect("a witness is unified with its type");
        self.types[ty]
    }
}

/// Puts a scribe leaf in the place of each constant's comp; its unit and its
/// scribe become gaps. The three stand side by side, and nothing else names
/// the two inner ones.
fn collapse(log: &[Entry]) -> Vec<Option<Entry>> {
    let mut nodes: Vec<Option<Entry>> = log.iter().cloned().map(Some).collect();
    for (place, entry) in log.iter().enumerate() {
        let Entry::Scribe(value) = entry else {
            continue;
        };
        let unit = place.checked_sub(1).expect("a scribe follows its unit");
        let Some([Entry::Unit, _, Entry::Comp(left, right)]) = log.get(unit..unit + 3) else {
            panic!("a scribe stands between its unit and its comp");
        };
        assert_eq!((*left, *right), (unit, place), "the comp is of these two");
        nodes[unit] = None;
        nodes[place] = None;
        nodes[place + 1] = Some(Entry::Scribe(*value));
    }
    let mut named = nodes.iter().flatten().flat_map(Entry::children);
    assert!(
        named.all(|child| nodes[child].is_some()),
        "a constant's parts are its own"
    );
    nodes
}

/// The nodes that the root reaches. Children stand before their parents.
fn reached(nodes: &[Option<Entry>], root: usize) -> Vec<bool> {
    let mut reached = vec![false; nodes.len()];
    reached[root] = true;
    for place in (0..=root).rev() {
        if let (true, Some(node)) = (reached[place], &nodes[place]) {
            node.children().for_each(|child| reached[child] = true);
        }
    }
    reached
}

fn encode(node: &Entry, number: impl Fn(usize) -> u16, legend: &Legend) -> (u8, u16, u16) {
    match node {
        Entry::Iden => (1, 0, 0),
        Entry::Unit => (2, 0, 0),
        Entry::InjL(child) => (3, number(*child), 0),
        Entry::InjR(child) => (4, number(*child), 0),
        Entry::Take(child) => (5, number(*child), 0),
        Entry::Drop(child) => (6, number(*child), 0),
        Entry::Comp(left, right) => (7, number(*left), number(*right)),
        Entry::Case(left, right) => (8, number(*left), number(*right)),
        Entry::Pair(left, right) => (9, number(*left), number(*right)),
        Entry::AssertL(child, root) => (10, number(*child), legend.symbol(root)),
        Entry::AssertR(root, child) => (11, legend.symbol(root), number(*child)),
        Entry::Fail => (12, 0, 0),
        Entry::Witness { name, ty } => (13, *name, legend.ty(ty)),
        Entry::Scribe(value) => (14, *value, 0),
        Entry::Jet(jet) => (15, *jet, 0),
    }
}

/// The table of what the root reaches, in order of construction.
pub fn table(log: &[Entry], root: usize, legend: &Legend) -> Answer {
    let nodes = collapse(log);
    let reached = reached(&nodes, root);
    let mut numbers = vec![0; nodes.len()];
    let mut bytes = Vec::new();
    let mut count: u16 = 0;
    for (place, node) in nodes.iter().enumerate() {
        let (true, Some(node)) = (reached[place], node) else {
            continue;
        };
        if count == u16::MAX {
            return Answer::TooMany;
        }
        let (kind, first, second) = encode(node, |child| numbers[child], legend);
        bytes.push(kind);
        bytes.extend(first.to_le_bytes());
        bytes.extend(second.to_le_bytes());
        numbers[place] = count;
        count += 1;
    }
    let made = nodes.iter().flatten().count();
    Answer::Nodes {
        nodes: bytes,
        unreached: made - usize::from(count),
    }
}
