//! Three walks, each with a stack of its own so that depth costs no stack of the thread.

use std::cell::Cell;
use std::panic::resume_unwind;
use std::sync::Arc;

use crate::Stopped;

/// Most items of one walk. The original stores something for each item of a
/// pattern, so this has one that is far too wide end at once.
const WALK: u32 = 1 << 20;
/// Most items of all walks of one thread: twenty seconds and two gigabytes at worst.
const ALL_WALKS: u64 = 1 << 27;

thread_local! {
    static LEFT: Cell<u64> = const { Cell::new(ALL_WALKS) };
}

/// Counts one item of a walk.
fn step(walked: &mut u32) {
    *walked += 1;
    let left = LEFT.get();
    if *walked > WALK || left == 0 {
        resume_unwind(Box::new(Stopped));
    }
    LEFT.set(left - 1);
}

/// A node's children.
#[derive(Clone, Debug)]
pub enum Tree<T> {
    Nullary,
    Unary(T),
    Binary(T, T),
    Nary(Arc<[T]>),
}

impl<T: Clone> Tree<T> {
    fn children(&self) -> usize {
        match self {
            Tree::Nullary => 0,
            Tree::Unary(_) => 1,
            Tree::Binary(..) => 2,
            Tree::Nary(children) => children.len(),
        }
    }

    fn child(&self, place: usize) -> Option<T> {
        match (self, place) {
            (Tree::Unary(child), 0) => Some(child.clone()),
            (Tree::Binary(left, _), 0) => Some(left.clone()),
            (Tree::Binary(_, right), 1) => Some(right.clone()),
            (Tree::Nary(children), _) => children.get(place).cloned(),
            _ => None,
        }
    }
}

pub trait TreeLike: Clone + Sized {
    fn as_node(&self) -> Tree<Self>;

    /// Each node before its children.
    fn pre_order_iter(self) -> PreOrderIter<Self> {
        PreOrderIter {
            stack: vec![self],
            walked: 0,
        }
    }

    /// Each node before its first child and again after each child.
    fn verbose_pre_order_iter(self) -> VerbosePreOrderIter<Self> {
        let tree = self.as_node();
        VerbosePreOrderIter {
            stack: vec![(self, tree, 0)],
            walked: 0,
        }
    }

    /// Each node after its children.
    fn post_order_iter(self) -> PostOrderIter<Self> {
        let tree = self.as_node();
        PostOrderIter {
            stack: vec![(self, tree, Vec::new())],
            index: 0,
            walked: 0,
        }
    }
}

pub struct PreOrderIter<T> {
    stack: Vec<T>,
    walked: u32,
}

impl<T: TreeLike> Iterator for PreOrderIter<T> {
    type Item = T;

    fn next(&mut self) -> Option<T> {
        let node = self.stack.pop()?;
        step(&mut self.walked);
        let tree = node.as_node();
        let children = (0..tree.children()).rev();
        self.stack.extend(children.filter_map(|n| tree.child(n)));
        Some(node)
    }
}

pub struct PreOrderIterItem<T> {
    pub node: T,
    pub n_children_yielded: usize,
    pub is_complete: bool,
}

pub struct VerbosePreOrderIter<T> {
    /// Nodes on the way to the current one, each with how many of its children were entered.
    stack: Vec<(T, Tree<T>, usize)>,
    walked: u32,
}

impl<T: TreeLike> Iterator for VerbosePreOrderIter<T> {
    type Item = PreOrderIterItem<T>;

    fn next(&mut self) -> Option<Self::Item> {
        let (node, tree, entered) = self.stack.pop()?;
        step(&mut self.walked);
        let item = PreOrderIterItem {
            node: node.clone(),
            n_children_yielded: entered,
            is_complete: entered == tree.children(),
        };
        if let Some(child) = tree.child(entered) {
            let below = child.as_node();
            self.stack.push((node, tree, entered + 1));
            self.stack.push((child, below, 0));
        }
        Some(item)
    }
}

pub struct PostOrderIterItem<T> {
    pub node: T,
    pub index: usize,
    pub child_indices: Vec<usize>,
}

pub struct PostOrderIter<T> {
    /// Nodes on the way to the current one, each with the places of its finished children.
    stack: Vec<(T, Tree<T>, Vec<usize>)>,
    index: usize,
    walked: u32,
}

impl<T: TreeLike> Iterator for PostOrderIter<T> {
    type Item = PostOrderIterItem<T>;

    fn next(&mut self) -> Option<Self::Item> {
        while let Some((_, tree, done)) = self.stack.last() {
            let Some(child) = tree.child(done.len()) else {
                break;
            };
            let below = child.as_node();
            self.stack.push((child, below, Vec::new()));
        }
        let (node, _, child_indices) = self.stack.pop()?;
        step(&mut self.walked);
        let index = self.index;
        self.index += 1;
        if let Some((_, _, done)) = self.stack.last_mut() {
            done.push(index);
        }
        Some(PostOrderIterItem {
            node,
            index,
            child_indices,
        })
    }
}
