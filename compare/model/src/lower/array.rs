//! Balanced trees: how rows, variants and lists of a bound lie.

/// A step down a pair or a sum.
#[derive(Clone, Copy, Debug, PartialEq, Eq)]
pub enum Side {
    Left,
    Right,
}

/// How many of a row of `n`, 2 or more, lie on the left. CHECK and the source
/// meaning have one of their own, so that a fault here cannot hide in both.
pub fn split(n: usize) -> usize {
    let power = n.next_power_of_two();
    n - power / 2
}

/// The way from the top of a tree of `n` leaves to leaf `k`.
pub fn path(mut k: usize, mut n: usize) -> Vec<Side> {
    let mut steps = Vec::new();
    while n > 1 {
        let left = split(n);
        if k < left {
            steps.push(Side::Left);
            n = left;
        } else {
            steps.push(Side::Right);
            k -= left;
            n -= left;
        }
    }
    steps
}

/// Joins a row that is not empty: left half, right half, then the two.
pub fn fold_row<T: Copy, E>(row: &[T], join: &mut dyn FnMut(T, T) -> Result<T, E>) -> Result<T, E> {
    if let [one] = row {
        return Ok(*one);
    }
    let (left, right) = row.split_at(split(row.len()));
    let left = fold_row(left, join)?;
    let right = fold_row(right, join)?;
    join(left, right)
}

/// A list's elements in blocks of half the bound, a quarter and so on down to
/// one element. A block that they cannot fill is empty.
pub fn partition<T>(mut elements: &[T], bound: usize) -> Vec<&[T]> {
    let mut blocks = Vec::new();
    let mut size = bound / 2;
    while size > 0 {
        let filled = elements.len() >= size;
        let (block, rest) = elements.split_at(if filled { size } else { 0 });
        blocks.push(block);
        elements = rest;
        size /= 2;
    }
    blocks
}
