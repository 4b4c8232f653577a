//! Bodies that a call builds from nothing or around a function's body. The
//! letters are the usual ones for selectors: O is left, I is right.

use super::array::split;
use super::array::Side::{Left as O, Right as I};
use super::node::{Answer, Pen};

/// The first of the three jets of a hash; its adds follow by width.
const HASH_INIT: u16 = 3;
const HASH_ADD: u16 = 4;
const HASH_END: u16 = 10;

/// The input beside a unit: the shape that a case and an assert ask for.
fn beside_unit(pen: &mut Pen) -> Answer {
    let input = pen.iden()?;
    let unit = pen.unit()?;
    pen.pair(input, unit)
}

pub fn unwrap_left(pen: &mut Pen) -> Answer {
    let input = beside_unit(pen)?;
    let inner = pen.select(&[O])?;
    let assert = pen.assertl(inner, 0)?;
    pen.comp(input, assert)
}

pub fn unwrap_right(pen: &mut Pen) -> Answer {
    let input = beside_unit(pen)?;
    let inner = pen.select(&[O])?;
    let assert = pen.assertr(0, inner)?;
    pen.comp(input, assert)
}

pub fn is_none(pen: &mut Pen) -> Answer {
    let input = beside_unit(pen)?;
    let yes = pen.bit(true)?;
    let no = pen.bit(false)?;
    let case = pen.case(yes, no)?;
    pen.comp(input, case)
}

/// A call that carries a symbol: the assert always holds, and hands the
/// arguments on to the body.
pub fn with_symbol(pen: &mut Pen, arguments: u16, body: u16, symbol: u16) -> Answer {
    let bit = pen.bit(false)?;
    let input = pen.pair(bit, arguments)?;
    let drop = pen.drop(body)?;
    let assert = pen.assertl(drop, symbol)?;
    pen.comp(input, assert)
}

/// Folds a list of a bound. `whole` folds a full block, `list` what remains;
/// both double until the bound is reached.
pub fn list_fold(pen: &mut Pen, bound: usize, body: u16) -> Answer {
    let mut whole = body;
    let keep = pen.select(&[I])?;
    let mut list = pen.case(keep, whole)?;
    let mut reached = 2;
    while reached < bound {
        whole = list_block(pen, whole)?;
        list = list_step(pen, whole, list)?;
        reached *= 2;
    }
    Ok(list)
}

/// A block of twice the size: its first half, then its second.
fn list_block(pen: &mut Pen, whole: u16) -> Answer {
    let first = pen.select(&[O, O])?;
    let start = pen.select(&[I])?;
    let input = pen.pair(first, start)?;
    let middle = pen.comp(input, whole)?;
    let second = pen.select(&[O, I])?;
    let input = pen.pair(second, middle)?;
    pen.comp(input, whole)
}

/// A list of twice the bound: its block, if there is one, then the rest.
fn list_step(pen: &mut Pen, whole: u16, list: u16) -> Answer {
    let block = pen.select(&[O, O])?;
    let rest = pen.select(&[O, I])?;
    let start = pen.select(&[I])?;
    let kept = pen.pair(rest, start)?;
    let input = pen.pair(block, kept)?;

    let without = pen.drop(list)?;

    let block = pen.select(&[O])?;
    let start = pen.select(&[I, I])?;
    let both = pen.pair(block, start)?;
    let middle = pen.comp(both, whole)?;
    let rest = pen.select(&[I, O])?;
    let both = pen.pair(rest, middle)?;
    let with = pen.comp(both, list)?;

    let case = pen.case(without, with)?;
    pen.comp(input, case)
}

/// Folds an array: first the powers of two up to the highest in `size`, then
/// the size's own powers joined, from the lowest, each to the left of the next.
pub fn array_fold(pen: &mut Pen, size: usize, body: u16) -> Answer {
    let top = size.ilog2() as usize;
    let mut powers = vec![body];
    for k in 0..top {
        powers.push(array_join(pen, powers[k], powers[k])?);
    }
    let mut used = (0..=top).filter(|k| size >> k & 1 == 1);
    let lowest = used.next().expect("an array is not empty");
    let mut fold = powers[lowest];
    for k in used {
        fold = array_join(pen, fold, powers[k])?;
    }
    Ok(fold)
}

/// Both halves of an array, one after the other. All three selectors come
/// first, other than in a list's block.
fn array_join(pen: &mut Pen, left: u16, right: u16) -> Answer {
    let first = pen.select(&[O, O])?;
    let second = pen.select(&[O, I])?;
    let start = pen.select(&[I])?;
    let input = pen.pair(first, start)?;
    let middle = pen.comp(input, left)?;
    let input = pen.pair(second, middle)?;
    pen.comp(input, right)
}

/// A loop over a counter of a width is two nested loops over its halves.
pub fn for_while(pen: &mut Pen, width: usize, body: u16) -> Answer {
    if width == 1 {
        return loop_bit(pen, body);
    }
    let adapted = loop_adapt(pen, body)?;
    let inner = for_while(pen, width / 2, adapted)?;
    for_while(pen, width / 2, inner)
}

/// The turn with bit false, then, unless it stopped, the one with bit true.
fn loop_bit(pen: &mut Pen, body: u16) -> Answer {
    let turn = loop_turn(pen, false, body)?;
    let context = pen.select(&[I])?;
    let input = pen.pair(turn, context)?;

    let result = pen.select(&[O])?;
    let stop = pen.injl(result)?;
    let go_on = loop_turn(pen, true, body)?;
    let case = pen.case(stop, go_on)?;
    pen.comp(input, case)
}

fn loop_turn(pen: &mut Pen, bit: bool, body: u16) -> Answer {
    let accumulator = pen.select(&[O])?;
    let context = pen.select(&[I])?;
    let bit = pen.bit(bit)?;
    let rest = pen.pair(context, bit)?;
    let input = pen.pair(accumulator, rest)?;
    pen.comp(input, body)
}

/// Takes the counter's high half out of the context and joins it to the low.
fn loop_adapt(pen: &mut Pen, body: u16) -> Answer {
    let accumulator = pen.select(&[O])?;
    let context = pen.select(&[I, O, O])?;
    let high = pen.select(&[I, O, I])?;
    let low = pen.select(&[I, I])?;
    let counter = pen.pair(high, low)?;
    let rest = pen.pair(context, counter)?;
    let input = pen.pair(accumulator, rest)?;
    pen.comp(input, body)
}

/// Hashes a row of words, whose widths are in bits.
pub fn raw_hash(pen: &mut Pen, widths: &[u16]) -> Answer {
    let unit = pen.unit()?;
    let init = pen.jet(HASH_INIT)?;
    let fresh = pen.comp(unit, init)?;
    let words = pen.iden()?;
    let input = pen.pair(fresh, words)?;
    let adds = hash_row(pen, widths)?;
    let full = pen.comp(input, adds)?;
    let end = pen.jet(HASH_END)?;
    pen.comp(full, end)
}

/// From a context and a row to the context with the row added.
fn hash_row(pen: &mut Pen, widths: &[u16]) -> Answer {
    match widths {
        [] => pen.select(&[O]),
        [width] => pen.jet(HASH_ADD + (width / 8).ilog2() as u16),
        _ => {
            let (left, right) = widths.split_at(split(widths.len()));
            let add_left = hash_row(pen, left)?;
            let add_right = hash_row(pen, right)?;
            hash_both(pen, add_left, add_right)
        }
    }
}

fn hash_both(pen: &mut Pen, add_left: u16, add_right: u16) -> Answer {
    let context = pen.select(&[O])?;
    let left = pen.select(&[I, O])?;
    let right = pen.select(&[I, I])?;
    let input = pen.pair(context, left)?;
    let middle = pen.comp(input, add_left)?;
    let input = pen.pair(middle, right)?;
    pen.comp(input, add_right)
}
