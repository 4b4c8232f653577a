//! The listing, the edges of the table, and what each recipe stores.

use super::array::{partition, path, split, Side};
use super::node::{CASE, COMP, INJL, INJR, PAIR, UNIT};
use super::{lower, trace, Stored};
use crate::book::read;
use crate::Refusal;

pub const LISTING: &str = "tu; ts 0 0; vu 0; vr 1 2; pi 7; ec 1 3; sa 4 5; ev 1 7; eb 1 1 6 7";

/// A book from records as document 01 writes them.
pub fn book(text: &str) -> Vec<u8> {
    let mut bytes = Vec::new();
    for record in text.split(';') {
        let mut words = record.split_whitespace();
        bytes.extend(words.next().expect("a mark").bytes());
        for word in words {
            let field: u16 = word.parse().expect("a field");
            bytes.extend(field.to_le_bytes());
        }
    }
    bytes
}

fn nodes(text: &str, symbols: bool) -> Result<Vec<Stored>, Refusal> {
    trace(&read(&book(text)).expect("a book"), symbols, 65_535)
}

fn count(text: &str) -> usize {
    nodes(text, false).expect("nodes").len()
}

/// Kind, operands, and the record that stored it.
fn rows(text: &str, symbols: bool) -> Vec<(u8, u16, u16, u16)> {
    let nodes = nodes(text, symbols).expect("nodes");
    nodes
        .iter()
        .map(|node| (node.kind, node.left, node.right, node.record))
        .collect()
}

fn refused<T>(number: u16, place: u16) -> Result<T, Refusal> {
    Err(Refusal { number, place })
}

#[test]
fn listing() {
    let listed = [
        [14, 3, 0, 0, 0],
        [1, 0, 0, 0, 0],
        [9, 0, 0, 1, 0],
        [1, 0, 0, 0, 0],
        [5, 3, 0, 0, 0],
        [7, 2, 0, 4, 0],
    ];
    let mut table = [255; 6 * 5 + 3];
    assert_eq!(lower(&book(LISTING), false, &mut table), Ok(6));
    assert_eq!(table[..30], listed.concat());
    assert_eq!(table[30..], [0, 0, 0]);
    assert_eq!(
        lower(&book(LISTING), false, &mut table[..29]),
        refused(11, 6)
    );
    assert_eq!(table[..29], [0; 29]);
    assert_eq!(lower(&book("tu; tu"), false, &mut []), refused(7, 1));
}

#[test]
fn trees() {
    use Side::{Left, Right};
    let splits: Vec<usize> = (2..10).map(split).collect();
    assert_eq!(splits, [1, 1, 2, 1, 2, 3, 4, 1]);
    assert_eq!(path(1, 3), [Right, Left]);
    assert_eq!(path(1, 5), [Right, Left, Left]);
    assert_eq!(path(0, 1), []);
    let blocks = partition(&['a', 'b', 'c'], 8);
    assert_eq!(blocks, [&[] as &[char], &['a', 'b'], &['c']]);
}

#[test]
fn list_is_joined_after_its_elements() {
    let text = "tu; et 0 0; et 0 0; et 0 0; el 0 8 3 1 2 3";
    let joined = [
        (UNIT, 0, 0, 4),
        (INJL, 3, 0, 4),
        (PAIR, 0, 1, 4),
        (INJR, 5, 0, 4),
        (INJR, 2, 0, 4),
        (PAIR, 6, 7, 4),
        (PAIR, 4, 8, 4),
    ];
    assert_eq!(rows(text, false)[3..], joined);
}

#[test]
fn recipes_store_what_was_counted() {
    // Two arguments, their pair, the body and the call's own comp.
    let around = 5;
    let call = |mark, size| format!("tu; et 0 0; fn 0 0 1; et 0 0; et 0 0; {mark} 0 2 {size} 3 4");
    for k in 1..9 {
        let list = count(&call("cq", 1 << k));
        assert_eq!(list - around, 3 + 37 * (k - 1));
    }
    for n in 1..257_usize {
        let array = count(&call("cy", n));
        let (top, ones) = (n.ilog2() as usize, n.count_ones() as usize);
        assert_eq!(array - around, 12 * (top + ones - 1));
    }
    for w in [1, 2, 4, 8, 16] {
        let turns = count(&call("cw", w));
        assert_eq!(turns - around, 26 * w + 17 * (w - 1));
    }
}

/// The kinds that a call of a recipe stores between its body and its comp.
fn recipe(mark: &str, size: usize) -> String {
    let text = format!("tu; et 0 0; fn 0 0 1; et 0 0; et 0 0; {mark} 0 2 {size} 3 4");
    let rows = rows(&text, false);
    assert!(rows[4..].iter().all(|row| row.3 == 5));
    let kinds = rows[4..rows.len() - 1].iter().map(|row| row.0.to_string());
    kinds.collect::<Vec<_>>().join(" ")
}

#[test]
fn recipes_store_in_order_of_construction() {
    let base = "1 6 8";
    let twice = "1 5 5 1 6 9 7 1 6 5 9 7";
    let step = "1 5 5 1 6 5 1 6 9 9 6 1 5 1 6 6 9 7 1 5 6 9 7 8 7";
    assert_eq!(recipe("cq", 4), format!("{base} {twice} {step}"));
    assert_eq!(recipe("cy", 2), "1 5 5 1 6 5 1 6 9 7 9 7");
    let adapt = "1 5 1 5 5 6 1 6 5 6 1 6 6 9 9 9 7";
    let turns = "1 5 1 6 2 3 9 9 7 1 6 9 1 5 3 1 5 1 6 2 4 9 9 7 8 7";
    assert_eq!(recipe("cw", 2), format!("{adapt} {turns} {turns}"));
}

#[test]
fn statements_and_calls_name_their_records() {
    let text = "tu; et 0 0; se 1; eb 0 1 2 65535";
    let stored = [
        (2, 0, 0, 1),
        (2, 0, 0, 3),
        (9, 0, 1, 2),
        (1, 0, 0, 2),
        (6, 3, 0, 2),
        (7, 2, 4, 2),
    ];
    assert_eq!(rows(text, false), stored);
    let body = |call: &str| {
        let rows = rows(&format!("tu; ew 0 8; {call}"), false);
        assert_eq!(rows[0], (13, 8, 0, 1));
        rows[1..]
            .iter()
            .map(|row| (row.0, row.1, row.2))
            .collect::<Vec<_>>()
    };
    let unwrap = [(1, 0, 0), (2, 0, 0), (9, 1, 2), (1, 0, 0), (5, 4, 0)];
    assert_eq!(body("cl 0 0 1")[..5], unwrap);
    assert_eq!(body("cl 0 0 1")[5..], [(10, 5, 0), (7, 3, 6), (7, 0, 7)]);
    assert_eq!(body("cr 0 0 1")[5..], [(11, 0, 5), (7, 3, 6), (7, 0, 7)]);
    let none = [(2, 0, 0), (4, 4, 0), (2, 0, 0), (3, 6, 0), (8, 5, 7)];
    assert_eq!(body("cn 0 1")[3..8], none);
    assert_eq!(body("cn 0 1")[8..], [(7, 3, 8), (7, 0, 9)]);
    assert_eq!(body("en 0 1 5 1 1"), [(3, 0, 0), (3, 1, 0), (4, 2, 0)]);
    assert_eq!(body("ck 0 1"), []);
}

#[test]
fn matches_store_the_scrutinee_after_the_arms() {
    let two = rows("tu; pn; et 0 0; cp 0 0; et 0 0; em 0 2 1 3 1 4", false);
    let records: Vec<u16> = two.iter().map(|row| row.3).collect();
    assert_eq!(records, [3, 3, 3, 4, 2, 5, 5, 5, 5]);
    assert_eq!(two[7..], [(CASE, 2, 3, 5), (COMP, 6, 7, 5)]);

    let text = "tu; pn; et 0 0; et 0 0; et 0 0; et 0 0; eh 0 2 3 1 3 1 4 1 5";
    let many = rows(text, false);
    assert_eq!(many[3..5], [(CASE, 1, 2, 6), (CASE, 0, 3, 6)]);
    assert_eq!(
        many[5..],
        [(2, 0, 0, 2), (1, 0, 0, 6), (9, 5, 6, 6), (7, 7, 4, 6)]
    );
}

#[test]
fn symbols_wrap_the_body() {
    let plain = [(2, 0, 0, 1), (12, 0, 0, 1), (7, 0, 1, 1)];
    let marked = [
        (2, 0, 0, 1),
        (12, 0, 0, 1),
        (2, 0, 0, 1),
        (3, 2, 0, 1),
        (9, 3, 0, 1),
        (6, 1, 0, 1),
        (10, 5, 9, 1),
        (7, 4, 6, 1),
    ];
    assert_eq!(rows("tu; cp 0 9", false), plain);
    assert_eq!(rows("tu; cp 0 0", true), plain);
    assert_eq!(rows("tu; cp 0 9", true), marked);
}

#[test]
fn hash_adds_by_width() {
    let text = "tu; et 0 0; et 0 0; et 0 0; ch 0 0 3 8 1 16 2 256 3";
    let jets: Vec<u16> = rows(text, false)
        .iter()
        .filter(|row| row.0 == 15)
        .map(|row| row.1)
        .collect();
    assert_eq!(jets, [3, 4, 5, 9, 10]);
    let empty: Vec<u8> = rows("tu; ch 0 0 0", false).iter().map(|r| r.0).collect();
    assert_eq!(empty, [2, 2, 15, 7, 1, 9, 1, 5, 7, 15, 7, 7]);
}

#[test]
fn names_of_a_pattern_that_shares_its_parts() {
    // The name stands in half of 2^248 leaves; its first place is the second.
    let mut text = String::from("tu; pi 3; pn; pt 2 2 1");
    for k in 3..250 {
        text += &format!("; pt 2 {k} {k}");
    }
    text += "; et 0 0; sa 250 251; ev 0 3; eb 0 1 252 253";
    // The unit, iden and pair, then iden, drop, 247 takes, the take into the
    // binding, and the comp.
    assert_eq!(count(&text), 3 + 2 + 247 + 1 + 1);
}

#[test]
fn newest_binding_then_parameters() {
    // f(1, 2, 1) = { let 2 = (); (1, 2) }: parameter 1 is the first of three.
    let text = "tu; pi 2; et 0 0; sa 1 2; ev 0 1; ev 0 2; et 0 2 4 5; eb 0 1 3 6; \
                fn 0 3 1 0 2 0 1 0 7; cf 0 8 0";
    let body = [
        (2, 0, 0, 2),
        (1, 0, 0, 3),
        (9, 1, 2, 3),
        (1, 0, 0, 4),
        (5, 4, 0, 4),
        (6, 5, 0, 4),
        (1, 0, 0, 5),
        (5, 7, 0, 5),
        (9, 6, 8, 6),
        (7, 3, 9, 3),
    ];
    assert_eq!(rows(text, false)[1..11], body);
    // The caller's names end at the call, and a block's at its end.
    let caller = "tu; pi 1; ev 0 1; fn 0 0 2; et 0 0; sa 1 4; cf 0 3 0; eb 0 1 5 6";
    assert_eq!(nodes(caller, false), refused(10, 2));
    let block = "tu; pi 1; et 0 0; sa 1 2; eb 0 1 3 65535; ev 0 1; et 0 2 4 5";
    assert_eq!(nodes(block, false), refused(10, 5));
}

/// A block of `n` assignments to nothing, the records 3, 5 and so on, then more
/// records and the block's end.
fn block(n: usize, more: &str, end: usize) -> String {
    let mut text = String::from("tu; pn");
    let mut statements = String::new();
    for k in 0..n {
        text += &format!("; et 0 0; sa 1 {}", 2 + 2 * k);
        statements += &format!(" {}", 3 + 2 * k);
    }
    format!("{text}{more}; eb 0 {n}{statements} {end}")
}

#[test]
fn bindings_end_at_256_with_the_root() {
    // 255 bindings on the root, each of four nodes, and the end's unit.
    assert_eq!(count(&block(255, "", 65_535)), 255 * 4 + 1);
    let full = block(256, "", 65_535);
    assert_eq!(nodes(&full, false), refused(12, 513));
    // Judged once the value is lowered, and before the binding's own nodes.
    let full = read(&book(&full)).expect("a book");
    assert_eq!(trace(&full, false, 255 * 3 + 1), refused(12, 513));
    assert_eq!(trace(&full, false, 255 * 3), refused(11, 512));
    // An arm is a binding too, judged before what stands in it.
    let arm = block(255, "; et 0 0; ev 0 9; et 0 0; em 0 512 1 513 1 514", 515);
    assert_eq!(nodes(&arm, false), refused(12, 515));
}

#[test]
fn calls_that_copy_stop_at_the_room() {
    // Each function calls the one before it twice.
    let mut text = String::from("tu; et 0 0; fn 0 0 1");
    for k in 0..60 {
        let f = 2 + 4 * k;
        text += &format!("; cf 0 {f} 0; cf 0 {f} 0; et 0 2 {} {}", f + 1, f + 2);
        text += &format!("; fn 0 0 {}", f + 3);
    }
    text += "; cf 0 242 0";
    let mut table = vec![7; 65_535 * 5 + 9];
    let refusal = lower(&book(&text), false, &mut table).expect_err("too many nodes");
    assert_eq!(refusal.number, 11);
    assert!(table.iter().all(|byte| *byte == 0));
}
