//! Each row, list, variant, fold, hash and loop at each of its sizes, alone in
//! a book. All of them are well typed, and their values depend on the order
//! and the choice of what they are made of.

use crate::writer::{Id, Writer, NO_END};
use crate::Case;

/// Every systematic book.
pub fn all() -> Vec<Case> {
    let mut cases = vec![listing()];
    for n in 0..=256 {
        cases.push(row(n));
        cases.push(row_pattern(n));
        cases.push(parameters(n));
        cases.push(hash(n));
        cases.push(bindings(n));
        cases.push(statements(n));
    }
    for n in 1..=256 {
        cases.push(variants(n, n * 5 / 7));
        cases.push(array_fold(n));
    }
    for k in 1..=8 {
        let bound = 1 << k;
        cases.extend((0..bound).map(|n| list(bound, n)));
        let some = [0, 1, bound / 2, bound - 1, bound * 5 / 7];
        cases.extend(some.iter().map(|&n| list_fold(bound, n % bound)));
    }
    cases.extend((0..5).map(|k| variants(5, k)));
    for width in [1, 2, 4, 8, 16] {
        cases.extend(
            [0, 1, 2, 3, 9, 15, 254, 255]
                .iter()
                .map(|&stop| for_while(width, Some(stop))),
        );
        cases.push(for_while(width, None));
    }
    for depth in 1..=60 {
        cases.push(nested(depth));
    }
    for symbol in [0, 1, 255, 256, 65_535] {
        cases.extend(CALLS.iter().map(|mark| call(mark, symbol)));
    }
    cases
}

/// The book of document 01, "One listing whole".
fn listing() -> Case {
    let mut writer = Writer::new();
    let bit = writer.bit();
    let value = writer.word_value(1, 1);
    let pattern = writer.name_pattern(7);
    let e = writer.constant(value);
    let assign = writer.record("sa", &[pattern, e]);
    let end = writer.variable(bit, 7);
    writer.block(&[assign], end);
    Case::plain("the listing".to_string(), &writer)
}

/// A byte that tells its place.
fn byte(writer: &mut Writer, place: usize) -> Id {
    writer.word_constant(8, place * 37 + 11)
}

/// The `i`th element of a row of mixed types.
fn mixed(writer: &mut Writer, i: usize) -> Id {
    match i % 3 {
        0 => writer.word_constant(1, i / 3),
        1 => byte(writer, i),
        _ => writer.unit_expression(),
    }
}

fn row(n: usize) -> Case {
    let mut writer = Writer::new();
    let elements: Vec<Id> = (0..n).map(|i| mixed(&mut writer, i)).collect();
    writer.tuple_expression(&elements);
    Case::plain(format!("row {n}"), &writer)
}

/// Places of a row of `n` that are worth asking for.
fn asked(n: usize) -> Vec<usize> {
    let mut places = vec![0, n / 3, n / 2, n.saturating_sub(2), n.saturating_sub(1)];
    places.retain(|&place| place < n);
    places.dedup();
    places
}

/// Variables of `names`, each with its type, as a tuple.
fn variables(writer: &mut Writer, named: &[(usize, Id)]) -> Id {
    let row: Vec<Id> = named
        .iter()
        .map(|&(name, ty)| writer.variable(ty, name))
        .collect();
    writer.tuple_expression(&row)
}

fn row_pattern(n: usize) -> Case {
    let mut writer = Writer::new();
    let elements: Vec<Id> = (0..n).map(|i| mixed(&mut writer, i)).collect();
    let named: Vec<(usize, Id)> = asked(n)
        .iter()
        .map(|&i| (i + 500, writer.ty(elements[i])))
        .collect();
    let whole = writer.tuple_expression(&elements);
    let patterns: Vec<Id> = (0..n).map(|i| writer.name_pattern(i + 500)).collect();
    let pattern = writer.row_pattern(&patterns);
    let assign = writer.record("sa", &[pattern, whole]);
    let end = variables(&mut writer, &named);
    writer.block(&[assign], end);
    Case::plain(format!("row pattern {n}"), &writer)
}

fn parameters(n: usize) -> Case {
    let mut writer = Writer::new();
    let arguments: Vec<Id> = (0..n).map(|i| mixed(&mut writer, i)).collect();
    let named: Vec<(usize, Id)> = arguments
        .iter()
        .enumerate()
        .map(|(i, &e)| (i, writer.ty(e)))
        .collect();
    let some: Vec<(usize, Id)> = asked(n).iter().map(|&i| named[i]).collect();
    let body = variables(&mut writer, &some);
    let function = writer.function(&named, body);
    let ty = writer.ty(body);
    writer.row("cf", &[ty, function], 1, &arguments, &[]);
    Case::plain(format!("parameters {n}"), &writer)
}

fn list_expression(writer: &mut Writer, bound: usize, n: usize) -> Id {
    let element = writer.word(8);
    let ty = writer.list(element, bound);
    let elements: Vec<Id> = (0..n).map(|i| byte(writer, i)).collect();
    writer.row("el", &[ty, bound], 1, &elements, &[])
}

fn list(bound: usize, n: usize) -> Case {
    let mut writer = Writer::new();
    list_expression(&mut writer, bound, n);
    Case::plain(format!("list of {n} at {bound}"), &writer)
}

/// The payload types of variant `k`: none, one byte or two.
fn payloads(writer: &mut Writer, k: usize) -> Vec<Id> {
    let byte = writer.word(8);
    vec![byte; k % 3]
}

/// The arm of variant `k`: a byte that tells the variant, or its payload.
fn arm(writer: &mut Writer, k: usize) -> [Id; 2] {
    let ty = writer.word(8);
    match k % 3 {
        0 => {
            let pattern = writer.record("pn", &[]);
            [pattern, byte(writer, k)]
        }
        1 => {
            let pattern = writer.name_pattern(3);
            [pattern, writer.variable(ty, 3)]
        }
        _ => {
            let names = [writer.name_pattern(3), writer.name_pattern(4)];
            let pattern = writer.row_pattern(&names);
            [pattern, writer.variable(ty, 4)]
        }
    }
}

/// Variant `index` of `n`, made and taken apart again.
fn variants(n: usize, index: usize) -> Case {
    let mut writer = Writer::new();
    let rows: Vec<Id> = (0..n)
        .map(|k| {
            let row = payloads(&mut writer, k);
            writer.tuple(&row)
        })
        .collect();
    let ty = writer.variants(&rows);
    let payload: Vec<Id> = (0..index % 3).map(|i| byte(&mut writer, i + n)).collect();
    let made = writer.row("en", &[ty, index, n], 1, &payload, &[]);
    let arms: Vec<Id> = (0..n).flat_map(|k| arm(&mut writer, k)).collect();
    let whole = writer.word(8);
    writer.row("eh", &[whole, made], 2, &arms, &[]);
    Case::plain(format!("variant {index} of {n}"), &writer)
}

/// The low byte of a sum: the pattern (carry, `name`) of add_8.
fn add(writer: &mut Writer, name: usize, a: Id, b: Id) -> Id {
    let (bit, byte) = (writer.bit(), writer.word(8));
    let ty = writer.product(bit, byte);
    let call = writer.record("cj", &[ty, 0, 2, 2, a, b]);
    let parts = [writer.record("pn", &[]), writer.name_pattern(name)];
    let pattern = writer.row_pattern(&parts);
    writer.record("sa", &[pattern, call])
}

/// (element, accumulator) to element + 2 × accumulator: not the same in
/// another order.
fn folded(writer: &mut Writer) -> Id {
    let ty = writer.word(8);
    let (a, b) = (writer.variable(ty, 1), writer.variable(ty, 1));
    let twice = add(writer, 2, a, b);
    let (element, doubled) = (writer.variable(ty, 0), writer.variable(ty, 2));
    let added = add(writer, 3, element, doubled);
    let end = writer.variable(ty, 3);
    let body = writer.block(&[twice, added], end);
    writer.function(&[(0, ty), (1, ty)], body)
}

fn list_fold(bound: usize, n: usize) -> Case {
    let mut writer = Writer::new();
    let function = folded(&mut writer);
    let list = list_expression(&mut writer, bound, n);
    let accumulator = byte(&mut writer, 5);
    let ty = writer.ty(accumulator);
    writer.record("cq", &[ty, function, bound, list, accumulator]);
    Case::plain(format!("list fold of {n} at {bound}"), &writer)
}

fn array_fold(n: usize) -> Case {
    let mut writer = Writer::new();
    let function = folded(&mut writer);
    let elements: Vec<Id> = (0..n).map(|i| byte(&mut writer, i)).collect();
    let array = writer.tuple_expression(&elements);
    let accumulator = byte(&mut writer, 5);
    let ty = writer.ty(accumulator);
    writer.record("cy", &[ty, function, n, array, accumulator]);
    Case::plain(format!("array fold of {n}"), &writer)
}

/// The counter as a byte: zeros before it, or its low half.
fn counter_byte(writer: &mut Writer, width: usize) -> Id {
    let counter = writer.word(width);
    if width == 16 {
        let parts = [writer.record("pn", &[]), writer.name_pattern(9)];
        let pattern = writer.row_pattern(&parts);
        let whole = writer.variable(counter, 2);
        let assign = writer.record("sa", &[pattern, whole]);
        let byte = writer.word(8);
        let end = writer.variable(byte, 9);
        return writer.block(&[assign], end);
    }
    let mut word = writer.variable(counter, 2);
    let mut at = width;
    while at < 8 {
        let zeros = writer.word_constant(at, 0);
        word = writer.tuple_expression(&[zeros, word]);
        at *= 2;
    }
    word
}

/// (accumulator, context, counter) to left of the accumulator where the
/// counter's byte is the context, else right of accumulator + counter.
fn turn(writer: &mut Writer, width: usize, stops: bool) -> Id {
    let (byte, bit, counter) = (writer.word(8), writer.bit(), writer.word(width));
    let both = writer.sum(byte, byte);
    let count = counter_byte(writer, width);
    let accumulator = writer.variable(byte, 0);
    let added = add(writer, 5, accumulator, count);
    let sum = writer.variable(byte, 5);
    let on = writer.record("e1", &[both, sum]);
    let on = writer.block(&[added], on);
    let body = if stops {
        let accumulator = writer.variable(byte, 0);
        let stop = writer.record("e0", &[both, accumulator]);
        let (count, context) = (counter_byte(writer, width), writer.variable(byte, 1));
        let equal = writer.record("cj", &[bit, 0, 1, 2, count, context]);
        let nothing = writer.record("pn", &[]);
        writer.record("em", &[both, equal, nothing, on, nothing, stop])
    } else {
        on
    };
    writer.function(&[(0, byte), (1, byte), (2, counter)], body)
}

fn for_while(width: usize, stop: Option<usize>) -> Case {
    let mut writer = Writer::new();
    let function = turn(&mut writer, width, stop.is_some());
    let accumulator = writer.word_constant(8, 3);
    let context = writer.word_constant(8, stop.unwrap_or(0));
    let byte = writer.word(8);
    let both = writer.sum(byte, byte);
    writer.record("cw", &[both, function, width, accumulator, context]);
    Case::plain(format!("loop of width {width}, stop {stop:?}"), &writer)
}

fn hash(n: usize) -> Case {
    let mut writer = Writer::new();
    let row: Vec<usize> = (0..n)
        .flat_map(|i| {
            let width = 8 << (i * 5 % 6);
            [width, writer.word_constant(width, i + 1)]
        })
        .collect();
    let ty = writer.word(256);
    writer.row("ch", &[ty, n % 4], 2, &row, &[]);
    Case::plain(format!("hash of {n}"), &writer)
}

/// `n` live bindings, of which some are asked for. LOWER has room for 255
/// beside the root; CHECK has no such limit.
fn bindings(n: usize) -> Case {
    let mut writer = Writer::new();
    let mut named = Vec::new();
    let mut statements = Vec::new();
    for i in 0..n {
        let value = mixed(&mut writer, i);
        named.push((i, writer.ty(value)));
        let pattern = writer.name_pattern(i);
        statements.push(writer.record("sa", &[pattern, value]));
    }
    let some: Vec<(usize, Id)> = asked(n).iter().map(|&i| named[i]).collect();
    let end = variables(&mut writer, &some);
    writer.block(&statements, end);
    Case::plain(format!("bindings {n}"), &writer)
}

/// `n` statements that bind one name again and again, every third one none,
/// and no end.
fn statements(n: usize) -> Case {
    let mut writer = Writer::new();
    let byte_type = writer.word(8);
    let mut statements = Vec::new();
    for i in 0..n {
        if i % 3 == 2 {
            let nothing = writer.unit_expression();
            statements.push(writer.record("se", &[nothing]));
            continue;
        }
        let value = match i {
            0 => byte(&mut writer, i),
            _ => writer.variable(byte_type, 1),
        };
        let pattern = writer.name_pattern(1);
        statements.push(writer.record("sa", &[pattern, value]));
    }
    let unit = writer.unit();
    writer.row("eb", &[unit], 1, &statements, &[NO_END]);
    Case::plain(format!("statements {n}"), &writer)
}

/// Blocks and matches in one another: each level binds a byte that the
/// innermost asks for, the outermost under a name that is bound again.
fn nested(depth: usize) -> Case {
    let mut writer = Writer::new();
    let ty = writer.word(8);
    let some: Vec<(usize, Id)> = asked(depth).iter().map(|&level| (level % 7, ty)).collect();
    let mut whole = variables(&mut writer, &some);
    for level in (0..depth).rev() {
        let value = byte(&mut writer, level);
        let pattern = writer.name_pattern(level % 7);
        if level % 2 == 0 {
            let assign = writer.record("sa", &[pattern, value]);
            whole = writer.block(&[assign], whole);
            continue;
        }
        let (unit, result) = (writer.unit(), writer.ty(whole));
        let either = writer.sum(unit, ty);
        let scrutinee = writer.record("e1", &[either, value]);
        let (nothing, other) = (writer.record("pn", &[]), writer.record("cp", &[result, 0]));
        whole = writer.record("em", &[result, scrutinee, nothing, other, pattern, whole]);
    }
    let names: Vec<Id> = (0..7).map(|name| writer.name_pattern(name)).collect();
    let pattern = writer.row_pattern(&names);
    let values: Vec<Id> = (0..7).map(|name| byte(&mut writer, name + 100)).collect();
    let value = writer.tuple_expression(&values);
    let assign = writer.record("sa", &[pattern, value]);
    writer.block(&[assign], whole);
    Case::plain(format!("nested {depth}"), &writer)
}

/// The calls that have a symbol, but for the hash, and those near them.
const CALLS: [&str; 9] = ["cj", "cl", "cr", "cd", "ca", "cp", "cn", "ck", "ch"];

fn call(mark: &str, symbol: usize) -> Case {
    let mut writer = Writer::new();
    let (unit, bit, byte_type) = (writer.unit(), writer.bit(), writer.word(8));
    let either = writer.sum(byte_type, bit);
    match mark {
        "cj" => {
            let (a, b) = (byte(&mut writer, 1), byte(&mut writer, 1));
            writer.record("cj", &[bit, symbol, 1, 2, a, b]);
        }
        "cl" | "cr" | "cn" => {
            let (side, given, part) = match mark {
                "cr" => ("e1", writer.word_constant(1, 1), bit),
                _ => ("e0", byte(&mut writer, 2), byte_type),
            };
            let e = writer.record(side, &[either, given]);
            match mark {
                "cn" => writer.record("cn", &[bit, e]),
                _ => writer.record(mark, &[part, symbol, e]),
            };
        }
        "cd" => {
            let e = byte(&mut writer, 3);
            writer.record("cd", &[byte_type, symbol, e]);
        }
        "ck" => {
            let e = byte(&mut writer, 3);
            writer.record("ck", &[byte_type, e]);
        }
        "ca" => {
            let e = writer.word_constant(1, symbol);
            writer.record("ca", &[unit, symbol, e]);
        }
        "ch" => {
            let (e, ty) = (byte(&mut writer, 4), writer.word(256));
            writer.record("ch", &[ty, symbol, 1, 8, e]);
        }
        _ => {
            writer.record("cp", &[unit, symbol]);
        }
    }
    Case::plain(format!("{mark} with symbol {symbol}"), &writer)
}
