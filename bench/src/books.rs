//! The books that are timed. Each is well typed but for the book of types, and
//! comes to a value when it is run.

use gen::writer::{Id, Writer};
use gen::Case;

use crate::calls::Given;

fn case(writer: &Writer) -> Case {
    Case::plain(String::new(), writer)
}

/// What two bytes come to: their carry, which is not looked at, and their sum,
/// which is bound to a name.
fn sum_to(writer: &mut Writer, name: usize, a: Id, b: Id) -> Id {
    let (bit, byte) = (writer.bit(), writer.word(8));
    let carried = writer.product(bit, byte);
    let sum = writer.record("cj", &[carried, 0, 2, 2, a, b]);
    let carry = writer.record("pn", &[]);
    let named = writer.name_pattern(name);
    let pattern = writer.row_pattern(&[carry, named]);
    writer.record("sa", &[pattern, sum])
}

/// A block of `count` bindings, each of the sum of the one before and of one
/// half as old.
pub fn block(count: usize) -> Case {
    let mut writer = Writer::new();
    let byte = writer.word(8);
    let mut statements = Vec::new();
    for k in 0..count {
        let [a, b] = [k.checked_sub(1), k.checked_sub(1 + k / 2)].map(|name| match name {
            Some(name) => writer.variable(byte, name),
            None => writer.word_constant(8, 37),
        });
        statements.push(sum_to(&mut writer, k, a, b));
    }
    let end = writer.variable(byte, count - 1);
    writer.block(&statements, end);
    case(&writer)
}

/// A block that adds two bytes, compares the sum with a third and answers by a
/// match.
fn piece(writer: &mut Writer, k: usize) -> Id {
    let (bit, byte) = (writer.bit(), writer.word(8));
    let [a, b, c] = [k, 3 * k, 4 * k].map(|number| writer.word_constant(8, number % 256));
    let assign = sum_to(writer, 2 * k, a, b);
    let sum = writer.variable(byte, 2 * k);
    let same = writer.record("cj", &[bit, 0, 1, 2, sum, c]);
    let other = writer.name_pattern(2 * k + 1);
    let nothing = writer.record("pn", &[]);
    let (less, more) = (
        writer.variable(byte, 2 * k),
        writer.word_constant(8, k % 256),
    );
    let end = writer.record("em", &[byte, same, nothing, less, other, more]);
    writer.block(&[assign], end)
}

/// A tuple of such blocks, in `count` records: patterns that nobody names fill
/// it up.
pub fn records(count: usize) -> Case {
    let mut writer = Writer::new();
    let mut pieces = Vec::new();
    while pieces.len() < 256 {
        let mut longer = writer.clone();
        let mut row = pieces.clone();
        row.push(piece(&mut longer, pieces.len()));
        longer.tuple_expression(&row);
        if longer.count() > count {
            break;
        }
        pieces.push(piece(&mut writer, pieces.len()));
    }
    let mut whole = writer.clone();
    whole.tuple_expression(&pieces);
    for _ in whole.count()..count {
        writer.record("pn", &[]);
    }
    writer.tuple_expression(&pieces);
    case(&writer)
}

/// `count` records: types, no two alike, and at the end an expression if READ is
/// to accept them.
pub fn types(count: usize, expression: bool) -> Case {
    let mut writer = Writer::new();
    let mut next = writer.unit();
    let mut pairs = (0..).flat_map(|b: usize| (0..=b).map(move |a| (a, b)));
    while writer.count() + usize::from(expression) < count {
        let (a, b) = pairs.next().expect("there is no end of pairs");
        next = writer.sum(b, a);
        if writer.count() + usize::from(expression) < count {
            next = writer.product(b, a);
        }
    }
    if expression {
        writer.record("ew", &[next, 0]);
    }
    case(&writer)
}

/// A constant of 2 to the 250 leaves, bound by a pattern that has a name at the
/// last of them alone.
fn shared_patterns() -> Case {
    let mut writer = Writer::new();
    let mut value = writer.unit_value();
    let mut nameless = writer.record("pn", &[]);
    let mut pattern = writer.name_pattern(7);
    for _ in 0..250 {
        let half = writer.ty(value);
        let ty = writer.product(half, half);
        value = writer.pair_value(ty, value, value);
        pattern = writer.row_pattern(&[nameless, pattern]);
        nameless = writer.row_pattern(&[nameless, nameless]);
    }
    let e = writer.constant(value);
    let assign = writer.record("sa", &[pattern, e]);
    let unit = writer.unit();
    let end = writer.variable(unit, 7);
    writer.block(&[assign], end);
    case(&writer)
}

/// A loop that adds its counter to a byte and never stops.
pub fn counted(width: usize) -> Case {
    let mut writer = Writer::new();
    let (unit, byte) = (writer.unit(), writer.word(8));
    let (sum, counter) = (writer.sum(unit, byte), writer.word(width));
    let [a, b] = [1, 1].map(|name| writer.variable(byte, name));
    let assign = sum_to(&mut writer, 4, a, b);
    let next = writer.variable(byte, 4);
    let on = writer.record("e1", &[sum, next]);
    let body = writer.block(&[assign], on);
    let function = writer.function(&[(1, byte), (2, unit), (3, counter)], body);
    let (start, context) = (writer.word_constant(8, 1), writer.unit_expression());
    writer.record("cw", &[sum, function, width, start, context]);
    case(&writer)
}

/// A fold of sixteen rows, each of which is folded, sixteen bytes to a sum.
fn nested_folds() -> Case {
    let mut writer = Writer::new();
    let byte = writer.word(8);
    let row = writer.array(byte, 16);
    let [a, b] = [1, 2].map(|name| writer.variable(byte, name));
    let assign = sum_to(&mut writer, 3, a, b);
    let end = writer.variable(byte, 3);
    let body = writer.block(&[assign], end);
    let inner = writer.function(&[(1, byte), (2, byte)], body);
    let [bytes, start] = [(row, 4), (byte, 5)].map(|(ty, name)| writer.variable(ty, name));
    let body = writer.record("cy", &[byte, inner, 16, bytes, start]);
    let outer = writer.function(&[(4, row), (5, byte)], body);
    let rows: Vec<Id> = (0..16)
        .map(|k| {
            let row: Vec<Id> = (0..16)
                .map(|j| writer.word_constant(8, 16 * k + j))
                .collect();
            writer.tuple_expression(&row)
        })
        .collect();
    let (rows, start) = (writer.tuple_expression(&rows), writer.word_constant(8, 0));
    writer.record("cy", &[byte, outer, 16, rows, start]);
    case(&writer)
}

/// A function of two bytes that adds them, compares the sum with the second,
/// and by a match calls the function before it, or gives one of the three.
fn function(writer: &mut Writer, before: Option<Id>) -> Id {
    let (bit, byte) = (writer.bit(), writer.word(8));
    let [a, b] = [1, 2].map(|name| writer.variable(byte, name));
    let assign = sum_to(writer, 3, a, b);
    let [sum, second] = [3, 2].map(|name| writer.variable(byte, name));
    let same = writer.record("cj", &[bit, 0, 1, 2, sum, second]);
    let nothing = writer.record("pn", &[]);
    let arms = [(1, 3), (3, 2)].map(|(x, y)| {
        let [x, y] = [x, y].map(|name| writer.variable(byte, name));
        match before {
            Some(function) => writer.record("cf", &[byte, function, 2, x, y]),
            None => {
                let sum = sum_to(writer, 4, x, y);
                let end = writer.variable(byte, 4);
                writer.block(&[sum], end)
            }
        }
    });
    let end = writer.record("em", &[byte, same, nothing, arms[0], nothing, arms[1]]);
    let body = writer.block(&[assign], end);
    writer.function(&[(1, byte), (2, byte)], body)
}

fn call(writer: &mut Writer, function: Id) -> Id {
    let byte = writer.word(8);
    let [a, b] = [3, 4].map(|number| writer.word_constant(8, number));
    writer.record("cf", &[byte, function, 2, a, b])
}

/// How many nodes a book is lowered to, if they fit.
fn lowered(writer: &Writer) -> Option<usize> {
    let mut table = vec![0; 5 * 65_535];
    model::lower::lower(&writer.bytes(), false, &mut table).ok()
}

/// A book that is lowered to `count` nodes: a tuple of calls of such functions,
/// each of which calls the one before it twice. Empty tuples fill it up.
pub fn nodes(count: usize) -> Case {
    let mut writer = Writer::new();
    // Each function, and how many nodes a call of it is, with the pair before.
    let mut functions: Vec<(Id, usize)> = Vec::new();
    loop {
        let mut longer = writer.clone();
        let newest = function(&mut longer, functions.last().map(|one| one.0));
        let mut whole = longer.clone();
        call(&mut whole, newest);
        match lowered(&whole) {
            Some(size) if size <= count => functions.push((newest, size + 1)),
            _ => break,
        }
        writer = longer;
    }
    let (mut parts, mut left) = (Vec::new(), count + 1);
    while left > 0 {
        let fits = functions.iter().rev().find(|one| one.1 <= left);
        parts.push(match fits {
            Some(&(function, size)) => {
                left -= size;
                call(&mut writer, function)
            }
            None if left % 2 == 1 => {
                left -= 3;
                let (bit, inner) = (writer.bit(), writer.unit_expression());
                writer.record("e0", &[bit, inner])
            }
            None => {
                left -= 2;
                writer.unit_expression()
            }
        });
    }
    writer.tuple_expression(&parts);
    case(&writer)
}

/// Many folds of empty lists, by a function that gives its accumulator.
fn list_folds(count: usize, bound: usize) -> Case {
    let mut writer = Writer::new();
    let unit = writer.unit();
    let list = writer.list(unit, bound);
    let kept = writer.variable(unit, 2);
    let function = writer.function(&[(1, unit), (2, unit)], kept);
    let folds: Vec<Id> = (0..count)
        .map(|_| {
            let none = writer.record("el", &[list, bound, 0]);
            let start = writer.unit_expression();
            writer.record("cq", &[unit, function, bound, none, start])
        })
        .collect();
    writer.tuple_expression(&folds);
    case(&writer)
}

/// Many loops that stop at their first count.
fn loops(count: usize, width: usize) -> Case {
    let mut writer = Writer::new();
    let (unit, bit, counter) = (writer.unit(), writer.bit(), writer.word(width));
    let start = writer.variable(unit, 1);
    let stop = writer.record("e0", &[bit, start]);
    let function = writer.function(&[(1, unit), (2, unit), (3, counter)], stop);
    let loops: Vec<Id> = (0..count)
        .map(|_| {
            let [start, context] = [(); 2].map(|()| writer.unit_expression());
            writer.record("cw", &[bit, function, width, start, context])
        })
        .collect();
    writer.tuple_expression(&loops);
    case(&writer)
}

/// Many matches of 256 arms, each on the first variant.
fn wide_matches(count: usize) -> Case {
    let mut writer = Writer::new();
    let (unit, nothing) = (writer.unit(), writer.record("pn", &[]));
    let ty = writer.variants(&[unit; 256]);
    let matches: Vec<Id> = (0..count)
        .map(|_| {
            let first = writer.record("en", &[ty, 0, 256, 0]);
            let arms: Vec<Id> = (0..256)
                .flat_map(|_| [nothing, writer.unit_expression()])
                .collect();
            writer.row("eh", &[unit, first], 2, &arms, &[])
        })
        .collect();
    writer.tuple_expression(&matches);
    case(&writer)
}

/// All that the calls are compared on: `vault` is the example of five arms.
pub fn all(vault: Case) -> Vec<Given> {
    let mut full = types(10_922, false);
    full.book.resize(65_535, 0);
    [
        ("a block of 200 bindings", block(200)),
        ("4,096 records", records(4_096)),
        ("65,535 bytes of types", full),
        ("4,095 types", types(4_096, true)),
        ("a vault of five arms", vault),
        ("shared patterns", shared_patterns()),
        ("a loop of width 8", counted(8)),
        ("nested folds", nested_folds()),
        ("65,535 nodes", nodes(65_535)),
        ("150 list folds of bound 256", list_folds(150, 256)),
        ("60 loops of width 16", loops(60, 16)),
        ("15 matches of 256 arms", wide_matches(15)),
    ]
    .map(|(label, case)| Given::new(label, case))
    .into()
}
