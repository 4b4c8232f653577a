//! Books that drive each search of READ, CHECK and LOWER, and LOWER's recursion,
//! as far as 65,535 bytes, 4,096 records and 65,535 nodes allow. What is dear of
//! a book is said beside it.

use gen::writer::{Id, Writer};
use gen::Case;

use crate::calls::Given;

/// What every book ends in must have room too.
const BYTES: usize = 65_535 - 200;
const RECORDS: usize = 4_096 - 40;

fn has_room(writer: &Writer, records: usize, bytes: usize) -> bool {
    writer.len() + records * bytes < BYTES && writer.count() + records < RECORDS
}

/// A statement that binds a pattern to a witness.
fn bind(writer: &mut Writer, pattern: Id, ty: Id) -> Id {
    let e = writer.record("ew", &[ty, 0]);
    writer.record("sa", &[pattern, e])
}

/// The book: its statements in blocks, in the last of which stand `variables`
/// variables of the name 7, all of unit, in tuples.
fn whole(mut writer: Writer, statements: &[Id], variables: usize) -> Case {
    let unit = writer.unit();
    let all: Vec<Id> = (0..variables).map(|_| writer.variable(unit, 7)).collect();
    let rows: Vec<Id> = all
        .chunks(256)
        .map(|row| writer.tuple_expression(row))
        .collect();
    let mut end = writer.tuple_expression(&rows);
    for some in statements.chunks(256).rev() {
        end = writer.block(some, end);
    }
    Case::plain(String::new(), &writer)
}

/// A name behind 64 rows of 256 places.
fn wide_scope() -> Case {
    let mut writer = Writer::new();
    let (unit, nothing) = (writer.unit(), writer.record("pn", &[]));
    let row = writer.array(unit, 256);
    let name = writer.name_pattern(7);
    let mut statements = vec![bind(&mut writer, name, unit)];
    for _ in 0..64 {
        let pattern = writer.row_pattern(&[nothing; 256]);
        statements.push(bind(&mut writer, pattern, row));
    }
    whole(writer, &statements, 3_600)
}

/// A name behind 1,300 bindings of another; LOWER refuses so many.
fn long_scope() -> Case {
    let mut writer = Writer::new();
    let unit = writer.unit();
    let (asked, other) = (writer.name_pattern(7), writer.name_pattern(8));
    let names = [vec![asked], vec![other; 1_300]].concat();
    let statements: Vec<Id> = names
        .iter()
        .map(|&name| bind(&mut writer, name, unit))
        .collect();
    whole(writer, &statements, 1_400)
}

/// A name behind eight patterns that are 250 rows deep and share nothing.
fn deep_scope() -> Case {
    let mut writer = Writer::new();
    let unit = writer.unit();
    let deep = (0..250).fold(unit, |deep, _| writer.product(unit, deep));
    let (nothing, name) = (writer.record("pn", &[]), writer.name_pattern(7));
    let mut statements = vec![bind(&mut writer, name, unit)];
    for _ in 0..8 {
        let other = writer.name_pattern(8);
        let pattern = (0..250).fold(other, |row, _| writer.row_pattern(&[nothing, row]));
        statements.push(bind(&mut writer, pattern, deep));
    }
    whole(writer, &statements, 1_700)
}

/// Layers of rows of 24, each of which leads four and five layers down in layers
/// of types: a row meets many types.
fn pairs() -> Case {
    let mut writer = Writer::new();
    let unit = writer.unit();
    let mut types = vec![unit];
    while types.len() < 11 {
        types.push(writer.sum(unit, types[types.len() - 1]));
    }
    for _ in 0..240 {
        types = (0..11)
            .map(|k| writer.product(types[k], types[(k + 1) % 11]))
            .collect();
    }
    let mut rows = vec![writer.record("pn", &[]); 15];
    // Five layers of types for each: more rows would not fit the types.
    for _ in 0..48 {
        rows = (0..15)
            .map(|k| {
                let row: Vec<Id> = (0..24).map(|j| rows[(k + j) % 15]).collect();
                writer.row_pattern(&row)
            })
            .collect();
    }
    let statements: Vec<Id> = (0..30)
        .map(|k| bind(&mut writer, rows[k % 15], types[k % 11]))
        .collect();
    whole(writer, &statements, 0)
}

/// Rows over one another, without a name.
fn nameless_rows() -> Case {
    let mut writer = Writer::new();
    let mut rows = vec![writer.record("pn", &[]); 16];
    while has_room(&writer, 16, 16) {
        rows = (0..16)
            .map(|k| {
                let row: Vec<Id> = (0..6).map(|j| rows[(k + j) % 16]).collect();
                writer.row_pattern(&row)
            })
            .collect();
    }
    whole(writer, &[], 0)
}

/// Chains of 250 rows, each with a name of its own.
fn named_rows() -> Case {
    let mut writer = Writer::new();
    while has_room(&writer, 500, 6) {
        let mut row = writer.record("pn", &[]);
        for _ in 0..250 {
            let name = writer.name_pattern(writer.count());
            row = writer.row_pattern(&[row, name]);
        }
    }
    whole(writer, &[], 0)
}

/// Sums that all come into one of the chains in which READ looks for alike
/// types: `crates/book/src/read.rt` says which.
fn one_chain() -> Case {
    let mut writer = Writer::new();
    let mut next = writer.unit();
    let mut pairs = (0..).flat_map(|b: usize| (0..=b).map(move |a| (b, a)));
    while writer.count() < 4_095 {
        let (a, b) = pairs.next().expect("there is no end of pairs");
        if writer.count() < 600 || (67 * a + 2 * b) % 1_024 == 5 {
            next = writer.sum(a, b);
        }
    }
    writer.record("ew", &[next, 0]);
    Case::plain(String::new(), &writer)
}

/// Functions that call the one before twice, the first of which holds two
/// constants: LOWER does little but enter and leave its own functions.
fn bare_calls() -> Case {
    let mut writer = Writer::new();
    let constants = [5, 6].map(|number| writer.word_constant(8, number));
    let mut body = writer.tuple_expression(&constants);
    for _ in 0..13 {
        let (ty, function) = (writer.ty(body), writer.function(&[], body));
        let calls = [(); 2].map(|()| writer.record("cf", &[ty, function, 0]));
        body = writer.tuple_expression(&calls);
    }
    Case::plain(String::new(), &writer)
}

/// All of them.
pub fn all() -> Vec<Given> {
    [
        ("3,500 types of one chain", one_chain()),
        ("3,600 variables behind 16,384 places", wide_scope()),
        ("1,400 variables behind 1,300 bindings", long_scope()),
        (
            "1,700 variables behind eight patterns 250 deep",
            deep_scope(),
        ),
        ("rows of 24 against types, many pairs", pairs()),
        ("rows without a name", nameless_rows()),
        ("rows with a name each, 250 deep", named_rows()),
        (
            "16,383 calls of functions that hold nothing else",
            bare_calls(),
        ),
    ]
    .map(|(label, case)| Given::new(label, case))
    .into()
}
