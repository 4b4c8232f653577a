//! Books made to be dear: shared a thousandfold, deep, wide, full. Each is
//! what READ accepts, but for those that stand just beyond an edge.

use std::sync::OnceLock;

use crate::rng::Rng;
use crate::writer::{Id, Writer, NO_END};
use crate::Case;

/// What is nested in itself.
const NESTED: [&str; 6] = ["e0", "eb", "em", "cf", "ck", "cd"];

/// Every hostile book.
pub fn all() -> Vec<Case> {
    let mut cases = vec![
        shared_patterns(250, Some(7)),
        shared_patterns(250, None),
        last_of_shared_patterns(250),
        wide_patterns(),
        doubling_calls(80),
        copied_bindings(),
        doubling_folds(100),
        doubled_values(250),
        full_scope(),
        long_blocks(),
        arms_in_arms(),
        records(4_096),
        records(4_097),
        full_types(),
        full_rows(),
        full_book(),
        of_size(0),
        of_size(65_536),
    ];
    for depth in [253, 254, 255, 256] {
        cases.extend(NESTED.iter().map(|mark| deep(mark, depth)));
    }
    cases
}

/// They are made once.
static ALL: OnceLock<Vec<Case>> = OnceLock::new();

/// One of the shapes above in some size. A few are as large as a book can be.
pub fn shaped(rng: &mut Rng) -> Case {
    let depth = rng.within(1, 40);
    match rng.weighted(&[8, 4, 4, 4, 6, 6, 8, 1, 1]) {
        0 => shared_patterns(depth, rng.chance(1, 2).then_some(7)),
        1 => last_of_shared_patterns(depth),
        2 => doubling_calls(depth / 4),
        3 => doubling_folds(depth / 4),
        4 => doubled_values(depth),
        5 => bindings(rng.within(250, 260)),
        6 => {
            let edge = rng.within(250, 256);
            let depth = *rng.pick(&[depth, edge]);
            deep(rng.pick::<&str>(&NESTED), depth)
        }
        7 => records(rng.within(4_090, 4_100)),
        _ => rng.pick(ALL.get_or_init(all)).clone(),
    }
}

/// The type of `depth` products of a type with itself.
fn doubled(writer: &mut Writer, depth: usize) -> Id {
    (0..depth).fold(writer.unit(), |ty, _| writer.product(ty, ty))
}

/// A block that binds `pattern` to a witness of the type and asks for `name`.
fn bind(writer: &mut Writer, pattern: Id, ty: Id, name: usize) {
    let unit = writer.unit();
    let e = writer.record("ew", &[ty, 0]);
    let assign = writer.record("sa", &[pattern, e]);
    let end = writer.variable(unit, name);
    writer.block(&[assign], end);
}

/// A pattern of 2 to the `depth` leaves in `depth` records; each leaf is the
/// name, or none is.
fn shared_patterns(depth: usize, name: Option<usize>) -> Case {
    let mut writer = Writer::new();
    let ty = doubled(&mut writer, depth);
    let mut pattern = match name {
        Some(name) => writer.name_pattern(name),
        None => writer.record("pn", &[]),
    };
    for _ in 0..depth {
        pattern = writer.row_pattern(&[pattern, pattern]);
    }
    bind(&mut writer, pattern, ty, 7);
    Case::plain(format!("shared patterns {depth}, {name:?}"), &writer)
}

/// The same with the name at the very last leaf alone: it fits its type.
fn last_of_shared_patterns(depth: usize) -> Case {
    let mut writer = Writer::new();
    let ty = doubled(&mut writer, depth);
    let mut nameless = writer.record("pn", &[]);
    let mut pattern = writer.name_pattern(7);
    for _ in 0..depth {
        pattern = writer.row_pattern(&[nameless, pattern]);
        nameless = writer.row_pattern(&[nameless, nameless]);
    }
    bind(&mut writer, pattern, ty, 7);
    Case::plain(format!("last of shared patterns {depth}"), &writer)
}

/// Rows of 256 in rows of 256, thirty deep, and a name that is in none.
fn wide_patterns() -> Case {
    let mut writer = Writer::new();
    let unit = writer.unit();
    let mut pattern = writer.name_pattern(6);
    for _ in 0..30 {
        pattern = writer.row_pattern(&vec![pattern; 256]);
    }
    bind(&mut writer, pattern, unit, 7);
    Case::plain("wide patterns".to_string(), &writer)
}

/// Functions that each call the one before twice.
fn doubling_calls(depth: usize) -> Case {
    let mut writer = Writer::new();
    let mut body = writer.unit_expression();
    for _ in 0..depth {
        let ty = writer.ty(body);
        let function = writer.function(&[], body);
        let (a, b) = (
            writer.record("cf", &[ty, function, 0]),
            writer.record("cf", &[ty, function, 0]),
        );
        body = writer.tuple_expression(&[a, b]);
    }
    Case::plain(format!("doubling calls {depth}"), &writer)
}

/// The same, and each copy binds three thousand names.
fn copied_bindings() -> Case {
    let mut writer = Writer::new();
    let unit = writer.unit();
    let names: Vec<Id> = (0..3_000).map(|name| writer.name_pattern(name)).collect();
    let rows: Vec<Id> = names
        .chunks(250)
        .map(|row| writer.row_pattern(row))
        .collect();
    let pattern = writer.row_pattern(&rows);
    let mut body = writer.unit_expression();
    for _ in 0..60 {
        let function = writer.function(&[], body);
        let calls = [(), ()].map(|()| writer.record("cf", &[unit, function, 0]));
        let bound = writer.unit_expression();
        let assign = writer.record("sa", &[pattern, bound]);
        let statements = [writer.record("se", &[calls[0]]), assign];
        body = writer.block(&statements, calls[1]);
    }
    Case::plain("copied bindings".to_string(), &writer)
}

/// Functions that each fold an array of two with the one before.
fn doubling_folds(depth: usize) -> Case {
    let mut writer = Writer::new();
    let unit = writer.unit();
    let mut body = writer.unit_expression();
    for _ in 0..depth {
        let function = writer.function(&[(0, unit), (1, unit)], body);
        let elements = [writer.unit_expression(), writer.unit_expression()];
        let (array, start) = (writer.tuple_expression(&elements), writer.unit_expression());
        body = writer.record("cy", &[unit, function, 2, array, start]);
    }
    Case::plain(format!("doubling folds {depth}"), &writer)
}

/// A constant of 2 to the `depth` leaves.
fn doubled_values(depth: usize) -> Case {
    let mut writer = Writer::new();
    let mut value = writer.unit_value();
    for _ in 0..depth {
        let ty = writer.ty(value);
        let pair = writer.product(ty, ty);
        value = writer.pair_value(pair, value, value);
    }
    writer.constant(value);
    Case::plain(format!("doubled values {depth}"), &writer)
}

/// 255 bindings of one wide shared pattern, then variables of its last name.
fn full_scope() -> Case {
    let mut writer = Writer::new();
    let unit = writer.unit();
    let names: Vec<Id> = (0..200).map(|name| writer.name_pattern(name)).collect();
    let row = writer.row_pattern(&names);
    let wide = writer.row_pattern(&vec![row; 200]);
    let asked = writer.name_pattern(999);
    let mut statements = Vec::new();
    for i in 0..255 {
        let e = writer.unit_expression();
        let pattern = if i == 0 { asked } else { wide };
        statements.push(writer.record("sa", &[pattern, e]));
    }
    let variables: Vec<Id> = (0..200).map(|_| writer.variable(unit, 999)).collect();
    let end = writer.row("et", &[unit], 1, &variables, &[]);
    writer.block(&statements, end);
    Case::plain("full scope".to_string(), &writer)
}

/// `count` bindings of the unit in one block and the one around it, and a
/// variable of the first.
fn bindings(count: usize) -> Case {
    let mut writer = Writer::new();
    let unit = writer.unit();
    let bind = |writer: &mut Writer, name: usize| {
        let (pattern, e) = (writer.name_pattern(name), writer.unit_expression());
        writer.record("sa", &[pattern, e])
    };
    let outer: Vec<Id> = (0..200).map(|name| bind(&mut writer, name)).collect();
    let inner: Vec<Id> = (200..count).map(|name| bind(&mut writer, name)).collect();
    let end = writer.variable(unit, 0);
    let end = writer.block(&inner, end);
    writer.block(&outer, end);
    Case::plain(format!("{count} bindings"), &writer)
}

/// Blocks in blocks that bind more than 256 names at once: CHECK's matter.
fn long_blocks() -> Case {
    let mut writer = Writer::new();
    let unit = writer.unit();
    let patterns: Vec<Id> = (0..16).map(|name| writer.name_pattern(name)).collect();
    let mut whole = writer.variable(unit, 3);
    for level in 0..75 {
        let statements: Vec<Id> = (0..16)
            .map(|i| {
                let e = writer.unit_expression();
                writer.record("sa", &[patterns[(i + level) % 16], e])
            })
            .collect();
        whole = writer.block(&statements, whole);
    }
    Case::plain("long blocks".to_string(), &writer)
}

/// Matches of 256 arms, in the arms of one another.
fn arms_in_arms() -> Case {
    let mut writer = Writer::new();
    let unit = writer.unit();
    let ty = writer.variants(&[unit; 256]);
    let pattern = writer.name_pattern(1);
    let mut whole = writer.variable(unit, 1);
    for level in 0..12 {
        let scrutinee = writer.record("en", &[ty, level * 21, 256, 0]);
        let mut arms = Vec::new();
        for arm in 0..256 {
            let e = match arm == level * 21 {
                true => whole,
                false => writer.variable(unit, 1),
            };
            arms.extend([pattern, e]);
        }
        whole = writer.row("eh", &[unit, scrutinee], 2, &arms, &[]);
    }
    Case::plain("arms in arms".to_string(), &writer)
}

/// A book of `count` records.
fn records(count: usize) -> Case {
    let mut writer = Writer::new();
    while writer.count() + 1 < count {
        writer.record("pn", &[]);
    }
    writer.record("eb", &[0, 0, NO_END]);
    let mut case = Case::plain(format!("{count} records"), &writer);
    // The first record is the one type that the last one names.
    case.book[..2].copy_from_slice(b"tu");
    case
}

/// 4,095 types, and one expression of the last.
fn full_types() -> Case {
    let mut writer = Writer::new();
    let mut types = vec![writer.unit()];
    let mut next = 0;
    while writer.count() < 4_095 {
        let (a, b) = (
            types[next / 40 % types.len()],
            types[next % 40 % types.len()],
        );
        let ty = match next % 2 {
            0 => writer.sum(a, b),
            _ => writer.product(a, b),
        };
        if !types.contains(&ty) {
            types.push(ty);
        }
        next += 1;
    }
    writer.record("ew", &[types[types.len() - 1], 0]);
    Case::plain("full of types".to_string(), &writer)
}

/// As many bytes as rows of patterns can fill.
fn full_rows() -> Case {
    let mut writer = Writer::new();
    writer.unit();
    let name = writer.name_pattern(7);
    let mut pattern = name;
    while writer.len() + 516 + 40 <= 65_534 {
        let mut row = vec![pattern; 256];
        row[255] = name;
        pattern = writer.row_pattern(&row);
    }
    let unit = writer.unit();
    bind(&mut writer, pattern, unit, 8);
    Case::plain("full of rows".to_string(), &writer)
}

/// As many bytes as a well typed book can fill, and LOWER accepts: patterns of
/// 256 names, each bound to a witness, and variables of the oldest binding.
fn full_book() -> Case {
    let mut writer = Writer::new();
    let unit = writer.unit();
    let row = writer.array(unit, 256);
    let named: Vec<Id> = (0..255).map(|name| writer.name_pattern(name)).collect();
    let (oldest, nothing) = (writer.name_pattern(999), writer.record("pn", &[]));
    let mut statements = Vec::new();
    for i in 0..119 {
        let mut names = named.clone();
        names.push(if i == 0 { oldest } else { nothing });
        let pattern = writer.row_pattern(&names);
        let e = writer.record("ew", &[row, 0]);
        statements.push(writer.record("sa", &[pattern, e]));
    }
    let variables: Vec<Id> = (0..128)
        .map(|i| writer.variable(unit, [999, i][i % 2]))
        .collect();
    let end = writer.tuple_expression(&variables);
    writer.block(&statements, end);
    Case::plain("full book".to_string(), &writer)
}

/// A book of `size` bytes, which is no size of a book.
fn of_size(size: usize) -> Case {
    let mut case = full_book();
    case.label = format!("{size} bytes");
    case.book.resize(size, 0);
    case
}

/// One construct in itself, `depth` records deep.
fn deep(mark: &str, depth: usize) -> Case {
    let mut writer = Writer::new();
    let unit = writer.unit();
    let nothing = writer.record("pn", &[]);
    // The unit type below the innermost expression is one deep itself; a
    // match's scrutinee, a constant bit, is four deep.
    let mut whole = writer.unit_expression();
    let mut ty = unit;
    let mut at = if mark == "em" { 4 } else { 2 };
    while at < depth {
        let function = match mark {
            "cf" if at + 2 <= depth => {
                at += 1;
                Some(writer.function(&[], whole))
            }
            _ => None,
        };
        whole = match (mark, function) {
            ("cf", Some(function)) => writer.record("cf", &[unit, function, 0]),
            ("eb", _) => writer.row("eb", &[unit], 1, &[], &[whole]),
            ("em", _) => {
                let (scrutinee, other) = (writer.word_constant(1, at), writer.unit_expression());
                writer.record("em", &[unit, scrutinee, nothing, whole, nothing, other])
            }
            ("cd", _) => writer.record("cd", &[unit, at, whole]),
            ("e0", _) => {
                ty = writer.sum(ty, unit);
                writer.record("e0", &[ty, whole])
            }
            _ => writer.record("ck", &[unit, whole]),
        };
        at += 1;
    }
    Case::plain(format!("{mark} {depth} deep"), &writer)
}
