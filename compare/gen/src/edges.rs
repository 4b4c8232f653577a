//! Node tables made by hand, at every edge of RUN: each shape that each node
//! can meet, each number that the table check judges, depth, counts, lengths,
//! cells and witness entries on both sides of their limits.

use model::lower::node::*;

use crate::stock::*;
use crate::writer::Writer;
use crate::Case;

/// How deep a node may be entered.
const DEEPEST: u16 = 4_096;

/// Every table made by hand.
pub fn all() -> Vec<Table> {
    let stock = &Stock::new();
    [
        shapes(stock),
        judged(stock),
        counts(),
        full_tables(),
        depths(),
        walks(),
        orders(),
        full_cells(),
        witnesses(stock),
        empties(),
    ]
    .concat()
}

/// A table beside a book of no values.
fn plain(label: String, nodes: &[Node]) -> Table {
    let mut writer = Writer::new();
    writer.unit_expression();
    Table {
        case: Case::plain(label, &writer),
        nodes: bytes(nodes),
        count: nodes.len() as u32,
    }
}

/// Each node that looks at its input, on each value of the stock.
fn shapes(stock: &Stock) -> Vec<Table> {
    let mut tables = Vec::new();
    for &(record, ..) in &stock.values {
        let first = [(IDEN, 0, 0), (TAKE, 0, 0), (SCRIBE, record, 0)];
        let mut looking = vec![
            (TAKE, 0, 0),
            (DROP, 0, 0),
            (CASE, 0, 1),
            (ASSERTL, 0, 777),
            (ASSERTR, 777, 0),
        ];
        looking.extend((0..4).map(|jet| (JET, jet, 0)));
        for node in looking {
            let nodes = [&first[..], &[node, (COMP, 2, 3)]].concat();
            let label = format!("{node:?} on value {record}");
            tables.push(stock.table(label, Vec::new(), &nodes));
        }
    }
    tables
}

/// Each number that the table check judges, good and bad, in a node that is
/// run and in one that is not.
fn judged(stock: &Stock) -> Vec<Table> {
    let (value, of_type, _) = stock.values[0];
    let mut nodes: Vec<Node> = [0, 16, 17, 255].map(|kind| (kind, 0, 0)).to_vec();
    for child in [0, 1, 2, 65_535] {
        nodes.extend([INJL, INJR, TAKE, DROP, ASSERTL].map(|kind| (kind, child, 9)));
        nodes.extend([COMP, CASE, PAIR].map(|kind| (kind, child, 0)));
        nodes.extend([COMP, CASE, PAIR, ASSERTR].map(|kind| (kind, 0, child)));
    }
    for number in [of_type, value, stock.records - 1, stock.records, 65_535] {
        nodes.extend([(WITNESS, 0, number), (SCRIBE, number, 9)]);
    }
    let jets = [0, 1, 2, 3, 4, 5, 6, 7, 8, 9, 10, 11, 255, 256, 258, 65_535];
    nodes.extend(jets.map(|jet| (JET, jet, 9)));
    let table = |node: &Node, nodes: &[Node]| {
        let label = format!("{node:?} among {}", nodes.len());
        stock.table(label, value.to_le_bytes().to_vec(), nodes)
    };
    let unit = (UNIT, 0, 0);
    let both = |node: &Node| {
        [
            table(node, &[unit, *node]),
            table(node, &[unit, *node, unit]),
        ]
    };
    nodes.iter().flat_map(both).collect()
}

/// Counts beside tables of other lengths.
fn counts() -> Vec<Table> {
    let nodes = [(UNIT, 0, 0), (INJL, 0, 0), (0, 0, 0)];
    let mut tables = Vec::new();
    for count in [0, 1, 2, 3, 4, 65_534, 65_535, 65_536, 65_537, u32::MAX] {
        for length in [0, 1, 4, 5, 9, 10, 14, 15] {
            let mut table = plain(format!("{count} nodes in {length} bytes"), &nodes);
            table.nodes.truncate(length);
            table.count = count;
            tables.push(table);
        }
    }
    tables
}

/// Tables with as many nodes as may be, one more, and a byte less.
fn full_tables() -> Vec<Table> {
    let full = |last: Node, more: usize| {
        let mut nodes = vec![(UNIT, 0, 0); 65_534];
        nodes.push(last);
        nodes.extend(vec![(UNIT, 0, 0); more]);
        plain(format!("{} nodes, {last:?}", nodes.len()), &nodes)
    };
    let mut short = full((INJL, 65_533, 0), 0);
    short.nodes.pop();
    vec![
        full((PAIR, 65_533, 65_532), 0),
        full((PAIR, 65_533, 65_534), 0),
        full((COMP, 0, 65_533), 1),
        short,
    ]
}

/// `n` nodes of one kind, each made of the one before: an operand of `like`
/// that is 1 is the node before, and one that is 0 is node 0.
fn chain(nodes: &mut Vec<Node>, n: u16, like: Node) -> u16 {
    for _ in 0..n {
        let before = nodes.len() as u16 - 1;
        nodes.push((like.0, like.1 * before, like.2 * before));
    }
    nodes.len() as u16 - 1
}

/// Nodes as deep as may be and one deeper, by each way down: of one that is too
/// deep nothing else is judged.
fn depths() -> Vec<Table> {
    let ways = [
        (INJL, 1, 0),
        (INJR, 1, 0),
        (COMP, 1, 0),
        (COMP, 0, 1),
        (PAIR, 1, 0),
        (PAIR, 0, 1),
    ];
    let ends = [
        (IDEN, 0, 0),
        (FAIL, 0, 0),
        (WITNESS, 9, 0),
        (JET, 0, 0),
        (JET, 3, 0),
    ];
    let mut tables = Vec::new();
    for way in ways {
        for end in ends {
            for depth in [DEEPEST, DEEPEST + 1] {
                let mut nodes = vec![(UNIT, 0, 0), end];
                chain(&mut nodes, depth - 1, way);
                tables.push(plain(format!("{end:?} {depth} deep by {way:?}"), &nodes));
            }
        }
    }
    tables
}

/// As deep a walk into a value as may be, and one step more. The value is
/// deeper than a run: two nodes put it together in turn.
fn walks() -> Vec<Table> {
    let ways = [
        ((PAIR, 1, 0), (TAKE, 1, 0)),
        ((PAIR, 0, 1), (DROP, 1, 0)),
        ((INJL, 1, 0), (CASE, 1, 0)),
        ((INJR, 1, 0), (CASE, 0, 1)),
        ((INJL, 1, 0), (ASSERTL, 1, 0)),
        ((INJR, 1, 0), (ASSERTR, 0, 1)),
    ];
    let mut tables = Vec::new();
    for (build, walk) in ways {
        for steps in [DEEPEST - 2, DEEPEST - 1] {
            let mut nodes = vec![(UNIT, 0, 0), (IDEN, 0, 0)];
            let half = chain(&mut nodes, DEEPEST / 2, build);
            nodes.push((COMP, half, half));
            // A sum is walked into beside a unit.
            let beside = u16::from(build.0 != PAIR);
            let whole = chain(&mut nodes, beside, (PAIR, 1, 0));
            nodes.push((IDEN, 0, 0));
            let last = chain(&mut nodes, steps, walk);
            nodes.push((COMP, whole, last));
            tables.push(plain(format!("{steps} steps by {walk:?}"), &nodes));
        }
    }
    tables
}

/// What is met first: the left operand, and at a node the jet before the shape.
fn orders() -> Vec<Table> {
    let ends = [
        (FAIL, 0, 0),
        (JET, 0, 0),
        (JET, 3, 0),
        (TAKE, 0, 0),
        (UNIT, 0, 0),
    ];
    let mut tables = Vec::new();
    for first in ends {
        for second in ends {
            for kind in [PAIR, COMP] {
                let nodes = [(UNIT, 0, 0), first, second, (INJR, 1, 0), (kind, 3, 2)];
                let label = format!("{kind} of {first:?} and {second:?}");
                tables.push(plain(label, &nodes));
            }
        }
    }
    tables
}

/// As many cells as may be, and one more. Node k + 1 makes 2 to the k pairs.
fn full_cells() -> Vec<Table> {
    let mut nodes = vec![(IDEN, 0, 0), (PAIR, 0, 0)];
    chain(&mut nodes, 15, (COMP, 1, 1));
    // Cell 0, and 2 + 4 + ... + 2 to the 15 pairs, are 65,535.
    let mut whole = 2;
    for power in 3..=16 {
        nodes.push((COMP, whole, power));
        whole = nodes.len() as u16 - 1;
    }
    let full = plain("65,535 cells".to_string(), &nodes);
    nodes.push((COMP, whole, 1));
    vec![full, plain("65,536 cells".to_string(), &nodes)]
}

/// A witness whose entry is there, is cut, is absent or is no such value.
fn witnesses(stock: &Stock) -> Vec<Table> {
    let ((value, of_type, _), (other, another, _)) = (&stock.values[0], &stock.values[1]);
    let (pattern, last, absent) = (stock.records - 2, stock.records - 1, stock.records);
    let mut tables = Vec::new();
    for name in [0, 1, 255, 256, 65_535] {
        for entry in [*value, *other, *another, pattern, last, absent, 65_535] {
            let mut list = vec![0; 2 * usize::from(name)];
            list.extend(entry.to_le_bytes());
            let node = [(WITNESS, name, *of_type)];
            let label = |less: &str| format!("witness {name} is record {entry}{less}");
            tables.push(stock.table(label(""), list.clone(), &node));
            let cut = list[..list.len() - 1].to_vec();
            tables.push(stock.table(label(", a byte less"), cut, &node));
            list.push(7);
            tables.push(stock.table(label(", a byte more"), list, &node));
        }
    }
    tables
}

/// Nothing for the book, the witness list, the nodes, in every way.
fn empties() -> Vec<Table> {
    let mut tables = Vec::new();
    for which in 0..8 {
        for count in [0, 1] {
            let mut table = plain(format!("empty slices {which}, {count}"), &[(UNIT, 0, 0)]);
            table.count = count;
            table.case.witnesses = vec![0, 0];
            let slices = [
                &mut table.case.book,
                &mut table.case.witnesses,
                &mut table.nodes,
            ];
            for (bit, slice) in slices.into_iter().enumerate() {
                if which >> bit & 1 == 1 {
                    slice.clear();
                }
            }
            tables.push(table);
        }
    }
    tables
}
