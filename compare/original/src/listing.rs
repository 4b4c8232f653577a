//! The listing of a node table.

/// Each kind's name, and how many of its operands are shown.
const KINDS: [(&str, usize); 15] = [
    ("iden", 0),
    ("unit", 0),
    ("injl", 1),
    ("injr", 1),
    ("take", 1),
    ("drop", 1),
    ("comp", 2),
    ("case", 2),
    ("pair", 2),
    ("assertl", 2),
    ("assertr", 2),
    ("fail", 0),
    ("witness", 2),
    ("scribe", 1),
    ("jet", 1),
];

/// Document 01's listing of a node table, five bytes a node.
pub fn listing(nodes: &[u8]) -> String {
    let (nodes, odd) = nodes.as_chunks::<5>();
    assert!(odd.is_empty(), "a node has five bytes");
    let mut text = format!("nodes {}\n", nodes.len());
    for (number, [kind, a, b, c, d]) in nodes.iter().enumerate() {
        let (name, shown) = KINDS[usize::from(*kind) - 1];
        text += &format!("{number} {name}");
        let operands = [u16::from_le_bytes([*a, *b]), u16::from_le_bytes([*c, *d])];
        for operand in &operands[..shown] {
            text += &format!(" {operand}");
        }
        text.push('\n');
    }
    text
}
