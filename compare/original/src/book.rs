//! A book's records. The book is one that READ accepts; nothing is judged here.

pub struct Record {
    pub number: u16,
    pub mark: [u8; 2],
    pub fields: Vec<u16>,
}

/// How many fields a mark has: `fixed`, and `group` for each one that the
/// field at `count` counts.
struct Shape {
    fixed: usize,
    count: usize,
    group: usize,
}

fn shape(mark: [u8; 2]) -> Shape {
    let (fixed, count, group) = match &mark {
        b"tu" | b"pn" => (0, 0, 0),
        b"vu" | b"pi" | b"se" => (1, 0, 0),
        b"ts" | b"tp" | b"vl" | b"vr" | b"ec" | b"ew" | b"ev" => (2, 0, 0),
        b"e0" | b"e1" | b"sa" | b"cp" | b"cn" | b"ck" => (2, 0, 0),
        b"vp" | b"cl" | b"cr" | b"cd" | b"ca" => (3, 0, 0),
        b"cq" | b"cy" | b"cw" => (5, 0, 0),
        b"em" => (6, 0, 0),
        b"pt" => (1, 0, 1),
        b"et" => (2, 1, 1),
        b"eb" => (3, 1, 1),
        b"el" | b"cf" => (3, 2, 1),
        b"en" | b"cj" => (4, 3, 1),
        b"fn" => (3, 1, 2),
        b"eh" | b"ch" => (3, 2, 2),
        _ => panic!("{mark:?} is no mark: READ would refuse this book"),
    };
    Shape {
        fixed,
        count,
        group,
    }
}

pub fn records(book: &[u8]) -> Vec<Record> {
    let (pairs, odd) = book.as_chunks::<2>();
    assert!(odd.is_empty(), "a book has no odd byte");
    let mut records = Vec::new();
    let mut rest = pairs;
    while let [mark, after @ ..] = rest {
        let shape = shape(*mark);
        let field = |pair: &[u8; 2]| u16::from_le_bytes(*pair);
        let counted = match shape.group {
            0 => 0,
            group => group * usize::from(field(&after[shape.count])),
        };
        let (fields, next) = after.split_at(shape.fixed + counted);
        records.push(Record {
            number: u16::try_from(records.len()).expect("a book has 4,096 records at most"),
            mark: *mark,
            fields: fields.iter().map(field).collect(),
        });
        rest = next;
    }
    records
}
