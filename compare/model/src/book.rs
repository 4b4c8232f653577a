//! The book: marks, fields, and READ.

use crate::Refusal;
use std::collections::HashSet;

/// The marks, in document 01's order.
#[derive(Clone, Copy, Debug, PartialEq, Eq, PartialOrd, Ord, Hash)]
pub enum Mark {
    Tu,
    Ts,
    Tp,
    Vu,
    Vl,
    Vr,
    Vp,
    Pi,
    Pn,
    Pt,
    Ec,
    Ew,
    Ev,
    Et,
    El,
    E0,
    E1,
    En,
    Eb,
    Sa,
    Se,
    Em,
    Eh,
    Cj,
    Cl,
    Cr,
    Cd,
    Ca,
    Cp,
    Cn,
    Ck,
    Cf,
    Cq,
    Cy,
    Cw,
    Ch,
    Fn,
}

use Mark::*;

/// The two letters of each mark, in the order of the enum.
const MARKS: [(&[u8; 2], Mark); 37] = [
    (b"tu", Tu),
    (b"ts", Ts),
    (b"tp", Tp),
    (b"vu", Vu),
    (b"vl", Vl),
    (b"vr", Vr),
    (b"vp", Vp),
    (b"pi", Pi),
    (b"pn", Pn),
    (b"pt", Pt),
    (b"ec", Ec),
    (b"ew", Ew),
    (b"ev", Ev),
    (b"et", Et),
    (b"el", El),
    (b"e0", E0),
    (b"e1", E1),
    (b"en", En),
    (b"eb", Eb),
    (b"sa", Sa),
    (b"se", Se),
    (b"em", Em),
    (b"eh", Eh),
    (b"cj", Cj),
    (b"cl", Cl),
    (b"cr", Cr),
    (b"cd", Cd),
    (b"ca", Ca),
    (b"cp", Cp),
    (b"cn", Cn),
    (b"ck", Ck),
    (b"cf", Cf),
    (b"cq", Cq),
    (b"cy", Cy),
    (b"cw", Cw),
    (b"ch", Ch),
    (b"fn", Fn),
];

/// The end of a block that has none.
pub const NONE: u16 = 65535;

const MOST_BYTES: usize = 65535;
const MOST_RECORDS: usize = 4096;
const MOST_DEPTH: u16 = 255;

const SIZE: u16 = 1;
const RECORDS: u16 = 2;
const CUT: u16 = 3;
const MARK: u16 = 4;
const NUMBER: u16 = 5;
const REFERENCE: u16 = 6;
const TWICE: u16 = 7;
const DEPTH: u16 = 8;
const LOOSE: u16 = 9;

/// What a record is, for those that name it.
#[derive(Clone, Copy, Debug, PartialEq, Eq)]
pub enum Kind {
    Type,
    Value,
    Pattern,
    Expression,
    Statement,
    Function,
}

impl Mark {
    pub fn kind(self) -> Kind {
        match self {
            Tu | Ts | Tp => Kind::Type,
            Vu | Vl | Vr | Vp => Kind::Value,
            Pi | Pn | Pt => Kind::Pattern,
            Sa | Se => Kind::Statement,
            Fn => Kind::Function,
            _ => Kind::Expression,
        }
    }

    fn of(letters: &[u8]) -> Option<Mark> {
        let found = MARKS.iter().find(|(of, _)| of.as_slice() == letters)?;
        Some(found.1)
    }
}

/// What one field holds: a reference or a number with its range.
#[derive(Clone, Copy)]
enum Field {
    /// A name or a symbol: every number is one.
    Any,
    Of(Kind),
    /// An expression, or 65535.
    End,
    Count,
    /// A list's count, below the bound in the field before it.
    Below,
    /// Arms, variants, an array's size: 1..256.
    Some,
    /// A variant's number, below the variants in the field after it.
    Index,
    Bound,
    LoopWidth,
    HashWidth,
    Jet,
}

impl Field {
    /// Whether field k of a record is a number in its range.
    fn allows(self, fields: &[u16], k: usize) -> bool {
        let n = fields[k];
        match self {
            Field::Any | Field::Of(_) | Field::End => true,
            Field::Count => n <= 256,
            Field::Below => n <= 256 && n < fields[k - 1],
            Field::Some => (1..=256).contains(&n),
            Field::Index => n < fields[k + 1],
            Field::Bound => n.is_power_of_two() && (2..=256).contains(&n),
            Field::LoopWidth => n.is_power_of_two() && n <= 16,
            Field::HashWidth => n.is_power_of_two() && (8..=256).contains(&n),
            Field::Jet => n <= 2,
        }
    }
}

/// A mark's fields: the head, whose last field is the count if anything is
/// counted; what stands there that many times; and what follows.
struct Shape {
    head: &'static [Field],
    each: &'static [Field],
    tail: &'static [Field],
}

const T: Field = Field::Of(Kind::Type);
const V: Field = Field::Of(Kind::Value);
const P: Field = Field::Of(Kind::Pattern);
const E: Field = Field::Of(Kind::Expression);
const S: Field = Field::Of(Kind::Statement);
const F: Field = Field::Of(Kind::Function);

fn shape(mark: Mark) -> Shape {
    use Field::*;
    let (head, each, tail): (&[Field], &[Field], &[Field]) = match mark {
        Tu | Pn => (&[], &[], &[]),
        Ts | Tp => (&[T, T], &[], &[]),
        Vu => (&[T], &[], &[]),
        Vl | Vr | Ec => (&[T, V], &[], &[]),
        Vp => (&[T, V, V], &[], &[]),
        Pi => (&[Any], &[], &[]),
        Pt => (&[Count], &[P], &[]),
        Ew | Ev | Cp => (&[T, Any], &[], &[]),
        Et => (&[T, Count], &[E], &[]),
        El => (&[T, Bound, Below], &[E], &[]),
        E0 | E1 | Cn | Ck => (&[T, E], &[], &[]),
        En => (&[T, Index, Some, Count], &[E], &[]),
        Eb => (&[T, Count], &[S], &[End]),
        Sa => (&[P, E], &[], &[]),
        Se => (&[E], &[], &[]),
        Em => (&[T, E, P, E, P, E], &[], &[]),
        Eh => (&[T, E, Some], &[P, E], &[]),
        Cj => (&[T, Any, Jet, Count], &[E], &[]),
        Cl | Cr | Cd | Ca => (&[T, Any, E], &[], &[]),
        Cf => (&[T, F, Count], &[E], &[]),
        Cq => (&[T, F, Bound, E, E], &[], &[]),
        Cy => (&[T, F, Some, E, E], &[], &[]),
        Cw => (&[T, F, LoopWidth, E, E], &[], &[]),
        Ch => (&[T, Any, Count], &[HashWidth, E], &[]),
        Fn => (&[T, Count], &[Any, T], &[E]),
    };
    Shape { head, each, tail }
}

impl Shape {
    /// What each of `len` fields holds.
    fn fields(&self, len: usize) -> impl Iterator<Item = Field> + '_ {
        let counted = len - self.head.len() - self.tail.len();
        let each = self.each.iter().cycle().take(counted);
        self.head.iter().chain(each).chain(self.tail).copied()
    }
}

/// One record: its mark, then its 16-bit fields as they stand in the book,
/// counts included.
#[derive(Clone, Debug, PartialEq, Eq)]
pub struct Record {
    pub mark: Mark,
    pub fields: Vec<u16>,
}

impl Record {
    /// The declared type of a value, expression or function.
    pub fn ty(&self) -> u16 {
        self.fields[0]
    }

    /// The counted part, flat: pairs of fields for eh, ch and fn.
    pub fn row(&self) -> &[u16] {
        let shape = shape(self.mark);
        &self.fields[shape.head.len()..self.fields.len() - shape.tail.len()]
    }

    /// The expressions it names, from left to right.
    pub fn parts(&self) -> Vec<u16> {
        let held = shape(self.mark);
        let held = held.fields(self.fields.len()).zip(&self.fields);
        held.filter(|&(field, &named)| match field {
            Field::Of(kind) => kind == Kind::Expression,
            Field::End => named != NONE,
            _ => false,
        })
        .map(|(_, &named)| named)
        .collect()
    }
}

/// A book that READ accepts.
#[derive(Clone, Debug, PartialEq, Eq)]
pub struct Book {
    pub records: Vec<Record>,
}

impl Book {
    pub fn at(&self, record: u16) -> &Record {
        &self.records[usize::from(record)]
    }

    /// The declared type of a value, expression or function record.
    pub fn ty(&self, record: u16) -> u16 {
        self.at(record).ty()
    }

    /// The last record, which is an expression.
    pub fn root(&self) -> u16 {
        (self.records.len() - 1) as u16
    }
}

/// READ: the records of a book, or the first refusal in document 01's order.
pub fn read(book: &[u8]) -> Result<Book, Refusal> {
    if book.is_empty() || book.len() > MOST_BYTES {
        return Err(Refusal::new(SIZE, 0));
    }
    let mut reader = Reader::default();
    let mut rest = book;
    while !rest.is_empty() {
        rest = reader.record(rest)?;
    }
    reader.loose()?;
    let records = reader.records;
    Ok(Book { records })
}

#[derive(Default)]
struct Reader {
    records: Vec<Record>,
    depths: Vec<u16>,
    named: Vec<bool>,
    types: HashSet<(Mark, Vec<u16>)>,
}

impl Reader {
    fn refuse<A>(&self, number: u16) -> Result<A, Refusal> {
        Err(Refusal::new(number, self.records.len()))
    }

    /// Reads the first record of `bytes` and gives those after it.
    fn record<'a>(&mut self, bytes: &'a [u8]) -> Result<&'a [u8], Refusal> {
        if self.records.len() == MOST_RECORDS {
            return self.refuse(RECORDS);
        }
        if bytes.len() == 1 {
            return self.refuse(CUT);
        }
        let (letters, rest) = bytes.split_at(2);
        let Some(mark) = Mark::of(letters) else {
            return self.refuse(MARK);
        };
        let Some((fields, rest)) = take_fields(mark, rest) else {
            return self.refuse(CUT);
        };
        let depth = self.judge(mark, &fields)?;
        // The types before it are all different, so alike ones name the same.
        let is_type = mark.kind() == Kind::Type;
        if is_type && !self.types.insert((mark, fields.clone())) {
            return self.refuse(TWICE);
        }
        if depth > MOST_DEPTH {
            return self.refuse(DEPTH);
        }
        self.records.push(Record { mark, fields });
        self.depths.push(depth);
        self.named.push(false);
        Ok(rest)
    }

    /// Judges the fields from left to right and gives the record's depth.
    fn judge(&mut self, mark: Mark, fields: &[u16]) -> Result<u16, Refusal> {
        let mut depth = 1;
        for (k, field) in shape(mark).fields(fields.len()).enumerate() {
            if !field.allows(fields, k) {
                return self.refuse(NUMBER);
            }
            let kind = match field {
                Field::Of(kind) => kind,
                Field::End if fields[k] != NONE => Kind::Expression,
                _ => continue,
            };
            let named = usize::from(fields[k]);
            self.name(named, kind)?;
            depth = depth.max(self.depths[named] + 1);
        }
        Ok(depth)
    }

    fn name(&mut self, named: usize, kind: Kind) -> Result<(), Refusal> {
        let found = self.records.get(named).map(|record| record.mark.kind());
        if found != Some(kind) {
            return self.refuse(REFERENCE);
        }
        if !used_once(kind) {
            return Ok(());
        }
        if self.named[named] {
            return self.refuse(TWICE);
        }
        self.named[named] = true;
        Ok(())
    }

    fn loose(&self) -> Result<(), Refusal> {
        let last = self.records.len() - 1;
        let loose = |r: &usize| used_once(self.records[*r].mark.kind()) && !self.named[*r];
        if let Some(first) = (0..last).find(loose) {
            return Err(Refusal::new(LOOSE, first));
        }
        if self.records[last].mark.kind() != Kind::Expression {
            return Err(Refusal::new(LOOSE, last));
        }
        Ok(())
    }
}

/// Expressions and statements are named exactly once; the rest is shared.
fn used_once(kind: Kind) -> bool {
    matches!(kind, Kind::Expression | Kind::Statement)
}

/// The fields of a record and the bytes after it; nothing if it runs past the
/// end by its count, whatever that count is.
fn take_fields(mark: Mark, bytes: &[u8]) -> Option<(Vec<u16>, &[u8])> {
    let shape = shape(mark);
    let head = bytes.get(..2 * shape.head.len())?;
    let count = match head {
        [.., low, high] => usize::from(u16::from_le_bytes([*low, *high])),
        _ => 0,
    };
    let len = shape.head.len() + count * shape.each.len() + shape.tail.len();
    let own = bytes.get(..2 * len)?;
    let number = |two: &[u8]| u16::from_le_bytes([two[0], two[1]]);
    let fields = own.chunks_exact(2).map(number).collect();
    Some((fields, &bytes[2 * len..]))
}

/// The split of a row of n, 2 or more: how many stand on the left.
pub fn split(n: usize) -> usize {
    n - n.next_power_of_two() / 2
}

/// Which names each pattern binds. A pattern may be named so often that it
/// has more leaves than anyone can visit, so each keeps the set of its names.
pub struct Names {
    /// The place of each name in the sets; names that no pattern binds share
    /// place 0, which is in no set.
    places: Vec<u16>,
    most: u16,
    sets: Vec<Vec<u64>>,
    twice: Vec<bool>,
}

impl Names {
    pub fn of(book: &Book) -> Names {
        let mut names = Names {
            places: vec![0; 65536],
            most: 0,
            sets: Vec::new(),
            twice: Vec::new(),
        };
        for record in book.records.iter().filter(|record| record.mark == Pi) {
            let place = &mut names.places[usize::from(record.fields[0])];
            if *place == 0 {
                names.most += 1;
                *place = names.most;
            }
        }
        for record in &book.records {
            let (set, twice) = names.gather(record);
            names.sets.push(set);
            names.twice.push(twice);
        }
        names
    }

    /// The names of one record by those of the earlier ones, and whether one
    /// of them stands there twice.
    fn gather(&self, record: &Record) -> (Vec<u64>, bool) {
        let mut set = vec![0; usize::from(self.most / 64 + 1)];
        let mut twice = false;
        match record.mark {
            Pi => {
                let (word, bit) = self.place(record.fields[0]);
                set[word] |= 1 << bit;
            }
            Pt => {
                for &part in record.row() {
                    let part = usize::from(part);
                    twice |= self.twice[part];
                    for (mine, its) in set.iter_mut().zip(&self.sets[part]) {
                        twice |= *mine & its != 0;
                        *mine |= its;
                    }
                }
            }
            _ => set.clear(),
        }
        (set, twice)
    }

    fn place(&self, name: u16) -> (usize, u16) {
        let place = self.places[usize::from(name)];
        (usize::from(place / 64), place % 64)
    }

    pub fn has(&self, pattern: u16, name: u16) -> bool {
        let (word, bit) = self.place(name);
        let set = self.sets[usize::from(pattern)].get(word);
        set.is_some_and(|word| word >> bit & 1 == 1)
    }

    pub fn twice(&self, pattern: u16) -> bool {
        self.twice[usize::from(pattern)]
    }
}

#[cfg(test)]
pub(crate) mod tests {
    use super::*;
    use std::collections::HashMap;

    /// A book's bytes, and the records that have a label. Records are parted
    /// by semicolons; a field is a number or an earlier label.
    pub(crate) fn write(text: &str) -> (Vec<u8>, HashMap<String, u16>) {
        let (mut bytes, mut labels) = (Vec::new(), HashMap::new());
        let records = text.split(';').map(str::trim);
        for (r, record) in (0..).zip(records.filter(|record| !record.is_empty())) {
            let (label, record) = record.split_once(": ").unwrap_or(("", record));
            let mut words = record.split_whitespace();
            bytes.extend(words.next().unwrap().bytes());
            for word in words {
                let field = word.parse().unwrap_or_else(|_| labels[word]);
                bytes.extend(u16::to_le_bytes(field));
            }
            labels.insert(label.to_string(), r);
        }
        (bytes, labels)
    }

    /// Lines of what is expected and a book; a line without a bar is a remark.
    pub(crate) fn cases(text: &str) -> impl Iterator<Item = (&str, &str)> {
        let cases = text.lines().filter_map(|line| line.split_once('|'));
        cases.map(|(expected, book)| (expected.trim(), book.trim()))
    }

    fn refused(bytes: &[u8]) -> Option<(u16, u16)> {
        let refusal = read(bytes).err()?;
        Some((refusal.number, refusal.place))
    }

    /// Each case is right, or gives its refusal's number and place.
    fn all(text: &str) {
        for (expected, text) in cases(text) {
            let expected = expected.split_once(' ');
            let expected = expected.map(|(n, at)| (n.parse().unwrap(), at.parse().unwrap()));
            assert_eq!(refused(&write(text).0), expected, "{text}");
        }
    }

    #[test]
    fn size_and_records() {
        assert_eq!(refused(&[]), Some((1, 0)));
        assert_eq!(refused(&[0; 65536]), Some((1, 0)));
        assert_eq!(refused(&[0; 65535]), Some((4, 0)));
        let ignores = format!("tu; {}", "pn; ".repeat(4094));
        let mut most = write(&(ignores + "ew 0 0")).0;
        assert_eq!(refused(&most), None);
        most.push(b'x');
        assert_eq!(refused(&most), Some((2, 4096)));
    }

    #[test]
    fn cut_before_anything_in_its_record() {
        assert_eq!(refused(b"t"), Some((3, 0)));
        assert_eq!(refused(b"tup"), Some((3, 1)));
        assert_eq!(refused(b"tu??"), Some((4, 1)));
        let whole = write("tu; pn; ew 0 0; ew 0 1; eh 0 2 1 1 3").0;
        for short in 1..12 {
            assert_eq!(refused(&whole[..whole.len() - short]), Some((3, 4)));
        }
        let text = "
            ok  | tu; pn; ew 0 0; ew 0 1; eh 0 2 1 1 3
            judged by its count, out of range or not
            3 1 | tu; et 9 60000 0
            3 1 | tu; et 0 60000
            3 1 | tu; eb 0 0
            3 1 | tu; fn 0 1 5 0";
        all(text);
    }

    #[test]
    fn a_long_row_is_out_of_range() {
        for (n, number) in [(256, 6), (257, 5)] {
            let (bytes, _) = write(&format!("tu; et 0 {n} {}", "0 ".repeat(n)));
            assert_eq!(refused(&bytes), Some((number, 1)));
        }
    }

    #[test]
    fn ranges() {
        let number = Some((5, 3));
        for (fields, goods, bads) in [
            ("cq 0 2 # 9 9", vec![2, 4, 256], vec![0, 1, 3, 512]),
            ("cy 0 2 # 9 9", vec![1, 3, 256], vec![0, 257]),
            ("cw 0 2 # 9 9", vec![1, 2, 4, 8, 16], vec![0, 3, 32]),
            (
                "ch 0 0 1 # 9",
                vec![8, 16, 32, 64, 128, 256],
                vec![0, 4, 24, 512],
            ),
            ("cj 0 0 # 1 9", vec![0, 1, 2], vec![3, 65535]),
            ("en 0 # 3 1 9", vec![0, 2], vec![3]),
            ("en 0 0 # 1 9", vec![1, 256], vec![0, 257]),
            ("el 0 # 1 9", vec![2, 256], vec![0, 1, 3, 512]),
        ] {
            let judge = |n: u16| {
                let record = fields.replace('#', &n.to_string());
                let (bytes, _) = write(&format!("tu; ew 0 0; fn 0 0 1; {record}"));
                refused(&bytes)
            };
            // In range, the reference after the number is refused instead.
            goods
                .iter()
                .for_each(|&n| assert_eq!(judge(n), Some((6, 3)), "{fields} {n}"));
            bads.iter()
                .for_each(|&n| assert_eq!(judge(n), number, "{fields} {n}"));
        }
        let text = "
            ok  | tu; ew 0 0; ew 0 0; el 0 4 2 1 2
            5 3 | tu; ew 0 0; ew 0 0; el 0 2 2 1 2
            5 2 | tu; ew 0 0; eh 0 1 0
            6 1 | tu; ew 65535 65535
            ok  | tu; ew 0 65535";
        all(text);
    }

    #[test]
    fn references() {
        let text = "
            6 0 | ts 0 0
            6 2 | tu; vu 0; ec 1 0
            6 2 | tu; vu 0; ec 0 0
            6 2 | tu; vu 0; ec 0 3; tu
            ok  | tu; ew 0 0; se 1; eb 0 1 2 65535
            6 3 | tu; ew 0 0; se 1; eb 0 1 1 65535
            6 3 | tu; ew 0 0; se 1; eb 0 1 2 2
            6 2 | tu; ew 0 0; fn 0 1 0 1 1
            6 2 | tu; ew 0 0; cf 0 1 0
            the scrutinee is judged before the number of arms
            6 1 | tu; eh 0 9 0";
        all(text);
    }

    #[test]
    fn twice() {
        let text = "
            7 1 | tu; tu
            ok  | tu; ts 0 0; tp 0 0; ts 0 1; ts 1 0; ew 0 0
            7 3 | tu; ts 0 0; tp 0 0; ts 0 0
            7 2 | tu; ew 0 0; et 0 2 1 1
            7 3 | tu; ew 0 0; e0 0 1; e1 0 1
            7 3 | tu; ew 0 0; fn 0 0 1; e1 0 1
            7 3 | tu; ew 0 0; se 1; eb 0 2 2 2 65535
            7 3 | tu; ew 0 0; fn 0 0 1; eb 0 0 1
            the first fault from the left
            7 2 | tu; ew 0 0; cj 0 0 0 3 1 1 0
            6 2 | tu; ew 0 0; cj 0 0 0 3 1 0 1
            ok  | tu; pn; pt 2 1 1; vu 0; ec 0 3; fn 0 0 4; ec 0 3; cf 0 5 1 6";
        all(text);
    }

    #[test]
    fn depth() {
        // Every kind counts: a type of depth d, then an expression on it.
        for (d, expected) in [(254, None), (255, Some((8, 255))), (256, Some((8, 255)))] {
            let chain: String = (1..d).map(|r| format!("ts {} 0; ", r - 1)).collect();
            let (bytes, _) = write(&format!("tu; {chain} ew {} 0", d - 1));
            assert_eq!(refused(&bytes), expected);
        }
        let chain: String = (0..255).map(|r| format!("pt 2 {r} {r}; ")).collect();
        assert_eq!(refused(&write(&format!("pn; {chain}")).0), Some((8, 255)));
    }

    #[test]
    fn loose() {
        let text = "
            9 1 | tu; ew 0 0; ew 0 0; ew 0 0
            9 2 | tu; ew 0 0; se 1; ew 0 0
            9 2 | tu; ew 0 0; ew 0 0; fn 0 0 1
            9 2 | tu; ew 0 0; fn 0 0 1
            9 2 | tu; ew 0 0; se 1
            9 0 | tu
            ok  | tu; pn; vu 0; ew 0 0; fn 0 0 3; ew 0 0";
        all(text);
    }

    #[test]
    fn splits() {
        let splits: Vec<usize> = (2..10).map(split).collect();
        assert_eq!(splits, [1, 1, 2, 1, 2, 3, 4, 1]);
    }

    #[test]
    fn names_of_shared_patterns() {
        let text = "tu; pi 7; pn; pt 2 1 2; pt 2 2 3; pt 2 3 4; pt 2 2 2; ew 0 0";
        let book = read(&write(text).0).unwrap();
        let names = Names::of(&book);
        let has: Vec<bool> = (1..7).map(|p| names.has(p, 7)).collect();
        assert_eq!(has, [true, false, true, true, true, false]);
        assert!(!names.has(1, 8));
        let twice: Vec<bool> = (1..7).map(|p| names.twice(p)).collect();
        assert_eq!(twice, [false, false, false, false, true, false]);
    }

    #[test]
    fn rows_and_parts() {
        let text = "tu; pn; ew 0 0; ew 0 0; ew 0 0; eh 0 2 2 1 3 1 4";
        let book = read(&write(text).0).unwrap();
        assert_eq!(book.at(5).row(), [1, 3, 1, 4]);
        assert_eq!(book.at(5).parts(), [2, 3, 4]);
        let text = "tu; ew 0 0; fn 0 1 7 0 1; ew 0 0; se 3; eb 0 1 4 65535";
        let book = read(&write(text).0).unwrap();
        assert_eq!(
            (book.at(2).row(), book.at(2).parts()),
            (&[7, 0][..], vec![1])
        );
        assert_eq!((book.at(5).row(), book.at(5).parts()), (&[4][..], vec![]));
    }
}
