//! Times READ, CHECK, LOWER and RUN in Rattle beside the model, in turn, on the
//! same books, and prints the tables of docs/PERFORMANCE.md; the pictures are
//! written to a folder.

mod books;
mod calls;
mod chart;
mod worst;

use std::hint::black_box;
use std::path::Path;
use std::time::{Duration, Instant};

use calls::{table, Answer, Call, Given, CALLS};
use chart::{Growth, Spread};
use gen::Case;

/// How often each call is timed on each book.
const ROUNDS: usize = 21;

/// A short call is repeated until it has taken this long.
const LEAST: Duration = Duration::from_millis(10);

/// The model recurses.
const STACK: usize = 256 << 20;

/// How long one call takes, in microseconds.
fn time(times: u32, mut call: impl FnMut() -> Answer) -> f64 {
    let began = Instant::now();
    for _ in 0..times {
        black_box(call());
    }
    began.elapsed().as_secs_f64() * 1e6 / f64::from(times)
}

/// How often a call is made so that it takes long enough.
fn times(mut call: impl FnMut() -> Answer) -> u32 {
    time(1, &mut call);
    let once = time(1, &mut call);
    (LEAST.as_micros() as f64 / once).clamp(1.0, 100_000.0) as u32
}

/// The middle one of some numbers, and the ends.
fn spread(mut numbers: Vec<f64>) -> Spread {
    numbers.sort_by(f64::total_cmp);
    let last = numbers.len() - 1;
    (numbers[numbers.len() / 2], numbers[0], numbers[last])
}

/// What was seen of one call on one book.
struct Seen {
    answer: Answer,
    ours: Spread,
    models: Spread,
    ratio: Spread,
}

/// A call in Rattle and of the model in turn, which answer alike.
fn compare(given: &Given, call: Call) -> Seen {
    let (mut mine, mut theirs) = (table(), table());
    let answer = call.ours(given, &mut mine);
    let model = call.models(given, &mut theirs);
    assert!(
        answer == model && mine == theirs,
        "{}: they differ",
        given.label
    );
    let n = times(|| call.ours(given, &mut mine));
    let m = times(|| call.models(given, &mut theirs));
    let (mut ours, mut models, mut ratio) = (Vec::new(), Vec::new(), Vec::new());
    for _ in 0..ROUNDS {
        let a = time(n, || call.ours(black_box(given), &mut mine));
        let b = time(m, || call.models(black_box(given), &mut theirs));
        ours.push(a);
        models.push(b);
        ratio.push(a / b);
    }
    Seen {
        answer,
        ours: spread(ours),
        models: spread(models),
        ratio: spread(ratio),
    }
}

/// How long a call takes: the middle of a few.
fn alone(mut call: impl FnMut() -> Answer) -> f64 {
    let n = times(&mut call);
    spread((0..5).map(|_| time(n, &mut call)).collect()).0
}

fn names() -> [&'static str; 4] {
    CALLS.map(Call::name)
}

fn micros(time: f64) -> String {
    match time {
        _ if time < 10.0 => format!("{time:.1} µs"),
        _ if time < 10_000.0 => format!("{time:.0} µs"),
        _ => format!("{:.0} ms", time / 1000.0),
    }
}

fn tell(answer: Answer) -> String {
    match answer {
        [0, 0, 0, _] => "FAILED".to_string(),
        [0, 0, count, _] => count.to_string(),
        [number, place, ..] => format!("{number} at {place}"),
    }
}

fn row(cells: &[String]) {
    println!("| {} |", cells.join(" | "));
}

fn head(first: &[&str], rest: &[&str]) {
    let all: Vec<String> = [first, rest]
        .concat()
        .iter()
        .map(|w| w.to_string())
        .collect();
    println!();
    row(&all);
    row(&vec!["---".to_string(); all.len()]);
}

/// The ratios, and the times that they are of.
fn ratios(vault: Case, folder: &Path) {
    let (mut rows, mut times) = (Vec::new(), Vec::new());
    head(&["book", "bytes"], &names());
    for given in books::all(vault) {
        let seen = CALLS.map(|call| compare(&given, call));
        let ratio = |seen: &Seen| {
            let (middle, least, most) = seen.ratio;
            format!("{middle:.2} ({least:.2} to {most:.2})")
        };
        let mut cells = vec![given.label.clone(), given.book.len().to_string()];
        cells.extend(seen.iter().map(ratio));
        row(&cells);
        times.push((given.label.clone(), seen.each_ref().map(one_time)));
        rows.push((given.label, seen.each_ref().map(|seen| seen.ratio)));
    }
    head(&["book"], &names());
    for (label, cells) in times {
        row(&[vec![label], cells.to_vec()].concat());
    }
    draw(folder, "ratios.svg", chart::ratios(names(), &rows));
}

fn one_time(seen: &Seen) -> String {
    let answer = tell(seen.answer);
    format!(
        "{answer}: {} / {}",
        micros(seen.ours.0),
        micros(seen.models.0)
    )
}

/// How the calls grow with their books.
fn growth(folder: &Path) {
    let sizes = [256, 512, 1_024, 2_048, 4_096];
    let bindings = [16, 32, 64, 128, 255];
    let sorts: [(&str, [usize; 5], fn(usize) -> Case); 4] = [
        ("records of all sorts", sizes, books::records),
        ("types", sizes, |count| books::types(count, true)),
        ("bindings in a block", bindings, books::block),
        (
            "nodes of calls",
            [4_096, 8_192, 16_384, 32_768, 65_535],
            books::nodes,
        ),
    ];
    head(&["book", "size", "bytes"], &names());
    let mut all = Vec::new();
    for (label, sizes, make) in sorts {
        let mut points = Vec::new();
        for size in sizes {
            let given = Given::new(label, make(size));
            let mut mine = table();
            let times = CALLS.map(|call| alone(|| call.ours(&given, &mut mine)));
            let mut cells = vec![
                label.to_string(),
                size.to_string(),
                given.book.len().to_string(),
            ];
            cells.extend(times.map(micros));
            row(&cells);
            points.push((size, times));
        }
        let label = label.to_string();
        all.push(Growth { label, points });
    }
    draw(folder, "growth.svg", chart::growth(names(), &all));
}

/// The dearest books that are known, and what the model takes for them.
fn worst() {
    head(&["book", "bytes"], &names());
    for given in worst::all() {
        let mut lent = table();
        let cell = |call: Call| {
            let answer = call.ours(&given, &mut lent);
            let ours = alone(|| call.ours(&given, &mut lent));
            let models = alone(|| call.models(&given, &mut lent));
            format!("{}: {} / {}", tell(answer), micros(ours), micros(models))
        };
        let mut cells = vec![given.label.clone(), given.book.len().to_string()];
        cells.extend(CALLS.map(cell));
        row(&cells);
    }
}

fn draw(folder: &Path, name: &str, picture: String) {
    let path = folder.join(name);
    std::fs::write(&path, picture).unwrap_or_else(|error| panic!("{}: {error}", path.display()));
}

/// A book with two bytes of its length before it, and the witness list.
fn vault(path: &str) -> Case {
    let bytes = std::fs::read(path).expect("the vault is there");
    let length = usize::from(u16::from_le_bytes([bytes[0], bytes[1]]));
    Case {
        label: String::new(),
        book: bytes[2..2 + length].to_vec(),
        witnesses: bytes[2 + length..].to_vec(),
    }
}

fn main() {
    let words: Vec<String> = std::env::args().skip(1).collect();
    let [path, folder] = &words[..] else {
        panic!("usage: bench VAULT FOLDER");
    };
    let (vault, folder) = (vault(path), folder.clone());
    let work = move || {
        ratios(vault, Path::new(&folder));
        growth(Path::new(&folder));
        worst();
    };
    std::thread::Builder::new()
        .stack_size(STACK)
        .spawn(work)
        .expect("a thread starts")
        .join()
        .expect("it ends");
}
