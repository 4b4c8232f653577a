//! LOWER and RUN in Rattle, called as the plug-in's host calls them, and READ
//! and CHECK: through the program of `compare/library`, once for each request.

use std::io::{Read, Write};
use std::process::{Child, ChildStdin, ChildStdout, Command, Stdio};
use std::sync::{Arc, Mutex, MutexGuard};
use std::time::{Duration, Instant};

use gen::stock::Table;
use model::Refusal;

use crate::nodes::ROOM;

/// The bytes of a table with room for every entry that can be numbered, and of
/// one that is longer, which has no more room.
pub const FULL: usize = 5 * ROOM;
pub const LONGER: usize = FULL + 21;

/// Where the request of a call that hangs is left.
const HUNG: &str = concat!(env!("CARGO_MANIFEST_DIR"), "/../target/hung");

/// What a call answers, with every byte of the table that it wrote. LOWER has
/// no cell, and 0 stands for it.
#[derive(PartialEq, Eq)]
pub struct Answer {
    pub number: u32,
    pub place: u32,
    pub count: u32,
    pub cell: u32,
    pub table: Vec<u8>,
}

impl Answer {
    /// A judge's answer from its outcome, which is count and cell.
    pub fn new(outcome: Result<(u32, u32), Refusal>, table: Vec<u8>) -> Answer {
        let (number, place, (count, cell)) = match outcome {
            Ok(both) => (0, 0, both),
            Err(refusal) => (refusal.number.into(), refusal.place.into(), (0, 0)),
        };
        Answer {
            number,
            place,
            count,
            cell,
            table,
        }
    }

    fn tell(&self) -> String {
        format!(
            "{} at {}, count {}, cell {}",
            self.number, self.place, self.count, self.cell
        )
    }

    /// Whether Rattle's answer is the model's, or how it is not.
    pub fn is_model(&self, ours: &Answer) -> Result<(), String> {
        if self == ours {
            return Ok(());
        }
        let mut bytes = self.table.iter().zip(&ours.table);
        let apart = match bytes.position(|(a, b)| a != b) {
            Some(at) => format!(", byte {at} is {}, not {}", self.table[at], ours.table[at]),
            None => String::new(),
        };
        Err(format!(
            "{}, the model: {}{apart}",
            self.tell(),
            ours.tell()
        ))
    }
}

/// The least room that `fits`, if there is one that can be.
pub fn least_room(fits: impl Fn(usize) -> bool) -> Option<usize> {
    let (mut least, mut most) = (0, ROOM);
    if !fits(most) {
        return None;
    }
    while least < most {
        let middle = (least + most) / 2;
        match fits(middle) {
            true => most = middle,
            false => least = middle + 1,
        }
    }
    Some(least)
}

/// Starts a program, to be asked through pipes.
pub fn start(path: &str) -> Result<Child, String> {
    Command::new(path)
        .stdin(Stdio::piped())
        .stdout(Stdio::piped())
        .spawn()
        .map_err(|error| format!("{path}: {error}"))
}

/// A call that takes longer hangs. The limit is wide, so that a busy machine
/// does not fail a test.
const TIME: Duration = Duration::from_secs(60);

/// The request that a program works on, and since when.
type Watched = Arc<Mutex<Option<(Instant, Vec<u8>)>>>;

/// The program, with its pipes.
struct Running {
    requests: ChildStdin,
    replies: ChildStdout,
    watched: Watched,
    calls: usize,
    spent: Duration,
    longest: Duration,
}

impl Running {
    fn new(path: &str) -> Result<Running, String> {
        let mut child = start(path)?;
        Ok(Running {
            requests: child.stdin.take().expect("it is piped"),
            replies: child.stdout.take().expect("it is piped"),
            watched: Watched::default(),
            calls: 0,
            spent: Duration::ZERO,
            longest: Duration::ZERO,
        })
    }

    fn ask(&mut self, request: Vec<u8>, length: usize) -> std::io::Result<Answer> {
        let began = Instant::now();
        self.requests.write_all(&request)?;
        *self.watched.lock().expect("nobody panics with it") = Some((began, request));
        let mut head = [[0; 4]; 5];
        for word in &mut head {
            self.replies.read_exact(word)?;
        }
        let [number, place, count, cell, used] = head.map(u32::from_le_bytes);
        // What the reply leaves out is zero.
        let mut table = vec![0; length];
        self.replies.read_exact(&mut table[..used as usize])?;
        *self.watched.lock().expect("nobody panics with it") = None;
        let spent = began.elapsed();
        self.spent += spent;
        self.longest = self.longest.max(spent);
        self.calls += 1;
        Ok(Answer {
            number,
            place,
            count,
            cell,
            table,
        })
    }
}

/// Ends the judge if a call hangs, and leaves the request that it hangs on.
fn watch(all: Vec<Watched>) {
    loop {
        std::thread::sleep(Duration::from_secs(1));
        for watched in &all {
            let watched = watched.lock().expect("nobody panics with it");
            let Some((began, request)) = &*watched else {
                continue;
            };
            if began.elapsed() > TIME {
                let left = std::fs::write(HUNG, request);
                eprintln!("judge: a call hangs; its request is in {HUNG}, {left:?}");
                std::process::exit(1);
            }
        }
    }
}

/// What was seen of all calls.
pub struct Calls {
    pub count: usize,
    pub mean: Duration,
    pub longest: Duration,
}

/// The program, started once for each core, for every thread to ask.
pub struct Service(Vec<Mutex<Running>>);

impl Service {
    pub fn new(path: &str) -> Result<Service, String> {
        let programs = std::thread::available_parallelism().map_or(1, usize::from);
        let running = (0..programs).map(|_| Running::new(path));
        let running: Vec<Running> = running.collect::<Result<_, _>>()?;
        let watched = running.iter().map(|one| one.watched.clone()).collect();
        std::thread::spawn(move || watch(watched));
        Ok(Service(running.into_iter().map(Mutex::new).collect()))
    }

    /// How many calls there were, how long one took, and the longest.
    pub fn calls(self) -> Calls {
        let running = self.0.into_iter();
        let running: Vec<Running> = running
            .map(|one| one.into_inner().expect("no judge panicked"))
            .collect();
        let count: usize = running.iter().map(|one| one.calls).sum();
        let spent: Duration = running.iter().map(|one| one.spent).sum();
        let longest = running.iter().map(|one| one.longest).max();
        Calls {
            count,
            mean: spent / count.max(1) as u32,
            longest: longest.unwrap_or_default(),
        }
    }

    /// A program that is idle, or the first.
    fn idle(&self) -> MutexGuard<'_, Running> {
        let idle = self.0.iter().find_map(|one| one.try_lock().ok());
        idle.unwrap_or_else(|| self.0[0].lock().expect("no judge panics with it"))
    }

    /// LOWER, into a table of `length` bytes.
    pub fn lower(&self, book: &[u8], symbols: bool, length: usize) -> Result<Answer, String> {
        // Any number but 0 asks for symbols.
        let asked = if symbols { 1 + (length % 255) as u8 } else { 0 };
        self.ask(&[0, asked], &[length, book.len()], &[book], length)
    }

    /// RUN, into cells of `length` bytes.
    pub fn run(&self, given: &Table, length: usize) -> Result<Answer, String> {
        let slices: [&[u8]; 3] = [&given.case.book, &given.case.witnesses, &given.nodes];
        let [book, witnesses, nodes] = slices.map(<[u8]>::len);
        let lengths = [given.count as usize, length, book, witnesses, nodes];
        self.ask(&[1], &lengths, &slices, length)
    }

    /// READ.
    pub fn read(&self, book: &[u8]) -> Result<Answer, String> {
        self.ask(&[2], &[book.len()], &[book], 0)
    }

    /// CHECK.
    pub fn check(&self, book: &[u8]) -> Result<Answer, String> {
        self.ask(&[3], &[book.len()], &[book], 0)
    }

    /// A request of bytes, numbers and slices, as `service.c` says, and the reply.
    fn ask(
        &self,
        first: &[u8],
        numbers: &[usize],
        slices: &[&[u8]],
        length: usize,
    ) -> Result<Answer, String> {
        let mut request = first.to_vec();
        request.extend(numbers.iter().flat_map(|&n| (n as u32).to_le_bytes()));
        request.extend(slices.concat());
        self.idle()
            .ask(request, length)
            .map_err(|error| format!("no answer in Rattle, here or in a call beside it: {error}"))
    }
}
