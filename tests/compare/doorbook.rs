//! The door book as an archive and its second program, side by side: the same frames to both, on
//! books that frames lead to and on others. Every answer, every lock asked for and every book left
//! must agree. Usage: doorbook SECOND RUNS. Links libdoorbook.a.

mod process;
// the hub's comparisons use the rest of it
#[allow(dead_code)]
mod schedules;

use schedules::{hex, Random, Seen};
use std::collections::BTreeMap;
use std::env;
use std::process::ExitCode;

mod linked {
    extern "C" {
        pub fn book_enter(
            book: *mut u8,
            book_len: usize,
            frame: *const u8,
            frame_len: usize,
        ) -> u8;
        pub fn book_lock(book: *const u8, book_len: usize, door: u8) -> u32;
    }
}

fn book_enter(book: &mut [u8], frame: &[u8]) -> u8 {
    // SAFETY: each address goes with the length of what it points to.
    unsafe { linked::book_enter(book.as_mut_ptr(), book.len(), frame.as_ptr(), frame.len()) }
}

fn book_lock(book: &[u8], door: u8) -> u32 {
    // SAFETY: the address goes with the length of what it points to.
    unsafe { linked::book_lock(book.as_ptr(), book.len(), door) }
}

const DOORS: usize = 200;
const BOOK: usize = 4 * DOORS;
const FRAMES: usize = 300;
const ACCEPTED: u8 = 0x41;

/// What a comparison has to have met besides the answers.
const MEETINGS: [&str; 9] = [
    "12 where 19 applies too",
    "19 where 20 applies too",
    "20 for lock 0",
    "20 for lock 0 where no door is without one",
    "20 for a lock at that door",
    "20 for a lock at another door",
    "20 where 21 applies too",
    "21 for a first fitting where a lock stands",
    "accepted beside a lock at two doors",
];

struct Met([u64; MEETINGS.len()]);

impl Met {
    /// Counts what a frame and its answer show, on the book as it was.
    fn count(&mut self, book: &[u8], frame: &[u8], answer: u8) {
        let [_, door, .., s0, s1, s2, s3] = *frame else { return };
        let above = usize::from(door) >= DOORS;
        let (new, superseded) = (number(&frame[2..]), u32::from_be_bytes([s0, s1, s2, s3]));
        let stands = locks(book).any(|lock| lock == new);
        let at = locks(book).nth(door.into()).unwrap_or(0);
        let facts = [
            answer == 12 && above,
            answer == 19 && (new == 0 || stands),
            answer == 20 && new == 0,
            answer == 20 && new == 0 && !stands,
            answer == 20 && new == at && new != 0,
            answer == 20 && new != at && stands && new != 0,
            answer == 20 && superseded != at,
            answer == 21 && superseded == 0,
            answer == ACCEPTED && at_two_doors(book),
        ];
        for (count, fact) in self.0.iter_mut().zip(facts) {
            *count += u64::from(fact);
        }
    }
}

/// The number in the first four bytes, if there are four.
fn number(bytes: &[u8]) -> u32 {
    bytes.first_chunk().map_or(0, |&four| u32::from_be_bytes(four))
}

fn locks(book: &[u8]) -> impl Iterator<Item = u32> + '_ {
    book.chunks(4).map(number)
}

fn at_two_doors(book: &[u8]) -> bool {
    let mut standing: Vec<u32> = locks(book).filter(|&lock| lock != 0).collect();
    standing.sort_unstable();
    standing.windows(2).any(|pair| pair[0] == pair[1])
}

/// A lock: one of a few, so that some stand already, or any; now and then 0.
fn any_lock(random: &mut Random) -> u32 {
    let few = 1 + random.below(300) as u32;
    let any = random.next() as u32;
    // differs from the few in the order of its bytes alone
    random.pick(&[0, few, few, few, few.swap_bytes(), any])
}

/// A book that no frames need lead to: locks from a few, so that some stand at two doors. Of its
/// doors some have no lock, or hardly any has one, or all have one.
fn any_book(random: &mut Random) -> Vec<u8> {
    let (filled, least) = random.pick(&[(1, 0), (2, 0), (8, 0), (1, 1)]);
    let lock = |random: &mut Random| if random.one_in(filled) { any_lock(random) } else { 0 };
    (0..DOORS).flat_map(|_| lock(random).max(least).to_be_bytes()).collect()
}

/// A frame: mostly one that the book accepts, or refuses for one reason or two; now and then
/// damaged, or any bytes at all.
fn frame(random: &mut Random, book: &[u8]) -> Vec<u8> {
    let below = random.below(DOORS as u64) as u8;
    let any = random.byte();
    let door = random.pick(&[below, below, below, below % 8, 199, 200, any]);
    let at = locks(book).nth(door.into()).unwrap_or(0);
    let (one, other) = (any_lock(random), any_lock(random));
    let new = random.pick(&[one, one, one, at]);
    let superseded = random.pick(&[at, at, at, at, 0, other]);
    let mut frame = vec![0x40, door];
    frame.extend(new.to_be_bytes());
    frame.extend(superseded.to_be_bytes());
    match random.below(16) {
        0 => {
            let place = random.below(10) as usize;
            frame[place] = random.byte();
        }
        1 => frame.truncate(random.below(10) as usize),
        2 => frame.extend((0..=random.below(12)).map(|_| random.byte())),
        3 => frame[0] = random.pick(&[0x00, 0x04, 0x3F, 0x41, 0xBF, 0xC0]),
        4 => frame = (0..random.below(14)).map(|_| random.byte()).collect(),
        _ => {}
    }
    frame
}

/// Bytes that are no book: 255, no lock, and nothing is written.
fn refuses_no_book(random: &mut Random, book: &[u8]) -> bool {
    let mut bytes = [book, book].concat();
    bytes.truncate(random.below(2 * BOOK as u64) as usize);
    let length = bytes.len();
    if length == BOOK {
        return true;
    }
    let frame = frame(random, book);
    let was = bytes.clone();
    book_enter(&mut bytes, &frame) == 255 && bytes == was && book_lock(&bytes, random.byte()) == 0
}

/// A run: lines for the second program, and what the archive says to them.
struct Run {
    input: String,
    output: String,
    fault: Option<&'static str>,
}

impl Run {
    fn say(&mut self, line: String, answer: &str) {
        self.input += &(line + "\n");
        self.output += answer;
        self.output.push('\n');
    }

    /// A run from the empty book, or from any.
    fn new(random: &mut Random, from_empty: bool, seen: &mut Seen, met: &mut Met) -> Self {
        let mut run = Run { input: String::new(), output: String::new(), fault: None };
        let mut book = if from_empty { vec![0; BOOK] } else { any_book(random) };
        run.input = format!("B{}\n", hex(&book));
        // each door's lock, counted from the frames and their answers alone
        let mut last: BTreeMap<u8, u32> = BTreeMap::new();
        for _ in 0..FRAMES {
            let frame = frame(random, &book);
            let was = book.clone();
            let answer = book_enter(&mut book, &frame);
            seen.count(answer);
            met.count(&was, &frame, answer);
            if answer == ACCEPTED {
                last.insert(frame[1], number(&frame[2..]));
            } else if book != was {
                run.fault = Some("a refused frame has changed the book");
            }
            run.say(format!("F{}", hex(&frame)), &format!("{answer:02X}"));
            let door = random.byte();
            run.say(format!("L{door:02X}"), &format!("{:08X}", book_lock(&book, door)));
            if random.one_in(10) {
                run.say("P".into(), &hex(&book));
            }
        }
        run.say("P".into(), &hex(&book));
        for door in 0..=255 {
            let lock = book_lock(&book, door);
            run.say(format!("L{door:02X}"), &format!("{lock:08X}"));
            if from_empty && lock != last.get(&door).copied().unwrap_or(0) {
                run.fault = Some("a door's lock is not that of its last accepted frame");
            }
        }
        if from_empty && at_two_doors(&book) {
            run.fault = Some("a lock stands at two doors");
        }
        if !refuses_no_book(random, &book) {
            run.fault = Some("bytes that are no book are taken for one");
        }
        run
    }
}

fn main() -> ExitCode {
    let arguments: Vec<String> = env::args().collect();
    let [_, program, runs] = &arguments[..] else {
        eprintln!("usage: doorbook SECOND RUNS");
        return ExitCode::FAILURE;
    };
    let runs: u64 = runs.parse().expect("RUNS is a number");
    let mut seen = Seen::nothing();
    let mut met = Met([0; MEETINGS.len()]);
    for seed in 1..=runs {
        let run = Run::new(&mut Random::seeded(seed), seed % 2 == 0, &mut seen, &mut met);
        if let Some(fault) = run.fault {
            println!("run {seed}: {fault}");
            return ExitCode::FAILURE;
        }
        let input = run.input.trim_end();
        let output = process::output(program, &[], input.as_bytes(), input.len());
        let theirs = String::from_utf8_lossy(&output).into_owned();
        if run.output != theirs {
            let lines = || run.output.lines().zip(theirs.lines());
            let at = lines().take_while(|(ours, theirs)| ours == theirs).count();
            // the first line of the input sets the book and prints nothing
            println!("run {seed}: {:?}", input.lines().nth(at + 1));
            println!("archive, second: {:?}", lines().nth(at));
            return ExitCode::FAILURE;
        }
    }
    println!("door book and second program: {runs} runs of {FRAMES} frames, all answers agree");
    let all_met = seen.shows([12, 19, 20, 21, ACCEPTED].into_iter());
    for (meeting, count) in MEETINGS.iter().zip(met.0) {
        println!("  {meeting}: {count}");
    }
    if all_met && met.0.iter().all(|&count| count > 0) {
        ExitCode::SUCCESS
    } else {
        ExitCode::FAILURE
    }
}
