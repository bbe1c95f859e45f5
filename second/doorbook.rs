//! The door book, second program: request M-190, driven by lines on standard
//! input. It keeps one book, empty at first. A line is a letter, then
//! hexadecimal digits of either case:
//!
//! | line            | does                           | prints                |
//! |-----------------|--------------------------------|-----------------------|
//! | `B` 1600 digits | sets the book                  | nothing               |
//! | `F` digits      | enters a frame of these bytes  | the answer, 2 digits  |
//! | `L` 2 digits    | looks up the lock at that door | the lock, 8 digits    |
//! | `P`             | leaves the book as it is       | the book, 1600 digits |
//!
//! A book is the locks of doors 0 to 199, four bytes each, high byte first.
//! `B` takes any, so frames can meet books that no frames lead to. `F` alone is
//! a frame of no bytes. Answers are bytes: 41 for an accepted frame, else the
//! refusal's number, 12 as 0C. Capitals are written. Any other line is a fault
//! of whoever drives the program, and ends it in failure.

use std::io::{self, BufRead, BufReader, BufWriter, ErrorKind, Write};
use std::process::ExitCode;

const DOORS: usize = 200;
/// Bytes of a lock in a book or in a frame.
const LOCK: usize = 4;
const BOOK: usize = DOORS * LOCK;

/// Stands at a door without a lock.
const NO_LOCK: u32 = 0;
const ACCEPTED: u8 = 0x41;

/// Each refusal is its number in the paper.
#[derive(Clone, Copy, Debug, PartialEq, Eq)]
enum Refusal {
    Malformed = 12,
    NoSuchDoor = 19,
    NotNew = 20,
    NotSuperseded = 21,
}

#[derive(Clone, Debug, PartialEq, Eq)]
struct Book {
    locks: [u32; DOORS],
}

impl Book {
    fn empty() -> Self {
        Book {
            locks: [NO_LOCK; DOORS],
        }
    }

    /// The lock that stands at a door.
    fn lock(&self, door: u8) -> u32 {
        self.locks
            .get(usize::from(door))
            .copied()
            .unwrap_or(NO_LOCK)
    }

    /// Enters a frame. A refused one leaves the book alone.
    fn enter(&mut self, frame: &[u8]) -> Result<(), Refusal> {
        let &[0x40, door, n0, n1, n2, n3, s0, s1, s2, s3] = frame else {
            return Err(Refusal::Malformed);
        };
        let new = u32::from_be_bytes([n0, n1, n2, n3]);
        let superseded = u32::from_be_bytes([s0, s1, s2, s3]);
        let door = usize::from(door);
        if door >= DOORS {
            return Err(Refusal::NoSuchDoor);
        }
        // Any door counts, also the one that the frame is about.
        if new == NO_LOCK || self.locks.contains(&new) {
            return Err(Refusal::NotNew);
        }
        if self.locks[door] != superseded {
            return Err(Refusal::NotSuperseded);
        }
        self.locks[door] = new;
        Ok(())
    }

    fn read(bytes: &[u8]) -> Option<Self> {
        if bytes.len() != BOOK {
            return None;
        }
        let mut book = Book::empty();
        for (lock, bytes) in book.locks.iter_mut().zip(bytes.chunks(LOCK)) {
            *lock = u32::from_be_bytes([bytes[0], bytes[1], bytes[2], bytes[3]]);
        }
        Some(book)
    }

    fn digits(&self) -> String {
        self.locks
            .iter()
            .map(|lock| format!("{lock:08X}"))
            .collect()
    }
}

/// Does what a line says, and gives what that prints. `None` if the line says
/// nothing known.
fn answer(book: &mut Book, line: &[u8]) -> Option<String> {
    let (letter, digits) = line.split_first()?;
    let bytes = decode_hex(digits)?;
    match (letter, &bytes[..]) {
        (b'B', bytes) => {
            *book = Book::read(bytes)?;
            Some(String::new())
        }
        (b'F', frame) => {
            let code = match book.enter(frame) {
                Ok(()) => ACCEPTED,
                Err(refusal) => refusal as u8,
            };
            Some(format!("{code:02X}\n"))
        }
        (b'L', &[door]) => Some(format!("{:08X}\n", book.lock(door))),
        (b'P', []) => Some(format!("{}\n", book.digits())),
        _ => None,
    }
}

fn decode_hex(digits: &[u8]) -> Option<Vec<u8>> {
    digits
        .chunks(2)
        .map(|pair| match *pair {
            [high, low] => Some(hex_digit(high)? << 4 | hex_digit(low)?),
            _ => None,
        })
        .collect()
}

fn hex_digit(byte: u8) -> Option<u8> {
    match byte {
        b'0'..=b'9' => Some(byte - b'0'),
        b'A'..=b'F' => Some(byte - b'A' + 10),
        b'a'..=b'f' => Some(byte - b'a' + 10),
        _ => None,
    }
}

fn run(input: impl BufRead, mut output: impl Write) -> io::Result<()> {
    let mut book = Book::empty();
    for (number, line) in (1u64..).zip(input.split(b'\n')) {
        let Some(text) = answer(&mut book, &line?) else {
            // What was answered before is still worth reading.
            output.flush()?;
            let message = format!("line {number} is no book, frame, look-up or print");
            return Err(io::Error::new(ErrorKind::InvalidData, message));
        };
        output.write_all(text.as_bytes())?;
    }
    output.flush()
}

fn main() -> ExitCode {
    let input = BufReader::new(io::stdin().lock());
    let output = BufWriter::new(io::stdout().lock());
    match run(input, output) {
        Ok(()) => ExitCode::SUCCESS,
        Err(error) => {
            // `eprintln!` would panic if standard error were closed.
            let _ = writeln!(io::stderr(), "{error}");
            ExitCode::FAILURE
        }
    }
}

#[cfg(test)]
mod tests {
    use super::*;

    /// What a run of lines prints, line by line.
    fn printed(input: &str) -> Vec<String> {
        let mut output = Vec::new();
        run(input.as_bytes(), &mut output).unwrap();
        let text = String::from_utf8(output).unwrap();
        text.lines().map(str::to_string).collect()
    }

    /// A book with these locks at these doors.
    fn book(locks: &[(usize, u32)]) -> Book {
        let mut book = Book::empty();
        for &(door, lock) in locks {
            book.locks[door] = lock;
        }
        book
    }

    fn frame(door: u8, new: u32, superseded: u32) -> Vec<u8> {
        let mut frame = vec![0x40, door];
        frame.extend(new.to_be_bytes());
        frame.extend(superseded.to_be_bytes());
        frame
    }

    /// Enters a frame that must be refused: the book stays as it was.
    fn assert_refused(book: &Book, frame: &[u8], refusal: Refusal) {
        let mut entered = book.clone();
        assert_eq!(entered.enter(frame), Err(refusal), "{frame:02X?}");
        assert_eq!(entered, *book);
    }

    fn assert_accepted(book: &Book, frame: &[u8], left: &Book) {
        let mut entered = book.clone();
        assert_eq!(entered.enter(frame), Ok(()), "{frame:02X?}");
        assert_eq!(entered, *left);
    }

    #[test]
    fn first_fitting_and_replacement() {
        let input = "F400500000A1B00000000\nL05\nF40050000000C00000A1B\nL05\nL04\n";
        let expected = ["41", "00000A1B", "41", "0000000C", "00000000"];
        assert_eq!(printed(input), expected);
    }

    /// A superseded lock is free again, also for another door.
    #[test]
    fn superseded_lock_can_be_fitted_again() {
        let old = book(&[(5, 9)]);
        let new = book(&[(5, 8)]);
        assert_accepted(&old, &frame(5, 8, 9), &new);
        assert_accepted(&new, &frame(5, 9, 8), &old);
        assert_accepted(&new, &frame(6, 9, 0), &book(&[(5, 8), (6, 9)]));
    }

    #[test]
    fn every_length() {
        let whole = [frame(3, 7, 0), vec![0; 30]].concat();
        for length in (0..whole.len()).filter(|&length| length != 10) {
            assert_refused(&Book::empty(), &whole[..length], Refusal::Malformed);
        }
        assert_accepted(&Book::empty(), &whole[..10], &book(&[(3, 7)]));
    }

    #[test]
    fn every_code() {
        for code in (0..=255).filter(|&code| code != 0x40) {
            let mut frame = frame(3, 7, 0);
            frame[0] = code;
            assert_refused(&Book::empty(), &frame, Refusal::Malformed);
        }
    }

    #[test]
    fn every_door() {
        for door in 0..200 {
            let left = book(&[(usize::from(door), 7)]);
            assert_accepted(&Book::empty(), &frame(door, 7, 0), &left);
            assert_eq!(left.lock(door), 7);
            assert_refused(&left, &frame(door, 8, 0), Refusal::NotSuperseded);
        }
        for door in 200..=255 {
            assert_refused(&Book::empty(), &frame(door, 7, 0), Refusal::NoSuchDoor);
            assert_eq!(book(&[(199, 7), (0, 8)]).lock(door), 0);
        }
    }

    /// A lock may stand nowhere: not at another door, nor at this one.
    #[test]
    fn new_lock_stands_already() {
        let full = Book {
            locks: std::array::from_fn(|door| 1000 + door as u32),
        };
        for lock in 1000..1200 {
            assert_refused(&full, &frame(77, lock, 1077), Refusal::NotNew);
        }
        for lock in [1, 999, 1200, u32::MAX] {
            let mut left = full.clone();
            left.locks[77] = lock;
            assert_accepted(&full, &frame(77, lock, 1077), &left);
        }
        // 0 is no lock, even where none stands at 0.
        assert_refused(&full, &frame(77, 0, 1077), Refusal::NotNew);
        assert_refused(&Book::empty(), &frame(77, 0, 0), Refusal::NotNew);
    }

    #[test]
    fn superseded_lock_is_another() {
        let fitted = book(&[(5, 9), (6, 11)]);
        for superseded in [0, 8, 10, 11, 9 << 8, 9 << 24, u32::MAX] {
            let frame = frame(5, 7, superseded);
            assert_refused(&fitted, &frame, Refusal::NotSuperseded);
        }
        for superseded in [1, 9, u32::MAX] {
            let frame = frame(7, 7, superseded);
            assert_refused(&fitted, &frame, Refusal::NotSuperseded);
        }
    }

    /// Frames with every fault from one on meet that one's refusal.
    #[test]
    fn refusals_come_in_order() {
        let fitted = book(&[(5, 9), (6, 11)]);
        let all = frame(200, 11, 8);
        assert_refused(&fitted, &all[..9], Refusal::Malformed);
        assert_refused(&fitted, &[&all[..], &[0]].concat(), Refusal::Malformed);
        assert_refused(&fitted, &[&[0x41], &all[1..]].concat(), Refusal::Malformed);
        assert_refused(&fitted, &all, Refusal::NoSuchDoor);
        assert_refused(&fitted, &frame(200, 0, 8), Refusal::NoSuchDoor);
        assert_refused(&fitted, &frame(200, 7, 9), Refusal::NoSuchDoor);
        assert_refused(&fitted, &frame(5, 11, 8), Refusal::NotNew);
        assert_refused(&fitted, &frame(5, 0, 8), Refusal::NotNew);
        assert_refused(&fitted, &frame(5, 9, 8), Refusal::NotNew);
        assert_refused(&fitted, &frame(5, 7, 8), Refusal::NotSuperseded);
    }

    #[test]
    fn high_byte_first() {
        let left = book(&[(1, 0x0102_0304)]);
        let frame = [0x40, 1, 1, 2, 3, 4, 0, 0, 0, 0];
        assert_accepted(&Book::empty(), &frame, &left);
        let frame = [0x40, 1, 0xF1, 0, 0, 0xF4, 1, 2, 3, 4];
        assert_accepted(&left, &frame, &book(&[(1, 0xF100_00F4)]));
    }

    /// Books in which a lock stands at two doors, which no frames lead to.
    #[test]
    fn unreachable_books() {
        let twice = book(&[(5, 9), (6, 9)]);
        assert_refused(&twice, &frame(7, 9, 0), Refusal::NotNew);
        assert_refused(&twice, &frame(5, 9, 9), Refusal::NotNew);
        assert_accepted(&twice, &frame(6, 8, 9), &book(&[(5, 9), (6, 8)]));
    }

    /// Every refusal as it is printed, the book left alone; then 41.
    #[test]
    fn lines() {
        let locks = format!("{}{}", "0000000a".repeat(199), "0000000B");
        let refused = [
            ("F", "0C"),
            ("F41C7000000010000000B", "0C"),
            ("F40C8000000010000000B", "13"),
            ("F40C70000000A0000000B", "14"),
            ("F40C7000000010000000A", "15"),
        ];
        for (frame, answer) in refused {
            let input = format!("B{locks}\n{frame}\nP\n");
            assert_eq!(printed(&input), [answer, &locks.to_uppercase()[..]]);
        }
        let input = format!("B{locks}\nF40c7000000010000000b\nP\nLC7\nLc8\nLFF");
        let left = format!("{}{}", "0000000A".repeat(199), "00000001");
        let expected = ["41", &left[..], "00000001", "00000000", "00000000"];
        assert_eq!(printed(&input), expected);
    }

    /// The book is empty at first, and a set one replaces all of the old.
    #[test]
    fn books_set_and_printed() {
        assert_eq!(printed(""), [""; 0]);
        assert_eq!(printed("P\n"), ["0".repeat(1600)]);
        let locks: String = (0..200)
            .map(|door| format!("{:08X}", door * 65_537))
            .collect();
        let zeros = "0".repeat(1600);
        let input = format!("B{locks}\nP\nL00\nL80\nB{zeros}\nP");
        let expected = [&locks[..], "00000000", "00800080", &zeros[..]];
        assert_eq!(printed(&input), expected);
    }

    #[test]
    fn lines_that_say_nothing() {
        let (short, long) = ("0".repeat(1598), "0".repeat(1602));
        let lines = [
            "", "B", "L", "L0", "L000", "L0000", "P00", "F4", "F40G0", "F 40", "F40\r", "Q", "40",
            "l00", "p",
        ];
        let books = [format!("B{short}"), format!("B{long}")];
        for line in lines
            .iter()
            .copied()
            .chain(books.iter().map(String::as_str))
        {
            let input = format!("P\n{line}\nP\n");
            let mut output = Vec::new();
            let error = run(input.as_bytes(), &mut output).unwrap_err();
            assert_eq!(
                error.to_string(),
                "line 2 is no book, frame, look-up or print",
                "{line:?}"
            );
            assert_eq!(output.len(), 1601);
        }
    }

    /// Random runs from an empty book, judged by their frames and answers
    /// alone: a door's lock is the new one of its last accepted frame, 0
    /// without one, and no lock other than 0 stands at two doors.
    #[test]
    fn runs_from_an_empty_book() {
        let mut seed = 1u64;
        let mut below = |bound: u32| {
            // An odd multiplier and increment; the high bits are the good ones.
            seed = seed.wrapping_mul(0x5851_F42D_4C95_7F2D).wrapping_add(1);
            (seed >> 33) as u32 % bound
        };
        let mut met = [0u32; 256];
        for _ in 0..200 {
            let mut book = Book::empty();
            let mut last = [0u32; 256];
            for _ in 0..400 {
                let door = match below(8) {
                    0 => below(256) as u8,
                    1 => 199 + below(2) as u8,
                    _ => below(6) as u8,
                };
                // Few locks, so that they meet; mostly the lock superseded.
                let superseded = match below(4) {
                    0 => below(12),
                    _ => last[usize::from(door)],
                };
                let new = below(12);
                let mut bytes = frame(door, new, superseded);
                match below(30) {
                    0 => bytes[0] = below(256) as u8,
                    1 => bytes.truncate(below(10) as usize),
                    2 => bytes.push(below(256) as u8),
                    _ => {}
                }
                match book.enter(&bytes) {
                    Ok(()) => {
                        met[usize::from(ACCEPTED)] += 1;
                        last[usize::from(door)] = new;
                    }
                    Err(refusal) => met[refusal as usize] += 1,
                }
                for door in 0..=255 {
                    assert_eq!(book.lock(door), last[usize::from(door)]);
                }
                let mut standing: Vec<u32> = book.locks.to_vec();
                standing.retain(|&lock| lock != NO_LOCK);
                standing.sort_unstable();
                assert!(standing.windows(2).all(|pair| pair[0] < pair[1]));
            }
        }
        for number in [12, 19, 20, 21, usize::from(ACCEPTED)] {
            assert!(met[number] > 1000, "{number}: {}", met[number]);
        }
    }
}
