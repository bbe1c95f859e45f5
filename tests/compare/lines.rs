//! Inputs of lines, good and damaged, and two programs side by side on them.

use crate::kinds::Opening;
use crate::process;
use crate::schedules::{hex, opening, radios, Random};
use std::thread;

/// Lines of a difference that are shown; the seed gives the rest.
const SHOWN: usize = 30;

/// As many lines are gone through one by one for the shortest difference.
const SEARCHED: usize = 12_000;

/// Characters of the longest line that is looked into.
pub const LONGEST: usize = 160;

/// The proved program, and the second one in the mode in which it does the same.
#[derive(Clone, Copy)]
pub struct Programs<'a> {
    pub proved: &'a str,
    pub second: &'a str,
    pub mode: &'a [&'a str],
}

pub fn joined<T: AsRef<[u8]>>(lines: &[T], ended: bool) -> Vec<u8> {
    let mut input = Vec::new();
    for line in lines {
        input.extend(line.as_ref());
        input.push(b'\n');
    }
    if !ended {
        input.pop();
    }
    input
}

/// These lines with openings where they do not belong and some that are not whole.
pub fn damaged(random: &mut Random, lines: Vec<String>) -> Vec<u8> {
    let mut lines: Vec<Vec<u8>> = lines.into_iter().map(String::into_bytes).collect();
    let first = lines[0].clone();
    for _ in 0..random.below(4) {
        // twice, too late, or not at all
        let at = random.below(lines.len() as u64) as usize;
        match random.below(6) {
            0 => lines.swap(0, at.min(10)),
            1 => lines.insert(at, hex(&[1, random.byte(), random.byte()]).into_bytes()),
            2 => lines.insert(at.min(3), b"010001".to_vec()),
            3 => lines.insert(at, hex(&opening(random).opening()).into_bytes()),
            4 => lines.insert(0, hex(&opening(random).opening()).into_bytes()),
            _ => lines.insert(at, first.clone()),
        }
    }
    if random.one_in(2) {
        lines.insert(0, first);
        damage(random, &mut lines[0]);
    }
    if random.one_in(4) {
        lines.insert(0, bounded_opening(random));
    }
    let odds = random.pick(&[3, 10, 50]);
    for line in &mut lines {
        if random.one_in(odds) {
            damage(random, line);
        }
    }
    joined(&lines, random.one_in(2))
}

/// Openings alone, those that are refused first; after one that is not, all are out of order.
pub fn openings(random: &mut Random) -> Vec<u8> {
    let frames = |random: &mut Random, most: u64| -> Vec<Vec<u8>> {
        (0..random.below(most)).map(|_| opening(random).opening()).collect()
    };
    let mut first = frames(random, 60);
    first.sort_by_key(|frame| Opening::read(frame).is_some_and(|opening| opening.answer() == 0x1F));
    first.extend(frames(random, 10));
    let lines: Vec<String> = first.iter().map(|frame| hex(frame)).collect();
    joined(&lines, random.one_in(2))
}

/// An opening with radios in a line that is about as long as a line may be.
fn bounded_opening(random: &mut Random) -> Vec<u8> {
    let permits = 75 + random.below(5) as u8;
    let mut frame = vec![2, permits, random.pick(&[0, 1, 33])];
    frame.extend(radios(random, permits));
    let mut line = hex(&frame).into_bytes();
    match random.below(5) {
        0 => line.push(b'0'),
        1 => drop(line.pop()),
        _ => {}
    }
    line
}

fn damage(random: &mut Random, line: &mut Vec<u8>) {
    const STRAY: &[u8] = b"\r\0 \t\n\x0b\x80\xff/:@G`gxX+-.";
    const DIGITS: &[u8] = b"0123456789ABCDEFabcdef";
    if line.len() < 2 {
        // damaged already
        return;
    }
    let at = random.below(line.len() as u64) as usize;
    match random.below(15) {
        0 => drop(line.remove(at)),
        1 => line.insert(at, line[at]),
        2 => line[at] = random.byte(),
        3 => line[at] = random.pick(STRAY),
        4 => line[at] = random.pick(DIGITS),
        5 => line.truncate(at),
        6 => line.make_ascii_lowercase(),
        7 => line.insert(at, random.pick(STRAY)),
        8 => line.push(random.pick(STRAY)),
        9 => line.push(random.pick(DIGITS)),
        10 => line.extend([random.pick(DIGITS), random.pick(DIGITS)]),
        11 => {
            let any = random.byte();
            let code = random.pick(&[0, 1, 2, 3, 0x0F, 0x14, 0x15, 0x1F, 0x20, any]);
            line.splice(..2, hex(&[code]).into_bytes());
        }
        12 => line.truncate(line.len() - 2),
        // the line over and over, about as long as a line may be, or far longer
        13 => *line = line.iter().copied().cycle().take(155 + random.below(11) as usize).collect(),
        _ => {
            let most = random.pick(&[300, 300, 300, 70_000]);
            let length = 60 + random.below(most) as usize;
            *line = line.iter().copied().cycle().take(length).collect();
        }
    }
}

/// Bytes of some alphabet, at times after an opening.
pub fn bytes(random: &mut Random) -> Vec<u8> {
    let all: Vec<u8> = (0..=255).collect();
    let alphabets: [&[u8]; 4] = [&all, b"01\n", b"0123456789abcdefABCDEF\n", b"01\n\r\0 "];
    let alphabet = random.pick(&alphabets);
    let opening = random.pick(&["", "010103\n", "01", "020103A7\n", "0201"]).as_bytes();
    let most = random.pick(&[4, 100, 3000]);
    let rest = (0..random.below(most)).map(|_| random.pick(alphabet));
    opening.iter().copied().chain(rest).collect()
}

/// The bytes of a line of digits.
pub fn frame(line: &[u8]) -> Option<Vec<u8>> {
    let pair = |pair: &[u8]| match *pair {
        [high, low] => {
            let [high, low] = [high, low].map(|digit| char::from(digit).to_digit(16));
            Some((high? << 4 | low?) as u8)
        }
        _ => None,
    };
    line.chunks(2).map(pair).collect()
}

/// What both print. The pieces in which they get it must not show.
pub fn outputs(programs: Programs, input: &[u8], piece: usize) -> [Vec<u8>; 2] {
    thread::scope(|scope| {
        let proved = scope.spawn(|| process::output(programs.proved, &[], input, piece));
        let second = process::output(programs.second, programs.mode, input, input.len());
        [proved.join().expect("the thread does not panic"), second]
    })
}

/// Prints where the programs differ, on as few lines as it takes. Halving finds a bound on which
/// they differ and on one line less agree. A closing line may differ and agree again further on,
/// so the lines up to the bound are then gone through from the first, unless they are too many.
pub fn show(programs: Programs, seed: u64, input: &[u8], piece: usize) {
    let lines: Vec<&[u8]> = input.split_inclusive(|&byte| byte == b'\n').collect();
    let both = |count: usize| outputs(programs, &lines[..count].concat(), piece);
    let differs = |count: usize| {
        let [proved, second] = both(count);
        proved != second
    };
    let (mut agree, mut bound) = (0, lines.len());
    while bound - agree > 1 {
        let middle = (agree + bound) / 2;
        if differs(middle) {
            bound = middle
        } else {
            agree = middle
        }
    }
    let searched = if bound > SEARCHED { 0 } else { bound };
    let differ = (0..searched).find(|&count| differs(count)).unwrap_or(bound);
    println!("seed {seed}: the first {differ} lines of {} are enough", lines.len());
    if differ > SHOWN {
        println!("  ...");
    }
    for line in &lines[differ.saturating_sub(SHOWN)..differ] {
        println!("  {}", line.escape_ascii());
    }
    let [proved, second] = both(differ);
    let [mut proved, mut second] =
        [&proved, &second].map(|output| output.split_inclusive(|&byte| byte == b'\n'));
    loop {
        let (ours, theirs) = (proved.next(), second.next());
        if ours != theirs || ours.is_none() {
            let text = |line: Option<&[u8]>| line.map(|line| line.escape_ascii().to_string());
            println!("proved: {:?}\nsecond: {:?}", text(ours), text(theirs));
            return;
        }
    }
}
