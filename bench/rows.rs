// Where a line's instructions go. Reads what `valgrind --tool=lackey --trace-mem=yes
// --trace-syscalls=yes` wrote of a run of the schedule program, on standard input, and the run's
// output from the file that is named; prints instructions a line for each part of the work.
//
// The compiler puts a call's whole work into one function, so that no count by function tells its
// parts. The order in which the program touches its memory does. Of each piece but the first:
// - cutting and reading: from the first load of the piece to the last one;
// - deciding: from the load of a line's request to the first store into the record;
// - storing and tidying: the stores into the record, and what follows the reply's last character
//   until the next request is loaded;
// - writing: from the last store into the record to the reply's last character;
// - the rest is done once a piece: read, write, what is copied.
// Where a line begins or ends a few instructions belong to the next part already, since the
// compiler mixes them.
use std::collections::HashSet;
use std::io::{self, BufRead};

#[derive(Clone, Copy)]
struct Access {
    at: u64, // instructions before it
    store: bool,
    addr: u64,
    size: u64,
}

// A call by its reply: party and number are read from it.
struct Reply {
    code: u64,
    party: u64,
    number: u64,
}

fn fail(why: &str) -> ! {
    eprintln!("bench/rows: {why}");
    std::process::exit(1)
}

fn hex(text: &str) -> u64 {
    u64::from_str_radix(text, 16).unwrap_or_else(|_| fail(&format!("no number: {text}")))
}

fn reply(line: &str) -> Reply {
    Reply { code: hex(&line[0..2]), party: hex(&line[2..4]), number: hex(&line[6..14]) }
}

// The one address that, a line's own offset added, every line touches.
fn base(lines: &[(Vec<u64>, u64)], what: &str) -> u64 {
    let mut all: Option<HashSet<u64>> = None;
    for (touched, offset) in lines {
        let here: HashSet<u64> = touched.iter().map(|a| a.wrapping_sub(*offset)).collect();
        all = Some(match all {
            None => here,
            Some(before) => before.intersection(&here).copied().collect(),
        });
    }
    match all.unwrap_or_default().into_iter().min() {
        Some(address) => address,
        None => fail(&format!("{what}: not found")),
    }
}

// Arguments of the system call in a line of the trace, if it is this one on this descriptor.
fn call(line: &str, name: &str, descriptor: &str) -> Option<(u64, u64)> {
    let rest = line.split(&format!("{name} ( {descriptor}, 0x")).nth(1)?;
    let mut parts = rest.split([',', ')']);
    let addr = hex(parts.next()?.trim());
    Some((addr, parts.next()?.trim().parse().ok()?))
}

struct Piece {
    addr: u64, // of what is read
    out: u64,
    lines: usize,
    first: usize, // its first line, of the output's
    accesses: Vec<Access>,
    began: u64,
    ended: u64,
}

fn main() {
    let path = std::env::args().nth(1).unwrap_or_else(|| fail("which output?"));
    let output = std::fs::read_to_string(path).unwrap_or_else(|_| fail("no output"));
    let replies: Vec<Reply> = output.lines().map(reply).collect();
    let mut pieces: Vec<Piece> = Vec::new();
    let mut now = 0;
    let mut seen = 0;
    let mut open: Option<Piece> = None;
    for line in io::stdin().lock().lines() {
        let line = line.unwrap_or_else(|_| fail("the trace cannot be read"));
        let kind = line.as_bytes().get(0..2).unwrap_or(b"");
        match kind {
            b"I " => now += 1,
            b" L" | b" S" | b" M" => {
                let Some(piece) = &mut open else { continue };
                let (addr, size) = line[3..].split_once(',').unwrap_or_else(|| fail("no access"));
                let size = size.trim().parse().unwrap_or(0);
                piece.accesses.push(Access { at: now, store: kind != b" L", addr: hex(addr.trim()), size });
            }
            _ => {
                if let Some((addr, _)) = call(&line, "sys_read", "0") {
                    if let Some(mut piece) = open.take() {
                        piece.ended = now;
                        pieces.push(piece);
                    }
                    let accesses = Vec::new();
                    open = Some(Piece { addr, out: 0, lines: 0, first: seen, accesses, began: now, ended: now });
                } else if let Some((addr, size)) = call(&line, "sys_write", "1") {
                    let Some(piece) = &mut open else { continue };
                    piece.out = addr;
                    piece.lines = (size / 15) as usize;
                    seen += piece.lines;
                }
            }
        }
    }
    let pieces: Vec<Piece> = pieces.into_iter().skip(1).filter(|p| 0 < p.lines).collect();
    if pieces.len() < 2 {
        fail("too few pieces");
    }

    // what is touched between the last character of a reply and the first of the next
    let within = |a: &Access, from: u64, size: u64| from <= a.addr && a.addr < from + size;
    let mut asked = Vec::new();
    let mut slots = Vec::new();
    let mut places = Vec::new();
    let mut cut: Vec<Vec<Access>> = Vec::new();
    for piece in &pieces {
        let read = piece.accesses.iter().filter(|a| !a.store && within(a, piece.addr, 4096)).last();
        let mut from = read.unwrap_or_else(|| fail("nothing is read")).at;
        for i in 0..piece.lines {
            let written = |a: &&Access| a.store && within(a, piece.out + 15 * i as u64, 15);
            let first = piece.accesses.iter().find(|a| a.at > from && written(a));
            let last = piece.accesses.iter().filter(written).last();
            let (Some(first), Some(last)) = (first, last) else { fail("a reply is not written") };
            let before: Vec<Access> =
                piece.accesses.iter().filter(|a| from < a.at && a.at <= first.at).copied().collect();
            let r = &replies[piece.first + i];
            let loads = before.iter().filter(|a| !a.store && a.size == 1).map(|a| a.addr).collect();
            asked.push((loads, 2 * i as u64));
            let stores = |size| before.iter().filter(|a| a.store && a.size == size).map(|a| a.addr).collect();
            // 39 changes nothing
            if 0x20 <= r.code && r.code < 0x39 {
                slots.push((stores(8), 8 * r.party));
            }
            if r.code == 0x24 {
                places.push((stores(2), 2 * (r.number % 256)));
            }
            cut.push(before);
            from = last.at;
        }
    }
    let asked = base(&asked, "the requests");
    let slots = base(&slots, "the slots");
    // where nobody waits no place is stored
    let places = if places.is_empty() { 0 } else { base(&places, "the places") };

    let mut rows = [0u64; 4];
    let mut total = 0;
    let mut lines = 0;
    let mut k = 0;
    for piece in &pieces {
        total += piece.ended - piece.began;
        let read: Vec<&Access> =
            piece.accesses.iter().filter(|a| !a.store && within(a, piece.addr, 4096)).collect();
        rows[0] += read[read.len() - 1].at - read[0].at + 1;
        let mut last = None;
        for i in 0..piece.lines {
            let before = &cut[k];
            k += 1;
            let start = before.iter().find(|a| !a.store && a.addr == asked + 2 * i as u64);
            let start = start.unwrap_or_else(|| fail("a request is not loaded")).at;
            if let Some(last) = last {
                rows[2] += start - last;
            }
            let record = |a: &&Access| a.store && (within(a, slots, 256) || within(a, places, 512));
            let stored: Vec<&Access> = before.iter().filter(|a| a.at > start).filter(record).collect();
            let mut from = before[before.len() - 1].at;
            if let (Some(a), Some(b)) = (stored.first(), stored.last()) {
                rows[2] += b.at - a.at + 1;
                rows[1] += a.at - start;
                from = b.at + 1;
            } else {
                rows[1] += from - start;
            }
            let end = piece.accesses.iter().filter(|a| a.store && within(a, piece.out + 15 * i as u64, 15));
            let end = end.last().map_or(from, |a| a.at);
            rows[3] += end + 1 - from;
            last = Some(end + 1);
        }
        lines += piece.lines as u64;
    }
    let rest = total - rows.iter().sum::<u64>();
    let each = |n: u64| (n as f64 / lines as f64).round() as u64;
    println!("{} {} {} {} {}", each(rows[0]), each(rows[1]), each(rows[2]), each(rows[3]), each(rest));
}
