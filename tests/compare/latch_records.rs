//! Records of a latch that no opening reaches: the same record and call to the proved program and
//! to the latch's second one, and the answer and the record left must be equal byte for byte. Usage:
//! latch_records PROVED SECOND RECORDS. `latch_records --sample` writes the few cases of
//! crates/latchprobe/stdin.

mod latch_clauses;
mod latch_made;
mod latch_record;
mod latch_rows;
// the comparison of schedules uses the rest of these two
#[allow(dead_code)]
mod latch_schedules;
#[allow(dead_code)]
mod latch_story;
mod process;
// the hub's comparisons use the rest of these two
#[allow(dead_code)]
mod record;
#[allow(dead_code)]
mod schedules;

use latch_clauses::{Decided, Judgement};
use latch_clauses::{
    CANCELLING, FIRST, HANDED, HANDING, NUMBERED, NUMBERING, REFUSING, TAKING, WAITERS,
};
use latch_made::{sample, Case, Maker, FAMILIES};
use latch_record::{Record, RECORD, REPLY};
use latch_rows::Rows;
use schedules::{hex, Random, Seen};
use std::io::{self, Write};
use std::process::ExitCode;
use std::{env, thread};

/// The clauses that a success can leave broken. Each must have been seen.
const LEFT: [&str; 9] =
    [WAITERS, NUMBERED, HANDED, FIRST, TAKING, NUMBERING, HANDING, CANCELLING, REFUSING];

struct Counts {
    families: [u64; FAMILIES.len()],
    answers: Seen,
    rows: Rows,
    decided: Decided,
    left: [u64; LEFT.len()],
}

impl Counts {
    fn nothing() -> Self {
        Counts {
            families: [0; FAMILIES.len()],
            answers: Seen::nothing(),
            rows: Rows::default(),
            decided: Decided::default(),
            left: [0; LEFT.len()],
        }
    }

    fn records(&self) -> u64 {
        self.families.iter().sum()
    }

    fn count(&mut self, case: &Case, judgement: &Judgement, code: u8, left: &Record) {
        self.families[case.family as usize] += 1;
        self.answers.count(code);
        self.decided.count(judgement);
        self.rows.count(
            &Record::read(&case.bytes),
            [case.bytes[RECORD], case.bytes[RECORD + 1]],
            code,
        );
        if code >= 0x20 {
            let broken = Judgement::of(left).broken;
            for (count, clause) in self.left.iter_mut().zip(LEFT) {
                *count += u64::from(broken.contains(&clause));
            }
        }
    }

    /// Prints the counts; false if something that must occur did not.
    fn shows(&self) -> bool {
        println!("proved and second program of the latch: {} records, equal", self.records());
        let families: Vec<String> =
            FAMILIES.iter().zip(self.families).map(|(name, n)| format!("{name} {n}")).collect();
        println!("  {}", families.join(", "));
        let answers = self.answers.shows((4..=10).chain([1]).chain(0x20..=0x33));
        let rows = self.rows.shows();
        let decided = self.decided.shows();
        let left: Vec<String> =
            LEFT.iter().zip(self.left).map(|(clause, n)| format!("{clause} {n}")).collect();
        println!("left unfit by a success: {}", left.join(", "));
        answers && rows && decided && self.left.iter().all(|&n| n > 0)
    }
}

/// What both print for the same cases.
fn outputs(programs: [&str; 2], cases: &[Case]) -> [Vec<u8>; 2] {
    let input: Vec<u8> = cases.iter().flat_map(|case| case.bytes.iter().copied()).collect();
    thread::scope(|scope| {
        let proved = scope.spawn(|| process::output(programs[0], &[], &input, input.len()));
        let second = process::output(programs[1], &["--records"], &input, input.len());
        [proved.join().expect("the thread does not panic"), second]
    })
}

/// Shows a case and what each program makes of it.
fn show(case: &Case, replies: [&[u8]; 2]) {
    let record = Record::read(&case.bytes);
    println!("{}: call {} on", FAMILIES[case.family as usize], hex(&case.bytes[RECORD..]));
    println!("{record}");
    println!("broken: {:?}", Judgement::of(&record).broken);
    for (program, reply) in ["proved", "second"].into_iter().zip(replies) {
        if reply.len() == REPLY {
            let changes = Record::read(&reply[7..]).differences(&record);
            println!("{program}: {}, changed: {}", hex(&reply[..7]), changes.join(", "));
        } else {
            println!("{program}: {}", reply.escape_ascii());
        }
    }
    let at = replies[0].iter().zip(replies[1]).position(|(ours, theirs)| ours != theirs);
    println!("the first byte that differs: {at:?}");
}

/// Shows the first case at which the replies differ or are not whole.
fn show_difference(cases: &[Case], outputs: [&[u8]; 2]) {
    let [ours, theirs] = outputs.map(|output| output.chunks(REPLY));
    let equal = ours.zip(theirs).take_while(|(a, b)| a == b && a.len() == REPLY).count();
    let at = equal.min(cases.len() - 1);
    show(&cases[at], outputs.map(|output| output.chunks(REPLY).nth(at).unwrap_or_default()));
}

/// Counts what was answered to each case, and gives the code and the record left. None if both
/// programs take a record that breaks a clause, or refuse one that breaks none.
fn counted(counts: &mut Counts, cases: &[Case], output: &[u8]) -> Option<Vec<(u8, Record)>> {
    let mut left = Vec::new();
    for (case, reply) in cases.iter().zip(output.chunks(REPLY)) {
        let judgement = Judgement::of(&Record::read(&case.bytes));
        let (code, record) = (reply[0], Record::read(&reply[7..]));
        if (code == 1) == judgement.broken.is_empty() {
            println!("the programs agree, but not with the clauses");
            show(case, [reply, reply]);
            return None;
        }
        counts.count(case, &judgement, code, &record);
        left.push((code, record));
    }
    Some(left)
}

fn main() -> ExitCode {
    let arguments: Vec<String> = env::args().skip(1).collect();
    let words: Vec<&str> = arguments.iter().map(String::as_str).collect();
    let (programs, records) = match words[..] {
        ["--sample"] => {
            io::stdout().write_all(&sample()).expect("standard output is written");
            return ExitCode::SUCCESS;
        }
        [proved, second, records] => ([proved, second], records),
        _ => {
            eprintln!("usage: latch_records PROVED SECOND RECORDS, or latch_records --sample");
            return ExitCode::FAILURE;
        }
    };
    let records: u64 = records.parse().expect("RECORDS is a number");
    let mut counts = Counts::nothing();
    let random = &mut Random::seeded(1);
    let mut maker = Maker::new(random);
    while counts.records() < records {
        let cases = maker.cases(random);
        let [ours, theirs] = outputs(programs, &cases);
        if ours != theirs || ours.len() != cases.len() * REPLY {
            show_difference(&cases, [&ours, &theirs]);
            return ExitCode::FAILURE;
        }
        let Some(left) = counted(&mut counts, &cases, &ours) else {
            return ExitCode::FAILURE;
        };
        maker.follow(&left);
    }
    if counts.shows() {
        ExitCode::SUCCESS
    } else {
        ExitCode::FAILURE
    }
}
