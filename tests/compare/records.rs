//! Records that no opening reaches: some answered by hand, then the same record and call to the proved program and to
//! the second one, and the answer and the record left must be equal byte for byte. Usage: records
//! PROVED SECOND RECORDS. `records --sample` writes the few cases of crates/probe/stdin.

mod by_hand;
mod clauses;
// the comparisons of schedules use the rest of it
#[allow(dead_code)]
mod early;
// so do they of this
#[allow(dead_code)]
mod kinds;
mod made;
mod process;
mod record;
// the other comparisons use the rest of it
#[allow(dead_code)]
mod schedules;

use clauses::{Decided, Judgement};
use early::{Before, Early};
use kinds::Kinds;
use made::{sample, Case, Maker, FAMILIES};
use record::{Phase, Record, RECORD, REPLY};
use schedules::{hex, Random, Seen, GIVE_UP};
use std::io::{self, Write};
use std::process::ExitCode;
use std::{env, thread};

/// What makes a record unfit that a success leaves. Each must have been seen.
const LEFT: [(&str, fn(&Record) -> bool); 6] = [
    ("counter above 32", |r| r.counter > 32),
    ("counter below -32", |r| r.counter < -32),
    ("numbered above 1,000,000", |r| r.numbered > 1_000_000),
    ("handed above 1,000,000", |r| r.handed > 1_000_000),
    ("oldest above numbered", |r| r.oldest > r.numbered),
    ("oldest above handed", |r| r.oldest > r.handed),
];

struct Counts {
    families: [u64; FAMILIES.len()],
    answers: Seen,
    decided: Decided,
    early: Early,
    kinds: Kinds,
    left: [u64; LEFT.len()],
}

impl Counts {
    fn nothing() -> Self {
        Counts {
            families: [0; FAMILIES.len()],
            answers: Seen::nothing(),
            decided: Decided::nothing(),
            early: Early::nothing(),
            kinds: Kinds::nothing(),
            left: [0; LEFT.len()],
        }
    }

    fn records(&self) -> u64 {
        self.families.iter().sum()
    }

    /// False if the caller's kind says otherwise.
    fn count(&mut self, case: &Case, judgement: &Judgement, code: u8, left: &Record) -> bool {
        self.families[case.family as usize] += 1;
        self.answers.count(code);
        self.decided.count(judgement);
        if code >= 0x20 {
            for (count, (_, is_so)) in self.left.iter_mut().zip(LEFT) {
                *count += u64::from(is_so(left));
            }
        }
        self.count_call(case, code)
    }

    fn count_call(&mut self, case: &Case, code: u8) -> bool {
        let record = Record::read(&case.bytes);
        let [call, party] = [case.bytes[RECORD], case.bytes[RECORD + 1]];
        // the call as the programs read it
        let call = if call % 5 == 0 { 0x14 } else { 0x0F + call % 5 };
        let Some(caller) = record.phases.get(usize::from(party)) else {
            return true;
        };
        let kind = record.kinds[usize::from(party)];
        let phase = match caller.phase {
            Phase::Asked => Some(Before::Asked),
            Phase::Unnumbered => Some(Before::Unnumbered),
            Phase::Numbered => Some(Before::Numbered),
            _ => None,
        };
        if let Some(phase) = phase {
            self.early.count((phase, caller.marked, kind), call, code, record.has_radios);
        }
        call != GIVE_UP || self.kinds.gives_up(phase.is_some(), party, kind, code)
    }

    /// Prints the counts; false if something that must occur did not.
    fn shows(&self) -> bool {
        println!("proved and second program: {} records, equal", self.records());
        let families: Vec<String> =
            FAMILIES.iter().zip(self.families).map(|(name, n)| format!("{name} {n}")).collect();
        println!("  {}", families.join(", "));
        let expected = (4..=11).chain([1]).chain(0x20..=0x33).chain(0x36..=0x39);
        let answers = self.answers.shows(expected);
        let early = [self.early.shows(false), self.kinds.shows_decided(true)] == [true; 2];
        let decided = self.decided.shows();
        let left: Vec<String> =
            LEFT.iter().zip(self.left).map(|((name, _), n)| format!("{name} {n}")).collect();
        println!("left unfit by a success: {}", left.join(", "));
        answers && early && decided && self.left.iter().all(|&n| n > 0)
    }
}

/// What both print for the same input.
fn printed(programs: [&str; 2], input: &[u8]) -> [Vec<u8>; 2] {
    thread::scope(|scope| {
        let proved = scope.spawn(|| process::output(programs[0], &[], input, input.len()));
        let second = process::output(programs[1], &["--records"], input, input.len());
        [proved.join().expect("the thread does not panic"), second]
    })
}

/// What both print for the same cases.
fn outputs(programs: [&str; 2], cases: &[Case]) -> [Vec<u8>; 2] {
    let input: Vec<u8> = cases.iter().flat_map(|case| case.bytes.iter().copied()).collect();
    printed(programs, &input)
}

/// Shows a case and what each program makes of it.
fn show(case: &Case, replies: [&[u8]; 2]) {
    let record = Record::read(&case.bytes);
    println!("{}: call {} on", FAMILIES[case.family as usize], hex(&case.bytes[RECORD..]));
    println!("{record}");
    println!("broken: {:?}", Judgement::of(&record).broken);
    for (program, reply) in ["proved", "second"].into_iter().zip(replies) {
        if reply.len() == REPLY {
            let changes = Record::read(&reply[7..]).differences(&record);
            println!("{program}: {}, changed: {}", hex(&reply[..7]), changes.join(", "));
        } else {
            println!("{program}: {}", reply.escape_ascii());
        }
    }
    let [ours, theirs] = replies.map(|reply| reply.get(7..REPLY).map(Record::read));
    if let (Some(ours), Some(theirs)) = (ours, theirs) {
        println!("the proved record has {}", ours.differences(&theirs).join(", "));
        println!("the second one has {}", theirs.differences(&ours).join(", "));
    }
}

/// Shows the first case at which the replies differ or are not whole.
fn show_difference(cases: &[Case], outputs: [&[u8]; 2]) {
    let [ours, theirs] = outputs.map(|output| output.chunks(REPLY));
    let equal = ours.zip(theirs).take_while(|(a, b)| a == b && a.len() == REPLY).count();
    let at = equal.min(cases.len() - 1);
    show(&cases[at], outputs.map(|output| output.chunks(REPLY).nth(at).unwrap_or_default()));
}

/// Counts what was answered to each case, and gives the code and the record left. None if both
/// programs take a record that breaks a clause, or refuse one that breaks none, or pass over the
/// caller's kind, or change a kind.
fn counted(counts: &mut Counts, cases: &[Case], output: &[u8]) -> Option<Vec<(u8, Record)>> {
    let mut left = Vec::new();
    for (case, reply) in cases.iter().zip(output.chunks(REPLY)) {
        let before = Record::read(&case.bytes);
        let judgement = Judgement::of(&before);
        let (code, record) = (reply[0], Record::read(&reply[7..]));
        let clauses = (code == 1) != judgement.broken.is_empty();
        let kinds = counts.count(case, &judgement, code, &record) && record.kinds == before.kinds;
        if !clauses || !kinds {
            let what = if clauses { "kinds" } else { "clauses" };
            println!("the programs agree, but not with the {what}");
            show(case, [reply, reply]);
            return None;
        }
        left.push((code, record));
    }
    Some(left)
}

fn main() -> ExitCode {
    let arguments: Vec<String> = env::args().skip(1).collect();
    let words: Vec<&str> = arguments.iter().map(String::as_str).collect();
    let (programs, records) = match words[..] {
        ["--sample"] => {
            io::stdout().write_all(&sample()).expect("standard output is written");
            return ExitCode::SUCCESS;
        }
        [proved, second, records] => ([proved, second], records),
        _ => {
            eprintln!("usage: records PROVED SECOND RECORDS, or records --sample");
            return ExitCode::FAILURE;
        }
    };
    let records: u64 = records.parse().expect("RECORDS is a number");
    let [ours, theirs] = printed(programs, &by_hand::input());
    if !by_hand::holds("proved", &ours) || !by_hand::holds("second", &theirs) {
        return ExitCode::FAILURE;
    }
    let mut counts = Counts::nothing();
    let random = &mut Random::seeded(1);
    let mut maker = Maker::new(random);
    while counts.records() < records {
        let cases = maker.cases(random);
        let [ours, theirs] = outputs(programs, &cases);
        if ours != theirs || ours.len() != cases.len() * REPLY {
            show_difference(&cases, [&ours, &theirs]);
            return ExitCode::FAILURE;
        }
        let Some(left) = counted(&mut counts, &cases, &ours) else {
            return ExitCode::FAILURE;
        };
        maker.follow(&left);
    }
    if counts.shows() {
        ExitCode::SUCCESS
    } else {
        ExitCode::FAILURE
    }
}
