//! How long until calm (M-160): after a random schedule without radios nobody asks, gives up or
//! gives back any more, and parties step in some order until all are at rest. No busy party's
//! step may be refused, and there must be no more of them than the bound says. Who is busy, and
//! the bound, come from calls and answers alone. Usage: calm PROGRAM SCHEDULES.

mod process;
#[allow(dead_code)] // openings with radios are not for here
mod schedules;

use schedules::{hex, kinds, House, Random, Schedule, Seen, ASK, GIVE_BACK, GIVE_UP, STEP};
use std::collections::BTreeSet;
use std::env;
use std::process::ExitCode;

#[derive(Clone, Copy, PartialEq)]
enum Phase {
    Free,
    Holding,
    Waiting,
    Asked,
    Unnumbered,
    Numbered,
    /// Giving up, cancelling, refusing, giving back, carrying or handing.
    Under,
}

/// What calls and their answers say of the hub.
struct Replay {
    phases: Vec<Phase>,
    marked: Vec<bool>,
    numbered: u64,
    handed: u64,
    cancelled: BTreeSet<u64>,
}

impl Replay {
    fn opened(parties: u8) -> Self {
        let parties = usize::from(parties);
        Replay {
            phases: vec![Phase::Free; parties],
            marked: vec![false; parties],
            numbered: 0,
            handed: 0,
            cancelled: BTreeSet::new(),
        }
    }

    fn is_busy(&self, party: u8) -> bool {
        let phase = self.phases.get(usize::from(party));
        phase.is_some_and(|phase| !matches!(phase, Phase::Free | Phase::Holding | Phase::Waiting))
    }

    fn is_calm(&self) -> bool {
        (0..self.phases.len()).all(|party| !self.is_busy(party as u8))
    }

    /// 5 × n + 2 × (numbered + parties asked or unnumbered − handed).
    fn bound(&self) -> u64 {
        let draws = |phase: &&Phase| matches!(phase, Phase::Asked | Phase::Unnumbered);
        let drawn = self.numbered + self.phases.iter().filter(draws).count() as u64;
        let bracket = drawn.checked_sub(self.handed).expect("the difference is not below 0");
        5 * self.phases.len() as u64 + 2 * bracket
    }

    fn follow(&mut self, [call, party]: [u8; 2], answer: &Answer) {
        if answer.code < 0x20 || answer.code == 0x39 {
            return;
        }
        let party = usize::from(party);
        let phase = match (answer.code, call, self.phases[party]) {
            (0x20, ASK, _) => Phase::Asked,
            (0x20, GIVE_BACK, _) | (0x20, GIVE_UP, Phase::Waiting) => Phase::Under,
            (0x20, GIVE_UP, phase) => {
                self.marked[party] = true;
                phase
            }
            (0x22, ..) => Phase::Unnumbered,
            (0x23, ..) => {
                self.numbered = answer.number + 1;
                Phase::Numbered
            }
            (0x24, ..) if self.marked[party] => Phase::Under,
            (0x24, ..) => Phase::Waiting,
            (0x21 | 0x25, ..) => Phase::Holding,
            (0x28, ..) => {
                self.handed = answer.number + 1;
                Phase::Under
            }
            (0x2A, ..) => {
                self.phases[usize::from(answer.woken)] = Phase::Holding;
                Phase::Free
            }
            (0x30, ..) => {
                self.cancelled.insert(answer.number);
                Phase::Free
            }
            (0x2C, ..) => {
                self.cancelled.remove(&answer.number);
                Phase::Under
            }
            (0x27 | 0x2E | 0x2F | 0x31, ..) => Phase::Under,
            (0x26 | 0x29 | 0x2B | 0x2D | 0x32 | 0x33, ..) => Phase::Free,
            (code, ..) => panic!("no hub without radios answers {code:02X}"),
        };
        self.phases[party] = phase;
        self.marked[party] &= matches!(phase, Phase::Asked | Phase::Unnumbered | Phase::Numbered);
        while self.cancelled.remove(&self.handed) {
            self.handed += 1;
        }
    }
}

struct Answer {
    code: u8,
    woken: u8,
    number: u64,
}

/// The answers to calls, without the opening's and the closing line.
fn answers(program: &str, lines: &[String]) -> Vec<Answer> {
    let mut input = lines.join("\n");
    input.push('\n');
    let output = process::output(program, &[], input.as_bytes(), input.len());
    let printed = String::from_utf8(output).expect("digits");
    let field = |line: &str, at: usize, to: usize| {
        u64::from_str_radix(&line[at..to], 16).unwrap_or_else(|_| panic!("{line}"))
    };
    let answer = |line: &str| Answer {
        code: field(line, 0, 2) as u8,
        woken: field(line, 4, 6) as u8,
        number: field(line, 6, 14),
    };
    let answers: Vec<Answer> = printed.lines().map(answer).collect();
    assert_eq!(answers.len(), lines.len() + 1, "an answer for each line, and the closing line");
    answers.into_iter().skip(1).take(lines.len() - 1).collect()
}

/// A schedule that ends, at times, in a rush: all ask, some give up early or give back.
fn schedule(random: &mut Random) -> Schedule {
    let few = random.pick(&[4, 8, 32]);
    let parties = 1 + random.below(few) as u8;
    // few links, so that many wait
    let permits = 1 + random.below(1 + few / 8) as u8;
    let kinds = random.one_in(2).then(|| kinds(random));
    let mut schedule = Schedule { permits, parties, kinds, ..Schedule::default() };
    let most = random.pick(&[1, 30, 300, 2000]);
    let total = random.below(most);
    let mut house = House::of(&schedule);
    schedule.live(random, &mut house, total);
    for _ in 0..random.below(3) {
        let rush = [&[ASK, GIVE_UP][..], &[ASK, GIVE_BACK], &[GIVE_BACK, ASK, GIVE_UP]];
        for &call in random.pick(&rush) {
            for party in shuffled(random, parties) {
                if !random.one_in(6) {
                    schedule.calls.push([call, party]);
                }
            }
        }
    }
    schedule
}

fn shuffled(random: &mut Random, parties: u8) -> Vec<u8> {
    let mut all: Vec<u8> = (0..parties).collect();
    for at in (1..all.len()).rev() {
        all.swap(at, random.below(at as u64 + 1) as usize);
    }
    all
}

/// So many turns in some order. A party at rest is refused by 8 and nothing changes: the turns of
/// busy ones are the steps.
fn turns(random: &mut Random, parties: u8, count: usize) -> Vec<u8> {
    let kind = random.below(4);
    let rank = shuffled(random, parties);
    let mut turns = Vec::new();
    while turns.len() < count {
        let party = random.below(u64::from(parties)) as u8;
        match kind {
            0 => turns.push(party),
            1 => turns.extend(shuffled(random, parties)),
            // one goes on for a while
            2 => turns.extend([party; 6]),
            // the first of three: some have hardly a turn as long as others are busy
            _ => {
                let others = [0; 2].map(|_| random.below(u64::from(parties)) as u8);
                let first = others.into_iter().chain([party]).min_by_key(|p| rank[usize::from(*p)]);
                turns.extend(first);
            }
        }
    }
    turns
}

/// What became of a schedule and the turns after it.
struct Calm {
    parties: u64,
    bound: u64,
    steps: u64,
    busy: u64,
    marked: u64,
}

/// Steps until all are at rest; what is wrong otherwise.
fn calm(program: &str, seed: u64, seen: &mut Seen) -> Result<Calm, String> {
    let random = &mut Random::seeded(seed);
    let schedule = schedule(random);
    let order = random.next();
    let mut count = 40 * usize::from(schedule.parties);
    loop {
        let turns = turns(&mut Random::seeded(order), schedule.parties, count);
        let mut lines = schedule.lines();
        lines.extend(turns.iter().map(|&party| hex(&[STEP, party])));
        let answers = answers(program, &lines);
        let (before, after) = answers.split_at(schedule.calls.len());
        let mut replay = Replay::opened(schedule.parties);
        for (call, answer) in schedule.calls.iter().zip(before) {
            replay.follow(*call, answer);
        }
        let start = Calm {
            parties: u64::from(schedule.parties),
            bound: replay.bound(),
            steps: 0,
            busy: (0..schedule.parties).filter(|&party| replay.is_busy(party)).count() as u64,
            marked: replay.marked.iter().filter(|&&marked| marked).count() as u64,
        };
        let mut steps = 0;
        for (&party, answer) in turns.iter().zip(after) {
            let busy = replay.is_busy(party);
            if busy == (answer.code < 0x20) {
                let code = answer.code;
                return Err(format!("step {steps}, party {party}: busy {busy}, {code:02X}"));
            }
            steps += u64::from(busy);
            replay.follow([STEP, party], answer);
        }
        if replay.is_calm() {
            after.iter().for_each(|answer| seen.count(answer.code));
            return Ok(Calm { steps, ..start });
        }
        if steps > start.bound {
            let bound = start.bound;
            return Err(format!("{steps} steps, the bound is {bound}, and not all are at rest"));
        }
        count *= 2;
    }
}

fn main() -> ExitCode {
    let arguments: Vec<String> = env::args().collect();
    let [_, program, schedules] = &arguments[..] else {
        eprintln!("usage: calm PROGRAM SCHEDULES");
        return ExitCode::FAILURE;
    };
    let schedules: u64 = schedules.parse().expect("SCHEDULES is a number");
    let mut seen = Seen::nothing();
    let (mut steps, mut busy, mut marked) = (0, 0, 0);
    let mut nearest: Option<Calm> = None;
    for seed in 1..=schedules {
        match calm(program, seed, &mut seen) {
            Ok(calm) if calm.steps <= calm.bound => {
                steps += calm.steps;
                busy += calm.busy;
                marked += calm.marked;
                let nearer = |near: &Calm| calm.steps * near.bound > near.steps * calm.bound;
                if nearest.as_ref().is_none_or(nearer) {
                    nearest = Some(calm);
                }
            }
            Ok(calm) => {
                println!("seed {seed}: {} steps, the bound is {}", calm.steps, calm.bound);
                return ExitCode::FAILURE;
            }
            Err(wrong) => {
                println!("seed {seed}: {wrong}");
                return ExitCode::FAILURE;
            }
        }
    }
    println!("calm: {schedules} schedules, {busy} busy at their ends, {marked} of them marked");
    if let Some(Calm { parties, bound, steps: most, .. }) = nearest {
        println!("  {steps} steps, none refused; nearest: {most} of {bound}, n {parties}");
    }
    // parties at rest answer 8
    if marked > 0 && seen.shows((0x21..=0x33).chain([8])) {
        ExitCode::SUCCESS
    } else {
        ExitCode::FAILURE
    }
}
