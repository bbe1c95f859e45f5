//! Two programs, side by side: the same lines to both, and what they print must be equal byte
//! for byte. Usage: programs PROVED SECOND SCHEDULES.

mod early;
mod kinds;
mod lines;
mod process;
mod schedules;

use early::{Early, Follower};
use kinds::{Kinds, Opening};
use lines::{bytes, damaged, frame, joined, openings, outputs, show, Programs, LONGEST};
use schedules::{hex, schedule, Habits, House, Random, Schedule, Seen};
use std::env;
use std::process::ExitCode;

/// Calls of a long schedule: enough for numbers of more than two bytes.
const LONG: u64 = 600_000;

/// The seeds of the long schedules, which come last: without radios, and with them.
const LAST: [u64; 2] = [0, u64::MAX];

/// The input of a seed: mostly good schedules, then damaged ones, then openings, then bytes.
fn input(seed: u64) -> Vec<u8> {
    let random = &mut Random::seeded(seed);
    match random.below(11) {
        _ if LAST.contains(&seed) => long(random, seed == LAST[1]),
        0 => bytes(random),
        10 => openings(random),
        1..=4 => {
            let lines = schedule(random, 800).lines();
            damaged(random, lines)
        }
        _ => joined(&schedule(random, 4000).lines(), true),
    }
}

/// Everybody waits for one link, and most waits are served; for one of three with radios.
fn long(random: &mut Random, with_radios: bool) -> Vec<u8> {
    let (permits, radios) = if with_radios { (3, Some(vec![0xA7, 9, 0x31])) } else { (1, None) };
    let opened = Schedule { permits, parties: 6, radios, ..Schedule::default() };
    let mut house = House::of(&opened);
    let habits = Habits { ask: 8, give_up: 1, give_back: 8, asleep: 0, stray: 1000 };
    let calls = (0..LONG).map(|_| hex(&house.call(random, &habits)));
    let lines: Vec<String> = opened.lines().into_iter().chain(calls).collect();
    joined(&lines, true)
}

/// Counts what early give-ups and kinds met, from the lines and their answers. The number of the
/// first line whose answer is not what the line itself, the opening and the caller's kind allow,
/// if there is one.
fn follow(early: &mut Early, kinds: &mut Kinds, input: &[u8], output: &[u8]) -> Option<usize> {
    let lines = input.split(|&byte| byte == b'\n');
    let mut hub = None;
    for (at, (line, answer)) in lines.zip(output.split(|&byte| byte == b'\n')).enumerate() {
        let call = frame(line).filter(|_| line.len() <= LONGEST).unwrap_or_default();
        let code = frame(answer)?.first().copied()?;
        let sound = match (&call[..], &mut hub) {
            // the closing line
            _ if code == 0x7E => true,
            ([1 | 2, ..], _) => {
                let sound = kinds.opens(&call, hub.is_some(), code);
                if code == 0x1F {
                    hub = Opening::read(&call).map(|opening| Follower::opened(&opening));
                }
                sound
            }
            (&[call @ 0x10..=0x14, party], Some(hub)) => {
                hub.enter(early, kinds, [call, party], code)
            }
            ([0x10..=0x14, _], None) => code == 13,
            _ => code == 12,
        };
        if !sound {
            return Some(at + 1);
        }
    }
    None
}

fn main() -> ExitCode {
    let arguments: Vec<String> = env::args().collect();
    let [_, proved, second, schedules] = &arguments[..] else {
        eprintln!("usage: programs PROVED SECOND SCHEDULES");
        return ExitCode::FAILURE;
    };
    let programs = Programs { proved, second, mode: &[] };
    let schedules: u64 = schedules.parse().expect("SCHEDULES is a number");
    let mut seen = Seen::nothing();
    let mut early = Early::nothing();
    let mut kinds = Kinds::nothing();
    for seed in (1..=schedules).chain(LAST) {
        let input = input(seed);
        let piece = [input.len(), 4096, 7][(seed % 3) as usize];
        let [ours, theirs] = outputs(programs, &input, piece);
        if ours != theirs {
            show(programs, seed, &input, piece);
            return ExitCode::FAILURE;
        }
        for line in ours.split_inclusive(|&byte| byte == b'\n') {
            let code = std::str::from_utf8(&line[..2]).ok();
            seen.count(u8::from_str_radix(code.expect("two digits"), 16).expect("a code"));
        }
        if let Some(line) = follow(&mut early, &mut kinds, &input, &ours) {
            println!("seed {seed}: both programs are wrong in line {line}");
            return ExitCode::FAILURE;
        }
    }
    println!("proved and second program: {schedules} inputs and two long ones, equal");
    // 1 no opening reaches, 6 takes a million asks
    let refusals = (2..=17).filter(|&refusal| refusal != 6);
    let answers = seen.shows(refusals.chain(0x1F..=0x33).chain(0x36..=0x39).chain([0x7E]));
    let own_kinds = [kinds.shows_openings(true), kinds.shows_decided(true)];
    if early.shows(true) && answers && own_kinds == [true; 2] {
        ExitCode::SUCCESS
    } else {
        ExitCode::FAILURE
    }
}
