//! The proved code as an archive and the second program, side by side on random schedules: the
//! same calls to both, and every answer must agree. Usage: archive SECOND SCHEDULES. Links
//! librun.a.

mod early;
mod kinds;
mod library;
mod process;
mod schedules;

use early::{Early, Follower};
use kinds::{Kinds, Opening};
use library::hub_run;
use schedules::{hex, opening, schedule, Random, Schedule, Seen};
use std::env;
use std::process::ExitCode;

const ANSWER: usize = 7;

/// Openings without calls after them, for each schedule.
const OPENINGS: usize = 10;

/// The answers of the proved code, the opening's first.
fn proved(schedule: &Schedule) -> Vec<[u8; ANSWER]> {
    let calls = schedule.calls.concat();
    let mut out = vec![[0; ANSWER]; schedule.calls.len()];
    let code = hub_run(&schedule.opening(), &calls, out.as_flattened_mut());
    if code != 0 {
        return vec![[code, 255, 255, 255, 255, 255, 255]];
    }
    out.insert(0, [0x1F, 255, 255, 255, 255, 255, 255]);
    out
}

/// What the second program prints for a schedule. It answers 13 where the archive stops at a
/// refused opening, and it adds the closing line: neither is looked at.
fn second(program: &str, schedule: &Schedule, answers: usize) -> Vec<String> {
    let input = schedule.lines().join("\n");
    let output = process::output(program, &[], input.as_bytes(), input.len());
    let text = String::from_utf8_lossy(&output).into_owned();
    text.lines().take(answers).map(str::to_string).collect()
}

/// Bytes of the longest opening that a line can carry. The archive has no lines, and judges longer
/// ones too.
const LINE: usize = 80;

/// Follows a schedule and its answers; false if one of them is not what the opening says.
fn follow(early: &mut Early, kinds: &mut Kinds, schedule: &Schedule, answers: &[[u8; 7]]) -> bool {
    let frame = schedule.opening();
    if !kinds.opens(&frame, false, answers[0][0]) {
        return false;
    }
    let Some(opening) = Opening::read(&frame).filter(|_| answers[0][0] == 0x1F) else {
        return true;
    };
    let mut hub = Follower::opened(&opening);
    let mut calls = schedule.calls.iter().zip(&answers[1..]);
    calls.all(|(call, answer)| hub.enter(early, kinds, *call, answer[0]))
}

fn main() -> ExitCode {
    let arguments: Vec<String> = env::args().collect();
    let [_, program, schedules] = &arguments[..] else {
        eprintln!("usage: archive SECOND SCHEDULES");
        return ExitCode::FAILURE;
    };
    let schedules: u64 = schedules.parse().expect("SCHEDULES is a number");
    let mut seen = Seen::nothing();
    let mut early = Early::nothing();
    let mut kinds = Kinds::nothing();
    for seed in 1..=schedules {
        let random = &mut Random::seeded(seed);
        let s = schedule(random, 4000);
        let answers = proved(&s);
        let ours: Vec<String> = answers.iter().map(|answer| hex(answer)).collect();
        let past_a_line = s.opening().len() > LINE;
        let theirs = if past_a_line { ours.clone() } else { second(program, &s, answers.len()) };
        if ours != theirs {
            let at = ours.iter().zip(&theirs).take_while(|(a, b)| a == b).count();
            println!("schedule {seed}: opening {}, line {}", hex(&s.opening()), at + 1);
            println!("archive: {:?}\nsecond:  {:?}", ours.get(at), theirs.get(at));
            return ExitCode::FAILURE;
        }
        if !follow(&mut early, &mut kinds, &s, &answers) {
            println!("schedule {seed}: opening {}: {} is wrong", hex(&s.opening()), ours[0]);
            return ExitCode::FAILURE;
        }
        answers.iter().for_each(|answer| seen.count(answer[0]));
        for _ in 0..OPENINGS {
            let alone = opening(random);
            let answers = proved(&alone);
            seen.count(answers[0][0]);
            if !follow(&mut early, &mut kinds, &alone, &answers) {
                println!("opening {}: {} is wrong", hex(&alone.opening()), hex(&answers[0]));
                return ExitCode::FAILURE;
            }
        }
    }
    println!("archive and second program: {schedules} schedules, all answers agree");
    // 1 no opening reaches, 6 takes a million asks, 13 is the program's; 12 is an opening's
    let refusals = (2..=17).filter(|&refusal| refusal != 6 && refusal != 13);
    let answers = seen.shows(refusals.chain(0x1F..=0x33).chain(0x36..=0x39));
    let own_kinds = [kinds.shows_openings(false), kinds.shows_decided(true)];
    if early.shows(true) && answers && own_kinds == [true; 2] {
        ExitCode::SUCCESS
    } else {
        ExitCode::FAILURE
    }
}
