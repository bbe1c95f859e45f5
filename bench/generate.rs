//! A schedule for the bench, from a fixed seed: generate HOUSE LINES, to standard output.

// the comparisons use the rest of it
#[allow(dead_code)]
#[path = "../tests/compare/schedules.rs"]
mod schedules;

use schedules::{hex, Habits, House, Random};
use std::io::{self, BufWriter, Write};
use std::process::ExitCode;
use std::{env, iter};

fn main() -> ExitCode {
    let arguments: Vec<String> = env::args().collect();
    let [_, house, lines] = &arguments[..] else {
        eprintln!("usage: generate mixed|waits|full LINES");
        return ExitCode::FAILURE;
    };
    let lines: usize = lines.parse().expect("LINES is a number");
    let usual = Habits { ask: 6, give_up: 2, give_back: 5, asleep: 0, stray: 50 };
    let (permits, parties, habits) = match house.as_str() {
        "mixed" => (4, 8, usual),
        // everybody else waits for the one link, and most waits are given up in the end
        "waits" => (1, 32, Habits { ask: 8, give_up: 1, give_back: 4, ..usual }),
        // nobody ever has to wait
        "full" => (32, 32, usual),
        _ => panic!("no such house: {house}"),
    };
    let random = &mut Random::seeded(1);
    let mut place = House::new(permits, parties);
    let calls = iter::from_fn(|| Some(hex(&place.call(random, &habits))));
    let mut output = BufWriter::new(io::stdout().lock());
    for line in iter::once(hex(&[1, permits, parties])).chain(calls).take(lines) {
        writeln!(output, "{line}").expect("standard output is written");
    }
    ExitCode::SUCCESS
}
