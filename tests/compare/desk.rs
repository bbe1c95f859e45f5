//! The desk program and the second one (`--desk`), side by side: the same lines to both, and what
//! they print must be equal byte for byte. What is printed for an operation must also be what the
//! operation makes of the line printed before. Usage: desk PROVED SECOND INPUTS.

mod kinds;
mod lines;
mod operations;
mod process;
// the hub's comparisons use the rest of it
#[allow(dead_code)]
mod schedules;

use kinds::{Kinds, Opening};
use lines::{bytes, damaged, frame, joined, openings, outputs, show, Programs, LONGEST};
use operations::{operations, Line, Met};
use schedules::{hex, Random, Seen, BUILT_IN, GIVE_UP, RADIO, STEP};
use std::env;
use std::process::ExitCode;

/// The seeds of the last inputs: nothing at all, more waits given up than the hub has places, more
/// asks than it accepts. The screen has neither bound.
const LAST: [u64; 3] = [0, u64::MAX - 1, u64::MAX];

/// What a comparison has to have met besides the codes and the shapes.
const MEETINGS: [&str; 21] = [
    "all 32 parties on the line",
    "party n - 1 accepted",
    "4 for party n",
    "9 for a party of kind 3",
    "9 for a holder",
    "10 for party 30, built in",
    "10 for party 31, built in",
    "11 for a waiting party",
    "13 for an opening",
    "13 for an operation",
    "12 for a step of an open hub",
    "12 for a radio of an open hub",
    "12 before an opening",
    "a refused opening with radios",
    "an opening after a refused one",
    "12 for an empty line",
    "12 for a line with CR",
    "not 12 for small letters",
    "not 12 for 160 characters",
    "12 for 162 characters",
    "a last line without its end",
];

/// The input of a seed: mostly good lists of operations, then damaged ones, openings, bytes.
fn input(seed: u64) -> Vec<u8> {
    let random = &mut Random::seeded(seed);
    match LAST.iter().position(|&last| last == seed) {
        Some(0) => return Vec::new(),
        Some(1) => return over_and_over("1001\n1002\n", "1003\n1203\n", 300),
        Some(_) => return over_and_over("", "1000\n1300\n", 1_000_001),
        None => {}
    }
    match random.below(11) {
        0 => bytes(random),
        10 => openings(random),
        1..=4 => {
            let mut lines = operations(random, 800).lines();
            add_calls(random, &mut lines);
            damaged(random, lines)
        }
        _ => {
            let lines = operations(random, 4000).lines();
            joined(&lines, random.one_in(2))
        }
    }
}

/// One link and four parties: some lines, then others so many times.
fn over_and_over(first: &str, others: &str, times: usize) -> Vec<u8> {
    format!("010104\n{first}{}", others.repeat(times)).into_bytes()
}

/// Some operations become calls that are none.
fn add_calls(random: &mut Random, lines: &mut [String]) {
    let odds = random.pick(&[10, 100]);
    for line in lines.iter_mut().skip(1) {
        if random.one_in(odds) {
            line.replace_range(..2, &hex(&[random.pick(&[STEP, RADIO])]));
        }
    }
}

/// A printed line.
struct Said {
    code: u8,
    party: u8,
    steps: Option<u8>,
    line: Line,
}

impl Said {
    fn read(text: &str) -> Option<Said> {
        let (answer, line) = text.split_once(" held")?;
        let (holders, waiting) = line.split_once(" waiting")?;
        let [code, party, steps] = answer.split(' ').collect::<Vec<_>>()[..] else {
            return None;
        };
        let parties = |text: &str| -> Option<Vec<u8>> {
            text.split_whitespace().map(|party| party.parse().ok()).collect()
        };
        let holders = parties(holders)?;
        let rising = holders.windows(2).all(|two| two[0] < two[1]);
        rising.then_some(Said {
            code: u8::from_str_radix(code, 16).ok()?,
            party: u8::from_str_radix(party, 16).ok()?,
            steps: steps.parse().ok(),
            line: Line { holders: holders.into_iter().collect(), waiting: parties(waiting)? },
        })
    }
}

/// What an accepted opening says.
#[derive(Clone, Copy)]
struct Opened {
    parties: u8,
    radios: bool,
    kinds: [u8; 32],
}

impl Opened {
    fn read(frame: &[u8]) -> Option<Self> {
        let opening = Opening::read(frame)?;
        let (radios, kinds) = (opening.radios.is_some(), opening.kinds());
        Some(Opened { parties: opening.parties, radios, kinds })
    }
}

/// What the lines and their answers have told so far.
#[derive(Default)]
struct Story {
    opened: Option<Opened>,
    /// An opening was refused.
    refused: bool,
    line: Line,
}

impl Story {
    /// One line more and what was printed for it. False if it is not what the line before leads to.
    fn goes_on(&mut self, met: &mut Met, kinds: &mut Kinds, text: &[u8], said: &Said) -> bool {
        let frame = frame(text).unwrap_or_default();
        let before = self.line.clone();
        let is_open = self.opened.is_some();
        let is_opening = matches!(frame[..], [1 | 2, ..]);
        let is_line = text.len() <= LONGEST;
        if is_opening && is_line && !kinds.opens(&frame, is_open, said.code) {
            return false;
        }
        let sound = match (said.code, &frame[..], self.opened) {
            (0x1F, _, None) => {
                self.opened = Opened::read(&frame);
                self.opened.is_some() && said.steps.is_none()
            }
            (0x20, &[code, party], Some(Opened { radios, .. })) => {
                let waits = said.line.waiting.contains(&party);
                match (self.line.follow([code, party], waits), said.steps) {
                    (Some((shape, _)), Some(steps)) => met.shape(shape, radios, steps),
                    _ => false,
                }
            }
            (code, ..) => code < 0x1F && said.steps.is_none(),
        };
        let caller = |opened: Opened| opened.kinds.get(usize::from(said.party)).copied();
        let kind = self.opened.and_then(caller).unwrap_or_default();
        if matches!(frame[..], [GIVE_UP, _]) && !kinds.gives_up(false, said.party, kind, said.code)
        {
            return false;
        }
        let built_in = self.opened.is_some_and(|opened| opened.kinds == BUILT_IN);
        let last = self.opened.is_some_and(|opened| said.party == opened.parties - 1);
        let beyond = self.opened.is_some_and(|opened| said.party == opened.parties);
        let whole =
            matches!(frame[..], [2, permits, ..] if frame.len() == 3 + usize::from(permits));
        let facts = [
            ("all 32 parties on the line", before.holders.len() + before.waiting.len() == 32),
            ("party n - 1 accepted", said.code == 0x20 && last),
            ("4 for party n", said.code == 4 && beyond),
            ("9 for a party of kind 3", said.code == 9 && kind == 3),
            ("9 for a holder", said.code == 9 && before.holders.contains(&said.party)),
            ("10 for party 30, built in", said.code == 10 && said.party == 30 && built_in),
            ("10 for party 31, built in", said.code == 10 && said.party == 31 && built_in),
            ("11 for a waiting party", said.code == 11 && before.waiting.contains(&said.party)),
            ("13 for an opening", said.code == 13 && is_opening),
            ("13 for an operation", said.code == 13 && !is_opening),
            ("12 for a step of an open hub", is_open && matches!(frame[..], [STEP, _])),
            ("12 for a radio of an open hub", is_open && matches!(frame[..], [RADIO, _])),
            ("12 before an opening", said.code == 12 && !is_open),
            ("a refused opening with radios", matches!(said.code, 2 | 3) && whole),
            ("an opening after a refused one", said.code == 0x1F && self.refused),
            ("12 for an empty line", text.is_empty()),
            ("12 for a line with CR", text.contains(&b'\r')),
            (
                "not 12 for small letters",
                said.code != 12 && text.iter().any(u8::is_ascii_lowercase),
            ),
            ("not 12 for 160 characters", said.code != 12 && text.len() == LONGEST),
            ("12 for 162 characters", whole && text.len() == 162),
        ];
        for (name, _) in facts.iter().filter(|(_, fact)| *fact) {
            // no other answer is left for those
            if name.starts_with("12") && said.code != 12 {
                return false;
            }
            met.meet(name);
        }
        self.refused |= matches!(said.code, 2 | 3 | 14..=17);
        sound && self.line == said.line
    }
}

/// Counts what an input met. The number of the first line that should not have been printed, if
/// there is one.
fn told(
    (seen, met, kinds): (&mut Seen, &mut Met, &mut Kinds),
    input: &[u8],
    output: &[u8],
) -> Option<usize> {
    let ended = input.is_empty() || input.ends_with(b"\n");
    if !ended {
        met.meet("a last line without its end");
    }
    let mut lines: Vec<&[u8]> = input.split(|&byte| byte == b'\n').collect();
    if ended {
        lines.pop();
    }
    let text = String::from_utf8_lossy(output);
    let printed: Vec<&str> = text.lines().collect();
    let mut story = Story::default();
    for (at, (line, text)) in lines.iter().zip(&printed).enumerate() {
        let said = Said::read(text).filter(|said| story.goes_on(met, kinds, line, said));
        let Some(said) = said else {
            return Some(at + 1);
        };
        seen.count(said.code);
    }
    (lines.len() != printed.len()).then_some(lines.len().min(printed.len()) + 1)
}

fn main() -> ExitCode {
    let arguments: Vec<String> = env::args().collect();
    let [_, proved, second, inputs] = &arguments[..] else {
        eprintln!("usage: desk PROVED SECOND INPUTS");
        return ExitCode::FAILURE;
    };
    let programs = Programs { proved, second, mode: &["--desk"] };
    let inputs: u64 = inputs.parse().expect("INPUTS is a number");
    let mut seen = Seen::nothing();
    let mut met = Met::nothing(&MEETINGS);
    let mut kinds = Kinds::nothing();
    for seed in (1..=inputs).chain(LAST) {
        let input = input(seed);
        let piece = [input.len(), 4096, 7][(seed % 3) as usize];
        let [ours, theirs] = outputs(programs, &input, piece);
        if ours != theirs {
            show(programs, seed, &input, piece);
            return ExitCode::FAILURE;
        }
        if let Some(line) = told((&mut seen, &mut met, &mut kinds), &input, &ours) {
            println!("seed {seed}: both programs are wrong in line {line}");
            return ExitCode::FAILURE;
        }
    }
    println!("desk and second program: {inputs} inputs and three more, equal");
    // 1 no opening reaches; 6, 7 and 8 are the hub's
    let codes = [2, 3, 4, 5, 9, 10, 11, 12, 13, 14, 15, 16, 17, 0x1F, 0x20];
    let answers = seen.shows(codes.into_iter());
    let own_kinds = [kinds.shows_openings(true), kinds.shows_decided(false)];
    if met.shows() && answers && own_kinds == [true; 2] {
        ExitCode::SUCCESS
    } else {
        ExitCode::FAILURE
    }
}
