//! `hub_operate` of the archive and the second program (`--operate`), side by side: the same
//! openings, operations and room to both. Results and answers must agree, nothing else may be
//! written, and whom an operation wakes and how many steps it takes must follow from the answers
//! before. Usage: operate SECOND RUNS. Links liboperate.a.

mod kinds;
mod library;
mod operations;
mod process;
// the hub's comparisons use the rest of it
#[allow(dead_code)]
mod schedules;

use kinds::{Kinds, Opening};
use library::hub_operate;
use operations::{operations, Line, Met};
use schedules::{hex, opening, Random, Seen, ASK, GIVE_BACK, GIVE_UP, RADIO, STEP};
use std::collections::BTreeMap;
use std::env;
use std::process::ExitCode;

const OPERATION: usize = 2;
const ANSWER: usize = 3;
/// Cases of a run, and openings that it tries besides, without operations.
const CASES: usize = 20;
const OPENINGS: usize = 20;
const MOST_ASKS: u32 = 1_000_000;
const DONE: u8 = 0;
const MALFORMED: u8 = 254;
const NO_ROOM: u8 = 255;
const NOBODY: u8 = 0xFF;
/// What the buffer holds before.
const BEFORE: u8 = 0xA5;

/// What a comparison has to have met besides the results, the codes and the shapes.
const MEETINGS: [&str; 14] = [
    "no operation",
    "more room than needed",
    "one byte too little room",
    "an opening past a line",
    "a refused opening, malformed operations, no room",
    "malformed operations, no room",
    "an odd number of bytes",
    "a step among the operations",
    "a radio among the operations",
    "6 where 7 applies too",
    "7, and an ask accepted later",
    "9 for a party of kind 3",
    "5 for a waiting party",
    "party n - 1 accepted",
];

struct Case {
    opening: Vec<u8>,
    operations: Vec<u8>,
    room: usize,
}

impl Case {
    /// As the second program reads it.
    fn written(&self) -> Vec<u8> {
        let numbers = [self.opening.len(), self.operations.len(), self.room];
        let numbers = numbers.map(|number| (number as u32).to_be_bytes()).concat();
        [numbers, self.opening.clone(), self.operations.clone()].concat()
    }

    /// What the archive says, as the second program writes it; a fault if it is wrong by itself.
    fn said(&self) -> Result<Vec<u8>, &'static str> {
        let mut out = vec![BEFORE; self.room];
        let result = hub_operate(&self.opening, &self.operations, &mut out);
        let written = if result == DONE { self.operations.len() / OPERATION * ANSWER } else { 0 };
        let rest = out.get(written..).ok_or("done without the room")?;
        if rest.iter().any(|&byte| byte != BEFORE) {
            return Err("written where nothing belongs");
        }
        Ok([&[result], &out[..written]].concat())
    }
}

/// Mostly whole lists with enough room; some that are wrong in one way, or in several.
fn any_case(random: &mut Random) -> Case {
    let list = operations(random, 3000);
    let mut case = Case { opening: list.opening(), operations: list.calls.concat(), room: 0 };
    let wrong = |random: &mut Random| random.one_in(8);
    if wrong(random) {
        case.opening = any_opening(random);
    }
    if wrong(random) {
        damage(random, &mut case.operations);
    }
    let enough = case.operations.len() / OPERATION * ANSWER;
    let less = random.below(enough as u64 + 1) as usize;
    case.room = match random.below(12) {
        0 => enough.saturating_sub(1),
        1 => less,
        2 => 0,
        3 => enough + 1,
        4 => enough + less,
        _ => enough,
    };
    case
}

/// Any opening of a schedule, or bytes that are none or nearly one.
fn any_opening(random: &mut Random) -> Vec<u8> {
    let mut frame = opening(random).opening();
    match random.below(6) {
        0 => frame.truncate(random.below(4) as usize),
        1 => frame.push(random.byte()),
        2 => frame[0] = random.pick(&[0, 2, 3, 0x10, 0x1F]),
        3 => frame = (0..random.below(300)).map(|_| random.byte()).collect(),
        _ => {}
    }
    frame
}

/// A byte too many or too few, or a code that is no operation's.
fn damage(random: &mut Random, operations: &mut Vec<u8>) {
    if operations.is_empty() || random.one_in(4) {
        return operations.push(random.byte());
    }
    if random.one_in(4) {
        return operations.truncate(operations.len() - 1);
    }
    let any = random.byte();
    let code = random.pick(&[STEP, RADIO, 0x0F, 0x15, 0, 1, 0x20, 0x90, any]);
    let last = operations.len() / OPERATION - 1;
    let at = random.below(last as u64 + 1) as usize;
    operations[OPERATION * random.pick(&[0, at, last])] = code;
}

/// A million asks, of which the last 255 are given up behind a first wait: then 6 and 7 apply.
/// When that wait is served, 6 does.
fn million() -> Case {
    let mut operations = [ASK, 0, GIVE_BACK, 0].repeat(MOST_ASKS as usize - 257);
    operations.extend([ASK, 0, ASK, 1]);
    operations.extend([ASK, 2, GIVE_UP, 2].repeat(255));
    operations.extend([ASK, 2, ASK, 0, GIVE_BACK, 0, ASK, 2, GIVE_BACK, 1]);
    let room = operations.len() / OPERATION * ANSWER;
    Case { opening: vec![1, 1, 3], operations, room }
}

/// What the cases met.
struct Counts {
    seen: Seen,
    met: Met,
    kinds: Kinds,
}

/// Counts what a case met. False if its answers do not follow from its opening and from one another.
fn told(Counts { seen, met, kinds }: &mut Counts, case: &Case, said: &[u8]) -> bool {
    let result = said[0];
    let codes = || case.operations.chunks(OPERATION).map(|operation| operation[0]);
    let odd = case.operations.len() % OPERATION != 0;
    let malformed = odd || codes().any(|code| !matches!(code, ASK | GIVE_UP | GIVE_BACK));
    let needed = case.operations.len() / OPERATION * ANSWER;
    let no_room = case.room < needed;
    let refused = matches!(result, 2 | 3 | 12 | 14..=17);
    seen.count(result);
    if !kinds.opens(&case.opening, false, if refused { result } else { 0x1F }) {
        return false;
    }
    let facts = [
        ("no operation", result == DONE && case.operations.is_empty()),
        ("more room than needed", result == DONE && case.room > needed),
        ("one byte too little room", result == NO_ROOM && case.room + 1 == needed),
        ("an opening past a line", refused && case.opening.len() > 80),
        ("a refused opening, malformed operations, no room", refused && malformed && no_room),
        ("malformed operations, no room", result == MALFORMED && no_room),
        ("an odd number of bytes", result == MALFORMED && odd),
        ("a step among the operations", result == MALFORMED && codes().any(|code| code == STEP)),
        ("a radio among the operations", result == MALFORMED && codes().any(|code| code == RADIO)),
    ];
    facts.iter().filter(|(_, fact)| *fact).for_each(|(name, _)| met.meet(name));
    let expected = match (malformed, no_room) {
        (true, _) => MALFORMED,
        (_, true) => NO_ROOM,
        _ => DONE,
    };
    let opening = match Opening::read(&case.opening) {
        Some(opening) if !refused && result == expected && result == DONE => opening,
        _ => return refused || result == expected,
    };
    let mut story = Story::default();
    let answers = said[1..].chunks(ANSWER);
    (case.operations.chunks(OPERATION).zip(answers)).all(|(operation, answer)| {
        let [code, party] = [operation[0], operation[1]];
        let kind = opening.kinds().get(usize::from(party)).copied().unwrap_or_default();
        (code != GIVE_UP || kinds.gives_up(false, party, kind, answer[0]))
            && story.goes_on(seen, met, &opening, [code, party], [answer[0], answer[1], answer[2]])
    })
}

/// What the answers of a run have told so far.
#[derive(Default)]
struct Story {
    line: Line,
    /// Accepted.
    asks: u32,
    /// Numbers drawn, and the one that each waiting party drew.
    numbered: u32,
    drawn: BTreeMap<u8, u32>,
    /// An ask was refused by 7.
    full: bool,
}

impl Story {
    /// Places in use: from the first that waits on, for all before are done and free.
    fn places(&self) -> u32 {
        self.line.waiting.first().map_or(0, |first| self.numbered - self.drawn[first])
    }

    /// One operation more and its answer. False if it is not what the answers before lead to.
    fn goes_on(
        &mut self,
        seen: &mut Seen,
        met: &mut Met,
        opening: &Opening,
        [code, party]: [u8; 2],
        [answer, woken, steps]: [u8; 3],
    ) -> bool {
        let (parties, radios) = (opening.parties, opening.radios.is_some());
        let of_kind_3 = opening.kinds().get(usize::from(party)) == Some(&3);
        let no_place = self.places() == 256;
        seen.count(answer);
        let facts = [
            ("6 where 7 applies too", answer == 6 && no_place),
            ("7, and an ask accepted later", self.full && answer == 0x20 && code == ASK),
            ("9 for a party of kind 3", answer == 9 && of_kind_3),
            ("5 for a waiting party", answer == 5 && self.line.waiting.contains(&party)),
            ("party n - 1 accepted", answer == 0x20 && party == parties - 1),
        ];
        facts.iter().filter(|(_, fact)| *fact).for_each(|(name, _)| met.meet(name));
        // an ask by one that is free: 6 and 7 on their conditions and nowhere else
        let expected = match (code, answer) {
            (ASK, 6 | 7 | 0x20) if self.asks == MOST_ASKS => 6,
            (ASK, 6 | 7 | 0x20) if no_place => 7,
            (ASK, 6 | 7 | 0x20) => 0x20,
            _ => answer,
        };
        if answer != expected || matches!((code, answer), (GIVE_UP | GIVE_BACK, 6 | 7)) {
            return false;
        }
        self.full |= answer == 7;
        if answer != 0x20 {
            return [woken, steps] == [NOBODY, 0];
        }
        let waits = code == ASK && steps == 3;
        if waits {
            self.drawn.insert(party, self.numbered);
        }
        self.numbered += u32::from(waits);
        self.asks += u32::from(code == ASK);
        match self.line.follow([code, party], waits) {
            Some((shape, wakes)) => {
                met.shape(shape, radios, steps) && woken == wakes.unwrap_or(NOBODY)
            }
            None => false,
        }
    }
}

/// Both on the same cases; false, and where, if they differ or are wrong.
fn agree(program: &str, counts: &mut Counts, run: &str, cases: &[Case]) -> bool {
    let input: Vec<u8> = cases.iter().flat_map(Case::written).collect();
    let theirs = process::output(program, &["--operate"], &input, input.len());
    let mut rest = &theirs[..];
    for (number, case) in cases.iter().enumerate() {
        let shown = || {
            let operations = &case.operations[..case.operations.len().min(200)];
            println!("opening {}, room {}", hex(&case.opening), case.room);
            println!("operations {} ..", hex(operations));
        };
        let said = match case.said() {
            Ok(said) => said,
            Err(fault) => {
                println!("{run}, case {number}: {fault}");
                shown();
                return false;
            }
        };
        if !rest.starts_with(&said) {
            let at = said.iter().zip(rest).take_while(|(ours, theirs)| ours == theirs).count();
            println!("{run}, case {number}: byte {at} of the reply differs");
            println!("archive: {:02X?}\nsecond:  {:02X?}", said.get(at), rest.get(at));
            shown();
            return false;
        }
        if !told(counts, case, &said) {
            println!("{run}, case {number}: both are wrong");
            shown();
            return false;
        }
        rest = &rest[said.len()..];
    }
    if !rest.is_empty() {
        println!("{run}: {} bytes more than expected", rest.len());
    }
    rest.is_empty()
}

fn main() -> ExitCode {
    let arguments: Vec<String> = env::args().collect();
    let [_, program, runs] = &arguments[..] else {
        eprintln!("usage: operate SECOND RUNS");
        return ExitCode::FAILURE;
    };
    let runs: u64 = runs.parse().expect("RUNS is a number");
    let (seen, met) = (Seen::nothing(), Met::nothing(&MEETINGS));
    let mut counts = Counts { seen, met, kinds: Kinds::nothing() };
    for seed in 1..=runs {
        let random = &mut Random::seeded(seed);
        let mut cases: Vec<Case> = (0..CASES).map(|_| any_case(random)).collect();
        let alone = |opening| Case { opening, operations: Vec::new(), room: 0 };
        cases.extend((0..OPENINGS).map(|_| alone(opening(random).opening())));
        if !agree(program, &mut counts, &format!("run {seed}"), &cases) {
            return ExitCode::FAILURE;
        }
    }
    if !agree(program, &mut counts, "a million asks", &[million()]) {
        return ExitCode::FAILURE;
    }
    println!("hub_operate and second program: {runs} runs of {CASES} cases and a long one, agree");
    // results and codes
    let codes = [DONE, 2, 3, 12, 14, 15, 16, 17, MALFORMED, NO_ROOM, 4, 5, 6, 7, 9, 10, 11, 0x20];
    let answers = counts.seen.shows(codes.into_iter());
    let own_kinds = [counts.kinds.shows_openings(false), counts.kinds.shows_decided(false)];
    if counts.met.shows() && answers && own_kinds == [true; 2] {
        ExitCode::SUCCESS
    } else {
        ExitCode::FAILURE
    }
}
