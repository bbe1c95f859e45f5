//! `latch_run` of the archive and the latch's second program, side by side: the same openings,
//! calls and room to both. Results and answers must agree and nothing else may be written. What
//! M-150 claims of every schedule is judged from calls and answers alone: nobody is let go before
//! the count is 0, with everyone at rest after it nobody waits; nor is a busy party's step refused.
//! Usage: latch SECOND RUNS; fewer than 50 runs do not meet all that is asked for. Links
//! liblatchrun.a.

mod latch_schedules;
mod latch_story;
mod library;
mod process;
// the hub's comparisons use the rest of it
#[allow(dead_code)]
mod schedules;

use latch_schedules::{doors, million, schedule, Schedule};
use latch_story::{Answer, Party, Phase, Place, Story};
use latch_story::{AWAIT, CALLS, COUNT_DOWN, FREE, GIVE_UP, PHASES, STEP};
use library::latch_run;
use schedules::{hex, Random, Seen};
use std::env;
use std::process::ExitCode;

const CALL: usize = 2;
const ANSWER: usize = 7;
const CASES: usize = 40;
const MOST_COUNT: u8 = 200;
const MOST_PARTIES: u8 = 32;
const DONE: u8 = 0;
const PARTIES_REFUSED: u8 = 3;
const COUNT_REFUSED: u8 = 18;
const MALFORMED: u8 = 254;
const NO_ROOM: u8 = 255;
/// What the buffer holds before.
const BEFORE: u8 = 0xA5;

struct Case {
    count: u8,
    parties: u8,
    calls: Vec<u8>,
    room: usize,
}

impl Case {
    /// With as much room as it takes.
    fn of(schedule: Schedule) -> Self {
        let room = schedule.calls.len() * ANSWER;
        let Schedule { count, parties, calls } = schedule;
        Case { count, parties, calls: calls.concat(), room }
    }

    /// As the second program reads it.
    fn written(&self) -> Vec<u8> {
        let numbers = [self.calls.len(), self.room].map(|number| (number as u32).to_be_bytes());
        [&[self.count, self.parties], &numbers.concat()[..], &self.calls].concat()
    }

    /// What the archive says, as the second program writes it; a fault if it is wrong by itself.
    fn said(&self) -> Result<Vec<u8>, &'static str> {
        let mut out = vec![BEFORE; self.room];
        let result = latch_run(self.count, self.parties, &self.calls, &mut out);
        let written = if result == DONE { self.needed() } else { 0 };
        let rest = out.get(written..).ok_or("done without the room")?;
        if rest.iter().any(|&byte| byte != BEFORE) {
            return Err("written where nothing belongs");
        }
        Ok([&[result], &out[..written]].concat())
    }

    fn needed(&self) -> usize {
        self.calls.len() / CALL * ANSWER
    }

    fn is_odd(&self) -> bool {
        self.calls.len() % CALL != 0
    }

    /// The result as the request says, in the order of its refusals.
    fn expected(&self) -> u8 {
        let unknown = |call: &[u8]| !CALLS.contains(&call[0]);
        if !(1..=MOST_PARTIES).contains(&self.parties) {
            PARTIES_REFUSED
        } else if !(1..=MOST_COUNT).contains(&self.count) {
            COUNT_REFUSED
        } else if self.is_odd() || self.calls.chunks(CALL).any(unknown) {
            MALFORMED
        } else if self.room < self.needed() {
            NO_ROOM
        } else {
            DONE
        }
    }
}

/// Mostly whole schedules with enough room; some that are wrong in one way, or in several.
fn any_case(random: &mut Random) -> Case {
    let mut case = Case::of(schedule(random));
    let wrong = |random: &mut Random| random.one_in(12);
    let any = random.byte();
    if wrong(random) {
        case.count = random.pick(&[0, 201, 255, any]);
    }
    if wrong(random) {
        case.parties = random.pick(&[0, 33, 255, any]);
    }
    if wrong(random) {
        damage(random, &mut case.calls);
    }
    if random.one_in(40) {
        case.calls.clear();
    }
    let enough = case.needed();
    let less = random.below(enough as u64 + 1) as usize;
    case.room = match random.below(16) {
        0 => enough.saturating_sub(1),
        1 => less,
        2 => 0,
        3 => enough + 1,
        4 => enough + less,
        _ => enough,
    };
    case
}

/// A byte too many or too few, or a code that is no call's.
fn damage(random: &mut Random, calls: &mut Vec<u8>) {
    if calls.is_empty() || random.one_in(4) {
        return calls.push(random.byte());
    }
    if random.one_in(4) {
        return calls.truncate(calls.len() - 1);
    }
    let any = random.byte();
    let code = random.pick(&[0x0F, 0x14, 0, 1, 0x20, 0x90, any]);
    let last = calls.len() / CALL - 1;
    let at = random.below(last as u64 + 1) as usize;
    calls[CALL * random.pick(&[0, at, last])] = code;
}

type Facts = Vec<(&'static str, bool)>;

/// How often each of the facts that a comparison asks for was so.
#[derive(Default)]
struct Met(Vec<(&'static str, u64)>);

impl Met {
    fn count(&mut self, facts: Facts) {
        if self.0.is_empty() {
            self.0 = facts.iter().map(|&(name, _)| (name, 0)).collect();
        }
        for ((_, count), (_, fact)) in self.0.iter_mut().zip(facts) {
            *count += u64::from(fact);
        }
    }

    /// Prints the counts; false if one is missing.
    fn shows(&self) -> bool {
        for (name, count) in &self.0 {
            match count {
                0 => println!("  {name}: NEVER"),
                _ => println!("  {name}: {count}"),
            }
        }
        self.0.iter().all(|&(_, count)| count > 0)
    }
}

/// What the comparison has met so far.
struct Tally {
    /// Results and codes.
    seen: Seen,
    cases: Met,
    calls: Met,
    /// Each call in each phase.
    in_phase: [[u64; CALLS.len()]; PHASES.len()],
    /// Each N that came to 0, and each n.
    counts: [u64; 256],
    parties: [u64; 256],
}

impl Tally {
    fn nothing() -> Self {
        Tally {
            seen: Seen::nothing(),
            cases: Met::default(),
            calls: Met::default(),
            in_phase: [[0; CALLS.len()]; PHASES.len()],
            counts: [0; 256],
            parties: [0; 256],
        }
    }

    /// Counts what a case met; what is wrong, if its answers are not what they should be.
    fn told(&mut self, case: &Case, said: &[u8]) -> Result<(), String> {
        let result = said[0];
        self.seen.count(result);
        self.cases.count(case_facts(case, result));
        if result != case.expected() {
            return Err(format!("result {result}, and not {}", case.expected()));
        }
        if result != DONE {
            return Ok(());
        }
        let mut story = Story::opened(case.count, case.parties);
        self.parties[usize::from(case.parties)] += 1;
        let answers = said[1..].chunks(ANSWER);
        for (at, (call, bytes)) in case.calls.chunks(CALL).zip(answers).enumerate() {
            let (call, answer) = ([call[0], call[1]], Answer::read(bytes));
            self.seen.count(answer.code);
            self.calls.count(call_facts(&story, call, answer));
            if let Some(party) = story.parties.get(usize::from(call[1])) {
                self.in_phase[party.phase as usize][usize::from(call[0] - AWAIT)] += 1;
            }
            let open = story.count == 0;
            let followed = if bytes[1] == call[1] {
                story.follow(call, answer)
            } else {
                Err("the answer names another party")
            };
            followed.map_err(|fault| format!("call {at}, {}: {fault}", hex(&call)))?;
            if story.count == 0 && !open {
                self.counts[usize::from(case.count)] += 1;
            }
        }
        Ok(())
    }

    /// Prints the counts; false if something that must occur did not.
    fn shows(&self) -> bool {
        // 1 no opening reaches
        let codes = [DONE, PARTIES_REFUSED, COUNT_REFUSED, MALFORMED, NO_ROOM];
        let refusals = 4..=10;
        let answers = self.seen.shows(codes.into_iter().chain(refusals).chain(0x20..=0x33));
        let cases = self.cases.shows();
        let calls = self.calls.shows();
        let mut all = answers && cases && calls;
        for (phase, counts) in PHASES.iter().zip(self.in_phase) {
            println!("  {phase:?}: await, step, give up, count down {counts:?}");
            all &= !counts.contains(&0);
        }
        let within = |counts: &[u64; 256], most: u8| {
            let missing = (1..=most).filter(|&value| counts[usize::from(value)] == 0).count();
            let least = counts[1..=usize::from(most)].iter().min().copied().unwrap_or(0);
            println!("  1 to {most}: {missing} never, each {least} times at least");
            missing == 0
        };
        println!("  N that came to 0, and n:");
        let counts = within(&self.counts, MOST_COUNT);
        let parties = within(&self.parties, MOST_PARTIES);
        all && counts && parties
    }
}

fn case_facts(case: &Case, result: u8) -> Facts {
    let Case { count, parties, ref calls, room } = *case;
    let codes = || calls.chunks(CALL).map(|call| call[0]);
    let unknown = |code| codes().any(|other| other == code);
    let malformed = case.is_odd() || codes().any(|code| !CALLS.contains(&code));
    let no_room = room < case.needed();
    let refused = matches!(result, PARTIES_REFUSED | COUNT_REFUSED);
    let behind = codes().next().is_some_and(|code| CALLS.contains(&code));
    vec![
        ("no call", result == DONE && calls.is_empty()),
        ("more room than needed", result == DONE && room > case.needed()),
        ("one byte too little room", result == NO_ROOM && room + 1 == case.needed()),
        ("no room at all", result == NO_ROOM && room == 0),
        ("18 for N 0", result == COUNT_REFUSED && count == 0),
        ("18 for N 201", result == COUNT_REFUSED && count == 201),
        ("18 for N 255", result == COUNT_REFUSED && count == 255),
        ("3 for n 0", result == PARTIES_REFUSED && parties == 0),
        ("3 for n 33", result == PARTIES_REFUSED && parties == 33),
        ("3 where 18 applies too", result == PARTIES_REFUSED && count == 0),
        ("3, malformed calls, no room", result == PARTIES_REFUSED && malformed && no_room),
        ("18, malformed calls, no room", result == COUNT_REFUSED && malformed && no_room),
        ("refused, malformed calls, room enough", refused && malformed && !no_room),
        ("malformed calls, no room", result == MALFORMED && no_room),
        ("an odd number of bytes", result == MALFORMED && case.is_odd()),
        ("a code too low", result == MALFORMED && unknown(0x0F)),
        ("a code too high", result == MALFORMED && unknown(0x14)),
        ("malformed behind a good call", result == MALFORMED && behind && !case.is_odd()),
    ]
}

/// What a call and its answer show, before the story follows them.
fn call_facts(story: &Story, [call, party]: [u8; 2], answer: Answer) -> Facts {
    let code = answer.code;
    // one that is not there is refused by 4, and shows nothing else
    let was = story.parties.get(usize::from(party)).copied().unwrap_or(FREE);
    let Party { phase, left, marked, .. } = was;
    let kind_3 = party >= 30;
    let last = usize::from(party) + 1 == story.parties.len();
    let open = story.count == 0;
    let step = call == STEP;
    let accepted = code == 0x20;
    let early = |at, was_marked, answer| {
        call == GIVE_UP && phase == at && marked == was_marked && code == answer
    };
    let then = |at, answer| step && marked && phase == at && code == answer;
    let by = |answer, more: bool| step && code == answer && (left > 1) == more;
    // of the wait that is handed to
    let waiter = match story.places.get(&was.number) {
        Some(Place::Waiting(q)) if phase == Phase::Handing => {
            story.parties.get(usize::from(*q)).map(|q| q.phase)
        }
        _ => None,
    };
    let leaves = |at| code == 0x2B && waiter == Some(at);
    let others = |at| story.in_phase(at) - usize::from(phase == at);
    let reaches = step && matches!(code, 0x26 | 0x27) && story.count == 1;
    let alone = || PHASES.iter().all(|&at| !at.is_busy() || others(at) == 0);
    let hands = || others(Phase::Carrying) + others(Phase::Handing) > 0;
    // refused for those in this phase
    let claimed = story.claimed();
    let decides = |at| code == 7 && claimed - (story.in_phase(at) as u32) < 256;
    let last_place = accepted && call == AWAIT && claimed == 255;
    vec![
        ("party n", code == 4 && usize::from(party) == story.parties.len()),
        ("party 255", code == 4 && party == 255),
        ("party n - 1 accepted", accepted && last),
        ("given up asked", early(Phase::Asked, false, 0x20)),
        ("given up raising", early(Phase::Raising, false, 0x20)),
        ("given up unnumbered", early(Phase::Unnumbered, false, 0x20)),
        ("given up numbered", early(Phase::Numbered, false, 0x20)),
        ("given up raising, after the mark", early(Phase::Raising, false, 0x20) && open),
        ("given up numbered, after the mark", early(Phase::Numbered, false, 0x20) && open),
        ("again (9) asked", early(Phase::Asked, true, 9)),
        ("again (9) raising", early(Phase::Raising, true, 9)),
        ("again (9) unnumbered", early(Phase::Unnumbered, true, 9)),
        ("again (9) numbered", early(Phase::Numbered, true, 9)),
        ("of kind 3 (10) asked", early(Phase::Asked, false, 10)),
        ("of kind 3 (10) raising", early(Phase::Raising, false, 10)),
        ("of kind 3 (10) unnumbered", early(Phase::Unnumbered, false, 10)),
        ("of kind 3 (10) numbered", early(Phase::Numbered, false, 10)),
        ("of kind 3 (10) waiting", early(Phase::Waiting, false, 10)),
        ("of kind 3 (9) free", early(Phase::Free, false, 9) && kind_3),
        ("marked and asked, then 21", then(Phase::Asked, 0x21)),
        ("marked and raising, then 21", then(Phase::Raising, 0x21)),
        ("marked and asked, then 22", then(Phase::Asked, 0x22)),
        ("marked and raising, then 22", then(Phase::Raising, 0x22)),
        ("marked, then 23", then(Phase::Unnumbered, 0x23)),
        ("marked, then 24 before the mark", then(Phase::Numbered, 0x24) && !open),
        ("marked, then 24 after the mark", then(Phase::Numbered, 0x24) && open),
        ("marked, then 25", then(Phase::Numbered, 0x25)),
        ("given up after a mark forgotten", early(Phase::Asked, false, 0x20) && was.forgot),
        ("raising, 21", phase == Phase::Raising && code == 0x21),
        ("26, count left", step && code == 0x26 && story.count > 1),
        ("26 at the mark", reaches && code == 0x26),
        ("26 at the mark, one asked", reaches && code == 0x26 && others(Phase::Asked) > 0),
        ("26 at the mark, one raising", reaches && code == 0x26 && others(Phase::Raising) > 0),
        ("26 after the mark, begun before", step && code == 0x26 && open && !was.late),
        ("26 after the mark, begun after", step && code == 0x26 && open && was.late),
        ("26 after the mark, some counted", step && code == 0x26 && open && story.waiters > 0),
        ("27 for one", code == 0x27 && story.waiters == 1),
        ("27 for several", code == 0x27 && story.waiters > 1),
        ("27 for 31", code == 0x27 && story.waiters == 31),
        ("27 after waits given up", code == 0x27 && u32::from(story.waiters) < story.numbered),
        ("27, others counting down", code == 0x27 && others(Phase::GivingBack) > 1),
        ("27, one raising", code == 0x27 && others(Phase::Raising) > 0),
        ("27, one unnumbered", code == 0x27 && others(Phase::Unnumbered) > 0),
        ("27, one numbered", code == 0x27 && others(Phase::Numbered) > 0),
        ("27, one giving up", code == 0x27 && others(Phase::GivingUp) > 0),
        ("27, one cancelling", code == 0x27 && others(Phase::Cancelling) > 0),
        ("26 at the mark, others counting down", reaches && others(Phase::GivingBack) > 1),
        ("29, more left", by(0x29, true)),
        ("29, the last", by(0x29, false)),
        ("2A, more left", by(0x2A, true)),
        ("2A, the last", by(0x2A, false)),
        ("2A of kind 3", code == 0x2A && answer.woken >= 30),
        ("2B, more left", by(0x2B, true)),
        ("2B, the last", by(0x2B, false)),
        ("2B, its party giving up", leaves(Phase::GivingUp)),
        ("2B, its party cancelling", leaves(Phase::Cancelling)),
        ("2B, its party refusing", leaves(Phase::Refusing)),
        ("2C, more left", by(0x2C, true)),
        ("2C, the last", by(0x2C, false)),
        ("2D, more left", by(0x2D, true)),
        ("2D, the last", by(0x2D, false)),
        ("31, another carrying or handing", code == 0x31 && hands()),
        ("31, nobody else carrying or handing", code == 0x31 && !hands()),
        ("28 of what 31 gave", code == 0x28 && was.passes_on),
        ("2A of what 31 gave", code == 0x2A && was.passes_on),
        ("2C of what 31 gave", code == 0x2C && was.passes_on),
        ("2E with others counted", code == 0x2E && story.waiters > 1),
        ("2E of the last counted", code == 0x2E && story.waiters == 1),
        ("2F with others counted", code == 0x2F && story.waiters > 1),
        ("2F of the last counted", code == 0x2F && story.waiters == 1),
        ("32 by the time of another's hand-over", code == 0x32 && hands()),
        ("33 by the time of another's hand-over", code == 0x33 && hands()),
        ("24, everyone at rest before the mark", code == 0x24 && !marked && !open && alone()),
        ("2A, everyone at rest", by(0x2A, false) && alone()),
        ("25, everyone at rest", code == 0x25 && alone()),
        ("2D, everyone at rest", by(0x2D, false) && alone()),
        ("33, everyone at rest", code == 0x33 && alone()),
        ("6 where 7 applies too", code == 6 && story.is_full()),
        ("6 where 7 does not", code == 6 && !story.is_full()),
        ("5 where 7 applies too", call == AWAIT && code == 5 && story.is_full()),
        ("5 where 6 and 7 apply too", code == 5 && story.is_full() && story.begun_full()),
        ("7 for one asked", decides(Phase::Asked)),
        ("7 for one raising", decides(Phase::Raising)),
        ("7 for one unnumbered", decides(Phase::Unnumbered)),
        ("the last place, one raising", last_place && story.in_phase(Phase::Raising) > 0),
        ("the last place", last_place),
        ("count down where 7 applies", call == COUNT_DOWN && accepted && story.is_full()),
        ("count down where 6 applies", call == COUNT_DOWN && accepted && story.begun_full()),
        ("a later place used again", code == 0x24 && was.number > 255),
    ]
}

/// Both on the same cases; false, and where, if they differ or are wrong.
fn agree(program: &str, tally: &mut Tally, run: &str, cases: &[Case]) -> bool {
    let input: Vec<u8> = cases.iter().flat_map(Case::written).collect();
    let theirs = process::output(program, &[], &input, input.len());
    let mut rest = &theirs[..];
    for (number, case) in cases.iter().enumerate() {
        let shown = || {
            let calls: Vec<String> = case.calls.chunks(CALL).take(200).map(hex).collect();
            println!("N {}, n {}, room {}", case.count, case.parties, case.room);
            println!("calls {} ..", calls.join(" "));
        };
        let said = match case.said() {
            Ok(said) => said,
            Err(fault) => {
                println!("{run}, case {number}: {fault}");
                shown();
                return false;
            }
        };
        if !rest.starts_with(&said) {
            let at = said.iter().zip(rest).take_while(|(ours, theirs)| ours == theirs).count();
            // the result comes first
            let (call, start) = match at {
                0 => (0, 0),
                _ => ((at - 1) / ANSWER, 1 + (at - 1) / ANSWER * ANSWER),
            };
            let answer = |bytes: &[u8]| {
                let bytes: Vec<u8> = bytes.iter().skip(start).take(ANSWER).copied().collect();
                hex(&bytes)
            };
            println!("{run}, case {number}: call {call} is answered otherwise");
            println!("archive: {}\nsecond:  {}", answer(&said), answer(rest));
            shown();
            return false;
        }
        if let Err(fault) = tally.told(case, &said) {
            println!("{run}, case {number}: both are wrong: {fault}");
            shown();
            return false;
        }
        rest = &rest[said.len()..];
    }
    if !rest.is_empty() {
        println!("{run}: {} bytes more than expected", rest.len());
    }
    rest.is_empty()
}

fn main() -> ExitCode {
    let arguments: Vec<String> = env::args().collect();
    let [_, program, runs] = &arguments[..] else {
        eprintln!("usage: latch SECOND RUNS");
        return ExitCode::FAILURE;
    };
    let runs: u64 = runs.parse().expect("RUNS is a number");
    let mut tally = Tally::nothing();
    let random = &mut Random::seeded(runs);
    let counts: Vec<Case> = (1..=MOST_COUNT).map(|count| Case::of(doors(random, count))).collect();
    if !agree(program, &mut tally, "every N", &counts) {
        return ExitCode::FAILURE;
    }
    for seed in 1..=runs {
        let random = &mut Random::seeded(seed);
        let cases: Vec<Case> = (0..CASES).map(|_| any_case(random)).collect();
        if !agree(program, &mut tally, &format!("run {seed}"), &cases) {
            return ExitCode::FAILURE;
        }
    }
    if !agree(program, &mut tally, "a million awaits", &[Case::of(million())]) {
        return ExitCode::FAILURE;
    }
    println!("latch_run and second program: {runs} runs of {CASES} cases and a long one, agree");
    if tally.shows() {
        ExitCode::SUCCESS
    } else {
        ExitCode::FAILURE
    }
}
