//! "A record that fits" of a latch, clause by clause: which are broken, and which stand just at
//! their bound. So it can be told how often a clause decided alone, and from which side.

use crate::latch_record::{Phase, Record, PHASES};
use crate::record::{State, PARTIES, PLACES, STATES, STATE_NAMES};
use std::collections::BTreeMap;

const MOST: i64 = 1_000_000;
const SPAN: i64 = PLACES as i64;

pub const N: &str = "n";
pub const COUNT: &str = "count";
pub const WAITERS: &str = "waiters";
pub const BEGUN: &str = "begun";
pub const NUMBERED: &str = "numbered";
pub const HANDED: &str = "handed";
pub const FREE: &str = "party n free, party n - 1 not";
pub const FOREIGN: &str = "nobody is";
pub const LEFT: &str = "hand-overs left";
pub const FIRST: &str = "number from oldest on";
pub const LAST: &str = "number up to oldest + 255";
pub const GIVEN: &str = "number given out";
pub const NUMBERING: &str = "place of one numbered";
pub const HANDING: &str = "place of one handing";
pub const CANCELLING: &str = "place of one cancelling";
pub const REFUSING: &str = "place of one refusing";
pub const WAITER: &str = "phase of a waiting place's party";
pub const WAITER_NUMBER: &str = "number of a waiting place's party";
pub const WAITER_PARTY: &str = "party of a waiting place";
pub const TAKING: &str = "number to take below oldest + 256";
pub const MARK: &str = "marked";
pub const FOUND: &str = "found at";

/// A clause and its case.
type Label = (&'static str, &'static str);

/// Phases in which a waiting place's party may be.
fn stands(phase: Phase) -> bool {
    matches!(phase, Phase::Waiting | Phase::GivingUp | Phase::Cancelling | Phase::Refusing)
}

/// Whether the table lists a place in this state for a step from this phase.
pub fn is_listed(acting: Phase, state: State) -> bool {
    match acting {
        Phase::Numbered => matches!(state, State::Empty | State::Link),
        Phase::Handing => !matches!(state, State::Link | State::Done),
        Phase::Cancelling | Phase::Refusing => matches!(state, State::Waiting | State::Link),
        _ => true,
    }
}

/// The clause on the place that a party in this phase acts on.
fn acting(phase: Phase) -> Option<&'static str> {
    match phase {
        Phase::Numbered => Some(NUMBERING),
        Phase::Handing => Some(HANDING),
        Phase::Cancelling => Some(CANCELLING),
        Phase::Refusing => Some(REFUSING),
        _ => None,
    }
}

/// What is to be said of a record.
#[derive(Default)]
pub struct Judgement {
    /// One entry for each figure, party or place that breaks a clause.
    pub broken: Vec<&'static str>,
    /// Of the first of these, what is one step outside of a bound.
    outside: Vec<Label>,
    at_bound: Vec<Label>,
}

impl Judgement {
    pub fn of(record: &Record) -> Self {
        let mut judgement = Judgement::default();
        judgement.figures(record);
        (0..PARTIES).for_each(|party| judgement.party(record, party));
        (0..PLACES).for_each(|at| judgement.place(record, at));
        judgement
    }

    pub fn party_fits(record: &Record, party: usize) -> bool {
        let mut judgement = Judgement::default();
        judgement.party(record, party);
        judgement.broken.is_empty()
    }

    pub fn place_fits(record: &Record, at: usize) -> bool {
        let mut judgement = Judgement::default();
        judgement.place(record, at);
        judgement.broken.is_empty()
    }

    fn breaks(&mut self, clause: &'static str, outside: &[Label]) {
        if self.broken.is_empty() {
            self.outside.extend(outside);
        }
        self.broken.push(clause);
    }

    fn least(&mut self, label: Label, value: i64, bound: i64, found: &[Label]) {
        if value == bound - 1 {
            self.breaks(label.0, &[&[label], found].concat());
        } else if value < bound {
            self.breaks(label.0, found);
        } else if value == bound {
            self.at_bound.push(label);
        }
    }

    fn most(&mut self, label: Label, value: i64, bound: i64, found: &[Label]) {
        self.least(label, -value, -bound, found);
    }

    fn figures(&mut self, record: &Record) {
        let oldest = i64::from(record.oldest);
        self.least((N, "at least 1"), record.parties.into(), 1, &[]);
        self.most((N, "at most 32"), record.parties.into(), 32, &[]);
        self.most((COUNT, "at most 200"), record.count.into(), 200, &[]);
        self.most((WAITERS, "at most 32"), record.waiters.into(), 32, &[]);
        self.most((BEGUN, "at most 1,000,000"), record.begun.into(), MOST, &[]);
        for (clause, next) in [(NUMBERED, record.numbered), (HANDED, record.handed)] {
            self.most((clause, "at most 1,000,000"), next.into(), MOST, &[]);
            self.least((clause, "at least oldest"), next.into(), oldest, &[]);
            self.most((clause, "at most oldest + 256"), next.into(), oldest + SPAN, &[]);
        }
    }

    fn party(&mut self, record: &Record, at: usize) {
        let party = record.phases[at];
        let (phase, name) = (party.phase, party.phase.name());
        let n = usize::from(record.parties);
        let found: &[Label] = match at {
            0 => &[(FOUND, "party 0")],
            31 => &[(FOUND, "party 31")],
            _ => &[],
        };
        if phase != Phase::Free {
            self.most((FREE, name), at as i64, n as i64 - 1, found);
        }
        if phase.is_foreign() {
            self.breaks(FOREIGN, &[&[(FOREIGN, name)], found].concat());
        }
        if phase.has_left() {
            let [some, few] = match phase {
                Phase::Carrying => ["carrying, at least 1", "carrying, at most 32"],
                _ => ["handing, at least 1", "handing, at most 32"],
            };
            self.least((LEFT, some), party.left.into(), 1, found);
            self.most((LEFT, few), party.left.into(), 32, found);
        }
        if party.marked {
            self.at_bound.push((MARK, name));
        }
        if phase.has_number() {
            self.number(record, at, found);
        }
        let next = match phase {
            Phase::Unnumbered => record.numbered,
            Phase::Carrying => record.handed,
            _ => return,
        };
        self.most((TAKING, name), next.into(), i64::from(record.oldest) + SPAN - 1, found);
    }

    fn number(&mut self, record: &Record, at: usize, found: &[Label]) {
        let (phase, number) = (record.phases[at].phase, record.phases[at].number);
        let (t, oldest) = (i64::from(number), i64::from(record.oldest));
        let next = if phase == Phase::Handing { record.handed } else { record.numbered };
        self.least((FIRST, phase.name()), t, oldest, found);
        self.most((LAST, phase.name()), t, oldest + SPAN - 1, found);
        self.most((GIVEN, phase.name()), t, i64::from(next) - 1, found);
        let Some(clause) = acting(phase).filter(|_| (oldest..oldest + SPAN).contains(&t)) else {
            return;
        };
        let state = record.place(number).state;
        let label = (clause, STATE_NAMES[state as usize]);
        if is_listed(phase, state) {
            self.at_bound.push(label);
        } else {
            self.breaks(clause, &[&[label], found].concat());
        }
    }

    fn place(&mut self, record: &Record, at: usize) {
        let place = record.places[at];
        if place.state != State::Waiting {
            return;
        }
        let oldest = i64::from(record.oldest);
        let ahead = (at as i64 - oldest).rem_euclid(SPAN);
        let t = oldest + ahead;
        let n = u32::from(record.parties);
        let here = |party: usize| {
            let party = record.phases[party];
            stands(party.phase) && i64::from(party.number) == t
        };
        let waiter = place.party;
        let some = |labels: &[(Label, bool)]| -> Vec<Label> {
            labels.iter().filter(|(_, so)| *so).map(|&(label, _)| label).collect()
        };
        if waiter < 32 && here(waiter as usize) {
            self.at_bound.push((WAITER, record.phases[waiter as usize].phase.name()));
            let who =
                [((WAITER_PARTY, "31"), waiter == 31), ((WAITER_PARTY, "n - 1"), waiter + 1 == n)];
            self.at_bound.extend(some(&who));
            return;
        }
        let cut = |bits: u32| {
            let low = waiter as usize % (1 << bits);
            waiter >= 32 && low < PARTIES && here(low)
        };
        let mut outside = some(&[
            ((FOUND, "place of oldest"), ahead == 0),
            ((FOUND, "place of oldest + 255"), ahead == SPAN - 1),
            ((FOUND, "first place"), at == 0),
            ((FOUND, "last place"), at == PLACES - 1),
            ((FOUND, "place from numbered on"), t >= i64::from(record.numbered)),
            ((WAITER_PARTY, "32"), waiter == 32),
            ((WAITER_PARTY, "n"), waiter == n),
            // a waiting party's, cut to so many bits; 255 is the most that a place holds
            ((WAITER_PARTY, "in five bits"), cut(5)),
            ((WAITER_PARTY, "in six"), cut(6)),
            ((WAITER_PARTY, "in seven"), cut(7)),
            ((WAITER_PARTY, "255"), waiter == 255),
        ]);
        let Some(party) = record.phases.get(waiter as usize) else {
            return self.breaks(WAITER_PARTY, &outside);
        };
        if stands(party.phase) {
            let own = i64::from(party.number);
            outside.extend(some(&[
                ((WAITER_NUMBER, "one less"), own == t - 1),
                ((WAITER_NUMBER, "one more"), own == t + 1),
            ]));
            self.breaks(WAITER_NUMBER, &outside);
        } else {
            outside.push((WAITER, party.phase.name()));
            self.breaks(WAITER, &outside);
        }
    }
}

/// Whether a record exists that breaks this case alone, one step outside of its bound, and one that
/// meets it, just at the bound.
type Sides = [bool; 2];
const OUTSIDE: Sides = [true, false];
const INSIDE: Sides = [false, true];
const BOTH: Sides = [true, true];

/// All that must have been met.
fn expected() -> Vec<(Label, Sides)> {
    let mut all = Vec::new();
    let mut add = |clause, cases: &[&'static str], sides| {
        all.extend(cases.iter().map(|&case| ((clause, case), sides)));
    };
    add(N, &["at least 1", "at most 32"], BOTH);
    add(COUNT, &["at most 200"], BOTH);
    add(WAITERS, &["at most 32"], BOTH);
    add(BEGUN, &["at most 1,000,000"], BOTH);
    for clause in [NUMBERED, HANDED] {
        add(clause, &["at most 1,000,000", "at least oldest", "at most oldest + 256"], BOTH);
    }
    add(LEFT, &["carrying, at least 1", "carrying, at most 32"], BOTH);
    add(LEFT, &["handing, at least 1", "handing, at most 32"], BOTH);
    for (phase, name) in PHASES {
        if phase.is_foreign() {
            // whatever else is asked of that party, this is broken too
            add(FOREIGN, &[name], OUTSIDE);
            continue;
        }
        if phase != Phase::Free {
            add(FREE, &[name], BOTH);
        }
        if phase.has_number() {
            add(FIRST, &[name], BOTH);
            // a number past the 256 is past numbered or handed too
            add(LAST, &[name], INSIDE);
            add(GIVEN, &[name], BOTH);
        }
        if let Some(clause) = acting(phase) {
            for state in STATES {
                let sides = if is_listed(phase, state) { INSIDE } else { OUTSIDE };
                add(clause, &[STATE_NAMES[state as usize]], sides);
            }
        }
        if phase.takes_mark() {
            add(MARK, &[name], INSIDE);
        }
        add(WAITER, &[name], if stands(phase) { INSIDE } else { OUTSIDE });
    }
    add(TAKING, &["unnumbered", "carrying"], BOTH);
    add(WAITER_NUMBER, &["one less", "one more"], OUTSIDE);
    add(WAITER_PARTY, &["31", "n - 1"], INSIDE);
    let others = ["32", "n", "in five bits", "in six", "in seven", "255"];
    add(WAITER_PARTY, &others, OUTSIDE);
    add(FOUND, &["party 0", "party 31", "place of oldest", "place of oldest + 255"], OUTSIDE);
    add(FOUND, &["first place", "last place", "place from numbered on"], OUTSIDE);
    all
}

/// How often each case of a clause decided alone: the record was refused for nothing else, one step
/// outside of its bound; and how often a record was taken just at the bound.
#[derive(Default)]
pub struct Decided(BTreeMap<Label, [u64; 2]>);

impl Decided {
    pub fn count(&mut self, judgement: &Judgement) {
        let (labels, side) = match judgement.broken.len() {
            0 => (&judgement.at_bound, 1),
            1 => (&judgement.outside, 0),
            _ => return,
        };
        for &label in labels {
            self.0.entry(label).or_default()[side] += 1;
        }
    }

    /// Prints the counts; false if a side that exists was never met.
    pub fn shows(&self) -> bool {
        let mut whole = true;
        let mut lines: BTreeMap<&str, Vec<String>> = BTreeMap::new();
        for ((clause, case), sides) in expected() {
            let counts = self.0.get(&(clause, case)).copied().unwrap_or_default();
            let side = |side: usize| match (sides[side], counts[side]) {
                (false, _) => "-".to_string(),
                (true, 0) => "NEVER".to_string(),
                (true, count) => count.to_string(),
            };
            let shown = format!("{case} {}/{}", side(0), side(1));
            lines.entry(clause).or_default().push(shown);
            whole &= (0..2).all(|side| !sides[side] || counts[side] > 0);
        }
        println!("a clause alone, refused one step outside / taken at its bound:");
        for (clause, shown) in lines {
            println!("  {clause}: {}", shown.join(", "));
        }
        whole
    }
}
