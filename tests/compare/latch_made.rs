//! Cases for the comparison of a latch's records, all from a seed. What "A record that fits" says
//! aims them; nothing is judged here.

use crate::latch_clauses::{is_listed, Judgement};
use crate::latch_record::{
    Party, Phase, Record, LEFT_AT, MARKS_AT, PHASES, PHASES_AT, PLACES_AT, RECORD,
};
use crate::latch_schedules::schedule;
use crate::latch_story::{AWAIT, CALLS, COUNT_DOWN, GIVE_UP, STEP};
use crate::record::{Place, State, PARTIES, PLACES, STATES};
use crate::schedules::Random;
use std::vec;

const SPAN: u32 = PLACES as u32;
const MOST: u32 = 1_000_000;

#[derive(Clone, Copy)]
pub enum Family {
    Reached,
    FromFitting,
    Damaged,
    NearBounds,
    OneClause,
    EachPhase,
    Untidy,
    ToUnfit,
    Unfit,
    OddBytes,
}

pub const FAMILIES: [&str; 10] = [
    "reached",
    "called on from any that fits",
    "damaged",
    "near the bounds",
    "one clause",
    "each call in each phase",
    "untidy",
    "to be left unfit",
    "left unfit",
    "odd bytes",
];

/// A record and a call as the programs read them.
pub struct Case {
    pub family: Family,
    pub bytes: Vec<u8>,
}

impl Case {
    fn new(family: Family, record: &Record, call: [u8; 2]) -> Self {
        let mut bytes = record.bytes();
        bytes.extend(call);
        Case { family, bytes }
    }
}

/// A record that is called on and on: each call gets what the one before it left.
struct World {
    record: Record,
    /// The calls of a schedule, from its opening; without one, calls that the record suggests.
    schedule: Option<vec::IntoIter<[u8; 2]>>,
    over: bool,
}

impl World {
    fn opened(random: &mut Random) -> Self {
        let s = schedule(random);
        let record = Record::opened(s.count, s.parties);
        World { record, schedule: Some(s.calls.into_iter()), over: false }
    }

    fn fitting(random: &mut Random) -> Self {
        World { record: fitting(random), schedule: None, over: false }
    }

    /// The next call; if this world is over, the first of another.
    fn next(&mut self, random: &mut Random) -> Case {
        if self.over {
            *self = match self.schedule {
                Some(_) => World::opened(random),
                None => World::fitting(random),
            };
        }
        match &mut self.schedule {
            Some(calls) => {
                let call = calls.next().unwrap_or([STEP, 0]);
                self.over = calls.len() == 0;
                Case::new(Family::Reached, &self.record, call)
            }
            None => {
                self.over = random.one_in(100);
                Case::new(Family::FromFitting, &self.record, call_for(random, &self.record))
            }
        }
    }
}

/// Makes the cases of one turn after the other.
pub struct Maker {
    worlds: Vec<World>,
    /// Records that a success has just left unfit.
    unfit: Vec<Record>,
}

impl Maker {
    pub fn new(random: &mut Random) -> Self {
        let mut worlds = Vec::new();
        for _ in 0..60 {
            worlds.extend([World::opened(random), World::fitting(random)]);
        }
        Maker { worlds, unfit: Vec::new() }
    }

    /// The cases of a turn, those of the worlds first.
    pub fn cases(&mut self, random: &mut Random) -> Vec<Case> {
        let mut cases: Vec<Case> = self.worlds.iter_mut().map(|world| world.next(random)).collect();
        let mut add = |random: &mut Random, family, record: Record| {
            let call = call_for(random, &record);
            cases.push(Case::new(family, &record, call));
        };
        for world in &self.worlds {
            let mut record = world.record.clone();
            (0..1 + random.below(3)).for_each(|_| damage(random, &mut record));
            add(random, Family::Damaged, record);
        }
        for _ in 0..60 {
            let record = near_bounds(random);
            add(random, Family::NearBounds, record);
        }
        for record in one_clause(random) {
            add(random, Family::OneClause, record);
        }
        for record in self.unfit.drain(..) {
            add(random, Family::Unfit, record);
        }
        for _ in 0..60 {
            let mut record = untidy(random);
            let call = success(random, &mut record);
            cases.push(Case::new(Family::Untidy, &record, call));
        }
        each_phase(random, &mut cases);
        cases.extend((0..40).map(|_| to_unfit(random)));
        cases.extend((0..20).map(|_| odd_bytes(random)));
        for case in &mut cases {
            narrow(&mut case.bytes);
            litter(random, &mut case.bytes);
        }
        cases
    }

    /// Takes up what a turn left: the code of each answer, and the record.
    pub fn follow(&mut self, replies: &[(u8, Record)]) {
        for (world, (code, record)) in self.worlds.iter_mut().zip(replies) {
            world.record = record.clone();
            // after 1 nothing more can happen
            world.over |= *code == 1;
        }
        let fresh = replies.iter().filter(|(code, _)| *code >= 0x20).map(|(_, record)| record);
        let unfit = fresh.filter(|record| !Judgement::of(record).broken.is_empty());
        self.unfit.extend(unfit.take(40).cloned());
    }
}

/// A call that the record suggests, and now and then any other.
fn call_for(random: &mut Random, record: &Record) -> [u8; 2] {
    let n = record.parties.clamp(1, 32);
    if random.one_in(12) {
        let any = random.byte();
        let below = random.below(n.into()) as u8;
        return [random.pick(&CALLS), random.pick(&[any, n, below])];
    }
    let mut party = random.below(n.into()) as u8;
    for _ in 0..3 {
        if record.phases[usize::from(party)].phase == Phase::Free {
            party = random.below(n.into()) as u8;
        }
    }
    let phase = record.phases[usize::from(party)].phase;
    if phase.takes_mark() && random.one_in(4) {
        return [GIVE_UP, party];
    }
    [usual(random, phase), party]
}

/// A call that a party in a phase may make.
fn usual(random: &mut Random, phase: Phase) -> u8 {
    match phase {
        Phase::Free => random.pick(&[AWAIT, COUNT_DOWN]),
        Phase::Waiting => GIVE_UP,
        _ => STEP,
    }
}

/// A call that a record which fits does not refuse.
fn success(random: &mut Random, record: &mut Record) -> [u8; 2] {
    for _ in 0..8 {
        let party = random.below(record.parties.into()) as u8;
        let Party { phase, marked, .. } = record.phases[usize::from(party)];
        if phase.takes_mark() && !marked && party < 30 && random.one_in(2) {
            return [GIVE_UP, party];
        }
        if phase == Phase::Free {
            // an await may find no room
            return [COUNT_DOWN, party];
        }
        // waits of kind 3 stay
        if phase != Phase::Waiting || party < 30 {
            return [usual(random, phase), party];
        }
    }
    record.phases[0] = Party::at(Phase::GivingBack, 0, 0);
    mend(record, &[0], &[]);
    [STEP, 0]
}

/// One of a few, or any below a bound.
fn figure(random: &mut Random, few: &[u32], bound: u32) -> u32 {
    let any = random.below(bound.into()) as u32;
    if random.one_in(2) {
        random.pick(few)
    } else {
        any
    }
}

/// A record with figures that fit, its places empty and its parties free.
fn bare(random: &mut Random) -> Record {
    let count = figure(random, &[0, 0, 0, 1, 1, 2, 199, 200], 201) as u8;
    let parties = 1 + figure(random, &[1, 2, 30, 31, 31], 32) as u8;
    let mut record = Record::opened(count, parties);
    record.waiters = figure(random, &[0, 0, 1, 31, 32], 33) as u8;
    record.begun = figure(random, &[0, MOST - 1, MOST], MOST);
    record.oldest = figure(random, &[0, 1, 255, 256, 257, 65_535, MOST - SPAN, MOST], MOST);
    let ahead = |random: &mut Random| figure(random, &[0, 1, 2, 255, 256], SPAN + 1);
    record.numbered = (record.oldest + ahead(random)).min(MOST);
    record.handed = (record.oldest + ahead(random)).min(MOST);
    record
}

/// The same with some numbers given out, some handed over and some left on either side.
fn roomy(random: &mut Random) -> Record {
    let mut record = bare(random);
    record.oldest = 1 + random.below(990_000) as u32;
    record.numbered = record.oldest + 2 + random.below(254) as u32;
    record.handed = record.oldest + 2 + random.below(254) as u32;
    record
}

/// A record that fits, of any kind.
fn fitting(random: &mut Random) -> Record {
    let mut record = bare(random);
    fill(random, &mut record);
    record
}

/// Fills places and phases so that the record fits if its figures do.
fn fill(random: &mut Random, record: &mut Record) {
    let places = random.pick(&[0, 4, 40, 400]);
    for _ in 0..random.below(places + 1) {
        let any = random.below(256) as u32;
        let few = random.below(6) as u32;
        let at = random.pick(&[any, record.oldest + few, record.handed + few]);
        let state = random.pick(&[State::Link, State::Cancelled, State::Refused, State::Done]);
        *record.place_mut(at) = Place::of(state);
    }
    let idle = random.pick(&[0, 1, 3]);
    for party in 0..usize::from(record.parties).min(PARTIES) {
        if random.below(4) >= idle {
            // a hand-over should often meet somebody
            let any = random.pick(&PHASES).0;
            let phase =
                random.pick(&[any, any, any, Phase::Waiting, Phase::GivingUp, Phase::Handing]);
            let t = given(random, record, phase);
            settle(random, record, party, phase, t);
        }
    }
    mend(record, &[], &[]);
}

/// Where the numbers of a phase end.
fn next(record: &mut Record, phase: Phase) -> &mut u32 {
    match phase {
        Phase::Handing | Phase::Carrying => &mut record.handed,
        _ => &mut record.numbered,
    }
}

/// A number that a party in a phase may have, if there is one: at times somebody else's.
fn given(random: &mut Random, record: &mut Record, phase: Phase) -> u32 {
    let count = next(record, phase).saturating_sub(record.oldest).clamp(1, SPAN);
    let taken = random.pick(&record.phases).number;
    if random.one_in(2) && (record.oldest..record.oldest + count).contains(&taken) {
        return taken;
    }
    let any = random.below(count.into()) as u32;
    record.oldest + random.pick(&[any, any, 0, count - 1])
}

/// A party in a phase, with hand-overs left that fit, and every other one marked, if the phase has
/// that.
fn somebody(random: &mut Random, phase: Phase, number: u32) -> Party {
    let left = 1 + figure(random, &[0, 0, 1, 30, 31], 32) as u8;
    Party { phase, number, left, marked: random.one_in(2) }.cleared()
}

/// Puts a party into a phase and makes the place of its number suit it.
fn settle(random: &mut Random, record: &mut Record, party: usize, phase: Phase, t: u32) {
    record.phases[party] = somebody(random, phase, t);
    if !phase.has_number() {
        return;
    }
    // those two act on no place, so that any is right; mostly it is their own
    let left_alone = if matches!(phase, Phase::Waiting | Phase::GivingUp) { 1 } else { 2 };
    if is_listed(phase, record.place(t).state) && random.below(3) < left_alone {
        return;
    }
    let has_place = t.wrapping_sub(record.oldest) < SPAN;
    let own = if has_place { Place::waiting(party as u32) } else { Place::of(State::Link) };
    let [empty, link] = [State::Empty, State::Link].map(Place::of);
    let [cancelled, refused] = [State::Cancelled, State::Refused].map(Place::of);
    *record.place_mut(t) = match phase {
        Phase::Numbered => random.pick(&[empty, link]),
        Phase::Handing => random.pick(&[empty, cancelled, refused]),
        _ => random.pick(&[own, own, link]),
    };
}

/// Frees parties and empties places until all of them fit, but for those that are kept.
fn mend(record: &mut Record, parties: &[usize], numbers: &[u32]) {
    let kept = |at: usize| numbers.iter().any(|&number| number as usize % PLACES == at);
    loop {
        let before = record.clone();
        for party in 0..PARTIES {
            if !parties.contains(&party) && !Judgement::party_fits(record, party) {
                record.phases[party] = Party::FREE;
            }
        }
        for at in 0..PLACES {
            if !kept(at) && !Judgement::place_fits(record, at) {
                record.places[at] = Place::EMPTY;
            }
        }
        if *record == before {
            return;
        }
    }
}

/// Alters one field.
fn damage(random: &mut Random, record: &mut Record) {
    let party = random.below(32) as usize;
    let at = random.below(256) as usize;
    match random.below(16) {
        0 => record.parties = damaged_byte(random, record.parties),
        1 => record.count = damaged_byte(random, record.count),
        2 => record.waiters = damaged_byte(random, record.waiters),
        3 => record.numbered = damaged_figure(random, record, record.numbered),
        4 => record.handed = damaged_figure(random, record, record.handed),
        5 => record.begun = damaged_figure(random, record, record.begun),
        6 => record.oldest = damaged_figure(random, record, record.oldest),
        7 | 8 => record.phases[party].phase = random.pick(&PHASES).0,
        9 => record.phases[party] = random.pick(&record.phases),
        10 => {
            let number = record.phases[party].number;
            record.phases[party].number = damaged_figure(random, record, number);
        }
        11 => {
            let busy = record.phases.iter().position(|party| party.phase.has_left());
            let party = &mut record.phases[busy.unwrap_or(party)];
            party.left = damaged_byte(random, party.left);
        }
        12 => {
            let state = random.pick(&STATES);
            record.places[at] = Place { state, party: party as u32 };
        }
        13 => record.places[at] = random.pick(&record.places),
        // no damage: a mark more, or a mark less
        14 => record.phases.iter_mut().for_each(|party| party.marked ^= random.one_in(2)),
        // where something is more often the case
        _ => {
            let number = random.pick(&[record.oldest, record.handed, record.numbered]);
            let place = record.place_mut(number.wrapping_sub(random.below(3) as u32));
            place.state = random.pick(&STATES);
            place.party = damaged_byte(random, party as u8).into();
        }
    }
    clear_fields(record);
}

/// A party that no place carries is 0, and so is what no phase has.
fn clear_fields(record: &mut Record) {
    for place in record.places.iter_mut().filter(|place| place.state != State::Waiting) {
        place.party = 0;
    }
    record.phases.iter_mut().for_each(|party| *party = party.cleared());
}

fn damaged_byte(random: &mut Random, byte: u8) -> u8 {
    let any = random.byte();
    let next = random.pick(&[byte.wrapping_add(1), byte.wrapping_sub(1)]);
    random.pick(&[0, 1, 31, 32, 33, 200, 201, next, next, any])
}

fn damaged_figure(random: &mut Random, record: &Record, figure: u32) -> u32 {
    let near = [figure, record.oldest, record.numbered, record.handed, 0, 32, MOST, 1 << 31];
    let from = random.pick(&near);
    let by = random.pick(&[0, 1, 2, 32, 255, 256, 257, 1 << 16, 1 << 24]);
    if random.one_in(2) {
        from.wrapping_add(by)
    } else {
        from.wrapping_sub(by)
    }
}

/// Anything near the bounds, whether it fits or not.
fn near_bounds(random: &mut Random) -> Record {
    let mut record = if random.one_in(2) { bare(random) } else { roomy(random) };
    (0..random.below(3)).for_each(|_| damage(random, &mut record));
    let places = random.pick(&[2, 20, 200]);
    for _ in 0..random.below(places) {
        let party = damaged_byte(random, 5).into();
        let number = record.oldest.wrapping_add(random.below(260) as u32);
        *record.place_mut(number) = Place { state: random.pick(&STATES), party };
    }
    for _ in 0..random.below(5) {
        let party = random.below(32) as usize;
        let number = damaged_figure(random, &record, record.oldest);
        let phase = random.pick(&PHASES).0;
        record.phases[party] = somebody(random, phase, number);
        record.phases[party].left = damaged_byte(random, 1);
    }
    clear_fields(&mut record);
    record
}

/// Each clause broken alone, one step outside of its bound, and just met.
fn one_clause(random: &mut Random) -> Vec<Record> {
    let mut records = Vec::new();
    figures_alone(random, &mut records);
    phases_alone(random, &mut records);
    numbers_alone(random, &mut records);
    acted_on_alone(random, &mut records);
    waiters_alone(random, &mut records);
    waiter_parties_alone(random, &mut records);
    taking_alone(random, &mut records);
    records
}

fn figures_alone(random: &mut Random, records: &mut Vec<Record>) {
    // what is set, with an oldest that has room on either side; the rest is filled to suit it
    let alter: [fn(&mut Record, u32); 22] = [
        |r, _| r.parties = 0,
        |r, _| r.parties = 1,
        |r, _| r.parties = 32,
        |r, _| r.parties = 33,
        |r, _| r.count = 200,
        |r, _| r.count = 201,
        |r, _| r.waiters = 32,
        |r, _| r.waiters = 33,
        |r, _| r.begun = MOST,
        |r, _| r.begun = MOST + 1,
        |r, o| (r.oldest, r.numbered, r.handed) = (o, o - 1, o + 20),
        |r, o| (r.oldest, r.numbered, r.handed) = (o, o, o + 20),
        |r, o| (r.oldest, r.numbered, r.handed) = (o, o + 256, o + 20),
        |r, o| (r.oldest, r.numbered, r.handed) = (o, o + 257, o + 20),
        |r, o| (r.oldest, r.numbered, r.handed) = (o, o + 20, o - 1),
        |r, o| (r.oldest, r.numbered, r.handed) = (o, o + 20, o),
        |r, o| (r.oldest, r.numbered, r.handed) = (o, o + 20, o + 256),
        |r, o| (r.oldest, r.numbered, r.handed) = (o, o + 20, o + 257),
        |r, o| (r.oldest, r.numbered, r.handed) = (MOST - o % 99, MOST, MOST),
        |r, o| (r.oldest, r.numbered, r.handed) = (MOST - o % 99, MOST + 1, MOST),
        |r, o| (r.oldest, r.numbered, r.handed) = (MOST - o % 99, MOST, MOST + 1),
        |r, o| (r.oldest, r.numbered, r.handed) = (MOST - o % 9, MOST - o % 9, MOST),
    ];
    for alter in alter {
        let mut record = bare(random);
        let oldest = 1 + random.below(990_000) as u32;
        alter(&mut record, oldest);
        fill(random, &mut record);
        records.push(record);
    }
}

/// A party in each phase: party n, the last party, and party n - 1; carrying and handing, with
/// hand-overs left that just fit or do not.
fn phases_alone(random: &mut Random, records: &mut Vec<Record>) {
    for (phase, _) in &PHASES[1..] {
        let n = 1 + random.below(31) as u8;
        let lefts: &[u8] = if phase.has_left() { &[0, 1, 32, 33, 255] } else { &[] };
        let parties = [n, 31, n - 1].map(|party| (party, None));
        let lefts = lefts.iter().map(|&left| (random.below(n.into()) as u8, Some(left)));
        for (party, left) in parties.into_iter().chain(lefts.collect::<Vec<_>>()) {
            let party = usize::from(party);
            let mut record = roomy(random);
            record.parties = n;
            fill(random, &mut record);
            let t = given(random, &mut record, *phase);
            settle(random, &mut record, party, *phase, t);
            if let Some(left) = left {
                record.phases[party].left = left;
            }
            mend(&mut record, &[party], &[t]);
            records.push(record);
        }
    }
}

/// A party below n, often the first or the last.
fn party_of(random: &mut Random, record: &Record) -> usize {
    let n = usize::from(record.parties);
    let any = random.below(n as u64) as usize;
    random.pick(&[0, n - 1, any])
}

fn numbers_alone(random: &mut Random, records: &mut Vec<Record>) {
    for (phase, _) in PHASES.into_iter().filter(|(phase, _)| phase.has_number()) {
        for side in 0..5 {
            let mut record = roomy(random);
            let oldest = record.oldest;
            let end = next(&mut record, phase);
            let t = match side {
                0 => oldest - 1,
                1 => oldest,
                2 => *end - 1,
                3 => *end,
                _ => {
                    *end = oldest + SPAN;
                    *end - 1
                }
            };
            fill(random, &mut record);
            let party = party_of(random, &record);
            settle(random, &mut record, party, phase, t);
            mend(&mut record, &[party], &[t]);
            records.push(record);
        }
    }
}

fn acted_on_alone(random: &mut Random, records: &mut Vec<Record>) {
    for phase in [Phase::Numbered, Phase::Handing, Phase::Cancelling, Phase::Refusing] {
        for state in STATES {
            let mut record = roomy(random);
            record.parties = record.parties.max(2);
            fill(random, &mut record);
            let party = party_of(random, &record);
            let waiter = (party + 1) % usize::from(record.parties);
            let t = shared(random, &record);
            record.phases[party] = somebody(random, phase, t);
            *record.place_mut(t) = Place::of(state);
            if state == State::Waiting {
                record.phases[waiter] = Party::at(Phase::Waiting, t, 0);
                *record.place_mut(t) = Place::waiting(waiter as u32);
            }
            mend(&mut record, &[party], &[t]);
            records.push(record);
        }
    }
}

/// A number that is given out and handed over.
fn shared(random: &mut Random, record: &Record) -> u32 {
    let end = record.numbered.min(record.handed);
    let any = record.oldest + random.below((end - record.oldest).into()) as u32;
    random.pick(&[record.oldest, end - 1, any])
}

/// A waiting place whose party is in each phase, or has the number before or after; then, past the
/// numbers given out, of anybody.
fn waiters_alone(random: &mut Random, records: &mut Vec<Record>) {
    for (phase, _) in PHASES {
        for step in [0, 1, -1] {
            let mut record = roomy(random);
            fill(random, &mut record);
            let party = party_of(random, &record);
            let t = shared(random, &record);
            // nobody can be numbered t where a place is waiting
            let step = if phase == Phase::Numbered && step == 0 { 1 } else { step };
            let own = t.wrapping_add_signed(step).clamp(record.oldest, record.numbered - 1);
            record.phases[party] = somebody(random, phase, own);
            let link = matches!(phase, Phase::Cancelling | Phase::Refusing);
            *record.place_mut(own) = Place::of(if link { State::Link } else { State::Empty });
            *record.place_mut(t) = Place::waiting(party as u32);
            mend(&mut record, &[party], &[t, own]);
            records.push(record);
        }
    }
    for last in [false, true] {
        let mut record = roomy(random);
        fill(random, &mut record);
        let t = if last { record.oldest + SPAN - 1 } else { record.numbered };
        let party = random.below(32) as u32;
        *record.place_mut(t) = Place::waiting(party);
        mend(&mut record, &[], &[t]);
        records.push(record);
    }
}

/// A waiting place whose party is right, or would be if a part of its byte were lost.
fn waiter_parties_alone(random: &mut Random, records: &mut Vec<Record>) {
    let any = [0, 32, 64, 128, 224];
    let some = [(Some(31), 0), (Some(0), 32), (Some(31), 224)];
    for (party, more) in some.into_iter().chain(any.map(|more| (None, more))) {
        let mut record = roomy(random);
        if party == Some(31) {
            record.parties = 32;
        }
        fill(random, &mut record);
        let party = party.unwrap_or_else(|| party_of(random, &record));
        let t = given(random, &mut record, Phase::Waiting);
        record.phases[party] = Party::at(Phase::Waiting, t, 0);
        *record.place_mut(t) = Place::waiting(party as u32 + more);
        mend(&mut record, &[party], &[t]);
        records.push(record);
    }
    // party n, which is free; and one that there is not
    for more in [0, 32] {
        let mut record = roomy(random);
        record.parties = 1 + random.below(31) as u8;
        fill(random, &mut record);
        let t = record.oldest + random.below(256) as u32;
        *record.place_mut(t) = Place::waiting(u32::from(record.parties) + more);
        mend(&mut record, &[], &[t]);
        records.push(record);
    }
}

fn taking_alone(random: &mut Random, records: &mut Vec<Record>) {
    for phase in [Phase::Unnumbered, Phase::Carrying] {
        for ahead in [SPAN - 1, SPAN] {
            let mut record = roomy(random);
            *next(&mut record, phase) = record.oldest + ahead;
            fill(random, &mut record);
            let party = party_of(random, &record);
            record.phases[party] = somebody(random, phase, 0);
            mend(&mut record, &[party], &[]);
            records.push(record);
        }
    }
}

/// A record that fits, with done places from *oldest* on and cancelled ones from *handed* on.
fn untidy(random: &mut Random) -> Record {
    let mut record = if random.one_in(2) { bare(random) } else { roomy(random) };
    let few = random.below(5) as u32;
    if random.one_in(2) {
        // the tidying of the one runs into the other
        record.handed = (record.oldest + few).min(MOST);
    }
    fill(random, &mut record);
    let [done, cancelled] = [State::Done, State::Cancelled];
    let (oldest, handed, end) = (record.oldest, record.handed, record.oldest + SPAN);
    let many = random.below(257) as u32;
    match random.below(7) {
        0 => lay(&mut record, oldest, 1 + few, done),
        1 => lay(&mut record, oldest, many, done),
        2 => lay(&mut record, handed, 1 + few, cancelled),
        3 => lay(&mut record, handed, end - handed, cancelled),
        4 => lay(&mut record, oldest, SPAN, random.pick(&[done, cancelled])),
        5 => {
            lay(&mut record, oldest, handed - oldest, done);
            lay(&mut record, handed, many.min(end - handed), cancelled);
            lay(&mut record, handed + many.min(end - handed), few, done);
        }
        _ => {
            lay(&mut record, oldest, 1 + few, done);
            lay(&mut record, handed, 1 + few, cancelled);
        }
    }
    mend(&mut record, &[], &[]);
    record
}

fn lay(record: &mut Record, from: u32, count: u32, state: State) {
    for number in from..from + count {
        *record.place_mut(number) = Place::of(state);
    }
}

/// A record that fits, and a party in each phase, any and one of kind 3, that makes each call.
fn each_phase(random: &mut Random, cases: &mut Vec<Case>) {
    for (phase, _) in PHASES.into_iter().filter(|(phase, _)| !phase.is_foreign()) {
        for call in [AWAIT, STEP, STEP, STEP, GIVE_UP, COUNT_DOWN] {
            for kind_3 in [false, true] {
                let mut record = match random.below(3) {
                    0 => untidy(random),
                    1 => roomy(random),
                    _ => fitting(random),
                };
                if kind_3 {
                    record.parties = 32;
                }
                let party = if kind_3 { random.pick(&[30, 31]) } else { party_of(random, &record) };
                let t = given(random, &mut record, phase);
                settle(random, &mut record, party, phase, t);
                mend(&mut record, &[], &[]);
                cases.push(Case::new(Family::EachPhase, &record, [call, party as u8]));
            }
        }
    }
}

/// A record that fits, and a call that leaves it unfit, or nearly.
fn to_unfit(random: &mut Random) -> Case {
    let mut record = if random.one_in(2) { bare(random) } else { roomy(random) };
    let near = MOST - random.below(255) as u32;
    let kind = random.below(8);
    let (phase, call) = match kind {
        0 => (Phase::Raising, STEP),
        1 => (Phase::Unnumbered, STEP),
        2 => (Phase::Carrying, STEP),
        3 => (Phase::GivingBack, STEP),
        4 => (Phase::Waiting, GIVE_UP),
        5 => (random.pick(&[Phase::Asked, Phase::Raising, Phase::Numbered]), GIVE_UP),
        6 => (random.pick(&[Phase::Numbered, Phase::Handing]), STEP),
        _ => (random.pick(&[Phase::Cancelling, Phase::Refusing]), STEP),
    };
    match kind {
        0 => (record.count, record.waiters) = (1 + record.count / 2, 32),
        1 if random.one_in(2) => {
            (record.oldest, record.numbered, record.handed) = (near, MOST, near)
        }
        2 | 3 if random.one_in(2) => {
            (record.oldest, record.numbered, record.handed) = (near, near, MOST);
        }
        // the last place is taken
        1 => record.numbered = record.oldest.min(MOST - SPAN) + SPAN - 1,
        2 => record.handed = record.oldest.min(MOST - SPAN) + SPAN - 1,
        _ => record = roomy(random),
    }
    fill(random, &mut record);
    let oldest = record.oldest;
    let party = party_of(random, &record);
    let t = if kind == 4 { oldest } else { given(random, &mut record, phase) };
    settle(random, &mut record, party, phase, t);
    match kind {
        3 if record.handed == MOST => lay(&mut record, MOST, 1, State::Cancelled),
        // past numbered, past handed, or past both
        3 | 5 => lay(&mut record, oldest, 1 + random.below(256) as u32, State::Done),
        4 => lay(&mut record, oldest, 1, State::Done),
        // somebody else is to act there too
        1 | 2 | 6 | 7 => {
            let other = (party + 1) % usize::from(record.parties);
            let phases = [Phase::Numbered, Phase::Handing, Phase::Cancelling, Phase::Refusing];
            let shared = if kind < 6 { phase } else { random.pick(&phases) };
            record.phases[other] = somebody(random, shared, t);
        }
        _ => {}
    }
    mend(&mut record, &[], &[]);
    Case::new(Family::ToUnfit, &record, [call, party as u8])
}

/// Bytes that name no state, phase or call, and numbers that nothing has; or bytes of any kind.
fn odd_bytes(random: &mut Random) -> Case {
    let record = if random.one_in(2) { fitting(random) } else { near_bounds(random) };
    let call = call_for(random, &record);
    let mut case = Case::new(Family::OddBytes, &record, call);
    if random.one_in(4) {
        let from = random.pick(&[0, 0, PLACES_AT]);
        case.bytes[from..].iter_mut().for_each(|byte| *byte = random.byte());
        return case;
    }
    let (record, call) = case.bytes.split_at_mut(RECORD);
    record[MARKS_AT..].iter_mut().for_each(|mark| *mark += 2 * random.below(127) as u8);
    for (at, cell) in record[PLACES_AT..LEFT_AT].chunks_mut(5).enumerate() {
        let (count, carries): (u8, &[u8]) =
            if at < PLACES { (6, &[1]) } else { (15, &[2, 5, 6, 7, 8, 11]) };
        if !carries.contains(&cell[0]) {
            cell[1..].iter_mut().for_each(|byte| *byte = random.byte());
        }
        cell[0] += count * random.below((256 / u64::from(count)) - 1) as u8;
    }
    call[0] = call[0] % 4 + 4 * random.below(64) as u8;
    case
}

/// A place has a byte for its party.
fn narrow(bytes: &mut [u8]) {
    for cell in bytes[PLACES_AT..PHASES_AT].chunks_mut(5).filter(|cell| cell[0] % 6 == 1) {
        cell[1..4].fill(0);
    }
}

/// In every other case, hand-overs and marks where they count for nothing.
fn litter(random: &mut Random, bytes: &mut [u8]) {
    if random.one_in(2) {
        return;
    }
    for party in 0..PARTIES {
        let phase = PHASES[usize::from(bytes[PHASES_AT + 5 * party] % 15)].0;
        if !phase.has_left() {
            bytes[LEFT_AT + party] = random.byte();
        }
        if !phase.takes_mark() {
            bytes[MARKS_AT + party] = random.byte();
        }
    }
}

/// The few cases of crates/latchprobe/stdin.
pub fn sample() -> Vec<u8> {
    let mut bytes = Vec::new();
    let mut add = |record: &Record, call: [u8; 2]| {
        bytes.extend(record.bytes());
        bytes.extend(call);
    };
    let marked = |phase, number| Party { marked: true, ..Party::at(phase, number, 0) };
    let opened = Record::opened(1, 3);
    add(&opened, [AWAIT, 0]);
    add(&opened, [COUNT_DOWN, 2]);
    add(&opened, [COUNT_DOWN, 3]);
    // everywhere a party of a latch can be, before the mark and after it; places done from oldest on,
    // a cancelled one at handed
    let mut full = Record::opened(2, 32);
    full.waiters = 3;
    full.begun = MOST;
    (full.oldest, full.numbered, full.handed) = (1000, 1010, 1004);
    lay(&mut full, 1000, 2, State::Done);
    lay(&mut full, 1002, 1, State::Refused);
    lay(&mut full, 1004, 1, State::Cancelled);
    lay(&mut full, 1005, 2, State::Link);
    *full.place_mut(1003) = Place::waiting(6);
    *full.place_mut(1008) = Place::waiting(31);
    let parties = [
        Party::at(Phase::Asked, 0, 0),
        Party::at(Phase::Raising, 0, 0),
        Party::at(Phase::Unnumbered, 0, 0),
        Party::at(Phase::Numbered, 1007, 0),
        marked(Phase::Numbered, 1009),
        Party::at(Phase::GivingBack, 0, 0),
        Party::at(Phase::GivingUp, 1003, 0),
        Party::at(Phase::Refusing, 1005, 0),
        Party::at(Phase::Cancelling, 1006, 0),
        Party::at(Phase::Carrying, 0, 32),
        Party::at(Phase::Handing, 1002, 1),
        Party::at(Phase::Handing, 1003, 2),
        marked(Phase::Raising, 0),
        marked(Phase::Asked, 0),
        Party::FREE,
    ];
    full.phases[..parties.len()].copy_from_slice(&parties);
    full.phases[30] = Party::at(Phase::Raising, 0, 0);
    full.phases[31] = Party::at(Phase::Waiting, 1008, 0);
    for count in [2, 1, 0] {
        full.count = count;
        for party in 0..=parties.len() as u8 {
            add(&full, [STEP, party]);
        }
    }
    for party in [0, 1, 4, 14, 30, 31] {
        CALLS.into_iter().for_each(|call| add(&full, [call, party]));
    }
    // the last hand-over but one wakes party 31; none of several is left unused
    let mut handing = full.clone();
    for (t, left) in [(1008, 2), (1007, 32), (1004, 1)] {
        handing.handed = 1009;
        handing.phases[11] = Party::at(Phase::Handing, t, left);
        add(&handing, [STEP, 11]);
    }
    // 25 of a marked party, 30 and 32
    let mut found = full.clone();
    found.phases[4].number = 1005;
    add(&found, [STEP, 4]);
    for phase in [Phase::Cancelling, Phase::Refusing] {
        found.phases[6].phase = phase;
        add(&found, [STEP, 6]);
    }
    // whoever is raising has a place kept: 7 with 255 numbers given out, and with 254 not
    let mut kept = Record::opened(1, 2);
    kept.phases[1] = Party::at(Phase::Raising, 0, 0);
    for numbered in [SPAN - 1, SPAN - 2] {
        kept.numbered = numbered;
        add(&kept, [AWAIT, 0]);
    }
    // the waiters go from 32 to 33; the next call is refused
    let mut many = Record::opened(200, 2);
    many.waiters = 32;
    many.phases[1] = Party::at(Phase::Raising, 0, 0);
    add(&many, [STEP, 1]);
    many.waiters = 33;
    add(&many, [STEP, 1]);
    // one step outside of what fits
    let mut wrong = opened.clone();
    wrong.count = 201;
    add(&wrong, [AWAIT, 0]);
    for left in [0, 33] {
        let mut wrong = full.clone();
        wrong.phases[9].left = left;
        add(&wrong, [AWAIT, 14]);
    }
    for phase in [Phase::Holding, Phase::Fetching, Phase::PuttingBack] {
        let mut wrong = opened.clone();
        wrong.phases[1] = Party::at(phase, 0, 0);
        add(&wrong, [AWAIT, 0]);
    }
    // all places are empty, party 0 raises and steps; hand-overs and marks that count for nothing
    let odd = bytes.len();
    bytes.extend(opened.bytes());
    bytes.extend([0xFD, 0]);
    bytes[odd + PLACES_AT..odd + PHASES_AT].fill(252);
    bytes[odd + PHASES_AT] = 254;
    bytes[odd + LEFT_AT..odd + RECORD].fill(0xA7);
    bytes
}
