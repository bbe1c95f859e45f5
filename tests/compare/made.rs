//! Cases for the comparison of records, all from a seed. What "A record that fits" says aims them;
//! nothing is judged here.

use crate::clauses::{is_listed, Judgement};
use crate::kinds::Opening;
use crate::record::{
    Keeper, Party, Phase, Place, Record, State, AT_PLACE_AT, KINDS_AT, MARKS_AT, OPENING_AT,
    PARTIES, PHASES, PLACES, RADIOS, RADIOS_AT, RECORD, STATES, STORED_AT, STORE_AT, TURNED_AT,
    WITH_PARTY_AT,
};
use crate::schedules::{kinds, radios, schedule, Random, ASK, GIVE_BACK, GIVE_UP, RADIO, STEP};
use std::vec;

const SPAN: u32 = PLACES as u32;
const MOST: u32 = 1_000_000;

#[derive(Clone, Copy)]
pub enum Family {
    Reached,
    FromFitting,
    Damaged,
    NearBounds,
    OneClause,
    Untidy,
    ToUnfit,
    Unfit,
    Early,
    OwnKinds,
    OddBytes,
}

pub const FAMILIES: [&str; 11] = [
    "reached",
    "called on from any that fits",
    "damaged",
    "near the bounds",
    "one clause",
    "untidy",
    "to be left unfit",
    "left unfit",
    "not yet waiting",
    "giving up by kind",
    "odd bytes",
];

/// A record and a call as the programs read them.
pub struct Case {
    pub family: Family,
    pub bytes: Vec<u8>,
}

impl Case {
    fn new(family: Family, record: &Record, call: [u8; 2]) -> Self {
        let mut bytes = record.bytes();
        bytes.extend(call);
        Case { family, bytes }
    }
}

/// A record that is called on and on: each call gets what the one before it left.
struct World {
    record: Record,
    /// The calls of a schedule, from its opening; without one, calls that the record suggests.
    schedule: Option<vec::IntoIter<[u8; 2]>>,
    over: bool,
}

impl World {
    fn opened(random: &mut Random) -> Self {
        let s = schedule(random, 4000);
        if Opening::read(&s.opening()).is_none_or(|opening| opening.answer() != 0x1F) {
            return World::opened(random);
        }
        let mut record = match &s.radios {
            Some(radios) => Record::opened_with(s.parties, radios),
            None => Record::opened(s.permits, s.parties),
        };
        record.kinds = s.kinds();
        World { record, schedule: Some(s.calls.into_iter()), over: false }
    }

    fn fitting(random: &mut Random) -> Self {
        World { record: fitting(random), schedule: None, over: false }
    }

    /// The next call; if this world is over, the first of another.
    fn next(&mut self, random: &mut Random) -> Case {
        if self.over {
            *self = match self.schedule {
                Some(_) => World::opened(random),
                None => World::fitting(random),
            };
        }
        match &mut self.schedule {
            Some(calls) => {
                let call = calls.next().unwrap_or([STEP, 0]);
                self.over = calls.len() == 0;
                Case::new(Family::Reached, &self.record, call)
            }
            None => {
                self.over = random.one_in(100);
                Case::new(Family::FromFitting, &self.record, call_for(random, &self.record))
            }
        }
    }
}

/// Makes the cases of one turn after the other.
pub struct Maker {
    worlds: Vec<World>,
    /// Records that a success has just left unfit.
    unfit: Vec<Record>,
    /// The party that gives up by its kind in this turn.
    party: usize,
}

impl Maker {
    pub fn new(random: &mut Random) -> Self {
        let mut worlds = Vec::new();
        for _ in 0..60 {
            worlds.extend([World::opened(random), World::fitting(random)]);
        }
        Maker { worlds, unfit: Vec::new(), party: 0 }
    }

    /// The cases of a turn, those of the worlds first.
    pub fn cases(&mut self, random: &mut Random) -> Vec<Case> {
        let mut cases: Vec<Case> = self.worlds.iter_mut().map(|world| world.next(random)).collect();
        let mut add = |random: &mut Random, family, record: Record| {
            let call = call_for(random, &record);
            cases.push(Case::new(family, &record, call));
        };
        for world in &self.worlds {
            let record = damaged(random, &world.record);
            add(random, Family::Damaged, record);
        }
        for _ in 0..60 {
            let record = near_bounds(random);
            add(random, Family::NearBounds, record);
        }
        for record in one_clause(random) {
            add(random, Family::OneClause, record);
        }
        for record in self.unfit.drain(..) {
            add(random, Family::Unfit, record);
        }
        for _ in 0..60 {
            let mut record = untidy(random);
            let call = success(random, &mut record);
            cases.push(Case::new(Family::Untidy, &record, call));
        }
        cases.extend((0..40).map(|_| to_unfit(random)));
        early(random, &mut cases);
        by_kind(random, self.party, &mut cases);
        self.party = (self.party + 1) % PARTIES;
        cases.extend((0..20).map(|_| odd_bytes(random)));
        cases.iter_mut().for_each(|case| litter(random, &mut case.bytes));
        cases
    }

    /// Takes up what a turn left: the code of each answer, and the record.
    pub fn follow(&mut self, replies: &[(u8, Record)]) {
        for (world, (code, record)) in self.worlds.iter_mut().zip(replies) {
            world.record = record.clone();
            // after 1 nothing more can happen
            world.over |= *code == 1;
        }
        let fresh = replies.iter().filter(|(code, _)| *code >= 0x20).map(|(_, record)| record);
        let unfit = fresh.filter(|record| !Judgement::of(record).broken.is_empty());
        self.unfit.extend(unfit.take(40).cloned());
    }
}

/// A call that the record suggests, and now and then any other.
fn call_for(random: &mut Random, record: &Record) -> [u8; 2] {
    let n = record.parties.clamp(1, 32);
    if random.one_in(12) {
        let any = random.byte();
        let below = random.below(n.into()) as u8;
        let code = random.pick(&[ASK, STEP, GIVE_UP, GIVE_BACK, RADIO]);
        return [code, random.pick(&[any, n, below])];
    }
    let mut party = random.below(n.into()) as u8;
    for _ in 0..3 {
        // whoever is free can only ask
        if record.phases[usize::from(party)].phase == Phase::Free {
            party = random.below(n.into()) as u8;
        }
    }
    if random.one_in(12) {
        return [RADIO, party];
    }
    let phase = record.phases[usize::from(party)].phase;
    if phase.takes_mark() && random.one_in(4) {
        return [GIVE_UP, party];
    }
    [usual(phase), party]
}

/// The call that a party in a phase may make.
fn usual(phase: Phase) -> u8 {
    match phase {
        Phase::Free => ASK,
        Phase::Waiting => GIVE_UP,
        Phase::Holding => GIVE_BACK,
        _ => STEP,
    }
}

/// A call that a record which fits does not refuse. Party 0 may have to hold a link for it.
fn success(random: &mut Random, record: &mut Record) -> [u8; 2] {
    for _ in 0..8 {
        let party = random.below(record.parties.into()) as u8;
        let Party { phase, marked, .. } = record.phases[usize::from(party)];
        if random.one_in(10) {
            return [RADIO, party];
        }
        let may_leave = record.kinds[usize::from(party)] != 3;
        if phase.takes_mark() && !marked && may_leave && random.one_in(2) {
            return [GIVE_UP, party];
        }
        // an ask may find no room, and waits of kind 3 stay
        if phase != Phase::Free && (phase != Phase::Waiting || may_leave) {
            return [usual(phase), party];
        }
    }
    if matches!(record.phases[0].phase, Phase::Free | Phase::Waiting) {
        record.phases[0] = Party::at(Phase::Holding, 0);
        mend(random, record, &[0], &[]);
    }
    [usual(record.phases[0].phase), 0]
}

/// One of a few, or any below a bound.
fn figure(random: &mut Random, few: &[u32], bound: u32) -> u32 {
    let any = random.below(bound.into()) as u32;
    if random.one_in(2) {
        random.pick(few)
    } else {
        any
    }
}

/// A record with figures that fit, its places empty and its parties free; every other one of a
/// hub with radios, all of them stored, and every other one with its own kinds.
fn bare(random: &mut Random) -> Record {
    let links = 1 + figure(random, &[0, 31], 32) as u8;
    let parties = 1 + figure(random, &[1, 2, 30, 31, 31], 32) as u8;
    let mut record = Record::opened(links, parties);
    record.has_radios = random.one_in(2);
    deal(random, &mut record);
    if random.one_in(2) {
        record.kinds.copy_from_slice(&kinds(random));
    }
    record.counter = figure(random, &[0, 1, 31, 32, 33, 63, 64], 65) as i32 - 32;
    record.begun = figure(random, &[0, MOST - 1, MOST], MOST);
    record.oldest = figure(random, &[0, 1, 255, 256, 257, 65_535, MOST - SPAN, MOST], MOST);
    let ahead = |random: &mut Random| figure(random, &[0, 1, 2, 255, 256], SPAN + 1);
    record.numbered = (record.oldest + ahead(random)).min(MOST);
    record.handed = (record.oldest + ahead(random)).min(MOST);
    record
}

/// The same with some numbers given out, some handed over and some left on either side.
fn roomy(random: &mut Random) -> Record {
    let mut record = bare(random);
    record.oldest = 1 + random.below(990_000) as u32;
    record.numbered = record.oldest + 2 + random.below(254) as u32;
    record.handed = record.oldest + 2 + random.below(254) as u32;
    record
}

/// A record that fits, of any kind.
fn fitting(random: &mut Random) -> Record {
    let mut record = bare(random);
    fill(random, &mut record);
    record
}

/// Fills places and phases so that the record fits if its figures do.
fn fill(random: &mut Random, record: &mut Record) {
    let places = random.pick(&[0, 4, 40, 400]);
    for _ in 0..random.below(places + 1) {
        let any = random.below(256) as u32;
        let few = random.below(6) as u32;
        let at = random.pick(&[any, record.oldest + few, record.handed + few]);
        let state = random.pick(&[State::Link, State::Cancelled, State::Refused, State::Done]);
        *record.place_mut(at) = Place::of(state);
    }
    let idle = random.pick(&[0, 1, 3]);
    for party in 0..usize::from(record.parties).min(PARTIES) {
        if random.below(4) >= idle {
            // a hand-over should often meet somebody
            let any = random.pick(&PHASES);
            let phase =
                random.pick(&[any, any, any, Phase::Waiting, Phase::GivingUp, Phase::Handing]);
            let t = given(random, record, phase);
            settle(random, record, party, phase, t);
        }
    }
    mend(random, record, &[], &[]);
}

/// Where the numbers of a phase end.
fn next(record: &Record, phase: Phase) -> u32 {
    if phase == Phase::Handing {
        record.handed
    } else {
        record.numbered
    }
}

/// A number that a party in a phase may have, if there is one: at times somebody else's.
fn given(random: &mut Random, record: &Record, phase: Phase) -> u32 {
    let count = next(record, phase).saturating_sub(record.oldest).clamp(1, SPAN);
    let taken = random.pick(&record.phases).number;
    if random.one_in(2) && (record.oldest..record.oldest + count).contains(&taken) {
        return taken;
    }
    let any = random.below(count.into()) as u32;
    record.oldest + random.pick(&[any, any, 0, count - 1])
}

/// A party in a phase, every other one marked if the phase takes that.
fn somebody(random: &mut Random, phase: Phase, number: u32) -> Party {
    Party { marked: phase.takes_mark() && random.one_in(2), ..Party::at(phase, number) }
}

/// Puts a party into a phase and makes the place of its number suit it, and the hub.
fn settle(random: &mut Random, record: &mut Record, party: usize, phase: Phase, t: u32) {
    record.has_radios |= phase.needs_radios();
    if !phase.has_number() {
        record.phases[party] = somebody(random, phase, 0);
        return;
    }
    record.phases[party] = somebody(random, phase, t);
    // those two act on no place, so that any is right; mostly it is their own
    let left_alone = if matches!(phase, Phase::Waiting | Phase::GivingUp) { 1 } else { 2 };
    if is_listed(phase, record.place(t).state) && random.below(3) < left_alone {
        return;
    }
    let has_place = t.wrapping_sub(record.oldest) < SPAN;
    let own = if has_place { Place::waiting(party as u32) } else { Place::of(State::Link) };
    let [empty, link] = [State::Empty, State::Link].map(Place::of);
    let [cancelled, refused] = [State::Cancelled, State::Refused].map(Place::of);
    *record.place_mut(t) = match phase {
        Phase::Numbered => random.pick(&[empty, link]),
        Phase::Handing => random.pick(&[empty, cancelled, refused]),
        _ => random.pick(&[own, own, link]),
    };
}

/// Frees parties and empties places until all of them fit, but for those that are kept; then
/// deals the radios.
fn mend(random: &mut Random, record: &mut Record, parties: &[usize], numbers: &[u32]) {
    let kept = |at: usize| numbers.iter().any(|&number| number as usize % PLACES == at);
    loop {
        let before = record.clone();
        for party in 0..PARTIES {
            if !parties.contains(&party) && !Judgement::party_fits(record, party) {
                record.phases[party] = Party::FREE;
            }
        }
        for at in 0..PLACES {
            if !kept(at) && !Judgement::place_fits(record, at) {
                record.places[at] = Place::EMPTY;
            }
        }
        if *record == before && !clear_some(random, record, parties, kept) {
            return deal(random, record);
        }
    }
}

/// On a hub with radios: frees parties and empties places, any but those that are kept, until
/// there are no more with a radio than radios. Whether it did anything; if it could not do
/// enough, there are more radios.
fn clear_some(
    random: &mut Random,
    record: &mut Record,
    parties: &[usize],
    kept: impl Fn(usize) -> bool,
) -> bool {
    record.store.clear();
    let mut keepers = record.keepers();
    let surplus = keepers.len().saturating_sub(record.radios());
    if !record.has_radios || surplus == 0 {
        return false;
    }
    let all = keepers.len();
    keepers.retain(|keeper| match *keeper {
        Keeper::Party(party) => !parties.contains(&party),
        Keeper::Place(at) => !kept(at),
        Keeper::Store(_) => false,
    });
    shuffle(random, &mut keepers);
    keepers.truncate(surplus);
    for &keeper in &keepers {
        match keeper {
            Keeper::Party(party) => record.phases[party] = Party::FREE,
            Keeper::Place(at) => record.places[at] = Place::EMPTY,
            Keeper::Store(_) => {}
        }
    }
    if keepers.len() < surplus {
        record.links = (all - keepers.len()) as u8;
    }
    !keepers.is_empty()
}

fn shuffle<T>(random: &mut Random, list: &mut [T]) {
    for last in (1..list.len()).rev() {
        list.swap(last, random.below(last as u64 + 1) as usize);
    }
}

/// On a hub with radios: an opening's, dealt to whoever has one; the rest are stored. Where there
/// are too few, some have any.
fn deal(random: &mut Random, record: &mut Record) {
    record.clear_radios();
    if !record.has_radios {
        return;
    }
    let count = record.radios();
    record.opening.copy_from_slice(&radios(random, RADIOS as u8));
    let mut dealt = record.opening[..count].to_vec();
    shuffle(random, &mut dealt);
    for past in &mut record.opening[count..] {
        // those past K count for nothing
        let any = random.byte();
        let alike = dealt.first().copied().unwrap_or(any);
        *past = random.pick(&[*past, any, alike]);
    }
    record.store.clear();
    for keeper in record.keepers() {
        *record.radio_mut(keeper) = dealt.pop().unwrap_or_else(|| random.byte());
    }
    record.store = dealt;
}

/// One to three fields altered.
fn damaged(random: &mut Random, record: &Record) -> Record {
    let mut record = record.clone();
    for _ in 0..1 + random.below(3) {
        damage(random, &mut record);
    }
    if random.one_in(2) {
        // or else the radios alone would decide
        deal(random, &mut record);
    }
    record
}

fn damage(random: &mut Random, record: &mut Record) {
    let party = random.below(32) as usize;
    let at = random.below(256) as usize;
    match random.below(if record.has_radios { 21 } else { 16 }) {
        0 => record.links = damaged_byte(random, record.links),
        1 => record.parties = damaged_byte(random, record.parties),
        2 => record.counter = damaged_figure(random, record, record.counter as u32) as i32,
        3 => record.numbered = damaged_figure(random, record, record.numbered),
        4 => record.handed = damaged_figure(random, record, record.handed),
        5 => record.begun = damaged_figure(random, record, record.begun),
        6 => record.oldest = damaged_figure(random, record, record.oldest),
        7 | 8 => record.phases[party].phase = random.pick(&PHASES),
        9 => record.phases[party] = random.pick(&record.phases),
        10 => {
            let number = record.phases[party].number;
            record.phases[party].number = damaged_figure(random, record, number);
        }
        11 => {
            let state = random.pick(&STATES);
            record.places[at] = Place { state, party: party as u32 };
        }
        12 if random.one_in(2) => record.places[at] = random.pick(&record.places),
        // no damage: a mark more, or a mark less
        12 => record.phases.iter_mut().for_each(|party| party.marked ^= random.one_in(2)),
        13 => record.has_radios = !record.has_radios,
        15 => record.kinds[party] = damaged_kind(random),
        16 => record.opening[party] = damaged_radio(random, record),
        17 | 18 => {
            let keepers = record.keepers();
            if !keepers.is_empty() {
                *record.radio_mut(random.pick(&keepers)) = damaged_radio(random, record);
            }
        }
        19 if random.one_in(2) => drop(record.store.pop()),
        19 if record.store.len() < RADIOS => record.store.push(damaged_radio(random, record)),
        // in other hands, which is no damage
        20 => {
            let keepers = record.keepers();
            if !keepers.is_empty() {
                let [a, b] = [0; 2].map(|_| random.pick(&keepers));
                let [at_a, at_b] = [a, b].map(|keeper| record.radio(keeper));
                (*record.radio_mut(a), *record.radio_mut(b)) = (at_b, at_a);
            }
        }
        // where something is more often the case
        _ => {
            let number = random.pick(&[record.oldest, record.handed, record.numbered]);
            let place = record.place_mut(number.wrapping_sub(random.below(3) as u32));
            place.state = random.pick(&STATES);
            place.party = damaged_byte(random, party as u8).into();
        }
    }
    tidy_fields(record);
}

/// A party that no place carries and a number that no phase has are 0, and no phase has a mark
/// that takes none.
fn tidy_fields(record: &mut Record) {
    for place in record.places.iter_mut().filter(|place| place.state != State::Waiting) {
        place.party = 0;
    }
    for party in record.phases.iter_mut().filter(|party| !party.phase.has_number()) {
        party.number = 0;
    }
    for party in record.phases.iter_mut() {
        party.marked &= party.phase.takes_mark();
    }
    record.clear_radios();
}

/// Any radio, often one of the opening's.
fn damaged_radio(random: &mut Random, record: &Record) -> u8 {
    let any = random.byte();
    let known = random.pick(&record.opening);
    let near = known ^ (1 << random.below(8));
    random.pick(&[any, 0, known, known, near])
}

/// Any kind, often one that there is.
fn damaged_kind(random: &mut Random) -> u8 {
    let any = random.byte();
    random.pick(&[0, 1, 2, 3, 4, 255, any])
}

fn damaged_byte(random: &mut Random, byte: u8) -> u8 {
    let any = random.byte();
    random.pick(&[0, 1, 31, 32, 33, byte.wrapping_add(1), byte.wrapping_sub(1), any])
}

fn damaged_figure(random: &mut Random, record: &Record, figure: u32) -> u32 {
    let near = [figure, record.oldest, record.numbered, record.handed, 0, 32, MOST, 1 << 31];
    let from = random.pick(&near);
    let by = random.pick(&[0, 1, 2, 32, 255, 256, 257, 1 << 16, 1 << 24]);
    if random.one_in(2) {
        from.wrapping_add(by)
    } else {
        from.wrapping_sub(by)
    }
}

/// Anything near the bounds, whether it fits or not.
fn near_bounds(random: &mut Random) -> Record {
    let mut record = if random.one_in(2) { bare(random) } else { roomy(random) };
    for _ in 0..random.below(3) {
        damage(random, &mut record);
    }
    let places = random.pick(&[2, 20, 200]);
    for _ in 0..random.below(places) {
        let party = damaged_byte(random, 5).into();
        let number = record.oldest.wrapping_add(random.below(260) as u32);
        *record.place_mut(number) = Place { state: random.pick(&STATES), party };
    }
    for _ in 0..random.below(5) {
        let party = random.below(32) as usize;
        let number = damaged_figure(random, &record, record.oldest);
        let phase = random.pick(&PHASES);
        record.phases[party] = somebody(random, phase, number);
    }
    tidy_fields(&mut record);
    if !random.one_in(4) {
        deal(random, &mut record);
    }
    record
}

/// Each clause broken alone, one step outside of its bound, and just met.
fn one_clause(random: &mut Random) -> Vec<Record> {
    let mut records = Vec::new();
    figures_alone(random, &mut records);
    free_alone(random, &mut records);
    numbers_alone(random, &mut records);
    acted_on_alone(random, &mut records);
    waiters_alone(random, &mut records);
    waiter_numbers_alone(random, &mut records);
    waiter_parties_alone(random, &mut records);
    taking_alone(random, &mut records);
    radio_phases_alone(random, &mut records);
    alike_alone(random, &mut records);
    kept_alone(random, &mut records);
    kinds_alone(random, &mut records);
    records
}

fn figures_alone(random: &mut Random, records: &mut Vec<Record>) {
    // what is set, with an oldest that has room on either side; the rest is filled to suit it
    let alter: [fn(&mut Record, u32); 26] = [
        |r, _| r.links = 0,
        |r, _| r.links = 1,
        |r, _| r.links = 32,
        |r, _| r.links = 33,
        |r, _| r.parties = 0,
        |r, _| r.parties = 1,
        |r, _| r.parties = 32,
        |r, _| r.parties = 33,
        |r, _| r.counter = -33,
        |r, _| r.counter = -32,
        |r, _| r.counter = 32,
        |r, _| r.counter = 33,
        |r, _| r.begun = MOST,
        |r, _| r.begun = MOST + 1,
        |r, o| (r.oldest, r.numbered, r.handed) = (o, o - 1, o + 20),
        |r, o| (r.oldest, r.numbered, r.handed) = (o, o, o + 20),
        |r, o| (r.oldest, r.numbered, r.handed) = (o, o + 256, o + 20),
        |r, o| (r.oldest, r.numbered, r.handed) = (o, o + 257, o + 20),
        |r, o| (r.oldest, r.numbered, r.handed) = (o, o + 20, o - 1),
        |r, o| (r.oldest, r.numbered, r.handed) = (o, o + 20, o),
        |r, o| (r.oldest, r.numbered, r.handed) = (o, o + 20, o + 256),
        |r, o| (r.oldest, r.numbered, r.handed) = (o, o + 20, o + 257),
        |r, o| (r.oldest, r.numbered, r.handed) = (MOST - o % 99, MOST, MOST),
        |r, o| (r.oldest, r.numbered, r.handed) = (MOST - o % 99, MOST + 1, MOST),
        |r, o| (r.oldest, r.numbered, r.handed) = (MOST - o % 99, MOST, MOST + 1),
        |r, o| (r.oldest, r.numbered, r.handed) = (MOST - o % 9, MOST - o % 9, MOST),
    ];
    for alter in alter {
        let mut record = bare(random);
        let oldest = 1 + random.below(990_000) as u32;
        alter(&mut record, oldest);
        fill(random, &mut record);
        records.push(record);
    }
}

fn free_alone(random: &mut Random, records: &mut Vec<Record>) {
    for phase in &PHASES[1..] {
        let n = 1 + random.below(31) as u8;
        // party n, the last party, and party n - 1
        for party in [n, 31, n - 1].map(usize::from) {
            let mut record = roomy(random);
            record.parties = n;
            fill(random, &mut record);
            let t = given(random, &record, *phase);
            settle(random, &mut record, party, *phase, t);
            mend(random, &mut record, &[party], &[t]);
            records.push(record);
        }
    }
}

/// A party below n, often the first or the last.
fn party_of(random: &mut Random, record: &Record) -> usize {
    let n = usize::from(record.parties);
    let any = random.below(n as u64) as usize;
    random.pick(&[0, n - 1, any])
}

/// Sets where the numbers of a phase end.
fn set_next(record: &mut Record, phase: Phase, next: u32) {
    match phase {
        Phase::Handing | Phase::Carrying => record.handed = next,
        _ => record.numbered = next,
    }
}

fn numbers_alone(random: &mut Random, records: &mut Vec<Record>) {
    for phase in PHASES.into_iter().filter(|phase| phase.has_number()) {
        for side in 0..5 {
            let mut record = roomy(random);
            let end = next(&record, phase);
            let t = match side {
                0 => record.oldest - 1,
                1 => record.oldest,
                2 => end - 1,
                3 => end,
                _ => {
                    let end = record.oldest + SPAN;
                    set_next(&mut record, phase, end);
                    end - 1
                }
            };
            fill(random, &mut record);
            let party = party_of(random, &record);
            settle(random, &mut record, party, phase, t);
            mend(random, &mut record, &[party], &[t]);
            records.push(record);
        }
    }
}

fn acted_on_alone(random: &mut Random, records: &mut Vec<Record>) {
    for phase in [Phase::Numbered, Phase::Handing, Phase::Cancelling, Phase::Refusing] {
        for state in STATES {
            let mut record = roomy(random);
            record.parties = record.parties.max(2);
            fill(random, &mut record);
            let party = party_of(random, &record);
            let waiter = (party + 1) % usize::from(record.parties);
            let t = shared(random, &record);
            record.phases[party] = somebody(random, phase, t);
            *record.place_mut(t) = Place::of(state);
            if state == State::Waiting {
                record.phases[waiter] = Party::at(Phase::Waiting, t);
                *record.place_mut(t) = Place::waiting(waiter as u32);
            }
            mend(random, &mut record, &[party], &[t]);
            records.push(record);
        }
    }
}

/// A number that is given out and handed over.
fn shared(random: &mut Random, record: &Record) -> u32 {
    let end = record.numbered.min(record.handed);
    let any = record.oldest + random.below((end - record.oldest).into()) as u32;
    random.pick(&[record.oldest, end - 1, any])
}

/// A waiting place whose party is in each phase; then, past the numbers given out, of anybody.
fn waiters_alone(random: &mut Random, records: &mut Vec<Record>) {
    for phase in PHASES {
        let mut record = roomy(random);
        fill(random, &mut record);
        let party = party_of(random, &record);
        let t = shared(random, &record);
        // nobody can be numbered t where a place is waiting
        let own = match phase {
            Phase::Numbered if t == record.oldest => t + 1,
            Phase::Numbered => t - 1,
            _ => t,
        };
        record.phases[party] = Party::at(phase, if phase.has_number() { own } else { 0 });
        record.has_radios |= phase.needs_radios();
        *record.place_mut(own) = Place::EMPTY;
        *record.place_mut(t) = Place::waiting(party as u32);
        mend(random, &mut record, &[party], &[t, own]);
        records.push(record);
    }
    for last in [false, true] {
        let mut record = roomy(random);
        fill(random, &mut record);
        let t = if last { record.oldest + SPAN - 1 } else { record.numbered };
        let party = random.below(32) as u32;
        *record.place_mut(t) = Place::waiting(party);
        mend(random, &mut record, &[], &[t]);
        records.push(record);
    }
}

/// A waiting place whose party has the number before or after.
fn waiter_numbers_alone(random: &mut Random, records: &mut Vec<Record>) {
    for phase in [Phase::Waiting, Phase::GivingUp, Phase::Cancelling, Phase::Refusing] {
        for less in [false, true] {
            let mut record = roomy(random);
            fill(random, &mut record);
            let party = party_of(random, &record);
            let first =
                record.oldest + random.below((record.numbered - record.oldest - 1).into()) as u32;
            let (own, t) = if less { (first, first + 1) } else { (first + 1, first) };
            record.phases[party] = Party::at(phase, own);
            *record.place_mut(own) = Place::of(State::Link);
            *record.place_mut(t) = Place::waiting(party as u32);
            mend(random, &mut record, &[party], &[t, own]);
            records.push(record);
        }
    }
}

/// A waiting place whose party is right, or would be if a part of its byte were lost.
fn waiter_parties_alone(random: &mut Random, records: &mut Vec<Record>) {
    let any = [0, 32, 64, 128, 224];
    let some = [(Some(31), 0), (Some(0), 32), (Some(31), 224)];
    for (party, more) in some.into_iter().chain(any.map(|more| (None, more))) {
        let mut record = roomy(random);
        if party == Some(31) {
            record.parties = 32;
        }
        fill(random, &mut record);
        let party = party.unwrap_or_else(|| party_of(random, &record));
        let t = given(random, &record, Phase::Waiting);
        record.phases[party] = Party::at(Phase::Waiting, t);
        *record.place_mut(t) = Place::waiting(party as u32 + more);
        mend(random, &mut record, &[party], &[t]);
        records.push(record);
    }
    // party n, which is free; and one that there is not
    for more in [0, 32] {
        let mut record = roomy(random);
        record.parties = 1 + random.below(31) as u8;
        fill(random, &mut record);
        let t = record.oldest + random.below(256) as u32;
        *record.place_mut(t) = Place::waiting(u32::from(record.parties) + more);
        mend(random, &mut record, &[], &[t]);
        records.push(record);
    }
}

fn taking_alone(random: &mut Random, records: &mut Vec<Record>) {
    for phase in [Phase::Unnumbered, Phase::Carrying] {
        for ahead in [SPAN - 1, SPAN] {
            let mut record = roomy(random);
            let end = record.oldest + ahead;
            set_next(&mut record, phase, end);
            fill(random, &mut record);
            let party = party_of(random, &record);
            record.phases[party] = somebody(random, phase, 0);
            mend(random, &mut record, &[party], &[]);
            records.push(record);
        }
    }
}

/// One that fetches or puts back, on a hub with radios and on one without.
fn radio_phases_alone(random: &mut Random, records: &mut Vec<Record>) {
    for phase in [Phase::Fetching, Phase::PuttingBack] {
        for has_radios in [false, true] {
            let mut record = roomy(random);
            record.has_radios = has_radios;
            fill(random, &mut record);
            let party = party_of(random, &record);
            record.phases[party] = Party::at(phase, 0);
            mend(random, &mut record, &[party], &[]);
            records.push(record);
        }
    }
}

/// A record that fits, of a hub with so many radios.
fn with_radios(random: &mut Random, links: u8) -> Record {
    let mut record = roomy(random);
    record.has_radios = true;
    record.links = links;
    fill(random, &mut record);
    record
}

/// An opening with two radios alike, and both of them are there.
fn alike_alone(random: &mut Random, records: &mut Vec<Record>) {
    let any = 3 + random.below(29) as u8;
    for links in [2, 3, any, 32] {
        let last = usize::from(links) - 1;
        for (a, b) in [(0, 1), (last - 1, last), (0, last)] {
            let mut record = with_radios(random, links);
            let (stays, goes) = (record.opening[a], record.opening[b]);
            for keeper in record.keepers() {
                if record.radio(keeper) == goes {
                    *record.radio_mut(keeper) = stays;
                }
            }
            record.opening[b] = stays;
            records.push(record);
        }
    }
}

/// A radio that is foreign or there already, for another or as one too many, or none, with each
/// that has one and in each place.
fn kept_alone(random: &mut Random, records: &mut Vec<Record>) {
    for kind in 0..13 {
        for fault in 0..6 {
            let (mut record, keeper) = kept(random, kind);
            let own = record.radio(keeper);
            let k = record.radios();
            let foreign = foreign(random, &record);
            match fault {
                0 => *record.radio_mut(keeper) = foreign,
                1 => *record.radio_mut(keeper) = another(random, &record, own),
                // the opening has one less
                2 | 3 => {
                    let at = record.opening[..k].iter().position(|&radio| radio == own);
                    let at = at.expect("it was dealt");
                    record.opening.copy_within(at + 1..k, at);
                    record.links -= 1;
                    if fault == 3 {
                        *record.radio_mut(keeper) = another(random, &record, own);
                    }
                }
                // or one more
                4 if k < RADIOS => {
                    record.opening[k] = foreign;
                    record.links += 1;
                }
                _ => {}
            }
            records.push(record);
        }
    }
    // of one radio, and of 32
    for links in [1, 32] {
        let mut record = with_radios(random, links);
        while record.store.is_empty() {
            record = with_radios(random, links);
        }
        record.store.pop();
        records.push(record);
    }
}

/// A record that fits, of a hub with two radios or more, and one that has a radio: in each phase,
/// at a place, in the store; the first of them, the last of them.
fn kept(random: &mut Random, kind: usize) -> (Record, Keeper) {
    const PHASES: [Phase; 5] =
        [Phase::Holding, Phase::GivingBack, Phase::PuttingBack, Phase::Carrying, Phase::Handing];
    let links = 2 + random.below(30) as u8;
    let mut record = with_radios(random, links);
    if kind >= 10 {
        // stored: any, the first, the 32nd
        while record.store.is_empty() {
            record = with_radios(random, links);
        }
        if kind == 12 {
            record = roomy(random);
            (record.has_radios, record.links) = (true, 32);
            deal(random, &mut record);
        }
        let any = random.below(record.store.len() as u64) as usize;
        return (record, Keeper::Store([any, 0, 31][kind - 10]));
    }
    if kind >= 7 {
        let at = [random.below(256) as usize, 0, 255][kind - 7];
        record.places[at] = Place::of(State::Link);
        mend(random, &mut record, &[], &[at as u32]);
        return (record, Keeper::Place(at));
    }
    let phase = PHASES[kind % 5];
    let party = match kind {
        5 => 0,
        6 => 31,
        _ => party_of(random, &record),
    };
    if party == 31 {
        record.parties = 32;
    }
    let t = given(random, &record, phase);
    settle(random, &mut record, party, phase, t);
    mend(random, &mut record, &[party], &[]);
    (record, Keeper::Party(party))
}

/// Gives a party a kind. If nobody is a desk any more, another one is.
fn set_kind(record: &mut Record, party: usize, kind: u8) {
    record.kinds[party] = kind;
    if !record.kinds.contains(&0) {
        record.kinds[(party + 1) % PARTIES] = 0;
    }
}

/// A kind as high as it may be or higher; no desk, and one alone.
fn kinds_alone(random: &mut Random, records: &mut Vec<Record>) {
    let n = 1 + random.below(31) as usize;
    let filled = |random: &mut Random| {
        let mut record = roomy(random);
        record.parties = n as u8;
        fill(random, &mut record);
        record
    };
    for party in [0, n - 1, n, 31] {
        for kind in [3, 4, 255] {
            let mut record = filled(random);
            set_kind(&mut record, party, kind);
            records.push(record);
        }
    }
    let [below, from] = [random.below(n as u64), n as u64 + random.below(32 - n as u64)];
    for desk in [None, Some(0), Some(below as usize), Some(from as usize)] {
        for kind in [Some(1), Some(3), None] {
            let mut record = filled(random);
            record.kinds.fill_with(|| kind.unwrap_or_else(|| 1 + random.below(3) as u8));
            if let Some(party) = desk {
                record.kinds[party] = 0;
            }
            records.push(record);
        }
    }
}

/// A radio that is none of the opening's: at times one of those past K.
fn foreign(random: &mut Random, record: &Record) -> u8 {
    let opening = &record.opening[..record.radios()];
    loop {
        let radio = damaged_radio(random, record);
        if !opening.contains(&radio) {
            return radio;
        }
    }
}

/// A radio of the opening that is not this one.
fn another(random: &mut Random, record: &Record, own: u8) -> u8 {
    loop {
        let radio = random.pick(&record.opening[..record.radios()]);
        if radio != own {
            return radio;
        }
    }
}

/// A record that fits, with done places from *oldest* on and cancelled ones from *handed* on.
fn untidy(random: &mut Random) -> Record {
    let mut record = if random.one_in(2) { bare(random) } else { roomy(random) };
    let few = random.below(5) as u32;
    if random.one_in(2) {
        // the tidying of the one runs into the other
        record.handed = (record.oldest + few).min(MOST);
    }
    fill(random, &mut record);
    let [done, cancelled] = [State::Done, State::Cancelled];
    let (oldest, handed, end) = (record.oldest, record.handed, record.oldest + SPAN);
    let many = random.below(257) as u32;
    match random.below(7) {
        0 => lay(&mut record, oldest, 1 + few, done),
        1 => lay(&mut record, oldest, many, done),
        2 => lay(&mut record, handed, 1 + few, cancelled),
        3 => lay(&mut record, handed, end - handed, cancelled),
        4 => lay(&mut record, oldest, SPAN, random.pick(&[done, cancelled])),
        5 => {
            lay(&mut record, oldest, handed - oldest, done);
            lay(&mut record, handed, many.min(end - handed), cancelled);
            lay(&mut record, handed + many.min(end - handed), few, done);
        }
        _ => {
            lay(&mut record, oldest, 1 + few, done);
            lay(&mut record, handed, 1 + few, cancelled);
        }
    }
    mend(random, &mut record, &[], &[]);
    record
}

fn lay(record: &mut Record, from: u32, count: u32, state: State) {
    for number in from..from + count {
        *record.place_mut(number) = Place::of(state);
    }
}

/// A record that fits, and a call that leaves it unfit.
fn to_unfit(random: &mut Random) -> Case {
    let mut record = if random.one_in(2) { bare(random) } else { roomy(random) };
    let near = MOST - random.below(255) as u32;
    let kind = random.below(9);
    match kind {
        0 | 1 => record.counter = 32,
        2 => record.counter = -32,
        3 => (record.oldest, record.numbered, record.handed) = (near, MOST, near),
        4 | 5 => (record.oldest, record.numbered, record.handed) = (near, near, MOST),
        _ => record = roomy(random),
    }
    fill(random, &mut record);
    let party = party_of(random, &record);
    let phase = match kind {
        0 => Phase::GivingBack,
        1 => Phase::GivingUp,
        2 => Phase::Asked,
        3 => Phase::Unnumbered,
        4 => Phase::Carrying,
        7 => Phase::Waiting,
        8 => random.pick(&[Phase::Asked, Phase::Unnumbered, Phase::Numbered]),
        _ => Phase::Holding,
    };
    let oldest = record.oldest;
    let t = if kind == 7 { oldest } else { given(random, &record, phase) };
    settle(random, &mut record, party, phase, t);
    match kind {
        5 => lay(&mut record, MOST, 1, State::Cancelled),
        // past numbered, past handed, or past both
        6 | 8 => lay(&mut record, oldest, 1 + random.below(256) as u32, State::Done),
        7 => lay(&mut record, oldest, 1, State::Done),
        _ => {}
    }
    mend(random, &mut record, &[], &[]);
    let usual = usual(record.phases[party].phase);
    let code = if kind == 8 { GIVE_UP } else { usual };
    Case::new(Family::ToUnfit, &record, [code, party as u8])
}

/// A record that fits, and a party that is not yet waiting: in each phase, any and one of kind 3,
/// marked and not, gives up or makes its step.
fn early(random: &mut Random, cases: &mut Vec<Case>) {
    for phase in PHASES.into_iter().filter(|phase| phase.takes_mark()) {
        for (at, code) in [GIVE_UP, STEP, GIVE_UP, STEP].into_iter().enumerate() {
            for marked in [false, true] {
                let mut record = if random.one_in(2) { untidy(random) } else { fitting(random) };
                let party = party_of(random, &record);
                if at < 2 {
                    set_kind(&mut record, party, 3);
                }
                let t = given(random, &record, phase);
                settle(random, &mut record, party, phase, t);
                record.phases[party].marked = marked;
                mend(random, &mut record, &[], &[]);
                cases.push(Case::new(Family::Early, &record, [code, party as u8]));
            }
        }
    }
}

/// A record that fits, and a party of each kind that waits, or is not yet waiting, and gives up.
fn by_kind(random: &mut Random, party: usize, cases: &mut Vec<Case>) {
    let early = random.pick(&[Phase::Asked, Phase::Unnumbered, Phase::Numbered]);
    for phase in [Phase::Waiting, early] {
        for kind in 0..4 {
            let mut record = roomy(random);
            record.parties = record.parties.max(party as u8 + 1);
            set_kind(&mut record, party, kind);
            fill(random, &mut record);
            let t = given(random, &record, phase);
            settle(random, &mut record, party, phase, t);
            record.phases[party].marked = false;
            mend(random, &mut record, &[party], &[]);
            cases.push(Case::new(Family::OwnKinds, &record, [GIVE_UP, party as u8]));
        }
    }
}

/// Bytes that name no state, phase or call, and numbers that nothing has; or bytes of any kind.
fn odd_bytes(random: &mut Random) -> Case {
    let record = if random.one_in(2) { fitting(random) } else { near_bounds(random) };
    let call = call_for(random, &record);
    let mut case = Case::new(Family::OddBytes, &record, call);
    if random.one_in(4) {
        let from = random.pick(&[0, 0, 22]);
        case.bytes[from..].iter_mut().for_each(|byte| *byte = random.byte());
        // a place has a byte for its party
        for cell in case.bytes[22..22 + 5 * PLACES].chunks_mut(5).filter(|cell| cell[0] % 6 == 1) {
            cell[1..4].fill(0);
        }
        return case;
    }
    let (record, call) = case.bytes.split_at_mut(RECORD);
    record[RADIOS_AT] += 2 * random.below(127) as u8;
    record[STORED_AT] += 33 * random.below(6) as u8;
    let marks = record[MARKS_AT..KINDS_AT].iter_mut();
    marks.for_each(|mark| *mark += 2 * random.below(127) as u8);
    for (at, cell) in record[22..RADIOS_AT].chunks_mut(5).enumerate() {
        let (count, carries): (u8, &[u8]) =
            if at < PLACES { (6, &[1]) } else { (14, &[2, 5, 6, 7, 8, 11]) };
        if !carries.contains(&cell[0]) {
            cell[1..].iter_mut().for_each(|byte| *byte = random.byte());
        }
        cell[0] += count * random.below((256 / u64::from(count)) - 1) as u8;
    }
    call[0] = call[0] % 5 + 5 * random.below(51) as u8;
    case
}

/// The store turned; and, in every other case, radios and marks where they count for nothing.
fn litter(random: &mut Random, bytes: &mut [u8]) {
    let record = Record::read(bytes);
    if random.one_in(2) {
        for party in (0..PARTIES).filter(|&party| !record.phases[party].phase.takes_mark()) {
            bytes[MARKS_AT + party] = random.byte();
        }
    }
    if record.has_radios {
        bytes[TURNED_AT] = random.byte();
    }
    if random.one_in(2) {
        return;
    }
    let opening = random.one_in(2) && record.has_radios;
    let mut any = |byte: &mut u8| {
        *byte = if opening { random.pick(&record.opening) } else { random.byte() };
    };
    if !record.has_radios {
        bytes[OPENING_AT..MARKS_AT].iter_mut().for_each(any);
        return;
    }
    for party in (0..PARTIES).filter(|&party| !record.phases[party].phase.has_radio()) {
        any(&mut bytes[WITH_PARTY_AT + party]);
    }
    for at in (0..PLACES).filter(|&at| record.places[at].state != State::Link) {
        any(&mut bytes[AT_PLACE_AT + at]);
    }
    bytes[STORE_AT + record.store.len()..MARKS_AT].iter_mut().for_each(any);
}

/// The few cases of crates/probe/stdin.
pub fn sample() -> Vec<u8> {
    let mut bytes = Vec::new();
    let mut add = |record: &Record, call: [u8; 2]| {
        bytes.extend(record.bytes());
        bytes.extend(call);
    };
    let opened = Record::opened(1, 3);
    add(&opened, [ASK, 0]);
    add(&opened, [ASK, 3]);
    // the counter goes from 32 to 33; the next call is refused
    let mut full = Record::opened(32, 3);
    full.phases[2] = Party::at(Phase::GivingBack, 0);
    add(&full, [STEP, 2]);
    full.counter = 33;
    add(&full, [STEP, 2]);
    // number 1,000,000 is given out
    let mut last = Record::opened(2, 32);
    (last.oldest, last.numbered, last.handed) = (MOST - 1, MOST, MOST - 1);
    last.phases[31] = Party::at(Phase::Unnumbered, 0);
    last.counter = -1;
    add(&last, [STEP, 31]);
    // a waiter is woken, with places done from oldest on and cancelled ones from handed on
    let mut untidy = Record::opened(2, 8);
    (untidy.oldest, untidy.numbered, untidy.handed) = (1000, 1010, 1004);
    lay(&mut untidy, 1000, 3, State::Done);
    lay(&mut untidy, 1004, 2, State::Cancelled);
    untidy.phases[1] = Party::at(Phase::Handing, 1003);
    untidy.phases[7] = Party::at(Phase::Waiting, 1003);
    *untidy.place_mut(1003) = Place::waiting(7);
    untidy.counter = -3;
    add(&untidy, [STEP, 1]);
    // the same, but for a waiter that is not 7
    *untidy.place_mut(1003) = Place::waiting(7 + 128);
    add(&untidy, [STEP, 1]);
    // all places are empty and party 0 holds, and it gives back; radios that count for nothing
    let odd = bytes.len();
    bytes.extend(opened.bytes());
    bytes.extend([0xFE, 0]);
    bytes[odd + 22..odd + 1302].fill(252);
    bytes[odd + 1302] = 253;
    bytes[odd + RADIOS_AT] = 0xFE;
    bytes[odd + OPENING_AT..odd + KINDS_AT].fill(0xA7);
    sample_with_radios(&mut bytes);
    sample_marked(&mut bytes);
    sample_of_kinds(&mut bytes);
    bytes
}

/// Those of a house's own kinds.
fn sample_of_kinds(bytes: &mut Vec<u8>) {
    let mut add = |record: &Record, call: [u8; 2]| {
        bytes.extend(record.bytes());
        bytes.extend(call);
    };
    // a party of each kind that waits, at either end; one of kind 3 that is not yet waiting
    let mut waiting = Record::opened_with(32, &[0, 1, 2, 3]);
    (waiting.numbered, waiting.counter) = (8, -8);
    waiting.kinds = std::array::from_fn(|party| (party % 4) as u8);
    for (number, party) in (0..).zip([0, 1, 2, 3, 28, 29, 30, 31]) {
        waiting.phases[party] = Party::at(Phase::Waiting, number);
        *waiting.place_mut(number) = Place::waiting(party as u32);
    }
    waiting.phases[7] = Party::at(Phase::Asked, 0);
    for party in [0, 1, 2, 3, 28, 29, 30, 31, 7] {
        add(&waiting, [GIVE_UP, party]);
    }
    // the kinds stay when something else changes, and count for nothing else
    add(&waiting, [STEP, 7]);
    add(&waiting, [RADIO, 3]);
    // of kind 3 are all but party 31, which there is not
    let mut opened = Record::opened(1, 3);
    opened.kinds = [3; PARTIES];
    opened.kinds[31] = 0;
    add(&opened, [ASK, 0]);
    // and that was the only desk; then kinds that there are not, of party n, n - 1, 0 and 31
    opened.kinds[31] = 1;
    add(&opened, [ASK, 0]);
    for (party, kind) in [(3, 4), (2, 4), (0, 255), (31, 0x80)] {
        let mut record = Record::opened(1, 3);
        record.kinds[party] = kind;
        add(&record, [ASK, 0]);
    }
}

/// Those of early give-ups.
fn sample_marked(bytes: &mut Vec<u8>) {
    let mut add = |record: &Record, call: [u8; 2]| {
        bytes.extend(record.bytes());
        bytes.extend(call);
    };
    let marked = |phase, number| Party { marked: true, ..Party::at(phase, number) };
    // in each of the three phases and of each kind, not yet marked and marked; a place done at
    // oldest and one cancelled at handed
    let mut early = Record::opened(2, 32);
    (early.oldest, early.numbered, early.handed) = (1000, 1010, 1004);
    lay(&mut early, 1000, 1, State::Done);
    lay(&mut early, 1004, 1, State::Cancelled);
    lay(&mut early, 1006, 1, State::Link);
    early.counter = 0;
    let phases = [(Phase::Asked, 0), (Phase::Unnumbered, 0), (Phase::Numbered, 1005)];
    for (phase, number) in phases {
        for party in [0, 29, 30] {
            let mut record = early.clone();
            record.phases[party] = Party::at(phase, number);
            add(&record, [GIVE_UP, party as u8]);
            record.phases[party].marked = true;
            add(&record, [GIVE_UP, party as u8]);
        }
        // 22, 23 and 24
        let mut record = early.clone();
        record.phases[31] = marked(phase, number);
        add(&record, [STEP, 31]);
    }
    // 25, and 21 with radios and without
    let mut record = early.clone();
    record.phases[5] = marked(Phase::Numbered, 1006);
    add(&record, [STEP, 5]);
    for mut record in [Record::opened(1, 3), Record::opened_with(3, &[0xA7])] {
        record.phases[2] = marked(Phase::Asked, 0);
        add(&record, [STEP, 2]);
        // somebody else's mark stays
        add(&record, [ASK, 1]);
    }
    // a link comes to one that left early
    let mut record = early.clone();
    record.phases[0] = Party::at(Phase::Handing, 1003);
    record.phases[1] = marked(Phase::Numbered, 1003);
    add(&record, [STEP, 0]);
    // marks where there are none, and any odd byte where there are
    let mut odd = early.clone();
    let phases = [3, 4, 5].map(|phase| PHASES[phase]);
    for (party, phase) in PHASES.into_iter().chain(phases).enumerate() {
        odd.phases[party] = Party::at(phase, if phase.has_number() { 1005 } else { 0 });
    }
    let start = bytes.len();
    bytes.extend(odd.bytes());
    bytes.extend([GIVE_UP, 3]);
    for (mark, byte) in bytes[start + MARKS_AT..start + KINDS_AT].iter_mut().zip(1..) {
        *mark = byte * 3;
    }
}

/// Those of a hub with radios. Its store is turned, in most of them so far that it goes over the
/// end of a ring.
fn sample_with_radios(bytes: &mut Vec<u8>) {
    let mut add = |record: &Record, turned: u8, call: [u8; 2]| {
        let start = bytes.len();
        bytes.extend(record.bytes());
        bytes[start + TURNED_AT] = turned;
        bytes.extend(call);
    };
    let opened = Record::opened_with(3, &[0xA7, 0x00, 0xFF]);
    add(&opened, 0, [ASK, 2]);
    add(&opened, 5, [RADIO, 2]);
    add(&opened, 5, [RADIO, 3]);
    // the link is there, and then the first radio
    let mut fetching = opened.clone();
    fetching.phases[1] = Party::at(Phase::Asked, 0);
    add(&fetching, 31, [STEP, 1]);
    fetching.phases[1] = Party::at(Phase::Fetching, 0);
    fetching.counter = 2;
    add(&fetching, 31, [STEP, 1]);
    // everywhere a radio can be; places done from oldest on, a cancelled one at handed
    let mut full = Record::opened_with(10, &[10, 11, 12, 13, 14, 15, 16, 17]);
    (full.oldest, full.numbered, full.handed) = (1000, 1010, 1004);
    lay(&mut full, 1000, 2, State::Done);
    lay(&mut full, 1004, 1, State::Cancelled);
    lay(&mut full, 1002, 1, State::Refused);
    lay(&mut full, 1005, 2, State::Link);
    *full.place_mut(1003) = Place::waiting(6);
    let parties = [
        (Phase::Holding, 0, 14),
        (Phase::GivingBack, 0, 12),
        (Phase::PuttingBack, 0, 10),
        (Phase::Carrying, 0, 16),
        (Phase::Handing, 1002, 17),
        (Phase::Fetching, 0, 0),
        (Phase::Waiting, 1003, 0),
        (Phase::Refusing, 1005, 0),
        (Phase::Cancelling, 1006, 0),
    ];
    for (party, (phase, number, radio)) in parties.into_iter().enumerate() {
        full.phases[party] = Party::at(phase, number);
        full.with_party[party] = radio;
    }
    full.at_place[1005 % PLACES] = 11;
    full.at_place[1006 % PLACES] = 13;
    full.store = vec![15];
    full.counter = 0;
    // 26, 38, 28, 2D, 36, 33 and 31
    for party in [1, 2, 3, 4, 5, 7, 8] {
        add(&full, 255, [STEP, party]);
    }
    // 39 tidies nothing, with each
    for party in 0..10 {
        add(&full, 31, [RADIO, party]);
    }
    // 25, found at a place
    let mut found = full.clone();
    found.phases[8] = Party::at(Phase::Numbered, 1006);
    add(&found, 30, [STEP, 8]);
    // 2A, with the radio; 2B and 29, which leave it
    let mut handing = full.clone();
    handing.phases[4].number = 1003;
    add(&handing, 1, [STEP, 4]);
    handing.phases[6].phase = Phase::GivingUp;
    add(&handing, 1, [STEP, 4]);
    handing.phases[6] = Party::FREE;
    *handing.place_mut(1003) = Place::EMPTY;
    add(&handing, 1, [STEP, 4]);
    // the store is empty: 37, and nothing is tidied
    let mut empty = full.clone();
    empty.links = 7;
    empty.opening = Record::opened_with(1, &[10, 11, 12, 13, 14, 16, 17]).opening;
    empty.store.clear();
    add(&empty, 17, [STEP, 5]);
    // the last one of a full ring
    let mut all = Record::opened_with(2, &(0..32).map(|at| 200 - at).collect::<Vec<u8>>());
    all.store.pop();
    all.phases[0] = Party::at(Phase::PuttingBack, 0);
    all.with_party[0] = 200 - 31;
    add(&all, 1, [STEP, 0]);
    // one missing, one twice, a foreign one, two of the opening alike
    let mut wrong = full.clone();
    wrong.store.clear();
    add(&wrong, 0, [RADIO, 0]);
    wrong.store = vec![15, 15];
    add(&wrong, 31, [RADIO, 0]);
    wrong.store = vec![18];
    add(&wrong, 0, [RADIO, 0]);
    let mut alike = Record::opened_with(3, &[0xA7, 0x00, 0xA7]);
    add(&alike, 0, [ASK, 0]);
    // and no radios, but one that fetches
    alike.has_radios = false;
    alike.clear_radios();
    alike.phases[1] = Party::at(Phase::Fetching, 0);
    add(&alike, 0, [ASK, 0]);
}
