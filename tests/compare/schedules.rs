//! Seeded random schedules, for the comparisons and for the bench.

pub const ASK: u8 = 0x10;
pub const STEP: u8 = 0x11;
pub const GIVE_UP: u8 = 0x12;
pub const GIVE_BACK: u8 = 0x13;
pub const RADIO: u8 = 0x14;

/// A generator of numbers, the same for the same seed (xorshift).
pub struct Random(u64);

impl Random {
    pub fn seeded(seed: u64) -> Self {
        // xorshift must not start at zero
        Random(seed.wrapping_mul(0x9E37_79B9_7F4A_7C15) | 1 << 63)
    }

    pub fn next(&mut self) -> u64 {
        self.0 ^= self.0 << 13;
        self.0 ^= self.0 >> 7;
        self.0 ^= self.0 << 17;
        self.0
    }

    pub fn below(&mut self, n: u64) -> u64 {
        (self.next() >> 11) % n
    }

    pub fn byte(&mut self) -> u8 {
        self.below(256) as u8
    }

    pub fn one_in(&mut self, n: u64) -> bool {
        self.below(n) == 0
    }

    pub fn pick<T: Copy>(&mut self, from: &[T]) -> T {
        from[self.below(from.len() as u64) as usize]
    }
}

/// The kind of each party where an opening gives none.
pub const BUILT_IN: [u8; 32] = {
    let mut kinds = [1; 32];
    let mut desk = 0;
    while desk < 8 {
        kinds[desk] = 0;
        desk += 1;
    }
    (kinds[28], kinds[29], kinds[30], kinds[31]) = (2, 2, 3, 3);
    kinds
};

/// An opening's K and n, its radios, if it is one with radios, and its kinds, if it gives any; and
/// the calls after it, each a code and a party.
#[derive(Default)]
pub struct Schedule {
    pub permits: u8,
    pub parties: u8,
    pub radios: Option<Vec<u8>>,
    pub kinds: Option<Vec<u8>>,
    pub calls: Vec<[u8; 2]>,
}

type Number = usize;

#[derive(Clone, Copy, PartialEq)]
enum Phase {
    Free,
    Holding,
    Waiting(Number),
    Asked,
    Unnumbered,
    Numbered(Number),
    GivingUp(Number),
    Cancelling(Number),
    Refusing(Number),
    GivingBack,
    Carrying,
    Handing(Number),
    Fetching,
    PuttingBack,
}

/// Whether a give-up in this phase is an early one.
fn is_early(phase: Phase) -> bool {
    matches!(phase, Phase::Asked | Phase::Unnumbered | Phase::Numbered(_))
}

#[derive(Clone, Copy, PartialEq)]
enum Place {
    Empty,
    Waiting(usize),
    Link,
    Cancelled,
    Refused,
    Done,
}

/// How parties behave: the eagerness, of 8, to ask, to give up and to give back.
pub struct Habits {
    pub ask: u64,
    pub give_up: u64,
    pub give_back: u64,
    /// Parties that act seldom, one bit each: numbers pile up behind them.
    pub asleep: u32,
    /// One call in so many is any call by any party.
    pub stray: u64,
}

impl Habits {
    fn any(random: &mut Random) -> Self {
        let few = (random.next() & random.next() & random.next() & random.next()) as u32;
        Habits {
            ask: 1 + random.below(8),
            give_up: random.below(9),
            give_back: random.below(9),
            asleep: random.pick(&[0, 0, few]),
            stray: random.pick(&[5, 30, 200]),
        }
    }
}

/// A sketch of the hub, to choose calls that make sense. Nothing is judged by it: where it is
/// wrong, more calls are refused.
pub struct House {
    phases: Vec<Phase>,
    /// Who gave up early.
    marked: Vec<bool>,
    counter: i64,
    places: Vec<Place>,
    numbered: Number,
    handed: Number,
    oldest: Number,
    /// How many radios are stored, on a hub with radios.
    stored: Option<usize>,
    kinds: [u8; 32],
}

impl House {
    /// The hub that a schedule's opening makes; for one that is refused, one near it.
    pub fn of(schedule: &Schedule) -> Self {
        let stored = schedule.radios.as_ref().map(|_| usize::from(schedule.permits));
        let kinds = schedule.kinds();
        House { stored, kinds, ..House::new(schedule.permits, schedule.parties.clamp(1, 32)) }
    }

    pub fn new(permits: u8, parties: u8) -> Self {
        House {
            phases: vec![Phase::Free; usize::from(parties)],
            marked: vec![false; usize::from(parties)],
            counter: i64::from(permits),
            places: vec![Place::Empty],
            numbered: 0,
            handed: 0,
            oldest: 0,
            stored: None,
            kinds: BUILT_IN,
        }
    }

    /// The next call.
    pub fn call(&mut self, random: &mut Random, habits: &Habits) -> [u8; 2] {
        let call = if random.one_in(habits.stray) {
            self.any_call(random)
        } else {
            self.sensible_call(random, habits)
        };
        if usize::from(call[1]) < self.phases.len() {
            self.follow(call[0], usize::from(call[1]));
        }
        call
    }

    fn any_call(&self, random: &mut Random) -> [u8; 2] {
        let parties = self.phases.len() as u64;
        let party = match random.below(12) {
            0 => random.byte(),
            1 => parties as u8,
            _ => random.below(parties) as u8,
        };
        [random.pick(&[ASK, STEP, GIVE_UP, GIVE_BACK, RADIO]), party]
    }

    fn sensible_call(&self, random: &mut Random, habits: &Habits) -> [u8; 2] {
        if self.stored.is_some() && random.one_in(10) {
            return [RADIO, random.below(self.phases.len() as u64) as u8];
        }
        for _ in 0..8 {
            let party = random.below(self.phases.len() as u64) as usize;
            if habits.asleep >> party & 1 == 1 && !random.one_in(500) {
                continue;
            }
            let (code, eager) = match self.phases[party] {
                Phase::Free => (ASK, habits.ask),
                Phase::Waiting(_) => (GIVE_UP, habits.give_up),
                Phase::Holding => (GIVE_BACK, habits.give_back),
                phase if is_early(phase) && self.gives_up_early(random, habits, party) => {
                    (GIVE_UP, 8)
                }
                _ => (STEP, 8),
            };
            if random.below(8) < eager {
                return [code, party as u8];
            }
        }
        // nobody seems to want anything
        self.any_call(random)
    }

    /// Whoever likes to give up does so early too, and some a second time. Those of kind 3 are
    /// few, and lose nothing by trying.
    fn gives_up_early(&self, random: &mut Random, habits: &Habits, party: usize) -> bool {
        let odds = match self.marked[party] {
            _ if self.kinds[party] == 3 => 12,
            true => 120,
            false => 40,
        };
        random.below(odds) < habits.give_up
    }

    fn follow(&mut self, code: u8, party: usize) {
        let phase = match (code, self.phases[party]) {
            (ASK, Phase::Free) if self.has_room() => Phase::Asked,
            (GIVE_UP, Phase::Waiting(t)) if self.kinds[party] != 3 => Phase::GivingUp(t),
            (GIVE_UP, phase) if self.kinds[party] != 3 && is_early(phase) => {
                self.marked[party] = true;
                phase
            }
            (GIVE_BACK, Phase::Holding) => Phase::GivingBack,
            (STEP, phase) => self.stepped(phase, party),
            (_, phase) => phase,
        };
        self.phases[party] = phase;
        self.marked[party] &= is_early(phase);
        self.places.resize(self.numbered.max(self.handed) + 1, Place::Empty);
        while self.places[self.handed] == Place::Cancelled {
            self.places[self.handed] = Place::Done;
            self.handed += 1;
        }
        while self.places[self.oldest] == Place::Done {
            self.oldest += 1;
        }
    }

    fn has_room(&self) -> bool {
        let claims = |phase: &&Phase| matches!(phase, Phase::Asked | Phase::Unnumbered);
        self.numbered + self.phases.iter().filter(claims).count() < self.oldest + 256
    }

    fn stepped(&mut self, phase: Phase, party: usize) -> Phase {
        let before = self.counter;
        let (t, place, next) = match phase {
            Phase::Free | Phase::Holding | Phase::Waiting(_) => return phase,
            Phase::Asked => {
                self.counter -= 1;
                let acquired = if self.stored.is_some() { Phase::Fetching } else { Phase::Holding };
                return if before > 0 { acquired } else { Phase::Unnumbered };
            }
            Phase::GivingBack => {
                self.counter += 1;
                let released = if self.stored.is_some() { Phase::PuttingBack } else { Phase::Free };
                return if before >= 0 { released } else { Phase::Carrying };
            }
            Phase::Fetching => match &mut self.stored {
                Some(stored) if *stored > 0 => {
                    *stored -= 1;
                    return Phase::Holding;
                }
                _ => return phase,
            },
            Phase::PuttingBack => {
                self.store_one();
                return Phase::Free;
            }
            Phase::GivingUp(t) => {
                self.counter += 1;
                return if before < 0 { Phase::Cancelling(t) } else { Phase::Refusing(t) };
            }
            Phase::Unnumbered => {
                self.numbered += 1;
                return Phase::Numbered(self.numbered - 1);
            }
            Phase::Carrying => {
                self.handed += 1;
                return Phase::Handing(self.handed - 1);
            }
            Phase::Numbered(t) => match self.places[t] {
                Place::Link => (t, Place::Done, Phase::Holding),
                _ if self.marked[party] => (t, Place::Waiting(party), Phase::GivingUp(t)),
                _ => (t, Place::Waiting(party), Phase::Waiting(t)),
            },
            Phase::Handing(t) => match self.places[t] {
                Place::Waiting(q) if self.phases[q] == Phase::Waiting(t) => {
                    self.phases[q] = Phase::Holding;
                    (t, Place::Done, Phase::Free)
                }
                Place::Cancelled => (t, Place::Done, Phase::Carrying),
                Place::Refused => {
                    self.store_one();
                    (t, Place::Done, Phase::Free)
                }
                _ => (t, Place::Link, Phase::Free),
            },
            Phase::Cancelling(t) => match self.places[t] {
                Place::Link => (t, Place::Done, Phase::Carrying),
                _ => (t, Place::Cancelled, Phase::Free),
            },
            Phase::Refusing(t) => match self.places[t] {
                Place::Link => {
                    self.store_one();
                    (t, Place::Done, Phase::Free)
                }
                _ => (t, Place::Refused, Phase::Free),
            },
        };
        self.places[t] = place;
        next
    }

    fn store_one(&mut self) {
        self.stored = self.stored.map(|stored| stored + 1);
    }
}

/// So many radios, no two alike.
pub fn radios(random: &mut Random, count: u8) -> Vec<u8> {
    // an odd step meets every byte before one comes again
    let any = random.byte();
    let (first, step) = (random.pick(&[any, 0]), random.byte() | 1);
    let mut radios: Vec<u8> =
        (0..count).map(|at| first.wrapping_add(at.wrapping_mul(step))).collect();
    for _ in 0..random.pick(&[0, 40]) {
        let [a, b] = [0; 2].map(|_| random.below(u64::from(count).max(1)) as usize);
        if count > 0 {
            radios.swap(a, b);
        }
    }
    radios
}

/// Kinds that an opening may give: of all sorts, nearly all of one, or the built-in table.
pub fn kinds(random: &mut Random) -> Vec<u8> {
    let most = random.pick(&[0, 1, 2, 3, 3]);
    let odds = random.pick(&[1, 2, 20, 200]);
    let mut kinds = BUILT_IN.to_vec();
    if !random.one_in(8) {
        let any = |random: &mut Random| random.below(4) as u8;
        kinds.fill_with(|| if random.one_in(odds) { any(random) } else { most });
    }
    if !kinds.contains(&0) {
        kinds[random.below(32) as usize] = 0;
    }
    kinds
}

/// Kinds that an opening of n parties must not give: too many, too few, unknown ones, no desk, or
/// several of these.
fn wrong_kinds(random: &mut Random, parties: u8) -> Vec<u8> {
    let mut kinds = kinds(random);
    let n = usize::from(parties.clamp(1, 31));
    let party = random.pick(&[0, n - 1, n, 31]);
    let [unknown, no_desk, miscounted] =
        random.pick(&[[1, 0, 0], [0, 1, 0], [0, 0, 1], [1, 1, 0], [1, 0, 1], [0, 1, 1]]);
    if no_desk == 1 {
        let other = 1 + random.below(3) as u8;
        let odds = random.pick(&[1, 2]);
        let kept = kinds.iter_mut().filter(|kind| **kind == 0 || random.one_in(odds));
        kept.for_each(|kind| *kind = other);
    }
    if unknown == 1 {
        // a desk that was the only one is none any more
        let any = random.byte().max(4);
        kinds[party] = random.pick(&[4, 5, 0x80, 255, any]);
    }
    if miscounted == 1 {
        // more than a line can carry, too
        let [few, many] =
            [1 + random.below(44), 78 + random.below(200)].map(|count| count as usize);
        let count = random.pick(&[1, 1, 31, 31, 33, 33, 64, few, few, many]);
        kinds = kinds.iter().copied().cycle().take(count).collect();
    }
    kinds
}

/// Any opening, near the bounds or far from them: of either code, with radios too many, too few
/// or alike, with kinds or without, some of them wrong.
pub fn opening(random: &mut Random) -> Schedule {
    let mut schedule = opening_without_kinds(random);
    let wrong = wrong_kinds(random, schedule.parties);
    let right = kinds(random);
    schedule.kinds = random.pick(&[None, Some(&right), Some(&wrong), Some(&wrong)]).cloned();
    schedule
}

fn opening_without_kinds(random: &mut Random) -> Schedule {
    let bound = |random: &mut Random, more: &[u8]| {
        let any = random.byte();
        let far = random.pick(more);
        random.pick(&[0, 1, 31, 32, 33, any, far])
    };
    let permits = bound(random, &[2, 77, 78]);
    let parties = bound(random, &[2, 3]);
    let few = 1 + random.below(32) as u8;
    let (permits, parties, radios) = match random.below(12) {
        0..=3 => (permits, parties, None),
        // right but for one thing
        4 => (few, 1 + parties % 32, Some(alike(random, few))),
        5 => {
            let count = random.pick(&[few - 1, few + 1, permits]);
            (few, 1 + parties % 32, Some(radios(random, count)))
        }
        6 => (few, parties, Some(alike(random, few))),
        7 => (permits, parties, Some(alike(random, permits))),
        8 | 9 => (permits, parties, Some(radios(random, permits))),
        // right but for its kinds
        10 => (few, 1 + parties % 32, None),
        _ => {
            let few = random.pick(&[few, 32]);
            (few, 1 + parties % 32, Some(radios(random, few)))
        }
    };
    Schedule { permits, parties, radios, ..Schedule::default() }
}

/// So many radios, two of them alike if there are two.
fn alike(random: &mut Random, count: u8) -> Vec<u8> {
    let mut radios = radios(random, count);
    let [a, b] = [0; 2].map(|_| random.below(u64::from(count).max(1)) as usize);
    if count >= 2 {
        radios[a] = radios[if a == b { (b + 1) % usize::from(count) } else { b }];
    }
    radios
}

/// One of many kinds of schedule, of at most about `most` calls.
pub fn schedule(random: &mut Random, most: u64) -> Schedule {
    if random.one_in(20) {
        let mut schedule = opening(random);
        let mut house = House::of(&schedule);
        schedule.live(random, &mut house, most / 8);
        return schedule;
    }
    if random.one_in(12) {
        return all_give_up(random);
    }
    if random.one_in(15) && most >= 4000 {
        return long_wait(random);
    }
    // few links and few parties meet most often; kind 3 of the built-in table needs a full house
    let up_to = |random: &mut Random, most: &[u64]| {
        let most = random.pick(most);
        1 + random.below(most) as u8
    };
    let permits = up_to(random, &[1, 2, 4, 32]);
    let parties = if random.one_in(6) { 32 } else { up_to(random, &[4, 8, 32]) };
    let radios = random.one_in(2).then(|| radios(random, permits));
    let kinds = random.one_in(2).then(|| kinds(random));
    let mut schedule = Schedule { permits, parties, radios, kinds, ..Schedule::default() };
    let mut house = House::of(&schedule);
    let total = if random.one_in(8) { most } else { 10 + random.below(most / 8) };
    schedule.live(random, &mut house, total);
    schedule
}

/// Kinds by which each party is of each kind in one of four.
pub fn kinds_in_turn(random: &mut Random) -> Vec<u8> {
    let first = random.below(4) as u8;
    (0..32).map(|party| (first + party) % 4).collect()
}

/// One party has the only link; each of the others gives up before its wait, and in the next one.
/// Those that may not do so stay.
fn all_give_up(random: &mut Random) -> Schedule {
    let radios = random.one_in(2).then(|| radios(random, 1));
    let kinds = Some(kinds_in_turn(random));
    let mut calls = vec![];
    let holder = random.below(32) as u8;
    for party in [holder].into_iter().chain((0..32).filter(|&party| party != holder)) {
        let early = random.below(3) as usize;
        let rest: [&[u8]; 5] =
            [&[ASK], &[STEP; 3][..early], &[GIVE_UP], &[STEP; 6], &[ASK, STEP, STEP]];
        let codes = rest.concat().into_iter().chain([STEP, GIVE_UP, STEP, STEP]);
        calls.extend(codes.map(|code| [code, party]));
    }
    Schedule { permits: 1, parties: 32, radios, kinds, calls }
}

/// One party sleeps on the only link, one on the first wait; the others ask and give up until
/// the places run out, and try again now and then; then the two wake up.
fn long_wait(random: &mut Random) -> Schedule {
    let parties = 3 + random.below(30) as u8;
    let radios = random.one_in(2).then(|| radios(random, 1));
    // with radios it takes one step more to sleep on it
    let first: &[[u8; 2]] =
        if radios.is_some() { &[[ASK, 0], [STEP, 0], [STEP, 0]] } else { &[[ASK, 0], [STEP, 0]] };
    let kinds = random.one_in(2).then(|| kinds(random));
    let mut schedule = Schedule { permits: 1, parties, radios, kinds, ..Schedule::default() };
    let mut house = House::of(&schedule);
    for call in first.iter().chain(&[[ASK, 1], [STEP, 1], [STEP, 1], [STEP, 1]]) {
        house.follow(call[0], usize::from(call[1]));
        schedule.calls.push(*call);
    }
    let mut habits = Habits { ask: 8, give_up: 8, give_back: 0, asleep: 0b11, stray: 50 };
    let calls = 1000 + random.below(3000);
    schedule.calls.extend((0..calls).map(|_| house.call(random, &habits)));
    habits = Habits { asleep: 0, give_back: 6, give_up: random.below(8), ..habits };
    schedule.calls.extend((0..600).map(|_| house.call(random, &habits)));
    schedule
}

impl Schedule {
    /// Adds calls; what parties like to do changes on the way.
    pub fn live(&mut self, random: &mut Random, house: &mut House, total: u64) {
        let mut habits = Habits::any(random);
        for _ in 0..total {
            if random.one_in(300) {
                habits = Habits::any(random);
            }
            self.calls.push(house.call(random, &habits));
        }
    }

    /// The opening's frame.
    pub fn opening(&self) -> Vec<u8> {
        let mut frame = vec![1, self.permits, self.parties];
        if let Some(radios) = &self.radios {
            frame[0] = 2;
            frame.extend(radios);
        }
        frame.extend(self.kinds.iter().flatten());
        frame
    }

    /// The kinds that the hub has if it is opened.
    pub fn kinds(&self) -> [u8; 32] {
        let own = self.kinds.as_ref().and_then(|kinds| kinds[..].try_into().ok());
        own.unwrap_or(BUILT_IN)
    }

    /// The schedule as the program reads it, without line feeds.
    pub fn lines(&self) -> Vec<String> {
        let calls = self.calls.iter().map(|call| hex(call));
        [hex(&self.opening())].into_iter().chain(calls).collect()
    }
}

pub fn hex(bytes: &[u8]) -> String {
    bytes.iter().map(|byte| format!("{byte:02X}")).collect()
}

/// How often each answer and refusal was met.
pub struct Seen([u64; 256]);

impl Seen {
    pub fn nothing() -> Self {
        Seen([0; 256])
    }

    pub fn count(&mut self, code: u8) {
        self.0[usize::from(code)] += 1;
    }

    /// Prints the counts; false if one of those expected is missing.
    pub fn shows(&self, expected: impl Iterator<Item = u8>) -> bool {
        let met = (0..=255u8).filter(|&code| self.0[usize::from(code)] > 0);
        let counts: Vec<String> =
            met.map(|code| format!("{code:02X} {}", self.0[usize::from(code)])).collect();
        for row in counts.chunks(6) {
            println!("  {}", row.join(", "));
        }
        let missing: Vec<u8> = expected.filter(|&code| self.0[usize::from(code)] == 0).collect();
        if !missing.is_empty() {
            println!("never met: {missing:02X?}");
        }
        missing.is_empty()
    }
}
