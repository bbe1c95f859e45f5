//! Seeded random schedules of a latch.

use crate::latch_story::{Phase, Place, Story, AWAIT, CALLS, COUNT_DOWN, GIVE_UP, STEP};
use crate::schedules::Random;

/// How parties behave: the eagerness, of 64, to await, to give up, to do so early, to count down.
struct Habits {
    begin: u64,
    give_up: u64,
    early: u64,
    count_down: u64,
    /// Parties that act seldom, one bit each.
    asleep: u32,
    /// One call in so many is any call by any party.
    stray: u64,
}

impl Habits {
    fn any(random: &mut Random) -> Self {
        let few = (random.next() & random.next()) as u32;
        Habits {
            begin: random.pick(&[8, 30, 60]),
            give_up: random.pick(&[0, 4, 30, 60]),
            early: random.pick(&[0, 2, 8, 20]),
            count_down: random.pick(&[1, 3, 10, 40]),
            asleep: random.pick(&[0, few, few]),
            stray: random.pick(&[5, 30, 200]),
        }
    }
}

/// N and n, and the calls, each a code and a party.
pub struct Schedule {
    pub count: u8,
    pub parties: u8,
    pub calls: Vec<[u8; 2]>,
}

/// A schedule being made: the story goes by guessed answers.
struct Maker {
    story: Story,
    calls: Vec<[u8; 2]>,
}

impl Maker {
    fn opened(count: u8, parties: u8) -> Self {
        Maker { story: Story::opened(count, parties), calls: Vec::new() }
    }

    fn make(&mut self, call: [u8; 2]) {
        self.calls.push(call);
        let guess = self.story.guess(call);
        self.story.follow(call, guess).expect("a guess breaks no claim");
    }

    fn make_all(&mut self, calls: &[[u8; 2]]) {
        calls.iter().for_each(|&call| self.make(call));
    }

    fn parties(&self) -> u64 {
        self.story.parties.len() as u64
    }

    fn phase(&self, party: u8) -> Phase {
        self.story.parties[usize::from(party)].phase
    }

    /// Who waits at the place that this party hands to.
    fn waiter(&self, party: u8) -> Option<u8> {
        let handing = &self.story.parties[usize::from(party)];
        match self.story.places.get(&handing.number) {
            Some(&Place::Waiting(waiter)) if handing.phase == Phase::Handing => Some(waiter),
            _ => None,
        }
    }

    fn any_call(&self, random: &mut Random) -> [u8; 2] {
        let party = match random.below(12) {
            0 => random.byte(),
            1 => self.parties() as u8,
            _ => random.below(self.parties()) as u8,
        };
        [random.pick(&CALLS), party]
    }

    fn call(&self, random: &mut Random, habits: &Habits) -> [u8; 2] {
        if random.one_in(habits.stray) {
            return self.any_call(random);
        }
        for _ in 0..12 {
            let party = random.below(self.parties()) as u8;
            if habits.asleep >> party & 1 == 1 && !random.one_in(40) {
                continue;
            }
            let wants = |random: &mut Random, eager: u64| random.below(64) < eager;
            let code = match self.phase(party) {
                Phase::Free if wants(random, habits.count_down) => COUNT_DOWN,
                Phase::Free if wants(random, habits.begin) => AWAIT,
                Phase::Waiting if wants(random, habits.give_up) => GIVE_UP,
                Phase::Free | Phase::Waiting => continue,
                // those of kind 3 are few, and lose nothing by trying
                phase if phase.is_early() && party >= 30 && random.one_in(4) => GIVE_UP,
                phase if phase.is_early() && wants(random, habits.early) => GIVE_UP,
                _ => STEP,
            };
            return [code, party];
        }
        // nobody seems to want anything
        self.any_call(random)
    }

    /// What parties like to do changes on the way.
    fn live(&mut self, random: &mut Random, total: u64) {
        let mut habits = Habits::any(random);
        for _ in 0..total {
            if random.one_in(60) {
                habits = Habits::any(random);
            }
            let call = self.call(random, &habits);
            self.make(call);
        }
    }

    /// A party awaits and steps until it waits, or is let go.
    fn wait(&mut self, party: u8) {
        self.make([AWAIT, party]);
        while self.phase(party).is_busy() {
            self.make([STEP, party]);
        }
    }

    /// Whole count-downs by those that are free, until so many are left.
    fn count_down_to(&mut self, random: &mut Random, left: u8) {
        for _ in 0..100 * u64::from(self.story.count) {
            let party = random.below(self.parties()) as u8;
            if self.story.count > left && self.phase(party) == Phase::Free {
                self.make_all(&[[COUNT_DOWN, party], [STEP, party]]);
            }
        }
    }

    /// All step, whoever is busy, in some order, until everyone is at rest.
    fn settle(&mut self, random: &mut Random) {
        while !self.story.is_calm() {
            let party = random.below(self.parties()) as u8;
            if self.phase(party).is_busy() {
                self.make([STEP, party]);
            }
        }
    }

    /// Many at once: all that are free await or count down, some give up, and then all step.
    fn rush(&mut self, random: &mut Random) {
        let odds = random.pick(&[2, 4, 8]);
        for party in 0..self.parties() as u8 {
            let code = if random.one_in(odds) { COUNT_DOWN } else { AWAIT };
            self.make([code, party]);
        }
        for _ in 0..random.below(6 * self.parties()) {
            let party = random.below(self.parties()) as u8;
            let code = if random.one_in(odds) { GIVE_UP } else { STEP };
            self.make([code, party]);
        }
    }
}

/// One of many kinds of schedule.
pub fn schedule(random: &mut Random) -> Schedule {
    let count = match random.below(6) {
        0 => 1 + random.below(200) as u8,
        1 => 1 + random.below(20) as u8,
        _ => 1 + random.below(3) as u8,
    };
    // few parties meet most often; kind 3 needs a full house
    let few = random.pick(&[3, 6, 12, 32]);
    let parties = if random.one_in(6) { 32 } else { 1 + random.below(few) as u8 };
    let mut maker = Maker::opened(count, parties);
    match random.below(12) {
        0 if parties >= 3 => return long_wait(random, count, parties),
        1 => all_wait(random, &mut maker),
        2..=4 if parties >= 4 => leaving(random, &mut maker),
        _ => {}
    }
    let near = random.pick(&[count, count.min(3), count.min(1)]);
    maker.count_down_to(random, near);
    for _ in 0..1 + random.below(3) {
        maker.live(random, 100);
        if random.one_in(2) {
            maker.rush(random);
        }
    }
    if random.one_in(4) {
        maker.settle(random);
    }
    maker.count_down_to(random, 0);
    let after = random.pick(&[0, 10, 100]);
    maker.live(random, after);
    if !random.one_in(4) {
        maker.settle(random);
    }
    Schedule { count, parties, calls: maker.calls }
}

/// Some wait, and party 0 sees to it that a count of any size comes to 0.
pub fn doors(random: &mut Random, count: u8) -> Schedule {
    let parties = 2 + random.below(31) as u8;
    let mut maker = Maker::opened(count, parties);
    for party in 1..parties {
        if random.one_in(3) {
            maker.wait(party);
        }
    }
    maker.count_down_to(random, 0);
    maker.settle(random);
    Schedule { count, parties, calls: maker.calls }
}

/// Nearly all wait, and the last of them counts down.
fn all_wait(random: &mut Random, maker: &mut Maker) {
    let counting = random.below(maker.parties()) as u8;
    for party in (0..maker.parties() as u8).filter(|&party| party != counting) {
        maker.wait(party);
    }
    maker.count_down_to(random, 0);
}

/// Many wait, and of these many leave while the mark is reached: some are counted no more.
fn leaving(random: &mut Random, maker: &mut Maker) {
    maker.count_down_to(random, 1);
    for party in 1..maker.parties() as u8 {
        if !random.one_in(4) {
            maker.wait(party);
        }
    }
    let odds = random.pick(&[2, 3, 6]);
    for party in 1..maker.parties() as u8 {
        if random.one_in(odds) {
            maker.make([GIVE_UP, party]);
            if !random.one_in(3) {
                maker.make([STEP, party]);
            }
        }
    }
    maker.make_all(&[[COUNT_DOWN, 0], [STEP, 0]]);
    // those who hand over, those whom they hand to, and any
    for _ in 0..random.below(6 * maker.parties()) {
        let hands = |party: &u8| matches!(maker.phase(*party), Phase::Carrying | Phase::Handing);
        let handing: Vec<u8> = (0..maker.parties() as u8).filter(hands).collect();
        let handed_to: Vec<u8> = handing.iter().filter_map(|&party| maker.waiter(party)).collect();
        let any = random.below(maker.parties()) as u8;
        let from = random.pick(&[&handing[..], &handing, &handed_to, &[]]);
        let party = if from.is_empty() { any } else { random.pick(from) };
        maker.make([random.pick(&[STEP, STEP, STEP, GIVE_UP]), party]);
    }
    maker.settle(random);
}

/// One waits, the others await and give up until the places run out, and try again now and then;
/// then the mark is reached.
fn long_wait(random: &mut Random, count: u8, parties: u8) -> Schedule {
    let mut maker = Maker::opened(count, parties);
    maker.wait(1);
    let give_up = random.pick(&[30, 60]);
    let mut habits =
        Habits { begin: 60, give_up, early: 4, count_down: 0, asleep: 0b10, stray: 2000 };
    for _ in 0..5000 {
        let call = maker.call(random, &habits);
        // the first wait stays, and nothing is counted down
        if call[0] != COUNT_DOWN && call != [GIVE_UP, 1] {
            maker.make(call);
        }
        if maker.story.is_full() && random.one_in(100) {
            break;
        }
    }
    habits = Habits { count_down: 10, asleep: 0, ..habits };
    for _ in 0..300 {
        let call = maker.call(random, &habits);
        maker.make(call);
    }
    maker.count_down_to(random, 0);
    maker.settle(random);
    Schedule { count, parties, calls: maker.calls }
}

/// A million awaits, with numbers 0 to 254 kept by a first wait and 254 given up behind it. The
/// mark is reached, and nobody hands over yet: whoever awaits is let go. So 6 comes beside 7 while
/// one has asked, and alone when it is let go.
pub fn million() -> Schedule {
    let mut maker = Maker::opened(1, 5);
    maker.wait(1);
    for _ in 0..254 {
        maker.wait(2);
        maker.make_all(&[[GIVE_UP, 2], [STEP, 2], [STEP, 2]]);
    }
    maker.make_all(&[[COUNT_DOWN, 0], [STEP, 0]]);
    while maker.story.begun < 999_999 {
        maker.make_all(&[[AWAIT, 3], [STEP, 3]]);
    }
    maker.make_all(&[[AWAIT, 3], [AWAIT, 4], [AWAIT, 3], [STEP, 3]]);
    maker.make_all(&[[AWAIT, 4], [AWAIT, 3], [COUNT_DOWN, 4]]);
    maker.settle(&mut Random::seeded(1));
    maker.make_all(&[[AWAIT, 1], [COUNT_DOWN, 1], [STEP, 1]]);
    Schedule { count: 1, parties: 5, calls: maker.calls }
}
