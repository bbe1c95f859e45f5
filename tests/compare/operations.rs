//! Seeded random lists of whole operations, asks, give-ups and give-backs, and the line that their
//! answers tell.

use crate::schedules::{kinds, kinds_in_turn, opening, radios, Random, Schedule};
use crate::schedules::{ASK, GIVE_BACK, GIVE_UP};
use std::collections::BTreeSet;

/// What an accepted operation can do to the line, and the steps that it takes, without radios and
/// with them.
pub const SHAPES: [(&str, [u8; 2]); 10] = [
    ("asks and holds", [1, 2]),
    ("asks and waits first", [3, 3]),
    ("asks and waits behind others", [3, 3]),
    ("gives up alone in the line", [2, 2]),
    ("gives up first of several", [2, 2]),
    ("gives up in the middle", [2, 2]),
    ("gives up last of several", [2, 2]),
    ("gives back, nobody waits", [1, 2]),
    ("gives back, one waits", [3, 3]),
    ("gives back, several wait", [3, 3]),
];

/// Who holds, and who waits in turn.
#[derive(Clone, Default, PartialEq)]
pub struct Line {
    pub holders: BTreeSet<u8>,
    pub waiting: Vec<u8>,
}

impl Line {
    /// An operation that was accepted; whoever asks then waits or holds. Which of the shapes it is,
    /// and whom it wakes; nothing if it can't have been accepted.
    pub fn follow(&mut self, [code, party]: [u8; 2], waits: bool) -> Option<(usize, Option<u8>)> {
        let in_turn = self.waiting.iter().position(|&other| other == party);
        let mut woken = None;
        let shape = match (code, self.holders.contains(&party), in_turn) {
            (ASK, false, None) if waits => {
                self.waiting.push(party);
                self.waiting.len().min(2)
            }
            (ASK, false, None) => {
                self.holders.insert(party);
                0
            }
            (GIVE_UP, false, Some(ahead)) => {
                self.waiting.remove(ahead);
                match (ahead, self.waiting.len() - ahead) {
                    (0, 0) => 3,
                    (0, _) => 4,
                    (_, 0) => 6,
                    _ => 5,
                }
            }
            (GIVE_BACK, true, None) => {
                let shape = 7 + self.waiting.len().min(2);
                self.holders.remove(&party);
                woken = self.waiting.drain(..self.waiting.len().min(1)).next();
                self.holders.extend(woken);
                shape
            }
            _ => return None,
        };
        Some((shape, woken))
    }
}

/// How often each shape, with and without radios, and each other meeting that is asked for
/// occurred.
pub struct Met(Vec<(String, u64)>);

impl Met {
    pub fn nothing(others: &[&str]) -> Self {
        let shapes = SHAPES.iter().flat_map(|&(shape, _)| [false, true].map(|r| named(shape, r)));
        let others = others.iter().map(|other| other.to_string());
        Met(shapes.chain(others).map(|name| (name, 0)).collect())
    }

    pub fn meet(&mut self, name: &str) {
        let mut named = self.0.iter_mut().filter(|(other, _)| other == name);
        named.next().expect("a meeting that is asked for").1 += 1;
    }

    /// False if so many steps are not those of the shape.
    pub fn shape(&mut self, shape: usize, radios: bool, steps: u8) -> bool {
        let (name, steps_of) = SHAPES[shape];
        self.meet(&named(name, radios));
        steps_of[usize::from(radios)] == steps
    }

    /// Prints the counts; false if one is missing.
    pub fn shows(&self) -> bool {
        for (name, count) in &self.0 {
            match count {
                0 => println!("  {name}: NEVER"),
                _ => println!("  {name}: {count}"),
            }
        }
        self.0.iter().all(|&(_, count)| count > 0)
    }
}

fn named(shape: &str, radios: bool) -> String {
    format!("{shape}{}", if radios { ", with radios" } else { "" })
}

/// How parties behave: the eagerness, of 8, to ask, to give up and to give back.
struct Habits {
    ask: u64,
    give_up: u64,
    give_back: u64,
    /// Whoever waits first never gives up.
    patient: bool,
    /// One operation in so many is any by any party.
    stray: u64,
}

impl Habits {
    fn any(random: &mut Random) -> Self {
        Habits {
            ask: 1 + random.below(8),
            give_up: random.below(9),
            give_back: random.below(9),
            patient: random.one_in(2),
            stray: random.pick(&[4, 20, 100]),
        }
    }
}

/// A sketch of a house, to choose operations that make sense. Nothing is judged by it.
struct House {
    permits: usize,
    parties: u8,
    kinds: [u8; 32],
    line: Line,
}

impl House {
    fn operation(&mut self, random: &mut Random, habits: &Habits) -> [u8; 2] {
        let operation = if random.one_in(habits.stray) {
            self.any_operation(random)
        } else {
            self.sensible_operation(random, habits)
        };
        let [code, party] = operation;
        if party < self.parties && (code != GIVE_UP || self.kinds[usize::from(party)] != 3) {
            self.line.follow(operation, self.line.holders.len() >= self.permits);
        }
        operation
    }

    fn any_operation(&self, random: &mut Random) -> [u8; 2] {
        let party = match random.below(12) {
            0 => random.byte(),
            1 => self.parties,
            _ => random.below(u64::from(self.parties)) as u8,
        };
        [random.pick(&[ASK, GIVE_UP, GIVE_BACK]), party]
    }

    fn sensible_operation(&self, random: &mut Random, habits: &Habits) -> [u8; 2] {
        for _ in 0..8 {
            let party = random.below(u64::from(self.parties)) as u8;
            let (code, eager) = if self.line.holders.contains(&party) {
                (GIVE_BACK, habits.give_back)
            } else if !self.line.waiting.contains(&party) {
                (ASK, habits.ask)
            } else if habits.patient && self.line.waiting[0] == party {
                continue;
            } else {
                (GIVE_UP, habits.give_up)
            };
            if random.below(8) < eager {
                return [code, party];
            }
        }
        // nobody seems to want anything
        self.any_operation(random)
    }
}

/// One of many kinds of list, of at most about `most` operations; some openings are refused.
pub fn operations(random: &mut Random, most: u64) -> Schedule {
    if random.one_in(20) {
        let mut list = opening(random);
        live(random, &mut list, most / 8);
        return list;
    }
    if random.one_in(12) {
        return all_give_up(random);
    }
    // few links and few parties meet most often; kind 3 of the built-in table needs a full house
    let up_to = |random: &mut Random, most: &[u64]| {
        let most = random.pick(most);
        1 + random.below(most) as u8
    };
    let permits = up_to(random, &[1, 2, 4, 32]);
    let parties = if random.one_in(4) { 32 } else { up_to(random, &[4, 8, 32]) };
    let radios = random.one_in(2).then(|| radios(random, permits));
    let kinds = random.one_in(2).then(|| kinds(random));
    let mut list = Schedule { permits, parties, radios, kinds, ..Schedule::default() };
    let total = if random.one_in(8) { most } else { random.below(most / 8) };
    live(random, &mut list, total);
    list
}

/// One party has the only link, all others wait, and each tries to give up.
fn all_give_up(random: &mut Random) -> Schedule {
    let radios = random.one_in(2).then(|| radios(random, 1));
    let kinds = Some(kinds_in_turn(random));
    let holder = random.below(32) as u8;
    let others = (0..32).filter(|&party| party != holder);
    let asks = [holder].into_iter().chain(others.clone()).map(|party| [ASK, party]);
    let calls = asks.chain(others.map(|party| [GIVE_UP, party])).collect();
    Schedule { permits: 1, parties: 32, radios, kinds, calls }
}

/// Adds operations; what parties like to do changes on the way.
fn live(random: &mut Random, list: &mut Schedule, total: u64) {
    let parties = list.parties.clamp(1, 32);
    let (permits, kinds) = (list.permits.into(), list.kinds());
    let mut house = House { permits, parties, kinds, line: Line::default() };
    let mut habits = Habits::any(random);
    for _ in 0..total {
        if random.one_in(500) {
            habits = Habits::any(random);
        }
        list.calls.push(house.operation(random, &habits));
    }
}
