//! A latch as calls and answers alone tell of it: who is in which phase, the count, the waiters,
//! the places. What M-150 claims of every schedule is judged by it. It can also guess the next
//! answer, so that schedules can be made of calls that make sense; nothing is judged by a guess.

use std::collections::BTreeMap;

pub const AWAIT: u8 = 0x10;
pub const STEP: u8 = 0x11;
pub const GIVE_UP: u8 = 0x12;
pub const COUNT_DOWN: u8 = 0x13;
pub const CALLS: [u8; 4] = [AWAIT, STEP, GIVE_UP, COUNT_DOWN];

pub const NOBODY: u8 = 0xFF;
pub const NO_NUMBER: u32 = u32::MAX;
const MOST_AWAITS: u32 = 1_000_000;
const SPAN: u32 = 256;

#[derive(Clone, Copy, PartialEq, Debug)]
pub enum Phase {
    Free,
    Waiting,
    Asked,
    Raising,
    Unnumbered,
    Numbered,
    GivingUp,
    Cancelling,
    Refusing,
    GivingBack,
    Carrying,
    Handing,
}

pub const PHASES: [Phase; 12] = [
    Phase::Free,
    Phase::Waiting,
    Phase::Asked,
    Phase::Raising,
    Phase::Unnumbered,
    Phase::Numbered,
    Phase::GivingUp,
    Phase::Cancelling,
    Phase::Refusing,
    Phase::GivingBack,
    Phase::Carrying,
    Phase::Handing,
];

impl Phase {
    pub fn is_busy(self) -> bool {
        !matches!(self, Phase::Free | Phase::Waiting)
    }

    /// Whether a give-up in this phase is an early one.
    pub fn is_early(self) -> bool {
        matches!(self, Phase::Asked | Phase::Raising | Phase::Unnumbered | Phase::Numbered)
    }
}

#[derive(Clone, Copy, PartialEq)]
pub enum Place {
    Waiting(u8),
    Link,
    Cancelled,
    Refused,
    Done,
}

#[derive(Clone, Copy)]
pub struct Party {
    pub phase: Phase,
    /// Of its wait, or of the hand-over under way.
    pub number: u32,
    /// Hand-overs, while it is carrying or handing.
    pub left: u8,
    /// Gave up early in this await.
    pub marked: bool,
    /// Its last early give-up was forgotten, and it has not waited since.
    pub forgot: bool,
    /// Its count-down began after the mark; its hand-over came from 31.
    pub late: bool,
    pub passes_on: bool,
}

pub const FREE: Party = Party {
    phase: Phase::Free,
    number: NO_NUMBER,
    left: 0,
    marked: false,
    forgot: false,
    late: false,
    passes_on: false,
};

#[derive(Clone, Copy)]
pub struct Answer {
    pub code: u8,
    pub woken: u8,
    pub number: u32,
}

impl Answer {
    pub fn read(bytes: &[u8]) -> Self {
        let number = u32::from_be_bytes([bytes[3], bytes[4], bytes[5], bytes[6]]);
        Answer { code: bytes[0], woken: bytes[2], number }
    }

    fn plain(code: u8) -> Self {
        Answer { code, woken: NOBODY, number: NO_NUMBER }
    }
}

pub struct Story {
    /// N less the answers 26 and 27, not below 0.
    pub count: u8,
    pub waiters: u8,
    pub parties: Vec<Party>,
    /// Those from `oldest` on that are not empty.
    pub places: BTreeMap<u32, Place>,
    pub numbered: u32,
    pub handed: u32,
    pub oldest: u32,
    pub begun: u32,
}

impl Story {
    pub fn opened(count: u8, parties: u8) -> Self {
        Story {
            count,
            waiters: 0,
            parties: vec![FREE; usize::from(parties)],
            places: BTreeMap::new(),
            numbered: 0,
            handed: 0,
            oldest: 0,
            begun: 0,
        }
    }

    pub fn is_calm(&self) -> bool {
        !self.parties.iter().any(|party| party.phase.is_busy())
    }

    pub fn in_phase(&self, phase: Phase) -> usize {
        self.parties.iter().filter(|party| party.phase == phase).count()
    }

    /// Numbers from `oldest` on that are drawn or may be.
    pub fn claimed(&self) -> u32 {
        let before = [Phase::Asked, Phase::Raising, Phase::Unnumbered];
        let claims: usize = before.iter().map(|&phase| self.in_phase(phase)).sum();
        self.numbered - self.oldest + claims as u32
    }

    pub fn is_full(&self) -> bool {
        self.claimed() >= SPAN
    }

    pub fn begun_full(&self) -> bool {
        self.begun == MOST_AWAITS
    }

    /// One call more and its answer. What is wrong, if a claim does not hold or if the answer does
    /// not follow from those before.
    pub fn follow(&mut self, [call, party]: [u8; 2], answer: Answer) -> Result<(), &'static str> {
        let Some(&was) = self.parties.get(usize::from(party)) else {
            return if answer.code == 4 { Ok(()) } else { Err("a party not below n") };
        };
        if answer.code < 0x20 {
            if answer.code == 1 {
                return Err("a reached record does not fit");
            }
            let busy = call == STEP && was.phase.is_busy();
            return if busy { Err("a busy party's step is refused") } else { Ok(()) };
        }
        if matches!(answer.code, 0x21 | 0x25 | 0x2A) && self.count > 0 {
            return Err("let go before the count is 0");
        }
        self.enter(call, party, was, answer).ok_or("an answer that the phase does not have")?;
        if self.count == 0 && self.is_calm() && self.in_phase(Phase::Waiting) > 0 {
            return Err("at rest after the mark, and somebody waits");
        }
        Ok(())
    }

    fn enter(&mut self, call: u8, party: u8, was: Party, answer: Answer) -> Option<()> {
        let Answer { code, woken, number } = answer;
        let open = self.count == 0;
        let reaches = self.count == 1 && self.waiters > 0;
        let mut now = was;
        let mut place = None;
        now.phase = match (call, was.phase, code) {
            (AWAIT, Phase::Free, 0x20) => {
                self.begun += 1;
                Phase::Asked
            }
            (COUNT_DOWN, Phase::Free, 0x20) => {
                now.late = open;
                Phase::GivingBack
            }
            (GIVE_UP, Phase::Waiting, 0x20) => Phase::GivingUp,
            (GIVE_UP, phase, 0x20) if phase.is_early() && !was.marked => {
                now.marked = true;
                phase
            }
            (STEP, Phase::Asked | Phase::Raising, 0x21) if open => Phase::Free,
            (STEP, Phase::Asked, 0x22) if !open => Phase::Raising,
            (STEP, Phase::Raising, 0x22) if !open => {
                self.waiters += 1;
                Phase::Unnumbered
            }
            (STEP, Phase::Unnumbered, 0x23) if number == self.numbered => {
                self.numbered += 1;
                now.number = number;
                Phase::Numbered
            }
            (STEP, Phase::Numbered, 0x24) => {
                place = Some(Place::Waiting(party));
                if was.marked {
                    Phase::GivingUp
                } else {
                    Phase::Waiting
                }
            }
            (STEP, Phase::Numbered, 0x25) => {
                place = Some(Place::Done);
                Phase::Free
            }
            (STEP, Phase::GivingBack, 0x26) if !reaches => {
                self.count = self.count.saturating_sub(1);
                Phase::Free
            }
            (STEP, Phase::GivingBack, 0x27) if reaches => {
                self.count = 0;
                (now.left, now.passes_on) = (self.waiters, false);
                Phase::Carrying
            }
            (STEP, Phase::Carrying, 0x28) if number == self.handed => {
                self.handed += 1;
                now.number = number;
                Phase::Handing
            }
            (STEP, Phase::Handing, 0x29..=0x2D) => {
                place = Some(if matches!(code, 0x29 | 0x2B) { Place::Link } else { Place::Done });
                now.left = was.left.checked_sub(u8::from(code != 0x2C))?;
                if now.left > 0 {
                    Phase::Carrying
                } else {
                    Phase::Free
                }
            }
            (STEP, Phase::GivingUp, 0x2E | 0x2F) if open == (code == 0x2F) => {
                self.waiters = self.waiters.checked_sub(1)?;
                if open {
                    Phase::Refusing
                } else {
                    Phase::Cancelling
                }
            }
            (STEP, Phase::Cancelling, 0x30) => {
                place = Some(Place::Cancelled);
                Phase::Free
            }
            (STEP, Phase::Cancelling, 0x31) => {
                place = Some(Place::Done);
                (now.left, now.passes_on) = (1, true);
                Phase::Carrying
            }
            (STEP, Phase::Refusing, 0x32 | 0x33) => {
                place = Some(if code == 0x32 { Place::Refused } else { Place::Done });
                Phase::Free
            }
            _ => return None,
        };
        now.forgot = match code {
            0x21 | 0x25 => was.forgot || was.marked,
            0x24 => false,
            _ => was.forgot,
        };
        now.marked &= now.phase.is_early();
        let told = matches!(code, 0x23..=0x25 | 0x28..=0x2D | 0x30..=0x33);
        if number != if told { now.number } else { NO_NUMBER } {
            return None;
        }
        self.parties[usize::from(party)] = now;
        if code == 0x2A {
            let woken = self.parties.get_mut(usize::from(woken))?;
            if (woken.phase, woken.number) != (Phase::Waiting, number) {
                return None;
            }
            woken.phase = Phase::Free;
        } else if woken != NOBODY {
            return None;
        }
        place.map(|place| self.places.insert(number, place));
        self.tidy();
        Some(())
    }

    fn tidy(&mut self) {
        while self.places.get(&self.handed) == Some(&Place::Cancelled) {
            self.places.insert(self.handed, Place::Done);
            self.handed += 1;
        }
        while self.places.get(&self.oldest) == Some(&Place::Done) {
            self.places.remove(&self.oldest);
            self.oldest += 1;
        }
    }

    /// The next answer as it should be.
    pub fn guess(&self, [call, party]: [u8; 2]) -> Answer {
        let Some(was) = self.parties.get(usize::from(party)) else {
            return Answer::plain(4);
        };
        let refusal = match (call, was.phase) {
            (AWAIT | COUNT_DOWN, phase) if phase != Phase::Free => 5,
            (AWAIT, _) if self.begun_full() => 6,
            (AWAIT, _) if self.is_full() => 7,
            (STEP, phase) if !phase.is_busy() => 8,
            (GIVE_UP, phase) if phase != Phase::Waiting && (!phase.is_early() || was.marked) => 9,
            (GIVE_UP, _) if party >= 30 => 10,
            _ => 0x20,
        };
        if call != STEP || refusal != 0x20 {
            return Answer::plain(refusal);
        }
        let open = self.count == 0;
        let place = self.places.get(&was.number);
        let waiting = |party: &u8| self.parties[usize::from(*party)].phase == Phase::Waiting;
        let code = match (was.phase, place) {
            (Phase::Unnumbered, _) => {
                return Answer { number: self.numbered, ..Answer::plain(0x23) }
            }
            (Phase::Carrying, _) => return Answer { number: self.handed, ..Answer::plain(0x28) },
            (Phase::GivingBack, _) if self.count == 1 && self.waiters > 0 => 0x27,
            (Phase::GivingBack, _) => 0x26,
            (Phase::GivingUp, _) if open => 0x2F,
            (Phase::GivingUp, _) => 0x2E,
            (Phase::Asked | Phase::Raising, _) if open => 0x21,
            (Phase::Asked | Phase::Raising, _) => 0x22,
            (Phase::Numbered, Some(Place::Link)) => 0x25,
            (Phase::Numbered, _) => 0x24,
            (Phase::Cancelling, Some(Place::Link)) => 0x31,
            (Phase::Cancelling, _) => 0x30,
            (Phase::Refusing, Some(Place::Link)) => 0x33,
            (Phase::Refusing, _) => 0x32,
            (_, Some(Place::Waiting(q))) if waiting(q) => {
                return Answer { code: 0x2A, woken: *q, number: was.number }
            }
            (_, Some(Place::Waiting(_))) => 0x2B,
            (_, Some(Place::Cancelled)) => 0x2C,
            (_, Some(Place::Refused)) => 0x2D,
            _ => 0x29,
        };
        let told = !matches!(code, 0x21 | 0x22 | 0x26 | 0x27 | 0x2E | 0x2F);
        Answer { number: if told { was.number } else { NO_NUMBER }, ..Answer::plain(code) }
    }
}
