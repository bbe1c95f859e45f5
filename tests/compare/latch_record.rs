//! A latch's whole record: its bytes, as tests/README.md lays them out, and how it is shown.

use crate::record::{number, runs, Place, PARTIES, PLACES};
use std::fmt;

/// Where the places, the phases, the hand-overs left and the marks begin; bytes of a record, and of
/// a reply (an answer and a record).
pub const PLACES_AT: usize = 19;
pub const PHASES_AT: usize = PLACES_AT + 5 * PLACES;
pub const LEFT_AT: usize = PHASES_AT + 5 * PARTIES;
pub const MARKS_AT: usize = LEFT_AT + PARTIES;
pub const RECORD: usize = MARKS_AT + PARTIES;
pub const REPLY: usize = 7 + RECORD;

/// Three of them no party of a latch is in: holding, and the two of a hub with radios.
#[derive(Clone, Copy, PartialEq)]
pub enum Phase {
    Free,
    Holding,
    Waiting,
    Asked,
    Unnumbered,
    Numbered,
    GivingUp,
    Cancelling,
    Refusing,
    GivingBack,
    Carrying,
    Handing,
    Fetching,
    PuttingBack,
    Raising,
}

pub const PHASES: [(Phase, &str); 15] = [
    (Phase::Free, "free"),
    (Phase::Holding, "holding"),
    (Phase::Waiting, "waiting"),
    (Phase::Asked, "asked"),
    (Phase::Unnumbered, "unnumbered"),
    (Phase::Numbered, "numbered"),
    (Phase::GivingUp, "giving up"),
    (Phase::Cancelling, "cancelling"),
    (Phase::Refusing, "refusing"),
    (Phase::GivingBack, "giving back"),
    (Phase::Carrying, "carrying"),
    (Phase::Handing, "handing"),
    (Phase::Fetching, "fetching"),
    (Phase::PuttingBack, "putting back"),
    (Phase::Raising, "raising"),
];

impl Phase {
    pub fn name(self) -> &'static str {
        PHASES[self as usize].1
    }

    pub fn has_number(self) -> bool {
        use Phase::*;
        matches!(self, Waiting | Numbered | GivingUp | Cancelling | Refusing | Handing)
    }

    /// Whether a party in this phase has hand-overs left.
    pub fn has_left(self) -> bool {
        matches!(self, Phase::Carrying | Phase::Handing)
    }

    /// Whether a party in this phase can have given up early.
    pub fn takes_mark(self) -> bool {
        matches!(self, Phase::Asked | Phase::Raising | Phase::Unnumbered | Phase::Numbered)
    }

    /// Whether no party of a latch is in this phase.
    pub fn is_foreign(self) -> bool {
        matches!(self, Phase::Holding | Phase::Fetching | Phase::PuttingBack)
    }
}

#[derive(Clone, Copy, PartialEq)]
pub struct Party {
    pub phase: Phase,
    /// 0 unless the phase has a number.
    pub number: u32,
    /// Hand-overs left: 0 unless the phase has some.
    pub left: u8,
    /// Whether it gave up early; false unless the phase takes a mark.
    pub marked: bool,
}

impl Party {
    pub const FREE: Party = Party::at(Phase::Free, 0, 0);

    /// A party without a mark.
    pub const fn at(phase: Phase, number: u32, left: u8) -> Self {
        Party { phase, number, left, marked: false }
    }

    /// What the phase does not have is dropped.
    pub fn cleared(self) -> Self {
        Party {
            phase: self.phase,
            number: if self.phase.has_number() { self.number } else { 0 },
            left: if self.phase.has_left() { self.left } else { 0 },
            marked: self.phase.takes_mark() && self.marked,
        }
    }
}

impl fmt::Display for Party {
    fn fmt(&self, f: &mut fmt::Formatter) -> fmt::Result {
        write!(f, "{}", self.phase.name())?;
        if self.phase.has_number() {
            write!(f, " {}", self.number)?;
        }
        if self.phase.has_left() {
            write!(f, ", {} left", self.left)?;
        }
        if self.marked {
            write!(f, " marked")?;
        }
        Ok(())
    }
}

#[derive(Clone, PartialEq)]
pub struct Record {
    pub parties: u8,
    pub count: u8,
    pub waiters: u8,
    pub numbered: u32,
    pub handed: u32,
    pub begun: u32,
    pub oldest: u32,
    /// The place of a number is at its remainder.
    pub places: [Place; PLACES],
    pub phases: [Party; PARTIES],
}

impl Record {
    /// The record of an opening.
    pub fn opened(count: u8, parties: u8) -> Self {
        Record {
            parties,
            count,
            waiters: 0,
            numbered: 0,
            handed: 0,
            begun: 0,
            oldest: 0,
            places: [Place::EMPTY; PLACES],
            phases: [Party::FREE; PARTIES],
        }
    }

    pub fn read(bytes: &[u8]) -> Self {
        let mut record = Record::opened(bytes[1], bytes[0]);
        record.waiters = bytes[2];
        record.numbered = number(&bytes[3..]);
        record.handed = number(&bytes[7..]);
        record.begun = number(&bytes[11..]);
        record.oldest = number(&bytes[15..]);
        for (place, cell) in record.places.iter_mut().zip(bytes[PLACES_AT..].chunks(5)) {
            *place = Place::read(cell);
        }
        for (at, party) in record.phases.iter_mut().enumerate() {
            let cell = &bytes[PHASES_AT + 5 * at..];
            let phase = PHASES[usize::from(cell[0] % 15)].0;
            let marked = bytes[MARKS_AT + at] % 2 == 1;
            let left = bytes[LEFT_AT + at];
            *party = Party { phase, number: number(&cell[1..]), left, marked }.cleared();
        }
        record
    }

    pub fn bytes(&self) -> Vec<u8> {
        let mut bytes = vec![self.parties, self.count, self.waiters];
        for figure in [self.numbered, self.handed, self.begun, self.oldest] {
            bytes.extend(figure.to_be_bytes());
        }
        let places = self.places.iter().map(|place| (place.state as u8, place.party));
        let phases = self.phases.iter().map(|party| (party.phase as u8, party.number));
        for (name, number) in places.chain(phases) {
            bytes.push(name);
            bytes.extend(number.to_be_bytes());
        }
        bytes.extend(self.phases.iter().map(|party| party.left));
        bytes.extend(self.phases.iter().map(|party| u8::from(party.marked)));
        bytes
    }

    pub fn place(&self, number: u32) -> Place {
        self.places[number as usize % PLACES]
    }

    pub fn place_mut(&mut self, number: u32) -> &mut Place {
        &mut self.places[number as usize % PLACES]
    }

    /// The fields that differ from another record's, by name.
    pub fn differences(&self, other: &Record) -> Vec<String> {
        let figures = self.figures().into_iter().zip(other.figures());
        figures
            .filter(|(ours, theirs)| ours != theirs)
            .map(|((name, value), _)| format!("{name} {value}"))
            .chain(runs("place", &self.places, &other.places))
            .chain(runs("party", &self.phases, &other.phases))
            .collect()
    }

    fn figures(&self) -> [(&str, u32); 7] {
        [
            ("n", self.parties.into()),
            ("count", self.count.into()),
            ("waiters", self.waiters.into()),
            ("numbered", self.numbered),
            ("handed", self.handed),
            ("begun", self.begun),
            ("oldest", self.oldest),
        ]
    }
}

impl fmt::Display for Record {
    fn fmt(&self, f: &mut fmt::Formatter) -> fmt::Result {
        // places that are not empty and parties that are not free
        let mut bare = self.clone();
        bare.places = [Place::EMPTY; PLACES];
        bare.phases = [Party::FREE; PARTIES];
        let figures = self.figures().map(|(name, value)| format!("{name} {value}"));
        write!(f, "{}", figures.join(", "))?;
        self.differences(&bare).chunks(8).try_for_each(|some| write!(f, ",\n  {}", some.join(", ")))
    }
}
