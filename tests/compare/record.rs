//! A whole record: its bytes, as tests/README.md lays them out, and how it is shown.

use crate::schedules::BUILT_IN;
use std::fmt;

pub const PLACES: usize = 256;
pub const PARTIES: usize = 32;
/// Most radios of a hub.
pub const RADIOS: usize = 32;
/// Bytes of a record, of a case (a record and a call) and of a reply (an answer and a record).
pub const RECORD: usize = 1881;
pub const CASE: usize = RECORD + 2;
pub const REPLY: usize = 7 + RECORD;

/// Where the places and the phases begin.
const PLACES_AT: usize = 22;
const PHASES_AT: usize = PLACES_AT + 5 * PLACES;

/// Where the radios begin, with a byte that says whether the hub has them: those of the opening,
/// with the parties, at the places, and the store: how far it is turned, how many, and which.
pub const RADIOS_AT: usize = PHASES_AT + 5 * PARTIES;
pub const OPENING_AT: usize = RADIOS_AT + 1;
pub const WITH_PARTY_AT: usize = OPENING_AT + RADIOS;
pub const AT_PLACE_AT: usize = WITH_PARTY_AT + PARTIES;
pub const TURNED_AT: usize = AT_PLACE_AT + PLACES;
pub const STORED_AT: usize = TURNED_AT + 1;
pub const STORE_AT: usize = STORED_AT + 1;
/// Where the marks of the parties begin, and their kinds, which end the record.
pub const MARKS_AT: usize = STORE_AT + RADIOS;
pub const KINDS_AT: usize = MARKS_AT + PARTIES;

#[derive(Clone, Copy, PartialEq)]
pub enum State {
    Empty,
    Waiting,
    Link,
    Cancelled,
    Refused,
    Done,
}

pub const STATES: [State; 6] =
    [State::Empty, State::Waiting, State::Link, State::Cancelled, State::Refused, State::Done];
pub const STATE_NAMES: [&str; 6] = ["empty", "waiting", "link", "cancelled", "refused", "done"];

#[derive(Clone, Copy, PartialEq)]
pub enum Phase {
    Free,
    Holding,
    Waiting,
    Asked,
    Unnumbered,
    Numbered,
    GivingUp,
    Cancelling,
    Refusing,
    GivingBack,
    Carrying,
    Handing,
    Fetching,
    PuttingBack,
}

pub const PHASES: [Phase; 14] = [
    Phase::Free,
    Phase::Holding,
    Phase::Waiting,
    Phase::Asked,
    Phase::Unnumbered,
    Phase::Numbered,
    Phase::GivingUp,
    Phase::Cancelling,
    Phase::Refusing,
    Phase::GivingBack,
    Phase::Carrying,
    Phase::Handing,
    Phase::Fetching,
    Phase::PuttingBack,
];
pub const PHASE_NAMES: [&str; 14] = [
    "free",
    "holding",
    "waiting",
    "asked",
    "unnumbered",
    "numbered",
    "giving up",
    "cancelling",
    "refusing",
    "giving back",
    "carrying",
    "handing",
    "fetching",
    "putting back",
];

impl Phase {
    pub fn has_number(self) -> bool {
        use Phase::*;
        matches!(self, Waiting | Numbered | GivingUp | Cancelling | Refusing | Handing)
    }

    /// Whether a party in this phase has a radio, on a hub with radios.
    pub fn has_radio(self) -> bool {
        use Phase::*;
        matches!(self, Holding | GivingBack | PuttingBack | Carrying | Handing)
    }

    /// Whether a party in this phase can have given up early.
    pub fn takes_mark(self) -> bool {
        matches!(self, Phase::Asked | Phase::Unnumbered | Phase::Numbered)
    }

    /// Whether there is this phase on a hub with radios alone.
    pub fn needs_radios(self) -> bool {
        matches!(self, Phase::Fetching | Phase::PuttingBack)
    }
}

#[derive(Clone, Copy, PartialEq)]
pub struct Place {
    pub state: State,
    /// 0 unless the place is waiting.
    pub party: u32,
}

impl Place {
    pub const EMPTY: Place = Place::of(State::Empty);

    /// A place in any state but waiting.
    pub const fn of(state: State) -> Self {
        Place { state, party: 0 }
    }

    pub const fn waiting(party: u32) -> Self {
        Place { state: State::Waiting, party }
    }

    pub fn read(bytes: &[u8]) -> Self {
        match STATES[usize::from(bytes[0] % 6)] {
            State::Waiting => Place::waiting(number(&bytes[1..])),
            state => Place::of(state),
        }
    }
}

impl fmt::Display for Place {
    fn fmt(&self, f: &mut fmt::Formatter) -> fmt::Result {
        write!(f, "{}", STATE_NAMES[self.state as usize])?;
        if self.state == State::Waiting {
            write!(f, " {}", self.party)?;
        }
        Ok(())
    }
}

#[derive(Clone, Copy, PartialEq)]
pub struct Party {
    pub phase: Phase,
    /// 0 unless the phase has a number.
    pub number: u32,
    /// Whether it gave up early; false unless the phase takes a mark.
    pub marked: bool,
}

impl Party {
    pub const FREE: Party = Party::at(Phase::Free, 0);

    /// A party without a mark.
    pub const fn at(phase: Phase, number: u32) -> Self {
        Party { phase, number, marked: false }
    }

    fn read(bytes: &[u8], mark: u8) -> Self {
        let phase = PHASES[usize::from(bytes[0] % 14)];
        let number = if phase.has_number() { number(&bytes[1..]) } else { 0 };
        Party { phase, number, marked: phase.takes_mark() && mark % 2 == 1 }
    }
}

impl fmt::Display for Party {
    fn fmt(&self, f: &mut fmt::Formatter) -> fmt::Result {
        write!(f, "{}", PHASE_NAMES[self.phase as usize])?;
        if self.phase.has_number() {
            write!(f, " {}", self.number)?;
        }
        if self.marked {
            write!(f, " marked")?;
        }
        Ok(())
    }
}

#[derive(Clone, PartialEq)]
pub struct Record {
    pub links: u8,
    pub parties: u8,
    pub counter: i32,
    pub numbered: u32,
    pub handed: u32,
    pub begun: u32,
    pub oldest: u32,
    /// The place of a number is at its remainder.
    pub places: [Place; PLACES],
    pub phases: [Party; PARTIES],
    /// Whether the hub has radios; without them all below is 0 and the store empty.
    pub has_radios: bool,
    /// The opening's radios, of which the first K count.
    pub opening: [u8; RADIOS],
    /// 0 with a party that has none.
    pub with_party: [u8; PARTIES],
    /// 0 at a place that has none.
    pub at_place: [u8; PLACES],
    /// The first to be taken first.
    pub store: Vec<u8>,
    /// The kind of each party, those from n up too.
    pub kinds: [u8; PARTIES],
}

/// Where a radio can be: with a party, at a place, or stored, the first at 0.
#[derive(Clone, Copy, PartialEq)]
pub enum Keeper {
    Party(usize),
    Place(usize),
    Store(usize),
}

/// The elements that differ from another array's. Equal ones side by side are shown as one.
pub fn runs<T: Copy + PartialEq + fmt::Display>(
    name: &str,
    ours: &[T],
    theirs: &[T],
) -> Vec<String> {
    let mut runs: Vec<(usize, usize, T)> = Vec::new();
    for (at, &value) in ours.iter().enumerate().filter(|&(at, value)| *value != theirs[at]) {
        match runs.last_mut() {
            Some((_, last, same)) if *last + 1 == at && *same == value => *last = at,
            _ => runs.push((at, at, value)),
        }
    }
    let show = |(first, last, value)| {
        if first == last {
            format!("{name} {first} {value}")
        } else {
            format!("{name} {first} to {last} {value}")
        }
    };
    runs.into_iter().map(show).collect()
}

/// The number that the first four bytes make.
pub fn number(bytes: &[u8]) -> u32 {
    u32::from_be_bytes([bytes[0], bytes[1], bytes[2], bytes[3]])
}

impl Record {
    /// The record of an opening, with the built-in kinds.
    pub fn opened(links: u8, parties: u8) -> Self {
        Record {
            links,
            parties,
            counter: i32::from(links),
            numbered: 0,
            handed: 0,
            begun: 0,
            oldest: 0,
            places: [Place::EMPTY; PLACES],
            phases: [Party::FREE; PARTIES],
            has_radios: false,
            opening: [0; RADIOS],
            with_party: [0; PARTIES],
            at_place: [0; PLACES],
            store: Vec::new(),
            kinds: BUILT_IN,
        }
    }

    /// The record of an opening with radios.
    pub fn opened_with(parties: u8, radios: &[u8]) -> Self {
        let mut record = Record::opened(radios.len() as u8, parties);
        record.has_radios = true;
        record.opening[..radios.len()].copy_from_slice(radios);
        record.store = radios.to_vec();
        record
    }

    pub fn read(bytes: &[u8]) -> Self {
        let mut places = [Place::EMPTY; PLACES];
        for (place, bytes) in places.iter_mut().zip(bytes[PLACES_AT..PHASES_AT].chunks(5)) {
            *place = Place::read(bytes);
        }
        let mut phases = [Party::FREE; PARTIES];
        let marks = &bytes[MARKS_AT..KINDS_AT];
        let cells = bytes[PHASES_AT..RADIOS_AT].chunks(5).zip(marks);
        for (party, (bytes, mark)) in phases.iter_mut().zip(cells) {
            *party = Party::read(bytes, *mark);
        }
        let stored = usize::from(bytes[STORED_AT]) % (RADIOS + 1);
        let mut record = Record {
            links: bytes[0],
            parties: bytes[1],
            counter: number(&bytes[2..]) as i32,
            numbered: number(&bytes[6..]),
            handed: number(&bytes[10..]),
            begun: number(&bytes[14..]),
            oldest: number(&bytes[18..]),
            places,
            phases,
            has_radios: bytes[RADIOS_AT] % 2 == 1,
            opening: [0; RADIOS],
            with_party: [0; PARTIES],
            at_place: [0; PLACES],
            store: bytes[STORE_AT..STORE_AT + stored].to_vec(),
            kinds: [0; PARTIES],
        };
        record.opening.copy_from_slice(&bytes[OPENING_AT..WITH_PARTY_AT]);
        record.with_party.copy_from_slice(&bytes[WITH_PARTY_AT..AT_PLACE_AT]);
        record.at_place.copy_from_slice(&bytes[AT_PLACE_AT..TURNED_AT]);
        record.kinds.copy_from_slice(&bytes[KINDS_AT..RECORD]);
        record.clear_radios();
        record
    }

    /// A radio that counts for nothing is 0.
    pub fn clear_radios(&mut self) {
        if !self.has_radios {
            self.opening = [0; RADIOS];
            self.store.clear();
        }
        for party in 0..PARTIES {
            if !self.has_radios || !self.phases[party].phase.has_radio() {
                self.with_party[party] = 0;
            }
        }
        for at in 0..PLACES {
            if !self.has_radios || self.places[at].state != State::Link {
                self.at_place[at] = 0;
            }
        }
    }

    pub fn bytes(&self) -> Vec<u8> {
        let mut bytes = Vec::with_capacity(CASE);
        bytes.extend([self.links, self.parties]);
        bytes.extend(self.counter.to_be_bytes());
        for figure in [self.numbered, self.handed, self.begun, self.oldest] {
            bytes.extend(figure.to_be_bytes());
        }
        let places = self.places.iter().map(|place| (place.state as u8, place.party));
        let phases = self.phases.iter().map(|party| (party.phase as u8, party.number));
        for (name, number) in places.chain(phases) {
            bytes.push(name);
            bytes.extend(number.to_be_bytes());
        }
        bytes.push(u8::from(self.has_radios));
        bytes.extend(self.opening);
        bytes.extend(self.with_party);
        bytes.extend(self.at_place);
        bytes.extend([0, self.store.len() as u8]);
        bytes.extend(&self.store);
        bytes.resize(MARKS_AT, 0);
        bytes.extend(self.phases.iter().map(|party| u8::from(party.marked)));
        bytes.extend(self.kinds);
        bytes
    }

    /// How many radios of the opening count.
    pub fn radios(&self) -> usize {
        usize::from(self.links).min(RADIOS)
    }

    /// The parties and the places that have a radio, on a hub with radios, and the store.
    pub fn keepers(&self) -> Vec<Keeper> {
        let parties = (0..PARTIES).filter(|&party| self.phases[party].phase.has_radio());
        let places = (0..PLACES).filter(|&at| self.places[at].state == State::Link);
        let stored = (0..self.store.len()).map(Keeper::Store);
        parties.map(Keeper::Party).chain(places.map(Keeper::Place)).chain(stored).collect()
    }

    pub fn radio(&self, keeper: Keeper) -> u8 {
        match keeper {
            Keeper::Party(party) => self.with_party[party],
            Keeper::Place(at) => self.at_place[at],
            Keeper::Store(at) => self.store[at],
        }
    }

    pub fn radio_mut(&mut self, keeper: Keeper) -> &mut u8 {
        match keeper {
            Keeper::Party(party) => &mut self.with_party[party],
            Keeper::Place(at) => &mut self.at_place[at],
            Keeper::Store(at) => &mut self.store[at],
        }
    }

    pub fn place(&self, number: u32) -> Place {
        self.places[number as usize % PLACES]
    }

    pub fn place_mut(&mut self, number: u32) -> &mut Place {
        &mut self.places[number as usize % PLACES]
    }

    /// The fields that differ from another record's, by name.
    pub fn differences(&self, other: &Record) -> Vec<String> {
        let figures = self.figures().into_iter().zip(other.figures());
        let figures = figures.filter(|(ours, theirs)| ours != theirs);
        let store = format!("stored {:?}", self.store);
        figures
            .map(|((name, value), _)| format!("{name} {value}"))
            .chain(runs("place", &self.places, &other.places))
            .chain(runs("party", &self.phases, &other.phases))
            .chain(runs("opening's radio", &self.opening, &other.opening))
            .chain(runs("radio with party", &self.with_party, &other.with_party))
            .chain(runs("radio at place", &self.at_place, &other.at_place))
            .chain((self.store != other.store).then_some(store))
            .chain(runs("kind of party", &self.kinds, &other.kinds))
            .collect()
    }

    fn figures(&self) -> [(&str, i64); 8] {
        [
            ("K", self.links.into()),
            ("n", self.parties.into()),
            ("counter", self.counter.into()),
            ("numbered", self.numbered.into()),
            ("handed", self.handed.into()),
            ("begun", self.begun.into()),
            ("oldest", self.oldest.into()),
            ("radios", self.has_radios.into()),
        ]
    }
}

impl fmt::Display for Record {
    fn fmt(&self, f: &mut fmt::Formatter) -> fmt::Result {
        let figures = self.figures().map(|(name, value)| format!("{name} {value}"));
        // places that are not empty, parties that are not free, radios, kinds not built in
        let bare = Record { has_radios: self.has_radios, ..Record::opened(0, 0) };
        let bare = Record {
            links: self.links,
            parties: self.parties,
            counter: self.counter,
            numbered: self.numbered,
            handed: self.handed,
            begun: self.begun,
            oldest: self.oldest,
            ..bare
        };
        let rest = self.differences(&bare);
        write!(f, "{}", figures.join(", "))?;
        rest.chunks(8).try_for_each(|some| write!(f, ",\n  {}", some.join(", ")))
    }
}
