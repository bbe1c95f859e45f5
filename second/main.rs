//! The link hub, second program: a fair semaphore with cancellation, driven by
//! a schedule on standard input, by whole records (`--records`) or by whole
//! operations, on the desk's screen (`--desk`) or on the hub (`--operate`).
//!
//! It is the oracle another implementation is tested against, so it prefers
//! the obvious form: one mutable record and one `match` for the step table.
//!
//! Calls and counters carry the field's terms, the paper's word beside each
//! where it differs: permit (link), acquire (ask), cancel (give up), release
//! (give back), ticket (number of a wait), resume (hand-over), pool (a hub
//! with radios, opened by 02). Phases and places keep the paper's names, save
//! that a place with a link is `Permit`.

use std::array;
use std::collections::VecDeque;
use std::convert::TryFrom;
use std::env;
use std::io::{self, BufRead, BufReader, BufWriter, ErrorKind, Write};
use std::mem;
use std::process::ExitCode;

mod desk;
mod records;
#[cfg(test)]
mod tests;

/// Most permits a hub may have (the paper's K).
const MAX_PERMITS: u8 = 32;
/// Most radios a hub may have: one for each permit.
const MAX_RADIOS: usize = MAX_PERMITS as usize;
/// Phases in the record, and so the most parties a hub may have.
const PARTIES: usize = 32;
/// Places in the ring.
const PLACES: usize = 256;
/// The span of tickets the ring covers: `PLACES`, as tickets are counted.
const SPAN: u32 = PLACES as u32;
/// Most acquires since opening; it bounds both ticket counters too.
const MAX_BEGUN: u32 = 1_000_000;
/// How far the counter may lie from zero.
const MAX_COUNTER: u32 = 32;

/// A radio's name, a byte of the opening.
type Radio = u8;

/// The number of a wait. Place `ticket % PLACES` of the ring belongs to it.
type Ticket = u32;

#[derive(Clone, Copy, Debug, PartialEq, Eq)]
enum Place {
    Empty,
    /// The party that waits here.
    Waiting(u32),
    /// Paper: link. A permit lies here.
    Permit,
    Cancelled,
    Refused,
    Done,
}

#[derive(Clone, Copy, Debug, PartialEq, Eq)]
enum Phase {
    // At rest.
    Free,
    Holding,
    Waiting(Ticket),
    // Busy.
    Asked,
    Unnumbered,
    Numbered(Ticket),
    GivingUp(Ticket),
    Cancelling(Ticket),
    Refusing(Ticket),
    GivingBack,
    Carrying,
    Handing(Ticket),
    /// On a hub with radios: it got a permit (21), its radio is still stored.
    Fetching,
    /// On a hub with radios: its permit is back (26), its radio is not yet.
    PuttingBack,
}

impl Phase {
    /// Whether a party in this phase can have given up early.
    const fn may_be_marked(self) -> bool {
        matches!(self, Phase::Asked | Phase::Unnumbered | Phase::Numbered(_))
    }

    /// Whether a party in this phase has a radio, on a hub with radios.
    const fn has_radio(self) -> bool {
        matches!(
            self,
            Phase::Holding
                | Phase::GivingBack
                | Phase::PuttingBack
                | Phase::Carrying
                | Phase::Handing(_)
        )
    }
}

/// The kind of a party, as a byte of the opening or of a record: any byte.
type Kind = u8;

const DESK: Kind = 0;
const DOOR: Kind = 1;
const REPLACEMENT: Kind = 2;
/// The one kind whose waits may not be given up, and the last one.
const BATTERY_ROUND: Kind = 3;

/// The constant table of kinds, for an opening that brings none.
fn built_in_kinds() -> [Kind; PARTIES] {
    array::from_fn(|party| match party {
        0..=7 => DESK,
        8..=27 => DOOR,
        28..=29 => REPLACEMENT,
        _ => BATTERY_ROUND,
    })
}

/// What refuses an opening's kinds, once they are one for each party. A record
/// whose kinds meet it does not fit. Parties from n up have kinds too.
fn check_kinds(kinds: &[Kind; PARTIES]) -> Result<(), Refusal> {
    let (mut unknown, mut desk) = (false, false);
    // No way out of the loop: each call that is checked goes through it.
    for &kind in kinds {
        unknown |= kind > BATTERY_ROUND;
        desk |= kind == DESK;
    }
    if unknown {
        return Err(Refusal::NoSuchKind);
    }
    if !desk {
        return Err(Refusal::NoDesk);
    }
    Ok(())
}

#[derive(Clone, Copy, Debug, PartialEq, Eq)]
enum Call {
    /// Paper: ask.
    Acquire,
    Step,
    /// Paper: give up.
    Cancel,
    /// Paper: give back.
    Release,
    /// Paper: call 14. Which radio the party has.
    Radio,
}

/// Each refusal is its number in the paper.
#[derive(Clone, Copy, Debug, PartialEq, Eq)]
enum Refusal {
    Misfit = 1,
    Permits = 2,
    Parties = 3,
    NoSuchParty = 4,
    NotFree = 5,
    BegunFull = 6,
    RingFull = 7,
    AtRest = 8,
    NotWaiting = 9,
    MustWait = 10,
    NotHolding = 11,
    Malformed = 12,
    OutOfOrder = 13,
    RadiosAlike = 14,
    KindCount = 15,
    NoSuchKind = 16,
    NoDesk = 17,
}

#[derive(Clone, Copy, Debug, PartialEq, Eq)]
struct Answer {
    code: u8,
    woken: Option<u32>,
    /// A ticket; of 39, a radio.
    number: Option<u32>,
}

impl Answer {
    const fn plain(code: u8) -> Self {
        Answer {
            code,
            woken: None,
            number: None,
        }
    }

    const fn of(code: u8, ticket: Ticket) -> Self {
        Answer {
            code,
            woken: None,
            number: Some(ticket),
        }
    }

    const fn waking(code: u8, ticket: Ticket, woken: u32) -> Self {
        Answer {
            code,
            woken: Some(woken),
            number: Some(ticket),
        }
    }
}

/// The radios of a hub that was opened with them. Each is in one hand.
#[derive(Clone, Debug, PartialEq, Eq)]
struct Pool {
    /// The opening's radios, of which the first K count.
    opening: [Radio; MAX_RADIOS],
    with_party: [Option<Radio>; PARTIES],
    /// The radio of the permit that lies at each place of the ring.
    at_place: [Option<Radio>; PLACES],
    /// First in, first out: taken at the front, put back at the end.
    store: VecDeque<Radio>,
}

/// Where a radio can be.
#[derive(Clone, Copy)]
enum Hand {
    Party(usize),
    /// The place of this ticket.
    Place(Ticket),
    Store,
}

impl Pool {
    /// All radios stored, in the opening's order.
    fn filled(radios: &[Radio]) -> Self {
        let mut opening = [0; MAX_RADIOS];
        opening[..radios.len()].copy_from_slice(radios);
        Pool {
            opening,
            with_party: [None; PARTIES],
            at_place: [None; PLACES],
            store: radios.iter().copied().collect(),
        }
    }

    /// Moves one radio; false if there is none to be moved.
    fn pass(&mut self, from: Hand, to: Hand) -> bool {
        let radio = match from {
            Hand::Party(party) => self.with_party[party].take(),
            Hand::Place(ticket) => self.at_place[ticket as usize % PLACES].take(),
            Hand::Store => self.store.pop_front(),
        };
        let Some(radio) = radio else {
            return false;
        };
        match to {
            Hand::Party(party) => self.with_party[party] = Some(radio),
            Hand::Place(ticket) => self.at_place[ticket as usize % PLACES] = Some(radio),
            Hand::Store => self.store.push_back(radio),
        }
        true
    }
}

fn any_alike(radios: &[Radio]) -> bool {
    (1..radios.len()).any(|at| radios[..at].contains(&radios[at]))
}

#[derive(Clone, Debug, PartialEq, Eq)]
struct Hub {
    /// Paper: K, the links.
    permits: u8,
    /// Paper: n.
    parties: u8,
    counter: i32,
    /// Paper: numbered. The next wait's ticket.
    next_ticket: Ticket,
    /// Paper: handed. The ticket of the next resume.
    next_resume: Ticket,
    /// The first ticket the ring covers.
    oldest: Ticket,
    /// Acquires accepted since opening.
    begun: u32,
    ring: [Place; PLACES],
    phases: [Phase; PARTIES],
    /// Who gave up before waiting, and has neither a permit nor a wait yet.
    marked: [bool; PARTIES],
    /// On a hub with radios, where they are.
    pool: Option<Pool>,
    /// The kind of each party. No call alters it.
    kinds: [Kind; PARTIES],
}

impl Hub {
    fn open(permits: u8, parties: u8) -> Result<Hub, Refusal> {
        if !(1..=MAX_PERMITS).contains(&permits) {
            return Err(Refusal::Permits);
        }
        if !(1..=PARTIES).contains(&usize::from(parties)) {
            return Err(Refusal::Parties);
        }
        Ok(Hub {
            permits,
            parties,
            counter: i32::from(permits),
            next_ticket: 0,
            next_resume: 0,
            oldest: 0,
            begun: 0,
            ring: [Place::Empty; PLACES],
            phases: [Phase::Free; PARTIES],
            marked: [false; PARTIES],
            pool: None,
            kinds: built_in_kinds(),
        })
    }

    /// The second opening (02), with as many radios as permits.
    fn open_pool(permits: u8, parties: u8, radios: &[Radio]) -> Result<Hub, Refusal> {
        let hub = Hub::open(permits, parties)?;
        if any_alike(radios) {
            return Err(Refusal::RadiosAlike);
        }
        Ok(Hub {
            pool: Some(Pool::filled(radios)),
            ..hub
        })
    }

    /// A hub just opened, with the house's own kinds.
    fn with_kinds(self, kinds: &[Kind]) -> Result<Hub, Refusal> {
        let Ok(kinds) = <[Kind; PARTIES]>::try_from(kinds) else {
            return Err(Refusal::KindCount);
        };
        check_kinds(&kinds)?;
        Ok(Hub { kinds, ..self })
    }

    /// One of the five calls. A refusal leaves the whole record alone.
    /// `check` says whether the record must be shown to fit first.
    fn call(&mut self, call: Call, party: u8, check: bool) -> Result<Answer, Refusal> {
        if check && !self.fits() {
            return Err(Refusal::Misfit);
        }
        if party >= self.parties {
            return Err(Refusal::NoSuchParty);
        }
        let party = usize::from(party);
        let answer = match call {
            Call::Acquire => self.acquire(party),
            Call::Step => self.step(party),
            Call::Cancel => self.cancel(party),
            Call::Release => self.release(party),
            Call::Radio => Ok(self.radio(party)),
        }?;
        // Not yet (37) and which radio (39) change nothing.
        if !matches!(answer.code, 0x37 | 0x39) {
            self.tidy();
        }
        Ok(answer)
    }

    /// Paper: ask.
    fn acquire(&mut self, party: usize) -> Result<Answer, Refusal> {
        if self.phases[party] != Phase::Free {
            return Err(Refusal::NotFree);
        }
        if self.begun == MAX_BEGUN {
            return Err(Refusal::BegunFull);
        }
        // Whoever may still take a ticket needs a place kept for it.
        let claims = self.count_phases(|phase| matches!(phase, Phase::Asked | Phase::Unnumbered));
        if self.next_ticket + u32::from(claims) >= self.oldest + SPAN {
            return Err(Refusal::RingFull);
        }
        self.phases[party] = Phase::Asked;
        self.begun += 1;
        Ok(Answer::plain(0x20))
    }

    /// Paper: give up. Before waiting it is remembered, once in an acquire.
    fn cancel(&mut self, party: usize) -> Result<Answer, Refusal> {
        let early = self.phases[party].may_be_marked() && !self.marked[party];
        if !early && !matches!(self.phases[party], Phase::Waiting(_)) {
            return Err(Refusal::NotWaiting);
        }
        if self.kinds[party] == BATTERY_ROUND {
            return Err(Refusal::MustWait);
        }
        match self.phases[party] {
            Phase::Waiting(t) => self.phases[party] = Phase::GivingUp(t),
            _ => self.marked[party] = true,
        }
        Ok(Answer::plain(0x20))
    }

    /// Paper: give back.
    fn release(&mut self, party: usize) -> Result<Answer, Refusal> {
        if self.phases[party] != Phase::Holding {
            return Err(Refusal::NotHolding);
        }
        self.phases[party] = Phase::GivingBack;
        Ok(Answer::plain(0x20))
    }

    /// Which radio a party has; none on a hub without radios.
    fn radio(&self, party: usize) -> Answer {
        let radio = self.pool.as_ref().and_then(|pool| pool.with_party[party]);
        Answer {
            code: 0x39,
            woken: None,
            number: radio.map(u32::from),
        }
    }

    /// On a hub with radios, a permit that moves takes its radio along. False
    /// if there was none to move.
    fn pass_radio(&mut self, from: Hand, to: Hand) -> bool {
        self.pool.as_mut().is_some_and(|pool| pool.pass(from, to))
    }

    /// The step table. Counter tests look at the value before the change. A
    /// place in a state the table does not list means that the record never
    /// fitted; those arms answer so before anything is altered. The mark of
    /// an early cancel ends with a permit or with the wait.
    fn step(&mut self, party: usize) -> Result<Answer, Refusal> {
        let (phase, answer) = match self.phases[party] {
            Phase::Free | Phase::Holding | Phase::Waiting(_) => return Err(Refusal::AtRest),

            Phase::Asked => {
                let before = self.counter;
                self.counter -= 1;
                if before > 0 {
                    let acquired = match self.pool {
                        Some(_) => Phase::Fetching,
                        None => Phase::Holding,
                    };
                    self.marked[party] = false;
                    (acquired, Answer::plain(0x21))
                } else {
                    (Phase::Unnumbered, Answer::plain(0x22))
                }
            }
            Phase::Unnumbered => {
                let t = self.next_ticket;
                self.next_ticket += 1;
                (Phase::Numbered(t), Answer::of(0x23, t))
            }
            Phase::Numbered(t) => match self.place(t) {
                Place::Empty => {
                    self.set_place(t, Place::Waiting(party as u32));
                    let waiting = if mem::take(&mut self.marked[party]) {
                        Phase::GivingUp(t)
                    } else {
                        Phase::Waiting(t)
                    };
                    (waiting, Answer::of(0x24, t))
                }
                Place::Permit => {
                    self.set_place(t, Place::Done);
                    self.pass_radio(Hand::Place(t), Hand::Party(party));
                    self.marked[party] = false;
                    (Phase::Holding, Answer::of(0x25, t))
                }
                _ => return Err(Refusal::Misfit),
            },

            Phase::GivingBack => {
                let before = self.counter;
                self.counter += 1;
                if before >= 0 {
                    let released = match self.pool {
                        Some(_) => Phase::PuttingBack,
                        None => Phase::Free,
                    };
                    (released, Answer::plain(0x26))
                } else {
                    (Phase::Carrying, Answer::plain(0x27))
                }
            }
            Phase::Carrying => {
                let t = self.next_resume;
                self.next_resume += 1;
                (Phase::Handing(t), Answer::of(0x28, t))
            }
            Phase::Handing(t) => match self.place(t) {
                Place::Empty => {
                    self.set_place(t, Place::Permit);
                    self.pass_radio(Hand::Party(party), Hand::Place(t));
                    (Phase::Free, Answer::of(0x29, t))
                }
                Place::Waiting(waiter) => match self.phases.get_mut(waiter as usize) {
                    Some(phase @ Phase::Waiting(_)) => {
                        *phase = Phase::Holding;
                        self.set_place(t, Place::Done);
                        self.pass_radio(Hand::Party(party), Hand::Party(waiter as usize));
                        (Phase::Free, Answer::waking(0x2A, t, waiter))
                    }
                    // The waiter is leaving and will find the permit.
                    _ => {
                        self.set_place(t, Place::Permit);
                        self.pass_radio(Hand::Party(party), Hand::Place(t));
                        (Phase::Free, Answer::of(0x2B, t))
                    }
                },
                Place::Cancelled => {
                    self.set_place(t, Place::Done);
                    (Phase::Carrying, Answer::of(0x2C, t))
                }
                // The counter has this permit already; its radio is stored.
                Place::Refused => {
                    self.set_place(t, Place::Done);
                    self.pass_radio(Hand::Party(party), Hand::Store);
                    (Phase::Free, Answer::of(0x2D, t))
                }
                Place::Permit | Place::Done => return Err(Refusal::Misfit),
            },

            Phase::GivingUp(t) => {
                let before = self.counter;
                self.counter += 1;
                if before < 0 {
                    (Phase::Cancelling(t), Answer::plain(0x2E))
                } else {
                    (Phase::Refusing(t), Answer::plain(0x2F))
                }
            }
            Phase::Cancelling(t) => match self.place(t) {
                Place::Waiting(_) => {
                    self.set_place(t, Place::Cancelled);
                    (Phase::Free, Answer::of(0x30, t))
                }
                Place::Permit => {
                    self.set_place(t, Place::Done);
                    self.pass_radio(Hand::Place(t), Hand::Party(party));
                    (Phase::Carrying, Answer::of(0x31, t))
                }
                _ => return Err(Refusal::Misfit),
            },
            Phase::Refusing(t) => match self.place(t) {
                Place::Waiting(_) => {
                    self.set_place(t, Place::Refused);
                    (Phase::Free, Answer::of(0x32, t))
                }
                // Dropped here: the counter took this permit back at 2F. Its
                // radio is stored.
                Place::Permit => {
                    self.set_place(t, Place::Done);
                    self.pass_radio(Hand::Place(t), Hand::Store);
                    (Phase::Free, Answer::of(0x33, t))
                }
                _ => return Err(Refusal::Misfit),
            },

            Phase::Fetching | Phase::PuttingBack if self.pool.is_none() => {
                return Err(Refusal::Misfit)
            }
            Phase::Fetching => {
                if self.pass_radio(Hand::Store, Hand::Party(party)) {
                    (Phase::Holding, Answer::plain(0x36))
                } else {
                    (Phase::Fetching, Answer::plain(0x37))
                }
            }
            Phase::PuttingBack => {
                self.pass_radio(Hand::Party(party), Hand::Store);
                (Phase::Free, Answer::plain(0x38))
            }
        };
        self.phases[party] = phase;
        Ok(answer)
    }

    /// Ends every success: passes the cancelled places next to be resumed,
    /// then frees the done places at the ring's old end.
    fn tidy(&mut self) {
        while self.covers(self.next_resume) && self.place(self.next_resume) == Place::Cancelled {
            self.set_place(self.next_resume, Place::Done);
            self.next_resume += 1;
        }
        while self.place(self.oldest) == Place::Done {
            self.set_place(self.oldest, Place::Empty);
            self.oldest += 1;
        }
    }

    /// The paper's "A record that fits", on any value of the type. The bounds
    /// come first: they keep the sums after them from overflowing.
    fn fits(&self) -> bool {
        self.bounds_fit()
            && self.phases.iter().all(|&phase| self.phase_fits(phase))
            && (0..PARTIES).all(|party| self.mark_fits(party))
            && (self.oldest..self.oldest + SPAN).all(|t| self.place_fits(t))
            && self.radios_fit()
            && check_kinds(&self.kinds).is_ok()
    }

    fn bounds_fit(&self) -> bool {
        let parties = usize::from(self.parties);
        (1..=MAX_PERMITS).contains(&self.permits)
            && (1..=PARTIES).contains(&parties)
            && self
                .phases
                .iter()
                .skip(parties)
                .all(|&phase| phase == Phase::Free)
            && self.counter.unsigned_abs() <= MAX_COUNTER
            && self.begun <= MAX_BEGUN
            && [self.next_ticket, self.next_resume]
                .iter()
                .all(|&next| next <= MAX_BEGUN && self.oldest <= next && next - self.oldest <= SPAN)
    }

    /// Any ticket lies in the ring and was given out; a place about to be
    /// acted on is in a state the step table lists; and a ticket about to be
    /// taken has a place.
    fn phase_fits(&self, phase: Phase) -> bool {
        match phase {
            Phase::Free | Phase::Holding | Phase::Asked | Phase::GivingBack => true,
            Phase::Fetching | Phase::PuttingBack => self.pool.is_some(),
            Phase::Unnumbered => self.covers(self.next_ticket),
            Phase::Carrying => self.covers(self.next_resume),
            // Neither acts on its place: one rests, the other only counts.
            Phase::Waiting(t) | Phase::GivingUp(t) => self.covers(t) && t < self.next_ticket,
            Phase::Numbered(t) => {
                self.covers(t)
                    && t < self.next_ticket
                    && matches!(self.place(t), Place::Empty | Place::Permit)
            }
            Phase::Cancelling(t) | Phase::Refusing(t) => {
                self.covers(t)
                    && t < self.next_ticket
                    && matches!(self.place(t), Place::Waiting(_) | Place::Permit)
            }
            Phase::Handing(t) => {
                self.covers(t)
                    && t < self.next_resume
                    && !matches!(self.place(t), Place::Permit | Place::Done)
            }
        }
    }

    /// Nobody who holds or waits, or is through with that, is marked.
    fn mark_fits(&self, party: usize) -> bool {
        !self.marked[party] || self.phases[party].may_be_marked()
    }

    /// A waiting place's party is there, or on its way out, with that ticket.
    fn place_fits(&self, ticket: Ticket) -> bool {
        let Place::Waiting(waiter) = self.place(ticket) else {
            return true;
        };
        match self.phases.get(waiter as usize) {
            Some(
                Phase::Waiting(t) | Phase::GivingUp(t) | Phase::Cancelling(t) | Phase::Refusing(t),
            ) => *t == ticket,
            _ => false,
        }
    }

    /// On a hub with radios the opening's are no two alike, and those with
    /// the parties, at the places and in the store, together, are the same,
    /// each once, in any order.
    fn radios_fit(&self) -> bool {
        let Some(pool) = &self.pool else {
            return true;
        };
        let parties = (self.phases.iter().zip(pool.with_party))
            .filter(|(phase, _)| phase.has_radio())
            .map(|(_, radio)| radio);
        let places = (self.ring.iter().zip(pool.at_place))
            .filter(|&(&place, _)| place == Place::Permit)
            .map(|(_, radio)| radio);
        let stored = pool.store.iter().map(|&radio| Some(radio));
        let hands: Option<Vec<Radio>> = parties.chain(places).chain(stored).collect();
        let Some(mut hands) = hands else {
            return false;
        };
        let mut opening = pool.opening[..usize::from(self.permits)].to_vec();
        opening.sort_unstable();
        hands.sort_unstable();
        !any_alike(&opening) && hands == opening
    }

    /// Whether the ring has a place for this ticket now.
    fn covers(&self, ticket: Ticket) -> bool {
        ticket >= self.oldest && ticket - self.oldest < SPAN
    }

    fn place(&self, ticket: Ticket) -> Place {
        self.ring[ticket as usize % PLACES]
    }

    fn set_place(&mut self, ticket: Ticket, place: Place) {
        self.ring[ticket as usize % PLACES] = place;
    }

    fn holders(&self) -> u8 {
        self.count_phases(|phase| {
            matches!(phase, Phase::Holding | Phase::GivingBack | Phase::Fetching)
        })
    }

    fn waiters(&self) -> u8 {
        self.count_phases(|phase| matches!(phase, Phase::Waiting(_)))
    }

    fn count_phases(&self, wanted: impl Fn(Phase) -> bool) -> u8 {
        self.phases
            .iter()
            .map(|&phase| u8::from(wanted(phase)))
            .sum()
    }
}

/// Longest line, in bytes before its line feed, that is looked into.
const MAX_LINE: usize = 160;
/// Printed for a party that is not there.
const NO_PARTY: u8 = 0xFF;
/// Printed for a ticket or a radio that is not there.
const NO_NUMBER: u32 = u32::MAX;
/// Bytes read or written at a time.
const BUFFER: usize = 64 * 1024;

enum Frame {
    Open(Opening),
    Call { call: Call, party: u8 },
}

struct Opening {
    permits: u8,
    parties: u8,
    /// Of opening 02.
    radios: Option<Vec<Radio>>,
    /// All bytes after those. Where there are none the built-in kinds hold.
    kinds: Vec<Kind>,
}

impl Opening {
    fn hub(&self) -> Result<Hub, Refusal> {
        let hub = match &self.radios {
            None => Hub::open(self.permits, self.parties),
            Some(radios) => Hub::open_pool(self.permits, self.parties, radios),
        }?;
        match &self.kinds[..] {
            [] => Ok(hub),
            kinds => hub.with_kinds(kinds),
        }
    }
}

fn parse(line: &[u8]) -> Option<Frame> {
    if line.len() > MAX_LINE {
        return None;
    }
    read_frame(&decode_hex(line)?)
}

fn read_frame(frame: &[u8]) -> Option<Frame> {
    match *frame {
        [0x01, permits, parties, ref kinds @ ..] => Some(Frame::Open(Opening {
            permits,
            parties,
            radios: None,
            kinds: kinds.to_vec(),
        })),
        [0x02, permits, parties, ref rest @ ..] => {
            // As many radios as it says, whether or not a hub may have so many.
            let (radios, kinds) = rest.split_at_checked(usize::from(permits))?;
            Some(Frame::Open(Opening {
                permits,
                parties,
                radios: Some(radios.to_vec()),
                kinds: kinds.to_vec(),
            }))
        }
        [0x10, party] => Some(Frame::Call {
            call: Call::Acquire,
            party,
        }),
        [0x11, party] => Some(Frame::Call {
            call: Call::Step,
            party,
        }),
        [0x12, party] => Some(Frame::Call {
            call: Call::Cancel,
            party,
        }),
        [0x13, party] => Some(Frame::Call {
            call: Call::Release,
            party,
        }),
        [0x14, party] => Some(Frame::Call {
            call: Call::Radio,
            party,
        }),
        _ => None,
    }
}

fn decode_hex(line: &[u8]) -> Option<Vec<u8>> {
    line.chunks(2)
        .map(|pair| match *pair {
            [high, low] => Some(hex_digit(high)? << 4 | hex_digit(low)?),
            _ => None,
        })
        .collect()
}

fn hex_digit(byte: u8) -> Option<u8> {
    match byte {
        b'0'..=b'9' => Some(byte - b'0'),
        b'A'..=b'F' => Some(byte - b'A' + 10),
        b'a'..=b'f' => Some(byte - b'a' + 10),
        _ => None,
    }
}

/// The schedule program: at most one hub, opened by the first accepted opening.
struct Program {
    hub: Option<Hub>,
    check: bool,
}

impl Program {
    /// The party byte to print for a line, and what became of it.
    fn answer(&mut self, line: &[u8]) -> (u8, Result<Answer, Refusal>) {
        match parse(line) {
            None => (NO_PARTY, Err(Refusal::Malformed)),
            Some(Frame::Open(opening)) => (NO_PARTY, self.open(&opening)),
            Some(Frame::Call { call, party }) => {
                let outcome = match &mut self.hub {
                    Some(hub) => hub.call(call, party, self.check),
                    None => Err(Refusal::OutOfOrder),
                };
                (party, outcome)
            }
        }
    }

    /// Either opening, if none was accepted yet.
    fn open(&mut self, opening: &Opening) -> Result<Answer, Refusal> {
        if self.hub.is_some() {
            return Err(Refusal::OutOfOrder);
        }
        self.hub = Some(opening.hub()?);
        Ok(Answer::plain(0x1F))
    }
}

/// Reads the next line, without its line feed, into `line`; false when there is
/// none. Keeps one byte more than a line may have, which is enough to tell that
/// it is over-long and bounds the memory.
fn read_line(input: &mut impl BufRead, line: &mut Vec<u8>) -> io::Result<bool> {
    line.clear();
    loop {
        let chunk = match input.fill_buf() {
            Ok(chunk) => chunk,
            Err(error) if error.kind() == ErrorKind::Interrupted => continue,
            Err(error) => return Err(error),
        };
        if chunk.is_empty() {
            // A line left without its line feed counts; nothing is no line.
            return Ok(!line.is_empty());
        }
        let feed = chunk.iter().position(|&byte| byte == b'\n');
        let part = &chunk[..feed.unwrap_or(chunk.len())];
        let room = (MAX_LINE + 1).saturating_sub(line.len());
        line.extend(part.iter().take(room));
        let used = part.len() + usize::from(feed.is_some());
        input.consume(used);
        if feed.is_some() {
            return Ok(true);
        }
    }
}

fn write_answer(
    output: &mut impl Write,
    party: u8,
    outcome: Result<Answer, Refusal>,
) -> io::Result<()> {
    let answer = outcome.unwrap_or_else(|refusal| Answer::plain(refusal as u8));
    let woken = answer.woken.unwrap_or(u32::from(NO_PARTY));
    let number = answer.number.unwrap_or(NO_NUMBER);
    writeln!(
        output,
        "{:02X}{party:02X}{woken:02X}{number:08X}",
        answer.code
    )
}

fn write_closing(output: &mut impl Write, hub: Option<&Hub>) -> io::Result<()> {
    let (holders, waiters, counter) =
        hub.map_or((0, 0, 0), |hub| (hub.holders(), hub.waiters(), hub.counter));
    // A negative counter prints in two's complement.
    writeln!(output, "7E{holders:02X}{waiters:02X}{counter:08X}")
}

fn run(mut input: impl BufRead, mut output: impl Write, check: bool) -> io::Result<()> {
    let mut program = Program { hub: None, check };
    let mut line = Vec::with_capacity(MAX_LINE + 1);
    while read_line(&mut input, &mut line)? {
        let (party, outcome) = program.answer(&line);
        write_answer(&mut output, party, outcome)?;
    }
    write_closing(&mut output, program.hub.as_ref())?;
    output.flush()
}

fn main() -> ExitCode {
    let arguments: Vec<_> = env::args_os().skip(1).collect();
    let input = BufReader::with_capacity(BUFFER, io::stdin().lock());
    let output = BufWriter::with_capacity(BUFFER, io::stdout().lock());
    let outcome = match &arguments[..] {
        [] => run(input, output, true),
        [mode] if mode == "--no-check" => run(input, output, false),
        [mode] if mode == "--records" => records::run(input, output),
        [mode] if mode == "--desk" => desk::run(input, output),
        [mode] if mode == "--operate" => desk::run_operations(input, output),
        _ => return fail("usage: main [--no-check|--records|--desk|--operate] < input > answers"),
    };
    match outcome {
        Ok(()) => ExitCode::SUCCESS,
        Err(error) => fail(&error.to_string()),
    }
}

/// Says why on standard error. `eprintln!` would panic if that were closed.
fn fail(message: &str) -> ExitCode {
    let _ = writeln!(io::stderr(), "{message}");
    ExitCode::FAILURE
}
