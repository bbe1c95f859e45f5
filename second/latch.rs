//! The count-down latch, second program: request M-150, driven by whole runs
//! or, with `--records`, by single calls on any record. It is the oracle that
//! another implementation is tested against, so it prefers the obvious form:
//! one mutable record and one `match` for the step table.
//!
//! Calls and counters carry the field's terms, the paper's word beside each
//! where it differs: cancel (give up), ticket (number of a wait), resume
//! (hand-over). Phases and places keep the paper's names. The mark that is
//! reached is the count at 0; a mark with a party is an early cancel.
//!
//! Either mode answers every whole case; what is left at the end of the input
//! is none. Numbers of four bytes have their high byte first. An answer is the
//! seven bytes of document 01: code, party, woken party or FF, number or
//! FFFFFFFF.
//!
//! A run is a latch opened, and calls made on it:
//!
//! | bytes | of a run                                                 |
//! |-------|----------------------------------------------------------|
//! | 1, 1  | N and n                                                  |
//! | 4, 4  | how many bytes the calls have, and the room for answers  |
//! | rest  | the calls: 10 await, 11 step, 12 give up, 13 count down, |
//! |       | each with its party                                      |
//!
//! Its reply is one byte, 0 done, 3 or 18 not opened, 254 malformed calls, 255
//! no room, the first of these that applies; and after 0 the answers.
//!
//! A record and a call are 1525 bytes; their reply, an answer and the record
//! that is left, has 1530:
//!
//! | bytes       | of a record (1523)                                     |
//! |-------------|--------------------------------------------------------|
//! | 1, 1, 1     | n, the count, the waiters                              |
//! | 4, 4, 4, 4  | numbered, handed, begun, oldest                        |
//! | 256 times 5 | (from byte 19 on) the places: a state, and a party of  |
//! |             | four bytes; that of number t is at t modulo 256        |
//! | 32 times 5  | (1299) the parties: a phase, and a number              |
//! | 32          | (1459) the hand-overs that each party has left         |
//! | 32          | (1491) the mark of each: 1 if it gave up early, else 0 |
//!
//! States and phases have the numbers that they have in a hub's record, and
//! raising is 14: 0 empty, 1 waiting, 2 link, 3 cancelled, 4 refused, 5 done; 0
//! free, 1 holding, 2 waiting, 3 asked, 4 unnumbered, 5 numbered, 6 giving up,
//! 7 cancelling, 8 refusing, 9 giving back, 10 carrying, 11 handing. The call
//! after the record is its code and its party.
//!
//! Every case can be read. A state counts modulo 6, a phase modulo 15, a code
//! modulo 4, a mark modulo 2. Phases 12 and 13, which only a hub with radios
//! has, are read as holding, which does not fit either. What counts for nothing is
//! passed over and written as 0: the party of a place that is not waiting, the
//! number of a phase that has none, the hand-overs of a party neither carrying
//! nor handing, the mark of one not asked, raising, unnumbered or numbered.

use std::env;
use std::io::{self, BufReader, BufWriter, ErrorKind, Read, Write};
use std::mem;
use std::process::ExitCode;

#[cfg(test)]
#[path = "latch_tests.rs"]
mod tests;

/// Phases in the record, and so the most parties a latch may have.
const PARTIES: usize = 32;
/// Most count-downs that a latch may be opened with (the paper's N).
const MAX_COUNT: u8 = 200;
/// Most waiters, and most resumes that a party may have left.
const MAX_WAITERS: u8 = 32;
/// Places in the ring.
const PLACES: usize = 256;
/// The span of tickets the ring covers: `PLACES`, as tickets are counted.
const SPAN: u32 = PLACES as u32;
/// Most awaits since opening; it bounds both ticket counters too.
const MAX_BEGUN: u32 = 1_000_000;

/// The number of a wait. Place `ticket % PLACES` of the ring belongs to it.
type Ticket = u32;

#[derive(Clone, Copy, Debug, PartialEq, Eq)]
enum Place {
    Empty,
    /// The party that waits here.
    Waiting(u32),
    /// A resume came and has not been met yet.
    Link,
    Cancelled,
    Refused,
    Done,
}

#[derive(Clone, Copy, Debug, PartialEq, Eq)]
enum Phase {
    // At rest.
    Free,
    /// Of the hub. No party of a latch holds anything.
    Holding,
    Waiting(Ticket),
    // Busy.
    Asked,
    /// It saw the count above 0, and is about to be a waiter.
    Raising,
    Unnumbered,
    Numbered(Ticket),
    GivingUp(Ticket),
    Cancelling(Ticket),
    Refusing(Ticket),
    /// It is counting down.
    GivingBack,
    /// With the resumes that it has left, this one and those after it.
    Carrying(u8),
    Handing(Ticket, u8),
}

impl Phase {
    /// Whether a party in this phase can have given up early.
    const fn may_be_marked(self) -> bool {
        matches!(
            self,
            Phase::Asked | Phase::Raising | Phase::Unnumbered | Phase::Numbered(_)
        )
    }

    /// After a resume, of so many that were left.
    const fn resumed(left: u8) -> Phase {
        if left > 1 {
            Phase::Carrying(left - 1)
        } else {
            Phase::Free
        }
    }
}

/// Waits of kind 3 may not be given up: parties 30 and 31 of the hub's table.
const fn must_wait(party: usize) -> bool {
    party >= 30
}

#[derive(Clone, Copy, Debug, PartialEq, Eq)]
enum Call {
    Await,
    Step,
    /// Paper: give up.
    Cancel,
    CountDown,
}

/// Each refusal is its number in the paper.
#[derive(Clone, Copy, Debug, PartialEq, Eq)]
enum Refusal {
    Misfit = 1,
    Parties = 3,
    NoSuchParty = 4,
    NotFree = 5,
    BegunFull = 6,
    RingFull = 7,
    AtRest = 8,
    NotWaiting = 9,
    MustWait = 10,
    Count = 18,
}

#[derive(Clone, Copy, Debug, PartialEq, Eq)]
struct Answer {
    code: u8,
    woken: Option<u32>,
    ticket: Option<Ticket>,
}

impl Answer {
    const fn plain(code: u8) -> Self {
        Answer {
            code,
            woken: None,
            ticket: None,
        }
    }

    const fn of(code: u8, ticket: Ticket) -> Self {
        Answer {
            code,
            woken: None,
            ticket: Some(ticket),
        }
    }

    const fn waking(code: u8, ticket: Ticket, woken: u32) -> Self {
        Answer {
            code,
            woken: Some(woken),
            ticket: Some(ticket),
        }
    }
}

#[derive(Clone, Debug, PartialEq, Eq)]
struct Latch {
    /// Paper: n.
    parties: u8,
    /// Count-downs still to come. At 0 the mark is reached, for good.
    count: u8,
    /// Who counted as waiting when the mark was reached stays counted.
    waiters: u8,
    /// Paper: numbered. The next wait's ticket.
    next_ticket: Ticket,
    /// Paper: handed. The ticket of the next resume.
    next_resume: Ticket,
    /// The first ticket the ring covers.
    oldest: Ticket,
    /// Awaits accepted since opening.
    begun: u32,
    ring: [Place; PLACES],
    phases: [Phase; PARTIES],
    /// Who gave up before waiting, and is neither let go nor waiting yet.
    marked: [bool; PARTIES],
}

impl Latch {
    fn open(count: u8, parties: u8) -> Result<Latch, Refusal> {
        if !(1..=PARTIES).contains(&usize::from(parties)) {
            return Err(Refusal::Parties);
        }
        if !(1..=MAX_COUNT).contains(&count) {
            return Err(Refusal::Count);
        }
        Ok(Latch {
            parties,
            count,
            waiters: 0,
            next_ticket: 0,
            next_resume: 0,
            oldest: 0,
            begun: 0,
            ring: [Place::Empty; PLACES],
            phases: [Phase::Free; PARTIES],
            marked: [false; PARTIES],
        })
    }

    /// One of the four calls. A refusal leaves the whole record alone.
    fn call(&mut self, call: Call, party: u8) -> Result<Answer, Refusal> {
        if !self.fits() {
            return Err(Refusal::Misfit);
        }
        if party >= self.parties {
            return Err(Refusal::NoSuchParty);
        }
        let party = usize::from(party);
        let answer = match call {
            Call::Await => self.begin(party),
            Call::Step => self.step(party),
            Call::Cancel => self.cancel(party),
            Call::CountDown => self.count_down(party),
        }?;
        self.tidy();
        Ok(answer)
    }

    /// Paper: await, the hub's ask.
    fn begin(&mut self, party: usize) -> Result<Answer, Refusal> {
        if self.phases[party] != Phase::Free {
            return Err(Refusal::NotFree);
        }
        if self.begun == MAX_BEGUN {
            return Err(Refusal::BegunFull);
        }
        // Whoever may still take a ticket needs a place kept for it.
        let may_take =
            |phase: &&Phase| matches!(phase, Phase::Asked | Phase::Raising | Phase::Unnumbered);
        let claims = self.phases.iter().filter(may_take).count() as u32;
        if self.next_ticket + claims >= self.oldest + SPAN {
            return Err(Refusal::RingFull);
        }
        self.phases[party] = Phase::Asked;
        self.begun += 1;
        Ok(Answer::plain(0x20))
    }

    /// Paper: give up. Before waiting it is remembered, once in an await.
    fn cancel(&mut self, party: usize) -> Result<Answer, Refusal> {
        let early = self.phases[party].may_be_marked() && !self.marked[party];
        if !early && !matches!(self.phases[party], Phase::Waiting(_)) {
            return Err(Refusal::NotWaiting);
        }
        if must_wait(party) {
            return Err(Refusal::MustWait);
        }
        match self.phases[party] {
            Phase::Waiting(t) => self.phases[party] = Phase::GivingUp(t),
            _ => self.marked[party] = true,
        }
        Ok(Answer::plain(0x20))
    }

    fn count_down(&mut self, party: usize) -> Result<Answer, Refusal> {
        if self.phases[party] != Phase::Free {
            return Err(Refusal::NotFree);
        }
        self.phases[party] = Phase::GivingBack;
        Ok(Answer::plain(0x20))
    }

    /// Whether the mark is reached.
    fn is_open(&self) -> bool {
        self.count == 0
    }

    /// The step table. A place in a state the table does not list means that
    /// the record never fitted; those arms answer so before anything is
    /// altered. The mark of an early cancel ends with 21, 25 or the wait.
    fn step(&mut self, party: usize) -> Result<Answer, Refusal> {
        let (phase, answer) = match self.phases[party] {
            Phase::Free | Phase::Holding | Phase::Waiting(_) => return Err(Refusal::AtRest),

            Phase::Asked | Phase::Raising if self.is_open() => {
                self.marked[party] = false;
                (Phase::Free, Answer::plain(0x21))
            }
            Phase::Asked => (Phase::Raising, Answer::plain(0x22)),
            Phase::Raising => {
                self.waiters += 1;
                (Phase::Unnumbered, Answer::plain(0x22))
            }
            Phase::Unnumbered => {
                let t = self.next_ticket;
                self.next_ticket += 1;
                (Phase::Numbered(t), Answer::of(0x23, t))
            }
            Phase::Numbered(t) => match self.place(t) {
                Place::Empty => {
                    self.set_place(t, Place::Waiting(party as u32));
                    let waiting = if mem::take(&mut self.marked[party]) {
                        Phase::GivingUp(t)
                    } else {
                        Phase::Waiting(t)
                    };
                    (waiting, Answer::of(0x24, t))
                }
                Place::Link => {
                    self.set_place(t, Place::Done);
                    self.marked[party] = false;
                    (Phase::Free, Answer::of(0x25, t))
                }
                _ => return Err(Refusal::Misfit),
            },

            Phase::GivingBack => {
                let reaches = self.count == 1;
                self.count = self.count.saturating_sub(1);
                if reaches && self.waiters > 0 {
                    (Phase::Carrying(self.waiters), Answer::plain(0x27))
                } else {
                    (Phase::Free, Answer::plain(0x26))
                }
            }
            Phase::Carrying(left) => {
                let t = self.next_resume;
                self.next_resume += 1;
                (Phase::Handing(t, left), Answer::of(0x28, t))
            }
            Phase::Handing(t, left) => match self.place(t) {
                Place::Empty => {
                    self.set_place(t, Place::Link);
                    (Phase::resumed(left), Answer::of(0x29, t))
                }
                Place::Waiting(waiter) => match self.phases.get_mut(waiter as usize) {
                    Some(phase @ Phase::Waiting(_)) => {
                        *phase = Phase::Free;
                        self.set_place(t, Place::Done);
                        (Phase::resumed(left), Answer::waking(0x2A, t, waiter))
                    }
                    // The waiter is leaving and will find the link.
                    _ => {
                        self.set_place(t, Place::Link);
                        (Phase::resumed(left), Answer::of(0x2B, t))
                    }
                },
                // Whoever waited here left before the mark: no resume is its own.
                Place::Cancelled => {
                    self.set_place(t, Place::Done);
                    (Phase::Carrying(left), Answer::of(0x2C, t))
                }
                Place::Refused => {
                    self.set_place(t, Place::Done);
                    (Phase::resumed(left), Answer::of(0x2D, t))
                }
                Place::Link | Place::Done => return Err(Refusal::Misfit),
            },

            Phase::GivingUp(t) => {
                self.waiters = self.waiters.saturating_sub(1);
                if self.is_open() {
                    (Phase::Refusing(t), Answer::plain(0x2F))
                } else {
                    (Phase::Cancelling(t), Answer::plain(0x2E))
                }
            }
            Phase::Cancelling(t) => match self.place(t) {
                Place::Waiting(_) => {
                    self.set_place(t, Place::Cancelled);
                    (Phase::Free, Answer::of(0x30, t))
                }
                // It left before the mark: this resume is a later wait's.
                Place::Link => {
                    self.set_place(t, Place::Done);
                    (Phase::Carrying(1), Answer::of(0x31, t))
                }
                _ => return Err(Refusal::Misfit),
            },
            Phase::Refusing(t) => match self.place(t) {
                Place::Waiting(_) => {
                    self.set_place(t, Place::Refused);
                    (Phase::Free, Answer::of(0x32, t))
                }
                Place::Link => {
                    self.set_place(t, Place::Done);
                    (Phase::Free, Answer::of(0x33, t))
                }
                _ => return Err(Refusal::Misfit),
            },
        };
        self.phases[party] = phase;
        Ok(answer)
    }

    /// Ends every success: passes the cancelled places next to be resumed,
    /// then frees the done places at the ring's old end.
    fn tidy(&mut self) {
        while self.covers(self.next_resume) && self.place(self.next_resume) == Place::Cancelled {
            self.set_place(self.next_resume, Place::Done);
            self.next_resume += 1;
        }
        while self.place(self.oldest) == Place::Done {
            self.set_place(self.oldest, Place::Empty);
            self.oldest += 1;
        }
    }

    /// The paper's "A record that fits", on any value of the type. The bounds
    /// come first: they keep the sums after them from overflowing.
    fn fits(&self) -> bool {
        self.bounds_fit()
            && self.phases.iter().all(|&phase| self.phase_fits(phase))
            && (0..PARTIES).all(|party| self.mark_fits(party))
            && (self.oldest..self.oldest + SPAN).all(|t| self.place_fits(t))
    }

    fn bounds_fit(&self) -> bool {
        let parties = usize::from(self.parties);
        (1..=PARTIES).contains(&parties)
            && self
                .phases
                .iter()
                .skip(parties)
                .all(|&phase| phase == Phase::Free)
            && self.count <= MAX_COUNT
            && self.waiters <= MAX_WAITERS
            && self.begun <= MAX_BEGUN
            && [self.next_ticket, self.next_resume]
                .iter()
                .all(|&next| next <= MAX_BEGUN && self.oldest <= next && next - self.oldest <= SPAN)
    }

    /// Any ticket lies in the ring and was given out; a place about to be
    /// acted on is in a state the step table lists; a ticket about to be taken
    /// has a place; and whoever resumes has some left.
    fn phase_fits(&self, phase: Phase) -> bool {
        let some = |left| (1..=MAX_WAITERS).contains(&left);
        match phase {
            Phase::Free | Phase::Asked | Phase::Raising | Phase::GivingBack => true,
            Phase::Holding => false,
            Phase::Unnumbered => self.covers(self.next_ticket),
            Phase::Carrying(left) => self.covers(self.next_resume) && some(left),
            // Neither acts on its place: one rests, the other only counts.
            Phase::Waiting(t) | Phase::GivingUp(t) => self.covers(t) && t < self.next_ticket,
            Phase::Numbered(t) => {
                self.covers(t)
                    && t < self.next_ticket
                    && matches!(self.place(t), Place::Empty | Place::Link)
            }
            Phase::Cancelling(t) | Phase::Refusing(t) => {
                self.covers(t)
                    && t < self.next_ticket
                    && matches!(self.place(t), Place::Waiting(_) | Place::Link)
            }
            Phase::Handing(t, left) => {
                self.covers(t)
                    && t < self.next_resume
                    && !matches!(self.place(t), Place::Link | Place::Done)
                    && some(left)
            }
        }
    }

    /// Nobody who waits, or is through with that, is marked.
    fn mark_fits(&self, party: usize) -> bool {
        !self.marked[party] || self.phases[party].may_be_marked()
    }

    /// A waiting place's party is there, or on its way out, with that ticket.
    fn place_fits(&self, ticket: Ticket) -> bool {
        let Place::Waiting(waiter) = self.place(ticket) else {
            return true;
        };
        match self.phases.get(waiter as usize) {
            Some(
                Phase::Waiting(t) | Phase::GivingUp(t) | Phase::Cancelling(t) | Phase::Refusing(t),
            ) => *t == ticket,
            _ => false,
        }
    }

    /// Whether the ring has a place for this ticket now.
    fn covers(&self, ticket: Ticket) -> bool {
        ticket >= self.oldest && ticket - self.oldest < SPAN
    }

    fn place(&self, ticket: Ticket) -> Place {
        self.ring[ticket as usize % PLACES]
    }

    fn set_place(&mut self, ticket: Ticket, place: Place) {
        self.ring[ticket as usize % PLACES] = place;
    }
}

/// Written for a party that is not there.
const NO_PARTY: u8 = 0xFF;
/// Written for a ticket that is not there.
const NO_TICKET: u32 = u32::MAX;
/// Bytes of a call and of its answer.
const CALL: usize = 2;
const ANSWER: usize = 7;
/// Results of a run that are no refusals of its opening.
const DONE: u8 = 0;
const MALFORMED_CALLS: u8 = 254;
const NO_ROOM: u8 = 255;

/// The seven bytes of an answer.
fn answer_bytes(party: u8, outcome: Result<Answer, Refusal>) -> [u8; ANSWER] {
    let answer = outcome.unwrap_or_else(|refusal| Answer::plain(refusal as u8));
    let woken = answer.woken.map_or(NO_PARTY, |woken| woken as u8);
    let [t0, t1, t2, t3] = answer.ticket.unwrap_or(NO_TICKET).to_be_bytes();
    [answer.code, party, woken, t0, t1, t2, t3]
}

/// The answers to all calls on a newly opened latch; or the result, if there
/// are none.
fn run(count: u8, parties: u8, calls: &[u8], room: usize) -> Result<Vec<u8>, u8> {
    let mut latch = Latch::open(count, parties).map_err(|refusal| refusal as u8)?;
    let calls: Vec<(Call, u8)> = calls
        .chunks(CALL)
        .map(|call| match *call {
            [0x10, party] => Some((Call::Await, party)),
            [0x11, party] => Some((Call::Step, party)),
            [0x12, party] => Some((Call::Cancel, party)),
            [0x13, party] => Some((Call::CountDown, party)),
            _ => None,
        })
        .collect::<Option<_>>()
        .ok_or(MALFORMED_CALLS)?;
    if room < ANSWER * calls.len() {
        return Err(NO_ROOM);
    }
    let answers = calls
        .iter()
        .flat_map(|&(call, party)| answer_bytes(party, latch.call(call, party)).to_vec());
    Ok(answers.collect())
}

/// Reads a run, and gives its reply.
fn run_reply(input: &mut impl Read) -> io::Result<Vec<u8>> {
    let mut opening = [0; 2];
    let mut numbers = [[0; 4]; 2];
    input.read_exact(&mut opening)?;
    input.read_exact(numbers.as_flattened_mut())?;
    let [length, room] = numbers.map(|number| u32::from_be_bytes(number) as usize);
    let mut calls = vec![0; length];
    input.read_exact(&mut calls)?;
    Ok(match run(opening[0], opening[1], &calls, room) {
        Ok(answers) => [vec![DONE], answers].concat(),
        Err(result) => vec![result],
    })
}

/// Where the parts of a record begin, and how long it is.
const PLACES_AT: usize = 3 + 4 * 4;
const PHASES_AT: usize = PLACES_AT + PLACES * 5;
const LEFT_AT: usize = PHASES_AT + PARTIES * 5;
const MARKS_AT: usize = LEFT_AT + PARTIES;
const RECORD: usize = MARKS_AT + PARTIES;

/// Reads a record and a call, and gives their reply.
fn record_reply(input: &mut impl Read) -> io::Result<Vec<u8>> {
    let mut case = [0; RECORD + CALL];
    input.read_exact(&mut case)?;
    let mut latch = read_record(&case);
    let call = match case[RECORD] % 4 {
        0 => Call::Await,
        1 => Call::Step,
        2 => Call::Cancel,
        _ => Call::CountDown,
    };
    let party = case[RECORD + 1];
    let mut reply = answer_bytes(party, latch.call(call, party)).to_vec();
    write_record(&latch, &mut reply);
    Ok(reply)
}

/// The number that four bytes from here on make, the high byte first.
fn number(bytes: &[u8], at: usize) -> u32 {
    u32::from_be_bytes([bytes[at], bytes[at + 1], bytes[at + 2], bytes[at + 3]])
}

fn read_record(bytes: &[u8]) -> Latch {
    let mut latch = Latch {
        parties: bytes[0],
        count: bytes[1],
        waiters: bytes[2],
        next_ticket: number(bytes, 3),
        next_resume: number(bytes, 7),
        begun: number(bytes, 11),
        oldest: number(bytes, 15),
        ring: [Place::Empty; PLACES],
        phases: [Phase::Free; PARTIES],
        marked: [false; PARTIES],
    };
    for (place, bytes) in latch.ring.iter_mut().zip(bytes[PLACES_AT..].chunks(5)) {
        *place = read_place(bytes[0], number(bytes, 1));
    }
    for party in 0..PARTIES {
        let at = PHASES_AT + party * 5;
        let phase = read_phase(bytes[at], number(bytes, at + 1), bytes[LEFT_AT + party]);
        latch.phases[party] = phase;
        // A mark is passed over where none fits.
        latch.marked[party] = phase.may_be_marked() && bytes[MARKS_AT + party] % 2 == 1;
    }
    latch
}

fn write_record(latch: &Latch, bytes: &mut Vec<u8>) {
    bytes.extend([latch.parties, latch.count, latch.waiters]);
    let figures = [
        latch.next_ticket,
        latch.next_resume,
        latch.begun,
        latch.oldest,
    ];
    bytes.extend(figures.iter().flat_map(|figure| figure.to_be_bytes()));
    let phases = latch.phases.map(write_phase);
    let places = latch.ring.iter().map(|&place| write_place(place));
    for (byte, number) in places.chain(phases.iter().map(|&(byte, t, _)| (byte, t))) {
        bytes.push(byte);
        bytes.extend(number.to_be_bytes());
    }
    bytes.extend(phases.map(|(_, _, left)| left));
    bytes.extend(latch.marked.map(u8::from));
}

/// The party counts for a waiting place only.
fn read_place(byte: u8, party: u32) -> Place {
    match byte % 6 {
        0 => Place::Empty,
        1 => Place::Waiting(party),
        2 => Place::Link,
        3 => Place::Cancelled,
        4 => Place::Refused,
        _ => Place::Done,
    }
}

fn write_place(place: Place) -> (u8, u32) {
    match place {
        Place::Empty => (0, 0),
        Place::Waiting(party) => (1, party),
        Place::Link => (2, 0),
        Place::Cancelled => (3, 0),
        Place::Refused => (4, 0),
        Place::Done => (5, 0),
    }
}

/// The number counts for a phase that has one only, and so do the resumes left.
fn read_phase(byte: u8, t: Ticket, left: u8) -> Phase {
    match byte % 15 {
        0 => Phase::Free,
        2 => Phase::Waiting(t),
        3 => Phase::Asked,
        4 => Phase::Unnumbered,
        5 => Phase::Numbered(t),
        6 => Phase::GivingUp(t),
        7 => Phase::Cancelling(t),
        8 => Phase::Refusing(t),
        9 => Phase::GivingBack,
        10 => Phase::Carrying(left),
        11 => Phase::Handing(t, left),
        14 => Phase::Raising,
        // 1, and the two that only a hub with radios has.
        _ => Phase::Holding,
    }
}

fn write_phase(phase: Phase) -> (u8, u32, u8) {
    match phase {
        Phase::Free => (0, 0, 0),
        Phase::Holding => (1, 0, 0),
        Phase::Waiting(t) => (2, t, 0),
        Phase::Asked => (3, 0, 0),
        Phase::Unnumbered => (4, 0, 0),
        Phase::Numbered(t) => (5, t, 0),
        Phase::GivingUp(t) => (6, t, 0),
        Phase::Cancelling(t) => (7, t, 0),
        Phase::Refusing(t) => (8, t, 0),
        Phase::GivingBack => (9, 0, 0),
        Phase::Carrying(left) => (10, 0, left),
        Phase::Handing(t, left) => (11, t, left),
        Phase::Raising => (14, 0, 0),
    }
}

/// Answers every whole case.
fn answer_all<R: Read>(
    mut input: R,
    mut output: impl Write,
    reply: impl Fn(&mut R) -> io::Result<Vec<u8>>,
) -> io::Result<()> {
    loop {
        match reply(&mut input) {
            Err(error) if error.kind() == ErrorKind::UnexpectedEof => return output.flush(),
            reply => output.write_all(&reply?)?,
        }
    }
}

fn main() -> ExitCode {
    let arguments: Vec<_> = env::args_os().skip(1).collect();
    let input = BufReader::new(io::stdin().lock());
    let output = BufWriter::new(io::stdout().lock());
    let outcome = match &arguments[..] {
        [] => answer_all(input, output, run_reply),
        [mode] if mode == "--records" => answer_all(input, output, record_reply),
        _ => return fail("usage: latch [--records] < cases > replies"),
    };
    match outcome {
        Ok(()) => ExitCode::SUCCESS,
        Err(error) => fail(&error.to_string()),
    }
}

/// Says why on standard error. `eprintln!` would panic if that were closed.
fn fail(message: &str) -> ExitCode {
    let _ = writeln!(io::stderr(), "{message}");
    ExitCode::FAILURE
}
