//! The record mode: each case is a whole record and a call, each reply an
//! answer and the record that the call left. So records that no opening
//! reaches can be handed in too. tests/README.md lays the bytes out.

use super::{Answer, Call, Hub, Phase, Place, Pool, Ticket};
use super::{DESK, MAX_RADIOS, NO_NUMBER, NO_PARTY, PARTIES, PLACES};
use std::io::{self, ErrorKind, Read, Write};

/// Bytes of a record but for its radios, marks and kinds: K, n, five figures,
/// the places and the phases.
const LINKS: usize = 2 + 5 * 4 + PLACES * 5 + PARTIES * 5;
/// Bytes of the radios: whether the hub has them, the opening's, one for each
/// party, one for each place; how far the store is turned, how many it has,
/// and room for the most.
const RADIOS: usize = 1 + MAX_RADIOS + PARTIES + PLACES + 2 + MAX_RADIOS;
/// Bytes of a record: after all that, a mark and then a kind for each party.
pub const RECORD: usize = LINKS + RADIOS + PARTIES + PARTIES;
/// Bytes of a case: a record, the call's code and its party.
pub const CASE: usize = RECORD + 2;
/// Bytes of a reply: an answer as on a line, and a record.
pub const REPLY: usize = 7 + RECORD;

/// Answers every whole case; what is left at the end is none.
pub fn run(mut input: impl Read, mut output: impl Write) -> io::Result<()> {
    let mut case = [0; CASE];
    loop {
        match input.read_exact(&mut case) {
            Err(error) if error.kind() == ErrorKind::UnexpectedEof => return output.flush(),
            read => read?,
        }
        output.write_all(&reply(&case))?;
    }
}

fn reply(case: &[u8; CASE]) -> Vec<u8> {
    let (record, call) = case.split_at(RECORD);
    let mut hub = read_record(record);
    let outcome = hub.call(read_call(call[0]), call[1], true);
    let answer = outcome.unwrap_or_else(|refusal| Answer::plain(refusal as u8));
    let woken = answer.woken.map_or(NO_PARTY, |party| party as u8);
    let mut bytes = Vec::with_capacity(REPLY);
    bytes.extend([answer.code, call[1], woken]);
    bytes.extend(answer.number.unwrap_or(NO_NUMBER).to_be_bytes());
    write_record(&hub, &mut bytes);
    bytes
}

fn read_call(byte: u8) -> Call {
    match byte % 5 {
        0 => Call::Radio,
        1 => Call::Acquire,
        2 => Call::Step,
        3 => Call::Cancel,
        _ => Call::Release,
    }
}

/// The number that four bytes from here on make, the high byte first.
fn number(bytes: &[u8], at: usize) -> u32 {
    u32::from_be_bytes([bytes[at], bytes[at + 1], bytes[at + 2], bytes[at + 3]])
}

fn read_record(bytes: &[u8]) -> Hub {
    let (figures, rest) = bytes.split_at(22);
    let (places, rest) = rest.split_at(PLACES * 5);
    let (phases, rest) = rest.split_at(PARTIES * 5);
    let (radios, rest) = rest.split_at(RADIOS);
    let (marks, kinds) = rest.split_at(PARTIES);
    let mut hub = Hub {
        permits: figures[0],
        parties: figures[1],
        counter: number(figures, 2) as i32,
        next_ticket: number(figures, 6),
        next_resume: number(figures, 10),
        begun: number(figures, 14),
        oldest: number(figures, 18),
        ring: [Place::Empty; PLACES],
        phases: [Phase::Free; PARTIES],
        marked: [false; PARTIES],
        pool: None,
        kinds: [DESK; PARTIES],
    };
    for (place, bytes) in hub.ring.iter_mut().zip(places.chunks(5)) {
        *place = read_place(bytes[0], number(bytes, 1));
    }
    for (phase, bytes) in hub.phases.iter_mut().zip(phases.chunks(5)) {
        *phase = read_phase(bytes[0], number(bytes, 1));
    }
    // A mark is passed over where none fits.
    for (party, byte) in marks.iter().enumerate() {
        hub.marked[party] = hub.phases[party].may_be_marked() && byte % 2 == 1;
    }
    hub.pool = read_pool(&hub, radios);
    hub.kinds.copy_from_slice(kinds);
    hub
}

/// The radio of a party that has none and of a place with no permit are passed
/// over; so is how far the store is turned, for it is given from its front on.
fn read_pool(hub: &Hub, bytes: &[u8]) -> Option<Pool> {
    if bytes[0] % 2 == 0 {
        return None;
    }
    let (opening, rest) = bytes[1..].split_at(MAX_RADIOS);
    let (parties, rest) = rest.split_at(PARTIES);
    let (places, store) = rest.split_at(PLACES);
    let mut pool = Pool::filled(opening);
    for party in 0..PARTIES {
        pool.with_party[party] = hub.phases[party].has_radio().then_some(parties[party]);
    }
    for at in 0..PLACES {
        pool.at_place[at] = (hub.ring[at] == Place::Permit).then_some(places[at]);
    }
    let count = usize::from(store[1]) % (MAX_RADIOS + 1);
    pool.store = store[2..2 + count].iter().copied().collect();
    Some(pool)
}

/// A radio that is not there is written as zero, and the store from its front
/// on, turned by nothing.
fn write_pool(pool: &Pool, bytes: &mut Vec<u8>) {
    bytes.push(1);
    bytes.extend(pool.opening);
    bytes.extend(pool.with_party.map(Option::unwrap_or_default));
    bytes.extend(pool.at_place.map(Option::unwrap_or_default));
    bytes.extend([0, pool.store.len() as u8]);
    bytes.extend(&pool.store);
    bytes.extend(vec![0; MAX_RADIOS - pool.store.len()]);
}

fn write_record(hub: &Hub, bytes: &mut Vec<u8>) {
    bytes.extend([hub.permits, hub.parties]);
    let figures = [
        hub.counter as u32,
        hub.next_ticket,
        hub.next_resume,
        hub.begun,
        hub.oldest,
    ];
    bytes.extend(figures.iter().flat_map(|figure| figure.to_be_bytes()));
    let places = hub.ring.iter().map(|&place| write_place(place));
    let phases = hub.phases.iter().map(|&phase| write_phase(phase));
    for (byte, number) in places.chain(phases) {
        bytes.push(byte);
        bytes.extend(number.to_be_bytes());
    }
    match &hub.pool {
        Some(pool) => write_pool(pool, bytes),
        None => bytes.extend([0; RADIOS]),
    }
    bytes.extend(hub.marked.map(u8::from));
    bytes.extend(hub.kinds);
}

/// The party counts for a waiting place only.
fn read_place(byte: u8, party: u32) -> Place {
    match byte % 6 {
        0 => Place::Empty,
        1 => Place::Waiting(party),
        2 => Place::Permit,
        3 => Place::Cancelled,
        4 => Place::Refused,
        _ => Place::Done,
    }
}

fn write_place(place: Place) -> (u8, u32) {
    match place {
        Place::Empty => (0, 0),
        Place::Waiting(party) => (1, party),
        Place::Permit => (2, 0),
        Place::Cancelled => (3, 0),
        Place::Refused => (4, 0),
        Place::Done => (5, 0),
    }
}

/// The number counts for a phase that has one only.
fn read_phase(byte: u8, t: Ticket) -> Phase {
    match byte % 14 {
        0 => Phase::Free,
        1 => Phase::Holding,
        2 => Phase::Waiting(t),
        3 => Phase::Asked,
        4 => Phase::Unnumbered,
        5 => Phase::Numbered(t),
        6 => Phase::GivingUp(t),
        7 => Phase::Cancelling(t),
        8 => Phase::Refusing(t),
        9 => Phase::GivingBack,
        10 => Phase::Carrying,
        11 => Phase::Handing(t),
        12 => Phase::Fetching,
        _ => Phase::PuttingBack,
    }
}

fn write_phase(phase: Phase) -> (u8, u32) {
    match phase {
        Phase::Free => (0, 0),
        Phase::Holding => (1, 0),
        Phase::Waiting(t) => (2, t),
        Phase::Asked => (3, 0),
        Phase::Unnumbered => (4, 0),
        Phase::Numbered(t) => (5, t),
        Phase::GivingUp(t) => (6, t),
        Phase::Cancelling(t) => (7, t),
        Phase::Refusing(t) => (8, t),
        Phase::GivingBack => (9, 0),
        Phase::Carrying => (10, 0),
        Phase::Handing(t) => (11, t),
        Phase::Fetching => (12, 0),
        Phase::PuttingBack => (13, 0),
    }
}
