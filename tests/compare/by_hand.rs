//! Calls on records that no opening reaches, whose answers were written by hand from the paper: both programs are held
//! to them before they are held to each other.

use crate::record::{Party, Phase, Place, Record, REPLY};
use crate::schedules::hex;

/// What a case shows, its record and call, the answer, and the record that is left.
struct ByHand {
    shows: &'static str,
    record: Record,
    call: [u8; 2],
    answer: &'static str,
    left: Record,
}

const ASK: u8 = 0x10;
const STEP: u8 = 0x11;
const GIVE_UP: u8 = 0x12;
const GIVE_BACK: u8 = 0x13;

/// A call that is refused, and so leaves its record alone.
fn refused(shows: &'static str, record: Record, call: [u8; 2], answer: &'static str) -> ByHand {
    ByHand { shows, left: record.clone(), record, call, answer }
}

/// Party 0 asks and is accepted: it has asked, and one ask more was begun.
fn asked(shows: &'static str, record: Record) -> ByHand {
    let mut left = record.clone();
    left.phases[0] = Party::at(Phase::Asked, 0);
    left.begun += 1;
    ByHand { shows, record, call: [ASK, 0], answer: "2000FFFFFFFFFF", left }
}

/// One link and three parties, with something changed.
fn with(change: impl Fn(&mut Record)) -> Record {
    let mut record = Record::opened(1, 3);
    change(&mut record);
    record
}

/// The same, all of one kind but for the last.
fn of_kinds(kind: u8, last: u8) -> Record {
    with(|record| {
        record.kinds = [kind; 32];
        record.kinds[31] = last;
    })
}

fn all() -> Vec<ByHand> {
    let counter = |counter| Record { counter, ..Record::opened(32, 3) };
    let waits = |party| with(|record| record.places[200] = Place::waiting(party));
    let mut gives_back = counter(32);
    gives_back.phases[0] = Party::at(Phase::GivingBack, 0);
    let beyond = counter(33);
    vec![
        refused("1,000,000 asks begun", with(|r| r.begun = 1_000_000), [ASK, 0], "0600FFFFFFFFFF"),
        asked("one fewer", with(|r| r.begun = 999_999)),
        refused("256 numbers drawn", with(|r| r.numbered = 256), [ASK, 0], "0700FFFFFFFFFF"),
        asked("one fewer", with(|r| r.numbered = 255)),
        refused("a counter of 33", counter(33), [GIVE_BACK, 0], "0100FFFFFFFFFF"),
        refused("a counter of 32", counter(32), [GIVE_BACK, 0], "0B00FFFFFFFFFF"),
        refused("a free party's waiting place", waits(2), [GIVE_UP, 2], "0102FFFFFFFFFF"),
        refused("nobody's waiting place", waits(255), [GIVE_UP, 2], "0102FFFFFFFFFF"),
        ByHand {
            shows: "giving back at a counter of 32, though then it is 33",
            record: gives_back,
            call: [STEP, 0],
            answer: "2600FFFFFFFFFF",
            left: beyond.clone(),
        },
        refused("the call after that", beyond, [ASK, 1], "0101FFFFFFFFFF"),
        refused("a kind of 4, from n up", of_kinds(0, 4), [ASK, 0], "0100FFFFFFFFFF"),
        asked("a kind of 3", of_kinds(0, 3)),
        refused("32 doors", of_kinds(1, 1), [STEP, 0], "0100FFFFFFFFFF"),
        refused("31 doors and a desk, from n up", of_kinds(1, 0), [STEP, 0], "0800FFFFFFFFFF"),
    ]
}

/// The cases for a program's standard input.
pub fn input() -> Vec<u8> {
    all().iter().flat_map(|case| [case.record.bytes(), case.call.to_vec()].concat()).collect()
}

/// Whether a program's output is what was written by hand; shows the first case where it is not.
pub fn holds(program: &str, output: &[u8]) -> bool {
    let cases = all();
    let wrong = cases.iter().enumerate().find(|(at, case)| {
        let reply = output.chunks(REPLY).nth(*at).unwrap_or_default();
        reply.len() != REPLY
            || hex(&reply[..7]) != case.answer
            || Record::read(&reply[7..]) != case.left
    });
    if let Some((_, case)) = wrong {
        println!("{program}: {} is not answered as by hand, {}", case.shows, case.answer);
    }
    wrong.is_none() && output.len() == cases.len() * REPLY
}
