//! The desk screen (request M-110), and whole operations. The screen's plain
//! line says who holds and who waits in turn; an acquire, a cancel or a release
//! is one move on it (`--desk`). On the hub the same operation is a call and
//! then the party's steps until everybody is at rest (`--operate`).
//!
//! Neither side looks at the other: the screen moves its line and tells the
//! steps from that line, the hub goes by the step table and counts them.

use super::{check_kinds, parse, read_frame, read_line};
use super::{Call, Frame, Hub, Kind, Opening, Phase, Refusal};
use super::{BATTERY_ROUND, MAX_LINE, MAX_PERMITS, NO_PARTY, PARTIES};
use std::collections::BTreeSet;
use std::io::{self, BufRead, ErrorKind, Read, Write};

#[derive(Clone, Copy, Debug, PartialEq, Eq)]
pub enum Operation {
    /// Paper: ask.
    Acquire,
    /// Paper: give up.
    Cancel,
    /// Paper: give back.
    Release,
}

impl Operation {
    /// Steps and radios (11 and 14) are no operations.
    fn of(call: Call) -> Option<Self> {
        match call {
            Call::Acquire => Some(Operation::Acquire),
            Call::Cancel => Some(Operation::Cancel),
            Call::Release => Some(Operation::Release),
            Call::Step | Call::Radio => None,
        }
    }

    const fn call(self) -> Call {
        match self {
            Operation::Acquire => Call::Acquire,
            Operation::Cancel => Call::Cancel,
            Operation::Release => Call::Release,
        }
    }
}

/// An operation that was accepted, once everybody is at rest.
#[derive(Clone, Copy, Debug, PartialEq, Eq)]
pub struct Done {
    /// Who got the permit that was given back.
    pub woken: Option<u8>,
    /// Steps since the 20, which is none of them.
    pub steps: u8,
}

/// The plain line, of a hub at rest.
#[derive(Clone, Debug, PartialEq, Eq)]
pub struct Screen {
    /// Paper: K.
    pub permits: u8,
    /// Paper: n.
    pub parties: u8,
    /// Whether the hub has radios.
    pub radios: bool,
    /// The hub's. No move alters them.
    pub kinds: [Kind; PARTIES],
    pub holders: BTreeSet<u8>,
    /// The first to be served first.
    pub waiting: Vec<u8>,
}

impl Screen {
    pub fn open(opening: &Opening) -> Result<Screen, Refusal> {
        // What refuses a hub refuses its screen.
        let hub = opening.hub()?;
        Ok(Screen {
            permits: hub.permits,
            parties: hub.parties,
            radios: hub.pool.is_some(),
            kinds: hub.kinds,
            holders: BTreeSet::new(),
            waiting: Vec::new(),
        })
    }

    /// One operation as a single move. A refusal leaves the line alone.
    pub fn operate(&mut self, operation: Operation, party: u8) -> Result<Done, Refusal> {
        if !self.is_reached() {
            return Err(Refusal::Misfit);
        }
        if party >= self.parties {
            return Err(Refusal::NoSuchParty);
        }
        match operation {
            Operation::Acquire => self.acquire(party),
            Operation::Cancel => self.cancel(party),
            Operation::Release => self.release(party),
        }
    }

    /// Paper: ask.
    fn acquire(&mut self, party: u8) -> Result<Done, Refusal> {
        if self.holders.contains(&party) || self.waiting.contains(&party) {
            return Err(Refusal::NotFree);
        }
        let steps = if self.holders.len() < usize::from(self.permits) {
            self.holders.insert(party);
            // 21, and 36.
            1 + u8::from(self.radios)
        } else {
            self.waiting.push(party);
            // 22, 23, 24.
            3
        };
        Ok(Done { woken: None, steps })
    }

    /// Paper: give up.
    fn cancel(&mut self, party: u8) -> Result<Done, Refusal> {
        let Some(at) = self.waiting.iter().position(|&waiter| waiter == party) else {
            return Err(Refusal::NotWaiting);
        };
        if self.kinds[usize::from(party)] == BATTERY_ROUND {
            return Err(Refusal::MustWait);
        }
        self.waiting.remove(at);
        // 2E, 30: at rest the counter is below zero as long as anybody waits.
        Ok(Done {
            woken: None,
            steps: 2,
        })
    }

    /// Paper: give back. Whoever is first in line holds in the party's place.
    fn release(&mut self, party: u8) -> Result<Done, Refusal> {
        if !self.holders.remove(&party) {
            return Err(Refusal::NotHolding);
        }
        if self.waiting.is_empty() {
            // 26, and 38.
            return Ok(Done {
                woken: None,
                steps: 1 + u8::from(self.radios),
            });
        }
        let first = self.waiting.remove(0);
        self.holders.insert(first);
        // 27, 28, 2A: the radio goes along. Who gave up before is passed by
        // the tidying, so there is no 2C.
        Ok(Done {
            woken: Some(first),
            steps: 3,
        })
    }

    /// Whether moves lead from an opening to this line.
    pub fn is_reached(&self) -> bool {
        let on_line = || self.holders.iter().chain(&self.waiting);
        let different: BTreeSet<_> = on_line().collect();
        let permits = usize::from(self.permits);
        (1..=MAX_PERMITS).contains(&self.permits)
            && (1..=PARTIES).contains(&usize::from(self.parties))
            && check_kinds(&self.kinds).is_ok()
            && different.len() == on_line().count()
            && on_line().all(|&party| party < self.parties)
            && self.holders.len() <= permits
            && (self.waiting.is_empty() || self.holders.len() == permits)
    }
}

impl Hub {
    /// One operation whole: the call, and then the party's steps until nobody
    /// is busy, which takes a hub at rest.
    pub fn operate(&mut self, operation: Operation, party: u8) -> Result<Done, Refusal> {
        self.call(operation.call(), party, true)?;
        let mut done = Done {
            woken: None,
            steps: 0,
        };
        while !self.is_at_rest() {
            let answer = self
                .call(Call::Step, party, true)
                .expect("nobody else is busy");
            done.steps += 1;
            done.woken = done.woken.or(answer.woken.map(|party| party as u8));
        }
        Ok(done)
    }

    fn is_at_rest(&self) -> bool {
        self.phases
            .iter()
            .all(|phase| matches!(phase, Phase::Free | Phase::Holding | Phase::Waiting(_)))
    }
}

/// The desk program: at most one screen, opened by the first accepted opening.
struct Desk {
    screen: Option<Screen>,
}

/// What became of a line.
enum Answer {
    Opened,
    Moved(Done),
}

impl Desk {
    /// The party byte to print for a line, and what became of it.
    fn answer(&mut self, line: &[u8]) -> (u8, Result<Answer, Refusal>) {
        match parse(line) {
            None => (NO_PARTY, Err(Refusal::Malformed)),
            Some(Frame::Open(opening)) => (NO_PARTY, self.open(&opening)),
            Some(Frame::Call { call, party }) => match Operation::of(call) {
                None => (NO_PARTY, Err(Refusal::Malformed)),
                Some(operation) => (party, self.operate(operation, party)),
            },
        }
    }

    fn open(&mut self, opening: &Opening) -> Result<Answer, Refusal> {
        if self.screen.is_some() {
            return Err(Refusal::OutOfOrder);
        }
        self.screen = Some(Screen::open(opening)?);
        Ok(Answer::Opened)
    }

    fn operate(&mut self, operation: Operation, party: u8) -> Result<Answer, Refusal> {
        match &mut self.screen {
            Some(screen) => screen.operate(operation, party).map(Answer::Moved),
            None => Err(Refusal::OutOfOrder),
        }
    }

    /// The answer, and the line as it is now.
    fn write_answer(
        &self,
        output: &mut impl Write,
        party: u8,
        outcome: Result<Answer, Refusal>,
    ) -> io::Result<()> {
        match outcome {
            Ok(Answer::Opened) => write!(output, "1F {party:02X} -"),
            Ok(Answer::Moved(done)) => write!(output, "20 {party:02X} {}", done.steps),
            Err(refusal) => write!(output, "{:02X} {party:02X} -", refusal as u8),
        }?;
        write!(output, " held")?;
        for holder in self.screen.iter().flat_map(|screen| &screen.holders) {
            write!(output, " {holder}")?;
        }
        write!(output, " waiting")?;
        for waiter in self.screen.iter().flat_map(|screen| &screen.waiting) {
            write!(output, " {waiter}")?;
        }
        writeln!(output)
    }
}

pub fn run(mut input: impl BufRead, mut output: impl Write) -> io::Result<()> {
    let mut desk = Desk { screen: None };
    let mut line = Vec::with_capacity(MAX_LINE + 1);
    while read_line(&mut input, &mut line)? {
        let (party, outcome) = desk.answer(&line);
        desk.write_answer(&mut output, party, outcome)?;
    }
    output.flush()
}

/// Bytes of an operation: its code and its party.
const OPERATION: usize = 2;
/// Bytes of its answer: the code, the woken party, the steps.
const ANSWER: usize = 3;
/// Results of `operate` that are no refusals of an opening.
const MALFORMED_OPERATIONS: u8 = 254;
const NO_ROOM: u8 = 255;

/// The answers to all operations on a newly opened hub; or the result, if there
/// are none: the refusal of the opening, malformed operations, no room.
pub fn operate(opening: &[u8], operations: &[u8], room: usize) -> Result<Vec<u8>, u8> {
    let mut hub = match read_frame(opening) {
        Some(Frame::Open(opening)) => opening.hub(),
        _ => Err(Refusal::Malformed),
    }
    .map_err(|refusal| refusal as u8)?;
    let operations: Vec<(Operation, u8)> = operations
        .chunks(OPERATION)
        .map(|operation| match read_frame(operation) {
            Some(Frame::Call { call, party }) => Some((Operation::of(call)?, party)),
            _ => None,
        })
        .collect::<Option<_>>()
        .ok_or(MALFORMED_OPERATIONS)?;
    if room < ANSWER * operations.len() {
        return Err(NO_ROOM);
    }
    let answers =
        operations
            .iter()
            .flat_map(|&(operation, party)| match hub.operate(operation, party) {
                Ok(done) => [0x20, done.woken.unwrap_or(NO_PARTY), done.steps],
                Err(refusal) => [refusal as u8, NO_PARTY, 0],
            });
    Ok(answers.collect())
}

/// Answers every whole case; what is left at the end is none. A case is three
/// numbers of four bytes, high byte first: the lengths of the opening and of
/// the operations, and the room; then these two. The reply is the result, and
/// after 0 the answers.
pub fn run_operations(mut input: impl Read, mut output: impl Write) -> io::Result<()> {
    loop {
        match reply(&mut input) {
            Err(error) if error.kind() == ErrorKind::UnexpectedEof => return output.flush(),
            reply => output.write_all(&reply?)?,
        }
    }
}

fn reply(input: &mut impl Read) -> io::Result<Vec<u8>> {
    let mut lengths = [[0; 4]; 3];
    input.read_exact(lengths.as_flattened_mut())?;
    let [opening, operations, room] = lengths.map(|length| u32::from_be_bytes(length) as usize);
    let mut bytes = vec![0; opening + operations];
    input.read_exact(&mut bytes)?;
    let (opening, operations) = bytes.split_at(opening);
    Ok(match operate(opening, operations, room) {
        Ok(answers) => [vec![0], answers].concat(),
        Err(result) => vec![result],
    })
}
