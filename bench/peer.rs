//! What a wait costs in process: the hub, by steps (librun.a) or by whole operations (liboperate.a),
//! or tokio's fair semaphore. One permit, which is held, and WAITERS that stand in line for it.
//! `give-up`: the last of them asks, waits and gives up. `hand-over`: the holder gives back, the
//! first in line gets the permit, and the old holder asks and waits. Every turn leaves as many in
//! line as it found, and is checked.
//! Usage: peer steps|operations|tokio give-up|hand-over WAITERS TURNS

#[path = "../tests/compare/library.rs"]
mod library;

use std::collections::VecDeque;
use std::env;
use std::process::ExitCode;

#[derive(Clone, Copy, PartialEq)]
enum Turn {
    GiveUp,
    HandOver,
}

mod hub {
    use super::library::{hub_operate, hub_run};
    use super::{Turn, VecDeque};

    const ASK: u8 = 0x10;
    const STEP: u8 = 0x11;
    const GIVE_UP: u8 = 0x12;
    const GIVE_BACK: u8 = 0x13;
    const ACCEPTED: u8 = 0x20;
    const NOBODY: u8 = 0xFF;

    /// An operation, the codes of its steps, and the party that it must wake.
    struct Operation {
        call: [u8; 2],
        steps: &'static [u8],
        woken: u8,
    }

    const HOLDS: &[u8] = &[0x21];
    const WAITS: &[u8] = &[0x22, 0x23, 0x24];
    const LEAVES: &[u8] = &[0x2E, 0x30];
    const HANDS_OVER: &[u8] = &[0x27, 0x28, 0x2A];

    fn operations(turn: Turn, waiters: u8, turns: usize) -> Vec<Operation> {
        let mut made = Vec::new();
        let mut make = |code, party, steps, woken| made.push(Operation { call: [code, party], steps, woken });
        let mut holder = waiters;
        let mut line: VecDeque<u8> = match turn {
            Turn::GiveUp => (1..waiters).collect(), // the last in line is party 0
            Turn::HandOver => (0..waiters).collect(),
        };
        make(ASK, holder, HOLDS, NOBODY);
        for &party in &line {
            make(ASK, party, WAITS, NOBODY);
        }
        for _ in 0..turns {
            if turn == Turn::GiveUp {
                make(ASK, 0, WAITS, NOBODY);
                make(GIVE_UP, 0, LEAVES, NOBODY);
            } else {
                let next = line.pop_front().expect("somebody waits");
                make(GIVE_BACK, holder, HANDS_OVER, next);
                make(ASK, holder, WAITS, NOBODY);
                line.push_back(holder);
                holder = next;
            }
        }
        made
    }

    /// Every step a call of its own.
    pub fn step(turn: Turn, waiters: u8, turns: usize) {
        let mut calls = Vec::new();
        let mut codes = Vec::new();
        for operation in operations(turn, waiters, turns) {
            calls.push(operation.call);
            codes.push(ACCEPTED);
            for &code in operation.steps {
                calls.push([STEP, operation.call[1]]);
                codes.push(code);
            }
        }
        let mut out = vec![[0; 7]; calls.len()];
        let result = hub_run(&[0x01, 1, waiters + 1], calls.as_flattened(), out.as_flattened_mut());
        assert_eq!(result, 0);
        assert!(out.iter().map(|answer| answer[0]).eq(codes));
    }

    pub fn operate(turn: Turn, waiters: u8, turns: usize) {
        let made = operations(turn, waiters, turns);
        let calls: Vec<[u8; 2]> = made.iter().map(|operation| operation.call).collect();
        let mut out = vec![[0; 3]; calls.len()];
        let result = hub_operate(&[0x01, 1, waiters + 1], calls.as_flattened(), out.as_flattened_mut());
        assert_eq!(result, 0);
        let answer = |operation: &Operation| [ACCEPTED, operation.woken, operation.steps.len() as u8];
        assert!(out.into_iter().eq(made.iter().map(answer)));
    }
}

mod peer {
    use super::Turn;
    use std::future::Future;
    use std::pin::{pin, Pin};
    use std::sync::Arc;
    use std::task::{Context, Poll, Wake, Waker};
    use tokio::sync::{AcquireError, Semaphore, SemaphorePermit};

    struct Idle;

    impl Wake for Idle {
        fn wake(self: Arc<Self>) {}
    }

    type Got<'a> = Result<SemaphorePermit<'a>, AcquireError>;

    /// The turns; callgrind counts what happens in here. The line is a ring of places that are
    /// made once, as a task's future is, so that no turn allocates.
    #[inline(never)]
    fn turns_of<'a, F: Future<Output = Got<'a>>>(
        turn: Turn,
        turns: usize,
        ask: impl Fn() -> F,
        mut held: SemaphorePermit<'a>,
        line: &mut [Pin<Box<Option<F>>>],
        context: &mut Context,
    ) -> SemaphorePermit<'a> {
        let mut first = 0;
        for _ in 0..turns {
            if turn == Turn::GiveUp {
                let mut wait = pin!(ask());
                assert!(wait.as_mut().poll(context).is_pending());
            } else {
                drop(held);
                let place = &mut line[first];
                let wait = place.as_mut().as_pin_mut().expect("somebody waits");
                let Poll::Ready(Ok(permit)) = wait.poll(context) else {
                    panic!("not handed over")
                };
                held = permit;
                place.set(Some(ask()));
                let wait = place.as_mut().as_pin_mut().expect("just asked");
                assert!(wait.poll(context).is_pending());
                first = if first + 1 == line.len() { 0 } else { first + 1 };
            }
        }
        held
    }

    pub fn run(turn: Turn, waiters: u8, turns: usize) {
        let waker = Waker::from(Arc::new(Idle));
        let mut context = Context::from_waker(&waker);
        let semaphore = Semaphore::new(1);
        let held = semaphore.try_acquire().expect("one permit");
        let ask = || semaphore.acquire();
        let others = if turn == Turn::GiveUp { waiters - 1 } else { waiters };
        let mut line = Vec::new();
        for _ in 0..others {
            let mut place = Box::pin(Some(ask()));
            let wait = place.as_mut().as_pin_mut().expect("just asked");
            assert!(wait.poll(&mut context).is_pending());
            line.push(place);
        }
        let held = turns_of(turn, turns, ask, held, &mut line, &mut context);
        drop(line);
        drop(held);
        assert_eq!(semaphore.available_permits(), 1);
    }
}

fn main() -> ExitCode {
    let arguments: Vec<String> = env::args().collect();
    let [_, which, turn, waiters, turns] = &arguments[..] else {
        eprintln!("usage: peer steps|operations|tokio give-up|hand-over WAITERS TURNS");
        return ExitCode::FAILURE;
    };
    let turn = if turn == "give-up" { Turn::GiveUp } else { Turn::HandOver };
    let waiters: u8 = waiters.parse().expect("WAITERS is a number");
    let turns: usize = turns.parse().expect("TURNS is a number");
    match which.as_str() {
        "steps" => hub::step(turn, waiters, turns),
        "operations" => hub::operate(turn, waiters, turns),
        "tokio" => peer::run(turn, waiters, turns),
        _ => {
            eprintln!("peer: no {which} here");
            return ExitCode::FAILURE;
        }
    }
    ExitCode::SUCCESS
}
