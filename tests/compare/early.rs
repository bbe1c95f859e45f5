//! Early give-ups: what parties asked, unnumbered or numbered met, marked and not. Each meeting
//! that is asked for must have occurred.

use crate::kinds::{Kinds, Opening};
use crate::schedules::{ASK, GIVE_UP, STEP};

/// The phases before a wait.
#[derive(Clone, Copy, PartialEq)]
pub enum Before {
    Asked,
    Unnumbered,
    Numbered,
}

const MEETINGS: [&str; 17] = [
    "given up asked",
    "given up unnumbered",
    "given up numbered",
    "again (9) asked",
    "again (9) unnumbered",
    "again (9) numbered",
    "of kind 3 (10) asked",
    "of kind 3 (10) unnumbered",
    "of kind 3 (10) numbered",
    "marked, then 21 without radios",
    "marked, then 21 with radios",
    "marked, then 22",
    "marked, then 23",
    "marked, then 24",
    "marked, then 25",
    "24 in an ask after a mark forgotten",
    "marked, of kind 3 (9)",
];
/// Only a schedule knows of an earlier ask; no call marks a party of kind 3.
const LATER: usize = 15;
const MARKED_KIND_3: usize = 16;

/// How often each meeting occurred.
pub struct Early([u64; MEETINGS.len()]);

impl Early {
    pub fn nothing() -> Self {
        Early([0; MEETINGS.len()])
    }

    /// A call by a party in such a phase and of some kind, and its answer.
    pub fn count(
        &mut self,
        (phase, marked, kind): (Before, bool, u8),
        call: u8,
        code: u8,
        radios: bool,
    ) {
        let meeting = match (call, code, marked) {
            (GIVE_UP, 0x20, false) => phase as usize,
            (GIVE_UP, 9, true) => 3 + phase as usize,
            (GIVE_UP, 10, false) => 6 + phase as usize,
            (STEP, 0x21, true) => 9 + usize::from(radios),
            (STEP, 0x22..=0x25, true) => 11 + usize::from(code - 0x22),
            _ => return,
        };
        self.0[meeting] += 1;
        if call == GIVE_UP && code == 9 && kind == 3 {
            self.0[MARKED_KIND_3] += 1;
        }
    }

    /// Prints the counts; false if one is missing that a comparison of schedules, or of records,
    /// must meet.
    pub fn shows(&self, of_schedules: bool) -> bool {
        let passed_over = if of_schedules { MARKED_KIND_3 } else { LATER };
        let asked_for = (0..MEETINGS.len()).filter(|&meeting| meeting != passed_over);
        println!("early give-ups:");
        let show = |meeting: usize| match self.0[meeting] {
            0 => format!("{} NEVER", MEETINGS[meeting]),
            count => format!("{} {count}", MEETINGS[meeting]),
        };
        let shown: Vec<String> = asked_for.clone().map(show).collect();
        shown.chunks(3).for_each(|some| println!("  {}", some.join(", ")));
        asked_for.clone().all(|meeting| self.0[meeting] > 0)
    }
}

/// What is known of a party's ask from calls and answers alone.
#[derive(Clone, Copy)]
struct Ask {
    phase: Option<Before>,
    marked: bool,
    /// The last mark was forgotten, and it has not waited since.
    forgot: bool,
}

/// Follows the calls of one hub, from its opening, and their answers.
pub struct Follower {
    asks: [Ask; 32],
    radios: bool,
    kinds: [u8; 32],
}

impl Follower {
    pub fn opened(opening: &Opening) -> Self {
        let asks = [Ask { phase: None, marked: false, forgot: false }; 32];
        Follower { asks, radios: opening.radios.is_some(), kinds: opening.kinds() }
    }

    /// False if the caller's kind says otherwise.
    pub fn enter(&mut self, early: &mut Early, kinds: &mut Kinds, call: [u8; 2], code: u8) -> bool {
        let Some(ask) = self.asks.get_mut(usize::from(call[1])) else {
            return code == 4;
        };
        let kind = self.kinds[usize::from(call[1])];
        if call[0] == GIVE_UP && !kinds.gives_up(ask.phase.is_some(), call[1], kind, code) {
            return false;
        }
        let Some(phase) = ask.phase else {
            if call[0] == ASK && code == 0x20 {
                (ask.phase, ask.marked) = (Some(Before::Asked), false);
            }
            return true;
        };
        early.count((phase, ask.marked, kind), call[0], code, self.radios);
        match (call[0], code) {
            (GIVE_UP, 0x20) => ask.marked = true,
            (STEP, 0x22) => ask.phase = Some(Before::Unnumbered),
            (STEP, 0x23) => ask.phase = Some(Before::Numbered),
            (STEP, 0x24) => {
                early.0[LATER] += u64::from(ask.forgot && !ask.marked);
                (ask.phase, ask.forgot) = (None, false);
            }
            (STEP, 0x21 | 0x25) => {
                ask.forgot |= ask.marked;
                ask.phase = None;
            }
            _ => {}
        }
        true
    }
}
