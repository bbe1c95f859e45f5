//! Each call in each phase of a latch, and what it was answered: all that the table and the
//! refusals list must have been met.

use crate::latch_record::{Phase, Record, PHASES};
use crate::latch_story::{AWAIT, CALLS, COUNT_DOWN, GIVE_UP, STEP};
use std::collections::BTreeMap;

const MARKED: [&str; 4] = ["", ", marked", ", kind 3", ", kind 3, marked"];
const LEFT: [&str; 2] = [", one left", ", more left"];
const KINDS: [&str; 2] = ["", ", kind 3"];
/// The count, and whether anybody counts as waiting.
const COUNTS: [&str; 6] = [
    ", count 0, none waits",
    ", count 0, some wait",
    ", count 1, none waits",
    ", count 1, some wait",
    ", count above 1, none waits",
    ", count above 1, some wait",
];

/// A call, the caller's phase, what else decides, and the answer.
type Row = (u8, &'static str, &'static str, u8);

/// What else than its phase decides on a caller.
fn details(phase: Phase) -> &'static [&'static str] {
    match phase {
        Phase::Waiting => &KINDS,
        Phase::GivingBack | Phase::GivingUp => &COUNTS,
        phase if phase.takes_mark() => &MARKED,
        phase if phase.has_left() => &LEFT,
        _ => &[""],
    }
}

fn detail(record: &Record, party: usize) -> &'static str {
    let caller = record.phases[party];
    let kind_3 = usize::from(party >= 30);
    let at = match caller.phase {
        Phase::Waiting => kind_3,
        Phase::GivingBack | Phase::GivingUp => {
            2 * usize::from(record.count.min(2)) + usize::from(record.waiters > 0)
        }
        phase if phase.takes_mark() => 2 * kind_3 + usize::from(caller.marked),
        phase if phase.has_left() => usize::from(caller.left > 1),
        _ => 0,
    };
    details(caller.phase)[at]
}

/// The answers that a call can get, on a record that fits, from a caller that exists.
fn answers(call: u8, phase: Phase, detail: &str) -> &'static [u8] {
    let marked = detail.ends_with("marked");
    let kind_3 = detail.contains("kind 3");
    match (call, phase) {
        (AWAIT, Phase::Free) => &[0x20, 6, 7],
        (COUNT_DOWN, Phase::Free) => &[0x20],
        (AWAIT | COUNT_DOWN, _) => &[5],
        (GIVE_UP, phase) if phase.takes_mark() && marked => &[9],
        (GIVE_UP, phase) if phase.takes_mark() || phase == Phase::Waiting => {
            if kind_3 {
                &[10]
            } else {
                &[0x20]
            }
        }
        (GIVE_UP, _) => &[9],
        (_, Phase::Asked | Phase::Raising) => &[0x21, 0x22],
        (_, Phase::Unnumbered) => &[0x23],
        (_, Phase::Numbered) => &[0x24, 0x25],
        (_, Phase::GivingBack) if detail == COUNTS[3] => &[0x27],
        (_, Phase::GivingBack) => &[0x26],
        (_, Phase::Carrying) => &[0x28],
        (_, Phase::Handing) => &[0x29, 0x2A, 0x2B, 0x2C, 0x2D],
        (_, Phase::GivingUp) if COUNTS[..2].contains(&detail) => &[0x2F],
        (_, Phase::GivingUp) => &[0x2E],
        (_, Phase::Cancelling) => &[0x30, 0x31],
        (_, Phase::Refusing) => &[0x32, 0x33],
        _ => &[8],
    }
}

#[derive(Default)]
pub struct Rows(BTreeMap<Row, u64>);

impl Rows {
    /// Counts an answer to a caller that there is, but 1.
    pub fn count(&mut self, record: &Record, [call, party]: [u8; 2], code: u8) {
        if code != 1 && party < record.parties {
            let party = usize::from(party);
            let name = record.phases[party].phase.name();
            let row = (CALLS[usize::from(call % 4)], name, detail(record, party), code);
            *self.0.entry(row).or_default() += 1;
        }
    }

    /// Prints how many rows were met; false if one of those listed was not, or another one was.
    pub fn shows(&self) -> bool {
        let mut listed = Vec::new();
        for (phase, name) in PHASES.into_iter().filter(|(phase, _)| !phase.is_foreign()) {
            for call in [AWAIT, STEP, GIVE_UP, COUNT_DOWN] {
                for detail in details(phase) {
                    let codes = answers(call, phase, detail).iter();
                    listed.extend(codes.map(|&code| (call, name, *detail, code)));
                }
            }
        }
        let met = listed.iter().map(|row| self.0.get(row).copied().unwrap_or_default());
        let least = met.min().unwrap_or_default();
        println!("calls in phases: {} listed, each met at least {least} times", listed.len());
        let show = |what: &str, row: &Row| {
            println!("  {what}: call {:02X}, {}{}: {:02X}", row.0, row.1, row.2, row.3);
        };
        let missing: Vec<&Row> = listed.iter().filter(|row| !self.0.contains_key(row)).collect();
        let other: Vec<&Row> = self.0.keys().filter(|row| !listed.contains(row)).collect();
        missing.iter().for_each(|row| show("NEVER", row));
        other.iter().for_each(|row| show("not listed", row));
        missing.is_empty() && other.is_empty()
    }
}
