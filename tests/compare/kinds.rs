//! A house's own kinds: what an opening is to be answered, from its bytes alone, and what openings
//! with kinds and the give-ups under them met. Each meeting that is asked for must have occurred.

use crate::schedules::BUILT_IN;
use std::collections::BTreeMap;

const PARTIES: usize = 32;

/// An opening's bytes, taken apart.
pub struct Opening<'a> {
    permits: u8,
    pub parties: u8,
    /// Of opening 02.
    pub radios: Option<&'a [u8]>,
    /// All bytes after those; without any, the built-in table counts.
    kinds: &'a [u8],
}

impl<'a> Opening<'a> {
    /// None if it is malformed.
    pub fn read(frame: &'a [u8]) -> Option<Self> {
        let [code, permits, parties, rest @ ..] = frame else {
            return None;
        };
        let (radios, kinds) = match code {
            1 => (None, rest),
            2 => {
                let (radios, kinds) = rest.split_at_checked(usize::from(*permits))?;
                (Some(radios), kinds)
            }
            _ => return None,
        };
        Some(Opening { permits: *permits, parties: *parties, radios, kinds })
    }

    /// The refusals that apply, in their order.
    fn refusals(&self) -> Vec<u8> {
        let radios = self.radios.unwrap_or_default();
        let given = !self.kinds.is_empty();
        let rules = [
            (2, !(1..=32).contains(&self.permits)),
            (3, !(1..=32).contains(&self.parties)),
            (14, (1..radios.len()).any(|at| radios[..at].contains(&radios[at]))),
            (15, given && self.kinds.len() != PARTIES),
            (16, self.kinds.iter().any(|&kind| kind > 3)),
            (17, given && !self.kinds.contains(&0)),
        ];
        rules.iter().filter(|(_, applies)| *applies).map(|(refusal, _)| *refusal).collect()
    }

    /// What it is answered if no hub is open.
    pub fn answer(&self) -> u8 {
        self.refusals().first().copied().unwrap_or(0x1F)
    }

    /// The kinds of the hub that it makes.
    pub fn kinds(&self) -> [u8; PARTIES] {
        self.kinds.try_into().unwrap_or(BUILT_IN)
    }

    /// What is worth noting of it and its answer, and whether it is so.
    fn facts(&self, code: u8) -> Vec<(String, bool)> {
        let n = usize::from(self.parties);
        let count = self.kinds.len();
        let unknown = |party: usize| self.kinds.get(party).is_some_and(|&kind| kind > 3);
        let one_unknown = (0..count).filter(|&party| unknown(party)).count() == 1;
        let alone = |party: usize| code == 16 && one_unknown && unknown(party);
        let desk = self.kinds.iter().position(|&kind| kind == 0);
        let one_desk = self.kinds.iter().filter(|&&kind| kind == 0).count() == 1;
        let opened = code == 0x1F && count > 0;
        let facts = [
            ("15 for 1", code == 15 && count == 1),
            ("15 for 31", code == 15 && count == 31),
            ("15 for 33", code == 15 && count == 33),
            ("15 after radios", code == 15 && self.radios.is_some()),
            (PAST_A_LINE, code == 15 && count > 77),
            ("16 at party 0", alone(0)),
            ("16 at party n - 1", n > 0 && alone(n - 1)),
            ("16 at party n", alone(n)),
            ("16 at party 31", alone(31)),
            ("16 for 4", code == 16 && one_unknown && self.kinds.contains(&4)),
            ("16 for 255", code == 16 && one_unknown && self.kinds.contains(&255)),
            ("16 after radios", code == 16 && self.radios.is_some()),
            ("17 for one other kind", code == 17 && self.kinds.windows(2).all(|w| w[0] == w[1])),
            ("17 for all three", code == 17 && [1, 2, 3].iter().all(|k| self.kinds.contains(k))),
            ("17 after a radio 0", code == 17 && self.radios.is_some_and(|r| r.contains(&0))),
            ("opened with kinds", opened && self.radios.is_none()),
            ("with radios and kinds", opened && self.radios.is_some()),
            ("with 32 of both", opened && self.radios.is_some_and(|r| r.len() == 32)),
            ("with the built-in ones", opened && self.kinds == BUILT_IN),
            ("with one desk, below n", opened && one_desk && desk.is_some_and(|at| at < n)),
            ("with one desk, from n up", opened && one_desk && desk.is_some_and(|at| at >= n)),
        ];
        let facts = facts.map(|(name, so)| (name.to_string(), so));
        // the first that applies is given, whatever comes after it
        let refusals = self.refusals();
        let before = EARLIER.iter().flat_map(|&first| LATER.map(|later| (first, later)));
        let orders = before.filter(|(first, later)| first < later).map(|pair| {
            let so = code == pair.0 && refusals.contains(&pair.1);
            (format!("{} before {}", pair.0, pair.1), so)
        });
        facts.into_iter().chain(orders).collect()
    }
}

/// Only where there are no lines can there be so many.
const PAST_A_LINE: &str = "15 past a line";

/// The refusals of kinds, and those that each of them may come after.
const LATER: [u8; 3] = [15, 16, 17];
const EARLIER: [u8; 6] = [13, 2, 3, 14, 15, 16];

/// How often each meeting occurred.
pub struct Kinds {
    openings: BTreeMap<String, u64>,
    /// Give-ups that the kind decided, waiting and early, by party and kind.
    decided: [[[u64; 4]; PARTIES]; 2],
}

impl Kinds {
    pub fn nothing() -> Self {
        Kinds { openings: BTreeMap::new(), decided: [[[0; 4]; PARTIES]; 2] }
    }

    /// An opening and its answer. False if its bytes say otherwise.
    pub fn opens(&mut self, frame: &[u8], is_open: bool, code: u8) -> bool {
        let Some(opening) = Opening::read(frame) else {
            return code == 12;
        };
        for (name, so) in opening.facts(code) {
            *self.openings.entry(name).or_default() += u64::from(so);
        }
        code == if is_open { 13 } else { opening.answer() }
    }

    /// A give-up by a party of some kind, and its answer. False if the kind says otherwise.
    pub fn gives_up(&mut self, early: bool, party: u8, kind: u8, code: u8) -> bool {
        if !matches!(code, 10 | 0x20) {
            return true;
        }
        self.decided[usize::from(early)][usize::from(party)][usize::from(kind)] += 1;
        (code == 10) == (kind == 3)
    }

    /// Prints the counts of openings; false if one is missing. Without lines there is no 13.
    pub fn shows_openings(&self, of_lines: bool) -> bool {
        let is_theirs =
            |name: &str| if of_lines { name != PAST_A_LINE } else { !name.starts_with("13") };
        let mut asked_for = self.openings.clone();
        asked_for.retain(|name, _| is_theirs(name));
        println!("openings with kinds:");
        let show = |(name, count): (&String, &u64)| match count {
            0 => format!("{name} NEVER"),
            _ => format!("{name} {count}"),
        };
        let shown: Vec<String> = asked_for.iter().map(show).collect();
        shown.chunks(5).for_each(|some| println!("  {}", some.join(", ")));
        !asked_for.is_empty() && asked_for.values().all(|&count| count > 0)
    }

    /// Prints for how many parties and kinds a give-up was decided; false if one is missing.
    pub fn shows_decided(&self, also_early: bool) -> bool {
        let pairs = || (0..PARTIES).flat_map(|party| [0, 1, 2, 3].map(|kind| (party, kind)));
        let count = if also_early { 2 } else { 1 };
        let mut whole = true;
        for (name, decided) in ["waiting", "early"].iter().zip(&self.decided).take(count) {
            let missing: Vec<_> =
                pairs().filter(|&(party, kind)| decided[party][kind] == 0).collect();
            println!("given up {name}: each party of each kind, but for {} of 128", missing.len());
            for (party, kind) in missing.iter().take(8) {
                println!("  party {party} of kind {kind} NEVER");
            }
            whole &= missing.is_empty();
        }
        whole
    }
}
