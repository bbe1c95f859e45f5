//! "A record that fits", clause by clause: which are broken, and which stand just at their bound.
//! So it can be told how often a clause decided alone, and from which side.

use crate::record::{
    Keeper, Phase, Record, State, PARTIES, PHASES, PHASE_NAMES, PLACES, RADIOS, STATES, STATE_NAMES,
};

const MOST: i64 = 1_000_000;
const SPAN: i64 = PLACES as i64;

#[derive(Clone, Copy, PartialEq, Debug)]
pub enum Clause {
    Links,
    Parties,
    Counter,
    Begun,
    Numbered,
    Handed,
    /// Parties from n up are free.
    Free,
    /// A party's number is one of the 256: not below the first, not above the last.
    First,
    Last,
    /// A party's number is below *handed* or *numbered*.
    Given,
    /// A place about to be acted on is in a state that the table lists.
    Numbering,
    Handing,
    Cancelling,
    Refusing,
    /// A waiting place's party: its phase, its number, which party it is.
    Waiter,
    WaiterNumber,
    WaiterParty,
    /// Unnumbered and carrying need a number to take.
    Taking,
    /// A mark fits in three phases, whatever the party's kind. Elsewhere the bytes have none.
    Mark,
    /// Where in the record the broken clause was.
    Found,
    /// Fetching and putting back fit on a hub with radios alone.
    RadioPhase,
    /// No two of the opening's radios are alike.
    Alike,
    /// The radios are those of the opening, each once: one for another, by a foreign one or by
    /// one that is there already; one too many, foreign or there already; one too few.
    Foreign,
    Twice,
    MoreForeign,
    MoreTwice,
    Missing,
    /// No kind is above 3, of the parties from n up too.
    Known,
    /// One kind is 0.
    Desk,
}

const CLAUSES: [(Clause, &str); 29] = [
    (Clause::Links, "K"),
    (Clause::Parties, "n"),
    (Clause::Counter, "counter"),
    (Clause::Begun, "begun"),
    (Clause::Numbered, "numbered"),
    (Clause::Handed, "handed"),
    (Clause::Free, "party n free, party n - 1 not"),
    (Clause::First, "number from oldest on"),
    (Clause::Last, "number up to oldest + 255"),
    (Clause::Given, "number given out"),
    (Clause::Numbering, "place of one numbered"),
    (Clause::Handing, "place of one handing"),
    (Clause::Cancelling, "place of one cancelling"),
    (Clause::Refusing, "place of one refusing"),
    (Clause::Waiter, "phase of a waiting place's party"),
    (Clause::WaiterNumber, "number of a waiting place's party"),
    (Clause::WaiterParty, "party of a waiting place"),
    (Clause::Taking, "number to take below oldest + 256"),
    (Clause::Mark, "marked"),
    (Clause::Found, "found at"),
    (Clause::RadioPhase, "phase of a hub with radios"),
    (Clause::Alike, "opening's radios"),
    (Clause::Foreign, "foreign radio"),
    (Clause::Twice, "radio for another"),
    (Clause::MoreForeign, "foreign radio too many"),
    (Clause::MoreTwice, "radio once too often"),
    (Clause::Missing, "radio missing"),
    (Clause::Known, "kind at most 3"),
    (Clause::Desk, "desk"),
];

/// What has a radio; then where that is.
const KEEPERS: [&str; 7] =
    ["holding", "giving back", "putting back", "carrying", "handing", "link place", "store"];
const KEEPERS_AT: [&str; 6] =
    ["party 0", "party 31", "first place", "last place", "first stored", "32nd stored"];
/// Whose kind is as high as it may be, or higher.
const KINDS_OF: [&str; 4] = ["party 0", "party n - 1", "party n", "party 31"];

/// Whether a record that breaks only this case exists, one step outside of its bound, and whether
/// one that meets it exists, just at the bound.
type Sides = [bool; 2];
const NEITHER: Sides = [false, false];
const OUTSIDE: Sides = [true, false];
const INSIDE: Sides = [false, true];
const BOTH: Sides = [true, true];

type Cases = Vec<(&'static str, Sides)>;

fn each(names: &[&'static str], sides: Sides) -> Cases {
    names.iter().map(|&name| (name, sides)).collect()
}

fn by_phase(sides: impl Fn(Phase) -> Sides) -> Cases {
    PHASES.iter().map(|&phase| (PHASE_NAMES[phase as usize], sides(phase))).collect()
}

fn by_state(acting: Phase) -> Cases {
    let sides = |state| if is_listed(acting, state) { INSIDE } else { OUTSIDE };
    STATES.iter().map(|&state| (STATE_NAMES[state as usize], sides(state))).collect()
}

impl Clause {
    fn cases(self) -> Cases {
        let numbers =
            |sides| by_phase(move |phase| if phase.has_number() { sides } else { NEITHER });
        match self {
            Clause::Links | Clause::Parties => each(&["at least 1", "at most 32"], BOTH),
            Clause::Counter => each(&["at least -32", "at most 32"], BOTH),
            Clause::Begun => each(&["at most 1,000,000"], BOTH),
            Clause::Numbered | Clause::Handed => {
                each(&["at most 1,000,000", "at least oldest", "at most oldest + 256"], BOTH)
            }
            Clause::Free => by_phase(|phase| if phase == Phase::Free { NEITHER } else { BOTH }),
            Clause::First | Clause::Given => numbers(BOTH),
            // a number past the 256 is past numbered or handed too
            Clause::Last => numbers(INSIDE),
            Clause::Numbering => by_state(Phase::Numbered),
            Clause::Handing => by_state(Phase::Handing),
            Clause::Cancelling => by_state(Phase::Cancelling),
            Clause::Refusing => by_state(Phase::Refusing),
            Clause::Waiter => by_phase(|phase| if stands(phase) { INSIDE } else { OUTSIDE }),
            Clause::WaiterNumber => each(&["one less", "one more"], OUTSIDE),
            Clause::WaiterParty => {
                let mut cases = each(&["31", "n - 1"], INSIDE);
                // three would be a waiting party's, cut to so many bits; 255 is the most that a place holds
                let outside = ["32", "n", "in five bits", "in six", "in seven", "255"];
                cases.extend(each(&outside, OUTSIDE));
                cases
            }
            Clause::Taking => by_phase(|phase| match phase {
                Phase::Unnumbered | Phase::Carrying => BOTH,
                _ => NEITHER,
            }),
            Clause::Mark => each(
                &[
                    "asked",
                    "unnumbered",
                    "numbered",
                    "asked, kind 3",
                    "unnumbered, kind 3",
                    "numbered, kind 3",
                ],
                INSIDE,
            ),
            Clause::RadioPhase => {
                by_phase(|phase| if phase.needs_radios() { BOTH } else { NEITHER })
            }
            Clause::Alike => {
                let mut cases =
                    each(&["first two", "last two", "first and last", "of two"], OUTSIDE);
                cases.extend(each(&["one alike past K", "all 32"], INSIDE));
                cases
            }
            Clause::Foreign => {
                let mut cases = each(&KEEPERS, BOTH);
                cases.extend(each(&KEEPERS_AT, BOTH));
                cases
            }
            Clause::Twice | Clause::MoreForeign | Clause::MoreTwice => each(&KEEPERS, OUTSIDE),
            Clause::Missing => {
                let mut cases = each(&["any", "of one", "of 32"], OUTSIDE);
                cases.extend(each(&["none stored", "32 stored"], INSIDE));
                cases
            }
            Clause::Known => {
                let mut cases = each(&KINDS_OF, BOTH);
                cases.extend(each(&["255"], OUTSIDE));
                cases
            }
            Clause::Desk => {
                let mut cases = each(&["all doors", "all of kind 3", "any"], OUTSIDE);
                cases.extend(each(&["one, party 0", "one, below n", "one, from n up"], INSIDE));
                cases
            }
            Clause::Found => each(
                &[
                    "party 0",
                    "party 31",
                    "place of oldest",
                    "place of oldest + 255",
                    "first place",
                    "last place",
                    "place from numbered on",
                ],
                OUTSIDE,
            ),
        }
    }
}

/// Phases in which a waiting place's party may be.
fn stands(phase: Phase) -> bool {
    matches!(phase, Phase::Waiting | Phase::GivingUp | Phase::Cancelling | Phase::Refusing)
}

/// Whether the table lists a place in this state for a step from this phase.
pub fn is_listed(acting: Phase, state: State) -> bool {
    match acting {
        Phase::Numbered => matches!(state, State::Empty | State::Link),
        Phase::Handing => !matches!(state, State::Link | State::Done),
        Phase::Cancelling | Phase::Refusing => matches!(state, State::Waiting | State::Link),
        _ => true,
    }
}

/// A clause, and the number of its case.
type Label = (Clause, usize);

/// What is to be said of a record.
#[derive(Default)]
pub struct Judgement {
    /// One entry for each figure, party or place that breaks a clause.
    pub broken: Vec<Clause>,
    /// Of the first of these, what is one step outside of a bound.
    outside: Vec<Label>,
    at_bound: Vec<Label>,
}

impl Judgement {
    pub fn of(record: &Record) -> Self {
        let mut judgement = Judgement::default();
        judgement.figures(record);
        (0..PARTIES).for_each(|party| judgement.party(record, party));
        (0..PLACES).for_each(|at| judgement.place(record, at));
        if record.has_radios {
            judgement.alike(record);
            judgement.kept(record);
        }
        judgement.kinds_of_parties(record);
        judgement
    }

    pub fn party_fits(record: &Record, party: usize) -> bool {
        let mut judgement = Judgement::default();
        judgement.party(record, party);
        judgement.broken.is_empty()
    }

    pub fn place_fits(record: &Record, at: usize) -> bool {
        let mut judgement = Judgement::default();
        judgement.place(record, at);
        judgement.broken.is_empty()
    }

    fn breaks(&mut self, clause: Clause, outside: impl IntoIterator<Item = Label>) {
        if self.broken.is_empty() {
            self.outside.extend(outside);
        }
        self.broken.push(clause);
    }

    fn least(&mut self, label: Label, value: i64, bound: i64, found: &[Label]) {
        if value < bound {
            let near = (value == bound - 1).then_some(label);
            self.breaks(label.0, near.into_iter().chain(found.iter().copied()));
        } else if value == bound {
            self.at_bound.push(label);
        }
    }

    fn most(&mut self, label: Label, value: i64, bound: i64, found: &[Label]) {
        self.least(label, -value, -bound, found);
    }

    fn figures(&mut self, record: &Record) {
        let oldest = i64::from(record.oldest);
        self.least((Clause::Links, 0), record.links.into(), 1, &[]);
        self.most((Clause::Links, 1), record.links.into(), 32, &[]);
        self.least((Clause::Parties, 0), record.parties.into(), 1, &[]);
        self.most((Clause::Parties, 1), record.parties.into(), 32, &[]);
        self.least((Clause::Counter, 0), record.counter.into(), -32, &[]);
        self.most((Clause::Counter, 1), record.counter.into(), 32, &[]);
        self.most((Clause::Begun, 0), record.begun.into(), MOST, &[]);
        for (clause, next) in [(Clause::Numbered, record.numbered), (Clause::Handed, record.handed)]
        {
            self.most((clause, 0), next.into(), MOST, &[]);
            self.least((clause, 1), next.into(), oldest, &[]);
            self.most((clause, 2), next.into(), oldest + SPAN, &[]);
        }
    }

    fn party(&mut self, record: &Record, party: usize) {
        let phase = record.phases[party].phase;
        let n = usize::from(record.parties);
        let found: &[Label] = match party {
            0 => &[(Clause::Found, 0)],
            31 => &[(Clause::Found, 1)],
            _ => &[],
        };
        if phase != Phase::Free {
            if party >= n {
                let near = (party == n).then_some((Clause::Free, phase as usize));
                self.breaks(Clause::Free, near.into_iter().chain(found.iter().copied()));
            } else if party + 1 == n {
                self.at_bound.push((Clause::Free, phase as usize));
            }
        }
        if phase.needs_radios() {
            let label = (Clause::RadioPhase, phase as usize);
            if record.has_radios {
                self.at_bound.push(label);
            } else {
                self.breaks(label.0, [label].into_iter().chain(found.iter().copied()));
            }
        }
        if record.phases[party].marked {
            let kind_3 = if record.kinds[party] == 3 { 3 } else { 0 };
            self.at_bound.push((Clause::Mark, phase as usize - Phase::Asked as usize + kind_3));
        }
        if phase.has_number() {
            self.party_number(record, party, found);
        }
        let next = match phase {
            Phase::Unnumbered => record.numbered,
            Phase::Carrying => record.handed,
            _ => return,
        };
        let last = i64::from(record.oldest) + SPAN - 1;
        self.most((Clause::Taking, phase as usize), next.into(), last, found);
    }

    fn party_number(&mut self, record: &Record, party: usize, found: &[Label]) {
        let phase = record.phases[party].phase;
        let number = record.phases[party].number;
        let (t, oldest) = (i64::from(number), i64::from(record.oldest));
        let next = if phase == Phase::Handing { record.handed } else { record.numbered };
        self.least((Clause::First, phase as usize), t, oldest, found);
        self.most((Clause::Last, phase as usize), t, oldest + SPAN - 1, found);
        self.most((Clause::Given, phase as usize), t, i64::from(next) - 1, found);
        let clause = match phase {
            Phase::Numbered => Clause::Numbering,
            Phase::Handing => Clause::Handing,
            Phase::Cancelling => Clause::Cancelling,
            Phase::Refusing => Clause::Refusing,
            _ => return,
        };
        if !(oldest..oldest + SPAN).contains(&t) {
            // it has no place
            return;
        }
        let state = record.place(number).state;
        let label = (clause, state as usize);
        if is_listed(phase, state) {
            self.at_bound.push(label);
        } else {
            self.breaks(clause, [label].into_iter().chain(found.iter().copied()));
        }
    }

    fn place(&mut self, record: &Record, at: usize) {
        let place = record.places[at];
        if place.state != State::Waiting {
            return;
        }
        let oldest = i64::from(record.oldest);
        let ahead = (at as i64 - oldest).rem_euclid(SPAN);
        let t = oldest + ahead;
        let n = u32::from(record.parties);
        let here = |party: usize| {
            let party = record.phases[party];
            stands(party.phase) && i64::from(party.number) == t
        };
        let waiter = place.party;
        if waiter < 32 && here(waiter as usize) {
            let phase = record.phases[waiter as usize].phase;
            self.at_bound.push((Clause::Waiter, phase as usize));
            self.at_bound.extend((waiter == 31).then_some((Clause::WaiterParty, 0)));
            self.at_bound.extend((waiter + 1 == n).then_some((Clause::WaiterParty, 1)));
            return;
        }
        let mut outside = Vec::new();
        let mut note = |clause, case, holds: bool| outside.extend(holds.then_some((clause, case)));
        note(Clause::Found, 2, ahead == 0);
        note(Clause::Found, 3, ahead == SPAN - 1);
        note(Clause::Found, 4, at == 0);
        note(Clause::Found, 5, at == PLACES - 1);
        note(Clause::Found, 6, t >= i64::from(record.numbered));
        note(Clause::WaiterParty, 2, waiter == 32);
        note(Clause::WaiterParty, 3, waiter == n);
        if waiter >= 32 {
            note(Clause::WaiterParty, 7, waiter == 255);
            for (case, bits) in [(4, 5), (5, 6), (6, 7)] {
                let low = waiter as usize % (1 << bits);
                note(Clause::WaiterParty, case, low < PARTIES && here(low));
            }
            self.breaks(Clause::WaiterParty, outside);
            return;
        }
        let party = record.phases[waiter as usize];
        if stands(party.phase) {
            note(Clause::WaiterNumber, 0, i64::from(party.number) == t - 1);
            note(Clause::WaiterNumber, 1, i64::from(party.number) == t + 1);
            self.breaks(Clause::WaiterNumber, outside);
        } else {
            note(Clause::Waiter, party.phase as usize, true);
            self.breaks(Clause::Waiter, outside);
        }
    }
}

impl Judgement {
    fn kinds_of_parties(&mut self, record: &Record) {
        let n = usize::from(record.parties);
        for (party, &kind) in record.kinds.iter().enumerate() {
            let at = [party == 0, party + 1 == n, party == n, party == PARTIES - 1];
            let at = (0..).zip(at).filter(|(_, so)| *so).map(|(case, _)| (Clause::Known, case));
            match kind {
                0..=2 => {}
                3 => self.at_bound.extend(at),
                4 => self.breaks(Clause::Known, at),
                255 => self.breaks(Clause::Known, at.chain([(Clause::Known, 4)])),
                _ => self.breaks(Clause::Known, []),
            }
        }
        let all = |kind| record.kinds.iter().all(|&other| other == kind);
        let desks: Vec<usize> = (0..PARTIES).filter(|&party| record.kinds[party] == 0).collect();
        let cases = match desks[..] {
            [] => [all(1), all(3), true, false, false, false],
            [one] => [false, false, false, one == 0, one < n, one >= n],
            _ => return,
        };
        let cases = (0..).zip(cases).filter(|(_, so)| *so).map(|(case, _)| (Clause::Desk, case));
        if desks.is_empty() {
            self.breaks(Clause::Desk, cases);
        } else {
            self.at_bound.extend(cases);
        }
    }

    fn alike(&mut self, record: &Record) {
        let k = record.radios();
        let (opening, past) = record.opening.split_at(k);
        let same = |a: usize, b: usize| a < b && b < k && opening[a] == opening[b];
        if (0..k).any(|b| (0..b).any(|a| same(a, b))) {
            let cases =
                [k > 2 && same(0, 1), k > 2 && same(k - 2, k - 1), k > 2 && same(0, k - 1), k == 2];
            let cases = (0..).zip(cases).filter(|(_, so)| *so);
            self.breaks(Clause::Alike, cases.map(|(case, _)| (Clause::Alike, case)));
        } else {
            let past_k = past.iter().any(|radio| opening.contains(radio));
            self.at_bound.extend(past_k.then_some((Clause::Alike, 4)));
            self.at_bound.extend((k == RADIOS).then_some((Clause::Alike, 5)));
        }
    }

    fn kept(&mut self, record: &Record) {
        let k = record.radios();
        let opening = &record.opening[..k];
        let keepers = record.keepers();
        let radios: Vec<u8> = keepers.iter().map(|&keeper| record.radio(keeper)).collect();
        let count = |list: &[u8], radio: u8| list.iter().filter(|&&other| other == radio).count();
        let more = |a: &[u8], b: &[u8], radio| count(a, radio).saturating_sub(count(b, radio));
        let surplus: usize = (0..=255).map(|radio| more(&radios, opening, radio)).sum();
        let lack: usize = (0..=255).map(|radio| more(opening, &radios, radio)).sum();
        if surplus + lack == 0 {
            let cases = keepers.iter().flat_map(|&keeper| keeper_cases(record, keeper));
            self.at_bound.extend(cases.map(|case| (Clause::Foreign, case)));
            self.at_bound.extend(record.store.is_empty().then_some((Clause::Missing, 3)));
            self.at_bound.extend((record.store.len() == RADIOS).then_some((Clause::Missing, 4)));
            return;
        }
        // the one that is too many, and whether it is of the opening
        let wrong = |radio: u8| more(&radios, opening, radio) > 0;
        let there = radios.iter().any(|&radio| wrong(radio) && opening.contains(&radio));
        let clause = match (surplus, lack, there) {
            (1, 1, false) => Clause::Foreign,
            (1, 1, true) => Clause::Twice,
            (1, 0, false) => Clause::MoreForeign,
            (1, 0, true) => Clause::MoreTwice,
            (0, 1, _) => Clause::Missing,
            // far outside
            _ => return self.breaks(Clause::Foreign, []),
        };
        let mut labels = Vec::new();
        if clause == Clause::Missing {
            labels.push((clause, 0));
            labels.extend((k == 1).then_some((clause, 1)));
            labels.extend((k == RADIOS).then_some((clause, 2)));
        }
        for keeper in keepers.into_iter().filter(|&keeper| wrong(record.radio(keeper))) {
            let cases = keeper_cases(record, keeper);
            labels.extend(cases.into_iter().map(|case| (clause, case)));
        }
        if clause != Clause::Foreign {
            // where it is, is asked of that one alone
            labels.retain(|&(_, case)| case < KEEPERS.len());
        }
        self.breaks(clause, labels);
    }
}

/// The cases of a keeper: what it is, and where it is.
fn keeper_cases(record: &Record, keeper: Keeper) -> Vec<usize> {
    let (what, at) = match keeper {
        Keeper::Party(party) => {
            let what = match record.phases[party].phase {
                Phase::Holding => 0,
                Phase::GivingBack => 1,
                Phase::PuttingBack => 2,
                Phase::Carrying => 3,
                _ => 4,
            };
            (what, [party == 0, party + 1 == PARTIES, false, false, false, false])
        }
        Keeper::Place(at) => (5, [false, false, at == 0, at + 1 == PLACES, false, false]),
        Keeper::Store(at) => (6, [false, false, false, false, at == 0, at + 1 == RADIOS]),
    };
    let at = (KEEPERS.len()..).zip(at).filter(|(_, so)| *so).map(|(case, _)| case);
    [what].into_iter().chain(at).collect()
}

/// How often each case of a clause decided alone: the record was refused for nothing else, one
/// step outside of its bound; and how often a record was taken just at the bound.
pub struct Decided([[[u64; 2]; PHASES.len()]; CLAUSES.len()]);

impl Decided {
    pub fn nothing() -> Self {
        Decided([[[0; 2]; PHASES.len()]; CLAUSES.len()])
    }

    pub fn count(&mut self, judgement: &Judgement) {
        match judgement.broken.len() {
            0 => self.add(&judgement.at_bound, 1),
            1 => self.add(&judgement.outside, 0),
            _ => {}
        }
    }

    fn add(&mut self, labels: &[Label], side: usize) {
        for &(clause, case) in labels {
            self.0[clause as usize][case][side] += 1;
        }
    }

    /// Prints the counts; false if a side that exists was never met.
    pub fn shows(&self) -> bool {
        let mut whole = true;
        println!("a clause alone, refused one step outside / taken at its bound:");
        for (clause, name) in CLAUSES {
            let mut shown = Vec::new();
            for (case, (what, sides)) in clause.cases().into_iter().enumerate() {
                let counts = self.0[clause as usize][case];
                let side = |side: usize| match (sides[side], counts[side]) {
                    (false, _) => "-".to_string(),
                    (true, 0) => "NEVER".to_string(),
                    (true, count) => count.to_string(),
                };
                if sides != NEITHER {
                    shown.push(format!("{what} {}/{}", side(0), side(1)));
                }
                whole &= (0..2).all(|side| !sides[side] || counts[side] > 0);
            }
            println!("  {name}: {}", shown.join(", "));
        }
        whole
    }
}
