//! Tests of the second program: the paper's run and edges, malformed lines,
//! hand-made records for the fit check, radios, early cancels, a house's own
//! kinds, records as bytes, random schedules, and whole operations on the
//! desk's screen and on the hub.

use super::*;

const CALLS: [Call; 5] = [
    Call::Acquire,
    Call::Step,
    Call::Cancel,
    Call::Release,
    Call::Radio,
];

/// Feeds the input through a reader of the given chunk size.
fn run_chunked(input: &[u8], chunk: usize, check: bool) -> String {
    let mut output = Vec::new();
    run(BufReader::with_capacity(chunk, input), &mut output, check).unwrap();
    String::from_utf8(output).unwrap()
}

/// The answers to an input; chunk size and fit check must not show in them.
fn answers(input: impl AsRef<[u8]>) -> String {
    let input = input.as_ref();
    let output = run_chunked(input, BUFFER, true);
    for chunk in [1, 2, 3, 7, 161] {
        assert_eq!(output, run_chunked(input, chunk, true));
    }
    assert_eq!(output, run_chunked(input, BUFFER, false));
    output
}

/// Asserts the answer to each line, and the closing line.
fn assert_run(pairs: &[(&str, &str)], closing: &str) {
    let input: String = pairs.iter().map(|(line, _)| format!("{line}\n")).collect();
    let expected: String = pairs
        .iter()
        .map(|(_, answer)| format!("{answer}\n"))
        .collect();
    assert_eq!(answers(input), format!("{expected}{closing}\n"));
}

/// The last answer before the closing line.
fn last_answer(input: impl AsRef<[u8]>) -> String {
    answers(input).lines().rev().nth(1).unwrap().to_string()
}

const NOTHING_OPENED: &str = "7E000000000000";
const MALFORMED: &str = "0CFFFFFFFFFFFF";

mod paper {
    use super::*;

    #[test]
    fn whole_run() {
        assert_run(
            &[
                ("010103", "1FFFFFFFFFFFFF"),
                ("1000", "2000FFFFFFFFFF"),
                ("1100", "2100FFFFFFFFFF"),
                ("1001", "2001FFFFFFFFFF"),
                ("1101", "2201FFFFFFFFFF"),
                ("1101", "2301FF00000000"),
                ("1101", "2401FF00000000"),
                ("1300", "2000FFFFFFFFFF"),
                ("1100", "2700FFFFFFFFFF"),
                ("1201", "2001FFFFFFFFFF"),
                ("1101", "2F01FFFFFFFFFF"),
                ("1100", "2800FF00000000"),
                ("1100", "2B00FF00000000"),
                ("1101", "3301FF00000000"),
            ],
            "7E000000000001",
        );
    }

    #[test]
    fn openings() {
        assert_run(&[("010001", "02FFFFFFFFFFFF")], NOTHING_OPENED);
        assert_run(&[("012101", "02FFFFFFFFFFFF")], NOTHING_OPENED);
        assert_run(&[("01FF01", "02FFFFFFFFFFFF")], NOTHING_OPENED);
        assert_run(&[("010100", "03FFFFFFFFFFFF")], NOTHING_OPENED);
        assert_run(&[("010121", "03FFFFFFFFFFFF")], NOTHING_OPENED);
        assert_run(&[("010000", "02FFFFFFFFFFFF")], NOTHING_OPENED);
        assert_run(&[("012020", "1FFFFFFFFFFFFF")], "7E000000000020");
        assert_run(&[("010101", "1FFFFFFFFFFFFF")], "7E000000000001");
    }

    #[test]
    fn party_bound() {
        assert_run(
            &[
                ("010103", "1FFFFFFFFFFFFF"),
                ("1003", "0403FFFFFFFFFF"),
                ("1103", "0403FFFFFFFFFF"),
                ("1203", "0403FFFFFFFFFF"),
                ("1303", "0403FFFFFFFFFF"),
                ("1403", "0403FFFFFFFFFF"),
                ("10FF", "04FFFFFFFFFFFF"),
                ("1102", "0802FFFFFFFFFF"),
                ("1202", "0902FFFFFFFFFF"),
                ("1302", "0B02FFFFFFFFFF"),
                ("1002", "2002FFFFFFFFFF"),
                ("1002", "0502FFFFFFFFFF"),
            ],
            "7E000000000001",
        );
    }

    /// Steps party 0 of a reached-looking record with this counter and phase.
    fn step_at(counter: i32, phase: Phase, place: Place) -> u8 {
        let mut hub = Hub::open(1, 2).unwrap();
        hub.counter = counter;
        hub.next_ticket = 1;
        hub.phases[0] = phase;
        hub.ring[0] = place;
        hub.call(Call::Step, 0, true).unwrap().code
    }

    #[test]
    fn counter_edges() {
        assert_eq!(step_at(1, Phase::Asked, Place::Empty), 0x21);
        assert_eq!(step_at(0, Phase::Asked, Place::Empty), 0x22);
        assert_eq!(step_at(-1, Phase::GivingBack, Place::Empty), 0x27);
        assert_eq!(step_at(0, Phase::GivingBack, Place::Empty), 0x26);
        assert_eq!(step_at(-1, Phase::GivingUp(0), Place::Waiting(0)), 0x2E);
        assert_eq!(step_at(0, Phase::GivingUp(0), Place::Waiting(0)), 0x2F);
    }

    /// Party 0 holds, 1 waits with number 0, 2 gives up so many waits.
    fn ring_edge(waits: usize) -> String {
        let wait = "1002\n1102\n1102\n1102\n1202\n1102\n1102\n";
        let start = "010103\n1000\n1100\n1001\n1101\n1101\n1101\n";
        format!("{start}{}", wait.repeat(waits))
    }

    #[test]
    fn ring_full_after_255_given_up_waits() {
        assert_eq!(last_answer(ring_edge(254)), "3002FF000000FE");
        assert_eq!(last_answer(ring_edge(254) + "1002\n"), "2002FFFFFFFFFF");
        assert_eq!(last_answer(ring_edge(255)), "3002FF000000FF");
        assert_eq!(last_answer(ring_edge(255) + "1002\n"), "0702FFFFFFFFFF");
    }

    /// Serving number 0 lets the tidying pass every cancelled place.
    #[test]
    fn ring_empties_when_the_oldest_wait_is_served() {
        let output = answers(ring_edge(255) + "1300\n1100\n1100\n1100\n1002\n1102\n1102\n");
        let tail: Vec<&str> = output.lines().rev().take(6).collect();
        assert_eq!(
            tail,
            [
                "7E0100FFFFFFFF",
                "2302FF00000100",
                "2202FFFFFFFFFF",
                "2002FFFFFFFFFF",
                "2A000100000000",
                "2800FF00000000",
            ]
        );
    }

    #[test]
    fn asked_and_unnumbered_parties_count_towards_the_ring() {
        let mut hub = Hub::open(1, 4).unwrap();
        hub.next_ticket = 254;
        hub.phases[0] = Phase::Asked;
        assert_eq!(
            hub.clone().call(Call::Acquire, 2, true),
            Ok(Answer::plain(0x20))
        );
        hub.phases[1] = Phase::Unnumbered;
        assert_eq!(hub.call(Call::Acquire, 2, true), Err(Refusal::RingFull));
    }

    #[test]
    fn refusals_come_in_order() {
        let mut hub = Hub::open(1, 2).unwrap();
        hub.begun = MAX_BEGUN;
        hub.next_ticket = SPAN;
        hub.phases[1] = Phase::Holding;
        assert_eq!(hub.call(Call::Acquire, 2, true), Err(Refusal::NoSuchParty));
        assert_eq!(hub.call(Call::Acquire, 1, true), Err(Refusal::NotFree));
        assert_eq!(hub.call(Call::Acquire, 0, true), Err(Refusal::BegunFull));
        hub.begun -= 1;
        assert_eq!(hub.call(Call::Acquire, 0, true), Err(Refusal::RingFull));
        hub.next_ticket -= 1;
        assert_eq!(hub.call(Call::Acquire, 0, true), Ok(Answer::plain(0x20)));
        assert_eq!(hub.begun, MAX_BEGUN);
    }

    #[test]
    fn battery_rounds_may_not_give_up() {
        for party in 0..PARTIES {
            let mut hub = Hub::open(1, 32).unwrap();
            hub.next_ticket = 1;
            assert_eq!(
                hub.call(Call::Cancel, party as u8, true),
                Err(Refusal::NotWaiting)
            );
            hub.phases[party] = Phase::Waiting(0);
            hub.ring[0] = Place::Waiting(party as u32);
            let expected = if party < 30 {
                Ok(Answer::plain(0x20))
            } else {
                Err(Refusal::MustWait)
            };
            assert_eq!(hub.call(Call::Cancel, party as u8, true), expected);
        }
    }

    /// Every row of the step table on hand-made records: phase and place
    /// before, then code, phase and place after. The place is number 7's.
    #[test]
    fn step_table() {
        use Phase::*;
        let rows = [
            (
                Numbered(7),
                Place::Empty,
                0x24,
                Waiting(7),
                Place::Waiting(0),
            ),
            (Numbered(7), Place::Permit, 0x25, Holding, Place::Done),
            (Handing(7), Place::Empty, 0x29, Free, Place::Permit),
            (Handing(7), Place::Waiting(1), 0x2A, Free, Place::Done),
            (Handing(7), Place::Waiting(2), 0x2B, Free, Place::Permit),
            (Handing(7), Place::Waiting(3), 0x2B, Free, Place::Permit),
            (Handing(7), Place::Waiting(4), 0x2B, Free, Place::Permit),
            (Handing(7), Place::Cancelled, 0x2C, Carrying, Place::Done),
            (Handing(7), Place::Refused, 0x2D, Free, Place::Done),
            (
                Cancelling(7),
                Place::Waiting(0),
                0x30,
                Free,
                Place::Cancelled,
            ),
            (Cancelling(7), Place::Permit, 0x31, Carrying, Place::Done),
            (Refusing(7), Place::Waiting(0), 0x32, Free, Place::Refused),
            (Refusing(7), Place::Permit, 0x33, Free, Place::Done),
        ];
        for (before, place, code, after, place_after) in rows {
            let mut hub = Hub::open(1, 5).unwrap();
            hub.next_ticket = 8;
            hub.next_resume = 8;
            hub.ring[7] = place;
            hub.phases[0] = before;
            match place {
                Place::Waiting(1) => hub.phases[1] = Waiting(7),
                Place::Waiting(2) => hub.phases[2] = GivingUp(7),
                Place::Waiting(3) => hub.phases[3] = Cancelling(7),
                Place::Waiting(4) => hub.phases[4] = Refusing(7),
                _ => {}
            }
            let mut expected = hub.clone();
            expected.phases[0] = after;
            expected.ring[7] = place_after;
            let woken = (code == 0x2A).then(|| {
                expected.phases[1] = Holding;
                1
            });
            let answer = Answer {
                code,
                woken,
                number: Some(7),
            };
            assert_eq!(hub.call(Call::Step, 0, true), Ok(answer));
            assert_eq!(hub, expected);
        }
    }
}

mod frames {
    use super::*;

    #[test]
    fn no_lines() {
        assert_eq!(answers(""), format!("{NOTHING_OPENED}\n"));
    }

    #[test]
    fn malformed_lines() {
        let long = "0".repeat(161);
        let full = "0".repeat(160);
        let longer = "1000".repeat(100_000);
        let lines: [&[u8]; 33] = [
            b"",
            b"1",
            b"100",
            b"10000",
            b"0101",
            b"01010",
            b"10",
            b"01",
            b"100000",
            b"110000",
            b"120000",
            b"130000",
            b"00",
            b"0000",
            b"14",
            b"140000",
            b"1500",
            b"02",
            b"0F00",
            b"7E00",
            b"FFFF",
            b"1000\r",
            b"100\r",
            b" 1000",
            b"10 0",
            b"10\t0",
            b"10\x000",
            b"10\xFF0",
            b"10G0",
            b"10g0",
            long.as_bytes(),
            full.as_bytes(),
            longer.as_bytes(),
        ];
        for open in ["", "010101\n"] {
            for line in lines {
                let mut input = open.as_bytes().to_vec();
                input.extend(line);
                input.extend(b"\n");
                assert_eq!(last_answer(&input), MALFORMED, "{line:?}");
                // Each was one line: the count of answers says so.
                let expected = 2 + open.lines().count();
                assert_eq!(answers(&input).lines().count(), expected);
            }
        }
    }

    #[test]
    fn every_code_and_length() {
        for code in 0..=255u8 {
            for length in 1..=33usize {
                let line = format!("{code:02X}{}\n", "01".repeat(length - 1));
                let known = match code {
                    // All more bytes are kinds.
                    0x01 => length >= 3,
                    // Its second byte says one radio.
                    0x02 => length >= 4,
                    0x10..=0x14 => length == 2,
                    _ => false,
                };
                assert_eq!(last_answer(line) != MALFORMED, known);
            }
        }
    }

    #[test]
    fn every_byte_as_a_digit() {
        for byte in (0..=255u8).filter(|&byte| byte != b'\n') {
            let expected = match byte {
                b'0'..=b'9' | b'a'..=b'f' | b'A'..=b'F' => {
                    format!("0D0{}FFFFFFFFFF", char::from(byte.to_ascii_uppercase()))
                }
                _ => MALFORMED.to_string(),
            };
            assert_eq!(last_answer([b'1', b'0', b'0', byte, b'\n']), expected);
        }
    }

    #[test]
    fn line_ends() {
        // A line without its end mark counts.
        assert_eq!(answers("010101"), "1FFFFFFFFFFFFF\n7E000000000001\n");
        assert_eq!(answers("010101\n"), "1FFFFFFFFFFFFF\n7E000000000001\n");
        assert_eq!(answers("\n"), format!("{MALFORMED}\n{NOTHING_OPENED}\n"));
        assert_eq!(
            answers("010101\n\n"),
            format!("1FFFFFFFFFFFFF\n{MALFORMED}\n7E000000000001\n")
        );
        assert_eq!(answers("0"), format!("{MALFORMED}\n{NOTHING_OPENED}\n"));
        // An over-long line hides nothing after it.
        let long = "1".repeat(1000);
        assert_eq!(
            answers(format!("{long}\n010101\n{long}")),
            format!("{MALFORMED}\n1FFFFFFFFFFFFF\n{MALFORMED}\n7E000000000001\n")
        );
    }

    #[test]
    fn either_case_is_read_and_capitals_written() {
        assert_eq!(last_answer("01201f\n10aB\n"), "04ABFFFFFFFFFF");
        assert_eq!(last_answer("01201F\n101e\n"), "201EFFFFFFFFFF");
    }

    #[test]
    fn calls_out_of_order() {
        assert_run(
            &[
                ("1000", "0D00FFFFFFFFFF"),
                ("1105", "0D05FFFFFFFFFF"),
                ("12FE", "0DFEFFFFFFFFFF"),
                ("1321", "0D21FFFFFFFFFF"),
                ("1400", "0D00FFFFFFFFFF"),
                ("010000", "02FFFFFFFFFFFF"),
                ("1000", "0D00FFFFFFFFFF"),
                ("010100", "03FFFFFFFFFFFF"),
                ("010202", "1FFFFFFFFFFFFF"),
                ("010202", "0DFFFFFFFFFFFF"),
                ("010000", "0DFFFFFFFFFFFF"),
                ("0100", MALFORMED),
                ("1000", "2000FFFFFFFFFF"),
            ],
            "7E000000000002",
        );
    }

    #[test]
    fn closing_line_counts() {
        // Party 0 gives back, 1 and 2 wait, 3 is asked.
        let wait = "1001\n1101\n1101\n1101\n1002\n1102\n1102\n1102\n1003\n";
        let input = format!("010104\n1000\n1100\n{wait}1300\n");
        assert_eq!(answers(input).lines().last(), Some("7E0102FFFFFFFE"));
    }
}

mod fit {
    use super::*;

    /// A phase that carries a ticket, the ticket still to be filled in.
    type Ticketed = fn(Ticket) -> Phase;

    /// A fitting record in the middle of its life, each party elsewhere.
    fn sample() -> Hub {
        use Phase::*;
        let mut hub = Hub::open(3, 13).unwrap();
        hub.counter = -2;
        hub.begun = 700;
        hub.oldest = 500;
        hub.next_ticket = 520;
        hub.next_resume = 510;
        let phases = [
            Free,
            Holding,
            Waiting(511),
            Asked,
            Unnumbered,
            Numbered(512),
            GivingUp(513),
            Cancelling(514),
            Refusing(515),
            GivingBack,
            Carrying,
            Handing(500),
            Handing(501),
        ];
        hub.phases[..phases.len()].copy_from_slice(&phases);
        for (ticket, party) in [(511, 2), (513, 6), (514, 7), (515, 8)] {
            hub.set_place(ticket, Place::Waiting(party));
        }
        hub.set_place(501, Place::Cancelled);
        hub.set_place(502, Place::Refused);
        hub.set_place(503, Place::Permit);
        hub.set_place(504, Place::Done);
        hub
    }

    /// A record that does not fit: 1 to every call, whoever makes it, and the
    /// record stays as it was.
    fn assert_misfit(what: &str, alter: impl FnOnce(&mut Hub)) {
        let mut hub = sample();
        alter(&mut hub);
        assert!(!hub.fits(), "{}", what);
        let before = hub.clone();
        for call in CALLS {
            for party in [0, 12, 13, 255] {
                assert_eq!(hub.call(call, party, true), Err(Refusal::Misfit), "{what}");
            }
        }
        assert_eq!(hub, before, "{what}");
    }

    fn assert_fits(what: &str, alter: impl FnOnce(&mut Hub)) {
        let mut hub = sample();
        alter(&mut hub);
        assert!(hub.fits(), "{}", what);
    }

    /// The sample without its phases and places, to move its bounds about.
    fn bare(hub: &mut Hub, oldest: Ticket, next_ticket: Ticket, next_resume: Ticket) {
        hub.phases = [Phase::Free; PARTIES];
        hub.ring = [Place::Empty; PLACES];
        hub.oldest = oldest;
        hub.next_ticket = next_ticket;
        hub.next_resume = next_resume;
    }

    #[test]
    fn sample_and_fresh_records_fit() {
        assert_fits("sample", |_| {});
        for permits in 1..=32 {
            for parties in 1..=32 {
                assert!(Hub::open(permits, parties).unwrap().fits());
            }
        }
    }

    #[test]
    fn permits_and_parties_in_range() {
        assert_misfit("K 0", |hub| hub.permits = 0);
        assert_fits("K 1", |hub| hub.permits = 1);
        assert_fits("K 32", |hub| hub.permits = 32);
        assert_misfit("K 33", |hub| hub.permits = 33);
        assert_misfit("K 255", |hub| hub.permits = 255);
        let free = |parties| {
            move |hub: &mut Hub| {
                bare(hub, 0, 0, 0);
                hub.parties = parties;
            }
        };
        assert_misfit("n 0", free(0));
        assert_fits("n 1", free(1));
        assert_fits("n 32", free(32));
        assert_misfit("n 33", free(33));
        assert_misfit("n 255", free(255));
    }

    #[test]
    fn parties_from_n_up_free() {
        assert_misfit("n holds", |hub| hub.phases[13] = Phase::Holding);
        assert_misfit("n asked", |hub| hub.phases[13] = Phase::Asked);
        assert_misfit("31 gives back", |hub| hub.phases[31] = Phase::GivingBack);
        assert_misfit("n lowered", |hub| hub.parties = 12);
        assert_misfit("n waits", |hub| {
            hub.phases[13] = Phase::Waiting(516);
            hub.set_place(516, Place::Waiting(13));
        });
        assert_fits("n raised", |hub| hub.parties = 14);
    }

    #[test]
    fn counter_in_range() {
        assert_misfit("-33", |hub| hub.counter = -33);
        assert_fits("-32", |hub| hub.counter = -32);
        assert_fits("32", |hub| hub.counter = 32);
        assert_misfit("33", |hub| hub.counter = 33);
        assert_misfit("least", |hub| hub.counter = i32::MIN);
        assert_misfit("most", |hub| hub.counter = i32::MAX);
    }

    #[test]
    fn counts_at_most_a_million() {
        assert_fits("begun", |hub| hub.begun = 1_000_000);
        assert_misfit("begun", |hub| hub.begun = 1_000_001);
        assert_misfit("begun", |hub| hub.begun = u32::MAX);
        assert_fits("both", |hub| bare(hub, 999_990, 1_000_000, 1_000_000));
        assert_fits("all", |hub| bare(hub, 1_000_000, 1_000_000, 1_000_000));
        assert_misfit("numbered", |hub| bare(hub, 999_990, 1_000_001, 1_000_000));
        assert_misfit("handed", |hub| bare(hub, 999_990, 1_000_000, 1_000_001));
        assert_misfit("greatest", |hub| bare(hub, u32::MAX, u32::MAX, u32::MAX));
    }

    #[test]
    fn counters_within_the_ring() {
        assert_fits("oldest at both", |hub| bare(hub, 500, 500, 500));
        assert_misfit("numbered below oldest", |hub| bare(hub, 500, 499, 500));
        assert_misfit("handed below oldest", |hub| bare(hub, 500, 500, 499));
        assert_fits("both at the end", |hub| bare(hub, 500, 756, 756));
        assert_misfit("numbered past the end", |hub| bare(hub, 500, 757, 756));
        assert_misfit("handed past the end", |hub| bare(hub, 500, 756, 757));
        assert_misfit("oldest greatest", |hub| bare(hub, u32::MAX, 500, 500));
    }

    #[test]
    fn party_numbers_within_the_ring_and_given_out() {
        let on_empty = [Phase::Waiting, Phase::GivingUp, Phase::Numbered];
        let on_permit = [Phase::Cancelling, Phase::Refusing];
        let numbered = on_empty.map(|phase: Ticketed| (phase, Place::Empty));
        let leaving = on_permit.map(|phase: Ticketed| (phase, Place::Permit));
        let put = |phase: Ticketed, place, ticket: Ticket| {
            move |hub: &mut Hub| {
                bare(hub, 500, 520, 510);
                hub.phases[0] = phase(ticket);
                hub.set_place(ticket, place);
            }
        };
        for (phase, place) in numbered.iter().chain(&leaving).copied() {
            let what = format!("{:?} {place:?}", phase(0));
            assert_misfit(&what, put(phase, place, 499));
            assert_fits(&what, put(phase, place, 500));
            assert_fits(&what, put(phase, place, 519));
            assert_misfit(&what, put(phase, place, 520));
            assert_misfit(&what, put(phase, place, 756));
            assert_misfit(&what, put(phase, place, u32::MAX));
        }
        assert_misfit("handing", put(Phase::Handing, Place::Empty, 499));
        assert_fits("handing", put(Phase::Handing, Place::Empty, 500));
        assert_fits("handing", put(Phase::Handing, Place::Empty, 509));
        assert_misfit("handing", put(Phase::Handing, Place::Empty, 510));
        assert_misfit("handing", put(Phase::Handing, Place::Empty, 756));
        // With the ring full the bounds and the ring end together.
        let full = |phase: Ticketed, ticket| {
            move |hub: &mut Hub| {
                bare(hub, 500, 756, 756);
                hub.phases[0] = phase(ticket);
            }
        };
        assert_fits("last", full(Phase::Handing, 755));
        assert_fits("last", full(Phase::Numbered, 755));
        assert_misfit("end", full(Phase::Handing, 756));
        assert_misfit("end", full(Phase::Numbered, 756));
    }

    #[test]
    fn waiting_place_has_its_party() {
        use Phase::*;
        for party in [32, 255, 256, u32::MAX] {
            assert_misfit("no such party", |hub| {
                hub.set_place(516, Place::Waiting(party))
            });
        }
        assert_misfit("party from n up", |hub| {
            hub.set_place(516, Place::Waiting(13))
        });
        let put = |phase| {
            move |hub: &mut Hub| {
                bare(hub, 500, 520, 520);
                hub.set_place(516, Place::Waiting(0));
                hub.phases[0] = phase;
            }
        };
        for phase in [Waiting(516), GivingUp(516), Cancelling(516), Refusing(516)] {
            assert_fits("own number", put(phase));
        }
        for phase in [
            Free,
            Holding,
            Asked,
            Unnumbered,
            GivingBack,
            Carrying,
            Handing(516),
        ] {
            assert_misfit("wrong phase", put(phase));
        }
        for phase in [Waiting, GivingUp] {
            assert_misfit("other number", put(phase(515)));
        }
        for phase in [Cancelling, Refusing] {
            assert_misfit("other number", |hub| {
                put(phase(515))(hub);
                hub.set_place(515, Place::Permit);
            });
        }
        // A place beyond the numbers given out is not exempt.
        assert_misfit("unused place", |hub| hub.set_place(755, Place::Waiting(0)));
        // The same ring index one turn later is another number.
        assert_misfit("one turn on", |hub| {
            bare(hub, 500, 756, 500);
            hub.set_place(700, Place::Waiting(0));
            hub.phases[0] = Waiting(700 - SPAN);
        });
    }

    #[test]
    fn places_about_to_be_acted_on_are_listed() {
        let places = [
            Place::Empty,
            Place::Waiting(1),
            Place::Permit,
            Place::Cancelled,
            Place::Refused,
            Place::Done,
        ];
        let table: [(Ticketed, [bool; 6]); 6] = [
            (Phase::Numbered, [true, false, true, false, false, false]),
            (Phase::Handing, [true, true, false, true, true, false]),
            (Phase::Cancelling, [false, true, true, false, false, false]),
            (Phase::Refusing, [false, true, true, false, false, false]),
            // These two do not act on their place.
            (Phase::Waiting, [true; 6]),
            (Phase::GivingUp, [true; 6]),
        ];
        for (phase, listed) in table {
            for (place, fits) in places.iter().copied().zip(listed) {
                let what = format!("{:?} {place:?}", phase(505));
                let alter = |hub: &mut Hub| {
                    bare(hub, 500, 520, 510);
                    hub.phases[0] = phase(505);
                    hub.set_place(505, place);
                    if place == Place::Waiting(1) {
                        hub.phases[1] = Phase::Waiting(505);
                    }
                };
                if fits {
                    assert_fits(&what, alter);
                } else {
                    assert_misfit(&what, alter);
                }
            }
        }
    }

    #[test]
    fn numbers_about_to_be_taken_have_a_place() {
        let put = |phase, next_ticket, next_resume| {
            move |hub: &mut Hub| {
                bare(hub, 500, next_ticket, next_resume);
                hub.phases[0] = phase;
            }
        };
        assert_fits("unnumbered", put(Phase::Unnumbered, 755, 756));
        assert_misfit("unnumbered", put(Phase::Unnumbered, 756, 500));
        assert_fits("carrying", put(Phase::Carrying, 756, 755));
        assert_misfit("carrying", put(Phase::Carrying, 500, 756));
        // The clause is about these phases only.
        assert_fits("asked", put(Phase::Asked, 756, 756));
        assert_fits("giving back", put(Phase::GivingBack, 756, 756));
    }

    /// Nothing else is required of a record.
    #[test]
    fn no_clause_too_many() {
        assert_fits("counter says otherwise", |hub| hub.counter = 32);
        assert_fits("begun below numbered", |hub| hub.begun = 0);
        assert_fits("all hold", |hub| {
            bare(hub, 0, 0, 0);
            hub.parties = 32;
            hub.phases = [Phase::Holding; PARTIES];
        });
        assert_fits("untidy", |hub| {
            hub.set_place(500, Place::Empty);
            hub.set_place(510, Place::Cancelled);
        });
        assert_fits("stray places", |hub| hub.set_place(755, Place::Done));
        assert_fits("shared number", |hub| hub.phases[0] = Phase::Waiting(511));
    }

    /// With the check off a record is taken as it comes.
    #[test]
    fn check_can_be_left_out() {
        let mut hub = sample();
        hub.begun = MAX_BEGUN;
        hub.counter = 33;
        assert_eq!(hub.call(Call::Acquire, 0, true), Err(Refusal::Misfit));
        assert_eq!(hub.call(Call::Acquire, 0, false), Err(Refusal::BegunFull));
    }

    /// A tidying on a hand-made record: places are passed in order, first the
    /// cancelled at the next resume, then the done at the oldest.
    #[test]
    fn tidying() {
        let mut hub = Hub::open(1, 1).unwrap();
        hub.oldest = 250;
        hub.next_ticket = 270;
        hub.next_resume = 252;
        for ticket in [250, 251] {
            hub.set_place(ticket, Place::Done);
        }
        for ticket in [252, 253, 254, 256, 258] {
            hub.set_place(ticket, Place::Cancelled);
        }
        hub.set_place(255, Place::Refused);
        assert_eq!(hub.call(Call::Acquire, 0, true), Ok(Answer::plain(0x20)));
        assert_eq!((hub.oldest, hub.next_resume), (255, 255));
        for ticket in 250..255 {
            assert_eq!(hub.place(ticket), Place::Empty);
        }
        assert_eq!(hub.place(255), Place::Refused);
        assert_eq!(hub.place(256), Place::Cancelled);
    }

    /// The place just past the ring's end is the oldest one's: not to be passed.
    #[test]
    fn tidying_stays_within_the_ring() {
        let mut hub = Hub::open(1, 1).unwrap();
        hub.ring = [Place::Cancelled; PLACES];
        hub.next_resume = SPAN;
        let mut expected = hub.clone();
        expected.phases[0] = Phase::Holding;
        hub.phases[0] = Phase::Asked;
        expected.counter = 0;
        assert_eq!(hub.call(Call::Step, 0, true), Ok(Answer::plain(0x21)));
        assert_eq!(hub, expected);
    }
}

/// Radios by name (M-100).
mod radios {
    use super::*;

    const ALIKE: &str = "0EFFFFFFFFFFFF";

    #[test]
    fn openings() {
        let opened = "1FFFFFFFFFFFFF";
        assert_run(&[("020101A7", opened)], "7E000000000001");
        assert_run(&[("020220A7A6", opened)], "7E000000000002");
        assert_run(&[("02010100", opened)], "7E000000000001");
        let all: String = (0..32).map(|at| format!("{:02X}", 255 - at)).collect();
        assert_run(&[(&format!("022020{all}"), opened)], "7E000000000020");
        // Any two of them alike.
        for first in 0..32 {
            for second in first + 1..32 {
                let mut radios: Vec<u8> = (100..132).collect();
                radios[second] = radios[first];
                assert_eq!(
                    Hub::open_pool(32, 1, &radios).err(),
                    Some(Refusal::RadiosAlike)
                );
            }
        }
    }

    /// 12, 13, 2, 3, 14.
    #[test]
    fn refusals_of_an_opening_come_in_order() {
        let of = |permits: u8, parties: u8, radios: usize| {
            format!("02{permits:02X}{parties:02X}{}", "55".repeat(radios))
        };
        let wrong_lengths = [of(2, 0, 1), of(1, 0, 0), of(33, 0, 32), of(77, 0, 76)];
        let long_lines = [of(78, 0, 78), of(255, 1, 255)];
        for line in wrong_lengths.iter().chain(&long_lines) {
            assert_run(&[(line, MALFORMED)], NOTHING_OPENED);
        }
        assert_run(&[("02", MALFORMED), ("0200", MALFORMED)], NOTHING_OPENED);
        let refused = [of(0, 1, 0), of(0, 0, 0), of(33, 0, 33), of(77, 1, 77)];
        let with_kinds = [of(0, 0, 1), of(33, 0, 34)];
        for line in refused.iter().chain(&with_kinds) {
            assert_run(&[(line, "02FFFFFFFFFFFF")], NOTHING_OPENED);
        }
        for line in [of(2, 0, 2), of(32, 33, 32), of(1, 255, 1)] {
            assert_run(&[(&line, "03FFFFFFFFFFFF")], NOTHING_OPENED);
        }
        for line in [of(2, 1, 2), of(32, 32, 32)] {
            assert_run(&[(&line, ALIKE)], NOTHING_OPENED);
        }
        for opening in ["010101", "02010155"] {
            let mut pairs = vec![(opening, "1FFFFFFFFFFFFF")];
            let lines = [of(0, 0, 0), of(2, 0, 2), of(2, 2, 2), of(1, 1, 1)];
            pairs.extend(lines.iter().map(|line| (line.as_str(), "0DFFFFFFFFFFFF")));
            assert_run(&pairs, "7E000000000001");
        }
    }

    /// The first in is the first out, and every new answer.
    #[test]
    fn first_in_first_out() {
        assert_run(
            &[
                ("020203A7A6", "1FFFFFFFFFFFFF"),
                ("1000", "2000FFFFFFFFFF"),
                ("1100", "2100FFFFFFFFFF"),
                ("1400", "3900FFFFFFFFFF"),
                ("1100", "3600FFFFFFFFFF"),
                ("1400", "3900FF000000A7"),
                ("1300", "2000FFFFFFFFFF"),
                ("1400", "3900FF000000A7"),
                ("1100", "2600FFFFFFFFFF"),
                ("1400", "3900FF000000A7"),
                ("1100", "3800FFFFFFFFFF"),
                ("1400", "3900FFFFFFFFFF"),
                ("1001", "2001FFFFFFFFFF"),
                ("1101", "2101FFFFFFFFFF"),
                ("1101", "3601FFFFFFFFFF"),
                ("1401", "3901FF000000A6"),
                ("1002", "2002FFFFFFFFFF"),
                ("1102", "2102FFFFFFFFFF"),
                ("1102", "3602FFFFFFFFFF"),
                ("1402", "3902FF000000A7"),
                ("1403", "0403FFFFFFFFFF"),
            ],
            "7E020000000000",
        );
    }

    /// The counter has the permit again before the store has its radio.
    #[test]
    fn not_yet() {
        assert_run(
            &[
                ("020102A7", "1FFFFFFFFFFFFF"),
                ("1000", "2000FFFFFFFFFF"),
                ("1100", "2100FFFFFFFFFF"),
                ("1100", "3600FFFFFFFFFF"),
                ("1300", "2000FFFFFFFFFF"),
                ("1100", "2600FFFFFFFFFF"),
                ("1001", "2001FFFFFFFFFF"),
                ("1101", "2101FFFFFFFFFF"),
                ("1101", "3701FFFFFFFFFF"),
                ("1101", "3701FFFFFFFFFF"),
                ("1301", "0B01FFFFFFFFFF"),
                ("1001", "0501FFFFFFFFFF"),
                ("1201", "0901FFFFFFFFFF"),
                ("1000", "0500FFFFFFFFFF"),
                ("1300", "0B00FFFFFFFFFF"),
                ("1200", "0900FFFFFFFFFF"),
            ],
            "7E010000000000",
        );
    }

    /// A pool in the middle of its life: 11 waits, 12 gives up, and all five
    /// phases that have a radio, a place with one, and three stored.
    fn sample() -> Hub {
        use Phase::*;
        let radios = [10, 11, 12, 13, 14, 15, 16, 17, 18];
        let mut hub = Hub::open_pool(9, 10, &radios).unwrap();
        hub.counter = 2;
        hub.oldest = 500;
        hub.next_ticket = 510;
        hub.next_resume = 505;
        let phases = [
            Holding,
            GivingBack,
            PuttingBack,
            Carrying,
            Handing(500),
            Fetching,
            Waiting(507),
            Refusing(508),
            Numbered(509),
            Free,
        ];
        hub.phases[..phases.len()].copy_from_slice(&phases);
        hub.set_place(500, Place::Refused);
        hub.set_place(507, Place::Waiting(6));
        hub.set_place(508, Place::Permit);
        let pool = hub.pool.as_mut().unwrap();
        for (party, radio) in [14, 12, 10, 18, 16].iter().enumerate() {
            pool.with_party[party] = Some(*radio);
        }
        pool.at_place[508 % PLACES] = Some(11);
        pool.store = [17, 13, 15].into();
        hub
    }

    fn pool(hub: &mut Hub) -> &mut Pool {
        hub.pool.as_mut().unwrap()
    }

    fn assert_fits(what: &str, expected: bool, alter: impl FnOnce(&mut Hub)) {
        let mut hub = sample();
        alter(&mut hub);
        assert_eq!(hub.fits(), expected, "{what}");
        if !expected {
            let before = hub.clone();
            for call in CALLS {
                for party in [0, 9, 10, 255] {
                    assert_eq!(hub.call(call, party, true), Err(Refusal::Misfit), "{what}");
                }
            }
            assert_eq!(hub, before, "{what}");
        }
    }

    #[test]
    fn radios_of_a_record_that_fits() {
        assert_fits("sample", true, |_| {});
        assert_fits("past K", true, |hub| pool(hub).opening[9] = 10);
        assert_fits("two alike", false, |hub| pool(hub).opening[8] = 10);
        assert_fits("alike, and so they are kept", false, |hub| {
            pool(hub).opening[8] = 17;
            pool(hub).with_party[3] = Some(17);
        });
        assert_fits("another order", true, |hub| {
            pool(hub).opening[..9].reverse()
        });
        assert_fits("one more of K", false, |hub| hub.permits = 10);
        assert_fits("one less of K", false, |hub| hub.permits = 8);
        assert_fits("turned", true, |hub| pool(hub).store.rotate_left(1));
        assert_fits("changed hands", true, |hub| {
            pool(hub).with_party.swap(0, 4);
        });
        for party in 0..5 {
            assert_fits("foreign", false, |hub| {
                pool(hub).with_party[party] = Some(9)
            });
            assert_fits("twice", false, |hub| pool(hub).with_party[party] = Some(17));
            assert_fits("lost", false, |hub| hub.phases[party] = Phase::Asked);
        }
        for radio in [9, 10, 17] {
            assert_fits("place", false, |hub| {
                pool(hub).at_place[508 % PLACES] = Some(radio)
            });
            assert_fits("more", false, |hub| pool(hub).store.push_back(radio));
            assert_fits("stored", radio == 17, |hub| pool(hub).store[0] = radio);
        }
        assert_fits("fewer", false, |hub| pool(hub).store.truncate(2));
        assert_fits("a place more", false, |hub| {
            hub.set_place(755, Place::Permit);
            pool(hub).at_place[755 % PLACES] = Some(10);
        });
        assert_fits("a place less", false, |hub| {
            hub.set_place(508, Place::Done);
            hub.phases[7] = Phase::Free;
        });
        assert_fits("no radios", false, |hub| hub.pool = None);
        for busy in [2, 5] {
            assert_fits("no radios", false, |hub| {
                hub.pool = None;
                hub.phases[7 - busy] = Phase::Free;
            });
        }
        assert_fits("no radios, and nobody needs one", true, |hub| {
            hub.pool = None;
            hub.phases[2] = Phase::Free;
            hub.phases[5] = Phase::Free;
        });
        // Nothing is asked of how many fetch, or of the counter.
        assert_fits("all fetch", true, |hub| {
            hub.phases[9] = Phase::Fetching;
            hub.phases[8] = Phase::Fetching;
            hub.counter = -32;
        });
    }

    /// Each row that moves a radio, on the sample: where it was and is then.
    #[test]
    fn steps() {
        let step = |party: u8, alter: &dyn Fn(&mut Hub)| {
            let mut hub = sample();
            alter(&mut hub);
            assert!(hub.fits());
            let answer = hub.call(Call::Step, party, true).unwrap();
            assert!(hub.fits());
            (answer.code, hub)
        };
        let (code, mut hub) = step(2, &|_| {});
        assert_eq!((code, hub.phases[2]), (0x38, Phase::Free));
        assert_eq!(pool(&mut hub).store, [17, 13, 15, 10]);
        let (code, mut hub) = step(5, &|_| {});
        assert_eq!((code, hub.phases[5]), (0x36, Phase::Holding));
        assert_eq!(pool(&mut hub).store, [13, 15]);
        assert_eq!(pool(&mut hub).with_party[5], Some(17));
        let (code, mut hub) = step(4, &|_| {});
        assert_eq!((code, hub.phases[4]), (0x2D, Phase::Free));
        assert_eq!(pool(&mut hub).store, [17, 13, 15, 16]);
        let (code, mut hub) = step(7, &|_| {});
        assert_eq!((code, hub.phases[7]), (0x33, Phase::Free));
        assert_eq!(pool(&mut hub).store, [17, 13, 15, 11]);
        let (code, mut hub) = step(7, &|hub| hub.phases[7] = Phase::Cancelling(508));
        assert_eq!((code, hub.phases[7]), (0x31, Phase::Carrying));
        assert_eq!(pool(&mut hub).with_party[7], Some(11));
        let (code, mut hub) = step(7, &|hub| hub.phases[7] = Phase::Numbered(508));
        assert_eq!((code, hub.phases[7]), (0x25, Phase::Holding));
        assert_eq!(pool(&mut hub).with_party[7], Some(11));
        let (code, mut hub) = step(4, &|hub| hub.set_place(500, Place::Empty));
        assert_eq!((code, hub.place(500)), (0x29, Place::Permit));
        assert_eq!(pool(&mut hub).at_place[500 % PLACES], Some(16));
        let waits = |phase| {
            move |hub: &mut Hub| {
                hub.phases[6] = phase;
                hub.set_place(500, Place::Waiting(6));
                hub.set_place(507, Place::Empty);
            }
        };
        let (code, mut hub) = step(4, &waits(Phase::Waiting(500)));
        assert_eq!((code, hub.phases[6]), (0x2A, Phase::Holding));
        assert_eq!(pool(&mut hub).with_party[6], Some(16));
        assert_eq!(pool(&mut hub).with_party[4], None);
        let (code, mut hub) = step(4, &waits(Phase::GivingUp(500)));
        assert_eq!((code, hub.place(500)), (0x2B, Place::Permit));
        assert_eq!(pool(&mut hub).at_place[500 % PLACES], Some(16));
        let (code, mut hub) = step(1, &|_| {});
        assert_eq!((code, hub.phases[1]), (0x26, Phase::PuttingBack));
        assert_eq!(pool(&mut hub).with_party[1], Some(12));
        let (code, hub) = step(9, &|hub| hub.phases[9] = Phase::Asked);
        assert_eq!((code, hub.phases[9]), (0x21, Phase::Fetching));
    }

    /// 37 and 39 change nothing in an untidy record, and refused ones neither.
    #[test]
    fn no_tidying() {
        let mut hub = sample();
        hub.set_place(505, Place::Cancelled);
        hub.set_place(500, Place::Done);
        hub.phases[4] = Phase::Holding;
        let before = hub.clone();
        let numbers = [
            Some(14),
            Some(12),
            Some(10),
            Some(18),
            Some(16),
            None,
            None,
            None,
            None,
            None,
        ];
        for (party, number) in (0..).zip(numbers) {
            let answer = Answer {
                number,
                ..Answer::plain(0x39)
            };
            assert_eq!(hub.call(Call::Radio, party, true), Ok(answer));
        }
        assert_eq!(hub.call(Call::Radio, 10, true), Err(Refusal::NoSuchParty));
        assert_eq!(hub, before);
        // Nobody has the three that were stored.
        hub.permits = 6;
        pool(&mut hub).opening = Pool::filled(&[14, 12, 10, 18, 16, 11]).opening;
        pool(&mut hub).store.clear();
        let before = hub.clone();
        assert_eq!(hub.call(Call::Step, 5, true), Ok(Answer::plain(0x37)));
        assert_eq!(hub, before);
        assert_eq!(hub.call(Call::Step, 2, true), Ok(Answer::plain(0x38)));
        assert_eq!((hub.oldest, hub.next_resume), (501, 506));
        assert_eq!(hub.call(Call::Step, 5, true), Ok(Answer::plain(0x36)));
    }

    /// Without radios nothing is as on a hub with them.
    #[test]
    fn hub_without_radios() {
        assert_run(
            &[
                ("1400", "0D00FFFFFFFFFF"),
                ("010102", "1FFFFFFFFFFFFF"),
                ("1000", "2000FFFFFFFFFF"),
                ("1100", "2100FFFFFFFFFF"),
                ("1400", "3900FFFFFFFFFF"),
                ("1402", "0402FFFFFFFFFF"),
                ("1100", "0800FFFFFFFFFF"),
                ("1300", "2000FFFFFFFFFF"),
                ("1100", "2600FFFFFFFFFF"),
                ("1100", "0800FFFFFFFFFF"),
                ("1401", "3901FFFFFFFFFF"),
            ],
            "7E000000000001",
        );
    }
}

/// Cancels before the wait (paper: give-ups in asked, unnumbered, numbered).
mod early {
    use super::*;
    use Phase::*;

    const EARLY: [Phase; 3] = [Asked, Unnumbered, Numbered(7)];

    /// A fitting record with so much at the counter; party 0 in this phase,
    /// marked or not, and its place so.
    fn hub_with(counter: i32, phase: Phase, marked: bool, place: Place) -> Hub {
        let mut hub = Hub::open(1, 32).unwrap();
        hub.counter = counter;
        hub.next_ticket = 8;
        hub.next_resume = 8;
        hub.ring[7] = place;
        hub.phases[0] = phase;
        hub.marked[0] = marked;
        hub
    }

    #[test]
    fn a_cancel_is_remembered_and_alters_nothing_else() {
        for phase in EARLY {
            let mut hub = hub_with(-1, phase, false, Place::Empty);
            let expected = hub_with(-1, phase, true, Place::Empty);
            let answer = hub.call(Call::Cancel, 0, true);
            assert_eq!(answer, Ok(Answer::plain(0x20)));
            assert_eq!(hub, expected);
            let again = hub.call(Call::Cancel, 0, true);
            assert_eq!(again, Err(Refusal::NotWaiting));
            assert_eq!(hub, expected);
        }
    }

    /// It is a success, so it ends with a tidying.
    #[test]
    fn a_remembered_cancel_tidies() {
        for phase in EARLY {
            let mut hub = hub_with(-1, phase, false, Place::Empty);
            hub.ring[0] = Place::Done;
            hub.ring[8] = Place::Cancelled;
            hub.call(Call::Cancel, 0, true).unwrap();
            assert_eq!((hub.oldest, hub.next_resume), (1, 9));
            assert_eq!((hub.ring[0], hub.ring[8]), (Place::Empty, Place::Done));
        }
    }

    /// What a step makes of a marked party: the code, its phase and its mark.
    fn stepped(mut hub: Hub) -> (u8, Phase, bool) {
        let code = hub.call(Call::Step, 0, true).unwrap().code;
        assert!(hub.fits());
        (code, hub.phases[0], hub.marked[0])
    }

    #[test]
    fn steps_of_a_marked_party() {
        let hub = |counter, phase, place| hub_with(counter, phase, true, place);
        let empty = Place::Empty;
        assert_eq!(stepped(hub(1, Asked, empty)), (0x21, Holding, false));
        assert_eq!(stepped(hub(0, Asked, empty)), (0x22, Unnumbered, true));
        assert_eq!(
            stepped(hub(-1, Unnumbered, empty)),
            (0x23, Numbered(8), true)
        );
        assert_eq!(
            stepped(hub(-1, Numbered(7), empty)),
            (0x24, GivingUp(7), false)
        );
        let found = stepped(hub(-1, Numbered(7), Place::Permit));
        assert_eq!(found, (0x25, Holding, false));
        let mut waiting = hub(-1, Numbered(7), empty);
        waiting.call(Call::Step, 0, true).unwrap();
        assert_eq!(waiting.ring[7], Place::Waiting(0));
        assert_eq!(waiting.waiters(), 0);
    }

    #[test]
    fn a_permit_fetched_forgets_the_mark() {
        let mut hub = Hub::open_pool(1, 1, &[0xA7]).unwrap();
        for (call, code) in [(Call::Acquire, 0x20), (Call::Cancel, 0x20)] {
            assert_eq!(hub.call(call, 0, true), Ok(Answer::plain(code)));
        }
        assert!(hub.marked[0]);
        assert_eq!(hub.call(Call::Step, 0, true), Ok(Answer::plain(0x21)));
        assert_eq!((hub.phases[0], hub.marked[0]), (Fetching, false));
        assert_eq!(hub.call(Call::Cancel, 0, true), Err(Refusal::NotWaiting));
    }

    /// 10 as when waiting. A marked party of this kind, which no call makes,
    /// fits and is 9: that comes first.
    #[test]
    fn battery_rounds() {
        for party in [29, 30, 31] {
            for phase in EARLY {
                let mut hub = hub_with(-1, Free, false, Place::Empty);
                hub.phases[party] = phase;
                let before = hub.clone();
                let outcome = hub.call(Call::Cancel, party as u8, true);
                if party == 29 {
                    assert_eq!(outcome, Ok(Answer::plain(0x20)));
                    continue;
                }
                assert_eq!(outcome, Err(Refusal::MustWait));
                assert_eq!(hub, before);
                hub.marked[party] = true;
                assert!(hub.fits());
                let outcome = hub.call(Call::Cancel, party as u8, true);
                assert_eq!(outcome, Err(Refusal::NotWaiting));
            }
        }
    }

    #[test]
    fn a_mark_fits_in_three_phases() {
        let phases = [
            Free,
            Holding,
            Waiting(7),
            GivingUp(7),
            GivingBack,
            Carrying,
            Handing(6),
        ];
        for &phase in phases.iter().chain(&EARLY) {
            let hub = hub_with(-1, phase, false, Place::Empty);
            assert!(hub.fits());
            let mut marked = hub_with(-1, phase, true, Place::Empty);
            assert_eq!(marked.fits(), EARLY.contains(&phase), "{phase:?}");
            if !EARLY.contains(&phase) {
                let outcome = marked.call(Call::Cancel, 0, true);
                assert_eq!(outcome, Err(Refusal::Misfit));
            }
        }
        for phase in [Cancelling(7), Refusing(7)] {
            let mut hub = hub_with(-1, phase, false, Place::Waiting(0));
            assert!(hub.fits());
            hub.marked[0] = true;
            assert!(!hub.fits());
        }
        let mut hub = Hub::open_pool(2, 3, &[1, 2]).unwrap();
        hub.phases[0] = Fetching;
        hub.phases[1] = PuttingBack;
        hub.pool.as_mut().unwrap().pass(Hand::Store, Hand::Party(1));
        assert!(hub.fits());
        for party in [0, 1, 2, 31] {
            hub.marked[party] = true;
            assert!(!hub.fits());
            hub.marked[party] = false;
        }
    }

    /// Neither holds nor waits: the closing line counts a marked party nowhere.
    #[test]
    fn closing_line() {
        let input = "010104\n1000\n1100\n1001\n1201\n1002\n1102\n1202\n1003\n1103\n1103\n1203\n";
        assert_eq!(answers(input).lines().last(), Some("7E0100FFFFFFFE"));
        let input = format!("{input}1103\n");
        assert_eq!(answers(input).lines().last(), Some("7E0100FFFFFFFE"));
    }
}

/// A house's own kinds (M-140).
mod kinds {
    use super::*;
    use desk::{Operation, Screen};

    const OPENED: &str = "1FFFFFFFFFFFFF";
    const OUT_OF_ORDER: &str = "0DFFFFFFFFFFFF";
    const COUNT: &str = "0FFFFFFFFFFFFF";
    const UNKNOWN: &str = "10FFFFFFFFFFFF";
    const NO_DESK: &str = "11FFFFFFFFFFFF";

    /// Every party of this kind but one, which is of that.
    fn all_but(kind: Kind, party: usize, other: Kind) -> [Kind; PARTIES] {
        let mut kinds = [kind; PARTIES];
        kinds[party] = other;
        kinds
    }

    /// A line of these bytes.
    fn hex(parts: &[&[u8]]) -> String {
        let bytes = parts.iter().copied().flatten();
        bytes.map(|byte| format!("{byte:02X}")).collect()
    }

    fn opened(permits: u8, parties: u8, kinds: &[Kind]) -> Result<Hub, Refusal> {
        let opening = Opening {
            permits,
            parties,
            radios: None,
            kinds: kinds.to_vec(),
        };
        opening.hub()
    }

    #[test]
    fn built_in() {
        let kinds = built_in_kinds();
        let of = |wanted| (0..PARTIES).filter(move |&party| kinds[party] == wanted);
        assert!(of(0).eq(0..8));
        assert!(of(1).eq(8..28));
        assert!(of(2).eq(28..30));
        assert!(of(3).eq(30..32));
        assert_eq!(check_kinds(&kinds), Ok(()));
    }

    /// Without kinds a hub is as with the built-in ones written out.
    #[test]
    fn built_in_ones_given() {
        let radios: Vec<Radio> = (100..132).collect();
        for permits in 1..=32 {
            for parties in 1..=32 {
                let hub = Hub::open(permits, parties);
                assert_eq!(hub.clone().unwrap().kinds, built_in_kinds());
                assert_eq!(opened(permits, parties, &[]), hub);
                assert_eq!(opened(permits, parties, &built_in_kinds()), hub);
                let radios = &radios[..usize::from(permits)];
                let bytes: &[&[u8]] = &[&[2, permits, parties], radios, &built_in_kinds()];
                let Some(Frame::Open(opening)) = read_frame(&bytes.concat()) else {
                    panic!("no opening");
                };
                assert_eq!(opening.hub(), Hub::open_pool(permits, parties, radios));
            }
        }
    }

    /// They are the hub's from then on, and nothing else of it is altered.
    #[test]
    fn kept_in_the_record() {
        let kinds: Vec<Kind> = (0..32).map(|party| (party * 7 / 4) % 4).collect();
        for (permits, parties) in [(1, 1), (3, 13), (32, 32)] {
            let plain = Hub::open(permits, parties).unwrap();
            let hub = opened(permits, parties, &kinds).unwrap();
            assert_eq!(hub.kinds, kinds[..]);
            let mut expected = plain.clone();
            expected.kinds.copy_from_slice(&kinds);
            assert_eq!(hub, expected);
            assert!(hub.fits());
        }
    }

    /// After 01, K, n and after 02, K, n and K radios all other bytes are
    /// kinds. There are 32 of them, as far as a line goes.
    #[test]
    fn how_many() {
        let radios: Vec<Radio> = (100..132).collect();
        for permits in [None, Some(0), Some(1), Some(2), Some(32)] {
            let own = match permits {
                None => vec![1, 1, 1],
                Some(0) => vec![2, 0, 1],
                Some(permits) => [&[2, permits, 1], &radios[..usize::from(permits)]].concat(),
            };
            for more in 0..=90 {
                let line = hex(&[&own, &vec![0; more]]);
                let expected = match (more, permits) {
                    _ if own.len() + more > 80 => MALFORMED,
                    (_, Some(0)) => "02FFFFFFFFFFFF",
                    (0 | 32, _) => OPENED,
                    _ => COUNT,
                };
                assert_eq!(line.len() > 160, own.len() + more > 80);
                assert_eq!(last_answer(line), expected, "{permits:?} and {more}");
            }
            for length in 0..own.len() {
                assert_eq!(last_answer(hex(&[&own[..length]]) + "\n"), MALFORMED);
            }
        }
        for more in [1, 31, 33, 64] {
            assert_eq!(last_answer(hex(&[&[1, 1, 1], &vec![0; more]])), COUNT);
            assert_eq!(last_answer(hex(&[&[2, 1, 1, 9], &vec![0; more]])), COUNT);
        }
    }

    /// The longest opening: 32 radios and 32 kinds.
    #[test]
    fn with_all_radios() {
        let radios: Vec<Radio> = (0..32).map(|at| 255 - at).collect();
        let kinds = all_but(3, 31, 0);
        let line = hex(&[&[2, 32, 32], &radios, &kinds]);
        assert_eq!(line.len(), 134);
        for line in [line.clone(), line.to_lowercase()] {
            assert_run(
                &[
                    (&line, OPENED),
                    ("1000", "2000FFFFFFFFFF"),
                    ("1200", "0A00FFFFFFFFFF"),
                    ("101F", "201FFFFFFFFFFF"),
                    ("121F", "201FFFFFFFFFFF"),
                    ("1100", "2100FFFFFFFFFF"),
                    ("1100", "3600FFFFFFFFFF"),
                    ("1400", "3900FF000000FF"),
                ],
                "7E01000000001F",
            );
        }
        // One of the radios less is one of the kinds less.
        let shorter = hex(&[&[2, 32, 32], &radios[1..], &kinds]);
        assert_eq!(last_answer(shorter), COUNT);
        // Radios like kinds, and the last like the first kind.
        let line = hex(&[&[2, 3, 1, 3, 1, 0], &all_but(0, 0, 3)]);
        assert_eq!(last_answer(line), OPENED);
        let line = hex(&[&[2, 2, 1, 4, 5], &all_but(0, 0, 4)]);
        assert_eq!(last_answer(line), UNKNOWN);
        let line = hex(&[&[2, 1, 1, 0], &[1; 32]]);
        assert_eq!(last_answer(line), NO_DESK);
    }

    /// The refusals of an opening's own, in order.
    const ORDER: [u8; 6] = [2, 3, 14, 15, 16, 17];

    /// The bytes of an opening that meets these of them; 14 needs radios.
    fn meeting(refusals: &[u8], radios: bool) -> Vec<u8> {
        let meets = |number| refusals.contains(&number);
        let permits = if meets(2) { 33 } else { 2 };
        let parties = if meets(3) { 33 } else { 7 };
        let mut kinds = [if meets(17) { 2 } else { 0 }; 33];
        kinds[19] = if meets(16) { 4 } else { 3 };
        let kinds = &kinds[..if meets(15) { 33 } else { 32 }];
        if !radios {
            return [&[1, permits, parties], kinds].concat();
        }
        let radios: Vec<Radio> = (0..permits)
            .map(|at| if meets(14) { 9 } else { at })
            .collect();
        [&[2, permits, parties], &radios[..], kinds].concat()
    }

    /// 12, 13, 2, 3, 14, 15, 16, 17, whatever applies besides.
    #[test]
    fn refusals_of_an_opening_come_in_order() {
        let mut tried = 0;
        for (choice, radios) in (0..64).flat_map(|choice| [(choice, false), (choice, true)]) {
            let chosen = (0..6).filter(|at| choice >> at & 1 == 1);
            let refusals: Vec<u8> = chosen.map(|at| ORDER[at]).collect();
            if refusals.contains(&14) && !radios {
                continue;
            }
            tried += 1;
            let bytes = meeting(&refusals, radios);
            let line = hex(&[&bytes]);
            assert_eq!(
                desk::operate(&bytes, &[], 0).err(),
                refusals.first().copied()
            );
            for malformed in [&line[1..], &format!("{line}G0")] {
                assert_run(&[(malformed, MALFORMED)], NOTHING_OPENED);
                let pairs = [("010101", OPENED), (malformed, MALFORMED)];
                assert_run(&pairs, "7E000000000001");
            }
            let pairs = [("010101", OPENED), (&line, OUT_OF_ORDER)];
            assert_run(&pairs, "7E000000000001");
            let Some(first) = refusals.first() else {
                assert_run(&[(&line, OPENED)], "7E000000000002");
                continue;
            };
            // It opened nothing: a call is 13, and the next opening counts.
            let answer = format!("{first:02X}FFFFFFFFFFFF");
            assert_run(&[(&line, &answer)], NOTHING_OPENED);
            let pairs = [
                (&line[..], &answer[..]),
                ("1000", "0D00FFFFFFFFFF"),
                ("010101", OPENED),
            ];
            assert_run(&pairs, "7E000000000001");
        }
        assert_eq!(tried, 64 + 32);
    }

    /// Above 3 at any party, also from n up, and before 17.
    #[test]
    fn unknown_kinds() {
        for party in 0..PARTIES {
            for kind in 0..=255 {
                for parties in [1, 16, 32] {
                    let outcome = opened(1, parties, &all_but(0, party, kind)).err();
                    assert_eq!(outcome, (kind > 3).then_some(Refusal::NoSuchKind));
                    let outcome = opened(1, parties, &all_but(1, party, kind)).err();
                    let expected = match kind {
                        0 => None,
                        1..=3 => Some(Refusal::NoDesk),
                        _ => Some(Refusal::NoSuchKind),
                    };
                    assert_eq!(outcome, expected);
                }
            }
        }
        let line = hex(&[&[1, 1, 1], &all_but(0, 31, 4)]);
        assert_eq!(last_answer(line), UNKNOWN);
        let line = hex(&[&[1, 1, 1], &[255; 32]]);
        assert_eq!(last_answer(line), UNKNOWN);
    }

    /// One desk is enough, wherever it is.
    #[test]
    fn no_desk() {
        for kind in 1..=3 {
            let line = hex(&[&[1, 1, 1], &[kind; 32]]);
            assert_eq!(last_answer(line), NO_DESK);
            for party in 0..PARTIES {
                let line = hex(&[&[1, 1, 1], &all_but(kind, party, 0)]);
                assert_eq!(last_answer(line), OPENED);
            }
        }
    }

    /// Party 0 may not give up, 30 and 31 may, early and when they wait.
    #[test]
    fn kind_3_at_party_0() {
        let line = hex(&[&[1, 1, 32], &all_but(0, 0, 3)]);
        assert_run(
            &[
                (&line, OPENED),
                ("1005", "2005FFFFFFFFFF"),
                ("1105", "2105FFFFFFFFFF"),
                ("1200", "0900FFFFFFFFFF"),
                ("1000", "2000FFFFFFFFFF"),
                ("1200", "0A00FFFFFFFFFF"),
                ("1100", "2200FFFFFFFFFF"),
                ("1200", "0A00FFFFFFFFFF"),
                ("1100", "2300FF00000000"),
                ("1200", "0A00FFFFFFFFFF"),
                ("1100", "2400FF00000000"),
                ("1200", "0A00FFFFFFFFFF"),
                ("101F", "201FFFFFFFFFFF"),
                ("121F", "201FFFFFFFFFFF"),
                ("121F", "091FFFFFFFFFFF"),
                ("101E", "201EFFFFFFFFFF"),
                ("111E", "221EFFFFFFFFFF"),
                ("111E", "231EFF00000001"),
                ("111E", "241EFF00000001"),
                ("121E", "201EFFFFFFFFFF"),
                ("111E", "2E1EFFFFFFFFFF"),
                ("111E", "301EFF00000001"),
                // A second opening alters no kind.
                ("010120", OUT_OF_ORDER),
                ("1200", "0A00FFFFFFFFFF"),
            ],
            "7E0101FFFFFFFF",
        );
    }

    /// 10 by the party's own kind, in each phase in which it could give up.
    #[test]
    fn own_kind_decides() {
        let phases = [
            Phase::Asked,
            Phase::Unnumbered,
            Phase::Numbered(7),
            Phase::Waiting(7),
        ];
        for party in 0..PARTIES {
            for kind in 0..=3 {
                // A desk elsewhere, and everybody else of the other sort.
                let other = if kind == 3 { 1 } else { 3 };
                let mut kinds = all_but(other, party, kind);
                kinds[(party + 1) % PARTIES] = 0;
                for phase in phases {
                    let mut hub = opened(1, 32, &kinds).unwrap();
                    hub.next_ticket = 8;
                    hub.phases[party] = phase;
                    if let Phase::Waiting(_) = phase {
                        hub.ring[7] = Place::Waiting(party as u32);
                    }
                    let mut expected = hub.clone();
                    let outcome = hub.call(Call::Cancel, party as u8, true);
                    if kind == 3 {
                        assert_eq!(outcome, Err(Refusal::MustWait));
                    } else {
                        assert_eq!(outcome, Ok(Answer::plain(0x20)));
                        match phase {
                            Phase::Waiting(t) => expected.phases[party] = Phase::GivingUp(t),
                            _ => expected.marked[party] = true,
                        }
                    }
                    assert_eq!(hub, expected);
                }
                // Where it could not, 9 comes first.
                let mut hub = opened(1, 32, &kinds).unwrap();
                let outcome = hub.call(Call::Cancel, party as u8, true);
                assert_eq!(outcome, Err(Refusal::NotWaiting));
            }
        }
    }

    /// 1 to every call of anybody where the kinds meet 16 or 17, and the
    /// record stays. Without the check nobody looks at them.
    #[test]
    fn of_a_record_that_fits() {
        let fits = |kinds: [Kind; PARTIES]| {
            let mut hub = Hub::open(2, 13).unwrap();
            hub.kinds = kinds;
            let before = hub.clone();
            let mut misfits = 0;
            for call in CALLS {
                for party in [0, 12, 13, 255] {
                    let mut left = hub.clone();
                    if left.call(call, party, true) == Err(Refusal::Misfit) {
                        assert_eq!(left, before);
                        misfits += 1;
                    }
                    assert_ne!(hub.clone().call(call, party, false), Err(Refusal::Misfit));
                }
            }
            assert_eq!(misfits, if hub.fits() { 0 } else { 20 });
            hub.fits()
        };
        assert!(fits(built_in_kinds()));
        assert!(fits([0; PARTIES]));
        for kind in 1..=255 {
            assert!(!fits([kind; PARTIES]));
        }
        for party in 0..PARTIES {
            for kind in 0..=255 {
                assert_eq!(fits(all_but(0, party, kind)), kind <= 3);
                assert_eq!(fits(all_but(3, party, kind)), kind == 0);
            }
        }
    }

    /// As for a record: 1 to every move where a line's kinds meet 16 or 17.
    #[test]
    fn of_a_line_that_is_reached() {
        let reached = |kinds: [Kind; PARTIES]| {
            let screen = Screen {
                permits: 2,
                parties: 5,
                radios: false,
                kinds,
                holders: [1, 3].iter().copied().collect(),
                waiting: vec![4, 0],
            };
            let operations = [Operation::Acquire, Operation::Cancel, Operation::Release];
            for operation in operations {
                for party in [0, 1, 2, 5, 255] {
                    let mut left = screen.clone();
                    let misfit = left.operate(operation, party) == Err(Refusal::Misfit);
                    assert_eq!(misfit, !screen.is_reached());
                    assert!(!misfit || left == screen);
                }
            }
            screen.is_reached()
        };
        assert!(reached(built_in_kinds()));
        for kind in 0..=255 {
            assert_eq!(reached([kind; PARTIES]), kind == 0);
            for party in 0..PARTIES {
                assert_eq!(reached(all_but(0, party, kind)), kind <= 3);
                assert_eq!(reached(all_but(3, party, kind)), kind == 0);
            }
        }
    }
}

mod record_mode {
    use super::*;
    use records::{CASE, RECORD, REPLY};

    fn replies(input: &[u8]) -> Vec<u8> {
        let mut output = Vec::new();
        records::run(input, &mut output).unwrap();
        output
    }

    /// The reply to one case: the answer as a line has it, and the record.
    fn reply(record: &[u8], code: u8, party: u8) -> (String, Vec<u8>) {
        let output = replies(&[record, &[code, party]].concat());
        assert_eq!(output.len(), REPLY);
        let (answer, record) = output.split_at(REPLY - RECORD);
        let digits = answer.iter().map(|byte| format!("{byte:02X}"));
        (digits.collect(), record.to_vec())
    }

    /// A record just opened, written down from the layout.
    fn opened(permits: u8, parties: u8) -> Vec<u8> {
        let mut record = vec![0; RECORD];
        record[0] = permits;
        record[1] = parties;
        record[5] = permits;
        record[KIND + 8..KIND + 28].fill(1);
        record[KIND + 28..].copy_from_slice(&[2, 2, 3, 3]);
        record
    }

    const PLACE: usize = 22;
    const PHASE: usize = PLACE + 256 * 5;
    const FLAG: usize = 1462;
    const OPENING: usize = 1463;
    const WITH: usize = 1495;
    const AT: usize = 1527;
    const TURNED: usize = 1783;
    const COUNT: usize = 1784;
    const STORE: usize = 1785;
    const MARK: usize = 1817;
    const KIND: usize = 1849;

    fn set(record: &mut [u8], at: usize, byte: u8, number: u32) {
        record[at] = byte;
        record[at + 1..at + 5].copy_from_slice(&number.to_be_bytes());
    }

    #[test]
    fn sizes() {
        assert_eq!((RECORD, CASE, REPLY), (1881, 1883, 1888));
    }

    /// The run, each record handed back in; the last one by hand.
    #[test]
    fn paper_run() {
        let run = [
            (0x10, 0, "2000FFFFFFFFFF"),
            (0x11, 0, "2100FFFFFFFFFF"),
            (0x10, 1, "2001FFFFFFFFFF"),
            (0x11, 1, "2201FFFFFFFFFF"),
            (0x11, 1, "2301FF00000000"),
            (0x11, 1, "2401FF00000000"),
            (0x13, 0, "2000FFFFFFFFFF"),
            (0x11, 0, "2700FFFFFFFFFF"),
            (0x12, 1, "2001FFFFFFFFFF"),
            (0x11, 1, "2F01FFFFFFFFFF"),
            (0x11, 0, "2800FF00000000"),
            (0x11, 0, "2B00FF00000000"),
            (0x11, 1, "3301FF00000000"),
        ];
        let mut record = opened(1, 3);
        for (code, party, expected) in run {
            let (answer, next) = reply(&record, code, party);
            assert_eq!(answer, expected);
            record = next;
        }
        let mut expected = opened(1, 3);
        // numbered, handed, begun, oldest
        for (at, figure) in [(9, 1), (13, 1), (17, 2), (21, 1)] {
            expected[at] = figure;
        }
        assert_eq!(record, expected);
    }

    #[test]
    fn woken_party_and_number() {
        let mut record = opened(1, 6);
        for at in [6, 10, 18] {
            record[at..at + 4].copy_from_slice(&0x0001_0203u32.to_be_bytes());
        }
        record[9] += 1;
        record[13] += 1;
        record[2..6].copy_from_slice(&(-1i32).to_be_bytes());
        set(&mut record, PLACE + 5 * 3, 1, 5);
        set(&mut record, PHASE, 11, 0x0001_0203);
        set(&mut record, PHASE + 5 * 5, 2, 0x0001_0203);
        let mut expected = record.clone();
        // The place is done, so freed; 0 is free and 5 holds.
        expected[21] += 1;
        set(&mut expected, PLACE + 5 * 3, 0, 0);
        set(&mut expected, PHASE, 0, 0);
        set(&mut expected, PHASE + 5 * 5, 1, 0);
        let (answer, left) = reply(&record, 0x11, 0);
        assert_eq!(answer, "2A000500010203");
        assert_eq!(left, expected);
    }

    /// A refusal hands the record back; so every byte is read and written.
    #[test]
    fn refused_records_come_back() {
        let mut record = vec![0; RECORD];
        for (byte, value) in record[..PLACE].iter_mut().zip(0x81..) {
            *byte = value;
        }
        for place in 0..256 {
            let state = (place % 6) as u8;
            let party = if state == 1 {
                0x1122_3300 + place as u32
            } else {
                0
            };
            set(&mut record, PLACE + 5 * place, state, party);
        }
        for party in 0..32 {
            let phase = (party % 14) as u8;
            let numbered = matches!(phase, 2 | 5..=8 | 11);
            let t = if numbered { 0xA1B2_C3D4 } else { 0 };
            set(&mut record, PHASE + 5 * party, phase, t);
            record[MARK + party] = u8::from(matches!(phase, 3..=5) && party < 14);
            record[KIND + party] = 0xE0 + party as u8;
        }
        let calls = [(0x10, 0), (0x11, 31), (0x12, 32), (0x13, 255), (0x14, 0)];
        let mut with_radios = record.clone();
        with_radios[FLAG] = 1;
        for (at, byte) in with_radios[OPENING..TURNED].iter_mut().enumerate() {
            *byte = 1 + (at % 255) as u8;
        }
        for party in 0..32 {
            if !matches!(party % 14, 1 | 9..=11 | 13) {
                with_radios[WITH + party] = 0;
            }
        }
        for place in (0..256).filter(|place| place % 6 != 2) {
            with_radios[AT + place] = 0;
        }
        with_radios[COUNT] = 31;
        for (byte, value) in with_radios[STORE..MARK - 1].iter_mut().zip(0x41..) {
            *byte = value;
        }
        for record in [record, with_radios] {
            for (code, party) in calls {
                let (answer, left) = reply(&record, code, party);
                assert_eq!(answer, format!("01{party:02X}FFFFFFFFFF"));
                assert_eq!(left, record);
            }
        }
    }

    /// What counts for nothing is written as zero: all of the radios on a hub
    /// without them, one with a party that has none and at a place with no
    /// permit, those past the store's count, and how far the store is turned.
    #[test]
    fn radios_that_count_for_nothing() {
        for flag in 0..=255u8 {
            let mut record = opened(0, 0);
            record[FLAG] = flag;
            record[OPENING..KIND].fill(0x77);
            record[COUNT] = 33 + 2;
            let mut expected = opened(0, 0);
            if flag % 2 == 1 {
                expected[FLAG] = 1;
                expected[OPENING..WITH].fill(0x77);
                expected[COUNT] = 2;
                expected[STORE..STORE + 2].fill(0x77);
            }
            assert_eq!(reply(&record, 0x14, 0).1, expected);
        }
        for byte in 0..=255u8 {
            let mut record = with_radios(&[1, 2, 3], 3);
            record[COUNT] = byte;
            let stored = usize::from(byte % 33);
            let expected = if stored == 3 { 0x39 } else { 1 };
            let output = replies(&[&record[..], &[0x14, 0]].concat());
            assert_eq!(output[0], expected);
            assert_eq!(output[7 + COUNT], byte % 33);
        }
    }

    /// A record just opened with radios.
    fn with_radios(radios: &[u8], parties: u8) -> Vec<u8> {
        let mut record = opened(radios.len() as u8, parties);
        record[FLAG] = 1;
        record[COUNT] = radios.len() as u8;
        for at in [OPENING, STORE] {
            record[at..at + radios.len()].copy_from_slice(radios);
        }
        record
    }

    /// However the store is said to be turned, it is given from its front on.
    #[test]
    fn a_radio_taken_and_put_back() {
        for turned in [0, 1, 31, 32, 255] {
            let mut record = with_radios(&[0xA7, 0, 0x31], 4);
            record[TURNED] = turned;
            let run = [
                (0x10, "2003FFFFFFFFFF"),
                (0x11, "2103FFFFFFFFFF"),
                (0x11, "3603FFFFFFFFFF"),
                (0x14, "3903FF000000A7"),
            ];
            for (code, expected) in run {
                let (answer, next) = reply(&record, code, 3);
                assert_eq!(answer, expected);
                record = next;
                record[TURNED] = turned;
            }
            let mut expected = with_radios(&[0xA7, 0, 0x31], 4);
            expected[5] = 2;
            expected[17] = 1;
            set(&mut expected, PHASE + 5 * 3, 1, 0);
            expected[WITH + 3] = 0xA7;
            expected[COUNT] = 2;
            expected[STORE..STORE + 3].copy_from_slice(&[0, 0x31, 0]);
            expected[TURNED] = turned;
            assert_eq!(record, expected);
            for (code, expected) in [(0x13, 0x20), (0x11, 0x26), (0x11, 0x38)] {
                let (answer, next) = reply(&record, code, 3);
                assert_eq!(answer, format!("{expected:02X}03FFFFFFFFFF"));
                record = next;
            }
            let mut expected = with_radios(&[0xA7, 0, 0x31], 4);
            expected[17] = 1;
            expected[STORE..STORE + 3].copy_from_slice(&[0, 0x31, 0xA7]);
            assert_eq!(record, expected);
        }
    }

    /// A byte that names nothing counts by its remainder; a number that
    /// nothing has is written as zero.
    #[test]
    fn odd_bytes() {
        for byte in 0..=255u8 {
            let mut record = opened(0, 0);
            set(&mut record, PLACE, byte, 7);
            set(&mut record, PHASE, byte, 7);
            let mut expected = opened(0, 0);
            let (state, phase) = (byte % 6, byte % 14);
            set(&mut expected, PLACE, state, if state == 1 { 7 } else { 0 });
            let t = if matches!(phase, 2 | 5..=8 | 11) {
                7
            } else {
                0
            };
            set(&mut expected, PHASE, phase, t);
            let (answer, left) = reply(&record, byte, 9);
            assert_eq!(answer, "0109FFFFFFFFFF");
            assert_eq!(left, expected);
            // On a fresh record each call is known by its answer.
            let expected = ["39", "20", "08", "09", "0B"][usize::from(byte % 5)];
            assert_eq!(reply(&opened(1, 1), byte, 0).0[..2], *expected);
        }
    }

    /// A mark counts by its remainder, in the three phases; elsewhere it is
    /// passed over and written as zero.
    #[test]
    fn marks() {
        for byte in 0..=255u8 {
            for phase in 0..14u8 {
                let mut record = opened(0, 0);
                set(&mut record, PHASE + 5 * 31, phase, 0);
                record[MARK + 31] = byte;
                let left = reply(&record, 0x10, 0).1;
                let mut expected = record;
                expected[MARK + 31] = if matches!(phase, 3..=5) { byte % 2 } else { 0 };
                assert_eq!(left, expected);
            }
        }
        // asked at 0, then marked; then 22, 23, 24 and 2E
        let mut record = opened(1, 3);
        record[5] = 0;
        set(&mut record, PHASE + 5 * 2, 3, 0);
        let (answer, mut left) = reply(&record, 0x12, 2);
        record[MARK + 2] = 1;
        assert_eq!((&answer[..], &left), ("2002FFFFFFFFFF", &record));
        assert_eq!(reply(&left, 0x12, 2).0, "0902FFFFFFFFFF");
        let steps = [
            ("2202FFFFFFFFFF", 4, 1),
            ("2302FF00000000", 5, 1),
            ("2402FF00000000", 6, 0),
            ("2E02FFFFFFFFFF", 7, 0),
        ];
        for (expected, phase, mark) in steps {
            let (answer, next) = reply(&left, 0x11, 2);
            assert_eq!(answer, expected);
            assert_eq!((next[PHASE + 5 * 2], next[MARK + 2]), (phase, mark));
            left = next;
        }
    }

    /// The last 32 bytes, as they are. Above 3, or none of them 0, is 1, also
    /// of a party from n up; else they decide 10, and no call alters them.
    #[test]
    fn kinds() {
        for party in 0..32u8 {
            for kind in 0..=255u8 {
                let mut record = opened(1, 30);
                record[5] = 0;
                record[KIND..].fill(1);
                record[KIND + usize::from(party ^ 1)] = 0;
                record[KIND + usize::from(party)] = kind;
                set(&mut record, PHASE + 5 * usize::from(party), 3, 0);
                let (answer, left) = reply(&record, 0x12, party);
                let code = match (kind, party) {
                    // Asked, and from n up.
                    (4.., _) | (_, 30..) => "01",
                    (3, _) => "0A",
                    _ => "20",
                };
                assert_eq!(answer, format!("{code}{party:02X}FFFFFFFFFF"));
                record[MARK + usize::from(party)] = u8::from(code == "20");
                assert_eq!(left, record);
                // Nobody asked: the kinds alone.
                let mut record = opened(1, 30);
                record[KIND..].fill(2);
                record[KIND + usize::from(party)] = kind;
                let (answer, left) = reply(&record, 0x11, 0);
                assert_eq!(&answer[..2], if kind == 0 { "08" } else { "01" });
                assert_eq!(left, record);
            }
        }
    }

    #[test]
    fn only_whole_cases_are_answered() {
        let cases = [opened(1, 1), vec![0x10, 0], opened(2, 2), vec![0x11, 1]].concat();
        let output = replies(&cases);
        assert_eq!(output.len(), 2 * REPLY);
        assert_eq!((output[0], output[REPLY]), (0x20, 0x08));
        for short in [0, 1, CASE - 1] {
            assert_eq!(replies(&cases[..short]), []);
            assert_eq!(replies(&cases[..CASE + short]), output[..REPLY]);
        }
    }
}

/// Small seeded generator (xorshift64*).
struct Random(u64);

impl Random {
    fn seeded(seed: u64) -> Self {
        // Xorshift must not start at zero.
        Random(seed.wrapping_mul(0x9E37_79B9_7F4A_7C15) | 1)
    }

    /// A number below `bound`.
    fn below(&mut self, bound: u32) -> u32 {
        self.0 ^= self.0 >> 12;
        self.0 ^= self.0 << 25;
        self.0 ^= self.0 >> 27;
        let high = (self.0.wrapping_mul(0x2545_F491_4F6C_DD1D) >> 32) as u32;
        high % bound
    }

    fn one_in(&mut self, odds: u32) -> bool {
        self.below(odds) == 0
    }
}

/// Where each radio is, from calls and answers alone.
#[derive(Clone, Debug, PartialEq)]
struct Whereabouts {
    stored: Vec<Radio>,
    with: [Option<Radio>; PARTIES],
    /// The radios of the permits that lie at a place, with its ticket.
    lying: Vec<(Ticket, Radio)>,
}

impl Whereabouts {
    fn take(&mut self, party: usize) -> Radio {
        self.with[party].take().expect("the party has a radio")
    }

    fn enter(&mut self, party: usize, answer: Answer) {
        let t = answer.number.unwrap_or(0);
        match answer.code {
            0x36 => self.with[party] = Some(self.stored.remove(0)),
            0x37 => assert_eq!(self.stored, []),
            0x38 | 0x2D => {
                let radio = self.take(party);
                self.stored.push(radio);
            }
            0x29 | 0x2B => {
                let radio = self.take(party);
                self.lying.push((t, radio));
            }
            0x2A => {
                let radio = self.take(party);
                self.with[answer.woken.unwrap() as usize] = Some(radio);
            }
            0x25 | 0x31 | 0x33 => {
                let at = self.lying.iter().position(|&(ticket, _)| ticket == t);
                let (_, radio) = self.lying.remove(at.expect("a radio lies there"));
                if answer.code == 0x33 {
                    self.stored.push(radio);
                } else {
                    self.with[party] = Some(radio);
                }
            }
            0x39 => assert_eq!(self.with[party].map(u32::from), answer.number),
            _ => {}
        }
    }

    /// All radios, sorted.
    fn all(&self) -> Vec<Radio> {
        let lying = self.lying.iter().map(|&(_, radio)| radio);
        let with = self.with.iter().flatten().copied();
        let mut all: Vec<Radio> = with.chain(lying).chain(self.stored.clone()).collect();
        all.sort_unstable();
        all
    }
}

/// The paper's "Counting links", from calls and answers alone.
struct Ledger {
    /// The opening's radios, sorted, and where they are.
    radios: Option<(Vec<Radio>, Whereabouts)>,
    permits: i32,
    phases: [Phase; PARTIES],
    /// Who gave up before waiting: 20 to a cancel in one of three phases.
    marked: [bool; PARTIES],
    held: i32,
    counter: i32,
    /// Places with a permit.
    lying: i32,
    /// Refused places.
    refused: i32,
    /// The greatest number served so far.
    last_served: Option<Ticket>,
}

impl Ledger {
    fn new(permits: u8, radios: Option<&[Radio]>) -> Self {
        let stored = |radios: &[Radio]| Whereabouts {
            stored: radios.to_vec(),
            with: [None; PARTIES],
            lying: Vec::new(),
        };
        let sorted = |mut radios: Vec<Radio>| {
            radios.sort_unstable();
            radios
        };
        Ledger {
            radios: radios.map(|radios| (sorted(radios.to_vec()), stored(radios))),
            permits: i32::from(permits),
            phases: [Phase::Free; PARTIES],
            marked: [false; PARTIES],
            held: 0,
            counter: i32::from(permits),
            lying: 0,
            refused: 0,
            last_served: None,
        }
    }

    fn enter(&mut self, call: Call, party: usize, answer: Answer) {
        use Phase::*;
        let has_radios = self.radios.is_some();
        if let Some((opening, whereabouts)) = &mut self.radios {
            whereabouts.enter(party, answer);
            assert_eq!(whereabouts.all(), *opening);
        }
        if call == Call::Radio {
            assert_eq!((answer.code, answer.woken), (0x39, None));
            assert!(has_radios || answer.number.is_none());
            return;
        }
        let own = match self.phases[party] {
            Numbered(t) | Waiting(t) | GivingUp(t) | Cancelling(t) | Refusing(t) | Handing(t) => {
                Some(t)
            }
            _ => None,
        };
        // Only 23 and 28 bring a number; later answers repeat the party's own.
        if let (Some(given), false) = (answer.number, matches!(answer.code, 0x23 | 0x28)) {
            assert_eq!(Some(given), own);
        }
        let numbered = matches!(answer.code, 0x23..=0x25 | 0x28..=0x2D | 0x30..=0x33);
        assert_eq!(answer.number.is_some(), numbered);
        let ticket = answer.number.or(own);
        let t = || ticket.expect("an answer that needs a number");
        let leaves = self.marked[party];
        let phase = match (call, answer.code) {
            (Call::Acquire, 0x20) => Asked,
            (Call::Cancel, 0x20) => match self.phases[party] {
                Waiting(t) => GivingUp(t),
                early @ (Asked | Unnumbered | Numbered(_)) if !leaves => {
                    self.marked[party] = true;
                    early
                }
                other => panic!("gives up: {:?}", other),
            },
            (Call::Release, 0x20) => GivingBack,
            (Call::Step, 0x21 | 0x37) if has_radios => Fetching,
            (Call::Step, 0x26) if has_radios => PuttingBack,
            (Call::Step, 0x36) if has_radios => Holding,
            (Call::Step, 0x38) if has_radios => Free,
            (Call::Step, 0x21 | 0x25) => Holding,
            (Call::Step, 0x22) => Unnumbered,
            (Call::Step, 0x23) => Numbered(t()),
            (Call::Step, 0x24) if leaves => GivingUp(t()),
            (Call::Step, 0x24) => Waiting(t()),
            (Call::Step, 0x27 | 0x2C | 0x31) => Carrying,
            (Call::Step, 0x28) => Handing(t()),
            (Call::Step, 0x26 | 0x29 | 0x2A | 0x2B | 0x2D | 0x30 | 0x32 | 0x33) => Free,
            (Call::Step, 0x2E) => Cancelling(t()),
            (Call::Step, 0x2F) => Refusing(t()),
            other => panic!("no such answer: {:?}", other),
        };
        if matches!(answer.code, 0x21 | 0x24 | 0x25) {
            self.marked[party] = false;
        }
        self.phases[party] = phase;
        assert_eq!(answer.woken.is_some(), answer.code == 0x2A);
        if let Some(woken) = answer.woken {
            assert_eq!(self.phases[woken as usize], Waiting(t()));
            self.phases[woken as usize] = Holding;
        }
        match answer.code {
            0x21 | 0x25 | 0x2A => self.held += 1,
            0x26 | 0x27 => self.held -= 1,
            _ => {}
        }
        match answer.code {
            0x21 | 0x22 => self.counter -= 1,
            0x26 | 0x27 | 0x2E | 0x2F => self.counter += 1,
            _ => {}
        }
        match answer.code {
            0x29 | 0x2B => self.lying += 1,
            0x25 | 0x31 | 0x33 => self.lying -= 1,
            0x32 => self.refused += 1,
            0x2D => self.refused -= 1,
            _ => {}
        }
        if matches!(answer.code, 0x25 | 0x2A) {
            self.last_served = self.last_served.max(ticket);
        }
    }

    fn count(&self, wanted: impl Fn(&Phase) -> bool) -> i32 {
        self.phases.iter().filter(|phase| wanted(phase)).count() as i32
    }

    fn busy(&self) -> Vec<u8> {
        let rests = |p: Phase| matches!(p, Phase::Free | Phase::Holding | Phase::Waiting(_));
        let parties = (0..).zip(self.phases);
        parties
            .filter(|&(_, p)| !rests(p))
            .map(|(party, _)| party)
            .collect()
    }

    /// The demand on every list of calls.
    fn assert_sound(&self) {
        let carried = self.count(|p| matches!(p, Phase::Carrying | Phase::Handing(_)));
        let refusing = self.count(|p| matches!(p, Phase::Refusing(_)));
        let on_the_way = carried + self.lying - refusing - self.refused;
        assert_eq!(self.held + self.counter.max(0) + on_the_way, self.permits);
        let holders =
            self.count(|p| matches!(p, Phase::Holding | Phase::GivingBack | Phase::Fetching));
        assert_eq!(holders, self.held);
        assert!(holders <= self.permits);
        let standing = self.phases.iter().filter_map(|p| match p {
            Phase::Waiting(t) => Some(*t),
            _ => None,
        });
        if let (Some(first), true) = (standing.min(), self.busy().is_empty()) {
            assert_eq!(self.held, self.permits);
            assert!(self.last_served.is_none_or(|last| last < first));
        }
    }

    /// The record shows the same.
    fn assert_shown_by(&self, hub: &Hub) {
        let places = |wanted| hub.ring.iter().filter(|&&place| place == wanted).count() as i32;
        assert_eq!(self.phases, hub.phases);
        assert_eq!(self.marked, hub.marked);
        assert_eq!(self.counter, hub.counter);
        assert_eq!(self.lying, places(Place::Permit));
        assert_eq!(self.refused, places(Place::Refused));
        assert_eq!(self.radios.is_some(), hub.pool.is_some());
        if let (Some((_, whereabouts)), Some(pool)) = (&self.radios, &hub.pool) {
            assert_eq!(pool.with_party, whereabouts.with);
            assert_eq!(Vec::from(pool.store.clone()), whereabouts.stored);
            let lying = |&(t, radio)| pool.at_place[t as usize % PLACES] == Some(radio);
            assert!(whereabouts.lying.iter().all(lying));
            let at_places = pool.at_place.iter().flatten().count();
            assert_eq!(at_places, whereabouts.lying.len());
        }
    }
}

/// What parties like to do in a random schedule, changed now and then.
struct Habits {
    /// Parties that are hardly ever called, one bit each.
    frozen: u32,
    /// How eager a resting party is to ask, to give up and to give back, of 8.
    acquire: u32,
    cancel: u32,
    release: u32,
    /// One step in so many of a party not yet waiting is a give-up.
    early: u32,
}

impl Habits {
    fn new(random: &mut Random) -> Self {
        let frozen = match random.below(3) {
            0 => 0,
            1 => 1 << random.below(32),
            _ => random.below(u32::MAX) & random.below(u32::MAX) & random.below(u32::MAX),
        };
        Habits {
            frozen,
            acquire: 1 + random.below(8),
            cancel: random.below(9),
            release: random.below(9),
            early: [2, 8, 100][random.below(3) as usize],
        }
    }

    fn next(&self, random: &mut Random, hub: &Hub) -> (Call, u8) {
        if random.one_in(50) {
            // Any call by any party, whether it makes sense or not.
            return (CALLS[random.below(5) as usize], random.below(256) as u8);
        }
        let parties = u32::from(hub.parties);
        if random.one_in(30) {
            return (Call::Radio, random.below(parties) as u8);
        }
        for _ in 0..8 {
            let party = random.below(parties) as u8;
            if self.frozen >> party & 1 == 1 && !random.one_in(500) {
                continue;
            }
            let (call, eager) = match hub.phases[usize::from(party)] {
                Phase::Free => (Call::Acquire, self.acquire),
                Phase::Waiting(_) => (Call::Cancel, self.cancel),
                Phase::Holding => (Call::Release, self.release),
                phase if phase.may_be_marked() && random.one_in(self.early) => (Call::Cancel, 8),
                _ => (Call::Step, 8),
            };
            if random.below(8) < eager {
                return (call, party);
            }
        }
        // Nobody seems to want anything.
        (Call::Step, random.below(parties) as u8)
    }
}

mod schedules {
    use super::*;

    /// A hub under a random schedule, with the ledger kept beside it.
    struct Walk {
        hub: Hub,
        ledger: Ledger,
        /// The opening's.
        kinds: [Kind; PARTIES],
        random: Random,
    }

    /// How often each answer and refusal was met, by number; from 256 on, by
    /// a marked party.
    type Seen = [u64; 512];

    impl Walk {
        fn new(seed: u64) -> Self {
            let mut random = Random::seeded(seed);
            // Few parties and permits meet most often, so favour them.
            let (most_permits, most_parties) = if random.one_in(3) { (32, 32) } else { (3, 6) };
            let permits = 1 + random.below(most_permits) as u8;
            let parties = 1 + random.below(most_parties) as u8;
            let kinds = any_kinds(&mut random);
            let own = random.one_in(2);
            let first = random.below(256) as u8;
            let radios: Option<Vec<Radio>> = random.one_in(2).then(|| {
                let radios = (0..permits).map(|at| first.wrapping_add(at.wrapping_mul(151)));
                radios.collect()
            });
            let opening = Opening {
                permits,
                parties,
                radios: radios.clone(),
                kinds: if own { kinds.to_vec() } else { Vec::new() },
            };
            Walk {
                hub: opening.hub().unwrap(),
                ledger: Ledger::new(permits, radios.as_deref()),
                kinds: if own { kinds } else { built_in_kinds() },
                random,
            }
        }

        /// One call, entered in the ledger and checked against it.
        fn make(&mut self, call: Call, party: u8, seen: &mut Seen) {
            let before = self.hub.clone();
            let marked = before.marked.get(usize::from(party)) == Some(&true);
            let number = match self.hub.call(call, party, true) {
                Ok(answer) => {
                    self.ledger.enter(call, usize::from(party), answer);
                    usize::from(answer.code)
                }
                Err(refusal) => {
                    assert_eq!(self.hub, before);
                    refusal as usize
                }
            };
            seen[number] += 1;
            seen[256 + number] += u64::from(marked);
            assert!(self.hub.fits());
            assert_eq!(self.hub.kinds, self.kinds);
            // A give-up is 10 for the party's kind, and for that alone.
            if call == Call::Cancel && party < self.hub.parties {
                let must_wait = self.kinds[usize::from(party)] == 3;
                assert_ne!(number, if must_wait { 0x20 } else { 10 });
            }
            self.ledger.assert_shown_by(&self.hub);
            self.ledger.assert_sound();
        }

        /// Steps busy parties, in random order, until all rest. Whoever finds
        /// the store empty is not alone: one that puts back is busy too.
        fn settle(&mut self, seen: &mut Seen) {
            loop {
                let busy = self.ledger.busy();
                if busy.is_empty() {
                    return;
                }
                let party = busy[self.random.below(busy.len() as u32) as usize];
                self.make(Call::Step, party, seen);
            }
        }
    }

    #[test]
    fn every_reached_record_is_sound() {
        let mut seen: Seen = [0; 512];
        let mut rests_with_waiters = 0u64;
        for seed in 0..600 {
            let mut walk = Walk::new(seed);
            let mut habits = Habits::new(&mut walk.random);
            for _ in 0..12_000 {
                if walk.random.one_in(2_000) {
                    habits = Habits::new(&mut walk.random);
                }
                if walk.random.one_in(150) {
                    walk.settle(&mut seen);
                    rests_with_waiters += u64::from(walk.hub.waiters() > 0);
                }
                let (call, party) = habits.next(&mut walk.random, &walk.hub);
                walk.make(call, party, &mut seen);
            }
            walk.settle(&mut seen);
        }
        // The schedules reached every answer, and every refusal a call can
        // meet but 1 (never, from an opening) and 6 (a million asks away).
        assert_eq!(seen[Refusal::Misfit as usize], 0);
        for number in (0x20..=0x33)
            .chain(0x36..=0x39)
            .chain([4, 5, 7, 8, 9, 10, 11])
            .chain([5, 9, 11, 0x21, 0x22, 0x23, 0x24, 0x25, 0x39].map(|code| 256 + code))
        {
            assert!(seen[number] > 0, "never met {:#05X}", number);
        }
        assert!(rests_with_waiters > 1_000);
    }

    /// Any value of the type: the check and the calls are total, a misfit is
    /// always 1, and a record that fits never meets an unlisted place.
    #[test]
    fn any_record_is_answered() {
        let mut fitting = 0u64;
        for seed in 0..300_000 {
            let mut random = Random::seeded(seed);
            let mut hub = any_record(&mut random);
            let fits = hub.fits();
            fitting += u64::from(fits);
            let call = CALLS[random.below(5) as usize];
            let party = random.below(34) as u8;
            let before = hub.clone();
            let outcome = hub.call(call, party, true);
            assert_eq!(outcome == Err(Refusal::Misfit), !fits);
            if outcome.is_err() {
                assert_eq!(hub, before);
            }
        }
        assert!(fitting > 1_000);
    }

    /// Any kinds that an opening may bring.
    fn any_kinds(random: &mut Random) -> [Kind; PARTIES] {
        let mut kinds = [DESK; PARTIES];
        for kind in &mut kinds {
            *kind = random.below(4) as u8;
        }
        kinds[random.below(32) as usize] = DESK;
        kinds
    }

    /// A record made up at random, near enough to fitting to do so at times.
    fn any_record(random: &mut Random) -> Hub {
        let wild = random.one_in(4);
        let mut hub = Hub::open(1 + random.below(32) as u8, 1 + random.below(32) as u8).unwrap();
        hub.counter = random.below(65) as i32 - 32;
        hub.begun = random.below(MAX_BEGUN + 1);
        hub.kinds = any_kinds(random);
        hub.oldest = random.below(MAX_BEGUN - 300);
        hub.next_ticket = hub.oldest + random.below(SPAN + 1);
        hub.next_resume = hub.oldest + random.below(SPAN + 1);
        if wild {
            match random.below(8) {
                6 => hub.kinds[random.below(32) as usize] = random.below(256) as u8,
                7 => hub.kinds = hub.kinds.map(|kind| kind.max(1)),
                0 => hub.permits = random.below(256) as u8,
                1 => hub.parties = random.below(256) as u8,
                2 => hub.counter = random.below(u32::MAX) as i32,
                3 => hub.oldest = random.below(u32::MAX),
                4 => hub.next_ticket = random.below(u32::MAX),
                _ => hub.next_resume = random.below(u32::MAX),
            }
        }
        for _ in 0..random.below(6) {
            let party = random.below(u32::from(hub.parties.min(32)).max(1));
            let ticket = hub.oldest.wrapping_add(random.below(SPAN));
            hub.phases[party as usize] = any_phase(random, ticket);
            hub.set_place(ticket, any_place(random, party));
            hub.marked[party as usize] = random.one_in(3);
        }
        if random.one_in(2) {
            hub.pool = Some(any_pool(random, &hub));
        }
        hub
    }

    /// Radios dealt to whoever should have one, the rest stored; at times one
    /// of them is another.
    fn any_pool(random: &mut Random, hub: &Hub) -> Pool {
        let radios: Vec<Radio> = (0..hub.permits.min(32)).map(|at| at * 7).collect();
        let mut pool = Pool::filled(&radios);
        pool.store
            .rotate_left(random.below(32) as usize % radios.len().max(1));
        for party in 0..PARTIES {
            if hub.phases[party].has_radio() {
                pool.with_party[party] = Some(pool.store.pop_front().unwrap_or(0));
            }
        }
        for at in 0..PLACES {
            if hub.ring[at] == Place::Permit {
                pool.at_place[at] = Some(pool.store.pop_front().unwrap_or(0));
            }
        }
        let other = random.below(256) as u8;
        let party = random.below(32) as usize;
        match random.below(8) {
            0 => pool.opening[random.below(4) as usize] = other,
            1 => drop(pool.store.pop_back()),
            2 => pool.store.extend((pool.store.len() < 32).then_some(other)),
            3 => pool
                .store
                .iter_mut()
                .take(1)
                .for_each(|radio| *radio = other),
            4 => pool.with_party[party] = pool.with_party[party].map(|_| other),
            _ => {}
        }
        pool
    }

    fn any_phase(random: &mut Random, t: Ticket) -> Phase {
        use Phase::*;
        let phases = [
            Free,
            Holding,
            Waiting(t),
            Asked,
            Unnumbered,
            Numbered(t),
            GivingUp(t),
            Cancelling(t),
            Refusing(t),
            GivingBack,
            Carrying,
            Handing(t),
            Fetching,
            PuttingBack,
        ];
        phases[random.below(phases.len() as u32) as usize]
    }

    fn any_place(random: &mut Random, party: u32) -> Place {
        match random.below(7) {
            0 => Place::Empty,
            1 => Place::Waiting(party),
            2 => Place::Permit,
            3 => Place::Cancelled,
            4 => Place::Refused,
            5 => Place::Done,
            _ => Place::Waiting(random.below(u32::MAX)),
        }
    }

    /// The same schedules as text: the program answers any of them alike with
    /// the check and without, in any chunks, one line for each line.
    #[test]
    fn random_lines() {
        for seed in 0..40 {
            let mut random = Random::seeded(seed);
            let opening = ["010203", "020203A7A6"][random.below(2) as usize];
            let kinds = "0003".repeat(16 * random.below(2) as usize);
            let mut input = format!("{opening}{kinds}\n").into_bytes();
            let mut lines = 2;
            for _ in 0..2_000 {
                let (code, party) = (0x10 + random.below(5), random.below(4));
                let line = match random.below(40) {
                    0 => format!("{code:02x}{party:02x}\r\n"),
                    1 => format!("{code:x}\n"),
                    2 => "\n".to_string(),
                    3 => format!("{}\n", "1".repeat(random.below(400) as usize)),
                    _ => format!("{code:02x}{party:02x}\n"),
                };
                input.extend(line.bytes());
                lines += 1;
            }
            assert_eq!(answers(&input).lines().count(), lines);
        }
    }
}

mod operations {
    use self::Operation::{Acquire as Ask, Cancel as GiveUp, Release as GiveBack};
    use super::*;
    use desk::{Done, Operation, Screen};
    use std::collections::BTreeSet;

    const OPERATIONS: [Operation; 3] = [Operation::Acquire, Operation::Cancel, Operation::Release];

    fn opening(permits: u8, parties: u8, radios: bool) -> Opening {
        Opening {
            permits,
            parties,
            radios: radios.then(|| (0..permits).map(|at| 0xA7 - at).collect()),
            kinds: Vec::new(),
        }
    }

    /// The same with these parties of kind 3, and desks besides.
    fn with_rounds(opening: Opening, rounds: &[usize]) -> Opening {
        let mut kinds = vec![DESK; PARTIES];
        for &party in rounds {
            kinds[party] = BATTERY_ROUND;
        }
        Opening { kinds, ..opening }
    }

    fn line(permits: u8, parties: u8, holders: &[u8], waiting: &[u8]) -> Screen {
        Screen {
            permits,
            parties,
            radios: false,
            kinds: built_in_kinds(),
            holders: holders.iter().copied().collect(),
            waiting: waiting.to_vec(),
        }
    }

    /// Who holds, and who waits in the order of their tickets.
    fn line_of(hub: &Hub) -> Screen {
        let in_phase = |wanted: fn(Phase) -> Option<Ticket>| {
            let tickets = hub.phases.iter().map(|&phase| wanted(phase));
            let mut found: Vec<(Ticket, u8)> = (tickets.zip(0..))
                .filter_map(|(ticket, party)| Some((ticket?, party)))
                .collect();
            found.sort_unstable();
            found.into_iter().map(|(_, party)| party)
        };
        Screen {
            permits: hub.permits,
            parties: hub.parties,
            radios: hub.pool.is_some(),
            kinds: hub.kinds,
            holders: in_phase(|phase| (phase == Phase::Holding).then_some(0)).collect(),
            waiting: in_phase(|phase| match phase {
                Phase::Waiting(t) => Some(t),
                _ => None,
            })
            .collect(),
        }
    }

    fn done(steps: u8) -> Result<Done, Refusal> {
        Ok(Done { woken: None, steps })
    }

    fn wakes(party: u8) -> Result<Done, Refusal> {
        Ok(Done {
            woken: Some(party),
            steps: 3,
        })
    }

    /// Operations, their outcome and the line after each, worked out by hand:
    /// of the screen, and of the hub at rest.
    type Row<'a> = (Operation, u8, Result<Done, Refusal>, (&'a [u8], &'a [u8]));

    fn assert_rows(opening: Opening, rows: &[Row]) {
        let mut screen = Screen::open(&opening).unwrap();
        let mut hub = opening.hub().unwrap();
        assert_eq!(line_of(&hub), screen);
        for (at, &(operation, party, outcome, (holders, waiting))) in rows.iter().enumerate() {
            assert_eq!(screen.operate(operation, party), outcome, "row {at}");
            assert_eq!(hub.operate(operation, party), outcome, "row {at}");
            assert_eq!(line_of(&hub), screen, "row {at}");
            let expected = (holders.iter().copied().collect(), waiting.to_vec());
            assert_eq!((screen.holders.clone(), screen.waiting.clone()), expected);
        }
    }

    #[test]
    fn moves_without_radios() {
        assert_rows(
            opening(2, 8, false),
            &[
                (Ask, 3, done(1), (&[3], &[])),
                (Ask, 0, done(1), (&[0, 3], &[])),
                (Ask, 7, done(3), (&[0, 3], &[7])),
                (Ask, 5, done(3), (&[0, 3], &[7, 5])),
                (Ask, 6, done(3), (&[0, 3], &[7, 5, 6])),
                // From the middle of the line, and back at its end.
                (GiveUp, 5, done(2), (&[0, 3], &[7, 6])),
                (Ask, 5, done(3), (&[0, 3], &[7, 6, 5])),
                (GiveBack, 3, wakes(7), (&[0, 7], &[6, 5])),
                (GiveUp, 6, done(2), (&[0, 7], &[5])),
                (GiveBack, 0, wakes(5), (&[5, 7], &[])),
                (GiveBack, 7, done(1), (&[5], &[])),
                (GiveBack, 5, done(1), (&[], &[])),
            ],
        );
    }

    #[test]
    fn moves_with_radios() {
        assert_rows(
            opening(1, 3, true),
            &[
                // 21 and 36.
                (Ask, 2, done(2), (&[2], &[])),
                (Ask, 0, done(3), (&[2], &[0])),
                (Ask, 1, done(3), (&[2], &[0, 1])),
                // The radio goes along: no 36.
                (GiveBack, 2, wakes(0), (&[0], &[1])),
                (GiveUp, 1, done(2), (&[0], &[])),
                // 26 and 38.
                (GiveBack, 0, done(2), (&[], &[])),
                (Ask, 1, done(2), (&[1], &[])),
            ],
        );
    }

    #[test]
    fn refused_moves() {
        use Refusal::*;
        assert_rows(
            opening(1, 31, false),
            &[
                (GiveUp, 30, Err(NotWaiting), (&[], &[])),
                (GiveBack, 0, Err(NotHolding), (&[], &[])),
                (Ask, 31, Err(NoSuchParty), (&[], &[])),
                (GiveUp, 31, Err(NoSuchParty), (&[], &[])),
                (GiveBack, 255, Err(NoSuchParty), (&[], &[])),
                (Ask, 29, done(1), (&[29], &[])),
                (Ask, 29, Err(NotFree), (&[29], &[])),
                (GiveUp, 29, Err(NotWaiting), (&[29], &[])),
                (Ask, 30, done(3), (&[29], &[30])),
                (Ask, 30, Err(NotFree), (&[29], &[30])),
                (GiveBack, 30, Err(NotHolding), (&[29], &[30])),
                // Kind 3, once it waits.
                (GiveUp, 30, Err(MustWait), (&[29], &[30])),
                (GiveBack, 29, wakes(30), (&[30], &[])),
                (GiveUp, 30, Err(NotWaiting), (&[30], &[])),
                (Ask, 29, done(3), (&[30], &[29])),
                (GiveUp, 29, done(2), (&[30], &[])),
            ],
        );
    }

    /// By the house's own kinds: 1 must wait, and 30 need not.
    #[test]
    fn moves_with_own_kinds() {
        use Refusal::*;
        for radios in [false, true] {
            let fetched = done(1 + u8::from(radios));
            assert_rows(
                with_rounds(opening(1, 32, radios), &[1, 2]),
                &[
                    (Ask, 31, fetched, (&[31], &[])),
                    (GiveUp, 1, Err(NotWaiting), (&[31], &[])),
                    (Ask, 1, done(3), (&[31], &[1])),
                    (Ask, 30, done(3), (&[31], &[1, 30])),
                    (Ask, 2, done(3), (&[31], &[1, 30, 2])),
                    (GiveUp, 1, Err(MustWait), (&[31], &[1, 30, 2])),
                    (GiveUp, 2, Err(MustWait), (&[31], &[1, 30, 2])),
                    (GiveUp, 30, done(2), (&[31], &[1, 2])),
                    (GiveUp, 31, Err(NotWaiting), (&[31], &[1, 2])),
                    (GiveBack, 31, wakes(1), (&[1], &[2])),
                    (GiveUp, 1, Err(NotWaiting), (&[1], &[2])),
                    (GiveBack, 1, wakes(2), (&[2], &[])),
                    (GiveBack, 2, fetched, (&[], &[])),
                ],
            );
        }
    }

    /// Every move on a line that is never reached is 1, whoever makes it.
    #[test]
    fn lines_never_reached() {
        let everybody: Vec<u8> = (0..32).collect();
        let reached = [
            line(1, 1, &[], &[]),
            line(32, 32, &everybody, &[]),
            line(2, 4, &[1], &[]),
            line(2, 4, &[1, 3], &[2, 0]),
            line(31, 32, &everybody[..31], &[31]),
        ];
        let unreached = [
            line(0, 4, &[], &[]),
            line(33, 4, &[], &[]),
            line(2, 0, &[], &[]),
            line(2, 33, &[], &[]),
            // Not below n.
            line(2, 4, &[4], &[]),
            line(2, 4, &[0, 1], &[2, 4]),
            // More than K hold.
            line(2, 4, &[0, 1, 2], &[]),
            // One waits while a permit is left.
            line(2, 4, &[0], &[1]),
            line(1, 4, &[], &[1]),
            // One party twice.
            line(2, 4, &[0, 1], &[1]),
            line(2, 4, &[0, 1], &[2, 3, 2]),
        ];
        assert!(reached.iter().all(Screen::is_reached));
        for screen in unreached {
            for operation in OPERATIONS {
                for party in [0, 1, 3, 4, 33, 255] {
                    let mut left = screen.clone();
                    assert_eq!(left.operate(operation, party), Err(Refusal::Misfit));
                    assert_eq!(left, screen);
                }
            }
        }
    }

    /// All sequences of up to so many parties below a bound.
    fn sequences(length: usize, bound: u8) -> Vec<Vec<u8>> {
        if length == 0 {
            return vec![Vec::new()];
        }
        let mut all = sequences(length - 1, bound);
        let longest = all.iter().filter(|some| some.len() == length - 1);
        let longer: Vec<Vec<u8>> = longest
            .flat_map(|some| (0..bound).map(move |party| [&some[..], &[party]].concat()))
            .collect();
        all.extend(longer);
        all
    }

    /// The lines that moves reach are those that are said to be, among all,
    /// whoever may give up.
    #[test]
    fn reached_lines_of_small_hubs() {
        assert_eq!(sequences(2, 2).len(), 1 + 2 + 4);
        let sizes = (1..=4).flat_map(|k| (1..=4).map(move |n| (k, n)));
        let rounds: [&[usize]; 3] = [&[], &[1], &[0, 1, 2, 3]];
        for ((permits, parties), rounds) in sizes.flat_map(|size| rounds.map(|some| (size, some))) {
            let opening = with_rounds(opening(permits, parties, false), rounds);
            let opened = Screen::open(&opening).unwrap();
            let kinds = opened.kinds;
            let mut reached = vec![opened];
            let mut at = 0;
            while at < reached.len() {
                for operation in OPERATIONS {
                    for party in 0..=parties {
                        let mut moved = reached[at].clone();
                        let outcome = moved.operate(operation, party);
                        assert!(outcome.is_ok() || moved == reached[at]);
                        if !reached.contains(&moved) {
                            reached.push(moved);
                        }
                    }
                }
                at += 1;
            }
            let candidates = sequences(usize::from(parties) + 1, parties + 1);
            let mut expected = 0;
            for holders in 0..1 << (parties + 1) {
                let holders: Vec<u8> = (0..=parties).filter(|p| holders >> p & 1 == 1).collect();
                for waiting in &candidates {
                    let screen = Screen {
                        kinds,
                        ..line(permits, parties, &holders, waiting)
                    };
                    if screen.is_reached() {
                        assert!(reached.contains(&screen), "{:?}", screen);
                        expected += 1;
                    }
                }
            }
            assert_eq!(reached.len(), expected);
        }
    }

    /// Both make every list of so many operations. A refusal leaves both alone,
    /// so there is nothing new after it.
    fn assert_alike(screen: &Screen, hub: &Hub, left: u32) {
        if left == 0 {
            return;
        }
        for operation in OPERATIONS {
            for party in 0..=hub.parties {
                let (mut screen, mut after) = (screen.clone(), hub.clone());
                let outcome = after.operate(operation, party);
                assert_eq!(screen.operate(operation, party), outcome);
                assert_eq!(line_of(&after), screen);
                if outcome.is_ok() {
                    assert_alike(&screen, &after, left - 1);
                } else {
                    assert_eq!(after, *hub);
                }
            }
        }
    }

    #[test]
    fn screen_and_hub_on_short_lists() {
        for (permits, parties) in [(1, 2), (1, 3), (2, 3), (2, 4), (4, 3)] {
            for radios in [false, true] {
                let opening = opening(permits, parties, radios);
                let screen = Screen::open(&opening).unwrap();
                assert_alike(&screen, &opening.hub().unwrap(), 7);
                let opening = with_rounds(opening, &[1]);
                let screen = Screen::open(&opening).unwrap();
                assert_alike(&screen, &opening.hub().unwrap(), 7);
            }
        }
    }

    /// A party that mostly has reason to do so, of those on a line or not.
    fn next(random: &mut Random, screen: &Screen, calm: u32) -> (Operation, u8) {
        let any = random.below(u32::from(screen.parties) + 1) as u8;
        let operation = OPERATIONS[random.below(3) as usize];
        if random.one_in(10) {
            return (operation, any);
        }
        match operation {
            // The first in line stays: places run out behind it.
            Operation::Cancel if screen.waiting.len() > 1 => {
                let behind = random.below(screen.waiting.len() as u32 - 1) as usize;
                (Operation::Cancel, screen.waiting[1 + behind])
            }
            Operation::Release if random.one_in(calm) && !screen.holders.is_empty() => {
                let at = random.below(screen.holders.len() as u32) as usize;
                (Operation::Release, *screen.holders.iter().nth(at).unwrap())
            }
            _ => (Operation::Acquire, any),
        }
    }

    /// Random lists, each to its end or to the first 7. Both agree on answers,
    /// steps, holders and order; at the 7 the screen alone goes on.
    #[test]
    fn screen_and_hub_on_long_lists() {
        let mut met = BTreeSet::new();
        for seed in 0..400 {
            let mut random = Random::seeded(seed);
            let [permits, parties] = [[1, 3, 32], [4, 8, 32]].map(|most| {
                let most = most[random.below(3) as usize];
                1 + random.below(most) as u8
            });
            let parties = if random.one_in(4) { 32 } else { parties };
            let mut opening = opening(permits, parties, random.one_in(2));
            if random.one_in(2) {
                let rounds: Vec<usize> = (1..PARTIES).filter(|_| random.one_in(4)).collect();
                opening = with_rounds(opening, &rounds);
            }
            let mut screen = Screen::open(&opening).unwrap();
            let mut hub = opening.hub().unwrap();
            let calm = [1, 3, 1_000][random.below(3) as usize];
            for _ in 0..2_000 {
                let (operation, party) = next(&mut random, &screen, calm);
                let before = hub.clone();
                let outcome = hub.operate(operation, party);
                let moved = screen.operate(operation, party);
                if outcome == Err(Refusal::RingFull) {
                    assert_eq!(hub, before);
                    assert_eq!(moved, done(3));
                    met.insert((Refusal::RingFull as u8, false));
                    break;
                }
                assert_eq!(moved, outcome);
                assert_eq!(line_of(&hub), screen);
                assert!(screen.is_reached());
                match outcome {
                    Ok(done) => met.insert((0x20 + done.steps, done.woken.is_some())),
                    Err(refusal) => met.insert((refusal as u8, false)),
                };
            }
        }
        let refusals = [4, 5, 7, 9, 10, 11].map(|number| (number, false));
        let shapes = [(0x21, false), (0x22, false), (0x23, false), (0x23, true)];
        let expected: BTreeSet<_> = refusals.iter().chain(&shapes).copied().collect();
        assert_eq!(met, expected);
    }

    fn desk_chunked(input: &[u8], chunk: usize) -> String {
        let mut output = Vec::new();
        desk::run(BufReader::with_capacity(chunk, input), &mut output).unwrap();
        String::from_utf8(output).unwrap()
    }

    /// Asserts what the desk prints for each line; chunks must not show.
    fn assert_printed(pairs: &[(&str, &str)]) {
        let input: String = pairs.iter().map(|(line, _)| format!("{line}\n")).collect();
        let expected: String = pairs.iter().map(|(_, said)| format!("{said}\n")).collect();
        for chunk in [1, 2, 3, 7, 161, BUFFER] {
            assert_eq!(desk_chunked(input.as_bytes(), chunk), expected);
            let unended = &input.as_bytes()[..input.len() - 1];
            assert_eq!(desk_chunked(unended, chunk), expected);
        }
    }

    #[test]
    fn printed_lines() {
        assert_eq!(desk_chunked(b"", BUFFER), "");
        let nobody = "- held waiting";
        let long = "1".repeat(161);
        assert_printed(&[
            ("1000", &format!("0D 00 {nobody}")),
            ("12ff", &format!("0D FF {nobody}")),
            ("1100", &format!("0C FF {nobody}")),
            ("1400", &format!("0C FF {nobody}")),
            ("010001", &format!("02 FF {nobody}")),
            ("010100", &format!("03 FF {nobody}")),
            ("020208A7A7", &format!("0E FF {nobody}")),
            ("020208A7", &format!("0C FF {nobody}")),
            ("010208", &format!("1F FF {nobody}")),
            ("1003", "20 03 1 held 3 waiting"),
            ("1000", "20 00 1 held 0 3 waiting"),
            ("1007", "20 07 3 held 0 3 waiting 7"),
            ("1005", "20 05 3 held 0 3 waiting 7 5"),
            ("010208", "0D FF - held 0 3 waiting 7 5"),
            ("010000", "0D FF - held 0 3 waiting 7 5"),
            ("1100", "0C FF - held 0 3 waiting 7 5"),
            ("", "0C FF - held 0 3 waiting 7 5"),
            (&long, "0C FF - held 0 3 waiting 7 5"),
            ("1005\r", "0C FF - held 0 3 waiting 7 5"),
            ("1005", "05 05 - held 0 3 waiting 7 5"),
            ("1008", "04 08 - held 0 3 waiting 7 5"),
            ("1203", "09 03 - held 0 3 waiting 7 5"),
            ("1307", "0B 07 - held 0 3 waiting 7 5"),
            ("1207", "20 07 2 held 0 3 waiting 5"),
            ("1303", "20 03 3 held 0 5 waiting"),
            ("1300", "20 00 1 held 5 waiting"),
        ]);
        assert_printed(&[
            ("02021FFF00", &format!("1F FF {nobody}")),
            ("101e", "20 1E 2 held 30 waiting"),
            ("101D", "20 1D 2 held 29 30 waiting"),
            ("131E", "20 1E 2 held 29 waiting"),
            ("1000", "20 00 2 held 0 29 waiting"),
            ("101E", "20 1E 3 held 0 29 waiting 30"),
            ("121E", "0A 1E - held 0 29 waiting 30"),
            ("131D", "20 1D 3 held 0 30 waiting"),
            ("121E", "09 1E - held 0 30 waiting"),
        ]);
    }

    /// Openings with kinds, and what refuses them.
    #[test]
    fn printed_lines_with_own_kinds() {
        let nobody = "- held waiting";
        let few = |count: usize| format!("010120{}", "00".repeat(count));
        let doors = "01".repeat(32);
        let rounds = format!("03{}", "00".repeat(31));
        let radios: String = (0..32).map(|at| format!("{at:02X}")).collect();
        let longest = format!("022020{radios}{rounds}");
        assert_eq!(longest.len(), 134);
        assert_printed(&[
            ("01012", &format!("0C FF {nobody}")),
            (&few(78), &format!("0C FF {nobody}")),
            (&few(77), &format!("0F FF {nobody}")),
            (&few(64), &format!("0F FF {nobody}")),
            (&few(33), &format!("0F FF {nobody}")),
            (&few(31), &format!("0F FF {nobody}")),
            (&few(1), &format!("0F FF {nobody}")),
            (&format!("010001{doors}"), &format!("02 FF {nobody}")),
            (&format!("010121{doors}"), &format!("03 FF {nobody}")),
            (&format!("0202200707{doors}"), &format!("0E FF {nobody}")),
            (&format!("{}04", few(31)), &format!("10 FF {nobody}")),
            (
                &format!("010101{}", "04".repeat(32)),
                &format!("10 FF {nobody}"),
            ),
            (&format!("010120{doors}"), &format!("11 FF {nobody}")),
            (&format!("010120{rounds}"), &format!("1F FF {nobody}")),
            ("101F", "20 1F 1 held 31 waiting"),
            ("1000", "20 00 3 held 31 waiting 0"),
            ("101E", "20 1E 3 held 31 waiting 0 30"),
            ("1200", "0A 00 - held 31 waiting 0 30"),
            (&few(32), "0D FF - held 31 waiting 0 30"),
            (&few(31), "0D FF - held 31 waiting 0 30"),
            ("1200", "0A 00 - held 31 waiting 0 30"),
            ("121E", "20 1E 2 held 31 waiting 0"),
            ("131F", "20 1F 3 held 0 waiting"),
        ]);
        assert_printed(&[
            (&longest, &format!("1F FF {nobody}")),
            ("1000", "20 00 2 held 0 waiting"),
        ]);
    }

    /// The screen has neither 6 nor 7.
    #[test]
    fn the_screen_never_runs_out() {
        let opening = opening(1, 3, false);
        let mut screen = Screen::open(&opening).unwrap();
        let mut hub = opening.hub().unwrap();
        hub.begun = MAX_BEGUN - 257;
        let given_up = [(Ask, 2), (GiveUp, 2)].repeat(255);
        for &(operation, party) in [(Ask, 0), (Ask, 1)].iter().chain(&given_up) {
            assert_eq!(
                hub.operate(operation, party),
                screen.operate(operation, party)
            );
        }
        // 6 and 7 apply, and 5 to the holder.
        assert_eq!(hub.operate(Ask, 2), Err(Refusal::BegunFull));
        assert_eq!(hub.operate(Ask, 0), Err(Refusal::NotFree));
        hub.begun -= 1;
        assert_eq!(hub.operate(Ask, 2), Err(Refusal::RingFull));
        assert_eq!(screen.operate(Ask, 2), done(3));
    }

    #[test]
    fn operate_answers() {
        let answers = desk::operate(
            &[1, 1, 31],
            &[
                0x12, 30, 0x10, 0, 0x10, 0, 0x10, 30, 0x12, 30, 0x10, 2, 0x12, 2, 0x10, 31, 0x13,
                30, 0x13, 0, 0x13, 30,
            ],
            100,
        );
        let expected = [
            [9, 255, 0],
            [0x20, 255, 1],
            [5, 255, 0],
            [0x20, 255, 3],
            [10, 255, 0],
            [0x20, 255, 3],
            [0x20, 255, 2],
            [4, 255, 0],
            [11, 255, 0],
            [0x20, 30, 3],
            [0x20, 255, 1],
        ];
        assert_eq!(answers, Ok(expected.concat()));
        let with_radio = desk::operate(&[2, 1, 3, 0], &[0x10, 2, 0x10, 0, 0x13, 2, 0x13, 0], 12);
        let expected = [[0x20, 255, 2], [0x20, 255, 3], [0x20, 0, 3], [0x20, 255, 2]];
        assert_eq!(with_radio, Ok(expected.concat()));
        assert_eq!(desk::operate(&[1, 32, 32], &[], 0), Ok(vec![]));
    }

    /// Openings with kinds as bytes, also where no line could bring them.
    #[test]
    fn operate_with_own_kinds() {
        let mut kinds = [2; 32];
        kinds[31] = 0;
        kinds[0] = 3;
        let operations = [
            0x10, 30, 0x10, 0, 0x10, 31, 0x12, 0, 0x12, 31, 0x13, 30, 0x12, 0,
        ];
        let expected = |got| {
            let rows = [
                [0x20, 255, got],
                [0x20, 255, 3],
                [0x20, 255, 3],
                [10, 255, 0],
                [0x20, 255, 2],
                [0x20, 0, 3],
                [9, 255, 0],
            ];
            Ok(rows.concat())
        };
        let plain = [&[1, 1, 32], &kinds[..]].concat();
        assert_eq!(desk::operate(&plain, &operations, 21), expected(1));
        let with_radio = [&[2, 1, 32, 0], &kinds[..]].concat();
        assert_eq!(desk::operate(&with_radio, &operations, 21), expected(2));
        assert_eq!(desk::operate(&plain, &operations, 20), Err(255));
        for more in [1, 31, 33, 64, 77, 78, 1000] {
            let opening = [vec![1, 1, 1], vec![0; more]].concat();
            assert_eq!(desk::operate(&opening, &[], 0), Err(15));
            let opening = [vec![2, 255, 1], vec![0; 255 + more]].concat();
            assert_eq!(desk::operate(&opening, &[], 0), Err(2));
        }
        let opening = [vec![2, 255, 1], vec![0; 254]].concat();
        assert_eq!(desk::operate(&opening, &[], 0), Err(12));
    }

    /// The opening's refusals, malformed operations, no room, in this order.
    #[test]
    fn operate_results() {
        let odd = [0x10, 0, 0x10];
        for (opening, refusal) in [
            (&[][..], 12),
            (&[1, 1], 12),
            (&[1, 0, 0, 0], 2),
            (&[2, 2, 0, 7], 12),
            (&[3, 1, 1], 12),
            (&[0x10, 0], 12),
            (&[1, 0, 0], 2),
            (&[1, 33, 1], 2),
            (&[2, 0, 0], 2),
            (&[1, 1, 0], 3),
            (&[2, 2, 33, 7, 7], 3),
            (&[2, 2, 2, 7, 7], 14),
            (&[2, 2, 2, 7, 7, 0], 14),
            (&[1, 1, 1, 4], 15),
            (&[2, 1, 1, 7, 0], 15),
            (&[&[1, 1, 1], &[4; 32][..]].concat(), 16),
            (&[&[1, 1, 1], &[3; 32][..]].concat(), 17),
        ] {
            assert_eq!(desk::operate(opening, &odd, 0), Err(refusal), "{opening:?}");
        }
        for operations in [
            &odd[..],
            &[0x10],
            &[0x11, 0],
            &[0x14, 0],
            &[0x0F, 0],
            &[0x15, 0],
            &[0x10, 0, 0x01, 1],
        ] {
            assert_eq!(desk::operate(&[1, 1, 1], operations, 0), Err(254));
        }
        assert_eq!(desk::operate(&[1, 1, 1], &[0x10, 0], 2), Err(255));
        assert_eq!(desk::operate(&[1, 1, 1], &[0x10, 0], 3).unwrap().len(), 3);
    }

    #[test]
    fn operate_mode() {
        let case = |opening: &[u8], operations: &[u8], room: u32| {
            let lengths = [opening.len() as u32, operations.len() as u32, room];
            let lengths = lengths.map(u32::to_be_bytes).concat();
            [&lengths[..], opening, operations].concat()
        };
        let replies = |input: &[u8]| {
            let mut output = Vec::new();
            desk::run_operations(input, &mut output).unwrap();
            output
        };
        let first = case(&[1, 1, 1], &[0x10, 0, 0x12, 0], 6);
        let cases = [
            first.clone(),
            case(&[1, 1, 1], &[0x10, 0, 0x12, 0], 5),
            case(&[1, 0, 1], &[], 0),
            case(&[1, 1, 1], &[0x10], 9),
            case(&[2, 1, 1, 9], &[], 0),
        ];
        let answers = [0, 0x20, 255, 1, 9, 255, 0];
        let expected = [&answers[..], &[255, 2, 254, 0]].concat();
        assert_eq!(replies(&cases.concat()), expected);
        // Only whole cases are answered.
        assert_eq!(replies(&[]), []);
        assert_eq!(replies(&first[..first.len() - 1]), []);
        assert_eq!(replies(&[&first[..], &first[..11]].concat()), answers);
    }
}
