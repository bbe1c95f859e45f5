//! Tests of the latch's second program: runs worked out by hand, the step
//! table, hand-made records for the fit check, records as bytes, every schedule
//! of small latches, and random schedules of large ones.

use super::*;

const CALLS: [Call; 4] = [Call::Await, Call::Step, Call::Cancel, Call::CountDown];

fn hex(bytes: &[u8]) -> String {
    bytes.iter().map(|byte| format!("{byte:02X}")).collect()
}

/// A call of four digits.
fn call(digits: &str) -> [u8; 2] {
    let byte = |at: usize| u8::from_str_radix(&digits[at..at + 2], 16).unwrap();
    [byte(0), byte(2)]
}

/// Asserts the answer to each call. Where its end is left out, there is no woken
/// party and no number.
fn assert_run(count: u8, parties: u8, pairs: &[(&str, &str)]) {
    let calls: Vec<u8> = pairs.iter().flat_map(|(digits, _)| call(digits)).collect();
    let answers = run(count, parties, &calls, ANSWER * pairs.len()).unwrap();
    for ((digits, expected), answer) in pairs.iter().zip(answers.chunks(ANSWER)) {
        assert_eq!(hex(answer), format!("{expected:F<14}"), "{digits}");
    }
}

/// Party and number as a wait has them: 20, 22, 22, 23, 24.
fn wait(latch: &mut Latch, party: u8) {
    latch.call(Call::Await, party).unwrap();
    let codes: Vec<u8> = (0..4)
        .map(|_| latch.call(Call::Step, party).unwrap().code)
        .collect();
    assert_eq!(codes, [0x22, 0x22, 0x23, 0x24]);
}

mod by_hand {
    use super::*;

    #[test]
    fn two_doors_let_two_go() {
        assert_run(
            2,
            4,
            &[
                ("1000", "2000"),
                ("1100", "2200"),
                ("1100", "2200"),
                ("1100", "2300FF00000000"),
                ("1100", "2400FF00000000"),
                ("1001", "2001"),
                ("1101", "2201"),
                ("1101", "2201"),
                ("1101", "2301FF00000001"),
                ("1101", "2401FF00000001"),
                ("1302", "2002"),
                ("1303", "2003"),
                ("1102", "2602"),
                ("1103", "2703"),
                ("1002", "2002"),
                ("1102", "2102"),
                ("1103", "2803FF00000000"),
                ("1103", "2A030000000000"),
                ("1103", "2803FF00000001"),
                ("1100", "0800"),
                ("1103", "2A030100000001"),
                ("1103", "0803"),
                ("1303", "2003"),
                ("1103", "2603"),
            ],
        );
    }

    /// Three wait with numbers 0 to 2, then these calls are made; all are free
    /// at the end.
    fn assert_after_waits(rows: &[(Call, u8, Answer)]) -> Latch {
        let mut latch = Latch::open(1, 4).unwrap();
        for party in 0..3 {
            wait(&mut latch, party);
        }
        for &(call, party, answer) in rows {
            assert_eq!(latch.call(call, party), Ok(answer), "{call:?} {party}");
        }
        assert_eq!(latch.phases, [Phase::Free; PARTIES]);
        assert_eq!((latch.oldest, latch.next_resume), (3, 3));
        latch
    }

    /// A wait given up before the mark, whose place the resume meets first.
    #[test]
    fn resume_passed_on() {
        let latch = assert_after_waits(&[
            (Call::Cancel, 0, Answer::plain(0x20)),
            (Call::Step, 0, Answer::plain(0x2E)),
            (Call::CountDown, 3, Answer::plain(0x20)),
            (Call::Step, 3, Answer::plain(0x27)),
            (Call::Step, 3, Answer::of(0x28, 0)),
            (Call::Step, 3, Answer::of(0x2B, 0)),
            (Call::Step, 0, Answer::of(0x31, 0)),
            (Call::Step, 0, Answer::of(0x28, 1)),
            (Call::Step, 3, Answer::of(0x28, 2)),
            (Call::Step, 3, Answer::waking(0x2A, 2, 2)),
            (Call::Step, 0, Answer::waking(0x2A, 1, 1)),
        ]);
        assert_eq!(latch.waiters, 2);
    }

    /// A wait given up before the mark, cancelled while it is being resumed.
    #[test]
    fn resume_kept() {
        let latch = assert_after_waits(&[
            (Call::Cancel, 0, Answer::plain(0x20)),
            (Call::Step, 0, Answer::plain(0x2E)),
            (Call::CountDown, 3, Answer::plain(0x20)),
            (Call::Step, 3, Answer::plain(0x27)),
            (Call::Step, 3, Answer::of(0x28, 0)),
            (Call::Step, 0, Answer::of(0x30, 0)),
            (Call::Step, 3, Answer::of(0x2C, 0)),
            (Call::Step, 3, Answer::of(0x28, 1)),
            (Call::Step, 3, Answer::waking(0x2A, 1, 1)),
            (Call::Step, 3, Answer::of(0x28, 2)),
            (Call::Step, 3, Answer::waking(0x2A, 2, 2)),
        ]);
        assert_eq!(latch.waiters, 2);
    }

    /// A cancelled place is passed by the tidying, and costs no step.
    #[test]
    fn cancelled_place_passed() {
        assert_after_waits(&[
            (Call::Cancel, 0, Answer::plain(0x20)),
            (Call::Step, 0, Answer::plain(0x2E)),
            (Call::Step, 0, Answer::of(0x30, 0)),
            (Call::CountDown, 3, Answer::plain(0x20)),
            (Call::Step, 3, Answer::plain(0x27)),
            (Call::Step, 3, Answer::of(0x28, 1)),
            (Call::Step, 3, Answer::waking(0x2A, 1, 1)),
            (Call::Step, 3, Answer::of(0x28, 2)),
            (Call::Step, 3, Answer::waking(0x2A, 2, 2)),
        ]);
    }

    /// Waits given up after the mark: a resume is still on its way to each.
    #[test]
    fn resumes_refused() {
        let latch = assert_after_waits(&[
            (Call::CountDown, 3, Answer::plain(0x20)),
            (Call::Step, 3, Answer::plain(0x27)),
            (Call::Cancel, 0, Answer::plain(0x20)),
            (Call::Step, 0, Answer::plain(0x2F)),
            (Call::Step, 0, Answer::of(0x32, 0)),
            (Call::Cancel, 1, Answer::plain(0x20)),
            (Call::Step, 1, Answer::plain(0x2F)),
            (Call::Step, 3, Answer::of(0x28, 0)),
            (Call::Step, 3, Answer::of(0x2D, 0)),
            (Call::Step, 3, Answer::of(0x28, 1)),
            (Call::Step, 3, Answer::of(0x2B, 1)),
            (Call::Step, 1, Answer::of(0x33, 1)),
            (Call::Step, 3, Answer::of(0x28, 2)),
            (Call::Step, 3, Answer::waking(0x2A, 2, 2)),
        ]);
        // Three at the mark, less the two that gave up.
        assert_eq!(latch.waiters, 1);
    }

    /// Parties asked, raising and unnumbered when the mark is reached, all of
    /// which gave up early.
    #[test]
    fn on_the_way_to_waiting() {
        assert_run(
            1,
            5,
            &[
                ("1000", "2000"),
                ("1100", "2200"),
                ("1100", "2200"),
                ("1001", "2001"),
                ("1101", "2201"),
                ("1002", "2002"),
                ("1303", "2003"),
                ("1103", "2703"),
                ("1201", "2001"),
                ("1202", "2002"),
                ("1201", "0901"),
                ("1202", "0902"),
                ("1101", "2101"),
                ("1102", "2102"),
                ("1201", "0901"),
                ("1103", "2803FF00000000"),
                ("1103", "2903FF00000000"),
                ("1103", "0803"),
                ("1200", "2000"),
                ("1100", "2300FF00000000"),
                ("1200", "0900"),
                ("1100", "2500FF00000000"),
                ("1200", "0900"),
                ("1100", "0800"),
                ("1001", "2001"),
                ("1101", "2101"),
            ],
        );
    }

    /// An early give-up before the mark becomes one as the wait begins. It was
    /// a waiter: nobody is left to carry for.
    #[test]
    fn early_before_the_mark() {
        assert_run(
            2,
            2,
            &[
                ("1000", "2000"),
                ("1100", "2200"),
                ("1200", "2000"),
                ("1200", "0900"),
                ("1100", "2200"),
                ("1200", "0900"),
                ("1100", "2300FF00000000"),
                ("1200", "0900"),
                ("1100", "2400FF00000000"),
                ("1200", "0900"),
                ("1100", "2E00"),
                ("1200", "0900"),
                ("1100", "3000FF00000000"),
                ("1301", "2001"),
                ("1101", "2601"),
                ("1301", "2001"),
                ("1101", "2601"),
                ("1301", "2001"),
                ("1101", "2601"),
                ("1000", "2000"),
                ("1100", "2100"),
            ],
        );
    }

    /// Five count-downs under way on two: one of them carries.
    #[test]
    fn count_downs_at_once() {
        assert_run(
            2,
            6,
            &[
                ("1000", "2000"),
                ("1100", "2200"),
                ("1100", "2200"),
                ("1301", "2001"),
                ("1302", "2002"),
                ("1303", "2003"),
                ("1304", "2004"),
                ("1305", "2005"),
                ("1303", "0503"),
                ("1103", "2603"),
                ("1105", "2705"),
                ("1101", "2601"),
                ("1305", "0505"),
                ("1005", "0505"),
                ("1102", "2602"),
                ("1105", "2805FF00000000"),
                ("1104", "2604"),
                ("1105", "2905FF00000000"),
                ("1100", "2300FF00000000"),
                ("1100", "2500FF00000000"),
            ],
        );
    }

    /// A waiting party and one that gives up cannot count down.
    #[test]
    fn refusals_in_order() {
        assert_run(
            1,
            32,
            &[
                ("1020", "0420"),
                ("1120", "0420"),
                ("1220", "0420"),
                ("1320", "0420"),
                ("13FF", "04FF"),
                ("111F", "081F"),
                ("121F", "091F"),
                ("101F", "201F"),
                ("101F", "051F"),
                ("131F", "051F"),
                ("121F", "0A1F"),
                ("111F", "221F"),
                ("121F", "0A1F"),
                ("111F", "221F"),
                ("121F", "0A1F"),
                ("111F", "231FFF00000000"),
                ("121F", "0A1F"),
                ("111F", "241FFF00000000"),
                ("111F", "081F"),
                ("121F", "0A1F"),
                ("131F", "051F"),
                ("101D", "201D"),
                ("121D", "201D"),
                ("131D", "051D"),
            ],
        );
    }

    #[test]
    fn openings() {
        for (count, parties) in [(1, 1), (1, 32), (200, 1), (200, 32)] {
            assert_eq!(run(count, parties, &[], 0), Ok(Vec::new()));
            let latch = Latch::open(count, parties).unwrap();
            assert_eq!(
                (latch.count, latch.parties, latch.waiters),
                (count, parties, 0)
            );
            assert!(latch.fits());
        }
        for count in [0, 1, 200, 201, 255] {
            for parties in [0, 33, 255] {
                assert_eq!(run(count, parties, &[0], 0), Err(3));
            }
        }
        for count in [0, 201, 255] {
            for parties in [1, 32] {
                assert_eq!(run(count, parties, &[0], 0), Err(18));
            }
        }
    }

    #[test]
    fn results() {
        let calls = [0x10, 0, 0x11, 0];
        for length in 0..4 {
            let expected = if length % 2 == 0 {
                Ok(length / 2 * 7)
            } else {
                Err(254)
            };
            let answers = run(1, 1, &calls[..length], 14);
            assert_eq!(answers.map(|answers| answers.len()), expected);
        }
        for room in 0..14 {
            assert_eq!(run(1, 1, &calls, room), Err(255));
        }
        assert_eq!(run(1, 1, &calls[..3], 0), Err(254));
        assert!(run(1, 1, &calls, 15).is_ok());
        for code in (0..=255).filter(|code| !(0x10..=0x13).contains(code)) {
            assert_eq!(run(1, 1, &[0x10, 0, code, 0], 14), Err(254));
        }
    }

    /// Document 01's last edge: one waits, another gives up so many waits.
    #[test]
    fn ring_full_after_255_given_up_waits() {
        for given_up in [254, 255] {
            let mut latch = Latch::open(1, 3).unwrap();
            wait(&mut latch, 1);
            for _ in 0..given_up {
                wait(&mut latch, 2);
                latch.call(Call::Cancel, 2).unwrap();
                assert_eq!(latch.call(Call::Step, 2), Ok(Answer::plain(0x2E)));
                assert_eq!(latch.call(Call::Step, 2).unwrap().code, 0x30);
            }
            let accepted = latch.call(Call::Await, 2);
            if given_up == 254 {
                assert_eq!(accepted, Ok(Answer::plain(0x20)));
                // Asked, raising and unnumbered it keeps the last place.
                for _ in 0..3 {
                    assert_eq!(latch.call(Call::Await, 0), Err(Refusal::RingFull));
                    latch.call(Call::Step, 2).unwrap();
                }
                assert_eq!(latch.phases[2], Phase::Numbered(255));
            } else {
                assert_eq!(accepted, Err(Refusal::RingFull));
            }
            assert_eq!(latch.call(Call::Await, 0), Err(Refusal::RingFull));
            // It is no matter to one that counts down.
            assert_eq!(latch.call(Call::CountDown, 0), Ok(Answer::plain(0x20)));
            assert_eq!(latch.call(Call::Step, 0), Ok(Answer::plain(0x27)));
            assert_eq!(latch.call(Call::Step, 0), Ok(Answer::of(0x28, 0)));
            let waking = Answer::waking(0x2A, 0, 1);
            assert_eq!(latch.call(Call::Step, 0), Ok(waking));
            assert_eq!(latch.call(Call::Await, 1), Ok(Answer::plain(0x20)));
        }
    }

    /// A million awaits: those after the mark draw no number.
    #[test]
    fn begun_full() {
        let mut latch = Latch::open(1, 2).unwrap();
        latch.call(Call::CountDown, 0).unwrap();
        assert_eq!(latch.call(Call::Step, 0), Ok(Answer::plain(0x26)));
        for _ in 0..MAX_BEGUN - 1 {
            latch.call(Call::Await, 1).unwrap();
            assert_eq!(latch.call(Call::Step, 1), Ok(Answer::plain(0x21)));
        }
        assert_eq!(latch.call(Call::Await, 1), Ok(Answer::plain(0x20)));
        assert_eq!(latch.call(Call::Await, 1), Err(Refusal::NotFree));
        assert_eq!(latch.call(Call::Await, 0), Err(Refusal::BegunFull));
        assert_eq!(latch.call(Call::Step, 1), Ok(Answer::plain(0x21)));
        assert_eq!(latch.call(Call::Await, 1), Err(Refusal::BegunFull));
        assert_eq!(latch.call(Call::CountDown, 1), Ok(Answer::plain(0x20)));
    }
}

/// A fitting record in the middle of its life, each party elsewhere.
fn sample() -> Latch {
    use Phase::*;
    let mut latch = Latch::open(7, 13).unwrap();
    latch.waiters = 4;
    latch.begun = 700;
    latch.oldest = 500;
    latch.next_ticket = 520;
    latch.next_resume = 510;
    let phases = [
        Free,
        Raising,
        Waiting(511),
        Asked,
        Unnumbered,
        Numbered(512),
        GivingUp(513),
        Cancelling(514),
        Refusing(515),
        GivingBack,
        Carrying(1),
        Handing(500, 32),
        Handing(501, 2),
    ];
    latch.phases[..phases.len()].copy_from_slice(&phases);
    for (ticket, party) in [(511, 2), (513, 6), (514, 7), (515, 8)] {
        latch.set_place(ticket, Place::Waiting(party));
    }
    latch.set_place(501, Place::Cancelled);
    latch.set_place(502, Place::Refused);
    latch.set_place(503, Place::Link);
    latch.set_place(504, Place::Done);
    latch
}

mod table {
    use super::*;

    /// The sample with party 0 in a phase, and a place before number 516.
    fn with(count: u8, waiters: u8, phase: Phase, place: Place) -> Latch {
        let mut latch = sample();
        latch.count = count;
        latch.waiters = waiters;
        latch.next_resume = 517;
        latch.phases[0] = phase;
        latch.set_place(516, place);
        latch
    }

    /// Party 0's step: the answer, and everything that it changes.
    fn assert_step(before: &Latch, answer: Answer, change: impl FnOnce(&mut Latch)) {
        assert!(before.fits());
        let mut expected = before.clone();
        change(&mut expected);
        let mut latch = before.clone();
        assert_eq!(latch.call(Call::Step, 0), Ok(answer));
        assert_eq!(latch, expected);
    }

    #[test]
    fn awaiting() {
        for count in [1, 2, 200] {
            for waiters in [0, 31, 32] {
                for marked in [false, true] {
                    let mut latch = with(count, waiters, Phase::Asked, Place::Empty);
                    latch.marked[0] = marked;
                    assert_step(&latch, Answer::plain(0x22), |left| {
                        left.phases[0] = Phase::Raising;
                    });
                    latch.phases[0] = Phase::Raising;
                    assert_step(&latch, Answer::plain(0x22), |left| {
                        left.waiters = waiters + 1;
                        left.phases[0] = Phase::Unnumbered;
                    });
                }
            }
        }
        for phase in [Phase::Asked, Phase::Raising] {
            for marked in [false, true] {
                let mut latch = with(0, 5, phase, Place::Empty);
                latch.marked[0] = marked;
                assert_step(&latch, Answer::plain(0x21), |left| {
                    left.phases[0] = Phase::Free;
                    left.marked[0] = false;
                });
            }
        }
        for count in [0, 9] {
            let mut latch = with(count, 5, Phase::Unnumbered, Place::Empty);
            latch.marked[0] = true;
            assert_step(&latch, Answer::of(0x23, 520), |left| {
                left.next_ticket = 521;
                left.phases[0] = Phase::Numbered(520);
            });
            latch = with(count, 5, Phase::Numbered(516), Place::Empty);
            assert_step(&latch, Answer::of(0x24, 516), |left| {
                left.phases[0] = Phase::Waiting(516);
                left.set_place(516, Place::Waiting(0));
            });
            latch.marked[0] = true;
            assert_step(&latch, Answer::of(0x24, 516), |left| {
                left.phases[0] = Phase::GivingUp(516);
                left.set_place(516, Place::Waiting(0));
                left.marked[0] = false;
            });
            latch.set_place(516, Place::Link);
            assert_step(&latch, Answer::of(0x25, 516), |left| {
                left.phases[0] = Phase::Free;
                left.set_place(516, Place::Done);
                left.marked[0] = false;
            });
        }
    }

    #[test]
    fn counting_down() {
        let rows = [
            (200, 0, 199, Phase::Free, 0x26),
            (2, 3, 1, Phase::Free, 0x26),
            (1, 0, 0, Phase::Free, 0x26),
            (1, 1, 0, Phase::Carrying(1), 0x27),
            (1, 32, 0, Phase::Carrying(32), 0x27),
            (0, 0, 0, Phase::Free, 0x26),
            (0, 32, 0, Phase::Free, 0x26),
        ];
        for (count, waiters, left, phase, code) in rows {
            let latch = with(count, waiters, Phase::GivingBack, Place::Empty);
            assert_step(&latch, Answer::plain(code), |latch| {
                latch.count = left;
                latch.phases[0] = phase;
            });
        }
    }

    #[test]
    fn giving_up() {
        for (count, phase, code) in [
            (200, Phase::Cancelling(516), 0x2E),
            (1, Phase::Cancelling(516), 0x2E),
            (0, Phase::Refusing(516), 0x2F),
        ] {
            for (waiters, left) in [(32, 31), (2, 1), (1, 0), (0, 0)] {
                let mut latch = with(count, waiters, Phase::Free, Place::Waiting(0));
                latch.phases[0] = Phase::GivingUp(516);
                assert_step(&latch, Answer::plain(code), |latch| {
                    latch.waiters = left;
                    latch.phases[0] = phase;
                });
            }
        }
        for (phase, place, code, left, after) in [
            (
                Phase::Cancelling(516),
                Place::Waiting(0),
                0x30,
                Phase::Free,
                Place::Cancelled,
            ),
            (
                Phase::Cancelling(516),
                Place::Link,
                0x31,
                Phase::Carrying(1),
                Place::Done,
            ),
            (
                Phase::Refusing(516),
                Place::Waiting(0),
                0x32,
                Phase::Free,
                Place::Refused,
            ),
            (
                Phase::Refusing(516),
                Place::Link,
                0x33,
                Phase::Free,
                Place::Done,
            ),
        ] {
            for count in [0, 3] {
                let latch = with(count, 5, phase, place);
                assert_step(&latch, Answer::of(code, 516), |latch| {
                    latch.phases[0] = left;
                    latch.set_place(516, after);
                });
            }
        }
    }

    #[test]
    fn resuming() {
        for left in [1, 2, 32] {
            let after = match left {
                1 => Phase::Free,
                _ => Phase::Carrying(left - 1),
            };
            let latch = with(0, 5, Phase::Carrying(left), Place::Empty);
            assert_step(&latch, Answer::of(0x28, 517), |latch| {
                latch.next_resume = 518;
                latch.phases[0] = Phase::Handing(517, left);
            });
            for (place, code, phase, done) in [
                (Place::Empty, 0x29, after, Place::Link),
                (Place::Cancelled, 0x2C, Phase::Carrying(left), Place::Done),
                (Place::Refused, 0x2D, after, Place::Done),
            ] {
                let latch = with(0, 5, Phase::Handing(516, left), place);
                assert_step(&latch, Answer::of(code, 516), |latch| {
                    latch.phases[0] = phase;
                    latch.set_place(516, done);
                });
            }
            for waiter in [
                Phase::Waiting(516),
                Phase::GivingUp(516),
                Phase::Cancelling(516),
                Phase::Refusing(516),
            ] {
                let mut latch = with(0, 5, Phase::Handing(516, left), Place::Waiting(9));
                latch.phases[9] = waiter;
                if waiter == Phase::Waiting(516) {
                    assert_step(&latch, Answer::waking(0x2A, 516, 9), |latch| {
                        latch.phases[0] = after;
                        latch.phases[9] = Phase::Free;
                        latch.set_place(516, Place::Done);
                    });
                } else {
                    assert_step(&latch, Answer::of(0x2B, 516), |latch| {
                        latch.phases[0] = after;
                        latch.set_place(516, Place::Link);
                    });
                }
            }
        }
    }

    /// What the other three calls change, in every phase.
    #[test]
    fn other_calls() {
        for party in 0..13 {
            let phase = sample().phases[usize::from(party)];
            for (call, may, change) in [
                (Call::Await, phase == Phase::Free, Phase::Asked),
                (Call::CountDown, phase == Phase::Free, Phase::GivingBack),
            ] {
                let mut latch = sample();
                let mut expected = sample();
                if may {
                    expected.phases[usize::from(party)] = change;
                    expected.begun += u32::from(call == Call::Await);
                    assert_eq!(latch.call(call, party), Ok(Answer::plain(0x20)));
                } else {
                    assert_eq!(latch.call(call, party), Err(Refusal::NotFree));
                }
                assert_eq!(latch, expected);
            }
            let mut latch = sample();
            let mut expected = sample();
            let answer = match phase {
                Phase::Asked | Phase::Raising | Phase::Unnumbered | Phase::Numbered(_) => {
                    expected.marked[usize::from(party)] = true;
                    Ok(Answer::plain(0x20))
                }
                Phase::Waiting(t) => {
                    expected.phases[usize::from(party)] = Phase::GivingUp(t);
                    Ok(Answer::plain(0x20))
                }
                _ => Err(Refusal::NotWaiting),
            };
            assert_eq!(latch.call(Call::Cancel, party), answer);
            assert_eq!(latch, expected);
        }
    }

    /// Document 01's constant table: kind 3 from party 30 on.
    #[test]
    fn kinds() {
        for party in 0..32 {
            for phase in [
                Phase::Asked,
                Phase::Raising,
                Phase::Unnumbered,
                Phase::Numbered(0),
                Phase::Waiting(0),
            ] {
                for marked in [false, true] {
                    let mut latch = Latch::open(1, 32).unwrap();
                    latch.next_ticket = 1;
                    latch.phases[usize::from(party)] = phase;
                    latch.marked[usize::from(party)] = marked && phase.may_be_marked();
                    let expected = if marked && phase.may_be_marked() {
                        Err(Refusal::NotWaiting)
                    } else if party >= 30 {
                        Err(Refusal::MustWait)
                    } else {
                        Ok(Answer::plain(0x20))
                    };
                    assert_eq!(latch.call(Call::Cancel, party), expected);
                }
            }
        }
    }

    #[test]
    fn tidying() {
        // Every success tidies, and no refusal does.
        for call in CALLS {
            let mut latch = Latch::open(1, 3).unwrap();
            latch.next_ticket = 5;
            latch.phases[0] = if call == Call::Step {
                Phase::GivingBack
            } else if call == Call::Cancel {
                Phase::Asked
            } else {
                Phase::Free
            };
            for (t, place) in [Place::Cancelled, Place::Done, Place::Refused]
                .iter()
                .enumerate()
            {
                latch.ring[t] = *place;
            }
            let before = latch.clone();
            assert!(latch.call(call, 3).is_err());
            assert_eq!(latch, before);
            latch.call(call, 0).unwrap();
            assert_eq!((latch.next_resume, latch.oldest), (1, 2));
            assert_eq!(latch.ring[..2], [Place::Empty; 2]);
            assert_eq!(latch.ring[2], Place::Refused);
        }
        // All 256, and no further.
        let mut latch = Latch::open(1, 1).unwrap();
        latch.ring = [Place::Cancelled; PLACES];
        latch.next_ticket = 256;
        latch.phases[0] = Phase::GivingBack;
        latch.call(Call::Step, 0).unwrap();
        assert_eq!((latch.next_resume, latch.oldest), (256, 256));
        assert_eq!(latch.ring, [Place::Empty; PLACES]);
        // The first place is not that of number 256 yet.
        let mut latch = Latch::open(1, 1).unwrap();
        latch.ring[0] = Place::Cancelled;
        latch.next_resume = 256;
        let before = latch.ring;
        latch.call(Call::CountDown, 0).unwrap();
        assert_eq!((latch.next_resume, latch.oldest), (256, 0));
        assert_eq!(latch.ring, before);
    }
}

mod fits {
    use super::*;

    /// A record that does not fit: 1 to every call, whoever makes it, and the
    /// record stays as it was.
    fn assert_misfit(what: &str, alter: impl FnOnce(&mut Latch)) {
        let mut latch = sample();
        alter(&mut latch);
        assert!(!latch.fits(), "{}", what);
        let before = latch.clone();
        for call in CALLS {
            for party in [0, 12, 13, 255] {
                assert_eq!(latch.call(call, party), Err(Refusal::Misfit), "{what}");
            }
        }
        assert_eq!(latch, before, "{what}");
    }

    fn assert_fits(what: &str, alter: impl FnOnce(&mut Latch)) {
        let mut latch = sample();
        alter(&mut latch);
        assert!(latch.fits(), "{}", what);
    }

    /// The sample without its phases and places, to move its bounds about.
    fn bare(latch: &mut Latch, oldest: Ticket, next_ticket: Ticket, next_resume: Ticket) {
        latch.phases = [Phase::Free; PARTIES];
        latch.ring = [Place::Empty; PLACES];
        latch.oldest = oldest;
        latch.next_ticket = next_ticket;
        latch.next_resume = next_resume;
    }

    #[test]
    fn figures() {
        assert_fits("the sample", |_| {});
        for parties in [0, 33, 255] {
            assert_misfit("n", |latch| {
                bare(latch, 0, 0, 0);
                latch.parties = parties;
            });
        }
        for parties in [1, 32] {
            assert_fits("n", |latch| {
                bare(latch, 0, 0, 0);
                latch.parties = parties;
            });
        }
        assert_misfit("party n not free", |latch| latch.parties = 12);
        assert_misfit("party 31", |latch| latch.phases[31] = Phase::Asked);
        assert_fits("count", |latch| latch.count = 0);
        assert_fits("count", |latch| latch.count = 200);
        assert_misfit("count", |latch| latch.count = 201);
        assert_misfit("count", |latch| latch.count = 255);
        assert_fits("waiters", |latch| latch.waiters = 0);
        assert_fits("waiters", |latch| latch.waiters = 32);
        assert_misfit("waiters", |latch| latch.waiters = 33);
        assert_misfit("waiters", |latch| latch.waiters = 255);
        assert_fits("begun", |latch| latch.begun = 1_000_000);
        assert_fits("begun", |latch| latch.begun = 0);
        assert_misfit("begun", |latch| latch.begun = 1_000_001);
        for (oldest, next_ticket, next_resume, fits) in [
            (1_000_000, 1_000_000, 1_000_000, true),
            (999_999, 1_000_001, 1_000_000, false),
            (999_999, 1_000_000, 1_000_001, false),
            (5, 5, 261, true),
            (5, 261, 5, true),
            (5, 262, 5, false),
            (5, 5, 262, false),
            (5, 4, 5, false),
            (5, 5, 4, false),
            (u32::MAX, 5, 5, false),
            (u32::MAX, u32::MAX, u32::MAX, false),
            (0, u32::MAX, 0, false),
        ] {
            let alter = |latch: &mut Latch| bare(latch, oldest, next_ticket, next_resume);
            if fits {
                assert_fits("tickets", alter);
            } else {
                assert_misfit("tickets", alter);
            }
        }
    }

    #[test]
    fn holding() {
        for party in 0..13 {
            assert_misfit("holding", |latch| latch.phases[party] = Phase::Holding);
        }
    }

    #[test]
    fn resumes_left() {
        for left in [1, 32] {
            assert_fits("carrying", |latch| latch.phases[10] = Phase::Carrying(left));
            let handing = Phase::Handing(500, left);
            assert_fits("handing", |latch| latch.phases[11] = handing);
        }
        for left in [0, 33, 255] {
            assert_misfit("carrying", |latch| latch.phases[10] = Phase::Carrying(left));
            let handing = Phase::Handing(500, left);
            assert_misfit("handing", |latch| latch.phases[11] = handing);
        }
    }

    #[test]
    fn marks() {
        for party in 0..PARTIES {
            let alter = |latch: &mut Latch| latch.marked[party] = true;
            match party {
                // Raising, asked, unnumbered, numbered.
                1 | 3 | 4 | 5 => assert_fits("a mark", alter),
                _ => assert_misfit("a mark", alter),
            }
        }
        // Whatever its kind.
        assert_fits("kind 3", |latch| {
            latch.parties = 32;
            latch.phases[31] = Phase::Raising;
            latch.marked[31] = true;
        });
    }

    /// A phase that carries a ticket, the ticket still to be filled in.
    type Ticketed = fn(Ticket) -> Phase;

    const TICKETED: [Ticketed; 6] = [
        Phase::Waiting,
        Phase::Numbered,
        Phase::GivingUp,
        Phase::Cancelling,
        Phase::Refusing,
        |t| Phase::Handing(t, 1),
    ];

    #[test]
    fn tickets_of_parties() {
        for phase in TICKETED {
            let handing = matches!(phase(0), Phase::Handing(..));
            let standing = matches!(phase(0), Phase::Cancelling(_) | Phase::Refusing(_));
            let put = |latch: &mut Latch, t: Ticket| {
                bare(latch, 500, 520, 530);
                latch.phases[3] = phase(t);
                if standing {
                    latch.set_place(t, Place::Waiting(3));
                }
            };
            let last = if handing { 529 } else { 519 };
            for t in [500, last] {
                assert_fits("a ticket", |latch| put(latch, t));
            }
            for t in [499, last + 1, 756, 0, u32::MAX] {
                assert_misfit("a ticket", |latch| put(latch, t));
            }
        }
    }

    #[test]
    fn places_acted_on() {
        use Place::*;
        let states = [Empty, Waiting(3), Link, Cancelled, Refused, Done];
        for phase in TICKETED {
            for state in states {
                let listed = match phase(510) {
                    Phase::Numbered(_) => matches!(state, Empty | Link),
                    Phase::Cancelling(_) | Phase::Refusing(_) => {
                        matches!(state, Waiting(_) | Link)
                    }
                    // Its own place waits for no party that hands.
                    Phase::Handing(..) => matches!(state, Empty | Cancelled | Refused),
                    _ => true,
                };
                let put = |latch: &mut Latch| {
                    bare(latch, 500, 520, 520);
                    latch.phases[3] = phase(510);
                    latch.set_place(510, state);
                };
                if listed {
                    assert_fits("a place", put);
                } else {
                    assert_misfit("a place", put);
                }
            }
        }
        // Another's wait may be resumed.
        assert_fits("a wait", |latch| latch.phases[11] = Phase::Handing(500, 1));
        assert_fits("a wait", |latch| {
            latch.next_resume = 516;
            latch.phases[11] = Phase::Handing(511, 1);
        });
    }

    #[test]
    fn parties_of_waiting_places() {
        for (party, fits) in [
            (2, true),
            (6, false),
            (0, false),
            (13, false),
            (32, false),
            (258, false),
            (u32::MAX, false),
        ] {
            let put = |latch: &mut Latch| latch.set_place(511, Place::Waiting(party));
            if fits {
                assert_fits("a waiting place", put);
            } else {
                assert_misfit("a waiting place", put);
            }
        }
        for phase in TICKETED {
            let put = |latch: &mut Latch| {
                bare(latch, 500, 520, 520);
                latch.phases[3] = phase(510);
                latch.set_place(510, Place::Waiting(3));
            };
            if matches!(phase(0), Phase::Numbered(_) | Phase::Handing(..)) {
                assert_misfit("a waiting place", put);
            } else {
                assert_fits("a waiting place", put);
                assert_misfit("another number", |latch| {
                    put(latch);
                    latch.set_place(511, Place::Waiting(3));
                });
            }
        }
        for phase in [Phase::Free, Phase::Asked, Phase::Raising, Phase::GivingBack] {
            assert_misfit("a waiting place", |latch| {
                bare(latch, 500, 520, 520);
                latch.phases[3] = phase;
                latch.set_place(510, Place::Waiting(3));
            });
        }
        assert_misfit("beyond what is numbered", |latch| {
            latch.set_place(755, Place::Waiting(2));
        });
    }

    #[test]
    fn tickets_about_to_be_taken() {
        for (phase, next_ticket, next_resume, fits) in [
            (Phase::Unnumbered, 755, 500, true),
            (Phase::Unnumbered, 756, 500, false),
            (Phase::Carrying(1), 500, 755, true),
            (Phase::Carrying(1), 500, 756, false),
            // These take none in their next step.
            (Phase::Asked, 756, 756, true),
            (Phase::Raising, 756, 756, true),
            (Phase::GivingBack, 756, 756, true),
            (Phase::Handing(600, 2), 756, 756, true),
        ] {
            let put = |latch: &mut Latch| {
                bare(latch, 500, next_ticket, next_resume);
                latch.phases[0] = phase;
            };
            if fits {
                assert_fits("a ticket to take", put);
            } else {
                assert_misfit("a ticket to take", put);
            }
        }
    }

    /// Nothing ties the count, the waiters and the resumes left to one another,
    /// or to the phases.
    #[test]
    fn no_clause_too_many() {
        assert_fits("nobody counted", |latch| latch.waiters = 0);
        assert_fits("more than there are", |latch| latch.waiters = 32);
        assert_fits("carrying before the mark", |latch| latch.count = 200);
        assert_fits("waiting after the mark", |latch| {
            bare(latch, 0, 1, 1);
            latch.count = 0;
            latch.phases[0] = Phase::Waiting(0);
        });
        assert_fits("a cancelled place past all numbers", |latch| {
            latch.set_place(700, Place::Cancelled);
        });
    }

    /// A success can leave a record that no longer fits, and the next call is 1.
    #[test]
    fn left_unfit() {
        let lefts: [(&str, fn(&mut Latch), u8); 4] = [
            (
                "waiters",
                |latch| {
                    latch.waiters = 32;
                    latch.phases[0] = Phase::Raising;
                },
                0x22,
            ),
            (
                "numbered",
                |latch| {
                    bare(latch, 1_000_000, 1_000_000, 1_000_000);
                    latch.phases[0] = Phase::Unnumbered;
                },
                0x23,
            ),
            (
                "handed",
                |latch| {
                    bare(latch, 1_000_000, 1_000_000, 1_000_000);
                    latch.phases[0] = Phase::Carrying(1);
                },
                0x28,
            ),
            (
                "no ticket for the next resume",
                |latch| {
                    bare(latch, 500, 500, 756);
                    latch.phases[0] = Phase::Handing(600, 2);
                },
                0x29,
            ),
        ];
        for (what, alter, code) in lefts {
            let mut latch = sample();
            alter(&mut latch);
            assert_eq!(latch.call(Call::Step, 0).unwrap().code, code, "{what}");
            assert!(!latch.fits(), "{}", what);
            assert_eq!(latch.call(Call::Step, 9), Err(Refusal::Misfit), "{what}");
        }
    }
}

mod bytes {
    use super::*;

    fn replies<'a>(mode: fn(&mut &'a [u8]) -> io::Result<Vec<u8>>, input: &'a [u8]) -> Vec<u8> {
        let mut output = Vec::new();
        answer_all(input, &mut output, mode).unwrap();
        output
    }

    /// The reply to a record and a call: the answer, and the record.
    fn reply(record: &[u8], call: [u8; 2]) -> (String, Vec<u8>) {
        let output = replies(record_reply, &[record, &call].concat());
        assert_eq!(output.len(), 1530);
        (hex(&output[..7]), output[7..].to_vec())
    }

    fn set(record: &mut [u8], at: usize, byte: u8, number: u32) {
        record[at] = byte;
        record[at + 1..at + 5].copy_from_slice(&number.to_be_bytes());
    }

    /// Written down from the layout: three parties, one waits, one hands.
    fn by_layout() -> Vec<u8> {
        let mut record = vec![0; 1523];
        record[..3].copy_from_slice(&[3, 0, 2]);
        for (at, figure) in [(3, 0x0102), (7, 0x0102), (11, 0x0304), (15, 0x0101)] {
            record[at..at + 4].copy_from_slice(&(figure as u32).to_be_bytes());
        }
        // The place of 257 is the second.
        set(&mut record, 19 + 5, 1, 2);
        set(&mut record, 1299 + 10, 2, 0x0101);
        set(&mut record, 1299, 11, 0x0101);
        record[1459] = 2;
        record
    }

    #[test]
    fn one_record() {
        let record = by_layout();
        let mut left = record.clone();
        left[18] = 2;
        set(&mut left, 19 + 5, 0, 0);
        set(&mut left, 1299 + 10, 0, 0);
        set(&mut left, 1299, 10, 0);
        left[1459] = 1;
        assert_eq!(reply(&record, [0x11, 0]), ("2A000200000101".into(), left));
        let refused = ("0403FFFFFFFFFF".into(), record.clone());
        assert_eq!(reply(&record, [0x13, 3]), refused);
        assert_eq!(reply(&record, [0x12, 0]).0, "0900FFFFFFFFFF");
        assert_eq!(reply(&record, [0x10, 2]).0, "0502FFFFFFFFFF");
        assert_eq!(reply(&record, [0x13, 1]).0, "2001FFFFFFFFFF");
        // Codes count modulo 4.
        assert_eq!(reply(&record, [0xFF, 1]).0, "2001FFFFFFFFFF");
        assert_eq!(reply(&record, [0xFF, 1]).1[1299 + 5], 9);
        assert_eq!(reply(&record, [0x00, 1]).1[1299 + 5], 3);
    }

    /// A refusal hands the record back; so every byte is read and written.
    #[test]
    fn refused_records_come_back() {
        let mut record = vec![0; RECORD];
        for (byte, value) in record[..19].iter_mut().zip(0x81..) {
            *byte = value;
        }
        for place in 0..256 {
            let state = (place % 6) as u8;
            let party = if state == 1 { 0x1122_3300 + place } else { 0 };
            set(&mut record, 19 + 5 * place as usize, state, party);
        }
        for party in 0..32 {
            let phase = [0, 1, 2, 3, 4, 5, 6, 7, 8, 9, 10, 11, 14][party % 13];
            let has_number = matches!(phase, 2 | 5..=8 | 11);
            let number = if has_number {
                0x4455_6600 + party as u32
            } else {
                0
            };
            set(&mut record, 1299 + 5 * party, phase, number);
            if matches!(phase, 10 | 11) {
                record[1459 + party] = 0xF0 + party as u8 % 13;
            }
            record[1491 + party] = u8::from(matches!(phase, 3 | 4 | 5 | 14));
        }
        for code in 0x10..0x14 {
            let expected = (format!("01{code:02X}FFFFFFFFFF"), record.clone());
            assert_eq!(reply(&record, [code, code]), expected);
        }
    }

    /// What counts for nothing is passed over, and written as 0.
    #[test]
    fn odd_bytes() {
        let record = by_layout();
        let mut odd = record.clone();
        for place in (0..256).filter(|&place| place != 1) {
            // Empty all the same.
            set(&mut odd, 19 + 5 * place, 252, u32::MAX);
        }
        odd[19 + 5] = 7;
        for party in 3..32 {
            set(&mut odd, 1299 + 5 * party, 240, u32::MAX);
            odd[1459 + party] = 9;
            odd[1491 + party] = 1;
        }
        odd[1299] = 11 + 15;
        odd[1299 + 10] = 2 + 15 * 16;
        odd[1459 + 2] = 1;
        odd[1491] = 1;
        odd[1491 + 2] = 3;
        for call in [[0x11, 0], [0x13, 1], [0x11, 1], [0x12, 2]] {
            assert_eq!(reply(&odd, call), reply(&record, call));
        }
        // 12 and 13 are holding, and do not fit.
        for phase in [1, 12, 13] {
            let mut odd = record.clone();
            odd[1299 + 5] = phase;
            let (answer, left) = reply(&odd, [0x13, 1]);
            assert_eq!(answer, "0101FFFFFFFFFF");
            assert_eq!(left[1299 + 5], 1);
        }
        // An odd mark of one that is raising, and an even one.
        for (mark, answer) in [(255, "09"), (254, "20")] {
            let mut odd = record.clone();
            odd[1299 + 5] = 14;
            odd[1491 + 1] = mark;
            assert_eq!(reply(&odd, [0x12, 1]).0[..2], *answer);
            assert_eq!(reply(&odd, [0x12, 1]).1[1491 + 1], 1);
        }
    }

    #[test]
    fn only_whole_cases_are_answered() {
        let case = [&by_layout()[..], &[0x11, 0]].concat();
        let two = [&case[..], &case].concat();
        let output = replies(record_reply, &two);
        assert_eq!(output.len(), 2 * 1530);
        for short in [0, 1, 1524] {
            assert_eq!(replies(record_reply, &case[..short]), []);
            let output = replies(record_reply, &two[..1525 + short]);
            assert_eq!(output.len(), 1530);
        }
    }

    #[test]
    fn runs() {
        let whole = [1, 2, 0, 0, 0, 4, 0, 0, 0, 14, 0x13, 0, 0x11, 0];
        let answers = "002000FFFFFFFFFF2600FFFFFFFFFF";
        assert_eq!(hex(&replies(run_reply, &whole)), answers);
        let refused = [
            [201, 33, 0, 0, 0, 1, 0, 0, 0, 0, 9],
            [201, 32, 0, 0, 0, 1, 0, 0, 0, 0, 9],
            [200, 32, 0, 0, 0, 1, 0, 0, 0, 0, 9],
        ];
        let no_room = [1, 2, 0, 0, 0, 2, 0, 0, 0, 6, 0x13, 0];
        let cases = [refused.concat(), no_room.to_vec(), whole.to_vec()].concat();
        let output = hex(&replies(run_reply, &cases));
        assert_eq!(output, format!("0312FEFF{answers}"));
        for short in 0..whole.len() {
            assert_eq!(replies(run_reply, &whole[..short]), []);
        }
    }
}

mod schedules {
    use super::*;
    use std::collections::HashSet;

    fn is_busy(phase: Phase) -> bool {
        !matches!(phase, Phase::Free | Phase::Holding | Phase::Waiting(_))
    }

    /// How often each answer and refusal was met.
    type Seen = [u64; 256];

    /// A latch, and what calls and answers alone say of it.
    #[derive(Clone)]
    struct Story {
        latch: Latch,
        /// N less the answers 26 and 27, not below 0.
        count: u8,
        /// Parties that stepped from raising and have not begun to leave since.
        waiters: u8,
        phases: [Phase; PARTIES],
        marked: [bool; PARTIES],
    }

    impl Story {
        fn open(count: u8, parties: u8) -> Self {
            Story {
                latch: Latch::open(count, parties).unwrap(),
                count,
                waiters: 0,
                phases: [Phase::Free; PARTIES],
                marked: [false; PARTIES],
            }
        }

        /// Makes a call, and asserts what is claimed of it: whoever is let go is
        /// so after the mark, a busy party steps, a refusal changes nothing, the
        /// record left fits and shows what the answers say, and with everyone at
        /// rest after the mark nobody waits.
        fn make(&mut self, call: Call, party: u8, seen: &mut Seen) {
            let before = self.latch.clone();
            let outcome = self.latch.call(call, party);
            match outcome {
                Ok(answer) => {
                    seen[usize::from(answer.code)] += 1;
                    self.enter(call, usize::from(party), answer);
                }
                Err(refusal) => {
                    seen[refusal as usize] += 1;
                    assert_eq!(self.latch, before);
                    let busy = self.phases.get(usize::from(party)).copied().map(is_busy);
                    assert!(call != Call::Step || busy != Some(true));
                }
            }
            assert!(self.latch.fits());
            assert_eq!(
                (self.count, self.waiters),
                (self.latch.count, self.latch.waiters)
            );
            assert_eq!(self.phases, self.latch.phases);
            assert_eq!(self.marked, self.latch.marked);
            if self.count == 0 && !self.phases.iter().any(|&phase| is_busy(phase)) {
                assert_eq!(self.phases, [Phase::Free; PARTIES]);
            }
        }

        fn enter(&mut self, call: Call, party: usize, answer: Answer) {
            let t = answer.ticket.unwrap_or(NO_TICKET);
            let open = self.count == 0;
            if matches!(answer.code, 0x21 | 0x25 | 0x2A) {
                assert!(open, "let go before the mark");
            }
            let left = match self.phases[party] {
                Phase::Carrying(left) | Phase::Handing(_, left) => left,
                _ => 0,
            };
            let phase = match (answer.code, call, self.phases[party]) {
                (0x20, Call::Await, _) => Phase::Asked,
                (0x20, Call::CountDown, _) => Phase::GivingBack,
                (0x20, Call::Cancel, Phase::Waiting(t)) => Phase::GivingUp(t),
                (0x20, Call::Cancel, phase) => {
                    self.marked[party] = true;
                    phase
                }
                (0x21, ..) => Phase::Free,
                (0x22, _, Phase::Asked) => Phase::Raising,
                (0x22, ..) => {
                    self.waiters += 1;
                    Phase::Unnumbered
                }
                (0x23, ..) => Phase::Numbered(t),
                (0x24, ..) if self.marked[party] => Phase::GivingUp(t),
                (0x24, ..) => Phase::Waiting(t),
                (0x26, ..) | (0x27, ..) => {
                    self.count = self.count.saturating_sub(1);
                    if answer.code == 0x27 {
                        Phase::Carrying(self.waiters)
                    } else {
                        Phase::Free
                    }
                }
                (0x28, ..) => Phase::Handing(t, left),
                (0x29, ..) | (0x2A, ..) | (0x2B, ..) | (0x2D, ..) if left > 1 => {
                    Phase::Carrying(left - 1)
                }
                (0x2C, ..) => Phase::Carrying(left),
                (0x2E, ..) | (0x2F, ..) => {
                    self.waiters -= 1;
                    match self.phases[party] {
                        Phase::GivingUp(t) if answer.code == 0x2E => Phase::Cancelling(t),
                        Phase::GivingUp(t) => Phase::Refusing(t),
                        phase => panic!("{:?} gives up nothing", phase),
                    }
                }
                (0x31, ..) => Phase::Carrying(1),
                _ => Phase::Free,
            };
            if let Some(woken) = answer.woken {
                assert_eq!(self.phases[woken as usize], Phase::Waiting(t));
                self.phases[woken as usize] = Phase::Free;
            }
            self.phases[party] = phase;
            self.marked[party] &= phase.may_be_marked();
        }
    }

    /// What tells one story of a small latch from another.
    fn key(latch: &Latch, places: usize) -> Vec<u8> {
        let mut bytes = Vec::with_capacity(RECORD);
        write_record(latch, &mut bytes);
        let parties = usize::from(latch.parties);
        [
            &bytes[..PLACES_AT + 5 * places],
            &bytes[PHASES_AT..PHASES_AT + 5 * parties],
            &bytes[LEFT_AT..LEFT_AT + parties],
            &bytes[MARKS_AT..MARKS_AT + parties],
        ]
        .concat()
    }

    /// All schedules with at most so many awaits, each record reached once.
    fn explore(count: u8, parties: u8, awaits: u32, seen: &mut Seen) -> usize {
        let opened = Story::open(count, parties);
        let mut reached = HashSet::new();
        reached.insert(key(&opened.latch, awaits as usize));
        let mut open = vec![opened];
        while let Some(story) = open.pop() {
            for call in CALLS {
                if call == Call::Await && story.latch.begun == awaits {
                    continue;
                }
                for party in 0..parties {
                    let mut next = story.clone();
                    next.make(call, party, seen);
                    if reached.insert(key(&next.latch, awaits as usize)) {
                        open.push(next);
                    }
                }
            }
        }
        reached.len()
    }

    #[test]
    fn every_schedule_of_small_latches() {
        let mut seen = [0; 256];
        for (count, parties, awaits) in [
            (1, 1, 5),
            (1, 2, 4),
            (2, 2, 4),
            (3, 2, 3),
            (1, 3, 3),
            (2, 3, 3),
            (1, 4, 2),
        ] {
            let records = explore(count, parties, awaits, &mut seen);
            assert!(records > 100);
        }
        assert_eq!(seen[Refusal::Misfit as usize], 0);
        for number in (0x20..=0x33).chain([5, 8, 9]) {
            assert!(seen[number] > 0, "never met {:02X}", number);
        }
    }

    /// Small seeded generator (xorshift64*).
    struct Random(u64);

    impl Random {
        fn seeded(seed: u64) -> Self {
            // Xorshift must not start at zero.
            Random(seed.wrapping_mul(0x9E37_79B9_7F4A_7C15) | 1)
        }

        /// A number below `bound`.
        fn below(&mut self, bound: u32) -> u32 {
            self.0 ^= self.0 >> 12;
            self.0 ^= self.0 << 25;
            self.0 ^= self.0 >> 27;
            let high = (self.0.wrapping_mul(0x2545_F491_4F6C_DD1D) >> 32) as u32;
            high % bound
        }

        fn one_in(&mut self, odds: u32) -> bool {
            self.below(odds) == 0
        }
    }

    /// The eagerness, of 16, to await, to give up and to count down.
    struct Habits {
        begin: u32,
        cancel: u32,
        count_down: u32,
    }

    /// A call that mostly makes sense.
    fn next(random: &mut Random, habits: &Habits, latch: &Latch) -> (Call, u8) {
        let parties = u32::from(latch.parties);
        if random.one_in(12) {
            let call = CALLS[random.below(4) as usize];
            return (call, random.below(parties + 1) as u8);
        }
        loop {
            let party = random.below(parties) as u8;
            let phase = latch.phases[usize::from(party)];
            let turn = random.below(16);
            match phase {
                Phase::Free if turn < habits.begin => return (Call::Await, party),
                Phase::Free if random.below(64) < habits.count_down => {
                    return (Call::CountDown, party);
                }
                Phase::Waiting(_) if turn < habits.cancel => return (Call::Cancel, party),
                _ if phase.may_be_marked() && random.below(128) < habits.cancel => {
                    return (Call::Cancel, party);
                }
                _ if is_busy(phase) => return (Call::Step, party),
                // Somebody is always at rest, and may do anything.
                _ if turn == 15 => return (CALLS[random.below(4) as usize], party),
                _ => {}
            }
        }
    }

    /// Lets the busy step in random order until all are at rest.
    fn settle(story: &mut Story, random: &mut Random, seen: &mut Seen) {
        for _ in 0..10_000 {
            let busy: Vec<u8> = (0..story.latch.parties)
                .filter(|&party| is_busy(story.phases[usize::from(party)]))
                .collect();
            if busy.is_empty() {
                return;
            }
            let party = busy[random.below(busy.len() as u32) as usize];
            story.make(Call::Step, party, seen);
        }
        panic!("not at rest");
    }

    #[test]
    fn random_schedules() {
        let mut seen = [0; 256];
        // At rest before the mark with parties waiting, and when it is reached.
        let (mut waiting, mut carried) = (0, 0);
        for seed in 0..1500 {
            let mut random = Random::seeded(seed);
            let most = [2, 4, 8, 32][random.below(4) as usize];
            let parties = 1 + random.below(most);
            let most = [1, 3, 20, 200][random.below(4) as usize];
            let count = 1 + random.below(most);
            let mut story = Story::open(count as u8, parties as u8);
            let habits = Habits {
                begin: 1 + random.below(16),
                cancel: random.below(16),
                count_down: 1 + random.below(16),
            };
            for _ in 0..random.below(3000) {
                let (call, party) = next(&mut random, &habits, &story.latch);
                story.make(call, party, &mut seen);
                if random.one_in(400) {
                    settle(&mut story, &mut random, &mut seen);
                    waiting += u64::from(story.count > 0 && story.waiters > 0);
                }
            }
            // Whoever is free brings the count to 0.
            let before = seen[0x27];
            for party in (0..parties).cycle().take(200 * 32) {
                if story.count > 0 {
                    story.make(Call::CountDown, party as u8, &mut seen);
                }
                if random.one_in(3) {
                    settle(&mut story, &mut random, &mut seen);
                }
            }
            carried += seen[0x27] - before;
            settle(&mut story, &mut random, &mut seen);
        }
        assert_eq!(seen[Refusal::Misfit as usize], 0);
        for number in (0x20..=0x33).chain([4, 5, 7, 8, 9, 10]) {
            assert!(seen[number] > 0, "never met {:02X}", number);
        }
        assert!(waiting > 100 && carried > 100, "{} {}", waiting, carried);
    }

    /// Any value of the type: the check and the calls are total, a misfit is
    /// always 1, and a record that fits never meets an unlisted place.
    #[test]
    fn any_record_is_answered() {
        let mut fitting = 0;
        for seed in 0..200_000 {
            let mut random = Random::seeded(seed);
            let mut latch = any_record(&mut random);
            let fits = latch.fits();
            fitting += u32::from(fits);
            let before = latch.clone();
            let call = CALLS[random.below(4) as usize];
            let outcome = latch.call(call, random.below(34) as u8);
            assert_eq!(outcome == Err(Refusal::Misfit), !fits);
            if outcome.is_err() {
                assert_eq!(latch, before);
            }
        }
        assert!(fitting > 10_000);
    }

    /// A record made up at random, near enough to fitting to do so at times.
    fn any_record(random: &mut Random) -> Latch {
        let mut bytes = vec![0; RECORD];
        bytes[0] = 1 + random.below(33) as u8;
        bytes[1] = random.below(202) as u8;
        bytes[2] = random.below(34) as u8;
        let mut latch = read_record(&bytes);
        latch.begun = random.below(MAX_BEGUN + 1);
        latch.oldest = random.below(MAX_BEGUN - 300);
        latch.next_ticket = latch.oldest + random.below(SPAN + 2);
        latch.next_resume = latch.oldest + random.below(SPAN + 2);
        match random.below(20) {
            0 => latch.oldest = random.below(u32::MAX),
            1 => latch.next_ticket = random.below(u32::MAX),
            2 => latch.next_resume = random.below(u32::MAX),
            _ => {}
        }
        for _ in 0..random.below(6) {
            let party = random.below(u32::from(latch.parties).min(32));
            let ticket = latch.oldest.wrapping_add(random.below(SPAN));
            let [state, phase, left] = [0; 3].map(|_| random.below(256) as u8);
            latch.phases[party as usize] = read_phase(phase, ticket, left % 34);
            latch.set_place(ticket, read_place(state, party));
            latch.marked[party as usize] = random.one_in(4);
        }
        latch
    }
}
