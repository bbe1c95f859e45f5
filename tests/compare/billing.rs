//! The monthly bill as an archive and its second program, side by side: the same parties, fees and
//! lines to both. Every code and every share must agree, add up and be close to its exact portion;
//! over the schedule program's own lines the links must be the 26 and 27 lines and the holders.
//! Usage: billing SECOND SCHEDULE RUNS. Links libbilling.a.

mod process;
// the hub's comparisons use the rest of it
#[allow(dead_code)]
mod schedules;

use schedules::{hex, schedule, Random, Seen};
use std::env;
use std::process::ExitCode;

mod linked {
    extern "C" {
        pub fn bill_shares(
            parties: u8,
            fee: u32,
            lines: *const u8,
            lines_len: usize,
            shares: *mut u8,
            shares_len: usize,
        ) -> u8;
    }
}

fn bill_shares(parties: u8, fee: u32, lines: &[u8], shares: &mut [u8]) -> u8 {
    // SAFETY: each address goes with the length of what it points to.
    unsafe {
        linked::bill_shares(
            parties,
            fee,
            lines.as_ptr(),
            lines.len(),
            shares.as_mut_ptr(),
            shares.len(),
        )
    }
}

const LINE: usize = 7;
const BILLS: usize = 40;
const MOST_CENTS: u32 = 1_000_000;
const DONE: u8 = 0;
const NO_BUFFER: u8 = 255;
/// What the buffer holds before.
const BEFORE: u8 = 0xA5;

/// What a comparison has to have met besides the codes.
const MEETINGS: [&str; 18] = [
    "nobody got a link",
    "nobody, and cents left over",
    "one party with all",
    "equal remainders, of which some get a cent",
    "a remainder of 0 where cents are left over",
    "fee 0",
    "fee 1,000,000",
    "n 1",
    "n 32",
    "a link for a party not below n",
    "a rest of 1 byte",
    "a rest of 2 bytes",
    "a rest of 3 bytes",
    "a rest of 4 bytes",
    "a rest of 5 bytes",
    "a rest of 6 bytes",
    "3 where 22 applies too",
    "the lines of a schedule",
];

/// One bill, as it is asked for.
struct Bill {
    parties: u8,
    fee: u32,
    lines: Vec<u8>,
    of_schedule: bool,
}

/// The links of parties 0 to 255, counted here once more, and those not below n.
fn links(lines: &[u8]) -> [u64; 256] {
    let mut links = [0; 256];
    for line in lines.chunks_exact(LINE) {
        match line[0] {
            0x21 | 0x25 => links[usize::from(line[1])] += 1,
            0x2A => links[usize::from(line[2])] += 1,
            _ => {}
        }
    }
    links
}

/// A line: mostly one that gives a link, to few parties so that they tie, or to any.
fn line(random: &mut Random, parties: u8, few: u64) -> [u8; LINE] {
    let below = random.below(few.min(u64::from(parties.max(1)))) as u8;
    let (any, other) = (random.byte(), random.byte());
    let party = random.pick(&[below, below, below, below, parties, any]);
    let woken = random.pick(&[below, below, below, 0xFF, any]);
    let code = random.pick(&[0x21, 0x21, 0x25, 0x2A, 0x2A, 0x20, 0x26, 0x29, 0x2B, other]);
    [code, party, woken, random.byte(), random.byte(), random.byte(), random.byte()]
}

/// The bytes of lines: some of a kind, or any bytes; then a rest.
fn any_lines(random: &mut Random, parties: u8) -> Vec<u8> {
    let most = random.pick(&[0, 1, 3, 8, 40, 400]);
    let count = random.below(most + 1);
    let few = random.pick(&[1, 2, 3, 8, 32]);
    let mut lines: Vec<u8> = match random.below(8) {
        0 => (0..7 * count).map(|_| random.byte()).collect(),
        // none gives a link
        1 => (0..count).flat_map(|_| [0x22, random.byte(), 0, 0, 0, 0, 0]).collect(),
        // each party alike
        2 => (0..count * u64::from(parties))
            .flat_map(|at| [0x21, (at % u64::from(parties.max(1))) as u8, 0xFF, 0, 0, 0, 0])
            .collect(),
        _ => (0..count).flat_map(|_| line(random, parties, few)).collect(),
    };
    let rest = random.below(7) as usize;
    lines.extend(&line(random, parties, few)[..rest]);
    lines
}

/// The lines that the schedule program printed, as bytes, with the closing line.
fn printed(program: &str, random: &mut Random) -> (u8, Vec<u8>) {
    let schedule = schedule(random, 2000);
    let input = schedule.lines().join("\n");
    let text = process::output(program, &[], input.as_bytes(), input.len());
    let digit = |byte: u8| (byte as char).to_digit(16).expect("the program prints digits") as u8;
    let bytes = text
        .split(|&byte| byte == b'\n')
        .flat_map(|line| line.chunks(2).map(|pair| digit(pair[0]) << 4 | digit(pair[1])));
    (schedule.parties, bytes.collect())
}

/// Over a schedule's lines the links are the 26 and 27 lines and the holders of the closing line.
fn balanced(parties: u8, lines: &[u8]) -> bool {
    let all: u64 = links(lines)[..usize::from(parties)].iter().sum();
    let returns = lines.chunks(LINE).filter(|line| matches!(line[0], 0x26 | 0x27)).count();
    let closing = &lines[lines.len() - LINE..];
    closing[0] == 0x7E && all == returns as u64 + u64::from(closing[1])
}

fn any_bill(random: &mut Random) -> Bill {
    let (any, one) = (random.byte(), 1 + random.below(32) as u8);
    let parties = random.pick(&[1, 2, 3, 32, one, one, one, 0, 33, any]);
    let (small, fee) = (random.below(100) as u32, random.below(1_000_001) as u32);
    let above = MOST_CENTS + 1 + random.below(1 << 31) as u32;
    let all = [0, 1, small, small, fee, fee, fee, MOST_CENTS, MOST_CENTS + 1, above, u32::MAX];
    Bill { parties, fee: random.pick(&all), lines: any_lines(random, parties), of_schedule: false }
}

/// What the archive says to a bill, as the second program prints it; a fault if it is wrong by
/// itself.
fn said(bill: &Bill, seen: &mut Seen, met: &mut [u64]) -> Result<String, &'static str> {
    let n = usize::from(bill.parties);
    let mut buffer = vec![BEFORE; 4 * n];
    let code = bill_shares(bill.parties, bill.fee, &bill.lines, &mut buffer);
    seen.count(code);
    met[16] += u64::from(code == 3 && bill.fee > MOST_CENTS);
    // buffers of other sizes: the same refusal, or 255, and nothing written
    for size in [0, (4 * n).saturating_sub(1), 4 * n + 1, 4 * n + 4] {
        let mut other = vec![BEFORE; size];
        let refused = bill_shares(bill.parties, bill.fee, &bill.lines, &mut other);
        seen.count(refused);
        let expected = if code == DONE { NO_BUFFER } else { code };
        if size != 4 * n && (refused != expected || other.iter().any(|&byte| byte != BEFORE)) {
            return Err("a buffer of another size");
        }
    }
    if code != DONE {
        let left_alone = buffer.iter().all(|&byte| byte == BEFORE);
        return if left_alone { Ok(format!("{code:02X}")) } else { Err("refused, and written") };
    }
    let shares: Vec<u64> = buffer
        .chunks(4)
        .map(|four| u32::from_be_bytes([four[0], four[1], four[2], four[3]]).into())
        .collect();
    let (all_links, fee) = (links(&bill.lines), u64::from(bill.fee));
    let nobody = all_links[..n].iter().all(|&count| count == 0);
    let weights: Vec<u64> =
        all_links[..n].iter().map(|&count| if nobody { 1 } else { count }).collect();
    let whole: u64 = weights.iter().sum();
    if shares.iter().sum::<u64>() != fee {
        return Err("the shares do not add up to the fee");
    }
    let portions = || shares.iter().zip(&weights);
    if portions().any(|(&share, &weight)| (share * whole).abs_diff(fee * weight) >= whole) {
        return Err("a share is a cent or more from its exact portion");
    }
    let left_over = fee - portions().map(|(_, &weight)| fee * weight / whole).sum::<u64>();
    let remainders: Vec<u64> = weights.iter().map(|&weight| fee * weight % whole).collect();
    let tied = (1..n).any(|p| {
        remainders[p] == remainders[p - 1]
            && shares[p] - fee * weights[p] / whole != shares[p - 1] - fee * weights[p - 1] / whole
    });
    let rest = bill.lines.len() % LINE;
    let facts = [
        nobody,
        nobody && left_over > 0,
        !nobody && weights.contains(&whole),
        tied,
        left_over > 0 && remainders.contains(&0),
        fee == 0,
        bill.fee == MOST_CENTS,
        n == 1,
        n == 32,
        all_links[n..].iter().any(|&count| count > 0),
        rest == 1,
        rest == 2,
        rest == 3,
        rest == 4,
        rest == 5,
        rest == 6,
        false,
        bill.of_schedule,
    ];
    for (count, fact) in met.iter_mut().zip(facts) {
        *count += u64::from(fact);
    }
    Ok(format!("00{}", hex(&buffer)))
}

/// 100,000,000 lines and a rest are billed, one line more is 22, after 3 and before 255.
fn most_lines(seen: &mut Seen) -> bool {
    let bytes = vec![0; 700_000_007];
    let mut shares = [BEFORE; 8];
    let mut bill = |parties: u8, lines: &[u8], shares: &mut [u8]| {
        let code = bill_shares(parties, 3, lines, shares);
        seen.count(code);
        code
    };
    let refused = bill(2, &bytes, &mut shares) == 22
        && bill(0, &bytes, &mut shares) == 3
        && bill(2, &bytes, &mut shares[..7]) == 22
        && shares == [BEFORE; 8];
    refused
        && bill(2, &bytes[..700_000_006], &mut shares) == DONE
        && shares == [0, 0, 0, 2, 0, 0, 0, 1]
}

fn main() -> ExitCode {
    let arguments: Vec<String> = env::args().collect();
    let [_, program, scheduler, runs] = &arguments[..] else {
        eprintln!("usage: billing SECOND SCHEDULE RUNS");
        return ExitCode::FAILURE;
    };
    let runs: u64 = runs.parse().expect("RUNS is a number");
    let mut seen = Seen::nothing();
    let mut met = [0; MEETINGS.len()];
    for seed in 1..=runs {
        let random = &mut Random::seeded(seed);
        let mut bills: Vec<Bill> = (0..BILLS).map(|_| any_bill(random)).collect();
        let (parties, lines) = printed(scheduler, random);
        if (1..=32).contains(&parties) && !balanced(parties, &lines) {
            println!("run {seed}: the links of a schedule are not its 26 and 27 and its holders");
            return ExitCode::FAILURE;
        }
        let fee = random.below(1_000_001) as u32;
        bills.push(Bill { parties, fee, lines, of_schedule: true });
        let mut ours = String::new();
        for (number, bill) in bills.iter().enumerate() {
            match said(bill, &mut seen, &mut met) {
                Ok(answer) => ours += &(answer + "\n"),
                Err(fault) => {
                    println!("run {seed}, bill {number}: {fault}");
                    return ExitCode::FAILURE;
                }
            }
        }
        let asked = |bill: &Bill| {
            hex(&[&[bill.parties], &bill.fee.to_be_bytes()[..], &bill.lines[..]].concat())
        };
        let input: Vec<String> = bills.iter().map(asked).collect();
        let input = input.join("\n");
        let output = process::output(program, &[], input.as_bytes(), input.len());
        let theirs = String::from_utf8_lossy(&output).into_owned();
        if ours != theirs {
            let lines = || ours.lines().zip(theirs.lines());
            let at = lines().take_while(|(ours, theirs)| ours == theirs).count();
            println!("run {seed}: {:?}", input.lines().nth(at));
            println!("archive, second: {:?}", lines().nth(at));
            return ExitCode::FAILURE;
        }
    }
    if !most_lines(&mut seen) {
        println!("100,000,000 lines, or one more, are answered otherwise");
        return ExitCode::FAILURE;
    }
    println!("bill and second program: {runs} runs of {} bills, all agree", BILLS + 1);
    let all_met = seen.shows([DONE, 3, 22, NO_BUFFER].into_iter());
    for (meeting, count) in MEETINGS.iter().zip(met) {
        println!("  {meeting}: {count}");
    }
    if all_met && met.iter().all(|&count| count > 0) {
        ExitCode::SUCCESS
    } else {
        ExitCode::FAILURE
    }
}
