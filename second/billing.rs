//! The monthly bill, second program: request M-200, driven by lines on standard
//! input. A line is hexadecimal digits of either case: the parties n (1 byte),
//! the fee in cents (4 bytes, high byte first), and the bytes of the answer
//! lines. It prints 00 and the shares of parties 0 to n−1, eight digits each,
//! or the refusal's number: 3 as 03, 22 as 16. Capitals are written. Any other
//! line is a fault of whoever drives the program, and ends it in failure.

use std::cmp::Reverse;
use std::io::{self, BufRead, BufReader, BufWriter, ErrorKind, Write};
use std::process::ExitCode;

const MOST_PARTIES: usize = 32;
const MOST_CENTS: u32 = 1_000_000;
const MOST_LINES: usize = 100_000_000;
/// Bytes of an answer line: code, party, woken party, number (4).
const LINE: usize = 7;

/// Each refusal is its number in the paper.
#[derive(Clone, Copy, Debug, PartialEq, Eq)]
enum Refusal {
    BadParties = 3,
    TooMuch = 22,
}

/// The links that each of n parties got.
fn count_links(parties: usize, lines: &[u8]) -> Vec<u64> {
    let mut links = vec![0; parties];
    for line in lines.chunks_exact(LINE) {
        let party = match line[0] {
            0x21 | 0x25 => line[1],
            0x2A => line[2],
            _ => continue,
        };
        if let Some(count) = links.get_mut(usize::from(party)) {
            *count += 1;
        }
    }
    links
}

/// The shares of parties 0 to n−1, in cents.
fn bill(parties: u8, fee: u32, lines: &[u8]) -> Result<Vec<u32>, Refusal> {
    let parties = usize::from(parties);
    if parties < 1 || parties > MOST_PARTIES {
        return Err(Refusal::BadParties);
    }
    if fee > MOST_CENTS || lines.len() / LINE > MOST_LINES {
        return Err(Refusal::TooMuch);
    }
    let mut links = count_links(parties, lines);
    if links.iter().all(|&count| count == 0) {
        // nobody got a link: equal shares under the same rule
        links.fill(1);
    }
    let all: u64 = links.iter().sum();
    let exact = |party: usize| u64::from(fee) * links[party];
    let mut shares: Vec<u32> = (0..parties)
        .map(|party| (exact(party) / all) as u32)
        .collect();
    let left_over = fee - shares.iter().sum::<u32>();
    // The sort keeps the order of equals, which is that of the parties.
    let mut order: Vec<usize> = (0..parties).collect();
    order.sort_by_key(|&party| Reverse(exact(party) % all));
    for &party in &order[..left_over as usize] {
        shares[party] += 1;
    }
    Ok(shares)
}

/// What a line prints. `None` if it is no bill.
fn answer(line: &[u8]) -> Option<String> {
    let bytes = decode_hex(line)?;
    let [parties, f0, f1, f2, f3, lines @ ..] = &bytes[..] else {
        return None;
    };
    let fee = u32::from_be_bytes([*f0, *f1, *f2, *f3]);
    Some(match bill(*parties, fee, lines) {
        Ok(shares) => {
            let digits: String = shares.iter().map(|share| format!("{share:08X}")).collect();
            format!("00{digits}\n")
        }
        Err(refusal) => format!("{:02X}\n", refusal as u8),
    })
}

fn decode_hex(digits: &[u8]) -> Option<Vec<u8>> {
    digits
        .chunks(2)
        .map(|pair| match *pair {
            [high, low] => Some(hex_digit(high)? << 4 | hex_digit(low)?),
            _ => None,
        })
        .collect()
}

fn hex_digit(byte: u8) -> Option<u8> {
    match byte {
        b'0'..=b'9' => Some(byte - b'0'),
        b'A'..=b'F' => Some(byte - b'A' + 10),
        b'a'..=b'f' => Some(byte - b'a' + 10),
        _ => None,
    }
}

fn run(input: impl BufRead, mut output: impl Write) -> io::Result<()> {
    for (number, line) in (1u64..).zip(input.split(b'\n')) {
        let Some(text) = answer(&line?) else {
            // What was answered before is still worth reading.
            output.flush()?;
            let message = format!("line {number} is no bill");
            return Err(io::Error::new(ErrorKind::InvalidData, message));
        };
        output.write_all(text.as_bytes())?;
    }
    output.flush()
}

fn main() -> ExitCode {
    let input = BufReader::new(io::stdin().lock());
    let output = BufWriter::new(io::stdout().lock());
    match run(input, output) {
        Ok(()) => ExitCode::SUCCESS,
        Err(error) => {
            // `eprintln!` would panic if standard error were closed.
            let _ = writeln!(io::stderr(), "{error}");
            ExitCode::FAILURE
        }
    }
}

#[cfg(test)]
mod tests {
    use super::*;

    /// The line of an answer; its number counts for nothing.
    fn line(code: u8, party: u8, woken: u8) -> [u8; LINE] {
        [code, party, woken, 0x21, 0x25, 0x2A, 0]
    }

    /// Lines that give each party so many links.
    fn lines(links: &[usize]) -> Vec<u8> {
        let each = links.iter().zip(0u8..);
        each.flat_map(|(&count, party)| line(0x21, party, 0xFF).repeat(count))
            .collect()
    }

    /// By hand: 100 cents for 1, 1 and 1 links are 33 1/3 each.
    #[test]
    fn lower_party_first_among_equals() {
        assert_eq!(bill(3, 100, &lines(&[1, 1, 1])), Ok(vec![34, 33, 33]));
        assert_eq!(bill(3, 101, &lines(&[1, 1, 1])), Ok(vec![34, 34, 33]));
        assert_eq!(bill(3, 102, &lines(&[1, 1, 1])), Ok(vec![34, 34, 34]));
    }

    /// By hand: 10 cents for 1, 2 and 4 of 7 links are 1 3/7, 2 6/7 and 5 5/7.
    #[test]
    fn largest_remainders() {
        assert_eq!(bill(3, 10, &lines(&[1, 2, 4])), Ok(vec![1, 3, 6]));
        // 8 cents: 1 1/7, 2 2/7, 4 4/7
        assert_eq!(bill(3, 8, &lines(&[1, 2, 4])), Ok(vec![1, 2, 5]));
        // 1 cent: 1/7, 2/7, 4/7
        assert_eq!(bill(3, 1, &lines(&[1, 2, 4])), Ok(vec![0, 0, 1]));
    }

    #[test]
    fn which_lines_count() {
        for code in 0..=255 {
            let expected = match code {
                0x21 | 0x25 => vec![0, 1, 0],
                0x2A => vec![0, 0, 1],
                _ => vec![0, 0, 0],
            };
            assert_eq!(count_links(3, &line(code, 1, 2)), expected, "{code:02X}");
        }
        for party in 3..=255 {
            assert_eq!(count_links(3, &line(0x21, party, 0)), [0, 0, 0]);
            assert_eq!(count_links(3, &line(0x25, party, 0)), [0, 0, 0]);
            assert_eq!(count_links(3, &line(0x2A, 0, party)), [0, 0, 0]);
        }
    }

    #[test]
    fn shorter_rest_counts_for_nobody() {
        let whole = [line(0x21, 0, 0), line(0x2A, 0, 1)].concat();
        for length in 0..=whole.len() {
            let links = count_links(2, &whole[..length]);
            let expected = [u64::from(length >= 7), u64::from(length >= 14)];
            assert_eq!(links, expected, "{length}");
        }
    }

    #[test]
    fn nobody_and_one_with_all() {
        assert_eq!(bill(4, 6, &[]), Ok(vec![2, 2, 1, 1]));
        assert_eq!(bill(4, 6, &line(0x21, 4, 0)), Ok(vec![2, 2, 1, 1]));
        assert_eq!(bill(4, 6, &lines(&[0, 0, 5])), Ok(vec![0, 0, 6, 0]));
        assert_eq!(bill(1, 1_000_000, &[]), Ok(vec![1_000_000]));
        assert_eq!(bill(32, 0, &lines(&[3, 1])), Ok(vec![0; 32]));
        let equal = bill(32, 33, &[]).unwrap();
        assert_eq!(equal[..2], [2, 1]);
        assert_eq!(equal.iter().sum::<u32>(), 33);
    }

    #[test]
    fn refusals_in_order() {
        for parties in [0, 33, 255] {
            assert_eq!(bill(parties, 1_000_001, &[]), Err(Refusal::BadParties));
        }
        for parties in [1, 32] {
            assert!(bill(parties, 1_000_000, &[]).is_ok());
            assert_eq!(bill(parties, 1_000_001, &[]), Err(Refusal::TooMuch));
            assert_eq!(bill(parties, u32::MAX, &[]), Err(Refusal::TooMuch));
        }
    }

    /// 100,000,000 lines and a rest, then one line more.
    #[test]
    fn most_lines() {
        let bytes = vec![0; 700_000_007];
        assert_eq!(bill(2, 3, &bytes[..700_000_006]), Ok(vec![2, 1]));
        assert_eq!(bill(2, 3, &bytes), Err(Refusal::TooMuch));
    }

    /// The shares add up to the fee, and none is a cent or more from its exact
    /// portion.
    #[test]
    fn exact_and_close() {
        let mut seed = 1u64;
        let mut below = |bound: u64| {
            // An odd multiplier and increment; the high bits are the good ones.
            seed = seed.wrapping_mul(0x5851_F42D_4C95_7F2D).wrapping_add(1);
            (seed >> 33) % bound
        };
        for _ in 0..2000 {
            let parties = 1 + below(32) as u8;
            let fee = below(1_000_001) as u32;
            let most = 1 + below(6);
            let links: Vec<usize> = (0..parties).map(|_| below(most) as usize).collect();
            let shares = bill(parties, fee, &lines(&links)).unwrap();
            assert_eq!(shares.iter().sum::<u32>(), fee);
            let all: usize = links.iter().sum();
            for (&share, &count) in shares.iter().zip(&links).filter(|_| all > 0) {
                let apart = (u64::from(share) * all as u64).abs_diff(u64::from(fee) * count as u64);
                assert!(apart < all as u64, "{} {:?} {:?}", fee, links, shares);
            }
        }
    }

    #[test]
    fn printed() {
        let input = "03000000642100FF000000002A00010000000025020000000000\n00FFFFFFFF\n01000f4241\n0200000005AA";
        let mut output = Vec::new();
        run(input.as_bytes(), &mut output).unwrap();
        let expected = "00000000220000002100000021\n03\n16\n000000000300000002\n";
        assert_eq!(String::from_utf8(output).unwrap(), expected);
    }

    #[test]
    fn lines_that_are_no_bill() {
        for line in [
            "",
            "0",
            "01000000",
            "010000000",
            "0100000000f",
            "01 00000000",
            "0G00000000",
        ] {
            let input = format!("0100000007\n{line}\n0100000008\n");
            let mut output = Vec::new();
            let error = run(input.as_bytes(), &mut output).unwrap_err();
            assert_eq!(error.to_string(), "line 2 is no bill", "{line:?}");
            assert_eq!(output, b"0000000007\n");
        }
    }
}
