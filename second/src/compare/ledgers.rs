//! Slips of either kind for the comparison of ledger.

use super::slips::picked_about;
use super::{side_by_side, Outcome};
use crate::generate::{ledger_slip, Dice};
use crate::ledger::{in_cents, Amount, Entry};
use crate::slip::Currency;
use std::ffi::OsStr;
use std::io;
use std::path::Path;

/// Compares `program` with `second ledger`, where `second` is that binary. What
/// was printed of an accepted slip must make the slip again; how many were in
/// euro and how many in kuna is told too.
pub fn compare_ledgers(
    program: &OsStr,
    second: &Path,
    seed: u64,
    count: usize,
) -> io::Result<(Outcome, [usize; 2])> {
    let mut dice = Dice::new(seed);
    let inputs = hand_picked()
        .into_iter()
        .chain((0..count).map(|_| ledger_slip(&mut dice)));
    let mut accepted = [0; 2];
    let outcome = side_by_side(program, second, "ledger", inputs, |input, theirs, ours| {
        let again = !ours.output.starts_with(b"accepted") || {
            let again = put_together(&ours.output).filter(|(_, slip)| slip == input);
            if let Some((currency, _)) = again {
                accepted[currency as usize] += 1;
            }
            again.is_some()
        };
        if !again {
            eprintln!("not the same when put together again:");
        }
        again && theirs.output == ours.output && theirs.success && ours.success
    })?;
    Ok((outcome, accepted))
}

/// The slip that was printed field by field, and its currency. Behind a kuna
/// slip its amount stands in cents, and nothing behind a euro slip.
fn put_together(printed: &[u8]) -> Option<(Currency, Vec<u8>)> {
    let mut lines = printed.strip_suffix(b"\n")?.split(|&b| b == b'\n');
    let currency = match lines.next()? {
        b"accepted euro" => Currency::Euro,
        b"accepted kuna" => Currency::Kuna,
        _ => return None,
    };
    let mut slip = [b"HRVHUB30\n", currency.word(), b"\n"].concat();
    for number in 3..=14 {
        let name = format!("{number}=");
        slip.extend_from_slice(lines.next()?.strip_prefix(name.as_bytes())?);
        slip.push(b'\n');
    }
    let behind = match currency {
        Currency::Euro => None,
        Currency::Kuna => {
            let lipa = std::str::from_utf8(&slip[13..28]).ok()?;
            Some(format!("cents={}", in_cents(lipa.parse().ok()?)))
        }
    };
    let right = lines.next() == behind.as_ref().map(String::as_bytes) && lines.next().is_none();
    right.then_some((currency, slip))
}

/// The case file's slips, and what a case line cannot hold.
fn hand_picked() -> Vec<Vec<u8>> {
    const RIGHT: &[u8] = b"HRVHUB30\nHRK\n000000000012355\n\xc5\xbd\n\n\n\xc4\x8c\n\n\n\
        1001005-1863000160\nHR00\n1-2\nCOST\nx\n";
    picked_about(RIGHT, |input| {
        let read = Entry::read(input);
        read.is_ok_and(|entry| matches!(entry.amount, Amount::Lipa(_)))
    })
}

#[cfg(test)]
mod tests {
    use super::*;
    use crate::cases::swapped;
    use crate::ledger::program;

    fn run(input: &[u8]) -> Vec<u8> {
        let mut output = Vec::new();
        program(input, &mut output).unwrap();
        output
    }

    #[test]
    fn printed_and_put_together() {
        let mut dice = Dice::new(2);
        let inputs = hand_picked()
            .into_iter()
            .chain((0..10_000).map(|_| ledger_slip(&mut dice)));
        let (mut accepted, mut refused) = ([0; 2], 0);
        for input in inputs {
            let output = run(&input);
            let again = put_together(&output);
            if output.starts_with(b"accepted") {
                let (currency, slip) = again.expect("as it was printed");
                assert_eq!(slip, input);
                accepted[currency as usize] += 1;
            } else {
                assert!(output.starts_with(b"refused "));
                assert_eq!(again, None);
                refused += 1;
            }
        }
        let [euro, kuna] = accepted;
        assert!(euro > 700 && kuna > 1_500, "{euro} {kuna}");
        assert!(refused > 5_000, "{refused}");
    }

    #[test]
    fn what_is_not_put_together() {
        let slip = hand_picked()
            .into_iter()
            .find(|slip| run(slip).starts_with(b"accepted kuna"))
            .expect("there is one");
        let right = run(&slip);
        assert_eq!(put_together(&right), Some((Currency::Kuna, slip)));
        assert_eq!(put_together(b""), None);
        assert_eq!(put_together(b"accepted kuna\n"), None);
        assert_eq!(put_together(&right[..right.len() - 1]), None);
        assert_eq!(put_together(&[&right[..], b"15=\n"].concat()), None);
        assert_eq!(put_together(&swapped(&right, b'=', b':')), None);
        // A euro slip has no cents behind it, and a kuna slip has.
        let text = String::from_utf8(right).unwrap();
        let (fields, _) = text.rsplit_once("cents=").unwrap();
        assert_eq!(put_together(fields.as_bytes()), None);
        let euro = text.replace("accepted kuna", "accepted euro");
        assert_eq!(put_together(euro.as_bytes()), None);
        let off = text.replace("cents=", "cents=1");
        assert_eq!(put_together(off.as_bytes()), None);
    }
}
