//! Slips for the comparison of slipfile, and their way back.

use super::{side_by_side, Outcome, MEGABYTE};
use crate::cases::swapped;
use crate::generate::{slip, Dice};
use crate::slip::{Slip, LARGEST};
use std::ffi::OsStr;
use std::io;
use std::path::Path;

/// Whatever a case line can hold is picked there already.
const CASES: &[u8] = include_bytes!("../../../cases/hand.txt");

/// Compares `program` with `second slipfile`, where `second` is that binary.
/// Every accepted slip is written again from what was printed of it; the
/// number of those is told too, and one that comes out otherwise differs.
pub fn compare_slips(
    program: &OsStr,
    second: &Path,
    seed: u64,
    count: usize,
) -> io::Result<(Outcome, usize)> {
    let mut dice = Dice::new(seed);
    let inputs = hand_picked()
        .into_iter()
        .chain((0..count).map(|_| slip(&mut dice)));
    let mut written = 0;
    let outcome = side_by_side(
        program,
        second,
        "slipfile",
        inputs,
        |input, theirs, ours| {
            let again = !ours.output.starts_with(b"accepted") || {
                let same = written_again(&ours.output).as_deref() == Some(input);
                written += usize::from(same);
                same
            };
            if !again {
                eprintln!("not the same when written again:");
            }
            again && theirs.output == ours.output && theirs.success && ours.success
        },
    )?;
    Ok((outcome, written))
}

/// The slip that was printed field by field.
fn written_again(printed: &[u8]) -> Option<Vec<u8>> {
    let mut lines = printed.strip_suffix(b"\n")?.split(|&b| b == b'\n');
    if lines.next() != Some(b"accepted") {
        return None;
    }
    let fields = (3..)
        .zip(lines)
        .map(|(number, line)| line.strip_prefix(format!("{number}=").as_bytes()))
        .collect::<Option<Vec<&[u8]>>>()?;
    let (cents, texts) = fields.split_first()?;
    let slip = Slip {
        cents: std::str::from_utf8(cents).ok()?.parse().ok()?,
        texts: texts.try_into().ok()?,
    };
    slip.write(LARGEST).ok()
}

/// The case file's slips, and what a case line cannot hold.
fn hand_picked() -> Vec<Vec<u8>> {
    const RIGHT: &[u8] = b"HRVHUB30\nEUR\n000000000000100\n\xc5\xbd\n\n\n\xc4\x8c\n\n\n\
        HR1210010051863000160\nHR00\n1-2\nCOST\nx\n";
    picked_about(RIGHT, |input| Slip::read(input).is_ok())
}

/// The case file's slips, whichever reader is asked there, and what a case line
/// cannot hold: about a right slip, and about one of the largest size that is
/// accepted.
pub(super) fn picked_about(right: &[u8], accepted: impl Fn(&[u8]) -> bool) -> Vec<Vec<u8>> {
    let mut inputs: Vec<Vec<u8>> = CASES
        .split(|&b| b == b'\n')
        .filter_map(|line| {
            let slip = line.strip_prefix(b"slip|");
            slip.or_else(|| line.strip_prefix(b"ledger|"))
        })
        .map(|text| swapped(text, b'|', b'\n'))
        .collect();
    let full = inputs
        .iter()
        .find(|input| input.len() == LARGEST && accepted(input))
        .expect("the case file has one")
        .clone();
    inputs.push(right.to_vec());
    inputs.extend(other_bytes(right));
    inputs.extend(other_sizes(right));
    // A slip of 483 bytes in front of what must be read too.
    for more in [1, 2, 29, 541, MEGABYTE] {
        for filler in [b'\n', b'x', b'\0'] {
            let mut long = full.clone();
            long.resize(LARGEST + more, filler);
            inputs.push(long);
        }
    }
    inputs
}

/// Every byte alone; every cut of a slip; strangers in place of and before each
/// of its bytes.
fn other_bytes(right: &[u8]) -> Vec<Vec<u8>> {
    let mut inputs: Vec<Vec<u8>> = (0..=255).map(|byte| vec![byte]).collect();
    for place in 0..right.len() {
        inputs.push(right[..place].to_vec());
        for byte in [b'|', b'\0', b'\n', b'\r', 0xff, 0xc5] {
            let mut other = right.to_vec();
            other[place] = byte;
            inputs.push(other);
            let mut other = right.to_vec();
            other.insert(place, byte);
            inputs.push(other);
        }
    }
    inputs.push(swapped(right, b'\n', b'|'));
    inputs.push(swapped(right, b'\n', b'\r'));
    inputs.push(swapped(right, b'\n', b'\0'));
    inputs.push([right, right].concat());
    inputs.push(right.to_ascii_lowercase());
    inputs
}

/// A right slip and more, about the largest size, the usual sizes of a buffer,
/// and a megabyte: all of it must be read and none forgotten.
fn other_sizes(right: &[u8]) -> Vec<Vec<u8>> {
    let mut inputs = Vec::new();
    for size in [
        LARGEST, 256, 512, 1024, 2048, 4096, 8192, 65536, 131072, MEGABYTE,
    ] {
        for size in [size - 1, size, size + 1, size + 2] {
            for filler in [b'\n', b'x', b'\0', b' '] {
                let mut long = right.to_vec();
                long.resize(size, filler);
                inputs.push(long);
                inputs.push(vec![filler; size]);
            }
            // Fourteen line feeds, the last at the end.
            let mut long = right[..right.len() - 1].to_vec();
            long.resize(size - 1, b'x');
            long.push(b'\n');
            inputs.push(long);
        }
    }
    inputs
}

#[cfg(test)]
mod tests {
    use super::*;
    use crate::slip::program;

    fn run(input: &[u8]) -> Vec<u8> {
        let mut output = Vec::new();
        program(input, &mut output).unwrap();
        output
    }

    #[test]
    fn printed_and_written_again() {
        let mut dice = Dice::new(2);
        let inputs = hand_picked()
            .into_iter()
            .chain((0..10_000).map(|_| slip(&mut dice)));
        let (mut accepted, mut refused) = (0, 0);
        for input in inputs {
            let output = run(&input);
            let lines = output.iter().filter(|&&b| b == b'\n').count();
            if output.starts_with(b"accepted\n3=") {
                assert_eq!(lines, 13);
                assert_eq!(written_again(&output), Some(input));
                accepted += 1;
            } else {
                assert!(output.starts_with(b"refused "));
                assert_eq!((lines, written_again(&output)), (1, None));
                refused += 1;
            }
        }
        assert!(accepted > 2_000 && refused > 5_000, "{accepted} {refused}");
    }

    #[test]
    fn what_is_not_written_again() {
        let right = run(&hand_picked()[1]);
        assert!(written_again(&right).is_some());
        assert_eq!(written_again(b""), None);
        assert_eq!(written_again(b"accepted\n"), None);
        assert_eq!(written_again(&right[..right.len() - 1]), None);
        assert_eq!(written_again(&[&right[..], b"15=\n"].concat()), None);
        assert_eq!(written_again(&swapped(&right, b'=', b':')), None);
    }

    #[test]
    fn what_is_hand_picked() {
        let inputs = hand_picked();
        assert!(inputs.iter().any(|i| i.is_empty()));
        assert!(inputs.iter().any(|i| i.len() > MEGABYTE));
        assert!(inputs.iter().any(|i| i.len() == LARGEST + 1));
        assert!(inputs.iter().any(|i| Slip::read(i).is_ok()));
    }
}
