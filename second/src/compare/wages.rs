//! Wage files for the comparison of the file program.

use super::{side_by_side, Outcome};
use crate::generate::{
    large_wage_file, long_wage_file, right_wage_file, wage_input, Dice, WageFile,
};
use crate::wage::{places, Type, LINE};
use std::collections::BTreeMap;
use std::ffi::OsStr;
use std::io;
use std::path::Path;

/// Whatever reference a case line has is picked there already.
const CASES: &[u8] = include_bytes!("../../../cases/hand.txt");

/// How often each number was the answer, 0 standing for acceptance.
pub type Answers = BTreeMap<u8, usize>;

/// Compares `program` with `second wagefile`, where `second` is that binary.
pub fn compare_wages(
    program: &OsStr,
    second: &Path,
    seed: u64,
    count: usize,
) -> io::Result<(Outcome, Answers)> {
    let mut dice = Dice::new(seed);
    let inputs = hand_picked()
        .into_iter()
        .chain(large())
        .chain((0..count).map(|_| wage_input(&mut dice)));
    let mut answers = Answers::new();
    let outcome = side_by_side(program, second, "wagefile", inputs, |_, theirs, ours| {
        if let Some(number) = number(&ours.output) {
            *answers.entry(number).or_default() += 1;
        }
        theirs.output == ours.output && theirs.success && ours.success
    })?;
    Ok((outcome, answers))
}

fn number(output: &[u8]) -> Option<u8> {
    let mut words = output.split(|b| b.is_ascii_whitespace());
    match words.next()? {
        b"accepted" => Some(0),
        b"refused" => std::str::from_utf8(words.next()?).ok()?.parse().ok(),
        _ => None,
    }
}

/// Files that are long, and sums that do not fit into 64 bits.
fn large() -> impl Iterator<Item = Vec<u8>> {
    let long = [200, 1_500].into_iter().map(|lines| {
        let mut input = Vec::new();
        long_wage_file(1, lines, &mut input).expect("in memory");
        input
    });
    let mut file = None;
    long.chain([0, 1, -1, -(1i128 << 64)].into_iter().map(move |change| {
        let (file, sum) = file.get_or_insert_with(|| large_wage_file(&mut Dice::new(2)));
        let sum = *sum as i128 + change;
        file.lines[1][53..73].copy_from_slice(format!("{sum:020}").as_bytes());
        file.input()
    }))
}

/// A file whose lines are a 300, a 301, two 309 of kind 4 and a 399, every
/// reference and the accounts in use.
fn sample() -> WageFile {
    let mut dice = Dice::new(11);
    loop {
        let file = right_wage_file(&mut dice);
        let used = |line: &[u8]| {
            let blank = |from: usize, to: usize| line[from..to].iter().all(|&b| b == b' ');
            !blank(181, 182) && !blank(366, 367)
        };
        if file.kind == 4
            && file.lines.len() == 5
            && used(&file.lines[2])
            && used(&file.lines[3])
            && file.lines[1][24] == b'H'
            && file.lines[3][207..347]
                .iter()
                .filter(|&&b| b != b' ')
                .count()
                > 20
        {
            return file;
        }
    }
}

fn hand_picked() -> Vec<Vec<u8>> {
    let file = sample();
    let right = file.input();
    let day = format!("{:08}", file.day).into_bytes();
    let lines = &right[9..];
    let mut inputs = vec![right.clone()];

    // The day.
    for front in [
        &b""[..],
        b"\n",
        b"2",
        b"0000000",
        b"00000000",
        b"00000000\n",
        b"20230101",
        b"20230101\r\n",
        b"020230101\n",
        b" 20230101\n",
        b"20230101 \n",
        b"2023010\n",
        b"2023010x\n",
        b"2023010\xff\n",
        b"20230101\n",
        b"20230101\n\n",
    ] {
        inputs.push(front.to_vec());
        inputs.push([front, lines].concat());
    }
    // The day and the label's own, dates and others, one and the other.
    for date in [
        "20221231", "20230101", "20230131", "20230132", "20230228", "20230229", "20230230",
        "20230331", "20230430", "20230431", "20230531", "20230631", "20230731", "20230831",
        "20230931", "20231031", "20231131", "20231231", "20231232", "20231301", "20230001",
        "20230100", "20240228", "20240229", "20240230", "21000228", "21000229", "22000229",
        "24000229", "28000229", "99991231", "99991232", "99999999", "00000000", "10000101",
    ] {
        for (of_day, of_label, of_group) in [
            (true, true, true),
            (true, true, false),
            (false, true, true),
            (false, false, true),
        ] {
            let mut input = right.clone();
            for (here, place) in [(of_day, 0), (of_label, 9), (of_group, 9 + LINE + 73)] {
                if here {
                    input[place..place + 8].copy_from_slice(date.as_bytes());
                }
            }
            inputs.push(input);
        }
    }

    // Sizes about those of lines and of buffers.
    for size in [
        9, 10, 1009, 1010, 1011, 1012, 2012, 2013, 2014, 5018, 5019, 5020, 6021, 6022,
    ] {
        let mut input = right.clone();
        input.resize(size, 0);
        inputs.push(input.clone());
        inputs.push(
            input
                .iter()
                .map(|&b| if b == 0 { b'\n' } else { b })
                .collect(),
        );
    }
    inputs.push([&right[..], lines].concat());
    inputs.push([&right[..], &right[..]].concat());
    inputs.push([&day, &b"\n"[..], &vec![0; 1 << 20]].concat());
    inputs.push([&day, &b"\n"[..], &vec![b'\n'; 1 << 20]].concat());
    inputs.push([&right[..], &vec![b' '; 1 << 20]].concat());

    // Several places at once: a line from 0, a byte in it, and what is there.
    let put_all = |places: &[(usize, usize, &[u8])]| {
        let mut input = right.clone();
        for (line, place, bytes) in places {
            let start = 9 + line * LINE + place;
            input[start..start + bytes.len()].copy_from_slice(bytes);
        }
        input
    };
    inputs.extend(in_company().iter().map(|places| put_all(places)));
    let mut put = |line: usize, place: usize, bytes: &[u8]| {
        inputs.push(put_all(&[(line, place, bytes)]));
    };

    // Strangers at the edges of each place.
    for (line, bytes) in file.lines.iter().enumerate() {
        let (_, of) = Type::of(bytes).expect("right");
        for place in places(of) {
            for at in [place.start, place.end - 1] {
                for stranger in *b" /0:@Z[a\xff" {
                    put(line, at, &[stranger]);
                }
            }
            put(line, place.start, &vec![b' '; place.length()]);
            put(line, place.start, &vec![b'0'; place.length()]);
            if place.length() == 1 {
                for digit in b'1'..=b'9' {
                    put(line, place.start, &[digit]);
                }
            }
        }
        for at in 995..LINE {
            for stranger in *b"\r\n 19" {
                put(line, at, &[stranger]);
            }
        }
        for of in Type::ALL {
            put(line, 997, of.digits());
        }
    }
    // The case file's references, by turns the payer's and the recipient's.
    let cases = CASES.split(|&b| b == b'\n').filter_map(|line| {
        let mut reference = line.strip_prefix(b"ref|")?.to_vec();
        // A model has four bytes, and here no bar stands behind it.
        (reference.get(4)? == &b'|').then(|| reference.remove(4))?;
        reference.resize(26.max(reference.len()), b' ');
        (reference.len() == 26).then_some(reference)
    });
    for (reference, place) in cases.zip([177, 362].into_iter().cycle()) {
        put(3, place, &reference);
    }
    // Every byte of a description, every code, every model.
    for byte in 0..=255 {
        let (line, place) = [(2, 207), (3, 346)][usize::from(byte % 2)];
        put(line, place, &[byte]);
    }
    for code in 0..1000 {
        put(2, 548, format!("{code:03}").as_bytes());
    }
    for model in 0..100 {
        let (line, place) = [(2, 177), (3, 362)][model % 2];
        put(line, place, format!("HR{model:02}").as_bytes());
    }
    inputs
}

/// What is right or wrong in company only.
fn in_company() -> Vec<Vec<(usize, usize, &'static [u8])>> {
    const OIB: &[u8] = b"12345678903";
    const ZEROS: &[u8] = b"00000000000";
    const BLANK: &[u8] = b"                          ";
    const NUMBER: usize = 48;
    const SUM: usize = 53;
    const MODELS: [usize; 2] = [177, 362];
    const CODE: usize = 548;
    const PAYER: usize = 551;
    let mut all = Vec::new();

    // At least two of the label's three.
    for used in 0..8 {
        let three = (0..3).map(|k| match used >> k & 1 {
            0 => (0, 13 + 11 * k, ZEROS),
            _ => (0, 13 + 11 * k, OIB),
        });
        all.push(three.collect());
    }
    // Kind 5: an OIB in every order, and a model where the code is 500.
    let fifth = [(0, 8, &b"5"[..]), (2, PAYER, OIB), (3, PAYER, OIB)];
    let kinds = [&fifth[..], &[(0, 8, b"4"), fifth[1], fifth[2]]];
    for kind in kinds {
        let mut with = |more: &[(usize, usize, &'static [u8])]| all.push([kind, more].concat());
        for order in [2, 3] {
            with(&[(order, PAYER, ZEROS)]);
            with(&[(order, PAYER, b"12345678904")]);
            for code in [&b"500"[..], b"510", b"100", b"501"] {
                with(&[(order, CODE, code)]);
                for model in MODELS {
                    with(&[(order, CODE, code), (order, model, BLANK)]);
                    with(&[
                        (order, CODE, code),
                        (order, model, b"HR99                      "),
                        (order, PAYER, ZEROS),
                    ]);
                }
            }
        }
    }
    // A blank model and a reference, a model and none.
    for order in [2, 3] {
        for model in MODELS {
            for reference in [
                &b"    0                     "[..],
                b"     0                    ",
                b"                         0",
                b"                         x",
                b"    -                     ",
                b"    x                     ",
                b"HR00                      ",
                b"HR01                      ",
                b"HR99                      ",
                b"HR000 0                   ",
                b"HR00 0                    ",
                b"HR000                    0",
                b"HR00123456789012-123456789",
                b"HR0 0                     ",
                b"HR  0                     ",
                b"H   0                     ",
                b"   00                     ",
            ] {
                all.push(vec![(order, model, reference)]);
            }
        }
        // Purposes and descriptions.
        for purpose in [
            &b"AAAA"[..],
            b"ZZZZ",
            b"AAAz",
            b"aAAA",
            b"aaaa",
            b"A   ",
            b"   A",
            b"AA A",
            b"A1AA",
        ] {
            all.push(vec![(order, 203, purpose)]);
        }
        let blank = (order, 207, &[b' '; 140][..]);
        all.push(vec![blank]);
        for (place, letter) in [(207, b"x"), (346, b"/"), (300, b"\xf0"), (300, b"_")] {
            all.push(vec![blank, (order, place, letter)]);
        }
    }
    // Two things wrong: which of them is told?
    let few = (1, NUMBER, &b"00003"[..]);
    let none = (1, NUMBER, &b"00000"[..]);
    let one = (1, NUMBER, &b"00001"[..]);
    let sum = (1, SUM, &b"99999999999999999999"[..]);
    let bad = |line: usize| (line, 0, &b"~"[..]);
    let head = (4, 997, &b"301"[..]);
    for wrong in [
        vec![few, sum],
        vec![one, sum],
        vec![none, sum],
        vec![few, head],
        vec![sum, head],
        vec![one, bad(3)],
        vec![none, bad(2)],
        vec![head, bad(4)],
        vec![few, head, bad(4)],
        vec![sum, head, bad(4)],
        vec![sum, bad(3)],
        vec![few, (4, 997, b"300")],
        vec![sum, (4, 997, b"300")],
        vec![few, (4, 997, b"398")],
        vec![sum, (4, 1000, b"\n")],
        vec![(2, 997, b"301"), few],
        vec![(2, 997, b"399"), sum],
        vec![(0, 0, b"00000000"), (0, 8, b"x")],
        vec![(1, 0, b"HR13"), (1, 20, b"~")],
        vec![(2, 0, b"HR13"), (2, 33, b"A")],
        vec![(2, 0, b"XX"), (2, 33, b"-")],
    ] {
        all.push(wrong);
    }
    all
}

#[cfg(test)]
mod tests {
    use super::*;
    use crate::wage::program;

    fn run(input: &[u8]) -> u8 {
        let mut output = Vec::new();
        program(input, &mut output).unwrap();
        number(&output).unwrap()
    }

    #[test]
    fn what_is_hand_picked() {
        let inputs = hand_picked();
        assert_eq!(run(&inputs[0]), 0);
        let mut answers = Answers::new();
        for input in &inputs {
            *answers.entry(run(input)).or_default() += 1;
        }
        let numbers: Vec<u8> = answers.keys().copied().collect();
        assert_eq!(numbers, [0, 1, 2, 3, 5, 6, 7, 8, 9, 10, 11, 12, 13, 14]);
    }

    #[test]
    fn large_ones() {
        let answers: Vec<u8> = large().map(|input| run(&input)).collect();
        assert_eq!(answers, [0, 0, 0, 13, 13, 13]);
    }
}
