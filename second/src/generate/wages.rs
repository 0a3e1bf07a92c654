//! Wage files by dice, right ones first.

use super::{amount, oib, reference, right_account, Dice};
use crate::codes::CODES;
use crate::reference::{LONGEST, MODELS};
use crate::wage::{is_date, write_close, write_group, write_label, write_order, Line, LINE};
use std::io::{self, Write};

mod wrong;
pub use wrong::{spoil, wage_input};

/// Days about the ends of months and about 29 February, dates and others.
const DAYS: [u32; 42] = [
    20230101, 20230131, 20230132, 20230200, 20230228, 20230229, 20230301, 20230331, 20230430,
    20230431, 20230531, 20230630, 20230631, 20230731, 20230831, 20230930, 20230931, 20231031,
    20231130, 20231131, 20231231, 20231301, 20230001, 20230100, 20240228, 20240229, 20240230,
    20240301, 20250229, 20280229, 20990101, 21000228, 21000229, 21000301, 23000229, 24000229,
    24000230, 99991231, 20221231, 20220101, 0, 99999999,
];
const PLAIN: &[u8] = b"ABCDEFGHIJKLMNOPQRSTUVWXYZabcdefghijklmnopqrstuvwxyz0123456789 -.,/";
/// The letters of WIN-1250 that a description permits.
const LETTERS: &[u8] = b"\x8a\x9a\x8e\x9e\xc6\xe6\xc8\xe8\xd0\xf0";
/// Neighbours of all that some field permits, and bytes that are no text.
const STRANGE: &[u8] = b"\0\t\n\r\x1f!+'():;<?@[\\`{|~\x7f\x80\x89\x8b\x8c\x8d\x8f\x90\x99\x9b\x9c\
    \x9d\x9f\xa0\xa9\xae\xb9\xbe\xc4\xc5\xc7\xc9\xcf\xd1\xe4\xe5\xe7\xe9\xef\xf1\xfe\xff";

/// The fields of a line that is to be written.
pub type Fields = Vec<Vec<u8>>;

pub struct WageFile {
    pub day: u32,
    pub kind: u64,
    pub lines: Vec<Line>,
}

impl WageFile {
    /// As the file program reads it.
    pub fn input(&self) -> Vec<u8> {
        let mut input = format!("{:08}\n", self.day).into_bytes();
        input.extend(self.lines.iter().flatten());
        input
    }
}

pub fn slices<const N: usize>(fields: &[Vec<u8>]) -> [&[u8]; N] {
    let slices: Vec<&[u8]> = fields.iter().map(Vec::as_slice).collect();
    slices.try_into().expect("as many fields as the line has")
}

// Right files.

pub fn right_wage_file(dice: &mut Dice) -> WageFile {
    let day = right_day(dice);
    let kind = *dice.pick(&[4, 4, 5]);
    let mut lines = vec![label_line(&right_label(dice, day, kind), day)];
    for _ in 0..*dice.pick(&[1, 1, 1, 2, 3]) {
        let count = *dice.pick(&[1, 1, 2, 2, 3, 5]);
        let orders = (0..count)
            .map(|_| order_line(&right_order(dice, kind), day, kind))
            .collect();
        push_group(dice, &mut lines, day, kind, orders);
    }
    lines.push(close_line(day));
    WageFile { day, kind, lines }
}

/// One group whose sum passes 2^64, and what the sum is.
pub fn large_wage_file(dice: &mut Dice) -> (WageFile, u128) {
    const ORDERS: usize = 19_000;
    let (day, kind) = (right_day(dice), 4);
    let mut lines = vec![label_line(&right_label(dice, day, kind), day)];
    let mut sum = 0;
    let orders = (0..ORDERS)
        .map(|k| {
            let mut fields = right_order(dice, kind);
            let cents = if k % 40 == 0 {
                dice.roll() % 1_000_000_000_000_000
            } else {
                999_999_999_999_999
            };
            sum += u128::from(cents);
            fields[7] = format!("{cents:015}").into_bytes();
            order_line(&fields, day, kind)
        })
        .collect();
    push_group(dice, &mut lines, day, kind, orders);
    lines.push(close_line(day));
    assert!(sum > 1 << 64);
    (WageFile { day, kind, lines }, sum)
}

/// Writes an input with a right file of so many lines, for measuring speed.
pub fn long_wage_file(seed: u64, lines: usize, mut output: impl Write) -> io::Result<()> {
    const GROUP: usize = 1_000;
    let mut dice = Dice::new(seed);
    let (day, kind) = (20240229, 4);
    output.write_all(format!("{day}\n").as_bytes())?;
    output.write_all(&label_line(&right_label(&mut dice, day, kind), day))?;
    // The label and the end are there in any case; a group has two at least.
    let mut left = lines.saturating_sub(2).max(2);
    while left > 0 {
        let size = if left > GROUP + 1 { GROUP } else { left };
        let orders = (1..size)
            .map(|_| order_line(&right_order(&mut dice, kind), day, kind))
            .collect();
        let mut group = Vec::new();
        push_group(&mut dice, &mut group, day, kind, orders);
        output.write_all(group.as_flattened())?;
        left -= size;
    }
    output.write_all(&close_line(day))?;
    output.flush()
}

fn push_group(dice: &mut Dice, lines: &mut Vec<Line>, day: u32, kind: u64, mut orders: Vec<Line>) {
    let mut line = [0; LINE];
    let fields = right_group(dice, day);
    write_group(
        day,
        kind,
        &slices(&fields),
        orders.as_flattened(),
        &mut line,
    )
    .expect("right");
    lines.push(line);
    lines.append(&mut orders);
}

fn label_line(fields: &Fields, day: u32) -> Line {
    let mut line = [0; LINE];
    write_label(day, &slices(fields), &mut line).expect("right");
    line
}

fn order_line(fields: &Fields, day: u32, kind: u64) -> Line {
    let mut line = [0; LINE];
    write_order(day, kind, &slices(fields), &mut line).expect("right");
    line
}

fn close_line(day: u32) -> Line {
    let mut line = [0; LINE];
    write_close(day, &mut line).expect("right");
    line
}

pub fn right_day(dice: &mut Dice) -> u32 {
    loop {
        let day = match dice.below(3) {
            0 => *dice.pick(&DAYS),
            1 => dice_date(dice, 2023, 2026),
            _ => dice_date(dice, 2023, 9999),
        };
        if is_date(day) {
            return day;
        }
    }
}

/// Mostly a date, and then often the last of a month.
fn dice_date(dice: &mut Dice, first: usize, last: usize) -> u32 {
    let (year, month) = (dice.between(first, last), dice.between(1, 12));
    let any = dice.between(1, 28);
    let day = *dice.pick(&[1, 28, 29, 30, 31, 0, 32, any]);
    (year * 10_000 + month * 100 + day) as u32
}

/// Fields 1 to 8 of a 300.
pub fn right_label(dice: &mut Dice, day: u32, kind: u64) -> Fields {
    let missing = dice.below(4);
    let mut three = [oib(dice), dice.digits(11), dice.digits(11)];
    for (k, text) in three.iter_mut().enumerate() {
        if k == missing {
            text.fill(b'0');
        } else if k > 0 && text.iter().all(|&b| b == b'0') {
            text[10] = b'1';
        }
    }
    let [employer, register, internal] = three;
    vec![
        format!("{day:08}").into_bytes(),
        kind.to_string().into_bytes(),
        b"000".to_vec(),
        dice.pick(&[b"1", b"2"]).to_vec(),
        employer,
        register,
        internal,
        oib(dice),
    ]
}

/// Fields 1, 2, 3, 4 and 7 of a 301.
pub fn right_group(dice: &mut Dice, day: u32) -> Fields {
    let date = loop {
        let date = match dice.below(3) {
            0 => day,
            1 => *dice.pick(&DAYS),
            _ => dice_date(dice, day as usize / 10_000, 9999),
        };
        if date >= day && is_date(date) {
            break date;
        }
    };
    vec![
        right_account(dice),
        b"EUR".to_vec(),
        match dice.below(2) {
            0 => vec![b' '; 21],
            _ => right_account(dice),
        },
        dice.pick(&[b"   ", b"EUR"]).to_vec(),
        date.to_string().into_bytes(),
    ]
}

/// Fields 1, 2, 5 to 12 and 18 to 23 of a 309.
pub fn right_order(dice: &mut Dice, kind: u64) -> Fields {
    let (payer_model, payer_reference) = right_reference(dice);
    let (model, reference) = right_reference(dice);
    let code = loop {
        let code = *dice.pick(&CODES);
        if kind == 4 || code != 500 || model != b"    " {
            break code;
        }
    };
    vec![
        padded(right_account(dice), 34),
        right_name(dice),
        dice.pick(&[b"000", b"191"]).to_vec(),
        payer_model,
        payer_reference,
        match dice.below(2) {
            0 => vec![b' '; 4],
            _ => (0..4).map(|_| b'A' + dice.below(26) as u8).collect(),
        },
        right_description(dice),
        match dice.below(12) {
            0 => vec![b'9'; 15],
            1 => vec![b'0'; 15],
            _ => amount(dice),
        },
        model,
        reference,
        dice.pick(&[b"0", b"1", b"2"]).to_vec(),
        dice.pick(&[b"   ", b"EUR"]).to_vec(),
        dice.pick(&[b" ", b"0", b"3"]).to_vec(),
        dice.pick(&[b" ", b"0"]).to_vec(),
        code.to_string().into_bytes(),
        match dice.below(3) {
            0 if kind == 4 => vec![b'0'; 11],
            _ => oib(dice),
        },
    ]
}

/// A model and a reference that obeys it, both blank now and then.
fn right_reference(dice: &mut Dice) -> (Vec<u8>, Vec<u8>) {
    if dice.one_in(5) {
        return (vec![b' '; 4], vec![b' '; LONGEST]);
    }
    let model = dice.pick(&MODELS);
    let name = format!("HR{:02}", model.number).into_bytes();
    let text = reference(dice, model);
    (name, padded(text, LONGEST))
}

/// Whatever stands there is not judged.
fn right_name(dice: &mut Dice) -> Vec<u8> {
    match dice.below(8) {
        0 => vec![b' '; 140],
        1 => (0..140).map(|_| dice.byte()).collect(),
        2 => (0..140).map(|_| *dice.pick(STRANGE)).collect(),
        _ => {
            let (name, street) = (dice.between(2, 30), dice.between(0, 35));
            let name = padded(letters(dice, name), 70);
            let street = padded(letters(dice, street), 35);
            padded([name, street, b"10000 ZAGREB".to_vec()].concat(), 140)
        }
    }
}

fn right_description(dice: &mut Dice) -> Vec<u8> {
    let length = match dice.below(6) {
        0 => 140,
        1 => 1,
        _ => dice.between(1, 40),
    };
    let mut text = letters(dice, length);
    if text.iter().all(|&b| b == b' ') {
        text[length - 1] = *dice.pick(LETTERS);
    }
    if dice.one_in(6) {
        // Not all blank, but blank for long.
        let blanks = dice.between(0, 140 - length);
        text = [vec![b' '; blanks], text].concat();
    }
    padded(text, 140)
}

fn letters(dice: &mut Dice, count: usize) -> Vec<u8> {
    (0..count)
        .map(|_| match dice.below(6) {
            0 => *dice.pick(LETTERS),
            _ => *dice.pick(PLAIN),
        })
        .collect()
}

/// Cut or filled up with blanks to this length.
pub fn padded(mut text: Vec<u8>, length: usize) -> Vec<u8> {
    text.resize(length, b' ');
    text
}

#[cfg(test)]
mod tests {
    use super::*;
    use crate::wage::{place, places, program, whole, Accepted, Type};
    use std::collections::BTreeMap;

    /// The fields that a writer wants, asked of a line one by one.
    fn asked(line: &Line, of: Type) -> Fields {
        places(of)
            .iter()
            .filter(|p| of != Type::Group || !matches!(p.field, 5 | 6))
            .map(|p| place(line, p.field).to_vec())
            .collect()
    }

    /// Every line of an accepted file, from its places.
    fn written_again(file: &WageFile) -> Vec<Line> {
        let (day, kind) = (file.day, file.kind);
        let mut again = Vec::new();
        for (k, line) in file.lines.iter().enumerate() {
            let (_, of) = Type::of(line).unwrap();
            let fields = asked(line, of);
            let mut room = [0; LINE];
            let answer = match of {
                Type::Label => write_label(day, &slices(&fields), &mut room),
                Type::Order => write_order(day, kind, &slices(&fields), &mut room),
                Type::Close => write_close(day, &mut room),
                Type::Group => {
                    let orders: Vec<Line> = file.lines[k + 1..]
                        .iter()
                        .take_while(|line| line[997..1000] == *b"309")
                        .copied()
                        .collect();
                    let orders = orders.as_flattened();
                    write_group(day, kind, &slices(&fields), orders, &mut room)
                }
            };
            assert_eq!(answer, Ok(()));
            again.push(room);
        }
        again
    }

    fn counted(file: &WageFile) -> Accepted {
        let of = |digits: &[u8; 3]| {
            let these = file.lines.iter().filter(|line| line[997..1000] == *digits);
            these.count()
        };
        let orders = file.lines.iter().filter(|line| line[997..1000] == *b"309");
        let amounts = orders.map(|line| {
            let digits = std::str::from_utf8(&line[347..362]).unwrap();
            digits.parse::<u128>().unwrap()
        });
        Accepted {
            lines: file.lines.len(),
            groups: of(b"301"),
            orders: of(b"309"),
            total: amounts.sum(),
        }
    }

    #[test]
    fn written_judged_asked_and_written_again() {
        let mut dice = Dice::new(3);
        for _ in 0..3_000 {
            let file = right_wage_file(&mut dice);
            let answer = whole(file.day, file.lines.as_flattened());
            assert_eq!(answer, Ok(counted(&file)));
            assert!(written_again(&file) == file.lines);
        }
    }

    /// What stands where nothing is read is not written again.
    #[test]
    fn places_not_read() {
        let mut dice = Dice::new(4);
        for _ in 0..300 {
            let file = right_wage_file(&mut dice);
            let mut other = WageFile {
                lines: file.lines.clone(),
                ..file
            };
            for line in &mut other.lines {
                let (_, of) = Type::of(line).unwrap();
                for (k, byte) in line.iter_mut().enumerate().take(997) {
                    if !places(of).iter().any(|p| p.range().contains(&k)) {
                        *byte = dice.below(256) as u8;
                    }
                }
            }
            let answer = whole(other.day, other.lines.as_flattened());
            assert_eq!(answer, Ok(counted(&file)));
            assert!(written_again(&other) == file.lines);
        }
    }

    #[test]
    fn large_and_long() {
        let mut dice = Dice::new(5);
        let (mut file, sum) = large_wage_file(&mut dice);
        assert_eq!(&file.lines[1][48..73], format!("19000{sum:020}").as_bytes());
        let answer = whole(file.day, file.lines.as_flattened());
        assert_eq!(answer, Ok(counted(&file)));
        let other = sum - (1 << 64);
        file.lines[1][53..73].copy_from_slice(format!("{other:020}").as_bytes());
        let answer = whole(file.day, file.lines.as_flattened());
        assert_eq!(
            answer.unwrap_err().to_string(),
            "refused 13 line 19003 field 0 byte 0"
        );
        for (asked, made) in [
            (0, 4),
            (4, 4),
            (5, 5),
            (1002, 1002),
            (1003, 1003),
            (2503, 2503),
        ] {
            let (mut input, mut output) = (Vec::new(), Vec::new());
            long_wage_file(1, asked, &mut input).unwrap();
            program(&input[..], &mut output).unwrap();
            let output = String::from_utf8(output).unwrap();
            assert!(
                output.starts_with(&format!("accepted {made} lines")),
                "{output}"
            );
        }
    }

    /// Every refusal that a file can get, with its line's type and its field.
    #[test]
    fn every_place_is_met() {
        let mut dice = Dice::new(6);
        let mut met: BTreeMap<String, usize> = BTreeMap::new();
        for _ in 0..30_000 {
            let input = wage_input(&mut dice);
            let mut output = Vec::new();
            program(&input[..], &mut output).unwrap();
            let answer = String::from_utf8(output).unwrap();
            let words: Vec<&str> = answer.trim_end().split(' ').collect();
            let key = match words[..] {
                ["refused", number, _, _, _, "0", ..] => number.to_string(),
                ["refused", number, _, line, _, field, ..] => {
                    let end = 9 + line.parse::<usize>().unwrap() * LINE;
                    let of = String::from_utf8_lossy(&input[end - 5..end - 2]);
                    format!("{of} {field}: {number}")
                }
                _ => words[0].to_string(),
            };
            *met.entry(key).or_default() += 1;
        }
        let mut wanted: Vec<String> = ["accepted", "1", "2", "5", "10", "11", "12", "13", "14"]
            .map(str::to_string)
            .into();
        for (of, table) in [
            (
                300,
                &[
                    (1, &[3, 11][..]),
                    (2, &[3, 5]),
                    (3, &[3, 5]),
                    (4, &[3, 5]),
                    (5, &[3, 6]),
                    (6, &[3]),
                    (7, &[3, 5]),
                    (8, &[3, 5, 6]),
                ][..],
            ),
            (
                301,
                &[
                    (1, &[3, 5, 6][..]),
                    (2, &[5]),
                    (3, &[3, 5, 6]),
                    (4, &[5]),
                    (5, &[3]),
                    (6, &[3]),
                    (7, &[3, 11]),
                ],
            ),
            (
                309,
                &[
                    (1, &[3, 5, 6]),
                    (5, &[3, 5]),
                    (6, &[5, 7]),
                    (7, &[3, 5, 8, 9]),
                    (8, &[5]),
                    (9, &[3, 5]),
                    (10, &[3]),
                    (11, &[5, 7]),
                    (12, &[3, 5, 8, 9]),
                    (18, &[3, 5]),
                    (19, &[5]),
                    (20, &[5]),
                    (21, &[5]),
                    (22, &[3, 5]),
                    (23, &[3, 5, 6]),
                ],
            ),
        ] {
            for (field, numbers) in table {
                wanted.extend(numbers.iter().map(|n| format!("{of} {field}: {n}")));
            }
        }
        let mut keys: Vec<String> = met.keys().cloned().collect();
        keys.sort();
        wanted.sort();
        assert_eq!(keys, wanted, "{met:#?}");
        assert!(met.values().all(|&n| n > 5), "{met:#?}");
    }
}
