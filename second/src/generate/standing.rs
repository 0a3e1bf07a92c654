//! Sheets of standing text by dice, and slips' fields beside them.

use super::slips::{characters, limit, right_slip, right_words, spoil_slip, written_case, wrong};
use super::slips::{Fields, STRANGE};
use super::{join, noise, Dice};
use crate::cases::swapped;
use crate::standing::{write_standing, NUMBERS};

/// Room for the answer to a question and for the question.
const LONGEST_CASE: usize = 1_000;

/// A case line with the verb `standing`.
pub fn standing_case(dice: &mut Dice) -> Vec<u8> {
    short(dice, |dice| {
        let field = standing_field(dice).to_string();
        let [farm, association] = sheets(dice).map(|sheet| in_a_case(&sheet));
        join(&[b"standing", field.as_bytes(), &farm, &association])
    })
}

/// A case line with the verb `write standing`.
pub fn write_standing_case(dice: &mut Dice) -> Vec<u8> {
    short(dice, |dice| {
        let (texts, [farm, association]) = (texts_given(dice), sheets(dice));
        let sizes: Vec<usize> = texts.iter().map(Vec::len).collect();
        let written = write_standing(0, &texts.concat(), &sizes, &farm, &association, 0);
        let without_room = written.map_err(|refused| refused.refusal);
        let words = [&in_a_case(&farm)[..], &in_a_case(&association)];
        written_case(dice, b"write standing", words, &texts, without_room)
    })
}

/// A line that a program of cases can read.
fn short(dice: &mut Dice, make: impl Fn(&mut Dice) -> Vec<u8>) -> Vec<u8> {
    loop {
        let line = make(dice);
        if line.len() <= LONGEST_CASE {
            return line;
        }
    }
}

/// A `|` by dice would end the sheet.
fn in_a_case(sheet: &[u8]) -> Vec<u8> {
    swapped(&swapped(sheet, b'|', b'!'), b'\n', b'~')
}

/// A field to ask for, mostly one that a sheet can have.
pub fn standing_field(dice: &mut Dice) -> usize {
    match dice.below(12) {
        0 => dice.between(0, 16),
        1 if dice.one_in(3) => *dice.pick(&[40, 44, 256 + 4, (1 << 32) + 14, usize::MAX]),
        _ => *dice.pick(&NUMBERS),
    }
}

/// The farm's sheet and the association's: both right, or one of them or both not
/// as it should be.
pub fn sheets(dice: &mut Dice) -> [Vec<u8>; 2] {
    let right = match dice.below(7) {
        0 => [true, false],
        1 => [false, true],
        2 => [false, false],
        _ => [true, true],
    };
    right.map(|right| {
        if right {
            right_sheet(dice)
        } else {
            sheet(dice)
        }
    })
}

/// Fields 4 to 14, right or wrong; of those that a sheet can have many are empty.
pub fn texts_given(dice: &mut Dice) -> Fields {
    let mut fields = right_slip(dice);
    for number in NUMBERS {
        if dice.one_in(2) {
            fields[number - 1].clear();
        }
    }
    if dice.one_in(4) {
        spoil_slip(dice, &mut fields);
    }
    fields.split_off(3)
}

/// A sheet that is mostly wrong in one place.
pub fn sheet(dice: &mut Dice) -> Vec<u8> {
    let mut lines = right_lines(dice);
    match dice.below(24) {
        0 => joined(&lines),
        1..=12 => {
            spoil_line(dice, &mut lines);
            joined(&lines)
        }
        13..=20 => {
            let sheet = joined(&lines);
            damaged(dice, sheet)
        }
        21 => (0..dice.between(1, 12))
            .map(|_| *dice.pick(b"\n\n=4"))
            .collect(),
        22 => noise(dice, 60),
        _ => {
            // The first of the wrong lines is to be told.
            for _ in 0..dice.between(2, 3) {
                spoil_line(dice, &mut lines);
            }
            joined(&lines)
        }
    }
}

/// A sheet that passes: some of the lines, at times all or none.
pub fn right_sheet(dice: &mut Dice) -> Vec<u8> {
    joined(&right_lines(dice))
}

/// A sheet of up to the most bytes that does not pass: many lines, or one that
/// does not end, or any bytes.
pub fn huge_sheet(dice: &mut Dice, most: usize) -> Vec<u8> {
    let size = dice.between(1_000, most);
    let mut sheet = if dice.one_in(2) {
        right_sheet(dice)
    } else {
        Vec::new()
    };
    let number = *dice.pick(&NUMBERS);
    let pattern: Vec<u8> = match dice.below(8) {
        0 => [joined(&right_lines(dice)), b"14=\n".to_vec()].concat(),
        1 => format!("{number}=\n").into_bytes(),
        2 => b"\n".to_vec(),
        3 => b"4".to_vec(),
        4 => dice.digits(97),
        5 => (0..997).map(|_| dice.roll() as u8).collect(),
        kind => {
            // A text that only its length makes wrong.
            sheet.extend(format!("{number}=").as_bytes());
            if kind == 6 {
                characters(dice, 97)
            } else {
                vec![b'A']
            }
        }
    };
    sheet.extend(pattern.iter().cycle().take(size));
    if dice.one_in(2) {
        sheet.push(b'\n');
    }
    sheet
}

/// A line's number and its text.
type Line = (Vec<u8>, Vec<u8>);

fn right_lines(dice: &mut Dice) -> Vec<Line> {
    let rarity = *dice.pick(&[1, 2, 2, 2, 4, 20]);
    let taken: Vec<usize> = NUMBERS
        .into_iter()
        .filter(|_| dice.one_in(rarity))
        .collect();
    taken
        .into_iter()
        .map(|number| (number.to_string().into_bytes(), right_words(dice, number)))
        .collect()
}

fn joined(lines: &[Line]) -> Vec<u8> {
    lines
        .iter()
        .flat_map(|(number, text)| [&number[..], b"=", text, b"\n"].concat())
        .collect()
}

/// One line dropped, doubled, in another's place, with another number or text.
fn spoil_line(dice: &mut Dice, lines: &mut Vec<Line>) {
    if lines.is_empty() {
        let number = *dice.pick(&NUMBERS);
        lines.push((number.to_string().into_bytes(), Vec::new()));
    }
    let (place, other) = (dice.below(lines.len()), dice.below(lines.len()));
    let number = *dice.pick(&NUMBERS);
    let word = |word: &&str| word.as_bytes().to_vec();
    match dice.below(12) {
        0 => drop(lines.remove(place)),
        1 => lines.insert(place, lines[place].clone()),
        2 => lines.swap(place, other),
        3 => lines.push((number.to_string().into_bytes(), right_words(dice, number))),
        4 => lines[place].0 = number.to_string().into_bytes(),
        5 => lines[place].0.insert(0, *dice.pick(b"01+- =\n")),
        6 => {
            lines[place].0 = word(dice.pick(&[
                "",
                "0",
                "3",
                "10",
                "11",
                "12",
                "15",
                "40",
                "44",
                "04",
                "013",
                "131",
                "260",
                "4294967300",
                "18446744073709551620",
                "4\n",
                "4 ",
                "IV",
                "٤",
            ]))
        }
        // As many characters as may be, and one more.
        7 => {
            if let Some(limit) = limit(number) {
                let count = limit + dice.below(2);
                lines[place] = (number.to_string().into_bytes(), characters(dice, count));
            }
        }
        8 => lines[place].1.insert(0, *dice.pick(b"=\r\n;~\t\xc5")),
        9 => lines[place].1.push(*dice.pick(b"=\r\n;~\t\xc5")),
        _ => {
            let fields = right_slip(dice);
            lines[place] = (
                number.to_string().into_bytes(),
                wrong(dice, number, &fields),
            );
        }
    }
}

/// Damage that knows no lines.
fn damaged(dice: &mut Dice, mut sheet: Vec<u8>) -> Vec<u8> {
    let place = dice.below(sheet.len().max(1));
    match dice.below(9) {
        _ if sheet.is_empty() => sheet.push(dice.roll() as u8),
        // The last line does not end, or any.
        0 | 1 => drop(sheet.pop()),
        2 => {
            let ends: Vec<usize> = (0..sheet.len()).filter(|&k| sheet[k] == b'\n').collect();
            sheet.remove(*dice.pick(&ends));
        }
        3 => sheet.truncate(place),
        4 => sheet.insert(place, *dice.pick(b"\n\n\r=4 \0")),
        5 => sheet[place] = *dice.pick(b"\n=459\r "),
        6 => sheet[place] = *dice.pick(STRANGE),
        7 => sheet[place] = dice.roll() as u8,
        _ => sheet.push(*dice.pick(b"\n\r45= \0")),
    }
    sheet
}

#[cfg(test)]
mod tests {
    use super::*;
    use crate::cases::Desk;
    use crate::generate::slips::refusals_of;
    use crate::standing::{standing_text, Owner};
    use std::collections::BTreeSet;

    #[test]
    fn right_sheets_pass() {
        let mut dice = Dice::new(1);
        let mut met = [0; 9];
        for _ in 0..5_000 {
            let sheet = right_sheet(&mut dice);
            let lines = NUMBERS.map(|field| {
                let answer = standing_text(field, &sheet, b"");
                assert!(answer.is_ok(), "{} {answer:?}", sheet.escape_ascii());
                usize::from(answer.unwrap().is_some())
            });
            met[lines.iter().sum::<usize>()] += 1;
        }
        assert!(met.iter().all(|&times| times > 30), "{met:?}");
    }

    #[test]
    fn huge_sheets_do_not_pass() {
        let mut dice = Dice::new(2);
        for _ in 0..200 {
            let sheet = huge_sheet(&mut dice, 100_000);
            assert!((1_000..101_000).contains(&sheet.len()));
            let owner = standing_text(4, &sheet, b"").unwrap_err().owner;
            assert_eq!(owner, Some(Owner::Farm));
        }
    }

    /// Every answer of both verbs, and every field from each of the sheets.
    #[test]
    fn every_answer_is_met() {
        let mut dice = Dice::new(3);
        let mut met = BTreeSet::new();
        for k in 0..40_000 {
            let line = match k % 2 {
                0 => standing_case(&mut dice),
                _ => write_standing_case(&mut dice),
            };
            assert!(!line.contains(&b'\n') && line.len() <= LONGEST_CASE);
            let parts: Vec<&[u8]> = line.split(|&b| b == b'|').collect();
            let field = String::from_utf8_lossy(parts[1]).to_string();
            let answer = String::from_utf8(Desk::default().answer(&line)).unwrap();
            let front = answer.split('|').next().unwrap();
            let words: Vec<&str> = front.split(' ').collect();
            met.insert(match words[..] {
                ["refused", "20", _, line, .., "sheet", owner, "start", "0", "length", "0"] => {
                    format!(
                        "20 at {} of {owner}",
                        if line < "4" { line } else { "more" }
                    )
                }
                ["refused", number, .., "length", "0"] => number.to_string(),
                ["accepted", "sheet", owner, ..] => format!("{field} of {owner}"),
                ["refused", "15", ..] => "written 15".to_string(),
                ["refused", number, _, _, _, field, .., "sheet", owner] => {
                    format!("written {field}: {number} of {owner}")
                }
                _ => front.split(' ').next().unwrap().to_string(),
            });
        }
        let mut wanted: BTreeSet<String> = ["28", "accepted", "written 15", "written 3: 4 of 0"]
            .map(str::to_string)
            .into();
        for owner in 0..=2 {
            wanted.extend(NUMBERS.map(|field| format!("{field} of {owner}")));
        }
        for owner in 1..=2 {
            wanted.extend(["1", "2", "3", "more"].map(|line| format!("20 at {line} of {owner}")));
            wanted.insert(format!("written 0: 20 of {owner}"));
        }
        for field in 4..=14 {
            let numbers = refusals_of(field);
            wanted.extend(numbers.iter().map(|n| format!("written {field}: {n} of 0")));
        }
        assert_eq!(met, wanted);
    }
}
