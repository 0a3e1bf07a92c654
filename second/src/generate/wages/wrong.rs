//! Wage files with a wrong field, line or order of lines, and ones that were
//! damaged whatever they hold.

use super::{
    dice_date, padded, right_reference, right_wage_file, Fields, WageFile, DAYS, LETTERS, PLAIN,
    STRANGE,
};
use crate::codes::CODES;
use crate::generate::{
    account, at_the_limits, misshapen, near_code, reference, right_account, shape, spoilt,
    wage_reference, Dice,
};
use crate::reference::{Model, LONGEST, MODELS};
use crate::wage::{places, Type, LINE, TYPE};

/// An input of the file program.
pub fn wage_input(dice: &mut Dice) -> Vec<u8> {
    let mut file = right_wage_file(dice);
    match dice.below(40) {
        0..=3 => file.input(),
        4..=24 => {
            for _ in 0..*dice.pick(&[1, 1, 1, 1, 2, 3]) {
                spoil_field(dice, &mut file);
            }
            file.input()
        }
        25..=30 => {
            for _ in 0..*dice.pick(&[1, 1, 1, 2]) {
                spoil_lines(dice, &mut file);
            }
            file.input()
        }
        31..=33 => {
            for _ in 0..dice.between(1, 3) {
                let line = dice.below(file.lines.len());
                let place = dice.below(LINE);
                file.lines[line][place] = stranger(dice);
            }
            file.input()
        }
        34..=36 => {
            let mut input = file.input();
            spoil_bytes(dice, &mut input);
            input
        }
        37 => {
            file.day = match dice.below(3) {
                0 => file
                    .day
                    .wrapping_add_signed(*dice.pick(&[-1, 1, 100, -100, 10_000])),
                1 => *dice.pick(&DAYS),
                _ => dice_date(dice, 2022, 2030),
            };
            if dice.one_in(2) {
                // Eight digits have no room for the year 10,000.
                let digits = format!("{:08}", file.day % 100_000_000);
                file.lines[0][..8].copy_from_slice(digits.as_bytes());
            }
            file.input()
        }
        38 => {
            let mut input = file.input();
            spoil_day(dice, &mut input);
            input
        }
        _ => {
            let lines = dice.below(4);
            let mut input = format!("{}\n", file.day).into_bytes();
            let length = lines * LINE + dice.below(3);
            input.extend((0..length).map(|_| dice.below(256) as u8));
            input
        }
    }
}

fn stranger(dice: &mut Dice) -> u8 {
    match dice.below(4) {
        0 => dice.below(256) as u8,
        1 => dice.digit(),
        2 => *dice.pick(PLAIN),
        _ => *dice.pick(STRANGE),
    }
}

/// Puts a wrong or at least another field into one of the lines.
fn spoil_field(dice: &mut Dice, file: &mut WageFile) {
    let of = *dice.pick(&[
        Type::Label,
        Type::Group,
        Type::Group,
        Type::Order,
        Type::Order,
        Type::Order,
        Type::Order,
        Type::Order,
    ]);
    let these: Vec<usize> = (0..file.lines.len())
        .filter(|&k| file.lines[k][TYPE] == *of.digits())
        .collect();
    if these.is_empty() {
        return;
    }
    let k = *dice.pick(&these);
    let mut fields: Fields = places(of)
        .iter()
        .map(|p| file.lines[k][p.range()].to_vec())
        .collect();
    spoil(dice, of, &mut fields, file.day);
    for (place, field) in places(of).iter().zip(fields) {
        file.lines[k][place.range()].copy_from_slice(&field);
    }
}

/// Spoils one of the fields, which stand in the order of the line's places, or
/// of a 301's without 5 and 6. Lengths stay.
pub fn spoil(dice: &mut Dice, of: Type, fields: &mut Fields, day: u32) {
    // A pair of fields at times, where they speak of each other.
    if of == Type::Order && dice.one_in(6) {
        spoil_pair(dice, fields);
        return;
    }
    let k = match of {
        // More often what can be wrong in many ways, and hardly ever the name.
        Type::Order => *dice.pick(&[
            0, 0, 1, 2, 3, 3, 4, 4, 4, 4, 5, 6, 6, 7, 8, 8, 9, 9, 9, 9, 10, 11, 12, 13, 14, 14, 15,
            15,
        ]),
        _ => dice.below(fields.len()),
    };
    let field = match (of, fields.len()) {
        (Type::Group, 5) => [1, 2, 3, 4, 7][k],
        _ => places(of)[k].field,
    };
    let old = fields[k].clone();
    let length = old.len();
    let new = match dice.below(4) {
        0 => {
            // One byte, at the edges of the field more often.
            let mut text = old;
            let any = dice.below(length);
            let place = *dice.pick(&[0, length - 1, length / 2, any]);
            text[place] = stranger(dice);
            text
        }
        _ => special(dice, of, field, &old, fields, day),
    };
    fields[k] = padded(new, length);
}

/// What this field in particular might hold.
fn special(
    dice: &mut Dice,
    of: Type,
    field: usize,
    old: &[u8],
    fields: &Fields,
    day: u32,
) -> Vec<u8> {
    let any = |dice: &mut Dice, texts: &[&str]| dice.pick(texts).as_bytes().to_vec();
    match (of, field) {
        (Type::Label, 1) | (Type::Group, 7) => near_date(dice, day),
        (Type::Label, 2) => any(dice, &["3", "4", "5", "6", "0", "9", " "]),
        (Type::Label, 3) => any(dice, &["000", "001", "100", "191", "   ", "00 "]),
        (Type::Label, 4) => any(dice, &["0", "1", "2", "3", " "]),
        (Type::Label, 6 | 7) => match dice.below(3) {
            0 => vec![b'0'; 11],
            1 => b"00000000001".to_vec(),
            _ => vec![b' '; 11],
        },
        (Type::Label, _) | (Type::Order, 23) => match dice.below(5) {
            0 => vec![b'0'; 11],
            1 => vec![b' '; 11],
            2 => b"00000000001".to_vec(),
            _ => other_digit(dice, old),
        },
        (Type::Group, 1 | 3) | (Type::Order, 1) => match dice.below(9) {
            0 => vec![b' '; 21],
            1 => other_digit(dice, old),
            2 => account(dice),
            3 => [b" ", &right_account(dice)[..]].concat(),
            4 => right_account(dice).to_ascii_lowercase(),
            5 => [b"SI", &right_account(dice)[2..]].concat(),
            6 => {
                let mut text = old.to_vec();
                let place = dice.below(old.len());
                text[place] = *dice.pick(b" AZH0");
                text
            }
            7 => {
                // Something in the last of the blanks, where there are any.
                let mut text = old.to_vec();
                text[old.len() - 1] = *dice.pick(b"0A-/:@[\r");
                text
            }
            _ => padded(right_account(dice)[..20].to_vec(), 21),
        },
        (Type::Group, 2 | 4) | (Type::Order, 19) => any(
            dice,
            &["EUR", "   ", "HRK", "eur", "EU ", " EU", "EUr", "000"],
        ),
        (Type::Group, 5) => {
            let number: i64 = std::str::from_utf8(old)
                .ok()
                .and_then(|t| t.parse().ok())
                .unwrap_or(1);
            match dice.below(5) {
                0 => vec![b'0'; 5],
                1 => vec![b'9'; 5],
                2 => padded(number.to_string().into_bytes(), 5),
                k => format!("{:05}", (number + 2 * k as i64 - 7).clamp(0, 99_999)).into_bytes(),
            }
        }
        (Type::Group, 6) => {
            let number: i128 = std::str::from_utf8(old)
                .ok()
                .and_then(|t| t.parse().ok())
                .unwrap_or(1);
            let other = match dice.below(6) {
                0 => 0,
                1 => 99_999_999_999_999_999_999,
                2 => number + (1 << 64),
                3 => number + (1 << 32),
                4 => number + 1,
                _ => number - 1,
            };
            format!("{:020}", other.clamp(0, 99_999_999_999_999_999_999)).into_bytes()
        }
        (Type::Order, 5) => any(
            dice,
            &["000", "191", "190", "192", "001", "   ", "91 ", " 91"],
        ),
        (Type::Order, 6 | 11) => match dice.below(5) {
            0 => vec![b' '; 4],
            1 => format!("HR{:02}", dice.below(100)).into_bytes(),
            2 => format!("HR{:02}", dice.pick(&MODELS).number).into_bytes(),
            3 => any(
                dice,
                &[
                    "hr01", "HR0?", "HR 1", "HR0 ", "HR1 ", "H   ", "   1", "RH01", "0101", "HR0/",
                    "HR0:", "HR/1", "HR:1", "HRAA",
                ],
            ),
            _ => any(
                dice,
                &[
                    "HR05", "HR12", "HR15", "HR18", "HR34", "HR36", "HR68", "HR70", "HR98",
                ],
            ),
        },
        (Type::Order, 7 | 12) => {
            let model = &fields[if field == 7 { 3 } else { 8 }];
            near_reference(dice, Model::named(model).ok(), old)
        }
        (Type::Order, 8) => any(
            dice,
            &[
                "    ", "COST", "cost", "COS ", " COS", "CO T", "C0ST", "AAAA", "ZZZZ", "@AAA",
                "ZZZ[", "COS\r",
            ],
        ),
        (Type::Order, 9) => match dice.below(6) {
            0 => vec![b' '; 140],
            1 => {
                let mut text = vec![b' '; 140];
                let place = dice.below(140);
                text[place] = stranger(dice);
                text
            }
            2 => (0..140).map(|_| *dice.pick(LETTERS)).collect(),
            _ => {
                let mut text = old.to_vec();
                for _ in 0..2 {
                    let place = dice.below(140);
                    text[place] = stranger(dice);
                }
                text
            }
        },
        (Type::Order, 10) => match dice.below(4) {
            0 => other_digit(dice, old),
            1 => b"000000000001.00".to_vec(),
            2 => b"            100".to_vec(),
            _ => b"+00000000000100".to_vec(),
        },
        (Type::Order, 18) => any(dice, &["0", "1", "2", "3", "9", " "]),
        (Type::Order, 20) => any(dice, &[" ", "0", "1", "2", "3", "4", "9", "A"]),
        (Type::Order, 21) => any(dice, &[" ", "0", "1", "3", "9", "O"]),
        (Type::Order, 22) => match dice.below(5) {
            0..=2 => near_code(dice),
            3 => any(dice, &["000", "   ", "10 ", " 10", "500", "1OO", "999"]),
            _ => dice.pick(&CODES).to_string().into_bytes(),
        },
        _ => old.iter().map(|_| stranger(dice)).collect(),
    }
}

/// A model without its reference, the other way round, a credit with none, or a
/// wage reference.
fn spoil_pair(dice: &mut Dice, fields: &mut Fields) {
    let (model, reference) = *dice.pick(&[(3, 4), (8, 9)]);
    match dice.below(8) {
        0 => fields[model].fill(b' '),
        1 => fields[reference].fill(b' '),
        2 => {
            fields[model].fill(b' ');
            fields[reference] = padded(
                dice.pick(&["x", "-", " 1", "1 2", "0"]).as_bytes().to_vec(),
                LONGEST,
            );
        }
        3 => {
            fields[8].fill(b' ');
            fields[9].fill(b' ');
            fields[14] = b"500".to_vec();
        }
        4..=6 => {
            fields[model] = b"HR69".to_vec();
            fields[reference] = padded(wage_reference(dice), LONGEST);
        }
        _ => {
            let (name, text) = right_reference(dice);
            fields[8] = name;
            fields[9] = text;
            fields[14] = b"500".to_vec();
        }
    }
}

fn other_digit(dice: &mut Dice, old: &[u8]) -> Vec<u8> {
    let mut text = old.to_vec();
    let place = dice.below(text.len());
    text[place] = dice.digit();
    text
}

/// The right shape, with digits as they come.
fn filled_wrong(dice: &mut Dice, model: &Model) -> Vec<u8> {
    let parts: Vec<Vec<u8>> = shape(dice, model)
        .into_iter()
        .map(|length| dice.digits(length))
        .collect();
    parts.join(&b'-')
}

fn near_date(dice: &mut Dice, day: u32) -> Vec<u8> {
    let date = match dice.below(4) {
        0 => day.wrapping_add_signed(*dice.pick(&[-1, 1, -100, 100, -10_000, 10_000, -8870])),
        1 => *dice.pick(&DAYS),
        2 => dice_date(dice, 2022, 2030),
        _ => day / 100 * 100 + *dice.pick(&[0, 1, 28, 29, 30, 31, 32]),
    };
    format!("{:08}", date % 100_000_000).into_bytes()
}

fn near_reference(dice: &mut Dice, model: Option<&'static Model>, old: &[u8]) -> Vec<u8> {
    let trimmed = || {
        let end = old.iter().rposition(|&b| b != b' ').map_or(0, |k| k + 1);
        old[..end].to_vec()
    };
    match (dice.below(10), model) {
        (0, _) => vec![b' '; LONGEST],
        (1 | 2, _) if old[0] != b' ' => other_digit(dice, &trimmed()),
        (3, Some(model)) => filled_wrong(dice, model),
        (4, _) => at_the_limits(dice),
        (5, Some(model)) => misshapen(dice, model),
        (6, Some(model)) => reference(dice, model),
        (7, _) => {
            // A blank in front or inside.
            let mut text = trimmed();
            let place = *dice.pick(&[0, text.len() / 2]);
            text.insert(place, b' ');
            text
        }
        (8, _) => {
            let mut text = trimmed();
            if let Some(place) = text.iter().position(|&b| b == b'-') {
                text[place] = *dice.pick(b" 0.,/");
            }
            text
        }
        _ => {
            let text = trimmed();
            spoilt(dice, text)
        }
    }
}

/// What is wrong with the lines as such.
fn spoil_lines(dice: &mut Dice, file: &mut WageFile) {
    let count = file.lines.len();
    if count == 0 {
        return;
    }
    let k = dice.below(count);
    match dice.below(14) {
        0 | 1 => {
            let other = match dice.below(2) {
                0 => (k + 1) % count,
                _ => dice.below(count),
            };
            file.lines.swap(k, other);
        }
        2 | 3 => file.lines.insert(k, file.lines[k]),
        4 | 5 => {
            file.lines.remove(k);
        }
        6 => file.lines.truncate(k),
        7 => {
            let other = *dice.pick(&file.lines);
            file.lines.push(other);
        }
        8 => file.lines[k][TYPE].copy_from_slice(dice.pick(&Type::ALL).digits()),
        9 => {
            let types = ["302", "308", "310", "000", "   ", "3O9", "399\r", "39 "];
            let digits = &dice.pick(&types).as_bytes()[..3];
            file.lines[k][TYPE].copy_from_slice(digits);
        }
        10 => {
            let ends = [b"\n\r", b"\n\n", b"\r\r", b"  ", b"\r ", b" \n"];
            file.lines[k][TYPE.end..].copy_from_slice(*dice.pick(&ends));
        }
        11 => {
            // An order more or fewer, which the head of its group has right.
            let orders: Vec<usize> = (0..count)
                .filter(|&k| &file.lines[k][TYPE] == b"309")
                .collect();
            if orders.is_empty() {
                return;
            }
            let k = *dice.pick(&orders);
            let Some(head) = (0..k).rev().find(|&k| &file.lines[k][TYPE] == b"301") else {
                return;
            };
            let number = std::str::from_utf8(&file.lines[head][48..53])
                .ok()
                .and_then(|t| t.parse::<u32>().ok())
                .unwrap_or(1);
            let number = if dice.one_in(2) {
                file.lines.insert(k, file.lines[k]);
                number + 1
            } else {
                file.lines.remove(k);
                number.saturating_sub(1)
            };
            file.lines[head][48..53].copy_from_slice(format!("{number:05}").as_bytes());
        }
        12 => {
            // A group without orders, or a file without groups.
            let of = *dice.pick(&[b"301", b"309"]);
            file.lines.retain(|line| &line[TYPE] != of);
        }
        _ => {
            let blank = [b' '; LINE];
            file.lines.insert(k, blank);
        }
    }
}

/// What is wrong with the input as such.
fn spoil_bytes(dice: &mut Dice, input: &mut Vec<u8>) {
    let place = dice.between(9, input.len() - 1);
    match dice.below(7) {
        0 => input.truncate(place),
        1 => {
            let line = dice.below(input.len() / LINE + 1);
            let end = 9 + line * LINE + dice.below(3);
            input.truncate(end.saturating_sub(1).max(9));
        }
        2 => {
            input.remove(place);
        }
        3 => input.insert(place, stranger(dice)),
        4 => {
            let ends: [&[u8]; 5] = [b"\n", b"\x1a", b"\r\n", b" ", b"\0"];
            input.extend_from_slice(dice.pick::<&[u8]>(&ends));
        }
        5 => {
            // Line feeds alone, as some editors leave them.
            let mut k = 0;
            input.retain(|&b| {
                k += 1;
                k <= 9 || b != b'\r'
            });
        }
        _ => {
            let from = dice.between(9, input.len() - 1);
            let byte = input[from];
            input[place] = byte;
        }
    }
}

fn spoil_day(dice: &mut Dice, input: &mut Vec<u8>) {
    let place = dice.below(9);
    match dice.below(7) {
        0 => {
            input.remove(place);
        }
        1 => input.insert(place, dice.digit()),
        2 => input[place] = stranger(dice),
        3 => input.truncate(place),
        4 => input.insert(8, b'\r'),
        5 => input[8] = *dice.pick(b"\r \0"),
        _ => input.truncate(9),
    }
}
