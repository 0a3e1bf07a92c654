//! Slips by dice: right ones, ones with wrong fields, and damaged ones.

use super::{
    account, amount, at_the_limits, join, misshapen, noise, reference, right_account, slices,
    spoilt, wage_reference, Dice,
};
use crate::cases::swapped;
use crate::reference::MODELS;
use crate::refusal::{Reason, Refusal};
use crate::slip::{Slip, LARGEST, TOO_MUCH};

const LETTERS: [&str; 10] = ["Č", "č", "Ć", "ć", "Đ", "đ", "Š", "š", "Ž", "ž"];
const PLAIN: &[u8] = b"ABCDEFGHIJKLMNOPQRSTUVWXYZabcdefghijklmnopqrstuvwxyz0123456789 ,.:-+?'/()";
/// Neighbours of what is permitted, and bytes that are no text.
pub(super) const STRANGE: &[u8] =
    b"!\"#$%&*;<=>@[\\]^_`{}~\r\t\0\x7f\x80\x86\x8c\x8d\xa0\xbd\xbe\xc3\xc6\xe2\xff";
/// Characters near the ten letters, halves of letters, and halves that do not
/// belong together.
const STRANGERS: [&[u8]; 16] = [
    b"\xc4",
    b"\xc5",
    b"\xc4\xc4\x8c",
    b"\xc4A",
    b"\xc5 ",
    b"\x8c",
    b"\xbe",
    b"\xc4\xbd",
    b"\xc5\x8c",
    b"\xc4\x8e",
    b"\xc4\x92",
    b"\xc5\xbc",
    b"\xc5\xa2",
    b"\xc3\xa9",
    b"\xe2\x82\xac",
    b"\xef\xbb\xbf",
];
const PURPOSES: [&str; 6] = ["COST", "OTHR", "SALA", "GDDS", "AAAA", "ZZZZ"];

/// Fields 1 to 14, each without its line feed.
pub type Fields = Vec<Vec<u8>>;

/// Makes a wrong field of this number, by what stands in all of them.
pub(super) type Wrong = fn(&mut Dice, usize, &Fields) -> Vec<u8>;

/// A case line with the verb `slip`.
pub fn slip_case(dice: &mut Dice) -> Vec<u8> {
    let slip = slip(dice);
    join(&[b"slip", &swapped(&slip, b'\n', b'|')])
}

/// A case line with the verb `write`.
pub fn write_case(dice: &mut Dice) -> Vec<u8> {
    let mut fields = right_slip(dice);
    match dice.below(12) {
        0..=6 => {}
        7..=10 => spoil_slip(dice, &mut fields),
        _ => fill_up(&mut fields),
    }
    let texts = fields.split_off(3);
    let slip = Slip {
        cents: 0,
        texts: slices(&texts),
    };
    let without_room = slip.write(0);
    // Kind and size are a wage line's.
    written_case(dice, b"write", [b"", b""], &texts, without_room)
}

/// A case line of a verb that writes a slip: room, amount, two words and fields 4
/// to 14. The room is about that which the writer asks for where it has none.
pub(super) fn written_case(
    dice: &mut Dice,
    verb: &[u8],
    words: [&[u8]; 2],
    texts: &[Vec<u8>],
    without_room: Result<Vec<u8>, Refusal>,
) -> Vec<u8> {
    let needed = match without_room {
        Err(refusal) if refusal.reason == Reason::Room => refusal.detail,
        _ => 29 + texts.iter().map(|t| t.len() + 1).sum::<usize>(),
    };
    let (amount, room) = (cents(dice), room_about(dice, needed));
    let mut parts = vec![verb, room.as_bytes(), amount.as_bytes()];
    parts.extend(words);
    // A `|` by dice would make two fields of one.
    let texts: Fields = texts.iter().map(|t| swapped(t, b'|', b'!')).collect();
    parts.extend(texts.iter().map(Vec::as_slice));
    match dice.below(40) {
        0 => drop(parts.pop()),
        1 => parts.push(b""),
        _ => {}
    }
    join(&parts)
}

/// A slip, right or wrong, with real line feeds.
pub fn slip(dice: &mut Dice) -> Vec<u8> {
    let fields = right_slip(dice);
    by_fate(dice, fields, wrong)
}

/// The slip of these fields as it is, with wrong fields, damaged or cut, or
/// another of about the largest size, or noise.
pub(super) fn by_fate(dice: &mut Dice, mut fields: Fields, wrong: Wrong) -> Vec<u8> {
    match dice.below(100) {
        0..=23 => ended(&fields),
        24..=59 => {
            spoil(dice, &mut fields, wrong);
            ended(&fields)
        }
        60..=87 => {
            let mut slip = ended(&fields);
            for _ in 0..dice.between(1, 3) {
                damage(dice, &mut slip);
            }
            slip
        }
        88..=90 => {
            let mut slip = ended(&fields);
            let place = dice.below(slip.len());
            slip.truncate(place);
            slip
        }
        91..=97 => about_the_largest(dice, fields, wrong),
        _ => {
            let mut slip = noise(dice, 60);
            for _ in 0..dice.between(11, 16) {
                let place = dice.below(slip.len() + 1);
                slip.insert(place, b'\n');
            }
            slip
        }
    }
}

pub(super) fn ended(fields: &Fields) -> Vec<u8> {
    fields
        .iter()
        .flat_map(|f| [f, &b"\n"[..]].concat())
        .collect()
}

/// The most characters of a text field.
pub(super) fn limit(number: usize) -> Option<usize> {
    match number {
        4 => Some(30),
        5 | 6 | 9 => Some(27),
        7 | 8 => Some(25),
        14 => Some(35),
        _ => None,
    }
}

// Right slips.

/// Fields 1 to 14 of a slip that passes.
pub fn right_slip(dice: &mut Dice) -> Fields {
    let model = dice.pick(&MODELS);
    (1..=14)
        .map(|number| match number {
            1 => b"HRVHUB30".to_vec(),
            2 => b"EUR".to_vec(),
            3 => amount(dice),
            10 => right_account(dice),
            11 => format!("HR{:02}", model.number).into_bytes(),
            12 => reference(dice, model),
            _ => right_words(dice, number),
        })
        .collect()
}

/// A text of field 4 to 9, 13 or 14 that passes.
pub(super) fn right_words(dice: &mut Dice, number: usize) -> Vec<u8> {
    match limit(number) {
        Some(limit) => right_text(dice, limit),
        None => right_purpose(dice),
    }
}

fn right_purpose(dice: &mut Dice) -> Vec<u8> {
    match dice.below(3) {
        0 => Vec::new(),
        1 => dice.pick(&PURPOSES).as_bytes().to_vec(),
        _ => (0..4).map(|_| b'A' + dice.below(26) as u8).collect(),
    }
}

/// Mostly short, that the lines stay short; now and then up to the limit.
fn right_text(dice: &mut Dice, limit: usize) -> Vec<u8> {
    let length = match dice.below(12) {
        0 | 1 => 0,
        2 => limit,
        3 => dice.between(0, limit),
        _ => dice.between(1, 10),
    };
    characters(dice, length)
}

/// So many permitted characters, with few, some or only two-byte letters.
pub(super) fn characters(dice: &mut Dice, count: usize) -> Vec<u8> {
    let rarity = *dice.pick(&[1, 4, 4, 12, 12]);
    (0..count)
        .flat_map(|_| {
            if dice.one_in(rarity) {
                dice.pick(&LETTERS).as_bytes().to_vec()
            } else {
                vec![*dice.pick(PLAIN)]
            }
        })
        .collect()
}

// Slips about the size where 1 begins.

/// Every field full: 483 bytes.
fn fill_up(fields: &mut Fields) {
    for number in 1..=14 {
        if let Some(limit) = limit(number) {
            fields[number - 1] = "Ž".repeat(limit).into_bytes();
        }
    }
    fields[11 - 1] = b"HR00".to_vec();
    fields[12 - 1] = b"123456789012-123456789".to_vec();
    fields[13 - 1] = b"COST".to_vec();
}

fn about_the_largest(dice: &mut Dice, mut fields: Fields, wrong: Wrong) -> Vec<u8> {
    fill_up(&mut fields);
    if dice.one_in(3) {
        let number = dice.between(1, 14);
        fields[number - 1] = wrong(dice, number, &fields);
    }
    let mut slip = ended(&fields);
    match dice.below(5) {
        0 => {
            let place = dice.below(slip.len());
            slip.remove(place);
        }
        1 | 2 => {
            let place = dice.below(slip.len() + 1);
            slip.insert(place, *dice.pick(b"1A\n\n\xc5"));
        }
        3 => {
            // The right size for whatever is wrong inside.
            let last = slip.pop();
            slip.resize(dice.between(LARGEST - 1, LARGEST + 1) - 1, b'x');
            slip.extend(last);
        }
        _ => {}
    }
    slip
}

// Wrong fields.

/// Spoils one to three of the fourteen fields.
pub fn spoil_slip(dice: &mut Dice, fields: &mut Fields) {
    spoil(dice, fields, wrong);
}

fn spoil(dice: &mut Dice, fields: &mut Fields, wrong: Wrong) {
    // A pair of fields at times, where they speak of each other.
    if dice.one_in(12) {
        fields[11 - 1] = b"HR69".to_vec();
        fields[12 - 1] = wage_reference(dice);
        return;
    }
    // A wrong field hides those behind it, so mostly one alone, and more often
    // one that can be wrong in many ways.
    for _ in 0..*dice.pick(&[1, 1, 1, 2, 3]) {
        let number = *dice.pick(&[
            1, 2, 3, 3, 4, 4, 5, 5, 6, 6, 7, 7, 8, 8, 9, 9, 10, 10, 10, 10, 11, 11, 12, 12, 12, 12,
            13, 13, 14, 14,
        ]);
        fields[number - 1] = wrong(dice, number, fields);
    }
}

/// A field that is mostly wrong, and else at the edge of what is right.
pub(super) fn wrong(dice: &mut Dice, number: usize, fields: &Fields) -> Vec<u8> {
    let old = fields[number - 1].clone();
    let word = |word: &&str| word.as_bytes().to_vec();
    match number {
        1 => word(dice.pick(&[
            "",
            "HRVHUB3",
            "HRVHUB300",
            "HRVHUB31",
            "hrvhub30",
            "HRVHUB30 ",
            "HRVHUB30\r",
            "HRVHUB3Ž",
        ])),
        2 => word(dice.pick(&["", "HRK", "EU", "EURO", "eur", "USD", "EUR ", "EUŽ"])),
        3 => match dice.below(6) {
            0 => dice.digits(14),
            1 => dice.digits(16),
            2 => Vec::new(),
            3 => word(dice.pick(&[
                "00000000001235.5",
                "+00000000012355",
                " 00000000012355",
                "12355",
            ])),
            _ => spoilt(dice, old),
        },
        10 => match dice.below(8) {
            0 => Vec::new(),
            1 => swapped(&old, b'0', b'O'),
            2 => old.to_ascii_lowercase(),
            3 => [b"SI", &right_account(dice)[2..]].concat(),
            4 => account(dice),
            _ => spoilt(dice, old),
        },
        11 => match dice.below(4) {
            0 => format!("HR{:02}", dice.below(100)).into_bytes(),
            1 => format!("HR{:02}", dice.pick(&MODELS).number).into_bytes(),
            2 => word(dice.pick(&[
                "", "HR", "HR0", "HR001", "hr01", "HR0?", "RH01", "0101", "HR0Ž",
            ])),
            _ => word(dice.pick(&[
                "HR05", "HR12", "HR15", "HR18", "HR34", "HR68", "HR70", "HR98",
            ])),
        },
        12 => match dice.below(6) {
            0 => Vec::new(),
            1 => at_the_limits(dice),
            2 => {
                let model = fields[11 - 1].clone();
                let named = MODELS
                    .iter()
                    .find(|m| format!("HR{:02}", m.number).as_bytes() == model);
                misshapen(dice, named.unwrap_or(&MODELS[1]))
            }
            _ => spoilt(dice, old),
        },
        13 => match dice.below(3) {
            0 => {
                let length = dice.between(1, 6);
                (0..length).map(|_| b'A' + dice.below(26) as u8).collect()
            }
            1 => word(dice.pick(&[
                "cost", "COSt", "CO T", "C0ST", "COSTS", "COSTs", " ", "COŠT", "COS\r",
            ])),
            _ => {
                let mut purpose = b"COST".to_vec();
                let place = dice.below(5);
                purpose.insert(place, *dice.pick(STRANGE));
                purpose
            }
        },
        _ => wrong_text(dice, limit(number).expect("text"), old),
    }
}

fn wrong_text(dice: &mut Dice, limit: usize, old: Vec<u8>) -> Vec<u8> {
    match dice.below(10) {
        0 => "Ž".repeat(limit).into_bytes(),
        1 => "Ž".repeat(limit + 1).into_bytes(),
        2 => characters(dice, limit),
        3 | 4 => characters(dice, limit + 1),
        5 => {
            // Too long and with a stranger: the stranger is told.
            let long = characters(dice, limit + 1);
            with_stranger(dice, long)
        }
        6 => [&old, *dice.pick(&STRANGERS)].concat(),
        7 => {
            // As many characters as may be, the last one cut in half.
            let mut text = "Ž".repeat(limit).into_bytes();
            text.pop();
            text
        }
        _ => with_stranger(dice, old),
    }
}

fn with_stranger(dice: &mut Dice, mut text: Vec<u8>) -> Vec<u8> {
    let place = dice.below(text.len() + 1);
    let stranger = match dice.below(3) {
        0 => vec![dice.byte()],
        1 => vec![*dice.pick(STRANGE)],
        _ => dice.pick(&STRANGERS).to_vec(),
    };
    text.splice(place..place, stranger);
    text
}

// Damage that knows no fields.

fn damage(dice: &mut Dice, slip: &mut Vec<u8>) {
    if slip.is_empty() {
        return;
    }
    let place = dice.below(slip.len());
    let ends: Vec<usize> = (0..slip.len()).filter(|&k| slip[k] == b'\n').collect();
    let end = if ends.is_empty() {
        place
    } else {
        *dice.pick(&ends)
    };
    match dice.below(16) {
        0..=2 => slip[place] = *dice.pick(PLAIN),
        3 => slip[place] = dice.digit(),
        4 => slip[place] = dice.byte(),
        5 => slip[place] = *dice.pick(STRANGE),
        6 => slip.insert(place, *dice.pick(PLAIN)),
        7 => slip.insert(place, dice.byte()),
        8..=10 => {
            slip.remove(place);
        }
        11 => slip.insert(end, b'\n'),
        12 => {
            slip.remove(end);
        }
        13 | 14 => {
            // Often by one place only: then two neighbours are wrong.
            slip.remove(end);
            let to = match dice.below(3) {
                0 => end.saturating_sub(1),
                1 => (end + 1).min(slip.len()),
                _ => place.min(slip.len()),
            };
            slip.insert(to, b'\n');
        }
        _ => {
            let other = dice.below(slip.len());
            slip.swap(place, other);
        }
    }
}

// What a `write` line has besides its fields.

fn cents(dice: &mut Dice) -> String {
    match dice.below(40) {
        0..=2 => (TOO_MUCH - 1).to_string(),
        3 | 4 => TOO_MUCH.to_string(),
        5 => (TOO_MUCH + 1).to_string(),
        6 => u64::MAX.to_string(),
        7 => "18446744073709551616".to_string(),
        8 => "0".to_string(),
        9 => "00000000000000012355".to_string(),
        10 => "000000000000000012355".to_string(),
        11 => dice
            .pick(&["", "-1", "+1", "1.0", "1 ", "99999999999999999999", "x"])
            .to_string(),
        12 => dice.roll().to_string(),
        _ => {
            let digits = dice.between(1, 15);
            let most = 10u64.pow(digits as u32);
            (dice.roll() % most).to_string()
        }
    }
}

/// A room about what is needed.
fn room_about(dice: &mut Dice, needed: usize) -> String {
    match dice.below(14) {
        0 => "0".to_string(),
        1..=3 => (needed - 1).to_string(),
        4 => (needed + 1).to_string(),
        5 => dice.below(needed).to_string(),
        6 | 7 => dice.pick(&["483", "484", "500", "1000"]).to_string(),
        8 => format!("0{needed}"),
        9 if dice.one_in(4) => dice.pick(&["", "x", "-1", "48 3"]).to_string(),
        _ => needed.to_string(),
    }
}

/// What a field from 4 to 14 can be refused with.
#[cfg(test)]
pub(super) fn refusals_of(field: usize) -> &'static [u8] {
    match field {
        10 => &[3, 4, 5, 6],
        11 => &[5, 7],
        12 => &[3, 4, 5, 8, 9],
        _ => &[3, 4],
    }
}

#[cfg(test)]
mod tests {
    use super::*;
    use crate::cases::Desk;
    use std::collections::BTreeSet;

    #[test]
    fn right_slips_pass() {
        let mut dice = Dice::new(1);
        for _ in 0..5_000 {
            let slip = ended(&right_slip(&mut dice));
            let read = Slip::read(&slip);
            assert!(read.is_ok(), "{} {read:?}", slip.escape_ascii());
            assert_eq!(read.unwrap().write(LARGEST), Ok(slip));
        }
        let mut full = right_slip(&mut dice);
        fill_up(&mut full);
        assert_eq!(ended(&full).len(), LARGEST);
        assert!(Slip::read(&ended(&full)).is_ok());
    }

    /// Every refusal that a field can give, told by the reader and the writer.
    #[test]
    fn every_place_is_met() {
        let mut dice = Dice::new(5);
        let mut met = BTreeSet::new();
        let mut longest = 0;
        for k in 0..40_000 {
            let line = match k % 2 {
                0 => slip_case(&mut dice),
                _ => write_case(&mut dice),
            };
            assert!(!line.contains(&b'\n'));
            longest = longest.max(line.len());
            let answer = String::from_utf8(Desk::default().answer(&line)).unwrap();
            let words: Vec<&str> = answer.split(' ').collect();
            let verb = if k % 2 == 0 { "slip" } else { "write" };
            met.insert(match words[..] {
                ["refused", "15", ..] => format!("{verb} 15"),
                ["refused", number, _, _, _, field, ..] => format!("{verb} {field}: {number}"),
                [word, ..] => format!("{verb} {word}"),
                [] => verb.to_string(),
            });
        }
        assert!(longest < 600, "{longest}");
        let mut wanted: BTreeSet<String> = [
            "slip accepted",
            "slip 0: 1",
            "slip 0: 2",
            "slip 1: 5",
            "slip 2: 5",
            "slip 3: 3",
            "slip 3: 4",
            "write 3: 4",
            "write 15",
            "write accepted",
        ]
        .map(str::to_string)
        .into();
        for verb in ["slip", "write"] {
            for field in 4..=14 {
                let numbers = refusals_of(field);
                wanted.extend(numbers.iter().map(|n| format!("{verb} {field}: {n}")));
            }
        }
        assert_eq!(met, wanted);
    }
}
