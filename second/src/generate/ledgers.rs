//! Slips of either kind by dice, and amounts of lipa.

use super::slips::{by_fate, ended, right_slip, slip, wrong, Fields, STRANGE};
use super::{join, move_hyphen, right_account, spoilt, Dice};
use crate::cases::swapped;
use crate::slip::TOO_MUCH;

/// 7.53450 kuna for a euro, as 20,000 half cents for 75,345 lipa.
const HALVES: u128 = 20_000;
const RATE: u128 = 75_345;
/// Lipa that lie nearest to the middle between two numbers of cents come back
/// after so many; the first is rounded up, the second down.
const PERIOD: u64 = 15_069;
const NEAREST: [u64; 2] = [3_658, 11_411];

/// A case line with the verb `ledger`, or with `slip`, for which there is no
/// kuna.
pub fn ledger_case(dice: &mut Dice) -> Vec<u8> {
    let verb: &[u8] = if dice.one_in(6) { b"slip" } else { b"ledger" };
    let slip = ledger_slip(dice);
    join(&[verb, &swapped(&slip, b'\n', b'|')])
}

/// A case line with the verb `lipa`.
pub fn lipa_case(dice: &mut Dice) -> Vec<u8> {
    let number = match dice.below(12) {
        0 => u64::MAX.to_string(),
        1 => dice
            .pick(&[
                "",
                "x",
                "-1",
                "12 355",
                "123,55",
                "00000000000000000000012355",
            ])
            .to_string(),
        2 => dice
            .pick(&["18446744073709551616", "99999999999999999999999"])
            .to_string(),
        3..=6 => lipa(dice, u64::MAX).to_string(),
        _ => lipa(dice, TOO_MUCH - 1).to_string(),
    };
    join(&[b"lipa", number.as_bytes()])
}

/// A slip of either kind, right or wrong, with real line feeds.
pub fn ledger_slip(dice: &mut Dice) -> Vec<u8> {
    let fate = dice.below(10);
    if fate < 3 {
        return slip(dice);
    }
    let mut fields = right_kuna_slip(dice);
    match fate {
        3..=5 => {
            // The two fields in which the kinds differ.
            let number = *dice.pick(&[2, 10, 10, 10]);
            fields[number - 1] = wrong_in_kuna(dice, number, &fields);
            ended(&fields)
        }
        6 => ended(&fields),
        _ => by_fate(dice, fields, wrong_in_kuna),
    }
}

// Right slips and amounts.

/// Fields 1 to 14 of a kuna slip that passes.
pub fn right_kuna_slip(dice: &mut Dice) -> Fields {
    let mut fields = right_slip(dice);
    fields[2 - 1] = b"HRK".to_vec();
    if dice.one_in(2) {
        fields[3 - 1] = format!("{:015}", lipa(dice, TOO_MUCH - 1)).into_bytes();
    }
    if !dice.one_in(3) {
        fields[10 - 1] = old_account(dice);
    }
    fields
}

/// Seven digits, a hyphen and ten digits.
fn old_account(dice: &mut Dice) -> Vec<u8> {
    [dice.digits(7), dice.digits(10)].join(&b'-')
}

/// An amount of lipa up to the most, often where rounding turns.
pub fn lipa(dice: &mut Dice, most: u64) -> u64 {
    let digits = dice.between(1, 20) as u32;
    let any = match 10u64.checked_pow(digits) {
        Some(above) => dice.roll() % above,
        None => dice.roll(),
    };
    let lipa = match dice.below(8) {
        0 => *dice.pick(&[0, 1, 3, 4, 12_355, most - 1, most]),
        1..=3 => beside_a_border(dice, any / 8),
        4 => (any / PERIOD * PERIOD).saturating_add(*dice.pick(&NEAREST)),
        _ => any,
    };
    lipa.min(most)
}

/// The most lipa that are nearest to these cents, or one more.
fn beside_a_border(dice: &mut Dice, cents: u64) -> u64 {
    let border = (2 * u128::from(cents) + 1) * RATE / HALVES;
    let lipa = border + u128::from(dice.roll() % 2);
    u64::try_from(lipa).unwrap_or(u64::MAX)
}

// Wrong fields.

/// A field of a kuna slip that is mostly wrong.
fn wrong_in_kuna(dice: &mut Dice, number: usize, fields: &Fields) -> Vec<u8> {
    match number {
        2 => dice
            .pick(&[
                "", "EUR", "USD", "hrk", "HRk", "HR", "HRKK", "HRK ", " HRK", "HKR", "HRK\r",
                "HRŽ", "191", "kn",
            ])
            .as_bytes()
            .to_vec(),
        10 => wrong_recipient(dice, &fields[10 - 1]),
        _ => wrong(dice, number, fields),
    }
}

/// Neither account nor IBAN, or nearly so.
fn wrong_recipient(dice: &mut Dice, old: &[u8]) -> Vec<u8> {
    match dice.below(16) {
        0 => Vec::new(),
        1 => {
            let length = *dice.pick(&[1, 7, 16, 17, 18, 19, 20, 21]);
            dice.digits(length)
        }
        // An IBAN without its letters, and one with a hyphen.
        2 => right_account(dice).split_off(2),
        3 => {
            let mut text = right_account(dice);
            let place = dice.between(1, text.len());
            text.insert(place, b'-');
            text.truncate(dice.between(21, 22));
            text
        }
        4 | 5 => spoilt(dice, old.to_vec()),
        _ => misprinted(dice),
    }
}

/// An account with one thing wrong, as a rule.
fn misprinted(dice: &mut Dice) -> Vec<u8> {
    let mut text = old_account(dice);
    let place = dice.below(text.len());
    match dice.below(12) {
        0 => text.swap(7, *dice.pick(&[6, 8, 9])),
        1 => move_hyphen(dice, &mut text),
        2 => text[place] = b'-',
        3 => text.insert(place, b'-'),
        4 => text[7] = *dice.pick(b"0A. /\xe2\x80_"),
        5 => text[place] = b'A' + dice.below(26) as u8,
        6 => drop(text.remove(place)),
        7 => text.insert(place, dice.digit()),
        8 => text[place] = b' ',
        9 => text.insert(*dice.pick(&[0, place, 18]), b' '),
        10 => text[place] = *dice.pick(STRANGE),
        _ => text[place] = dice.byte(),
    }
    text
}

#[cfg(test)]
mod tests {
    use super::*;
    use crate::cases::Desk;
    use crate::generate::slips::refusals_of;
    use crate::ledger::{in_cents, Amount, Entry};
    use std::collections::BTreeSet;

    #[test]
    fn right_kuna_slips_pass() {
        let mut dice = Dice::new(1);
        let mut met = [0; 2];
        for _ in 0..5_000 {
            let slip = ended(&right_kuna_slip(&mut dice));
            let read = Entry::read(&slip);
            assert!(read.is_ok(), "{} {read:?}", slip.escape_ascii());
            let entry = read.unwrap();
            assert!(matches!(entry.amount, Amount::Lipa(_)));
            met[usize::from(entry.texts[10 - 4].starts_with(b"HR"))] += 1;
        }
        assert!(met.iter().all(|&times| times > 1_000), "{met:?}");
    }

    /// Both sides of borders are met, and the last of 64 bits.
    #[test]
    fn amounts() {
        let mut dice = Dice::new(2);
        for most in [TOO_MUCH - 1, u64::MAX] {
            let (mut turns, mut ends) = ([0; 2], 0);
            for _ in 0..20_000 {
                let lipa = lipa(&mut dice, most);
                assert!(lipa <= most);
                let cents = in_cents(lipa);
                turns[0] += u32::from(lipa > 0 && in_cents(lipa - 1) < cents);
                turns[1] += u32::from(lipa < most && in_cents(lipa + 1) > cents);
                ends += u32::from(lipa == 0) + u32::from(lipa == most);
            }
            assert!(turns.iter().all(|&times| times > 3_000), "{turns:?}");
            assert!(ends > 300, "{ends}");
        }
        for (nearest, up) in NEAREST.into_iter().zip([true, false]) {
            let halves = (u128::from(nearest) * HALVES) % (2 * RATE);
            assert_eq!(halves, if up { RATE + 5 } else { RATE - 5 });
        }
    }

    /// Every refusal that a slip of each kind can give.
    #[test]
    fn every_place_is_met() {
        let mut dice = Dice::new(5);
        let mut met = BTreeSet::new();
        for _ in 0..60_000 {
            let line = ledger_case(&mut dice);
            assert!(!line.contains(&b'\n') && line.len() < 600);
            let parts: Vec<&[u8]> = line.split(|&b| b == b'|').collect();
            let kind = match (parts[0], parts.get(2).copied()) {
                (b"slip", _) => continue,
                (_, Some(b"HRK")) => "kuna",
                _ => "euro",
            };
            let answer = String::from_utf8(Desk::default().answer(&line)).unwrap();
            let words: Vec<&str> = answer.split(' ').collect();
            met.insert(match words[..] {
                ["refused", number, _, _, _, field, ..] => format!("{kind} {field}: {number}"),
                [word, ..] => format!("{kind} {word}"),
                [] => kind.to_string(),
            });
        }
        let mut wanted = BTreeSet::new();
        for kind in ["kuna", "euro"] {
            let always = ["accepted", "0: 1", "0: 2", "1: 5", "2: 5", "3: 3", "3: 4"];
            wanted.extend(always.map(|answer| format!("{kind} {answer}")));
            for field in 4..=14 {
                let numbers = refusals_of(field);
                wanted.extend(numbers.iter().map(|n| format!("{kind} {field}: {n}")));
            }
        }
        wanted.remove("kuna 2: 5");
        assert_eq!(met, wanted);
    }
}
