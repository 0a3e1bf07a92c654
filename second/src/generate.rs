//! Cases by dice: mostly right texts, then damaged, so that every refusal is
//! met close to its boundary and not only far from it.

use crate::account::{iban, iban_check};
use crate::checkdigit::{values, Rule};
use crate::codes::CODES;
use crate::reference::{Contents, Model, LONGEST, MODELS};
use crate::refusal::Reason;
use crate::wet::{divide, list, WHOLE_ROOM};
use std::io::{self, Write};

mod ledgers;
mod slips;
mod standing;
mod tallies;
mod wagecases;
mod wages;
pub use ledgers::{ledger_slip, lipa, right_kuna_slip};
pub use slips::{right_slip, slip, spoil_slip};
pub use standing::{huge_sheet, right_sheet, sheet, sheets, standing_field, texts_given};
pub use tallies::{counted, lent_tally, total};
pub use wagecases::{spoilt_line, wage_cases};
pub use wages::{
    large_wage_file, long_wage_file, right_day, right_group, right_label, right_order,
    right_wage_file, slices, spoil, wage_input, Fields, WageFile,
};

/// splitmix64.
pub struct Dice(u64);

impl Dice {
    pub fn new(seed: u64) -> Self {
        Dice(seed)
    }

    pub fn roll(&mut self) -> u64 {
        self.0 = self.0.wrapping_add(0x9E37_79B9_7F4A_7C15);
        let mut z = self.0;
        z = (z ^ (z >> 30)).wrapping_mul(0xBF58_476D_1CE4_E5B9);
        z = (z ^ (z >> 27)).wrapping_mul(0x94D0_49BB_1331_11EB);
        z ^ (z >> 31)
    }

    /// 0 to n - 1; the bias of the remainder is no harm here.
    pub fn below(&mut self, n: usize) -> usize {
        (self.roll() % n as u64) as usize
    }

    pub fn between(&mut self, low: usize, high: usize) -> usize {
        low + self.below(high - low + 1)
    }

    pub fn one_in(&mut self, n: usize) -> bool {
        self.below(n) == 0
    }

    pub fn pick<'a, T>(&mut self, from: &'a [T]) -> &'a T {
        &from[self.below(from.len())]
    }

    pub fn digit(&mut self) -> u8 {
        b'0' + self.below(10) as u8
    }

    pub fn digits(&mut self, n: usize) -> Vec<u8> {
        (0..n).map(|_| self.digit()).collect()
    }

    /// Any byte that does not end the line.
    pub fn byte(&mut self) -> u8 {
        match self.below(256) as u8 {
            b'\n' => 0,
            b => b,
        }
    }
}

/// `count` case lines.
pub fn cases(seed: u64, count: usize, mut output: impl Write) -> io::Result<()> {
    let mut dice = Dice::new(seed);
    for _ in 0..count {
        let line = case(&mut dice);
        debug_assert!(!line.contains(&b'\n'));
        output.write_all(&line)?;
        output.write_all(b"\n")?;
    }
    output.flush()
}

fn case(dice: &mut Dice) -> Vec<u8> {
    match dice.below(192) {
        0..=11 => {
            let text = account(dice);
            join(&[b"iban", &spoilt(dice, text)])
        }
        12..=19 => {
            let text = oib(dice);
            join(&[b"oib", &spoilt(dice, text)])
        }
        20..=54 => {
            let (name, text) = model_and_text(dice);
            join(&[b"ref", &name, &text])
        }
        55..=66 => check_or_make(dice),
        67..=86 => {
            let line = wet_line(dice);
            list_case(WHOLE_ROOM, &line)
        }
        87..=95 => {
            let line = wet_line(dice);
            let room = room_for(dice, &line);
            list_case(room, &line)
        }
        96..=116 => slips::slip_case(dice),
        117..=128 => slips::write_case(dice),
        129..=149 => ledgers::ledger_case(dice),
        150..=153 => ledgers::lipa_case(dice),
        154..=171 => standing::standing_case(dice),
        172..=187 => standing::write_standing_case(dice),
        _ => stray(dice),
    }
}

/// An input of the listing program, with its LF or, at times, without.
pub fn listing_input(dice: &mut Dice) -> Vec<u8> {
    let mut input = if dice.one_in(20) {
        noise(dice, 60)
    } else {
        wet_line(dice)
    };
    if !dice.one_in(15) {
        input.push(b'\n');
        if dice.one_in(6) {
            input.extend(wet_line(dice));
            input.push(b'\n');
        }
    }
    input
}

/// A question: its verb and its fields.
fn join(fields: &[&[u8]]) -> Vec<u8> {
    fields.join(&b'|')
}

/// A question for the fillings of a line of the listing program.
fn list_case(room: usize, line: &[u8]) -> Vec<u8> {
    let room = room.to_string();
    match divide(line) {
        None => join(&[b"list iban", room.as_bytes(), line]),
        Some((model, text)) => join(&[b"list ref", room.as_bytes(), model, text]),
    }
}

// Right texts.

/// An account number with its check digits, which now and then are a forbidden
/// twin of the right ones.
pub fn account(dice: &mut Dice) -> Vec<u8> {
    // Now and then the three check digits that have a forbidden twin.
    let twin = dice.one_in(6);
    loop {
        let account = dice.digits(17);
        let number = values(&account).fold(0u64, |n, d| n * 10 + u64::from(d));
        let right = iban_check(number);
        if twin && ![2, 97, 98].contains(&right) {
            continue;
        }
        let check = match right {
            97 if twin && dice.one_in(2) => 0,
            98 if twin && dice.one_in(2) => 1,
            2 if twin && dice.one_in(2) => 99,
            right => right,
        };
        let mut text = format!("HR{check:02}").into_bytes();
        text.extend(account);
        return text;
    }
}

/// An IBAN that passes.
pub fn right_account(dice: &mut Dice) -> Vec<u8> {
    loop {
        let text = account(dice);
        if iban(&text).is_ok() {
            return text;
        }
    }
}

/// Fifteen digits, often few of them before zeros.
fn amount(dice: &mut Dice) -> Vec<u8> {
    let long = dice.between(0, 15);
    let mut digits = vec![b'0'; 15 - long];
    digits.extend(dice.digits(long));
    digits
}

/// An OIB that passes.
pub fn oib(dice: &mut Dice) -> Vec<u8> {
    let body = dice.digits(10);
    completed(Rule::Iso, body)
}

fn completed(rule: Rule, mut body: Vec<u8>) -> Vec<u8> {
    let check = rule.digit(values(&body));
    body.push(b'0' + check);
    body
}

/// A reference that passes.
pub fn reference(dice: &mut Dice, model: &Model) -> Vec<u8> {
    let shape = shape(dice, model);
    filled(dice, model, &shape)
}

/// Lengths of parts that the model permits, often the least or the greatest.
fn shape(dice: &mut Dice, model: &Model) -> Vec<usize> {
    let count = dice.between(*model.parts.start(), *model.parts.end());
    loop {
        let lengths: Vec<usize> = model.lengths[..count]
            .iter()
            .map(|l| match dice.below(4) {
                0 => *l.start(),
                1 => *l.end(),
                _ => dice.between(*l.start(), *l.end()),
            })
            .collect();
        if lengths.iter().sum::<usize>() + count.saturating_sub(1) <= LONGEST {
            return lengths;
        }
    }
}

/// Digits in parts of these lengths, with the contents and the check digits of
/// the model.
fn filled(dice: &mut Dice, model: &Model, lengths: &[usize]) -> Vec<u8> {
    let mut parts: Vec<Vec<u8>> = lengths.iter().map(|&l| dice.digits(l)).collect();
    if parts.len() >= model.lengths.len() {
        for held in model.held {
            let contents = match held.contents {
                Contents::Fixed(number) => number.to_string(),
                Contents::Code => dice.pick(&CODES).to_string(),
            };
            // As much of it as a part of another length has room for.
            for (digit, right) in parts[held.part].iter_mut().zip(contents.bytes()) {
                *digit = right;
            }
        }
    }
    for group in model.groups {
        let last = group.parts.end.min(parts.len());
        if group.parts.start < last {
            let mut body = parts[group.parts.start..last].concat();
            body.pop();
            let check = b'0' + group.rule.digit(values(&body));
            if let Some(digit) = parts[last - 1].last_mut() {
                *digit = check;
            }
        }
    }
    parts.join(&b'-')
}

// Texts that are right, nearly right, or wrong.

/// The text as it is, with damage, or something else altogether.
pub fn spoilt(dice: &mut Dice, text: Vec<u8>) -> Vec<u8> {
    match dice.below(20) {
        0..=6 => text,
        7..=10 if !text.is_empty() => {
            let mut text = text;
            let place = dice.below(text.len());
            text[place] = dice.digit();
            text
        }
        7..=18 => {
            let mut text = text;
            for _ in 0..dice.between(1, 3) {
                damage(dice, &mut text);
            }
            text
        }
        _ => noise(dice, 26),
    }
}

/// Right check digits in a shape that is one off: a wrong shape must be
/// noticed even where nothing else is wrong.
pub fn misshapen(dice: &mut Dice, model: &Model) -> Vec<u8> {
    let mut lengths = shape(dice, model);
    let place = dice.below(lengths.len().max(1));
    match dice.below(4) {
        0 => {
            lengths.pop();
        }
        1 => lengths.push(dice.between(1, 4)),
        2 if !lengths.is_empty() => lengths[place] += 1,
        3 if !lengths.is_empty() => lengths[place] -= 1,
        _ => {}
    }
    filled(dice, model, &lengths)
}

/// A wage reference (HR69 of three parts), right, or with one thing wrong in it
/// or two.
pub fn wage_reference(dice: &mut Dice) -> Vec<u8> {
    let code = dice.pick(&CODES).to_string();
    let mut parts = [b"40002".to_vec(), oib(dice), code.into_bytes()];
    for _ in 0..*dice.pick(&[0, 0, 1, 1, 1, 2]) {
        let any = dice.below(parts.len());
        match dice.below(10) {
            // Another first part whose check digit is right.
            0 => parts[0] = b"40010".to_vec(),
            1 | 2 => {
                let body = dice.digits(4);
                parts[0] = completed(Rule::Ini, body);
            }
            3..=5 => parts[2] = near_code(dice),
            6 | 7 => {
                let part = &mut parts[dice.below(2)];
                let place = dice.below(part.len());
                part[place] = dice.digit();
            }
            8 => parts[any].push(dice.digit()),
            _ => drop(parts[any].pop()),
        }
    }
    parts.join(&b'-')
}

/// Three digits beside a code of the list, or any three.
fn near_code(dice: &mut Dice) -> Vec<u8> {
    let code = *dice.pick(&CODES);
    let three = |number: u16| format!("{number:03}").into_bytes();
    match dice.below(6) {
        0 => three(code + 1),
        1 => three(code - 1),
        2 => three(code + 10),
        3 => dice.digits(3),
        k => {
            let mut digits = three(code);
            digits.swap(k - 4, k - 3);
            digits
        }
    }
}

fn damage(dice: &mut Dice, text: &mut Vec<u8>) {
    let place = dice.below(text.len() + 1);
    let inside = place.min(text.len().saturating_sub(1));
    match dice.below(14) {
        _ if text.is_empty() => text.push(dice.digit()),
        0..=3 => text[inside] = dice.digit(),
        4 => text[inside] = dice.byte(),
        5 => text[inside] = *dice.pick(b"-? A/:@[Z`a\r\t\0\x7f\x80\xff"),
        6 => {
            text.remove(inside);
        }
        7 => text.insert(place, dice.digit()),
        8 => {
            let other = dice.below(text.len());
            text.swap(inside, other);
        }
        9 => text.truncate(place),
        10 => move_hyphen(dice, text),
        11 => double_hyphen(text),
        12 => text.insert(*dice.pick(&[0, place, text.len()]), b'-'),
        _ => {
            let more = dice.between(1, 3);
            text.extend(dice.digits(more));
        }
    }
}

fn move_hyphen(dice: &mut Dice, text: &mut Vec<u8>) {
    if let Some(place) = text.iter().position(|&b| b == b'-') {
        text.remove(place);
        let place = dice.below(text.len() + 1);
        text.insert(place, b'-');
    }
}

fn double_hyphen(text: &mut Vec<u8>) {
    if let Some(place) = text.iter().rposition(|&b| b == b'-') {
        text.insert(place, b'-');
    }
}

/// Up to `longest` bytes, of the text's own alphabet or of any.
pub fn noise(dice: &mut Dice, longest: usize) -> Vec<u8> {
    let length = dice.between(0, longest);
    let alphabet: &[u8] = match dice.below(3) {
        0 => b"0123456789-",
        1 => b"0123456789-?HR ",
        _ => b"",
    };
    (0..length)
        .map(|_| {
            if alphabet.is_empty() {
                dice.byte()
            } else {
                *dice.pick(alphabet)
            }
        })
        .collect()
}

/// Parts in number and lengths about the limits, of no particular model.
pub fn at_the_limits(dice: &mut Dice) -> Vec<u8> {
    const SHAPES: [&[usize]; 22] = [
        &[12],
        &[13],
        &[22],
        &[23],
        &[12, 9],
        &[12, 10],
        &[9, 12],
        &[11, 10],
        &[11, 11],
        &[13, 1],
        &[1, 13],
        &[12, 1, 7],
        &[12, 1, 8],
        &[6, 6, 8],
        &[1, 1, 12],
        &[1, 1, 13],
        &[5, 4, 8],
        &[5, 11, 3],
        &[10, 11],
        &[1, 1, 1, 1],
        &[5, 5, 5, 4],
        &[1, 1, 1],
    ];
    let parts: Vec<Vec<u8>> = dice
        .pick(&SHAPES)
        .iter()
        .map(|&length| {
            if dice.one_in(3) {
                vec![b'0'; length]
            } else {
                dice.digits(length)
            }
        })
        .collect();
    parts.join(&b'-')
}

/// A model, mostly one that is handled, and a reference for it.
pub fn model_and_text(dice: &mut Dice) -> (Vec<u8>, Vec<u8>) {
    let model = dice.pick(&MODELS);
    let name = match dice.below(50) {
        0 => format!("HR{:02}", dice.below(100)).into_bytes(),
        1 => format!("HR{:02}", dice.pick(&[5, 12, 15, 18, 34, 36, 68, 70, 98])).into_bytes(),
        2 => dice
            .pick(&[
                "", "H", "HR", "HR0", "HR001", "hr01", "HR0?", "HR?1", "RH01", "01", "HR-1",
            ])
            .as_bytes()
            .to_vec(),
        3 => {
            let mut name = format!("HR{:02}", model.number).into_bytes();
            let place = dice.below(name.len());
            name[place] = match dice.byte() {
                b' ' => b'X',
                b => b,
            };
            name
        }
        _ => format!("HR{:02}", model.number).into_bytes(),
    };
    if dice.one_in(12) {
        let name = if dice.one_in(4) {
            name
        } else {
            b"HR69".to_vec()
        };
        return (name, wage_reference(dice));
    }
    let text = match dice.below(16) {
        0 | 1 => at_the_limits(dice),
        2 | 3 => misshapen(dice, model),
        _ => {
            let text = reference(dice, model);
            spoilt(dice, text)
        }
    };
    (name, text)
}

fn check_or_make(dice: &mut Dice) -> Vec<u8> {
    let word: &[u8] = match dice.below(25) {
        0 => dice.pick(&["", "INI", "mod", "iso7064", "in"]).as_bytes(),
        k if k % 2 == 0 => b"ini",
        _ => b"iso",
    };
    let length = *dice.pick(&[0, 1, 2, 10, 11, 18, 19, 20, 21, 22, 5, 7, 13]);
    let body = dice.digits(length);
    if dice.one_in(2) {
        let text = if dice.one_in(12) || body.is_empty() {
            noise(dice, 25)
        } else {
            body
        };
        join(&[&[b"make ", word].concat(), &text])
    } else {
        let text = completed(Rule::named(word).unwrap_or(Rule::Ini), body);
        join(&[&[b"check ", word].concat(), &spoilt(dice, text)])
    }
}

/// A line for the listing: few of many fillings, for those make long answers.
fn wet_line(dice: &mut Dice) -> Vec<u8> {
    let marks = match dice.below(200) {
        0..=29 => 0,
        30..=119 => 1,
        120..=181 => 2,
        182..=186 => 3,
        187 => 4,
        188..=197 => 5,
        _ => 6,
    };
    if dice.one_in(3) {
        let text = account(dice);
        let mut text = spoilt(dice, text);
        // Both check digits at once: only so can a forbidden twin be listed.
        if marks == 2 && text.len() > 4 && dice.one_in(3) {
            text[2..4].fill(b'?');
        } else {
            wet(dice, &mut text, marks);
        }
        text
    } else {
        let (name, mut text) = model_and_text(dice);
        stain(dice, &mut text, marks);
        [name, text].join(&b' ')
    }
}

/// Makes so many of the digits unreadable.
pub fn wet(dice: &mut Dice, text: &mut [u8], marks: usize) {
    let mut dry: Vec<usize> = (0..text.len())
        .filter(|&k| text[k].is_ascii_digit())
        .collect();
    for _ in 0..marks.min(dry.len()) {
        let place = dry.swap_remove(dice.below(dry.len()));
        text[place] = b'?';
    }
}

/// Makes so many of a reference's digits unreadable, at times the last: a check
/// digit stands there, or a code.
pub fn stain(dice: &mut Dice, text: &mut [u8], marks: usize) {
    if dice.one_in(5) {
        let digits = text.iter_mut().rev().filter(|b| b.is_ascii_digit());
        digits.take(marks).for_each(|b| *b = b'?');
    } else {
        wet(dice, text, marks);
    }
}

/// A room about the number of fillings.
fn room_for(dice: &mut Dice, line: &[u8]) -> usize {
    let needed = match list(line, 0) {
        Err(refusal) if refusal.reason == Reason::Room => refusal.detail,
        _ => 0,
    };
    match dice.below(6) {
        0 => 0,
        1 | 2 => needed.saturating_sub(1),
        3 => needed + 1,
        _ => needed,
    }
}

/// A line whose verb is none, or stands alone.
fn stray(dice: &mut Dice) -> Vec<u8> {
    const VERBS: [&str; 25] = [
        "iban",
        "oib",
        "ref",
        "check ini",
        "make iso",
        "list iban",
        "list ref",
        "IBAN",
        "iban\t",
        " iban",
        "list",
        "lists",
        "#",
        "",
        "slip",
        "write",
        "slips",
        "check",
        "ledger",
        "ledgers",
        "lipa",
        "standing",
        "write standing",
        "standing text",
        "write  standing",
    ];
    match dice.below(3) {
        0 => noise(dice, 40),
        1 => dice.pick(&VERBS).as_bytes().to_vec(),
        _ => {
            let verb = dice.pick(&VERBS).as_bytes();
            join(&[verb, &noise(dice, 30)])
        }
    }
}

#[cfg(test)]
mod tests {
    use super::*;
    use crate::cases::Desk;
    use crate::refusal::Refusal;
    use std::collections::{BTreeMap, BTreeSet};

    fn made(seed: u64, count: usize) -> Vec<u8> {
        let mut output = Vec::new();
        cases(seed, count, &mut output).unwrap();
        output
    }

    #[test]
    fn same_seed_same_cases() {
        assert_eq!(made(7, 300), made(7, 300));
        assert_ne!(made(7, 300), made(8, 300));
        assert_eq!(made(7, 3000).iter().filter(|&&b| b == b'\n').count(), 3000);
    }

    #[test]
    fn right_references_pass() {
        let mut dice = Dice::new(1);
        for model in MODELS.iter().cycle().take(16_000) {
            let text = reference(&mut dice, model);
            assert_eq!(model.judge(&text), Ok(()), "HR{:02} {text:?}", model.number);
        }
    }

    /// Each with W4's answer and that of before it.
    #[test]
    fn wage_references_are_right_and_wrong() {
        let model = Model::named(b"HR69").unwrap();
        let number = |answer: Result<(), Refusal>| answer.map_or_else(|r| r.number(), |()| 0);
        let mut dice = Dice::new(2);
        let mut met: BTreeMap<[u8; 2], usize> = BTreeMap::new();
        for _ in 0..10_000 {
            let text = wage_reference(&mut dice);
            let answers = [model.judge(&text), model.judge_before_w4(&text)].map(number);
            *met.entry(answers).or_default() += 1;
        }
        for (answers, least) in [
            ([0, 0], 3_000),
            ([5, 0], 1_000),
            ([5, 9], 300),
            ([8, 8], 500),
            ([9, 9], 200),
        ] {
            let times = met.get(&answers).copied().unwrap_or(0);
            assert!(times > least, "{answers:?}: {met:?}");
        }
    }

    /// Every verb must give every answer it can, or the dice are badly loaded.
    #[test]
    fn every_answer_is_met() {
        let mut met = BTreeSet::new();
        for line in made(3, 20_000).split(|&b| b == b'\n') {
            let verb = String::from_utf8_lossy(line.split(|&b| b == b'|').next().unwrap());
            let answer = String::from_utf8(Desk::default().answer(line)).unwrap();
            let words: Vec<&str> = answer.split(' ').collect();
            let kind = match words[..] {
                ["refused", number, ..] => number,
                [_, "fillings", "0"] => "none",
                [word, ..] => word,
                [] => "",
            };
            met.insert(format!("{verb} {kind}"));
        }
        for wanted in [
            "iban accepted",
            "iban 3",
            "iban 4",
            "iban 5",
            "iban 6",
            "oib accepted",
            "oib 3",
            "oib 4",
            "oib 6",
            "ref accepted",
            "ref 3",
            "ref 4",
            "ref 5",
            "ref 7",
            "ref 8",
            "ref 9",
            "check ini accepted",
            "check ini 1",
            "check ini 3",
            "check ini 9",
            "check iso accepted",
            "check iso 1",
            "check iso 3",
            "check iso 9",
            "make ini accepted",
            "make ini 1",
            "make ini 3",
            "make iso accepted",
            "make iso 1",
            "make iso 3",
            "check INI unknown",
            "make  unknown",
            "list iban accepted",
            "list iban none",
            "list iban 1",
            "list iban 3",
            "list iban 15",
            "list iban 16",
            "list ref accepted",
            "list ref none",
            "list ref 1",
            "list ref 3",
            "list ref 5",
            "list ref 7",
            "list ref 15",
            "list ref 16",
            "ledger accepted",
            "ledger 2",
            "lipa cents",
            "standing accepted",
            "standing 20",
            "standing 28",
            "write standing accepted",
            "write standing 15",
            "write standing 20",
        ] {
            assert!(met.contains(wanted), "{wanted}");
        }
    }
}
