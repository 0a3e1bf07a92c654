//! Check digits, checked and made.

use super::MILLION;
use crate::dice::{bytes, mishap, Dice};
use crate::ffi::{Told, Valued};
use crate::guard::{Lender, Side};
use crate::lane;
use crate::maker::Maker;
use crate::trial::{told, Inputs, Plan};
use second::checkdigit::Rule;
use second::refusal::{Reason, Refusal};

pub fn run(plan: &Plan) {
    let (mut lender, mut maker) = (Lender::new(4096), Maker::new());
    plan.run("digits checked", MILLION, |trial| {
        let (rule, text) = (rule(&mut trial.dice), text(&mut trial.dice));
        let text = completed(&mut maker, &mut trial.dice, rule, text);
        let side = Side::any(&mut trial.dice);
        let ours = lane::check_digits(rule, lender.lend(&text, side));
        let inputs: Inputs = &[("rule", &rule), ("digits", &text)];
        trial.same("check_digits", ours, checked(rule, &text), inputs);
        trial.answered(ours.number);
    });
    plan.run("digits made", MILLION, |trial| {
        let (rule, text) = (rule(&mut trial.dice), text(&mut trial.dice));
        let side = Side::any(&mut trial.dice);
        let ours = lane::make_digit(rule, lender.lend(&text, side));
        let inputs: Inputs = &[("rule", &rule), ("digits", &text)];
        trial.same("make_digit", ours, made(rule, &text), inputs);
        trial.answered(ours.told.number);
    });
}

/// The rules by the numbers of the header; 5 for another.
fn named(rule: u32) -> Result<Rule, Refusal> {
    match rule {
        0 => Ok(Rule::Ini),
        1 => Ok(Rule::Iso),
        _ => Err(Reason::Form.into()),
    }
}

fn checked(rule: u32, text: &[u8]) -> Told {
    told(&named(rule).and_then(|rule| rule.check(text)))
}

fn made(rule: u32, text: &[u8]) -> Valued {
    let digit = named(rule).and_then(|rule| rule.make(text));
    Valued {
        told: told(&digit),
        value: digit.map_or(0, usize::from),
    }
}

fn rule(dice: &mut Dice) -> u32 {
    match dice.below(40) {
        0 => dice.roll() as u32,
        1 => *dice.pick(&[2, 3, 255, 256, 257, u32::MAX]),
        k => k as u32 % 2,
    }
}

/// Up to 24 digits, and other bytes now and then.
fn text(dice: &mut Dice) -> Vec<u8> {
    let length = dice.between(0, 24);
    let text = match dice.below(12) {
        0 => vec![b'0'; length],
        1 => vec![b'9'; length],
        _ => dice.digits(length),
    };
    match dice.below(8) {
        0 => mishap(dice, text, b'1'),
        1 if dice.one_in(4) => bytes(dice, 40),
        _ => text,
    }
}

/// Mostly with the check digit, by second or by Lanecockle itself.
fn completed(maker: &mut Maker, dice: &mut Dice, rule: u32, mut text: Vec<u8>) -> Vec<u8> {
    match dice.below(3) {
        0 => maker.complete(dice, rule, &mut text),
        1 if text.iter().all(u8::is_ascii_digit) => {
            if let Ok(rule) = named(rule) {
                text.push(b'0' + rule.digit(second::checkdigit::values(&text)));
            }
        }
        _ => {}
    }
    text
}
