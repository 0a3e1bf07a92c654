//! IBANs and OIBs.

use super::{HUNDRED_THOUSAND, MILLION};
use crate::dice::{mishap, Dice};
use crate::guard::{Lender, Side};
use crate::lane;
use crate::maker::Maker;
use crate::trial::{told, Plan, Trial};
use second::account::{iban, iban_digit_by_digit, oib};
use second::generate;
use second::refusal::Refusal;

pub fn run(plan: &Plan) {
    let (mut lender, mut maker) = (Lender::new(4096), Maker::new());
    plan.run("IBAN", MILLION, |trial| {
        let text = iban_text(&mut trial.dice);
        one_iban(trial, &mut lender, &text, iban);
    });
    plan.run("IBAN digit by digit", HUNDRED_THOUSAND, |trial| {
        let text = generate::right_account(&mut trial.dice);
        every_digit(trial, &mut lender, &text);
    });
    plan.run("OIB", MILLION, |trial| {
        let text = oib_text(&mut maker, &mut trial.dice);
        one_oib(trial, &mut lender, &text);
    });
}

/// What an IBAN is held against.
type Judge = fn(&[u8]) -> Result<(), Refusal>;

fn one_iban(trial: &mut Trial, lender: &mut Lender, text: &[u8], judge: Judge) {
    let side = Side::any(&mut trial.dice);
    let ours = lane::iban(lender.lend(text, side));
    trial.same("iban", ours, told(&judge(text)), &[("text", &text)]);
    trial.answered(ours.number);
}

/// A right IBAN with every digit at each place, and with each two neighbours
/// exchanged, beside the check digit by digit.
fn every_digit(trial: &mut Trial, lender: &mut Lender, right: &[u8]) {
    for place in 2..right.len() {
        let mut text = right.to_vec();
        for digit in b'0'..=b'9' {
            text[place] = digit;
            one_iban(trial, lender, &text, iban_digit_by_digit);
        }
        text[place] = right[place];
        text.swap(place - 1, place);
        one_iban(trial, lender, &text, iban_digit_by_digit);
    }
}

fn one_oib(trial: &mut Trial, lender: &mut Lender, text: &[u8]) {
    let side = Side::any(&mut trial.dice);
    let ours = lane::oib(lender.lend(text, side));
    trial.same("oib", ours, told(&oib(text)), &[("text", &text)]);
    trial.answered(ours.number);
}

fn iban_text(dice: &mut Dice) -> Vec<u8> {
    match dice.below(6) {
        0 | 1 => generate::right_account(dice),
        2 => generate::account(dice),
        3 => {
            let text = generate::account(dice);
            generate::spoilt(dice, text)
        }
        _ => {
            let text = generate::right_account(dice);
            mishap(dice, text, b'1')
        }
    }
}

fn oib_text(maker: &mut Maker, dice: &mut Dice) -> Vec<u8> {
    let text = match dice.below(5) {
        0 => dice.digits(11),
        1 => {
            let mut text = dice.digits(10);
            maker.complete(dice, 1, &mut text);
            text
        }
        _ => generate::oib(dice),
    };
    match dice.below(4) {
        0 => generate::spoilt(dice, text),
        1 => mishap(dice, text, b'1'),
        _ => text,
    }
}
