//! Slips read by the euro reader: the answer, the part of each field, the cents.

use super::MILLION;
use crate::dice::{bytes, mishap, Dice};
use crate::ffi::{Part, Valued};
use crate::guard::{Lender, Side};
use crate::lane;
use crate::maker::Maker;
use crate::trial::{told, Inputs, Plan, Trial};
use second::generate;
use second::slip::{Slip, TEXTS};

pub fn run(plan: &Plan) {
    let (mut lender, mut maker) = (Lender::new(4096), Maker::new());
    plan.run("slip read", MILLION, |trial| {
        let slip = slip(&mut maker, &mut trial.dice);
        one(trial, &mut lender, &slip);
    });
}

fn one(trial: &mut Trial, lender: &mut Lender, slip: &[u8]) {
    let side = Side::any(&mut trial.dice);
    let lent = lender.lend(slip, side);
    let theirs = Slip::read(slip);
    let inputs: Inputs = &[("slip", &slip)];
    let ours = lane::slip_read(lent);
    trial.same("slip_read", ours, told(&theirs), inputs);
    let texts = theirs.as_ref().ok().map(|slip| &slip.texts);
    for number in (0..=15).chain([usize::MAX]) {
        let part = lane::slip_field(lent, number);
        let expected = part_of(slip, texts, number);
        if part != expected {
            let inputs: Inputs = &[("slip", &slip), ("field", &number)];
            trial.same("slip_field", part, expected, inputs);
        }
    }
    let cents = Valued {
        told: told(&theirs),
        value: theirs.map_or(0, |slip| slip.cents as usize),
    };
    trial.same("slip_cents", lane::slip_cents(lent), cents, inputs);
    trial.answered(ours.number);
}

/// Where second has the field, which lies in the same bytes.
pub fn part_of(slip: &[u8], texts: Option<&[&[u8]; TEXTS]>, number: usize) -> Part {
    match (texts, number) {
        (Some(texts), 4..=14) => {
            let text = texts[number - 4];
            Part {
                start: text.as_ptr() as usize - slip.as_ptr() as usize,
                length: text.len(),
            }
        }
        _ => Part::default(),
    }
}

/// From second's dice, now and then in kuna, or written by Lanecockle and then
/// damaged.
fn slip(maker: &mut Maker, dice: &mut Dice) -> Vec<u8> {
    match dice.below(10) {
        0..=4 => generate::slip(dice),
        5 => generate::ledger_slip(dice),
        6 if dice.one_in(6) => bytes(dice, 500),
        6..=8 => {
            let slip = maker.right_slip(dice);
            mishap(dice, slip, b'\n')
        }
        _ => maker.right_slip(dice),
    }
}
