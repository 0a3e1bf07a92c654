//! Slips written.

use super::MILLION;
use crate::dice::Dice;
use crate::ffi::Valued;
use crate::guard::{Room, Side};
use crate::lane;
use crate::lent::{Given, Shelf};
use crate::trial::{told, Inputs, Plan, Trial};
use second::generate::{right_slip, spoil_slip};
use second::slip::{Slip, LARGEST, TEXTS, TOO_MUCH};

pub fn run(plan: &Plan) {
    let (mut shelf, mut out) = (Shelf::new(), Room::new(4096));
    plan.run("slip written", MILLION, |trial| {
        one(trial, &mut shelf, &mut out)
    });
}

fn one(trial: &mut Trial, shelf: &mut Shelf, out: &mut Room) {
    let dice = &mut trial.dice;
    let (cents, given) = (cents(dice), given(dice));
    let size = room_for(dice, needed(&given));
    let side = Side::any(dice);
    let (out, before) = out.lend::<u8>(dice, size, side);
    let ours = lane::slip_write(cents, shelf.lend(&given, side), out);
    let texts = given.fields();
    let theirs = texts.and_then(|texts| Slip { cents, texts }.write(size));
    let sizes = &given.sizes[..];
    let inputs: Inputs = &[
        ("cents", &cents),
        ("text", &given.text),
        ("sizes", &sizes),
        ("room", &size),
    ];
    let expected = Valued {
        told: told(&theirs),
        value: theirs.as_ref().map_or(0, Vec::len),
    };
    trial.same("slip_write", ours, expected, inputs);
    trial.same_room(
        "slip_write",
        out,
        before,
        &theirs.unwrap_or_default(),
        inputs,
    );
    trial.answered(ours.told.number);
}

pub fn cents(dice: &mut Dice) -> u64 {
    match dice.below(12) {
        0 => *dice.pick(&[0, 1, TOO_MUCH - 1, TOO_MUCH, TOO_MUCH + 1, u64::MAX]),
        1 if dice.one_in(3) => dice.roll(),
        _ => {
            let digits = dice.between(1, 15) as u32;
            dice.roll() % 10u64.pow(digits)
        }
    }
}

fn given(dice: &mut Dice) -> Given {
    let mut fields = right_slip(dice);
    let fate = dice.below(10);
    if (4..9).contains(&fate) {
        spoil_slip(dice, &mut fields);
    }
    let mut given = Given::new(&fields[3..]);
    if fate >= 8 {
        given.mangle(dice);
    }
    given
}

/// The size of a slip: fields 1 to 3, the text, and an LF behind each of its
/// fields.
pub fn needed(given: &Given) -> usize {
    29 + given.text.len() + TEXTS
}

/// A room about the size of the slip.
pub fn room_for(dice: &mut Dice, needed: usize) -> usize {
    match dice.below(10) {
        0 => 0,
        1 | 2 => needed.saturating_sub(1),
        3 => needed + 1,
        4 => dice.below(needed),
        5 => dice.between(LARGEST, 600),
        6 => needed + dice.below(40),
        _ => needed,
    }
}
