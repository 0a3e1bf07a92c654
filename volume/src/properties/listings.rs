//! Wet slips: listings of IBANs and references, and texts filled.

use super::references::pair;
use super::{HUNDRED_THOUSAND, MILLION};
use crate::dice::{bytes, mishap, Dice};
use crate::ffi::Valued;
use crate::guard::{Lender, Room, Side};
use crate::lane;
use crate::trial::{told, Inputs, Plan, Trial};
use second::generate::{account, right_account, stain, wet};
use second::refusal::Refusal;
use second::wet::{filled, list_iban, list_reference, Listing, WHOLE_ROOM};

/// The memory of a listing.
struct Desk {
    model: Lender,
    text: Lender,
    out: Room,
    filled: Room,
}

pub fn run(plan: &Plan) {
    let mut desk = Desk {
        model: Lender::new(4096),
        text: Lender::new(4096),
        out: Room::new(2 * WHOLE_ROOM + 4096),
        filled: Room::new(4096),
    };
    plan.run("IBAN listed", HUNDRED_THOUSAND, |trial| {
        let text = wet_iban(&mut trial.dice);
        one_iban(trial, &mut desk, &text);
    });
    plan.run("reference listed", HUNDRED_THOUSAND, |trial| {
        let (model, text) = wet_pair(&mut trial.dice);
        one_reference(trial, &mut desk, &model, &text);
    });
    plan.run("filled", MILLION, |trial| one_filled(trial, &mut desk));
}

fn one_iban(trial: &mut Trial, desk: &mut Desk, text: &[u8]) {
    let all = list_iban(text, WHOLE_ROOM);
    let size = room_for(&mut trial.dice, &all);
    let side = Side::any(&mut trial.dice);
    let (out, before) = desk.out.lend::<u16>(&mut trial.dice, size, side);
    let ours = lane::list_iban(desk.text.lend(text, side), out);
    let inputs: Inputs = &[("text", &text), ("room", &size)];
    compare(trial, "list_iban", ours, all, out, before, inputs);
}

fn one_reference(trial: &mut Trial, desk: &mut Desk, model: &[u8], text: &[u8]) {
    let all = list_reference(model, text, WHOLE_ROOM);
    let size = room_for(&mut trial.dice, &all);
    let side = Side::any(&mut trial.dice);
    let (out, before) = desk.out.lend::<u16>(&mut trial.dice, size, side);
    let ours = lane::list_reference(
        desk.model.lend(model, side),
        desk.text.lend(text, side),
        out,
    );
    let inputs: Inputs = &[("model", &model), ("text", &text), ("room", &size)];
    compare(trial, "list_reference", ours, all, out, before, inputs);
}

fn compare(
    trial: &mut Trial,
    call: &str,
    ours: Valued,
    all: Result<Listing, Refusal>,
    out: &[u16],
    before: &[u16],
    inputs: Inputs,
) {
    let theirs = all.and_then(|listing| listing.within(out.len()));
    let expected = Valued {
        told: told(&theirs),
        value: theirs.as_ref().map_or(0, |listing| listing.numbers.len()),
    };
    trial.same(call, ours, expected, inputs);
    let written = theirs.map_or_else(|_| Vec::new(), |listing| listing.numbers);
    trial.same_room(call, out, before, &written, inputs);
    trial.answered(ours.told.number);
}

/// A room about the number of fillings.
fn room_for(dice: &mut Dice, all: &Result<Listing, Refusal>) -> usize {
    let count = all.as_ref().map_or(0, |listing| listing.numbers.len());
    match dice.below(8) {
        0 => 0,
        1 | 2 => count.saturating_sub(1),
        3 | 4 => count,
        5 | 6 => count + dice.between(1, 9),
        _ => WHOLE_ROOM,
    }
}

/// 0 to 5, and few of those that have thousands of fillings.
fn marks(dice: &mut Dice) -> usize {
    *dice.pick(&[0, 0, 1, 1, 1, 1, 2, 2, 2, 2, 2, 3, 3, 3, 4, 5])
}

fn wet_iban(dice: &mut Dice) -> Vec<u8> {
    let mut text = match dice.below(3) {
        0 => account(dice),
        _ => right_account(dice),
    };
    match dice.below(12) {
        0 => text[2..4].fill(b'?'),
        _ => {
            let marks = marks(dice);
            wet(dice, &mut text, marks);
        }
    }
    match dice.below(8) {
        0 => mishap(dice, text, b'?'),
        _ => text,
    }
}

fn wet_pair(dice: &mut Dice) -> (Vec<u8>, Vec<u8>) {
    let (model, mut text) = pair(dice);
    let marks = marks(dice);
    stain(dice, &mut text, marks);
    (model, text)
}

/// Any text, and a room about its length.
fn one_filled(trial: &mut Trial, desk: &mut Desk) {
    let dice = &mut trial.dice;
    let text = match dice.below(4) {
        0 => bytes(dice, 60),
        1 => {
            let marks = dice.between(0, 40);
            let mut text = bytes(dice, 40);
            text.extend(vec![b'?'; marks]);
            mishap(dice, text, b'?')
        }
        2 => wet_iban(dice),
        _ => wet_pair(dice).1,
    };
    let number = match dice.below(3) {
        0 => dice.below(10_000) as u16,
        1 => *dice.pick(&[0, 1, 9, 10, 99, 100, 999, 1000, 9999, 10_000, u16::MAX]),
        _ => dice.roll() as u16,
    };
    let size = match dice.below(5) {
        0 => text.len().saturating_sub(1),
        1 => dice.below(text.len() + 1),
        2 => text.len() + dice.between(1, 9),
        _ => text.len(),
    };
    let side = Side::any(dice);
    let (out, before) = desk.filled.lend::<u8>(dice, size, side);
    let ours = lane::filled(desk.text.lend(&text, side), number, out);
    let theirs = filled(&text, number, size);
    let inputs: Inputs = &[("text", &text), ("number", &number), ("room", &size)];
    trial.same("filled", ours, told(&theirs), inputs);
    trial.same_room("filled", out, before, &theirs.unwrap_or_default(), inputs);
    trial.answered(ours.number);
}
