//! References under their models.

use super::{HUNDRED_THOUSAND, MILLION};
use crate::dice::{bytes, mishap, Dice};
use crate::ffi::Told;
use crate::guard::{Lender, Side};
use crate::lane;
use crate::trial::{told, Inputs, Plan, Trial};
use second::codes::CODES;
use second::generate::{model_and_text, wage_reference};
use second::reference::Model;
use second::refusal::{Reason, Refusal};
use second::wet::WHOLE_ROOM;

/// The memory of a reference.
struct Desk {
    model: Lender,
    text: Lender,
}

impl Desk {
    /// Lanecockle's answer, held against another.
    fn one(&mut self, trial: &mut Trial, model: &[u8], text: &[u8], expected: Result<(), Refusal>) {
        let side = Side::any(&mut trial.dice);
        let ours = lane::reference(self.model.lend(model, side), self.text.lend(text, side));
        let inputs: Inputs = &[("model", &model), ("text", &text)];
        trial.same("reference", ours, told(&expected), inputs);
        trial.answered(ours.number);
    }
}

pub fn run(plan: &Plan) {
    let mut desk = Desk {
        model: Lender::new(4096),
        text: Lender::new(4096),
    };
    plan.run("reference", MILLION, |trial| {
        let (model, text) = pair(&mut trial.dice);
        let expected = Model::named(&model).and_then(|found| found.judge(&text));
        desk.one(trial, &model, &text, expected);
    });
    plan.run("reference before W4", HUNDRED_THOUSAND, |trial| {
        let text = match trial.dice.below(3) {
            0 => wage_reference(&mut trial.dice),
            _ => pair(&mut trial.dice).1,
        };
        for number in 0..100 {
            let model = format!("HR{number:02}").into_bytes();
            let before = Model::named(&model).and_then(|found| found.judge_before_w4(&text));
            desk.one(trial, &model, &text, since_w4(number, &text, before));
        }
    });
    // One input is every code, the other every first part.
    plan.run("wage reference", 2, |trial| {
        if trial.number() % 2 == 1 {
            every_code(trial, &mut desk);
        } else {
            every_first_part(trial, &mut desk);
        }
    });
}

/// What W4 makes of an answer that was given before it: the same, except under
/// HR69 for three parts of the right lengths.
fn since_w4(model: u8, text: &[u8], before: Result<(), Refusal>) -> Result<(), Refusal> {
    let permitted = |k: usize| match k {
        5 | 17 => text[k] == b'-',
        _ => text[k].is_ascii_digit(),
    };
    if model == 69 && text.len() == 21 && (0..21).all(permitted) {
        let code = text[18..]
            .iter()
            .fold(0, |n, b| 10 * n + u16::from(b - b'0'));
        if !text.starts_with(b"40002") || !CODES.contains(&code) {
            return Err(Reason::Form.into());
        }
    }
    before
}

fn every_code(trial: &mut Trial, desk: &mut Desk) {
    for number in 0..1000 {
        let text = format!("40002-12345678903-{number:03}").into_bytes();
        let expected = accepted(CODES.contains(&number));
        desk.one(trial, b"HR69", &text, expected);
    }
    // The first mark is the check digit of 40002.
    let text: &[u8] = b"4000?-12345678903-???";
    let mut out = [0; WHOLE_ROOM];
    let listed = lane::list_reference(b"HR69", text, &mut out);
    let ours = (listed.told, out[..listed.value].to_vec());
    let expected = (Told::default(), CODES.map(|code| 2000 + code).to_vec());
    trial.same("list_reference", ours, expected, &[("text", &text)]);
}

fn every_first_part(trial: &mut Trial, desk: &mut Desk) {
    for number in 0..100_000 {
        let text = format!("{number:05}-12345678903-100").into_bytes();
        desk.one(trial, b"HR69", &text, accepted(number == 40_002));
    }
}

/// Acceptance, or the 5 of other contents.
fn accepted(right: bool) -> Result<(), Refusal> {
    if right {
        Ok(())
    } else {
        Err(Reason::Form.into())
    }
}

/// A model and a reference; now and then with a mishap to either.
pub fn pair(dice: &mut Dice) -> (Vec<u8>, Vec<u8>) {
    let (model, text) = model_and_text(dice);
    match dice.below(10) {
        0 => (mishap(dice, model, b'R'), text),
        1 | 2 => (model, mishap(dice, text, b'-')),
        3 if dice.one_in(8) => (bytes(dice, 6), bytes(dice, 40)),
        _ => (model, text),
    }
}
