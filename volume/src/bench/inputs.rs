//! Valid inputs, some thousand different ones of each sort.

use second::generate::{
    lipa, reference, right_account, right_kuna_slip, right_sheet, right_slip, wet, Dice,
};
use second::reference::{Model, MODELS};
use second::slip::TOO_MUCH;
use second::standing::NUMBERS;

pub const COUNT: usize = 4096;

pub fn made<I>(seed: u64, mut make: impl FnMut(&mut Dice) -> I) -> Vec<I> {
    let mut dice = Dice::new(seed);
    (0..COUNT).map(|_| make(&mut dice)).collect()
}

pub fn model_text(model: &Model) -> Vec<u8> {
    format!("HR{:02}", model.number).into_bytes()
}

/// So many IBANs, one behind the other.
pub fn night(count: usize) -> Vec<u8> {
    let mut dice = Dice::new(6);
    (0..count).flat_map(|_| right_account(&mut dice)).collect()
}

pub fn wet_iban(dice: &mut Dice, marks: usize) -> Vec<u8> {
    let mut text = right_account(dice);
    wet(dice, &mut text, marks);
    text
}

/// A wage reference: HR69 of three parts (document 02, W4).
pub fn wage_reference(dice: &mut Dice) -> Vec<u8> {
    let model = Model::named(b"HR69").expect("in the table");
    loop {
        let text = reference(dice, model);
        if text.iter().filter(|&&b| b == b'-').count() == 2 {
            return text;
        }
    }
}

pub fn wet_wage_reference(dice: &mut Dice, marks: usize) -> Vec<u8> {
    let mut text = wage_reference(dice);
    wet(dice, &mut text, marks);
    text
}

/// A model and a reference with so many marks.
pub fn wet_reference(dice: &mut Dice, marks: usize) -> (Vec<u8>, Vec<u8>) {
    loop {
        let model = dice.pick(&MODELS);
        let mut text = reference(dice, model);
        wet(dice, &mut text, marks);
        if text.iter().filter(|&&b| b == b'?').count() == marks {
            return (model_text(model), text);
        }
    }
}

pub fn slip(dice: &mut Dice) -> Vec<u8> {
    let mut slip = right_slip(dice).join(&b'\n');
    slip.push(b'\n');
    slip
}

pub fn kuna_slip(dice: &mut Dice) -> Vec<u8> {
    let mut slip = right_kuna_slip(dice).join(&b'\n');
    slip.push(b'\n');
    slip
}

/// An amount of a kuna slip.
pub fn amount(dice: &mut Dice) -> u64 {
    lipa(dice, TOO_MUCH - 1)
}

/// What a writer of slips is given.
pub struct Given {
    pub cents: u64,
    pub text: Vec<u8>,
    pub sizes: Vec<usize>,
    pub fields: Vec<Vec<u8>>,
}

pub fn given(dice: &mut Dice) -> Given {
    let fields = right_slip(dice).split_off(3);
    given_of(dice, fields)
}

fn given_of(dice: &mut Dice, fields: Vec<Vec<u8>>) -> Given {
    Given {
        cents: dice.roll() % 1_000_000_000_000_000,
        text: fields.concat(),
        sizes: fields.iter().map(Vec::len).collect(),
        fields,
    }
}

/// Two right sheets, a field to ask for, and a slip whose fields they fill.
pub struct Standing {
    pub farm: Vec<u8>,
    pub association: Vec<u8>,
    pub field: usize,
    pub given: Given,
}

pub fn standing(dice: &mut Dice) -> Standing {
    let mut fields = right_slip(dice).split_off(3);
    for number in NUMBERS {
        if !dice.one_in(3) {
            fields[number - 4].clear();
        }
    }
    Standing {
        farm: right_sheet(dice),
        association: right_sheet(dice),
        field: *dice.pick(&NUMBERS),
        given: given_of(dice, fields),
    }
}
