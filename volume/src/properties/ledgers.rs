//! Slips of either kind read: the answer, the part of each field, the amounts;
//! what the euro reader says of them; lipa in cents.

use super::slips::part_of;
use super::MILLION;
use crate::dice::{bytes, mishap, Dice};
use crate::ffi::{Ledger, Part, Told, Valued};
use crate::guard::{Lender, Side};
use crate::lane;
use crate::maker::Maker;
use crate::trial::{told, Inputs, Plan, Trial};
use second::generate;
use second::ledger::{in_cents, Amount, Entry};
use second::refusal::Refusal;

/// The currencies by the numbers of the header.
const EURO: usize = 1;
const KUNA: usize = 2;

/// What a euro-only reader answers to a kuna slip: 5 at field 2.
const NO_EURO: Told = Told {
    number: 5,
    line: 0,
    field: 2,
    byte: 9,
    needed: 0,
};

pub fn run(plan: &Plan) {
    let (mut lender, mut maker) = (Lender::new(4096), Maker::new());
    plan.run("ledger read", MILLION, |trial| {
        let slip = slip(&mut maker, &mut trial.dice);
        read(trial, &mut lender, &slip);
    });
    plan.run("ledger beside slip", MILLION, |trial| {
        let slip = slip(&mut maker, &mut trial.dice);
        beside(trial, &mut lender, &slip);
    });
    plan.run("lipa in cents", MILLION, lipa);
}

fn numbers() -> impl Iterator<Item = usize> {
    (0..=16).chain([usize::MAX])
}

// Against second.

fn read(trial: &mut Trial, lender: &mut Lender, slip: &[u8]) {
    let side = Side::any(&mut trial.dice);
    let lent = lender.lend(slip, side);
    let theirs = Entry::read(slip);
    let inputs: Inputs = &[("slip", &slip)];
    let ours = lane::ledger_read(lent);
    trial.same("ledger_read", ours, expected(&theirs), inputs);
    let texts = theirs.as_ref().ok().map(|entry| &entry.texts);
    for number in numbers() {
        let part = lane::ledger_field(lent, number);
        let expected = part_of(slip, texts, number);
        if part != expected {
            let inputs: Inputs = &[("slip", &slip), ("field", &number)];
            trial.same("ledger_field", part, expected, inputs);
        }
    }
    trial.answered(ours.told.number);
}

/// Second's answer in the words of the header.
fn expected(theirs: &Result<Entry, Refusal>) -> Ledger {
    let nothing = Ledger {
        told: told(theirs),
        ..Ledger::default()
    };
    match theirs.as_ref().map(|entry| entry.amount) {
        Err(_) => nothing,
        Ok(Amount::Cents(cents)) => Ledger {
            currency: EURO,
            cents,
            ..nothing
        },
        Ok(Amount::Lipa(lipa)) => Ledger {
            currency: KUNA,
            lipa,
            converted: in_cents(lipa),
            ..nothing
        },
    }
}

// Lanecockle's two readers against each other.

/// A kuna slip is none to the euro reader. Of every other slip both say the same,
/// unless it is field 2 that the euro reader refuses: then neither accepts.
fn beside(trial: &mut Trial, lender: &mut Lender, slip: &[u8]) {
    let side = Side::any(&mut trial.dice);
    let lent = lender.lend(slip, side);
    let inputs: Inputs = &[("slip", &slip)];
    let (either, euro) = (lane::ledger_read(lent), lane::slip_cents(lent));
    trial.same("slip_read", lane::slip_read(lent), euro.told, inputs);
    let accepted = either.told == Told::default();
    if accepted && either.currency == KUNA {
        let (told, value) = (NO_EURO, 0);
        trial.same("kuna slip_cents", euro, Valued { told, value }, inputs);
    } else if euro.told == NO_EURO {
        trial.same("ledger_read accepts", accepted, false, inputs);
    } else {
        trial.same("ledger_read", either, in_euro(euro), inputs);
    }
    parts_beside(trial, lent, accepted && either.currency == EURO);
    trial.answered(either.told.number);
}

/// What the reader of either kind is to say where this is the euro reader's.
fn in_euro(euro: Valued) -> Ledger {
    let accepted = euro.told == Told::default();
    Ledger {
        told: euro.told,
        currency: if accepted { EURO } else { 0 },
        cents: euro.value as u64,
        ..Ledger::default()
    }
}

/// The euro reader has the same parts of a euro slip, and none of another.
fn parts_beside(trial: &Trial, slip: &[u8], euro: bool) {
    for number in numbers() {
        let ours = lane::slip_field(slip, number);
        let theirs = if euro {
            lane::ledger_field(slip, number)
        } else {
            Part::default()
        };
        if ours != theirs {
            let inputs: Inputs = &[("slip", &slip), ("field", &number)];
            trial.same("slip_field", ours, theirs, inputs);
        }
    }
}

// Amounts.

fn lipa(trial: &mut Trial) {
    let most = *trial.dice.pick(&[999_999_999_999_999, u64::MAX]);
    let lipa = generate::lipa(&mut trial.dice, most);
    let ours = lane::lipa_in_cents(lipa);
    trial.same("lipa_in_cents", ours, in_cents(lipa), &[("lipa", &lipa)]);
    trial.answered(0);
}

/// From second's dice, or right and then with a mishap, or a euro slip that
/// Lanecockle wrote, with another currency.
fn slip(maker: &mut Maker, dice: &mut Dice) -> Vec<u8> {
    match dice.below(10) {
        0..=5 => generate::ledger_slip(dice),
        6 if dice.one_in(6) => bytes(dice, 500),
        6..=7 => {
            let slip = right_kuna(dice);
            mishap(dice, slip, b'\n')
        }
        8 => {
            let mut slip = maker.right_slip(dice);
            let unit = *dice.pick(&[b"HRK", b"HRK", b"EUR", b"USD", b"hrk"]);
            if let Some(place) = slip.get_mut(9..12) {
                place.copy_from_slice(unit);
            }
            slip
        }
        _ => right_kuna(dice),
    }
}

fn right_kuna(dice: &mut Dice) -> Vec<u8> {
    let fields = generate::right_kuna_slip(dice);
    [fields.join(&b'\n'), b"\n".to_vec()].concat()
}
