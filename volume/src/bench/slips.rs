//! Slips read and written, and those of either kind.

use super::inputs::{amount, given, kuna_slip, made, slip};
use super::race::over;
use super::sheet::{Bar, Sheet};
use super::Size;
use crate::lane::{self, Lent};
use second::ledger::{in_cents, Amount, Entry};
use second::refusal::Refusal;
use second::slip::{Slip, LARGEST, TEXTS};

pub fn run(size: Size, sheet: &mut Sheet) {
    let slips = made(6, slip);
    let race = over(
        size,
        &slips,
        |slip| lane::slip_read(slip),
        |slip| Slip::read(slip),
    );
    sheet.operations("slip read", race, Bar::Ratio);

    let all = made(7, given);
    let mut out = [0; LARGEST];
    let race = over(
        size,
        &all,
        |given| {
            let fields = Lent {
                text: &given.text,
                sizes: &given.sizes,
            };
            lane::slip_write(given.cents, fields, &mut out)
        },
        |given| {
            let fields: &[Vec<u8>; TEXTS] = given.fields.as_slice().try_into().expect("eleven");
            let slip = Slip {
                cents: given.cents,
                texts: fields.each_ref().map(Vec::as_slice),
            };
            slip.write(LARGEST)
        },
    );
    sheet.operations("slip written", race, Bar::Ratio);
    ledgers(size, sheet, &slips);
}

fn ledgers(size: Size, sheet: &mut Sheet, euro: &[Vec<u8>]) {
    either_kind(size, sheet, "ledger, euro slips", euro);
    either_kind(size, sheet, "ledger, kuna slips", &made(8, kuna_slip));
    let race = over(
        size,
        &made(9, amount),
        |&lipa| lane::lipa_in_cents(lipa),
        |&lipa| in_cents(lipa),
    );
    sheet.operations("lipa in cents", race, Bar::Ratio);
}

/// Read, and a kuna amount in cents too.
fn either_kind(size: Size, sheet: &mut Sheet, name: &str, slips: &[Vec<u8>]) {
    let race = over(
        size,
        slips,
        |slip| lane::ledger_read(slip),
        |slip| {
            let entry = Entry::read(slip)?;
            let converted = match entry.amount {
                Amount::Cents(_) => 0,
                Amount::Lipa(lipa) => in_cents(lipa),
            };
            Ok::<_, Refusal>((entry, converted))
        },
    );
    sheet.operations(name, race, Bar::Ratio);
}
