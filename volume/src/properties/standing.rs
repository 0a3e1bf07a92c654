//! Standing text asked for, slips written with it, and both beside the calls that
//! there were before.

use super::slipwrites::{cents, needed, room_for};
use super::{HUNDRED_THOUSAND, MILLION};
use crate::dice::{bytes, mishap, Dice};
use crate::ffi::{Part, Standing, StandingWritten, Told, Valued};
use crate::guard::{Lender, Room, Side};
use crate::lane::{self, Sheets};
use crate::lent::{Given, Shelf};
use crate::trial::{told, Inputs, Plan, Shown, Trial};
use second::generate;
use second::slip::TEXTS;
use second::standing::{standing_text, write_standing, Owner, Refused, NUMBERS};

/// The sheets by the numbers of the header.
const FARM: usize = 1;
const ASSOCIATION: usize = 2;

/// The most bytes of a sheet here.
const LONGEST: usize = 131_072;

pub fn run(plan: &Plan) {
    let mut desk = Desk {
        sheets: Pair {
            farm: Lender::new(LONGEST),
            association: Lender::new(LONGEST),
        },
        shelf: Shelf::new(),
        out: Room::new(4096),
        other: Room::new(4096),
    };
    plan.run("standing text", MILLION, |trial| {
        let sheets = sheets(&mut trial.dice);
        asked(trial, &mut desk, &sheets);
    });
    plan.run("standing, every sheet", MILLION, |trial| {
        let sheets = [short_sheet(trial.number() - 1), Vec::new()];
        asked(trial, &mut desk, &sheets);
    });
    plan.run("standing, long sheets", HUNDRED_THOUSAND / 10, |trial| {
        let sheets = long_sheets(&mut trial.dice);
        asked(trial, &mut desk, &sheets);
        written(trial, &mut desk, &sheets);
    });
    plan.run("written with standing", MILLION, |trial| {
        let sheets = sheets(&mut trial.dice);
        let number = written(trial, &mut desk, &sheets);
        trial.answered(number);
    });
    plan.run("standing beside slip", MILLION, |trial| {
        let sheets = match trial.number() % 3 {
            0 => Default::default(),
            _ => sheets(&mut trial.dice),
        };
        beside(trial, &mut desk, &sheets);
    });
}

/// The memory that a trial lends.
struct Desk {
    sheets: Pair,
    shelf: Shelf,
    out: Room,
    other: Room,
}

/// The memory of two sheets.
struct Pair {
    farm: Lender,
    association: Lender,
}

impl Pair {
    fn lend(&mut self, dice: &mut Dice, sheets: &[Vec<u8>; 2]) -> Sheets<'_> {
        let [farm, association] = sheets;
        Sheets {
            farm: self.farm.lend(farm, Side::any(dice)),
            association: self.association.lend(association, Side::any(dice)),
        }
    }
}

/// Which sheet, in the words of the header.
fn of_owner(owner: Option<Owner>) -> usize {
    match owner {
        None => 0,
        Some(Owner::Farm) => FARM,
        Some(Owner::Association) => ASSOCIATION,
    }
}

// Against second.

fn asked(trial: &mut Trial, desk: &mut Desk, sheets: &[Vec<u8>; 2]) {
    let field = generate::standing_field(&mut trial.dice);
    let lent = desk.sheets.lend(&mut trial.dice, sheets);
    let ours = lane::standing_text(field, lent);
    let [farm, association] = sheets;
    let theirs = match standing_text(field, farm, association) {
        Ok(None) => Standing::default(),
        Ok(Some(found)) => Standing {
            told: Told::default(),
            sheet: of_owner(Some(found.owner)),
            start: found.start,
            length: found.text.len(),
        },
        Err(Refused { refusal, owner }) => Standing {
            told: told::<()>(&Err(refusal)),
            sheet: of_owner(owner),
            ..Standing::default()
        },
    };
    let inputs: Inputs = &[
        ("field", &field),
        ("farm", farm),
        ("association", association),
    ];
    trial.same("standing_text", ours, theirs, inputs);
    trial.answered(ours.told.number);
}

fn written(trial: &mut Trial, desk: &mut Desk, sheets: &[Vec<u8>; 2]) -> usize {
    let dice = &mut trial.dice;
    let (cents, given) = (cents(dice), given(dice));
    let [farm, association] = sheets;
    let write = |room| {
        let Given { text, sizes } = &given;
        let written = write_standing(cents, text, sizes, farm, association, room);
        let owner = written.as_ref().err().and_then(|refused| refused.owner);
        (written.map_err(|refused| refused.refusal), owner)
    };
    let size = match told(&write(0).0).needed {
        0 => room_for(dice, needed(&given)),
        needed => room_for(dice, needed),
    };
    let side = Side::any(dice);
    let lent = desk.sheets.lend(dice, sheets);
    let (out, before) = desk.out.lend::<u8>(dice, size, side);
    let ours = lane::slip_write_standing(cents, desk.shelf.lend(&given, side), lent, out);
    let (theirs, owner) = write(size);
    let inputs: Inputs = &shown(&cents, &given, sheets, &size);
    let expected = StandingWritten {
        told: told(&theirs),
        value: theirs.as_ref().map_or(0, Vec::len),
        sheet: of_owner(owner),
    };
    trial.same("slip_write_standing", ours, expected, inputs);
    let slip = theirs.unwrap_or_default();
    trial.same_room("slip_write_standing", out, before, &slip, inputs);
    ours.told.number
}

/// What a writer is given.
fn shown<'a>(
    cents: &'a u64,
    given: &'a Given,
    sheets: &'a [Vec<u8>; 2],
    room: &'a usize,
) -> [(&'a str, &'a dyn Shown); 6] {
    [
        ("cents", cents),
        ("text", &given.text),
        ("sizes", &given.sizes),
        ("farm", &sheets[0]),
        ("association", &sheets[1]),
        ("room", room),
    ]
}

// Lanecockle's calls against each other.

/// What is written is what the plain writer makes of the fields with the standing
/// texts in their empty places, and so of the fields alone where the sheets are
/// empty; the reader has them again.
fn beside(trial: &mut Trial, desk: &mut Desk, sheets: &[Vec<u8>; 2]) {
    let dice = &mut trial.dice;
    let (cents, given) = (cents(dice), given(dice));
    let lent = desk.sheets.lend(dice, sheets);
    let (filled, malformed) = filled(&given, lent);
    let size = room_for(dice, needed(&filled));
    let side = Side::any(dice);
    let (out, before) = desk.out.lend::<u8>(dice, size, side);
    let (other, _) = desk.other.lend::<u8>(dice, size, side);
    other.copy_from_slice(before);
    let ours = lane::slip_write_standing(cents, desk.shelf.lend(&given, side), lent, out);
    let (plain, sheet) = match malformed {
        Some(found) => (
            Valued {
                told: found.told,
                value: 0,
            },
            found.sheet,
        ),
        None => (
            lane::slip_write(cents, desk.shelf.lend(&filled, side), other),
            0,
        ),
    };
    let expected = StandingWritten {
        told: plain.told,
        value: plain.value,
        sheet,
    };
    let inputs: Inputs = &shown(&cents, &given, sheets, &size);
    let call = "slip_write_standing beside slip_write";
    trial.same(call, ours, expected, inputs);
    trial.same_room(call, out, other, &[], inputs);
    if ours.told.number == 0 {
        read_again(trial, &out[..ours.value], &filled, inputs);
    }
    trial.answered(ours.told.number);
}

/// The fields with the standing texts in their empty places, or the malformed
/// line. Sizes that are not the text's are left to the writer.
fn filled(given: &Given, sheets: Sheets) -> (Given, Option<Standing>) {
    let Ok(mut texts) = given.fields::<TEXTS>() else {
        return (given.clone(), None);
    };
    for number in NUMBERS {
        let found = lane::standing_text(number, sheets);
        if found.told.number != 0 {
            return (given.clone(), Some(found));
        }
        let sheet = match found.sheet {
            FARM => sheets.farm,
            ASSOCIATION => sheets.association,
            _ => &[],
        };
        if texts[number - 4].is_empty() {
            let end = found.start.saturating_add(found.length);
            texts[number - 4] = sheet.get(found.start..end).unwrap_or_default();
        }
    }
    (Given::new(&texts.map(<[u8]>::to_vec)), None)
}

/// The reader accepts the slip and has each field where it was put.
fn read_again(trial: &Trial, slip: &[u8], filled: &Given, inputs: Inputs) {
    trial.same("slip_read", lane::slip_read(slip), Told::default(), inputs);
    let mut start = 29;
    for (number, field) in (4..).zip(filled.fields::<TEXTS>().unwrap_or_default()) {
        let length = field.len();
        let part = lane::slip_field(slip, number);
        trial.same("slip_field", part, Part { start, length }, inputs);
        trial.same("its bytes", &slip[start..][..length], field, inputs);
        start += length + 1;
    }
}

// Inputs.

/// From second's dice; or two right ones, at times one of them with a mishap, or
/// any bytes instead of it.
fn sheets(dice: &mut Dice) -> [Vec<u8>; 2] {
    let mut sheets = [generate::right_sheet(dice), generate::right_sheet(dice)];
    let sheet = &mut sheets[dice.below(2)];
    match dice.below(16) {
        0 => *sheet = bytes(dice, 40),
        1..=3 => *sheet = mishap(dice, std::mem::take(sheet), b'\n'),
        4..=7 => {}
        _ => return generate::sheets(dice),
    }
    sheets
}

/// All sheets of these bytes, the shortest first: a million are all of up to six.
fn short_sheet(number: u64) -> Vec<u8> {
    const BYTES: &[u8; 9] = b"4513=\nA 0";
    let (mut sheet, mut rest) = (Vec::new(), number);
    while rest > 0 {
        sheet.push(BYTES[(rest - 1) as usize % BYTES.len()]);
        rest = (rest - 1) / BYTES.len() as u64;
    }
    sheet
}

/// One of the two, or both, of up to 100 kB.
fn long_sheets(dice: &mut Dice) -> [Vec<u8>; 2] {
    let mut sheets = generate::sheets(dice);
    let place = dice.below(3);
    for (k, sheet) in sheets.iter_mut().enumerate() {
        if place != k {
            *sheet = generate::huge_sheet(dice, 100_000);
        }
    }
    sheets
}

/// Fields 4 to 14 with many empty ones, at times with sizes that are not theirs.
fn given(dice: &mut Dice) -> Given {
    let mut given = Given::new(&generate::texts_given(dice));
    if dice.one_in(8) {
        given.mangle(dice);
    }
    given
}

#[cfg(test)]
mod tests {
    use super::*;
    use std::collections::BTreeSet;

    #[test]
    fn every_sheet_once() {
        let all: BTreeSet<Vec<u8>> = (0..1 + 9 + 81 + 729).map(short_sheet).collect();
        assert_eq!(all.len(), 1 + 9 + 81 + 729);
        assert!(all.iter().all(|sheet| sheet.len() <= 3));
    }
}
