//! Standing text asked for and slips written with it, and how the cost grows with
//! a sheet.

use super::inputs::{made, standing, Standing};
use super::race::{over, Race};
use super::sheet::{Bar, Sheet};
use super::Size;
use crate::lane::{self, Lent, Sheets};
use second::slip::LARGEST;
use second::standing::{standing_text, write_standing};

/// A byte of a sheet of 1 MB may cost so much more than one of 1 kB.
const GROWTH: f64 = 2.0;

pub fn run(size: Size, sheet: &mut Sheet) {
    let all = made(10, standing);
    let race = over(
        size,
        &all,
        |asked| lane::standing_text(asked.field, lent(asked)),
        |asked| standing_text(asked.field, &asked.farm, &asked.association),
    );
    sheet.operations("standing text asked", race, Bar::Ratio);

    let mut out = [0; LARGEST];
    let race = over(
        size,
        &all,
        |asked| {
            let given = &asked.given;
            let fields = Lent {
                text: &given.text,
                sizes: &given.sizes,
            };
            lane::slip_write_standing(given.cents, fields, lent(asked), &mut out)
        },
        |asked| {
            let (given, room) = (&asked.given, LARGEST);
            let (farm, association) = (&asked.farm, &asked.association);
            write_standing(
                given.cents,
                &given.text,
                &given.sizes,
                farm,
                association,
                room,
            )
        },
    );
    sheet.operations("slip written with standing text", race, Bar::Ratio);

    // A right sheet is short; of the others these are read furthest.
    grown(size, sheet, "a line of letters", b"4=", b'a');
    grown(size, sheet, "a line of digits", b"", b'4');
}

fn lent(asked: &Standing) -> Sheets<'_> {
    Sheets {
        farm: &asked.farm,
        association: &asked.association,
    }
}

/// Malformed sheets of one line, from 1 kB to 1 MB: the time for a byte.
fn grown(size: Size, sheet: &mut Sheet, name: &str, front: &[u8], filler: u8) {
    println!("malformed sheet, {name}:");
    let races = [1_000, 10_000, 100_000, 1_000_000].map(|bytes| {
        let mut farm = front.to_vec();
        farm.resize(bytes - 1, filler);
        farm.push(b'\n');
        let sheets = [farm];
        let race = over(
            size,
            &sheets,
            |farm| {
                let association = &[];
                lane::standing_text(4, Sheets { farm, association })
            },
            |farm| standing_text(4, farm, &[]),
        );
        let a_byte = |seconds: f64| seconds / bytes as f64;
        let race = Race {
            ours: a_byte(race.ours),
            theirs: a_byte(race.theirs),
        };
        let shown = |seconds: f64| format!("{:.4} ns/B", seconds * 1e9);
        let name = format!("  {} kB", bytes / 1_000);
        sheet.plain(&name, &shown(race.ours), &shown(race.theirs), "");
        race
    });
    let [small, .., large] = races;
    let (ours, theirs) = (large.ours / small.ours, large.theirs / small.theirs);
    sheet.barred(
        "  a byte of 1 MB to one of 1 kB",
        &format!("{ours:.2}"),
        &format!("{theirs:.2}"),
        &format!("<= {GROWTH:?}"),
        ours <= GROWTH,
    );
}
