//! Document 02, W3: a night's recheck of IBANs.

use super::inputs::night;
use super::race::{plain_pass, turns};
use super::sheet::{scaled, Sheet};
use super::Size;
use crate::lane;
use second::account::IBAN_LENGTH;
use std::hint::black_box;

/// The IBANs that are checked in a night.
const NIGHT: usize = 100_000;

/// All of them lent one behind the other, beside a plain pass over the same
/// bytes.
pub fn run(size: Size, sheet: &mut Sheet) {
    let bytes = night(NIGHT);
    let right = |text: &&[u8]| lane::iban(text).number == 0;
    let race = turns(
        size.rounds,
        || {
            let texts = black_box(&bytes[..]).chunks(IBAN_LENGTH);
            assert_eq!(texts.filter(right).count(), NIGHT, "all are right");
        },
        || {
            black_box(plain_pass(black_box(&bytes)));
        },
    );
    let rate = |seconds: f64| scaled(NIGHT as f64 / seconds, "/s");
    let remark = format!(
        "{:.3} ms a night, {:.3} ms the plain pass",
        race.ours * 1e3,
        race.theirs * 1e3,
    );
    sheet.plain(
        "a night of IBANs, a plain pass",
        &rate(race.ours),
        &rate(race.theirs),
        &remark,
    );
}
