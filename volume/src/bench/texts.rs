//! IBANs, OIBs, references and listings.

use super::inputs::{
    made, model_text, wage_reference, wet_iban, wet_reference, wet_wage_reference,
};
use super::race::over;
use super::sheet::{Bar, Sheet};
use super::Size;
use crate::lane;
use second::account;
use second::generate::{oib, reference, right_account};
use second::reference::{Model, MODELS};
use second::wet::{list_iban, list_reference, WHOLE_ROOM};
use std::hint::black_box;

/// How many times as fast as digit by digit an IBAN is checked (document 02,
/// W3).
const DIGIT_BY_DIGIT: f64 = 3.0;
/// The bar of a listing of four marks.
const LISTING: f64 = 0.002;

pub fn run(size: Size, sheet: &mut Sheet) {
    let texts = made(1, right_account);
    let race = over(
        size,
        &texts,
        |text| lane::iban(text),
        |text| account::iban(text),
    );
    sheet.operations("IBAN", race, Bar::Ratio);
    let race = over(
        size,
        &texts,
        |text| lane::iban(text),
        |text| account::iban_digit_by_digit(text),
    );
    sheet.operations("IBAN, digit by digit", race, Bar::Times(DIGIT_BY_DIGIT));

    let texts = made(2, oib);
    let race = over(
        size,
        &texts,
        |text| lane::oib(text),
        |text| account::oib(text),
    );
    sheet.operations("OIB", race, Bar::Ratio);

    for model in &MODELS {
        let texts = made(3, |dice| reference(dice, model));
        let row = format!("reference HR{:02}", model.number);
        one_model(size, sheet, &row, &model_text(model), &texts);
    }
    let texts = made(3, wage_reference);
    one_model(size, sheet, "reference HR69, 3 parts", b"HR69", &texts);
    for marks in 1..=4 {
        listings(size, sheet, marks);
    }
    wage_listings(size, sheet);
}

fn one_model(size: Size, sheet: &mut Sheet, row: &str, name: &[u8], texts: &[Vec<u8>]) {
    let race = over(
        size,
        texts,
        |text| lane::reference(black_box(name), text),
        |text| Model::named(black_box(name)).and_then(|m| m.judge(text)),
    );
    sheet.operations(row, race, Bar::Ratio);
}

fn wage_listings(size: Size, sheet: &mut Sheet) {
    let mut out = vec![0; WHOLE_ROOM];
    let texts = made(5, |dice| wet_wage_reference(dice, 4));
    let race = over(
        size,
        &texts,
        |text| lane::list_reference(b"HR69", text, &mut out),
        |text| list_reference(b"HR69", text, WHOLE_ROOM),
    );
    let bar = Bar::RatioAndSeconds(LISTING);
    sheet.operations("listing HR69, 3 parts, 4 marks", race, bar);
}

fn listings(size: Size, sheet: &mut Sheet, marks: usize) {
    let bar = if marks == 4 {
        Bar::RatioAndSeconds(LISTING)
    } else {
        Bar::Ratio
    };
    let mut out = vec![0; WHOLE_ROOM];
    let texts = made(4, |dice| wet_iban(dice, marks));
    let race = over(
        size,
        &texts,
        |text| lane::list_iban(text, &mut out),
        |text| list_iban(text, WHOLE_ROOM),
    );
    sheet.operations(&format!("listing, IBAN, {marks} marks"), race, bar);

    let texts = made(5, |dice| wet_reference(dice, marks));
    let race = over(
        size,
        &texts,
        |(model, text)| lane::list_reference(model, text, &mut out),
        |(model, text)| list_reference(model, text, WHOLE_ROOM),
    );
    sheet.operations(&format!("listing, reference, {marks} marks"), race, bar);
}
