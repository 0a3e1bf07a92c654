//! Writes the inputs of volume/count, the same at each call, to standard output: for each workload of driver.c a count, then the items,
//! each its length and its bytes (numbers as u64, little-endian). Made by the generators of `second`.
use second::generate::{
    long_wage_file, oib, reference, right_account, right_slip, spoilt, wet, Dice,
};
use second::reference::MODELS;
use std::io::{self, Write};

fn write(out: &mut impl Write, items: &[Vec<u8>]) {
    out.write_all(&(items.len() as u64).to_le_bytes()).unwrap();
    for item in items {
        out.write_all(&(item.len() as u64).to_le_bytes()).unwrap();
        out.write_all(item).unwrap();
    }
}

fn made(seed: u64, count: usize, mut make: impl FnMut(&mut Dice) -> Vec<u8>) -> Vec<Vec<u8>> {
    let mut dice = Dice::new(seed);
    (0..count).map(|_| make(&mut dice)).collect()
}

fn model(number: u64) -> &'static second::reference::Model {
    MODELS.iter().find(|m| m.number as u64 == number).unwrap()
}

/// A reference of HR01 with so many marks, and digits enough for them.
fn wet_hr01(dice: &mut Dice) -> Vec<u8> {
    loop {
        let mut text = reference(dice, model(1));
        wet(dice, &mut text, 4);
        if text.iter().filter(|&&b| b == b'?').count() == 4 {
            return text;
        }
    }
}

fn main() {
    let mut out = io::stdout().lock();
    write(&mut out, &made(1, 1000, right_account));
    write(&mut out, &made(2, 1000, oib));
    write(&mut out, &made(3, 1000, |d| reference(d, model(1))));
    write(&mut out, &made(3, 1000, |d| reference(d, model(69))));
    let mut every = Vec::new();
    for m in &MODELS {
        for text in made(3, 100, |d| reference(d, m)) {
            every.push(format!("HR{:02}", m.number).into_bytes());
            every.push(text);
        }
    }
    write(&mut out, &every);
    write(
        &mut out,
        &made(8, 1000, |d| {
            let t = right_account(d);
            spoilt(d, t)
        }),
    );
    let mut wrong = Vec::new();
    for m in &MODELS {
        for text in made(9, 100, |d| {
            let t = reference(d, m);
            spoilt(d, t)
        }) {
            wrong.push(format!("HR{:02}", m.number).into_bytes());
            wrong.push(text);
        }
    }
    write(&mut out, &wrong);
    write(
        &mut out,
        &made(4, 4, |d| {
            let mut t = right_account(d);
            wet(d, &mut t, 4);
            t
        }),
    );
    write(&mut out, &made(5, 4, wet_hr01));
    write(
        &mut out,
        &made(6, 100, |d| {
            let mut s = right_slip(d).join(&b'\n');
            s.push(b'\n');
            s
        }),
    );
    write(
        &mut out,
        &made(7, 100, |d| {
            let fields = right_slip(d).split_off(3);
            let mut item = (d.roll() % 1_000_000_000_000_000).to_le_bytes().to_vec();
            for f in &fields {
                item.extend((f.len() as u64).to_le_bytes());
            }
            item.extend(fields.concat());
            item
        }),
    );
    let mut file = Vec::new();
    long_wage_file(1, 2000, &mut file).unwrap();
    let bytes = file.split_off(9);
    write(&mut out, &[file, bytes]);
}
