//! What the properties of wage files share: lines, records, and the words of
//! the header for second's record and tally.

use crate::dice::{damaged, fill, Dice};
use crate::ffi;
use crate::maker::{Head, Maker};
use crate::trial::of_told;
use second::generate::{right_group, right_label, right_order, spoil, total, Fields};
use second::wage::record::{Cents, Ended, Record, Tally, Told, TOO_MUCH};
use second::wage::{place, places, Type, LINE, MOST_LINES, TOO_MUCH_IN_ALL, TYPE};

pub fn cents(cents: Cents) -> ffi::Cents {
    ffi::Cents {
        high: cents.high,
        low: cents.low,
    }
}

/// Second's record in the words of the header.
pub fn lent(record: Record) -> ffi::Record {
    ffi::Record {
        condition: record.condition,
        told: of_told(record.told),
        day: record.day,
        kind: record.kind,
        lines: record.lines,
        groups: record.groups,
        orders: record.orders,
        file_total: cents(record.file_total),
        declared: record.declared,
        promised: cents(record.promised),
        counted: record.counted,
        total: cents(record.total),
    }
}

/// Second's tally in the words of the header.
pub fn lent_tally(tally: Tally) -> ffi::Tally {
    ffi::Tally {
        groups: tally.groups,
        orders: tally.orders,
        total: cents(tally.total),
    }
}

/// Second's end in the words of the header.
pub fn ended(end: Result<Ended, Told>) -> ffi::Ended {
    match end {
        Ok(accepted) => ffi::Ended {
            told: ffi::Told::default(),
            lines: accepted.lines,
            groups: accepted.groups,
            orders: accepted.orders,
            total: cents(accepted.total),
        },
        Err(told) => ffi::Ended {
            told: of_told(told),
            ..ffi::Ended::default()
        },
    }
}

// Lines.

/// A line of this type, right or spoilt in its fields, then perhaps damaged.
pub fn line(maker: &mut Maker, dice: &mut Dice, of: Type, day: u32, kind: u64) -> Vec<u8> {
    let mut fields = match of {
        Type::Label => right_label(dice, day, kind),
        Type::Group => whole_group(dice, day),
        Type::Order => right_order(dice, kind),
        Type::Close => Vec::new(),
    };
    let wrong = *dice.pick(&[0, 0, 0, 1, 1, 2, 3]);
    // A 301 of Lanecockle's would need its orders.
    if wrong == 0 && of != Type::Group && dice.one_in(2) {
        let day = u64::from(day);
        let line = maker.line(dice, Head { of, day, kind }, &fields, &[]);
        return damaged_line(dice, line.unwrap_or_default());
    }
    for _ in 0..wrong {
        if of != Type::Close {
            spoil(dice, of, &mut fields, day);
        }
    }
    let line = laid(dice, of, &fields);
    damaged_line(dice, line)
}

/// Fields 1 to 7 of a 301, with a number of orders and a sum.
fn whole_group(dice: &mut Dice, day: u32) -> Fields {
    let mut fields = right_group(dice, day);
    let (orders, sum) = (dice.below(100_000), dice.roll() as usize);
    let orders = *dice.pick(&[1, 2, 99_999, 0, orders]);
    let sum = *dice.pick(&[0, 1, sum, usize::MAX]);
    fields.insert(4, format!("{orders:05}").into_bytes());
    fields.insert(5, format!("{sum:020}").into_bytes());
    fields
}

/// The fields at their places, with blanks or anything else between.
fn laid(dice: &mut Dice, of: Type, fields: &Fields) -> Vec<u8> {
    let mut line = vec![b' '; LINE];
    if dice.one_in(4) {
        fill(dice, &mut line);
    }
    for (place, field) in places(of).iter().zip(fields) {
        line[place.range()].copy_from_slice(field);
    }
    line[TYPE].copy_from_slice(of.digits());
    line[TYPE.end..].copy_from_slice(b"\r\n");
    line
}

/// Mostly as it is.
fn damaged_line(dice: &mut Dice, mut line: Vec<u8>) -> Vec<u8> {
    match dice.below(24) {
        0 => damaged(dice, line),
        1 => {
            line.truncate(dice.below(LINE));
            line
        }
        2 if line.len() == LINE => {
            let place = dice.between(TYPE.start, LINE - 1);
            line[place] = *dice.pick(b"\r\n 0139\0");
            line
        }
        3 if line.len() == LINE => {
            let place = dice.below(LINE);
            line[place] ^= 1 << dice.below(8);
            line
        }
        4 if dice.one_in(4) => {
            line.resize(*dice.pick(&[0, 1, 1001, 1003, 2004]), b' ');
            fill(dice, &mut line);
            line
        }
        _ => line,
    }
}

/// The amount of a 309 in cents; 0 where there is none.
pub fn amount(line: &[u8]) -> u64 {
    let digits = match Type::of(line) {
        Ok((_, Type::Order)) => place(line, 10),
        _ => &[],
    };
    let digits = std::str::from_utf8(digits).unwrap_or_default();
    digits.parse().unwrap_or(0)
}

pub fn any_type(dice: &mut Dice) -> Type {
    *dice.pick(&[
        Type::Label,
        Type::Group,
        Type::Order,
        Type::Order,
        Type::Order,
        Type::Close,
    ])
}

// Records.

/// A record from which a line of this type may be read, an order of so many
/// cents.
pub fn fitting(dice: &mut Dice, of: Type, day: u32, kind: u64, cents: u64) -> Record {
    let counted = dice.between(1, 99_998) as u64;
    let total = sum(dice);
    let mut record = Record {
        condition: match of {
            Type::Label => 0,
            Type::Group => *dice.pick(&[1, 2]),
            _ => 2,
        },
        day: u64::from(day),
        kind,
        lines: count(dice),
        groups: count(dice),
        orders: count(dice),
        file_total: file_total(dice, cents),
        declared: counted,
        promised: total,
        counted,
        total,
        ..Record::default()
    };
    match of {
        Type::Order => record.declared = counted + dice.between(1, 2) as u64,
        // The same sum in other numbers.
        _ if total.high > 0 && total.low <= u64::MAX - 1_000_000_000_000_000_000 => {
            record.promised = Cents {
                high: total.high - 1,
                low: total.low + 1_000_000_000_000_000_000,
            };
        }
        _ => {}
    }
    record
}

/// A file's total of fewer than 10^21 cents: some, or about all that an order of
/// so many may be added to.
pub fn file_total(dice: &mut Dice, cents: u64) -> Cents {
    let some = Cents::in_all(u128::from(dice.roll() % 1_000_000_000_000_000));
    match total(dice, cents) {
        edge if edge.value() < TOO_MUCH_IN_ALL => *dice.pick(&[some, edge]),
        _ => some,
    }
}

/// Small, or about the most that there may be.
pub fn count(dice: &mut Dice) -> usize {
    match dice.below(8) {
        0 => MOST_LINES - dice.below(3),
        _ => dice.below(1000),
    }
}

/// A sum of fewer than 10^20 cents, about 2^64 or about 10^20 now and then.
pub fn sum(dice: &mut Dice) -> Cents {
    match dice.below(8) {
        0 => Cents::of_group(TOO_MUCH - 1 - u128::from(dice.roll() % 3)),
        1 => Cents::of_group(u128::from(u64::MAX) + u128::from(dice.roll() % 3) - 1),
        2 => Cents {
            high: dice.roll() % 81,
            low: dice.roll(),
        },
        3 => Cents::of_group(TOO_MUCH - 1 - u128::from(dice.roll() % 2_000_000_000_000_000)),
        _ => Cents::of_group(u128::from(dice.roll() % 1_000_000_000)),
    }
}
