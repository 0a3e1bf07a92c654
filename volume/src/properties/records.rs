//! Records that the judge did not make: a step, the lines of a part of a file,
//! and the end answer as the law says.

use super::wages::{amount, any_type, ended, fitting, lent, line};
use super::MILLION;
use crate::dice::Dice;
use crate::guard::{Lender, Side};
use crate::lane;
use crate::maker::Maker;
use crate::trial::{Inputs, Plan, Trial};
use second::generate::{right_day, total};
use second::wage::record::{Cents, Record, Told, TOO_MUCH};
use second::wage::MOST_LINES;

pub fn run(plan: &Plan) {
    let (mut lender, mut maker) = (Lender::new(16_384), Maker::new());
    plan.run("record made up", MILLION, |trial| {
        one(trial, &mut maker, &mut lender);
    });
}

fn one(trial: &mut Trial, maker: &mut Maker, lender: &mut Lender) {
    let dice = &mut trial.dice;
    let (of, day, kind) = (any_type(dice), right_day(dice), *dice.pick(&[4, 5]));
    let mut bytes = line(maker, dice, of, day, kind);
    let cents = amount(&bytes);
    let mut record = fitting(dice, of, day, kind, cents);
    for _ in 0..dice.between(1, 3) {
        match dice.below(12) {
            0 => record.file_total = total(dice, cents),
            _ => mangle(dice, &mut record),
        }
    }
    for _ in 0..*dice.pick(&[0, 0, 0, 1, 2]) {
        let of = any_type(dice);
        bytes.extend(line(maker, dice, of, day, kind));
    }
    let side = Side::any(dice);
    let bytes = lender.lend(&bytes, side);
    let before = lent(record);
    let inputs: Inputs = &[("record", &before), ("bytes", &bytes)];
    let (stepped, judged) = (record.step(bytes), record.steps(bytes));
    trial.same(
        "judge_step",
        lane::judge_step(before, bytes),
        lent(stepped),
        inputs,
    );
    let ours = lane::judge_lines(before, bytes);
    trial.same("judge_lines", ours, lent(judged), inputs);
    let none = lane::judge_lines(before, &bytes[..0]);
    trial.same("judge_lines of none", none, lent(record.steps(&[])), inputs);
    let end = lane::judge_end(before);
    trial.same("judge_end", end, ended(record.end()), inputs);
    trial.same(
        "judge_end after",
        lane::judge_end(ours),
        ended(judged.end()),
        inputs,
    );
    trial.answered(end.told.number);
}

/// Another number in one of its places; the file's total stays.
pub fn mangle(dice: &mut Dice, record: &mut Record) {
    match dice.below(12) {
        0 | 1 => record.condition = *dice.pick(&[0, 1, 2, 3, 4, 4, 4, 5, 6, 1 << 32, usize::MAX]),
        2 => record.told = any_told(dice),
        3 => {
            record.condition = 4;
            record.told = any_told(dice);
        }
        4 => record.day = any_number(dice),
        5 => record.kind = any_number(dice),
        6 => record.lines = any_count(dice) as usize,
        7 => record.groups = any_count(dice) as usize,
        8 => record.orders = any_count(dice) as usize,
        9 => record.declared = any_count(dice),
        10 => record.counted = any_count(dice),
        _ => match dice.below(2) {
            0 => record.promised = any_sum(dice),
            _ => record.total = any_sum(dice),
        },
    }
}

fn any_number(dice: &mut Dice) -> u64 {
    match dice.below(3) {
        0 => dice.roll(),
        1 => *dice.pick(&[0, 4, 5, 20_240_229, u64::from(u32::MAX), 1 << 32, u64::MAX]),
        _ => dice.roll() % 100_000_000,
    }
}

fn any_told(dice: &mut Dice) -> Told {
    let number = match dice.below(8) {
        0 => dice.roll() as usize,
        1 => *dice.pick(&[0, 18, 255, 256, 1 << 32, usize::MAX]),
        2 => 15,
        // The numbers of 02, of which a record keeps those that were brought.
        3 => dice.between(18, 30),
        _ => dice.between(1, 17),
    };
    Told {
        number,
        line: any_number(dice) as usize,
        field: any_number(dice) as usize,
        byte: any_number(dice) as usize,
        needed: any_number(dice) as usize,
    }
}

/// About 1,000,000, or anything.
fn any_count(dice: &mut Dice) -> u64 {
    match dice.below(6) {
        0 => dice.roll(),
        1 => *dice.pick(&[0, 1, u64::from(u32::MAX) + 1, u64::MAX]),
        _ => MOST_LINES as u64 - 2 + dice.roll() % 5,
    }
}

/// About 10^20, about the largest numbers, or anything.
fn any_sum(dice: &mut Dice) -> Cents {
    match dice.below(6) {
        0 => Cents {
            high: dice.roll(),
            low: dice.roll(),
        },
        1 => Cents {
            high: u64::MAX - dice.roll() % 2,
            low: u64::MAX - dice.roll() % 2,
        },
        2 => Cents {
            high: 78 + dice.roll() % 6,
            low: u64::MAX - dice.roll() % 1_000_000_000_000_000_000,
        },
        3 => Cents {
            high: 98 + dice.roll() % 4,
            low: 999_999_999_999_999_999 + dice.roll() % 3,
        },
        _ => Cents::of_group(TOO_MUCH - dice.roll() as u128 % 3),
    }
}
