//! Wage lines judged one by one from varied records, and their places.

use super::wages::{amount, any_type, ended, fitting, lent, line, sum};
use super::MILLION;
use crate::dice::Dice;
use crate::ffi::Part;
use crate::guard::{Lender, Side};
use crate::lane;
use crate::maker::Maker;
use crate::trial::{told, Inputs, Plan, Trial};
use second::generate::right_day;
use second::wage::record::Record;
use second::wage::{place, Type};

pub fn run(plan: &Plan) {
    let (mut lender, mut maker) = (Lender::new(8192), Maker::new());
    plan.run("wage line judged", MILLION, |trial| {
        judged(trial, &mut maker, &mut lender);
    });
    plan.run("wage places", MILLION, |trial| {
        placed(trial, &mut maker, &mut lender);
    });
}

fn judged(trial: &mut Trial, maker: &mut Maker, lender: &mut Lender) {
    let dice = &mut trial.dice;
    let (of, day, kind) = (any_type(dice), right_day(dice), *dice.pick(&[4, 5]));
    let line = line(maker, dice, of, day, kind);
    let before = fitting(dice, of, day, kind, amount(&line));
    let before = varied(dice, before);
    let side = Side::any(dice);
    let ours = lane::judge_step(lent(before), lender.lend(&line, side));
    let theirs = before.step(&line);
    let (before, after) = (lent(before), lent(theirs));
    let inputs: Inputs = &[("record", &before), ("line", &line)];
    trial.same("judge_step", ours, after, inputs);
    let inputs: Inputs = &[("record", &after)];
    trial.same(
        "judge_end",
        lane::judge_end(after),
        ended(theirs.end()),
        inputs,
    );
    trial.answered(ours.told.number);
}

/// Mostly as it is: else something that the line does not expect.
pub fn varied(dice: &mut Dice, record: Record) -> Record {
    match dice.below(16) {
        0 => Record {
            condition: dice.below(4),
            ..record
        },
        1 => Record {
            counted: dice.below(3) as u64,
            ..record
        },
        2 => Record {
            declared: record.counted + 1 - dice.below(3) as u64,
            ..record
        },
        3 => Record {
            total: sum(dice),
            ..record
        },
        4 => Record {
            kind: *dice.pick(&[0, 4, 5, 6, u64::MAX]),
            ..record
        },
        5 => Record {
            day: *dice.pick(&[0, record.day + 1, record.day - 1, 99_991_231, 1 << 40]),
            ..record
        },
        _ => record,
    }
}

fn placed(trial: &mut Trial, maker: &mut Maker, lender: &mut Lender) {
    let dice = &mut trial.dice;
    let (of, day, kind) = (any_type(dice), right_day(dice), *dice.pick(&[4, 5]));
    let line = line(maker, dice, of, day, kind);
    let side = Side::any(dice);
    let strange = dice.roll() as usize;
    let lent = lender.lend(&line, side);
    for field in (0..=25).chain([strange, usize::MAX]) {
        let ours = lane::wage_place(lent, field);
        let theirs = part_of(&line, field);
        if ours != theirs {
            let inputs: Inputs = &[("line", &line), ("field", &field)];
            trial.same("wage_place", ours, theirs, inputs);
        }
    }
    trial.answered(told(&Type::of(&line)).number);
}

fn part_of(line: &[u8], field: usize) -> Part {
    match place(line, field) {
        [] => Part::default(),
        part => Part {
            start: part.as_ptr() as usize - line.as_ptr() as usize,
            length: part.len(),
        },
    }
}
