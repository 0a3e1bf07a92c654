//! A step with a tally: one line from varied records and tallies, files from
//! nothing, and one tally over several files; and what W5 does not change.

use super::lines::varied;
use super::records::mangle;
use super::wagefiles::{file, large, LARGEST};
use super::wages::{amount, any_type, ended, file_total, fitting, lent, lent_tally, line};
use super::{HUNDRED_THOUSAND, MILLION};
use crate::dice::Dice;
use crate::ffi;
use crate::guard::{Lender, Room, Side};
use crate::lane;
use crate::maker::Maker;
use crate::trial::{Inputs, Plan, Trial};
use second::generate::{lent_tally as any_tally, right_day, total};
use second::wage::record::{Cents, Record, Tally, REFUSED};
use second::wage::{Type, LINE, TOO_MUCH_IN_ALL};

/// The call whose tally is looked at.
const TALLY: &str = "judge_step_tally, its tally";

/// What lines and tallies are lent from.
struct Desk {
    maker: Maker,
    lines: Lender,
    tally: Room,
}

impl Desk {
    fn new(lines: usize) -> Desk {
        Desk {
            maker: Maker::new(),
            lines: Lender::new(lines),
            tally: Room::new(size_of::<ffi::Tally>()),
        }
    }
}

pub fn run(plan: &Plan) {
    let mut desk = Desk::new(LARGEST);
    plan.run("step with a tally", MILLION, |trial| {
        one_line(trial, &mut desk);
    });
    plan.run("tally of a file", HUNDRED_THOUSAND, |trial| {
        let (day, file) = file(&mut desk.maker, &mut trial.dice);
        from_nothing(trial, &mut desk, day, &file);
    });
    plan.run("tally over files", HUNDRED_THOUSAND, |trial| {
        over_files(trial, &mut desk);
    });
    plan.run("judge before W5", MILLION, |trial| {
        one_before(trial, &mut desk);
    });
    plan.run("file before W5", HUNDRED_THOUSAND, |trial| {
        let (day, file) = file(&mut desk.maker, &mut trial.dice);
        file_before(trial, &mut desk, day, &file);
    });
    let mut desk = Desk::new(20_000 * LINE);
    plan.run("tally past 2^64", 10, |trial| {
        let (day, file) = large(trial.number(), &mut trial.dice);
        from_nothing(trial, &mut desk, day, &file);
    });
}

// One line.

/// Two steps one after the other: a refusal of the first stays.
fn one_line(trial: &mut Trial, desk: &mut Desk) {
    let dice = &mut trial.dice;
    let (of, day, kind) = (any_type(dice), right_day(dice), *dice.pick(&[4, 5]));
    let first = line(&mut desk.maker, dice, of, day, kind);
    let cents = amount(&first);
    let mut before = fitting(dice, of, day, kind, cents);
    before = varied(dice, before);
    match dice.below(8) {
        0 => mangle(dice, &mut before),
        1 => before.file_total = total(dice, cents),
        _ => {}
    }
    let of = any_type(dice);
    let next = line(&mut desk.maker, dice, of, day, kind);
    let mut theirs = any_tally(dice, cents);
    let side = Side::any(dice);
    let tally = desk.tally.hold(lent_tally(theirs), side);

    let mut numbers = [0; 2];
    for (line, number) in [&first, &next].into_iter().zip(&mut numbers) {
        let (record, stood) = (lent(before), *tally);
        let inputs: Inputs = &[("record", &record), ("tally", &stood), ("line", line)];
        let ours = lane::judge_step_tally(record, desk.lines.lend(line, side), tally);
        before = before.step_tally(line, &mut theirs);
        trial.same("judge_step_tally", ours, lent(before), inputs);
        trial.same(TALLY, *tally, lent_tally(theirs), inputs);
        *number = ours.told.number;
    }
    trial.answered(numbers[0]);
}

// Whole files.

/// What adding the lines read so far gives, anew.
#[derive(Clone, Copy, Default)]
struct Added {
    groups: usize,
    orders: usize,
    cents: u128,
}

impl Added {
    fn add(&mut self, line: &[u8]) {
        match Type::of(line) {
            Ok((_, Type::Group)) => self.groups += 1,
            Ok((_, Type::Order)) => {
                self.orders += 1;
                self.cents += u128::from(amount(line));
            }
            _ => {}
        }
    }

    fn tally(self) -> ffi::Tally {
        ffi::Tally {
            groups: self.groups,
            orders: self.orders,
            total: ffi::Cents {
                high: (self.cents / 1_000_000_000_000_000_000) as u64,
                low: (self.cents % 1_000_000_000_000_000_000) as u64,
            },
        }
    }
}

/// A file from nothing: the tally is what adding all orders anew gives, the
/// judge the one that a step without a tally gives, and 29 never comes.
fn from_nothing(trial: &mut Trial, desk: &mut Desk, day: u64, file: &[u8]) {
    let side = Side::any(&mut trial.dice);
    let file = desk.lines.lend(file, side);
    let inputs: Inputs = &[("day", &day), ("file", &file)];
    let tally = desk.tally.hold(ffi::Tally::default(), side);
    let mut record = lane::judge_begin(day);
    let mut added = Added::default();
    for line in file.chunks(LINE) {
        let without = lane::judge_step(record, line);
        record = lane::judge_step_tally(record, line, tally);
        trial.same("with a tally and without", record, without, inputs);
        trial.same("29 from nothing", record.told.number == 29, false, inputs);
        if record.condition != REFUSED {
            added.add(line);
        }
        trial.same("the orders added", *tally, added.tally(), inputs);
    }
    let whole = lane::wage_file(day, file);
    trial.same("judge_end", lane::judge_end(record), whole, inputs);
    if whole.told.number == 0 {
        let told = (whole.groups, whole.orders, whole.total);
        let expected = (tally.groups, tally.orders, tally.total);
        trial.same("the file's total", told, expected, inputs);
    } else {
        let none = ffi::Cents::default();
        trial.same("a refused file's total", whole.total, none, inputs);
    }
    trial.answered(whole.told.number);
}

/// One tally through several files, each with a fresh judge, from nothing or
/// from numbers near its limits.
fn over_files(trial: &mut Trial, desk: &mut Desk) {
    let nothing = !trial.dice.one_in(3);
    let mut theirs = if nothing {
        Tally::default()
    } else {
        any_tally(&mut trial.dice, 0)
    };
    let side = Side::any(&mut trial.dice);
    let tally = desk.tally.hold(lent_tally(theirs), side);
    let mut added = Added::default();
    let mut last = 0;
    for _ in 0..trial.dice.between(2, 4) {
        let (day, file) = file(&mut desk.maker, &mut trial.dice);
        let file = desk.lines.lend(&file, side);
        let begun = *tally;
        let inputs: Inputs = &[("tally", &begun), ("day", &day), ("file", &file)];
        let mut record = Record::begin(day);
        for line in file.chunks(LINE) {
            let ours = lane::judge_step_tally(lent(record), line, tally);
            record = record.step_tally(line, &mut theirs);
            trial.same("judge_step_tally", ours, lent(record), inputs);
            trial.same(TALLY, *tally, lent_tally(theirs), inputs);
            if record.condition != REFUSED {
                added.add(line);
            }
        }
        if nothing {
            trial.same("all orders added", *tally, added.tally(), inputs);
        }
        let end = lane::judge_end(lent(record));
        trial.same("judge_end", end, ended(record.end()), inputs);
        last = end.told.number;
    }
    trial.answered(last);
}

// What held before W5.

/// A judge without a total: the same record, with none before and none after.
fn without(record: ffi::Record) -> ffi::Record {
    ffi::Record {
        file_total: ffi::Cents::default(),
        ..record
    }
}

fn end_without(ended: ffi::Ended) -> ffi::Ended {
    ffi::Ended {
        total: ffi::Cents::default(),
        ..ended
    }
}

/// 29 was the number of no refusal: one that still is none takes its place.
fn before_w5(mut record: Record) -> Record {
    if record.told.number == 29 {
        record.told.number = 30;
    }
    record
}

/// Any record whose total is below 10^21 steps and ends as one without a total.
fn one_before(trial: &mut Trial, desk: &mut Desk) {
    let dice = &mut trial.dice;
    let (of, day, kind) = (any_type(dice), right_day(dice), *dice.pick(&[4, 5]));
    let mut bytes = line(&mut desk.maker, dice, of, day, kind);
    let cents = amount(&bytes);
    let mut record = fitting(dice, of, day, kind, cents);
    record = varied(dice, record);
    if dice.one_in(2) {
        mangle(dice, &mut record);
    }
    record = before_w5(record);
    record.file_total = total_with_room(dice, cents);
    if dice.one_in(3) {
        let of = any_type(dice);
        bytes.extend(line(&mut desk.maker, dice, of, day, kind));
    }
    let side = Side::any(dice);
    let bytes = desk.lines.lend(&bytes, side);
    let before = lent(record);
    let inputs: Inputs = &[("record", &before), ("bytes", &bytes)];
    let none = Record {
        file_total: Cents::default(),
        ..record
    };
    let stepped = without(lane::judge_step(before, bytes));
    let expected = without(lent(none.step(bytes)));
    trial.same("judge_step", stepped, expected, inputs);
    let judged = lane::judge_lines(before, bytes);
    let expected = none.steps(bytes);
    let call = "judge_lines";
    trial.same(call, without(judged), without(lent(expected)), inputs);
    let end = end_without(lane::judge_end(before));
    let call = "judge_end";
    trial.same(call, end, end_without(ended(none.end())), inputs);
    let end = end_without(lane::judge_end(judged));
    let call = "judge_end after";
    trial.same(call, end, end_without(ended(expected.end())), inputs);
    trial.answered(stepped.told.number);
}

/// A total that is below 10^21 after two orders, of so many cents and of the most.
fn total_with_room(dice: &mut Dice, cents: u64) -> Cents {
    const MOST_CENTS: u128 = 999_999_999_999_999;
    loop {
        let total = file_total(dice, cents);
        if total.value() + u128::from(cents) + MOST_CENTS < TOO_MUCH_IN_ALL {
            return total;
        }
    }
}

/// A file, whole and line by line, as a judge without a total answers it.
fn file_before(trial: &mut Trial, desk: &mut Desk, day: u64, file: &[u8]) {
    let side = Side::any(&mut trial.dice);
    let file = desk.lines.lend(file, side);
    let inputs: Inputs = &[("day", &day), ("file", &file)];
    let mut theirs = Record::begin(day);
    let mut ours = lane::judge_begin(day);
    trial.same("judge_begin", ours, lent(theirs), inputs);
    for line in file.chunks(LINE) {
        theirs = Record {
            file_total: Cents::default(),
            ..theirs.step(line)
        };
        ours = lane::judge_step(ours, line);
        trial.same("judge_step", without(ours), lent(theirs), inputs);
    }
    let expected = ended(theirs.end());
    for (call, end) in [
        ("judge_end", lane::judge_end(ours)),
        ("wage_file", lane::wage_file(day, file)),
    ] {
        trial.same(call, end_without(end), expected, inputs);
    }
    trial.answered(expected.told.number);
}
