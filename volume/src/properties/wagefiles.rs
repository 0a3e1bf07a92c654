//! Wage files judged whole, step by step, and in parts.

use super::rounds::written_file;
use super::wages::{ended, lent};
use super::HUNDRED_THOUSAND;
use crate::dice::{bytes, damaged, mixed, Dice};
use crate::guard::{Lender, Side};
use crate::lane;
use crate::maker::Maker;
use crate::trial::{Inputs, Plan, Trial};
use second::generate::{large_wage_file, right_wage_file, wage_input};
use second::wage::record::{Ended, Record, Told};
use second::wage::{whole, LINE};

/// Eight digits and a line feed stand before the file in a program's input.
const FRONT: usize = 9;
/// Bytes of such a file at the most.
pub const LARGEST: usize = 1 << 18;

pub fn run(plan: &Plan) {
    let (mut lender, mut maker) = (Lender::new(LARGEST), Maker::new());
    plan.run("wage file", HUNDRED_THOUSAND, |trial| {
        let (day, file) = file(&mut maker, &mut trial.dice);
        one(trial, &mut lender, day, &file);
    });
    let mut lender = Lender::new(20_000 * LINE);
    plan.run("wage file past 2^64", 10, |trial| {
        let (day, file) = large(trial.number(), &mut trial.dice);
        one(trial, &mut lender, day, &file);
    });
}

fn one(trial: &mut Trial, lender: &mut Lender, day: u64, file: &[u8]) {
    let side = Side::any(&mut trial.dice);
    let file = lender.lend(file, side);
    let inputs: Inputs = &[("day", &day), ("file", &file)];

    let answer = whole(u32::try_from(day).unwrap_or(0), file);
    let expected = ended(answer.map(Ended::from).map_err(Told::of));
    trial.same("wage_file", lane::wage_file(day, file), expected, inputs);

    let mut record = Record::begin(day);
    let mut ours = lane::judge_begin(day);
    trial.same("judge_begin", ours, lent(record), inputs);
    for line in file.chunks(LINE) {
        record = record.step(line);
        ours = lane::judge_step(ours, line);
        trial.same("judge_step", ours, lent(record), inputs);
    }
    trial.same(
        "judge_end",
        lane::judge_end(ours),
        ended(record.end()),
        inputs,
    );
    trial.same(
        "judge_end and wage_file",
        ended(record.end()),
        expected,
        inputs,
    );

    let mut parts = lane::judge_begin(day);
    for part in cuts(&mut trial.dice, file) {
        parts = lane::judge_lines(parts, part);
    }
    trial.same("judge_lines", parts, lent(record), inputs);
    trial.answered(expected.told.number);
}

/// The file in parts, cut between lines wherever the dice say.
fn cuts<'a>(dice: &mut Dice, file: &'a [u8]) -> Vec<&'a [u8]> {
    let lines = file.len() / LINE;
    let mut ends: Vec<usize> = (0..dice.between(0, 5))
        .map(|_| dice.between(0, lines) * LINE)
        .collect();
    ends.extend([0, file.len()]);
    ends.sort_unstable();
    ends.windows(2)
        .map(|pair| &file[pair[0]..pair[1]])
        .collect()
}

/// A day and a file, right or damaged.
pub fn file(maker: &mut Maker, dice: &mut Dice) -> (u64, Vec<u8>) {
    match dice.below(10) {
        0..=5 => {
            let input = wage_input(dice);
            let front = input.len().min(FRONT);
            (day_of(&input[..front]), input[front..].to_vec())
        }
        6 => {
            let file = right_wage_file(dice);
            (u64::from(file.day), file.lines.as_flattened().to_vec())
        }
        7 => {
            let file = written_file(maker, dice);
            let bytes = match dice.below(2) {
                0 => damaged(dice, file.bytes),
                _ => file.bytes,
            };
            (file.day, bytes)
        }
        8 => lines_about(dice),
        _ if dice.one_in(8) => (any_day(dice), bytes(dice, 3 * LINE)),
        _ => {
            let file = right_wage_file(dice);
            (any_day(dice), file.lines.as_flattened().to_vec())
        }
    }
}

/// A right file with its lines in another order, doubled or left out.
fn lines_about(dice: &mut Dice) -> (u64, Vec<u8>) {
    let mut file = right_wage_file(dice);
    let place = dice.below(file.lines.len());
    match dice.below(4) {
        0 => mixed(dice, &mut file.lines),
        1 => file.lines.insert(place, file.lines[place]),
        2 => drop(file.lines.remove(place)),
        _ => file.lines.extend_from_within(place..),
    }
    (u64::from(file.day), file.lines.as_flattened().to_vec())
}

/// What the front of a program's input says; 0 is no date.
fn day_of(front: &[u8]) -> u64 {
    let digits = front.strip_suffix(b"\n").unwrap_or_default();
    if digits.len() != FRONT - 1 || !digits.iter().all(u8::is_ascii_digit) {
        return 0;
    }
    digits.iter().fold(0, |n, b| n * 10 + u64::from(b - b'0'))
}

fn any_day(dice: &mut Dice) -> u64 {
    match dice.below(3) {
        0 => dice.roll(),
        1 => 20_230_000 + dice.roll() % 10_000,
        _ => *dice.pick(&[0, 20_221_231, 20_240_229, 99_991_231, 100_000_101, u64::MAX]),
    }
}

/// A group whose sum is above 2^64, declared right or 2^64 less.
pub fn large(number: u64, dice: &mut Dice) -> (u64, Vec<u8>) {
    let (mut file, sum) = large_wage_file(dice);
    let declared = match number % 2 {
        0 => sum,
        _ => sum - (1 << 64),
    };
    file.lines[1][53..73].copy_from_slice(format!("{declared:020}").as_bytes());
    (u64::from(file.day), file.lines.as_flattened().to_vec())
}
