//! A wage file judged whole, step by step, and by the programs.

use super::child::{self, Spent};
use super::race::{plain_pass, turns, Race};
use super::sheet::{scaled, Sheet};
use super::Size;
use crate::clock::seconds;
use crate::ffi::{Record, Tally};
use crate::lane;
use second::generate::long_wage_file;
use second::wage::{self, whole, Judge, LINE};
use std::fs;
use std::hint::black_box;
use std::io;
use std::path::{Path, PathBuf};

/// Eight digits and a line feed come before the file.
const FRONT: usize = 9;
/// The bar of a file judged step by step: a record is handed over at each line.
const STEPS: f64 = 0.95;
/// The bar of a step with a tally beside one without (document 02, W5).
const TALLY: f64 = 0.9;
/// Lines that are gone through by turns with a tally, and turns at the least: a
/// machine that is busy with other things is slow for longer than one takes.
const STRETCH: usize = 5_000;
const TURNS: usize = 20;
/// The bar of the program's memory.
const MEMORY: u64 = 8 * 1024 * 1024;

pub fn run(size: Size, sheet: &mut Sheet) -> io::Result<()> {
    let mut input = Vec::with_capacity(FRONT + size.lines * LINE);
    long_wage_file(1, size.lines, &mut input)?;
    in_memory(size, sheet, &input);
    let kept = Kept::new(&input)?;
    drop(input);
    by_programs(size, sheet, &kept.0)
}

fn in_memory(size: Size, sheet: &mut Sheet, input: &[u8]) {
    let (front, bytes) = input.split_at(FRONT);
    let day = day(front);
    let accepted = whole(day, bytes).expect("a right file");
    assert_eq!(accepted.lines, size.lines);
    let ours = lane::wage_file(u64::from(day), bytes);
    assert_eq!((ours.told.number, ours.lines), (0, size.lines));
    println!("wage file of {} lines:", size.lines);

    let race = turns(
        size.passes,
        || {
            black_box(lane::wage_file(u64::from(day), black_box(bytes)));
        },
        || {
            let _ = black_box(whole(day, black_box(bytes)));
        },
    );
    sheet.bytes("  judged whole", bytes.len(), race, 1.0);
    let best_whole = race.ours;

    let race = turns(
        size.passes,
        || step_by_step(day, black_box(bytes)),
        || second_step_by_step(day, black_box(bytes)),
    );
    sheet.bytes("  judged step by step", bytes.len(), race, STEPS);

    let [by_second, by_none] = with_tally(size, day, bytes);
    sheet.bytes("  in steps with a tally", bytes.len(), by_second, STEPS);
    sheet.bytes("  beside our own without one", bytes.len(), by_none, TALLY);

    let sum = (0..size.passes)
        .map(|_| {
            seconds(|| {
                black_box(plain_pass(black_box(bytes)));
            })
        })
        .fold(f64::INFINITY, f64::min);
    let rate = scaled(bytes.len() as f64 / sum, "B/s");
    let remark = format!("{:.3} of its speed judged whole", sum / best_whole);
    sheet.plain("  a plain pass (sum of bytes)", &rate, "", &remark);
}

fn step_by_step(day: u32, bytes: &[u8]) {
    let record = steps(lane::judge_begin(u64::from(day)), bytes);
    assert_eq!(black_box(lane::judge_end(record)).told.number, 0);
}

fn steps(mut record: Record, bytes: &[u8]) -> Record {
    for line in bytes.chunks(LINE) {
        record = lane::judge_step(record, line);
    }
    record
}

/// Steps with a tally by turns with second's, and by turns with our own without
/// one: the best turns over each stretch of the file, together.
fn with_tally(size: Size, day: u32, bytes: &[u8]) -> [Race; 2] {
    let rounds = size.passes.max(TURNS);
    let (mut record, mut tally) = (lane::judge_begin(u64::from(day)), Tally::default());
    let (mut judge, mut counted) = (Judge::begin(day), wage::Tally::default());
    let mut races = [Race::NOTHING; 2];
    for stretch in bytes.chunks(STRETCH * LINE) {
        let (begun, second_begun) = (tally, (judge, counted));
        let mut ours = || {
            tally = begun;
            black_box(steps_tally(record, black_box(stretch), &mut tally));
        };
        let by_second = turns(rounds, &mut ours, || {
            (judge, counted) = second_begun;
            second_steps_tally(&mut judge, black_box(stretch), &mut counted);
        });
        let by_none = turns(rounds, &mut ours, || {
            black_box(steps(record, black_box(stretch)));
        });
        races = [races[0].and(by_second), races[1].and(by_none)];
        record = lane::judge_lines(record, stretch);
    }
    let (ended, accepted) = (lane::judge_end(record), judge.end().expect("a right file"));
    assert_eq!((tally.orders, tally.total), (ended.orders, ended.total));
    assert_eq!(
        (counted.orders, counted.total),
        (accepted.orders, accepted.total)
    );
    races
}

fn steps_tally(mut record: Record, bytes: &[u8], tally: &mut Tally) -> Record {
    for line in bytes.chunks(LINE) {
        record = lane::judge_step_tally(record, line, black_box(&mut *tally));
    }
    record
}

fn second_steps_tally(judge: &mut Judge, bytes: &[u8], tally: &mut wage::Tally) {
    for line in bytes.chunks(LINE) {
        if black_box(judge.step_tally(line, black_box(&mut *tally))).is_err() {
            break;
        }
    }
}

fn second_step_by_step(day: u32, bytes: &[u8]) {
    let mut judge = Judge::begin(day);
    for line in bytes.chunks(LINE) {
        if black_box(judge.step(line)).is_err() {
            break;
        }
    }
    assert!(black_box(judge.end()).is_ok());
}

fn day(front: &[u8]) -> u32 {
    let digits = std::str::from_utf8(&front[..FRONT - 1]).expect("digits");
    digits.parse().expect("a number")
}

fn by_programs(size: Size, sheet: &mut Sheet, file: &Path) -> io::Result<()> {
    let (ours, theirs) = (child::wagefile(), child::second());
    if !theirs.exists() {
        sheet.plain("  by the program wagefile", "", "not built", "");
        return Ok(());
    }
    let (mut best, mut other) = (Spent::NOTHING, Spent::NOTHING);
    for _ in 0..size.passes {
        if ours.exists() {
            best = best.and(child::measured(&[ours.as_os_str()], file)?);
        }
        other = other.and(child::measured(
            &[theirs.as_os_str(), "wagefile".as_ref()],
            file,
        )?);
    }
    let user = format!("{:.3} s", other.user);
    if !ours.exists() {
        sheet.plain("  by the program wagefile", "not built", &user, "");
        return Ok(());
    }
    let ratio = other.user / best.user;
    let asked = format!("user time, ratio {ratio:.2} >= 1.0");
    let name = "  by the program wagefile";
    sheet.barred(
        name,
        &format!("{:.3} s", best.user),
        &user,
        &asked,
        ratio >= 1.0,
    );
    let shown = |bytes: u64| format!("{:.2} MB", bytes as f64 / 1e6);
    let met = best.memory < MEMORY;
    sheet.barred(
        "  its peak memory",
        &shown(best.memory),
        &shown(other.memory),
        "< 8 MB",
        met,
    );
    Ok(())
}

/// A file under the temporary folder that goes with the value.
struct Kept(PathBuf);

impl Kept {
    fn new(bytes: &[u8]) -> io::Result<Kept> {
        let name = format!("lanecockle-bench-{}", std::process::id());
        let kept = Kept(std::env::temp_dir().join(name));
        fs::write(&kept.0, bytes)?;
        Ok(kept)
    }
}

impl Drop for Kept {
    fn drop(&mut self) {
        // What cannot be removed is left to whoever clears the folder.
        let _ = fs::remove_file(&self.0);
    }
}
