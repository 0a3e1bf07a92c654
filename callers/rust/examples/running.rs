//! Example in Rust: reads wage files of a day of submission (YYYYMMDD) a line at a time, and prints the running total after
//! each line, as a screen is redrawn; from file to file it goes on. What is wrong is said in English and Croatian. Exit status
//! 1 is a refusal.
//!
//!     cargo run --example running 20240229 wages.txt more-wages.txt

use lanecockle::wage::{self, Counts, RunningTotal, Tally};
use std::error::Error;
use std::fs::File;
use std::io::{self, BufReader, Read};
use std::process::ExitCode;

/// The next line of a file: short where the file ends in it, and empty behind the last.
fn next_line(file: &mut impl Read) -> io::Result<Vec<u8>> {
    let mut line = Vec::with_capacity(wage::LINE);
    file.take(wage::LINE as u64).read_to_end(&mut line)?;
    Ok(line)
}

/// Reads a file to its end or its first refusal, and draws after each line.
fn read(running: &mut RunningTotal, file: &mut impl Read) -> io::Result<()> {
    while running.refusal().is_none() {
        let line = next_line(file)?;
        if line.is_empty() {
            break;
        }
        // a refusal stays, and the end tells it
        running.step(&line).ok();
        println!("groups {}, orders {}, {} cents", running.groups(), running.orders(), running.total());
    }
    Ok(())
}

fn tell(counts: Counts) {
    let total = counts.total.total();
    println!("accepted: lines {}, groups {}, orders {}, {total} cents", counts.lines, counts.groups, counts.orders);
}

fn main() -> Result<ExitCode, Box<dyn Error>> {
    let given: Vec<String> = std::env::args().skip(1).collect();
    let [day, names @ ..] = &given[..] else {
        return Err("usage: running DAY WAGES..".into());
    };
    let mut tally = Tally::default();
    for name in names {
        let mut running = RunningTotal::begin_from(day.parse()?, tally);
        read(&mut running, &mut BufReader::new(File::open(name)?))?;
        match running.end() {
            Ok(counts) => tell(counts),
            Err(refusal) => {
                println!("{refusal}\n{}", refusal.in_croatian());
                return Ok(ExitCode::FAILURE);
            }
        }
        tally = running.tally();
    }
    Ok(ExitCode::SUCCESS)
}
