//! `volume SEED SIZE [PROPERTY [NUMBER]]`: the properties, on inputs by dice.
//! `volume cases < FILE`: the answers of the static library to the cases.

use std::cell::Cell;
use std::env;
use std::io::{self, Read};
use std::process::ExitCode;
use volume::trial::{fault, Plan};
use volume::{cases, properties, table};

const USAGE: &str = "usage: volume SEED quick|full|COUNT [PROPERTY [NUMBER]]
       volume cases < FILE
COUNT is how many inputs a property gets that a full run tries a million times";

/// The inputs of a quick run: some seconds.
const QUICK: u64 = 20_000;
const FULL: u64 = 1_000_000;

fn main() -> ExitCode {
    let words: Vec<String> = env::args().skip(1).collect();
    if words == ["cases"] {
        return match answer_cases() {
            Ok(()) => ExitCode::SUCCESS,
            Err(error) => {
                eprintln!("volume: {error}");
                ExitCode::from(2)
            }
        };
    }
    let Some(plan) = plan(&words) else {
        eprintln!("{USAGE}");
        return ExitCode::from(2);
    };
    fault::tell();
    table::head(plan.seed);
    properties::run(&plan);
    if !plan.met.get() {
        eprintln!("volume: no such property");
        return ExitCode::from(2);
    }
    ExitCode::SUCCESS
}

fn answer_cases() -> io::Result<()> {
    let mut input = Vec::new();
    io::stdin().lock().read_to_end(&mut input)?;
    cases::answer_all(&input, io::BufWriter::new(io::stdout().lock()))
}

fn plan(words: &[String]) -> Option<Plan> {
    let count = match words.get(1)?.as_str() {
        "quick" => QUICK,
        "full" => FULL,
        word => word.parse().ok()?,
    };
    let number = match words.get(3) {
        Some(word) => Some(word.parse().ok()?),
        None => None,
    };
    Some(Plan {
        seed: words[0].parse().ok()?,
        count,
        property: words.get(2).cloned(),
        number,
        met: Cell::new(false),
    })
}
