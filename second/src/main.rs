use second::{cases, compare, generate, ledger, slip, wage, wet};
use std::env;
use std::ffi::{OsStr, OsString};
use std::io::{self, BufWriter, Read};
use std::process::ExitCode;

const USAGE: &str = "usage: second cases < FILE
       second listing < LINE
       second slipfile < SLIP
       second ledger < SLIP
       second wagefile < DAY AND FILE
       second gen SEED N
       second genwage SEED LINES
       second genwagecases SEED N
       second compare PROGRAM SEED COUNT
       second compareslip PROGRAM SEED COUNT
       second compareledger PROGRAM SEED COUNT
       second comparewage PROGRAM SEED COUNT";

fn main() -> ExitCode {
    let arguments: Vec<OsString> = env::args_os().skip(1).collect();
    match run(&arguments) {
        Ok(code) => code,
        Err(error) => {
            eprintln!("second: {error}");
            ExitCode::from(2)
        }
    }
}

fn run(arguments: &[OsString]) -> io::Result<ExitCode> {
    let words: Vec<&str> = arguments.iter().map(|a| a.to_str().unwrap_or("")).collect();
    let output = || BufWriter::new(io::stdout().lock());
    match words[..] {
        ["cases"] => {
            let mut input = Vec::new();
            io::stdin().lock().read_to_end(&mut input)?;
            cases::answer_all(&input, output())?;
        }
        ["listing"] => wet::program(io::stdin().lock(), output())?,
        ["slipfile"] => slip::program(io::stdin().lock(), output())?,
        ["ledger"] => ledger::program(io::stdin().lock(), output())?,
        ["wagefile"] => wage::program(io::stdin().lock(), output())?,
        ["gen", seed, count] => {
            generate::cases(number(seed)?, number(count)? as usize, output())?;
        }
        ["genwage", seed, lines] => {
            generate::long_wage_file(number(seed)?, number(lines)? as usize, output())?;
        }
        ["genwagecases", seed, count] => {
            generate::wage_cases(number(seed)?, number(count)? as usize, output())?;
        }
        ["compare" | "compareslip" | "compareledger" | "comparewage", _, seed, count] => {
            let (seed, count) = (number(seed)?, number(count)? as usize);
            return compared(words[0], &arguments[1], seed, count);
        }
        _ => return Err(io::Error::new(io::ErrorKind::InvalidInput, USAGE)),
    }
    Ok(ExitCode::SUCCESS)
}

/// Runs a program and its twin side by side, and says what came of it.
fn compared(word: &str, program: &OsStr, seed: u64, count: usize) -> io::Result<ExitCode> {
    let second = env::current_exe()?;
    let (name, outcome, more) = match word {
        "compareslip" => {
            let (outcome, written) = compare::compare_slips(program, &second, seed, count)?;
            (
                "compare-slip",
                outcome,
                format!(", {written} written again"),
            )
        }
        "compareledger" => {
            let (outcome, accepted) = compare::compare_ledgers(program, &second, seed, count)?;
            let [euro, kuna] = accepted;
            let more = format!(", accepted {euro} euro and {kuna} kuna");
            ("compare-ledger", outcome, more)
        }
        "comparewage" => {
            let (outcome, answers) = compare::compare_wages(program, &second, seed, count)?;
            let answers: Vec<String> = answers
                .iter()
                .map(|(number, times)| format!("{number}: {times}"))
                .collect();
            let more = format!("; answers {}", answers.join(", "));
            ("compare-wage", outcome, more)
        }
        _ => {
            let outcome = compare::compare(program, &second, seed, count)?;
            ("compare", outcome, String::new())
        }
    };
    let (inputs, differ) = (outcome.inputs, outcome.differ);
    println!("{name}: {inputs} inputs, {differ} differ{more}");
    Ok(ExitCode::from(u8::from(differ > 0)))
}

fn number(word: &str) -> io::Result<u64> {
    word.parse().map_err(|_| {
        io::Error::new(
            io::ErrorKind::InvalidInput,
            format!("{word:?} is no number"),
        )
    })
}
