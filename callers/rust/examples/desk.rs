//! Example in Rust: reads a slip, or with a day (YYYYMMDD) as its argument a wage file, from standard input, and says what it
//! holds, or what is wrong with it in English and Croatian. Exit status 1 is a refusal.
//!
//!     cargo run --example desk < slip.txt
//!     cargo run --example desk 20240229 < wages.txt

use lanecockle::{slip, wage, Refusal};
use std::io::{self, Read};
use std::process::ExitCode;

fn tell_slip(bytes: &[u8]) -> Result<(), Refusal> {
    println!("{} cents", slip::cents(bytes)?);
    for number in 4..=14 {
        println!("{number}={}", String::from_utf8_lossy(slip::field(bytes, number)));
    }
    Ok(())
}

fn tell_wages(day: &str, bytes: &[u8]) -> Result<(), Refusal> {
    // what is no number is no date either
    let counts = wage::file(day.parse().unwrap_or(0), bytes)?;
    let total = counts.total.total();
    println!("{} lines, {} groups, {} orders, {total} cents", counts.lines, counts.groups, counts.orders);
    Ok(())
}

fn main() -> io::Result<ExitCode> {
    let mut bytes = Vec::new();
    io::stdin().read_to_end(&mut bytes)?;
    let told = match std::env::args().nth(1) {
        Some(day) => tell_wages(&day, &bytes),
        None => tell_slip(&bytes),
    };
    if let Err(refusal) = told {
        println!("{refusal}\n{}", refusal.in_croatian());
        return Ok(ExitCode::FAILURE);
    }
    Ok(ExitCode::SUCCESS)
}
