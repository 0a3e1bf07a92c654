//! Example in Rust: writes a slip of the cents and the IBAN that are given, with the standing text of two sheets, the farm's
//! and the association's; or says what is wrong, in English and Croatian. Exit status 1 is a refusal.
//!
//!     cargo run --example standing farm.txt association.txt 12355 HR1210010051863000160

use lanecockle::slip;
use std::error::Error;
use std::io::{self, Write};
use std::process::ExitCode;

fn main() -> Result<ExitCode, Box<dyn Error>> {
    let given: Vec<String> = std::env::args().skip(1).collect();
    let [farm, association, cents, iban] = &given[..] else {
        return Err("usage: standing FARM ASSOCIATION CENTS IBAN > SLIP".into());
    };
    let (farm, association) = (std::fs::read(farm)?, std::fs::read(association)?);

    // the fields 4 to 14: IBAN and model alone, so that the others are taken from the sheets or stay empty
    let mut fields: [&[u8]; 11] = [b""; 11];
    fields[10 - 4] = iban.as_bytes();
    fields[11 - 4] = b"HR99";

    let mut out = [0; slip::MOST];
    match slip::write_standing(cents.parse()?, &fields, &farm, &association, &mut out) {
        Ok(length) => io::stdout().write_all(&out[..length])?,
        Err(refused) => {
            println!("{refused}\n{}", refused.in_croatian());
            return Ok(ExitCode::FAILURE);
        }
    }
    Ok(ExitCode::SUCCESS)
}
