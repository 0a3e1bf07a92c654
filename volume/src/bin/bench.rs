//! `bench`, or `bench quick`: Lanecockle and second side by side.

use std::env;
use std::ffi::{OsStr, OsString};
use std::io;
use std::process::ExitCode;
use volume::bench::sheet::Sheet;
use volume::bench::{child, night, slips, standing, texts, wages, Size, FULL, QUICK};

fn main() -> ExitCode {
    let arguments: Vec<OsString> = env::args_os().skip(1).collect();
    let words: Vec<&OsStr> = arguments.iter().map(OsString::as_os_str).collect();
    let outcome = match words[..] {
        [] => run(FULL),
        [word] if word == "quick" => run(QUICK),
        [word, file, ref program @ ..] if word == "child" && !program.is_empty() => {
            child::run(file, program).map(|()| true)
        }
        _ => Err(io::Error::other("usage: bench [quick]")),
    };
    match outcome {
        Ok(true) => ExitCode::SUCCESS,
        Ok(false) => ExitCode::FAILURE,
        Err(error) => {
            eprintln!("bench: {error}");
            ExitCode::from(2)
        }
    }
}

fn run(size: Size) -> io::Result<bool> {
    let mut sheet = Sheet::default();
    sheet.head();
    texts::run(size, &mut sheet);
    night::run(size, &mut sheet);
    slips::run(size, &mut sheet);
    standing::run(size, &mut sheet);
    wages::run(size, &mut sheet)?;
    Ok(sheet.foot())
}
