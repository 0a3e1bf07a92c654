//! The file program: the day and a wage file in, one line out.

use super::judge::{Accepted, Judge};
use super::layout::LINE;
use crate::refusal::{Reason, Refusal};
use std::io::{self, Read, Write};

/// The digits of the day and the line feed after them.
const DAY: usize = 8;
/// As much as is held of the file at a time.
const LINES_AT_ONCE: usize = 128;

pub fn program(mut input: impl Read, mut output: impl Write) -> io::Result<()> {
    let mut buffer = vec![0; LINES_AT_ONCE * LINE];
    match judge(&mut input, &mut buffer)? {
        Ok(accepted) => writeln!(output, "{accepted}")?,
        Err(refusal) => writeln!(output, "{refusal}")?,
    }
    output.flush()
}

/// Judges as much of the input as decides the answer.
fn judge(input: &mut impl Read, buffer: &mut [u8]) -> io::Result<Result<Accepted, Refusal>> {
    let front = &mut buffer[..DAY + 1];
    let length = fill(input, front)?;
    let Some(day) = day(&front[..length]) else {
        return Ok(Err(Reason::Date.into()));
    };
    let mut judge = Judge::begin(day);
    loop {
        // Only the end of the input leaves the buffer unfilled.
        let length = fill(input, buffer)?;
        for line in buffer[..length].chunks(LINE) {
            if let Err(refusal) = judge.step(line) {
                return Ok(Err(refusal));
            }
        }
        if length < buffer.len() {
            return Ok(judge.end());
        }
    }
}

/// Eight digits and a line feed, as a number.
fn day(text: &[u8]) -> Option<u32> {
    let digits: &[u8; DAY] = text.strip_suffix(b"\n")?.try_into().ok()?;
    digits.iter().try_fold(0, |n, b| {
        b.is_ascii_digit().then(|| n * 10 + u32::from(b - b'0'))
    })
}

/// Reads until the room is full or the input ends, and tells how much it was.
fn fill(input: &mut impl Read, room: &mut [u8]) -> io::Result<usize> {
    let mut length = 0;
    while length < room.len() {
        match input.read(&mut room[length..]) {
            Ok(0) => break,
            Ok(more) => length += more,
            Err(error) if error.kind() == io::ErrorKind::Interrupted => {}
            Err(error) => return Err(error),
        }
    }
    Ok(length)
}
