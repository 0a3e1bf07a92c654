//! Runs a program and its twin in `second` side by side on the same bytes.

use crate::generate::{listing_input, Dice};
use crate::reference::MODELS;
use std::ffi::OsStr;
use std::io::{self, Read, Write};
use std::path::Path;
use std::process::{Child, Command, Stdio};
use std::sync::mpsc;
use std::thread;
use std::time::Duration;

mod ledgers;
mod slips;
mod wages;
pub use ledgers::compare_ledgers;
pub use slips::compare_slips;
pub use wages::compare_wages;

/// A program that says nothing for so long is stuck, and that is a difference.
const PATIENCE: Duration = Duration::from_secs(20);

const MEGABYTE: usize = 1 << 20;

pub struct Outcome {
    pub inputs: usize,
    pub differ: usize,
}

/// Compares `program` with `second listing`, where `second` is that binary.
pub fn compare(program: &OsStr, second: &Path, seed: u64, count: usize) -> io::Result<Outcome> {
    let mut dice = Dice::new(seed);
    let inputs = hand_picked()
        .into_iter()
        .chain((0..count).map(|_| listing_input(&mut dice)));
    side_by_side(program, second, "listing", inputs, |_, theirs, ours| {
        theirs.output == ours.output
    })
}

/// Runs `program` and `second` with this word; `agree` judges both their ends.
fn side_by_side(
    program: &OsStr,
    second: &Path,
    word: &str,
    inputs: impl Iterator<Item = Vec<u8>>,
    mut agree: impl FnMut(&[u8], &End, &End) -> bool,
) -> io::Result<Outcome> {
    let mut outcome = Outcome {
        inputs: 0,
        differ: 0,
    };
    for input in inputs {
        // Both are started first, so that they work at the same time.
        let theirs = Run::start(&mut Command::new(program), &input)?;
        let ours = Run::start(Command::new(second).arg(word), &input)?;
        let (theirs, ours) = (theirs.end()?, ours.end()?);
        outcome.inputs += 1;
        let same = match (&theirs, &ours) {
            (Some(theirs), Some(ours)) => agree(&input, theirs, ours),
            _ => false,
        };
        if !same {
            outcome.differ += 1;
            eprintln!("differ on {}", shown(&input));
            eprintln!("  program: {}", shown_end(theirs.as_ref()));
            eprintln!("  second:  {}", shown_end(ours.as_ref()));
        }
        if theirs.is_none() {
            // It would be stuck on most others too, and that takes hours.
            break;
        }
    }
    Ok(outcome)
}

/// What a program leaves behind.
struct End {
    output: Vec<u8>,
    success: bool,
}

struct Run {
    child: Child,
    output: mpsc::Receiver<io::Result<Vec<u8>>>,
}

impl Run {
    fn start(command: &mut Command, input: &[u8]) -> io::Result<Run> {
        let mut child = command
            .stdin(Stdio::piped())
            .stdout(Stdio::piped())
            .spawn()?;
        let mut stdin = child.stdin.take().expect("piped");
        let mut stdout = child.stdout.take().expect("piped");
        let input = input.to_vec();
        // A program may stop reading early; a broken pipe is then no fault.
        thread::spawn(move || drop(stdin.write_all(&input)));
        let (sender, output) = mpsc::channel();
        thread::spawn(move || {
            let mut bytes = Vec::new();
            let result = stdout.read_to_end(&mut bytes).map(|_| bytes);
            drop(sender.send(result));
        });
        Ok(Run { child, output })
    }

    /// The whole standard output, or nothing from a program that is stuck.
    fn end(mut self) -> io::Result<Option<End>> {
        let output = match self.output.recv_timeout(PATIENCE) {
            Ok(result) => Some(result?),
            Err(_) => {
                self.child.kill()?;
                None
            }
        };
        let success = self.child.wait()?.success();
        Ok(output.map(|output| End { output, success }))
    }
}

fn shown(bytes: &[u8]) -> String {
    let front = &bytes[..bytes.len().min(100)];
    format!("\"{}\" ({} bytes)", front.escape_ascii(), bytes.len())
}

fn shown_end(end: Option<&End>) -> String {
    match end {
        None => "(no end within 20 seconds)".to_string(),
        Some(end) if end.success => shown(&end.output),
        Some(end) => format!("{} and failed", shown(&end.output)),
    }
}

/// Inputs at the edges of "reads one line".
fn hand_picked() -> Vec<Vec<u8>> {
    let mut inputs: Vec<Vec<u8>> = [
        // No line, empty lines, more than one line.
        &b""[..],
        b"\n",
        b"\n\n",
        b"\nHR01 ??\n",
        b"H",
        b"HR01 ??",
        b"HR1210010051863000160",
        b"HR01 ??\n",
        b"HR01 ??\nHR02 ??\n",
        b"HR01 ??\nHR02",
        b"HR01\n??\n",
        b"HR01 ??\r\n",
        b"HR01 ??\r",
        b"HR1210010051863000160\r\n",
        // Spaces.
        b" \n",
        b"  \n",
        b" HR01 ??\n",
        b" ??\n",
        b"HR01 \n",
        b"HR01  ??\n",
        b"HR01 ?? \n",
        b"HR01 ? ?\n",
        b"HR1210010051863000160 \n",
        b" HR1210010051863000160\n",
        b"HR12 10010051863000160\n",
        b"HR01\t??\n",
        b"HR01 ??\t\n",
        b"HR01\x0b??\n",
        // Empty references.
        b"HR99 \n",
        b"HR99\n",
        b"HR99  \n",
        b"HR99 ?\n",
        b"HR99 0\n",
        b"HR99 -\n",
        b"HR00 \n",
        b"HR16 \n",
        // Bytes that are no text.
        b"\0\n",
        b"\0",
        b"HR01 ??\0\n",
        b"HR01\0??\n",
        b"HR01 \0\n",
        b"\xff\xfe\n",
        b"\xff \xfe\n",
        b"HR01 \xff\n",
        b"HR01 ?\x80\n",
        b"H\xc4\x8d01 ??\n",
        b"HR0\xb1 ??\n",
        b"HR01 \xe2\x80\x9312\n",
        b"HR01\xa0??\n",
        b"\xef\xbb\xbfHR01 ??\n",
        b"HR\xd9\xa1\xd9\xa2 ??\n",
        // Models.
        b"HR05 ??\n",
        b"HR18 1\n",
        b"HR98 \n",
        b"hr01 ??\n",
        b"HR1 ??\n",
        b"HR001 ??\n",
        b"HR?1 ??\n",
        b"HR0/ ??\n",
        b"HR0: ??\n",
        b"XXXXXXXXXXXXXXXXXXXXXXXXXXXXXXXXXXXXXXXX 1\n",
        b"HR01HR01HR01HR01HR01HR01 ?????\n",
        b"HR01HR01HR01HR01HR01HR01 1a\n",
        b"HR01HR01HR01HR01HR01HR01 12345678901234567890123\n",
        // Marks.
        b"HR00 ????\n",
        b"HR00 ?????\n",
        b"HR01 ????\n",
        b"HR01 1?-2?-3??\n",
        b"HR03 ??-??\n",
        b"HR02 ?-?-??\n",
        b"HR69 4000?-1234567890?-1?0\n",
        b"HR69 40002-12345678903-???\n",
        b"HR69 40003-12345678903-???\n",
        b"HR69 40002-12345678903-10?\n",
        b"HR69 4000?-12345678903-???\n",
        b"HR69 40010-12345678903-???\n",
        b"HR69 400??-12345678903-1?1\n",
        b"HR69 400??-12345678903\n",
        b"HR69 40010-1234567890?\n",
        b"HR69 40002-1234567890?-69?\n",
        b"HR35 ?-1234567890?\n",
        b"HR16 1000?-100?-????????\n",
        b"HR16 1000?-100?-1234567?\n",
        // Right check digits, lengths or number of parts one off.
        b"HR69 40002-12345678903-1?\n",
        b"HR69 40002-12345678903-1??0\n",
        b"HR69 40002-12345678903-\n",
        b"HR69 000?-12345678903\n",
        b"HR69 00000?-12345678903\n",
        b"HR35 0-12345678903-?\n",
        b"HR35 0-0000000000?\n",
        b"HR35 0-000000000?\n",
        b"HR35 0-00000000000?\n",
        b"HR35 000000000?-12345678903\n",
        b"HR35 0000000000?\n",
        b"HR16 40002-1007-1234567?\n",
        b"HR16 40002-1007-123456?\n",
        b"HR16 40002-1007-12345678?\n",
        b"HR16 40002-100?\n",
        b"HR16 0000-1007-1234567?\n",
        b"HR16 40002-000-1234567?\n",
        b"HR17 ?\n",
        b"HR17 ???-1\n",
        b"HR05 ?????\n",
        b"HR?? ?????\n",
        b"HR01 ?????x\n",
        // Form that no filling mends.
        b"HR01 ?-\n",
        b"HR01 -?\n",
        b"HR01 ?--?\n",
        b"HR01 -\n",
        b"HR01 ?-?-?-?\n",
        b"HR01 ?234567890123\n",
        b"HR00 123456789012-12345678?\n",
        b"HR00 123456789012-123456789\n",
        b"HR00 123456789012-1234567890\n",
        b"HR00 ??????????????????????\n",
        b"HR00 ???????????????????????\n",
        // IBANs.
        b"HR1210010051863000160\n",
        b"HR1310010051863000160\n",
        b"HR??10010051863000160\n",
        // Right 97, 98 and 02; 00, 01 and 99 leave the same remainder.
        b"HR??10010051863000182\n",
        b"HR??10010051863000164\n",
        b"HR??10010051863000243\n",
        b"HR0?10010051863000182\n",
        b"HR1?100100518630001?0\n",
        b"HR????10051863000160?\n",
        b"HR????10051863000160\n",
        b"HR?????00051863000160\n",
        b"HR12100100518630????0\n",
        b"HR1210010051863000???\n",
        b"HR???????????????????\n",
        b"H?1210010051863000160\n",
        b"??1210010051863000160\n",
        b"hr1210010051863000160\n",
        b"HR12-0010051863000160\n",
        b"HR121001005186300016A\n",
        b"HR12100100518630001600\n",
        b"HR121001005186300016\n",
        b"1210010051863000160HR\n",
        b"????????????????????????\n",
    ]
    .iter()
    .map(|input| input.to_vec())
    .collect();

    // Every model, with each part open: the fillings show its groups whole.
    for model in &MODELS {
        for text in [
            "", "?", "?-?", "?-?-?", "?-?-?-?", "?1-2?", "1?-0-2?", "0-?1-?3",
        ] {
            inputs.push(format!("HR{:02} {text}\n", model.number).into_bytes());
        }
    }

    // A megabyte, with and without LF, and a space nowhere, near the start and
    // near the end: the line must neither be cut nor break a buffer.
    let long = |front: &[u8], filler: u8, back: &[u8]| {
        let mut line = front.to_vec();
        line.resize(MEGABYTE, filler);
        line.extend_from_slice(back);
        line
    };
    for line in [
        long(b"", b'1', b""),
        long(b"", b'?', b""),
        long(b"", 0xff, b""),
        long(b"", b' ', b""),
        long(b"HR1210010051863000160", b'0', b""),
        long(b"HR01 ", b'1', b""),
        long(b"HR01 ", b'?', b""),
        long(b"HR01 ??", b' ', b""),
        long(b"HR1 ", b'x', b""),
        long(b"HR01", b'1', b" ??"),
        long(b"HR01", b'1', b" ?????"),
        long(b"HR01", b'1', b" x"),
        long(b"HR01", b'1', b" 12345678901234567890123"),
        long(b"HR01", b'1', b" "),
        long(b"", 0, b" 1"),
    ] {
        inputs.push(line.clone());
        let mut ended = line.clone();
        ended.push(b'\n');
        inputs.push(ended.clone());
        ended.extend_from_slice(b"HR01 ??\n");
        inputs.push(ended);
    }
    // A good line and then a megabyte, which is not read.
    inputs.push(long(b"HR01 ??\n", b'1', b""));
    inputs.push(long(b"HR01 ??\n", b'\n', b""));
    inputs.push(long(b"HR00 ????\n", b'?', b"\n"));
    // Lines about the usual sizes of a buffer.
    for size in [
        22, 26, 27, 28, 31, 32, 33, 63, 64, 127, 128, 255, 256, 1024, 4096, 8192, 65536,
    ] {
        for change in [-1isize, 0, 1] {
            let size = size as usize;
            let size = size.wrapping_add_signed(change);
            let mut line = b"HR01 ".to_vec();
            line.resize(size, b'0');
            line.push(b'\n');
            inputs.push(line);
            let mut line = vec![b'9'; size - 2];
            line.extend_from_slice(b" ?\n");
            inputs.push(line);
        }
    }
    inputs
}
