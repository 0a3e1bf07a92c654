//! Wet slips: which digits can stand where `?` marks an unreadable one.
//!
//! Every filling is tried. At most 10,000 are to be tried, and trying them
//! leaves nothing to be thought out wrongly.

use crate::account::{iban, IBAN_LENGTH};
use crate::reference::{Model, LONGEST};
use crate::refusal::{only, Reason, Refusal};
use std::io::{self, BufRead, Write};

const MARK: u8 = b'?';
const MOST_MARKS: usize = 4;

/// Room for every filling that four marks can have.
pub const WHOLE_ROOM: usize = 10_000;

/// The accepted fillings of one text.
#[derive(Debug, PartialEq, Eq)]
pub struct Listing {
    text: Vec<u8>,
    marks: Vec<usize>,
    /// The digits filled in, read as one number, ascending.
    pub numbers: Vec<u16>,
}

impl Listing {
    /// 15 where there are more numbers than room for them.
    pub fn within(self, room: usize) -> Result<Listing, Refusal> {
        if self.numbers.len() > room {
            return Err(Refusal::at(Reason::Room, self.numbers.len()));
        }
        Ok(self)
    }

    fn texts(&self) -> impl Iterator<Item = Vec<u8>> + '_ {
        self.numbers.iter().map(|&n| {
            let mut text = self.text.clone();
            fill(&mut text, &self.marks, n);
            text
        })
    }
}

/// Splits at the first space.
pub fn divide(line: &[u8]) -> Option<(&[u8], &[u8])> {
    let space = line.iter().position(|&b| b == b' ')?;
    Some((&line[..space], &line[space + 1..]))
}

/// Lists what a line of the listing program asks for: an IBAN, or a model, a
/// space and a reference.
pub fn list(line: &[u8], room: usize) -> Result<Listing, Refusal> {
    match divide(line) {
        None => list_iban(line, room),
        Some((model, text)) => list_reference(model, text, room),
    }
}

/// Lists the fillings of an IBAN: 1, 3, 16, 15.
pub fn list_iban(text: &[u8], room: usize) -> Result<Listing, Refusal> {
    if text.len() != IBAN_LENGTH {
        return Err(Reason::Size.into());
    }
    let rest = text.strip_prefix(b"HR").ok_or(Reason::Byte)?;
    let marks = marks(rest, |b| b.is_ascii_digit())?;
    let marks = marks.into_iter().map(|m| m + 2).collect();
    try_all(text, marks, |text| iban(text).is_ok()).within(room)
}

/// Lists the fillings of a reference: 1, 3, 16, 5, 7, 15.
pub fn list_reference(model: &[u8], text: &[u8], room: usize) -> Result<Listing, Refusal> {
    if text.len() > LONGEST {
        return Err(Reason::Size.into());
    }
    let marks = marks(text, |b| b == b'-' || b.is_ascii_digit())?;
    let model = Model::named(model)?;
    try_all(text, marks, |text| model.judge(text).is_ok()).within(room)
}

/// The text with its marks filled by the digits of a number, the last digit in
/// the last mark and zeros where the number has no more.
pub fn filled(text: &[u8], number: u16, room: usize) -> Result<Vec<u8>, Refusal> {
    if text.len() > room {
        return Err(Refusal::at(Reason::Room, text.len()));
    }
    let marks: Vec<usize> = (0..text.len()).filter(|&k| text[k] == MARK).collect();
    let mut text = text.to_vec();
    fill(&mut text, &marks, number);
    Ok(text)
}

/// The places of the marks: 3, without its place, for a byte that is neither
/// permitted nor a mark, then 16.
fn marks(text: &[u8], permitted: impl Fn(u8) -> bool) -> Result<Vec<usize>, Refusal> {
    only(text, |b| b == MARK || permitted(b)).map_err(|_| Refusal::from(Reason::Byte))?;
    let marks: Vec<usize> = (0..text.len()).filter(|&k| text[k] == MARK).collect();
    if marks.len() > MOST_MARKS {
        return Err(Reason::Marks.into());
    }
    Ok(marks)
}

fn try_all(text: &[u8], marks: Vec<usize>, accepted: impl Fn(&[u8]) -> bool) -> Listing {
    let mut trial = text.to_vec();
    let numbers = (0..10u16.pow(marks.len() as u32))
        .filter(|&n| {
            fill(&mut trial, &marks, n);
            accepted(&trial)
        })
        .collect();
    Listing {
        text: text.to_vec(),
        marks,
        numbers,
    }
}

/// Writes the number into the marked places, its last digit into the last.
fn fill(text: &mut [u8], marks: &[usize], mut number: u16) {
    for &place in marks.iter().rev() {
        text[place] = b'0' + (number % 10) as u8;
        number /= 10;
    }
}

/// The listing program: one line in, the fillings or `refused` out.
pub fn program(mut input: impl BufRead, mut output: impl Write) -> io::Result<()> {
    let mut line = Vec::new();
    input.read_until(b'\n', &mut line)?;
    let answer = match line.strip_suffix(b"\n") {
        None => Err(Reason::Size.into()),
        Some(line) => list(line, WHOLE_ROOM),
    };
    match answer {
        Err(refusal) => writeln!(output, "refused {}", refusal.number())?,
        Ok(listing) => {
            writeln!(output, "{} fillings", listing.numbers.len())?;
            for text in listing.texts() {
                output.write_all(&text)?;
                output.write_all(b"\n")?;
            }
        }
    }
    output.flush()
}

#[cfg(test)]
mod tests {
    use super::*;
    use crate::codes::CODES;

    fn run(input: &[u8]) -> String {
        let mut output = Vec::new();
        program(input, &mut output).unwrap();
        String::from_utf8(output).unwrap()
    }

    fn numbers(line: &str) -> Vec<u16> {
        list(line.as_bytes(), WHOLE_ROOM).unwrap().numbers
    }

    fn number_of_refusal(line: &[u8]) -> u8 {
        list(line, WHOLE_ROOM).unwrap_err().number()
    }

    #[test]
    fn printed_output() {
        assert_eq!(
            run(b"HR01 ??\n"),
            "10 fillings\n00\n19\n27\n35\n43\n51\n60\n78\n86\n94\n"
        );
        assert_eq!(
            run(b"HR??10010051863000160\nHR01 ??\n"),
            "1 fillings\nHR1210010051863000160\n"
        );
    }

    #[test]
    fn lines_at_the_edge() {
        assert_eq!(run(b""), "refused 1\n");
        assert_eq!(run(b"HR01 ??"), "refused 1\n");
        assert_eq!(run(b"\nHR01 ??\n"), "refused 1\n");
        assert_eq!(run(b"HR99 \n"), "1 fillings\n\n");
        assert_eq!(run(b"HR99\n"), "refused 1\n");
        assert_eq!(run(b"HR00 \n"), "0 fillings\n");
        assert_eq!(run(b"HR01 ??\r\n"), "refused 3\n");
        assert_eq!(run(b" 1\n"), "refused 5\n");
        assert_eq!(run(b"HR01  1\n"), "refused 3\n");
    }

    #[test]
    fn order_of_refusals() {
        assert_eq!(number_of_refusal(b"X ?????????????????????x?"), 1);
        assert_eq!(number_of_refusal(b"X ?????x"), 3);
        assert_eq!(number_of_refusal(b"X ?????"), 16);
        assert_eq!(number_of_refusal(b"X ????"), 5);
        assert_eq!(number_of_refusal(b"HR05 ????"), 7);
        assert_eq!(number_of_refusal(b"HR?????10051863000160"), 16);
        assert_eq!(number_of_refusal(b"?R?????10051863000160"), 3);
        assert_eq!(number_of_refusal(b"HR?????10051863-00160"), 3);
    }

    #[test]
    fn room() {
        assert!(list(b"HR01 ??", 10).is_ok());
        assert_eq!(list(b"HR01 ??", 9), Err(Refusal::at(Reason::Room, 10)));
        assert!(list(b"HR00 1-", 0).is_ok());
        assert!(list(b"HR00 ????", WHOLE_ROOM).is_ok());
    }

    #[test]
    fn no_mark_and_hyphens() {
        assert_eq!(numbers("HR01 0"), [0]);
        assert_eq!(numbers("HR01 1"), []);
        assert_eq!(numbers("HR1210010051863000160"), [0]);
        assert_eq!(numbers("HR1310010051863000160"), []);
        assert_eq!(numbers("HR00 ?-"), []);
        assert_eq!(numbers("HR00 ????").len(), 10_000);
        assert_eq!(numbers("HR01 1?-??").len(), 100);
    }

    #[test]
    fn wage_references() {
        assert_eq!(numbers("HR69 40002-12345678903-10?"), [0]);
        let codes = CODES.map(|code| 2000 + code);
        assert_eq!(numbers("HR69 4000?-12345678903-???"), codes);
        assert_eq!(numbers("HR69 40010-12345678903-???"), []);
        assert_eq!(numbers("HR69 40010-1234567890?"), [3]);
    }
}
