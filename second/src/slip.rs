//! The slip of 000, narrowed by 01: fourteen fields, each ended by LF. Those of
//! 001, in kuna, differ in fields 2 and 10; `ledger` reads both kinds.

use crate::account::{iban, iban_or_account};
use crate::checkdigit::values;
use crate::reference::Model;
use crate::refusal::{only, Reason, Refusal};
use std::io::{self, Read, Write};

const HEADER: &[u8] = b"HRVHUB30";
const FIELDS: usize = 14;
const AMOUNT_DIGITS: usize = 15;
const PURPOSE_LETTERS: usize = 4;

/// Fields 4 to 14.
pub const TEXTS: usize = 11;
/// Every field full, and every text field full of two-byte letters.
pub const LARGEST: usize = 483;
/// The least amount that fifteen digits cannot hold.
pub const TOO_MUCH: u64 = 1_000_000_000_000_000;

/// What a euro slip says: the amount and fields 4 to 14. Fields 1 and 2 say
/// nothing.
#[derive(Clone, Copy, Debug, PartialEq, Eq)]
pub struct Slip<'a> {
    pub cents: u64,
    pub texts: [&'a [u8]; TEXTS],
}

impl<'a> Slip<'a> {
    /// Reads a slip: 1, 2, then field by field, bytes counted in the slip.
    pub fn read(input: &'a [u8]) -> Result<Slip<'a>, Refusal> {
        let (cents, texts) = Divided::at_line_ends(input)?.judged(Currency::Euro)?;
        Ok(Slip { cents, texts })
    }

    /// Writes the slip, bytes of a refusal counted in its field; 15 comes last.
    pub fn write(&self, room: usize) -> Result<Vec<u8>, Refusal> {
        if self.cents >= TOO_MUCH {
            return Err(Refusal::from(Reason::Length).in_field(3, 0));
        }
        judge(Currency::Euro, &self.texts, &[0; TEXTS])?;
        let digits = format!("{:0AMOUNT_DIGITS$}", self.cents);
        let mut slip = Vec::new();
        for field in [HEADER, Currency::Euro.word(), digits.as_bytes()]
            .iter()
            .chain(&self.texts)
        {
            slip.extend_from_slice(field);
            slip.push(b'\n');
        }
        if slip.len() > room {
            return Err(Refusal::at(Reason::Room, slip.len()));
        }
        Ok(slip)
    }
}

/// What a slip's amount is counted in.
#[derive(Clone, Copy, Debug, PartialEq, Eq)]
pub enum Currency {
    Euro,
    Kuna,
}

impl Currency {
    /// Field 2.
    pub const fn word(self) -> &'static [u8] {
        match self {
            Currency::Euro => b"EUR",
            Currency::Kuna => b"HRK",
        }
    }

    /// Field 10.
    fn recipient(self, text: &[u8]) -> Result<(), Refusal> {
        match self {
            Currency::Euro => iban(text),
            Currency::Kuna => iban_or_account(text),
        }
    }
}

/// The fourteen fields of a slip, and where each begins.
pub struct Divided<'a> {
    pub fields: [&'a [u8]; FIELDS],
    starts: [usize; FIELDS],
}

impl<'a> Divided<'a> {
    /// 1, then 2.
    pub fn at_line_ends(input: &'a [u8]) -> Result<Divided<'a>, Refusal> {
        if input.len() > LARGEST {
            return Err(Reason::Size.into());
        }
        let pieces: Vec<&[u8]> = input.split(|&b| b == b'\n').collect();
        // The last piece is what follows the last LF.
        let Some((&[], fields)) = pieces.split_last() else {
            return Err(Reason::LineEnds.into());
        };
        let fields: [&[u8]; FIELDS] = fields.try_into().map_err(|_| Reason::LineEnds)?;
        let mut starts = [0; FIELDS];
        for k in 1..FIELDS {
            starts[k] = starts[k - 1] + fields[k - 1].len() + 1;
        }
        Ok(Divided { fields, starts })
    }

    /// The amount and fields 4 to 14 of a slip in this currency.
    pub fn judged(&self, currency: Currency) -> Result<(u64, [&'a [u8]; TEXTS]), Refusal> {
        let [header, unit, digits, texts @ ..] = self.fields;
        let [of_header, of_unit, of_digits, of_texts @ ..] = self.starts;
        word(header, HEADER).map_err(|r| r.in_field(1, of_header))?;
        word(unit, currency.word()).map_err(|r| r.in_field(2, of_unit))?;
        let amount = amount(digits).map_err(|r| r.in_field(3, of_digits))?;
        judge(currency, &texts, &of_texts)?;
        Ok((amount, texts))
    }
}

/// Judges fields 4 to 14, which begin at these bytes.
fn judge(
    currency: Currency,
    texts: &[&[u8]; TEXTS],
    starts: &[usize; TEXTS],
) -> Result<(), Refusal> {
    let model = texts[11 - 4];
    for (number, (text, &start)) in (4..).zip(texts.iter().zip(starts)) {
        match number {
            10 => currency.recipient(text),
            11 => Model::named(text).map(|_| ()),
            12 => Model::named(model).and_then(|m| m.judge(text)),
            _ => judge_words(number, text),
        }
        .map_err(|r| r.in_field(number, start))?;
    }
    Ok(())
}

/// Judges one of the fields that a sheet may have too: 4 to 9, 13 and 14.
pub fn judge_words(number: usize, text: &[u8]) -> Result<(), Refusal> {
    match number {
        4 => free(text, 30),
        5 | 6 | 9 => free(text, 27),
        7 | 8 => free(text, 25),
        13 => purpose(text),
        _ => free(text, 35),
    }
}

fn word(text: &[u8], wanted: &[u8]) -> Result<(), Refusal> {
    if text == wanted {
        Ok(())
    } else {
        Err(Reason::Form.into())
    }
}

fn amount(text: &[u8]) -> Result<u64, Refusal> {
    only(text, |b| b.is_ascii_digit())?;
    if text.len() != AMOUNT_DIGITS {
        return Err(Reason::Length.into());
    }
    Ok(values(text).fold(0, |n, d| n * 10 + u64::from(d)))
}

/// Text of at most so many characters. Whatever is no UTF-8 is not permitted
/// either, so the first offence is a character before the fault, or the fault.
fn free(text: &[u8], longest: usize) -> Result<(), Refusal> {
    let (sound, fault) = match std::str::from_utf8(text) {
        Ok(sound) => (sound, None),
        Err(fault) => {
            let place = fault.valid_up_to();
            let sound = std::str::from_utf8(&text[..place]).expect("so far it is");
            (sound, Some(place))
        }
    };
    let stranger = sound.char_indices().find(|&(_, c)| !permitted(c));
    if let Some(place) = stranger.map(|(place, _)| place).or(fault) {
        return Err(Refusal::at(Reason::Byte, place));
    }
    if sound.chars().count() > longest {
        return Err(Reason::Length.into());
    }
    Ok(())
}

fn permitted(c: char) -> bool {
    c.is_ascii_alphanumeric() || " ,.:-+?'/()ČčĆćĐđŠšŽž".contains(c)
}

fn purpose(text: &[u8]) -> Result<(), Refusal> {
    only(text, |b| b.is_ascii_uppercase())?;
    match text.len() {
        0 | PURPOSE_LETTERS => Ok(()),
        _ => Err(Reason::Length.into()),
    }
}

/// The program slipfile: a slip in, its fields or the refusal out.
pub fn program(input: impl Read, mut output: impl Write) -> io::Result<()> {
    match Slip::read(&taken(input)?) {
        Err(refusal) => writeln!(output, "{refusal}")?,
        Ok(slip) => {
            writeln!(output, "accepted")?;
            print(&mut output, slip.cents, &slip.texts)?;
        }
    }
    output.flush()
}

/// What a program looks at. A byte beyond the largest slip tells as much as a
/// megabyte. The rest is read all the same: who writes it should not find the
/// pipe broken.
pub fn taken(mut input: impl Read) -> io::Result<Vec<u8>> {
    let mut slip = Vec::new();
    input
        .by_ref()
        .take(LARGEST as u64 + 1)
        .read_to_end(&mut slip)?;
    io::copy(&mut input, &mut io::sink())?;
    Ok(slip)
}

/// Fields 3 to 14, a line each.
pub fn print(mut output: impl Write, amount: u64, texts: &[&[u8]; TEXTS]) -> io::Result<()> {
    writeln!(output, "3={amount:0AMOUNT_DIGITS$}")?;
    for (number, text) in (4..).zip(texts) {
        write!(output, "{number}=")?;
        output.write_all(text)?;
        output.write_all(b"\n")?;
    }
    Ok(())
}

#[cfg(test)]
mod tests {
    use super::*;

    /// 000's printed slip, its reference mended.
    const PRINTED: [&str; FIELDS] = [
        "HRVHUB30",
        "EUR",
        "000000000012355",
        "ŽELJKO SENEKOVIĆ",
        "IVANEČKA ULICA 125",
        "42000 VARAŽDIN",
        "2DBK d.d.",
        "ALKARSKI PROLAZ 13B",
        "21230 SINJ",
        "HR1210010051863000160",
        "HR01",
        "7269-68499637766-00011",
        "COST",
        "Troškovi za 1. mjesec",
    ];
    /// Where its fields begin: Ž, Ć, Č and Ž have moved those behind them.
    const STARTS: [usize; FIELDS] = [0, 9, 13, 29, 48, 68, 84, 94, 114, 125, 147, 152, 175, 180];

    fn joined(fields: &[&[u8]]) -> Vec<u8> {
        fields
            .iter()
            .flat_map(|f| [f, &b"\n"[..]].concat())
            .collect()
    }

    fn printed() -> [&'static [u8]; FIELDS] {
        PRINTED.map(str::as_bytes)
    }

    fn with(changes: &[(usize, &[u8])]) -> Vec<u8> {
        let mut fields: [&[u8]; FIELDS] = printed();
        for &(number, text) in changes {
            fields[number - 1] = text;
        }
        joined(&fields)
    }

    /// Number, field and byte; noughts for acceptance.
    fn told(result: Result<impl Sized, Refusal>) -> (u8, usize, usize) {
        result.map_or_else(|r| (r.number(), r.field, r.detail), |_| (0, 0, 0))
    }

    fn answer(input: &[u8]) -> (u8, usize, usize) {
        told(Slip::read(input))
    }

    #[test]
    fn printed_slip() {
        let input = joined(&printed());
        assert_eq!(input.len(), 203);
        let slip = Slip::read(&input).unwrap();
        assert_eq!(slip.cents, 12355);
        assert_eq!(slip.texts[..], printed()[3..]);
        assert_eq!(slip.write(203), Ok(input.clone()));
        assert_eq!(slip.write(usize::MAX), Ok(input.clone()));
        assert_eq!(slip.write(202), Err(Refusal::at(Reason::Room, 203)));
        assert_eq!(slip.write(0), Err(Refusal::at(Reason::Room, 203)));
        assert_eq!(
            answer(&with(&[(12, b"7269-68499637766-00019")])),
            (9, 12, 152)
        );
    }

    /// Field by field; the place of a 3 is counted from the field's first byte.
    #[test]
    fn each_field() {
        let full = "Ž".repeat(31).into_bytes();
        let many = [b'x'; 36];
        let cases: &[(usize, &[u8], u8, usize)] = &[
            (1, b"", 5, 0),
            (1, b"HRVHUB31", 5, 0),
            (1, b"HRVHUB3", 5, 0),
            (1, b"HRVHUB300", 5, 0),
            (1, b"HRVHUB30\r", 5, 0),
            (2, b"", 5, 0),
            (2, b"HRK", 5, 0),
            (2, b"EURO", 5, 0),
            (2, b"EU\xc5", 5, 0),
            (3, b"", 4, 0),
            (3, b"00000000012355", 4, 0),
            (3, b"0000000000012355", 4, 0),
            (3, b"00000000001235,", 3, 14),
            (3, b"+0000", 3, 0),
            (3, b"999999999999999", 0, 0),
            (4, b"", 0, 0),
            (4, &full[..60], 0, 0),
            (4, &full, 4, 0),
            (4, &full[..61], 3, 60),
            (4, &many[..30], 0, 0),
            (4, &many[..31], 4, 0),
            (4, b"ab\xc5", 3, 2),
            (4, b"ab\xc5x", 3, 2),
            (4, b"ab\xc5\xc5\xbd", 3, 2),
            (4, b"ab\xbd", 3, 2),
            (4, b"\xc5\xbd\xc4\xbd", 3, 2),
            (4, b"\xc5\xbd\xc5\x8c", 3, 2),
            (4, b"\xc5\xbd;\xff", 3, 2),
            (4, b"\xc5\xbd\xff;", 3, 2),
            (4, b"\xe2\x82\xac", 3, 0),
            (4, b"a\xc3\xa9", 3, 1),
            (4, b"a\0", 3, 1),
            (5, &full[..54], 0, 0),
            (5, &full[..56], 4, 0),
            (6, &many[..27], 0, 0),
            (6, &many[..28], 4, 0),
            (7, &full[..50], 0, 0),
            (7, &full[..52], 4, 0),
            (8, &many[..25], 0, 0),
            (8, &many[..26], 4, 0),
            (9, &full[..54], 0, 0),
            (9, &full[..56], 4, 0),
            (10, b"", 4, 0),
            (10, b"hR1210010051863000160", 3, 0),
            (10, b"HR121001005186300016\xc5\xbd", 3, 20),
            (10, b"HR121001005186300016", 4, 0),
            (10, b"HR12100100518630001600", 4, 0),
            (10, b"SI1210010051863000160", 5, 0),
            (10, b"HR121001005186300016O", 5, 0),
            (10, b"HR1310010051863000160", 6, 0),
            (11, b"", 5, 0),
            (11, b"HR1", 5, 0),
            (11, b"HR001", 5, 0),
            (11, b"HR0\xff", 5, 0),
            (11, b"hr01", 5, 0),
            (11, b"HR05", 7, 0),
            (11, b"HR99", 8, 0),
            (12, b"", 8, 0),
            (12, b"12 34", 3, 2),
            (12, b"12345678901-12345678901", 4, 0),
            (12, b"12345678901-1234567890x", 3, 22),
            (12, b"1-2-3-4", 8, 0),
            (12, b"1", 9, 0),
            (12, b"0", 0, 0),
            (13, b"", 0, 0),
            (13, b"COS", 4, 0),
            (13, b"COSTS", 4, 0),
            (13, b"cOST", 3, 0),
            (13, b"COS1", 3, 3),
            (13, b"COSTS ", 3, 5),
            (14, b"", 0, 0),
            (14, &many[..35], 0, 0),
            (14, &many, 4, 0),
            (14, b"1 \x8d", 3, 2),
        ];
        for &(field, text, number, byte) in cases {
            // A refusal by HR99 is one of the reference that stands behind it.
            let (at, start) = match (field, number) {
                (11, 8) => (12, STARTS[11]),
                _ => (field, STARTS[field - 1]),
            };
            let shown = text.escape_ascii();
            let input = with(&[(field, text)]);
            let expected = match number {
                0 => (0, 0, 0),
                _ => (number, at, start + byte),
            };
            assert_eq!(answer(&input), expected, "{field} {shown}");

            // The writer tells the same, with the byte of a 3 in its field.
            if field > 3 {
                let mut texts: [&[u8]; TEXTS] = printed()[3..].try_into().unwrap();
                texts[field - 4] = text;
                let slip = Slip {
                    cents: 12355,
                    texts,
                };
                let expected = match number {
                    0 => Ok(input),
                    _ => Err((number, at, byte)),
                };
                let written = slip.write(LARGEST).map_err(|r| told(Err::<(), _>(r)));
                assert_eq!(written, expected, "{field} {shown}");
            }
        }
    }

    #[test]
    fn letters_of_000() {
        let codes: [[u8; 2]; 10] = [
            [0xC4, 0x8C],
            [0xC4, 0x8D],
            [0xC4, 0x86],
            [0xC4, 0x87],
            [0xC4, 0x90],
            [0xC4, 0x91],
            [0xC5, 0xA0],
            [0xC5, 0xA1],
            [0xC5, 0xBD],
            [0xC5, 0xBE],
        ];
        for first in 0..=255u8 {
            let alone = first.is_ascii_alphanumeric() || b" ,.:-+?'/()".contains(&first);
            assert_eq!(free(&[first], 1).is_ok(), alone, "{first:02x}");
            for second in 0..=255u8 {
                let both = free(&[first, second], 2);
                if codes.contains(&[first, second]) {
                    assert_eq!(both, Ok(()));
                    assert_eq!(free(&[first, second], 1), Ok(()));
                } else if !alone {
                    assert_eq!(both, Err(Refusal::at(Reason::Byte, 0)));
                }
            }
        }
    }

    #[test]
    fn size_and_line_ends() {
        let slip = joined(&printed());
        assert_eq!(answer(b""), (2, 0, 0));
        assert_eq!(answer(b"\n"), (2, 0, 0));
        assert_eq!(answer(&[b'\n'; 13]), (2, 0, 0));
        assert_eq!(answer(&[b'\n'; 14]), (5, 1, 0));
        assert_eq!(answer(&[b'\n'; 15]), (2, 0, 0));
        assert_eq!(answer(&slip[..202]), (2, 0, 0));
        assert_eq!(answer(&[&slip[..], b"\n"].concat()), (2, 0, 0));
        assert_eq!(answer(&[&slip[..], b"x"].concat()), (2, 0, 0));
        assert_eq!(answer(&joined(&printed()[..13])), (2, 0, 0));
        // Fourteen line feeds, the last not last.
        assert_eq!(answer(&[b"\n", &slip[..202]].concat()), (2, 0, 0));

        let letters = "Ž".repeat(35).into_bytes();
        let limits = [
            (4, 60),
            (5, 54),
            (6, 54),
            (7, 50),
            (8, 50),
            (9, 54),
            (14, 70),
        ];
        let full: Vec<(usize, &[u8])> = limits.iter().map(|&(n, l)| (n, &letters[..l])).collect();
        let largest = with(&full);
        assert_eq!(largest.len(), LARGEST);
        let slip = Slip::read(&largest).unwrap();
        assert_eq!(slip.write(LARGEST), Ok(largest.clone()));
        assert_eq!(slip.write(482), Err(Refusal::at(Reason::Room, LARGEST)));
        // One byte more is 1, whatever else is wrong.
        for extra in [&b"\n"[..], b"x", b"\0"] {
            assert_eq!(answer(&[&largest[..], extra].concat()), (1, 0, 0));
            assert_eq!(answer(&[extra, &largest[..]].concat()), (1, 0, 0));
        }
        assert_eq!(answer(&[b'\n'; 483]), (2, 0, 0));
        assert_eq!(answer(&[b'\n'; 484]), (1, 0, 0));
    }

    #[test]
    fn order_of_refusals() {
        let iban: (usize, &[u8]) = (10, b"HR1310010051863000160");
        assert_eq!(answer(&with(&[(5, b"a;"), iban])), (3, 5, 49));
        assert_eq!(answer(&with(&[(11, b""), iban])), (6, 10, 125));
        assert_eq!(answer(&with(&[(2, b"HRK"), (3, b"x")])), (5, 2, 9));
        assert_eq!(answer(&with(&[(11, b"HR05"), (12, b"x")])), (7, 11, 147));
        // 3 before 4 in one field.
        let long = [&[b'x'; 40][..], b";"].concat();
        assert_eq!(answer(&with(&[(4, &long)])), (3, 4, 69));
        assert_eq!(answer(&with(&[(13, b"COSTs")])), (3, 13, 179));
        // Empty fields.
        let mut fields = printed();
        for number in [4, 5, 6, 7, 8, 9, 13, 14] {
            fields[number - 1] = b"";
        }
        assert_eq!(answer(&joined(&fields)), (0, 0, 0));
        assert_eq!(answer(&with(&[(11, b"HR99"), (12, b"")])), (0, 0, 0));
        assert_eq!(answer(&with(&[(11, b"HR00"), (12, b"")])), (8, 12, 152));
        let wage: (usize, &[u8]) = (12, b"40010-12345678903-100");
        assert_eq!(answer(&with(&[(11, b"HR69"), wage])), (5, 12, 152));
        assert_eq!(answer(&with(&[(11, b"HR00"), wage])), (0, 0, 0));
    }

    #[test]
    fn writer() {
        let texts: [&[u8]; TEXTS] = printed()[3..].try_into().unwrap();
        let slip = |cents, changes: &[(usize, &'static [u8])]| {
            let mut texts = texts;
            for &(number, text) in changes {
                texts[number - 4] = text;
            }
            Slip { cents, texts }
        };
        let much = slip(TOO_MUCH - 1, &[]).write(203).unwrap();
        assert_eq!(much[13..29], *b"999999999999999\n");
        assert_eq!(Slip::read(&much).unwrap().cents, TOO_MUCH - 1);
        assert_eq!(slip(0, &[]).write(203).unwrap()[13..28], [b'0'; 15]);
        // 4 at field 3 first, then the fields in order, then 15.
        assert_eq!(told(slip(TOO_MUCH, &[(5, b";")]).write(0)), (4, 3, 0));
        assert_eq!(told(slip(u64::MAX, &[]).write(0)), (4, 3, 0));
        assert_eq!(
            told(slip(0, &[(5, b"a;"), (4, b"a\xc5")]).write(0)),
            (3, 4, 1)
        );
        assert_eq!(told(slip(0, &[(5, b"a;"), (10, b"")]).write(0)), (3, 5, 1));
        assert_eq!(told(slip(0, &[(14, b"a|")]).write(0)), (3, 14, 1));
        // A line feed would end the field.
        assert_eq!(told(slip(0, &[(4, b"a\nb")]).write(999)), (3, 4, 1));
        assert_eq!(told(slip(0, &[(11, b"HR0\n")]).write(999)), (5, 11, 0));
        assert_eq!(told(slip(0, &[(12, b"0\n")]).write(999)), (3, 12, 1));
    }

    #[test]
    fn program_output() {
        let run = |input: &[u8]| {
            let mut output = Vec::new();
            program(input, &mut output).unwrap();
            String::from_utf8(output).unwrap()
        };
        assert_eq!(
            run(&joined(&printed())),
            "accepted\n3=000000000012355\n4=ŽELJKO SENEKOVIĆ\n5=IVANEČKA ULICA 125\n\
             6=42000 VARAŽDIN\n7=2DBK d.d.\n8=ALKARSKI PROLAZ 13B\n9=21230 SINJ\n\
             10=HR1210010051863000160\n11=HR01\n12=7269-68499637766-00011\n13=COST\n\
             14=Troškovi za 1. mjesec\n"
        );
        assert_eq!(
            run(&with(&[(4, b"0123456789012345678901234567890;")])),
            "refused 3 line 0 field 4 byte 60\n"
        );
        assert_eq!(run(b""), "refused 2 line 0 field 0 byte 0\n");
        assert_eq!(
            run(&vec![b'\n'; 1 << 20]),
            "refused 1 line 0 field 0 byte 0\n"
        );
    }
}
