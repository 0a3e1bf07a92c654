//! Standing text for slips (02, W2): lines `number=text` on two sheets, of which
//! the farm's goes before the association's.

use crate::lent;
use crate::refusal::{Reason, Refusal};
use crate::slip::{judge_words, Slip, TEXTS};

/// The fields that a sheet may have.
pub const NUMBERS: [usize; 8] = [4, 5, 6, 7, 8, 9, 13, 14];

/// Whose sheet; the discriminant is the number that a caller is told.
#[derive(Clone, Copy, Debug, PartialEq, Eq)]
pub enum Owner {
    Farm = 1,
    Association = 2,
}

/// A text, and where in its sheet it stands.
#[derive(Clone, Copy, Debug, PartialEq, Eq)]
pub struct Standing<'a> {
    pub owner: Owner,
    pub start: usize,
    pub text: &'a [u8],
}

/// A refusal, and for 20 whose sheet has the line.
#[derive(Clone, Copy, Debug, PartialEq, Eq)]
pub struct Refused {
    pub refusal: Refusal,
    pub owner: Option<Owner>,
}

impl From<Refusal> for Refused {
    fn from(refusal: Refusal) -> Self {
        let owner = None;
        Refused { refusal, owner }
    }
}

/// What the sheets have for a field: 28, then 20.
pub fn standing_text<'a>(
    field: usize,
    farm: &'a [u8],
    association: &'a [u8],
) -> Result<Option<Standing<'a>>, Refused> {
    if !NUMBERS.contains(&field) {
        return Err(Refusal::from(Reason::Field).into());
    }
    let mut found = None;
    read(farm, association, |number, standing| {
        if number == field && found.is_none() {
            found = Some(standing);
        }
    })?;
    Ok(found)
}

/// Writes a slip of fields 4 to 14 as they are lent, those that are empty taken
/// from the sheets: 1, then 20, then what the writer refuses.
pub fn write_standing(
    cents: u64,
    text: &[u8],
    sizes: &[usize],
    farm: &[u8],
    association: &[u8],
    room: usize,
) -> Result<Vec<u8>, Refused> {
    let mut texts: [&[u8]; TEXTS] = lent::fields(text, sizes)?;
    let mut open = texts.map(<[u8]>::is_empty);
    read(farm, association, |number, standing| {
        // An empty text of the farm's is an answer too.
        if std::mem::take(&mut open[number - 4]) {
            texts[number - 4] = standing.text;
        }
    })?;
    Ok(Slip { cents, texts }.write(room)?)
}

/// Hands over every text of both sheets, the farm's first, or 20 with the first
/// malformed line.
fn read<'a>(
    farm: &'a [u8],
    association: &'a [u8],
    mut hand: impl FnMut(usize, Standing<'a>),
) -> Result<(), Refused> {
    for (owner, sheet) in [(Owner::Farm, farm), (Owner::Association, association)] {
        let (mut end, mut before) = (0, 0);
        for (place, line) in (1..).zip(sheet.split_inclusive(|&b| b == b'\n')) {
            end += line.len();
            let Some((number, text)) = divided(line).filter(|&(number, _)| number > before) else {
                return Err(Refused {
                    refusal: Refusal::from(Reason::Sheet).in_line(place),
                    owner: Some(owner),
                });
            };
            before = number;
            // The line feed stands behind the text.
            let start = end - 1 - text.len();
            hand(number, Standing { owner, start, text });
        }
    }
    Ok(())
}

/// Number and text of a line that is right by itself.
fn divided(line: &[u8]) -> Option<(usize, &[u8])> {
    let (number, text) = match line {
        [digit @ b'4'..=b'9', b'=', text @ .., b'\n'] => (usize::from(digit - b'0'), text),
        [b'1', digit @ b'3'..=b'4', b'=', text @ .., b'\n'] => {
            (10 + usize::from(digit - b'0'), text)
        }
        _ => return None,
    };
    judge_words(number, text).ok()?;
    Some((number, text))
}

#[cfg(test)]
mod tests {
    use super::*;
    use crate::generate::{sheet, sheets, texts_given, Dice};

    const FARM: &[u8] = "4=ANA ANIĆ\n5=\n13=SALA\n14=Plaća\n".as_bytes();
    const ASSOCIATION: &[u8] = "4=x\n5=ULICA 1\n9=SINJ\n14=".as_bytes();

    /// Sheet, start and text; nothing for neither.
    fn found(field: usize, farm: &[u8], association: &[u8]) -> Option<(usize, usize, String)> {
        let standing = standing_text(field, farm, association).unwrap()?;
        let text = String::from_utf8(standing.text.to_vec()).unwrap();
        Some((standing.owner as usize, standing.start, text))
    }

    /// Number, line and sheet of a refusal; all else in it is 0.
    fn refused<T: std::fmt::Debug>(answer: Result<T, Refused>) -> (u8, usize, usize) {
        let Refused { refusal, owner } = answer.unwrap_err();
        assert_eq!((refusal.field, refusal.detail), (0, 0));
        let owner = owner.map_or(0, |owner| owner as usize);
        (refusal.number(), refusal.line, owner)
    }

    /// The first malformed line of a farm's sheet; 0 where there is none.
    fn malformed(sheet: &[u8]) -> usize {
        match standing_text(4, sheet, b"") {
            Ok(_) => 0,
            answer => {
                let (number, line, owner) = refused(answer);
                assert_eq!((number, owner), (20, 1));
                line
            }
        }
    }

    #[test]
    fn farm_before_association() {
        let ended = [ASSOCIATION, b"\n"].concat();
        for (field, expected) in [
            (4, Some((1, 2, "ANA ANIĆ"))),
            (5, Some((1, 14, ""))),
            (6, None),
            (9, Some((2, 16, "SINJ"))),
            (13, Some((1, 18, "SALA"))),
            (14, Some((1, 26, "Plaća"))),
        ] {
            let expected = expected.map(|(owner, start, text)| (owner, start, text.to_string()));
            assert_eq!(found(field, FARM, &ended), expected, "{field}");
        }
        assert_eq!(found(5, b"", &ended), Some((2, 6, "ULICA 1".to_string())));
        assert_eq!(found(14, b"", &ended), Some((2, 24, String::new())));
        assert_eq!(found(14, b"", b""), None);
    }

    #[test]
    fn order_of_refusals() {
        for field in [0, 1, 2, 3, 10, 11, 12, 15, 4 + 256, usize::MAX] {
            assert_eq!(refused(standing_text(field, b"x", b"x")), (28, 0, 0));
            assert_eq!(refused(standing_text(field, b"", b"")), (28, 0, 0));
        }
        // Both sheets are judged whole, whatever is asked.
        for field in NUMBERS {
            let ask = |farm: &[u8], association: &[u8]| {
                refused(standing_text(field, farm, association).map(drop))
            };
            assert_eq!(ask(b"4=\n5=\nx", b"x"), (20, 3, 1));
            assert_eq!(ask(b"4=\n5=\n", b"14=\nx"), (20, 2, 2));
            assert_eq!(ask(FARM, ASSOCIATION), (20, 4, 2));
        }
    }

    #[test]
    fn lines() {
        for right in [
            &b""[..],
            b"4=\n",
            b"14=\n",
            b"4=\n5=\n6=\n7=\n8=\n9=\n13=\n14=\n",
            b"13=AAAA\n14=13\n",
        ] {
            assert_eq!(malformed(right), 0, "{}", right.escape_ascii());
        }
        let numbers = "0 1 2 3 10 11 12 15 40 44 04 013 113 133 260 4294967300 \
            18446744073709551620 +4 -4 4. =4 x ٤"
            .split(' ')
            .chain(["", " 4", "4 ", "4\t", "4\n"])
            .map(|number| format!("{number}=\n"));
        let texts = "4 4:a 5== 5=a= 5=; 5=€ 13=AAA 13=AAAAA 13=AAAa 13=A-AA"
            .split(' ')
            .chain(["13= ", "5=\t", "5=\0", "5=\r", "\r", ""])
            .map(|line| format!("{line}\n"));
        let unended = ["4", "4=", "4=a", "x", "\r"].map(str::to_string);
        // Each alone, and behind a right line.
        for wrong in numbers.chain(texts).chain(unended) {
            assert_eq!(malformed(wrong.as_bytes()), 1, "{wrong:?}");
            let behind = format!("4=\n{wrong}");
            assert_eq!(malformed(behind.as_bytes()), 2, "{wrong:?}");
        }
        for bytes in [&b"5=\xc5\n"[..], b"5=\xbd\n", b"5=\xff\n", b"5=\xc4\xbd\n"] {
            assert_eq!(malformed(bytes), 1);
        }
        // The second of two in the wrong order, or of one number.
        assert_eq!(malformed(b"4=\n6=\n5=\n"), 3);
        assert_eq!(malformed(b"14=\n13=\n"), 2);
        assert_eq!(malformed(b"13=\n4=\n"), 2);
        assert_eq!(malformed(b"4=\n4=\n"), 2);
        assert_eq!(malformed(b"4=\n5=\n14=\n14=\n"), 4);
    }

    /// As many characters as the field of a slip has, and one more.
    #[test]
    fn limits() {
        for (number, most) in [
            (4, 30),
            (5, 27),
            (6, 27),
            (7, 25),
            (8, 25),
            (9, 27),
            (14, 35),
        ] {
            for letter in ["a", "Ž"] {
                let line = |count| format!("{number}={}\n", letter.repeat(count)).into_bytes();
                assert_eq!(malformed(&line(most)), 0, "{number}");
                assert_eq!(malformed(&line(most + 1)), 1, "{number}");
            }
        }
    }

    #[test]
    fn written_with_standing_text() {
        let write = |cents, fields: &[&str], farm: &[u8], association: &[u8], room| {
            let sizes: Vec<usize> = fields.iter().map(|f| f.len()).collect();
            let text = fields.concat();
            let written = write_standing(cents, text.as_bytes(), &sizes, farm, association, room);
            written.map(|slip| String::from_utf8(slip).unwrap())
        };
        let given = [
            "A",
            "",
            "",
            "D",
            "",
            "",
            "HR1210010051863000160",
            "HR99",
            "",
            "",
            "",
        ];
        let ended = [ASSOCIATION, b"\n"].concat();
        let slip = "HRVHUB30\nEUR\n000000000000007\nA\n\n\nD\n\nSINJ\nHR1210010051863000160\n\
            HR99\n\nSALA\nPlaća\n";
        let size = slip.len();
        assert_eq!(write(7, &given, FARM, &ended, size), Ok(slip.to_string()));
        let short = write(7, &given, FARM, &ended, size - 1);
        let needed = Refused::from(Refusal::at(Reason::Room, size));
        assert_eq!(short, Err(needed));
        // 1, 20, 4 of the amount, the fields, 15.
        let (much, wrong) = (u64::MAX, ["A;"; 12]);
        let one = |answer| refused::<String>(answer);
        assert_eq!(one(write(much, &wrong, b"x", b"x", 0)), (1, 0, 0));
        let wrong = &wrong[..TEXTS];
        assert_eq!(one(write(much, wrong, b"x", b"x", 0)), (20, 1, 1));
        assert_eq!(one(write(much, wrong, b"", ASSOCIATION, 0)), (20, 4, 2));
        let length = Refusal::from(Reason::Length).in_field(3, 0);
        assert_eq!(write(much, wrong, b"", b"", 0), Err(length.into()));
        let byte = Refusal::at(Reason::Byte, 1).in_field(4, 0);
        assert_eq!(write(7, wrong, FARM, b"", 0), Err(byte.into()));
    }

    /// As the writer does with what the sheets have for each empty field.
    #[test]
    fn field_by_field() {
        let mut dice = Dice::new(1);
        let mut met = [0; 2];
        for _ in 0..20_000 {
            let fields = texts_given(&mut dice);
            let [farm, association] = sheets(&mut dice);
            let sizes: Vec<usize> = fields.iter().map(Vec::len).collect();
            let written =
                write_standing(7, &fields.concat(), &sizes, &farm, &association, usize::MAX);
            let mut texts: [&[u8]; TEXTS] = std::array::from_fn(|k| &fields[k][..]);
            let mut fault = None;
            for number in NUMBERS {
                match standing_text(number, &farm, &association) {
                    Ok(Some(standing)) => {
                        let sheet = [&farm, &association][standing.owner as usize - 1];
                        let part = &sheet[standing.start..][..standing.text.len()];
                        assert_eq!(part, standing.text);
                        if texts[number - 4].is_empty() {
                            texts[number - 4] = part;
                        }
                    }
                    Ok(None) => {}
                    Err(refused) => fault = Some(refused),
                }
            }
            let expected = match fault {
                Some(refused) => Err(refused),
                None => Slip { cents: 7, texts }
                    .write(usize::MAX)
                    .map_err(Refused::from),
            };
            met[usize::from(expected.is_ok())] += 1;
            assert_eq!(written, expected);
        }
        assert!(met.iter().all(|&times| times > 4_000), "{met:?}");
    }

    /// The first malformed line, found by cutting the sheet behind each line.
    #[test]
    fn line_by_line() {
        let mut dice = Dice::new(2);
        let mut met = [0; 4];
        for _ in 0..20_000 {
            let sheet = sheet(&mut dice);
            let ends = (1..=sheet.len()).filter(|&k| k == sheet.len() || sheet[k - 1] == b'\n');
            let first = (1..)
                .zip(ends)
                .find(|&(_, end)| malformed(&sheet[..end]) > 0);
            let line = first.map_or(0, |(line, _)| line);
            assert_eq!(malformed(&sheet), line, "{}", sheet.escape_ascii());
            met[line.min(3)] += 1;
        }
        assert!(met.iter().all(|&times| times > 1_000), "{met:?}");
    }
}
