//! Where 004 puts the fields that 01 names, and what makes bytes a line.

use crate::refusal::{Reason, Refusal};
use std::ops::Range;

/// The bytes of a line, its end included.
pub const LINE: usize = 1002;
pub type Line = [u8; LINE];

const END: &[u8; 2] = b"\r\n";
/// Where the type of a line stands.
pub const TYPE: Range<usize> = 997..1000;

#[derive(Clone, Copy, Debug, PartialEq, Eq)]
pub enum Type {
    /// 300
    Label,
    /// 301
    Group,
    /// 309
    Order,
    /// 399
    Close,
}

impl Type {
    pub const ALL: [Type; 4] = [Type::Label, Type::Group, Type::Order, Type::Close];

    pub const fn digits(self) -> &'static [u8; 3] {
        match self {
            Type::Label => b"300",
            Type::Group => b"301",
            Type::Order => b"309",
            Type::Close => b"399",
        }
    }

    /// What these bytes are: 1, 2, and 5 for an unknown type.
    pub fn of(bytes: &[u8]) -> Result<(&Line, Type), Refusal> {
        let line: &Line = bytes.try_into().map_err(|_| Reason::Size)?;
        if !line.ends_with(END) {
            return Err(Reason::LineEnds.into());
        }
        let digits = &line[TYPE];
        match Type::ALL.into_iter().find(|t| t.digits() == digits) {
            Some(found) => Ok((line, found)),
            None => Err(Refusal::at(Reason::Form, TYPE.start)),
        }
    }
}

/// A field's number and where it stands in its line.
#[derive(Clone, Copy, Debug, PartialEq, Eq)]
pub struct Place {
    pub field: usize,
    pub start: usize,
    pub end: usize,
}

impl Place {
    /// 004 counts positions from 1 and names the last one too.
    const fn new(field: usize, from: usize, to: usize) -> Place {
        Place {
            field,
            start: from - 1,
            end: to,
        }
    }

    pub const fn range(&self) -> Range<usize> {
        self.start..self.end
    }

    pub const fn length(&self) -> usize {
        self.end - self.start
    }
}

/// The places of a 300 line.
pub const LABEL: [Place; 8] = [
    Place::new(1, 1, 8),
    Place::new(2, 9, 9),
    Place::new(3, 10, 12),
    Place::new(4, 13, 13),
    Place::new(5, 14, 24),
    Place::new(6, 25, 35),
    Place::new(7, 36, 46),
    Place::new(8, 47, 57),
];

/// The places of a 301 line.
pub const GROUP: [Place; 7] = [
    Place::new(1, 1, 21),
    Place::new(2, 22, 24),
    Place::new(3, 25, 45),
    Place::new(4, 46, 48),
    Place::new(5, 49, 53),
    Place::new(6, 54, 73),
    Place::new(7, 74, 81),
];

/// The places of a 309 line. Name, address and seat are one field, 2.
pub const ORDER: [Place; 16] = [
    Place::new(1, 1, 34),
    Place::new(2, 35, 174),
    Place::new(5, 175, 177),
    Place::new(6, 178, 181),
    Place::new(7, 182, 203),
    Place::new(8, 204, 207),
    Place::new(9, 208, 347),
    Place::new(10, 348, 362),
    Place::new(11, 363, 366),
    Place::new(12, 367, 388),
    Place::new(18, 543, 543),
    Place::new(19, 544, 546),
    Place::new(20, 547, 547),
    Place::new(21, 548, 548),
    Place::new(22, 549, 551),
    Place::new(23, 552, 562),
];

/// 309's country of the bank, which is not read and written as zeros.
pub const BANK_COUNTRY: Range<usize> = 539..542;

pub const fn places(of: Type) -> &'static [Place] {
    match of {
        Type::Label => &LABEL,
        Type::Group => &GROUP,
        Type::Order => &ORDER,
        Type::Close => &[],
    }
}

/// The bytes of every place, in the order of the table.
pub fn parts<'a, const N: usize>(line: &'a Line, places: &[Place; N]) -> [&'a [u8]; N] {
    places.map(|p| &line[p.range()])
}

/// The field with this number as it stands in the line; empty if the line has
/// no such place, or is no line.
pub fn place(bytes: &[u8], field: usize) -> &[u8] {
    Type::of(bytes)
        .ok()
        .and_then(|(line, found)| {
            let place = places(found).iter().find(|p| p.field == field)?;
            Some(&line[place.range()])
        })
        .unwrap_or_default()
}

/// Writes a line at the front of the room: each field, whose length is right,
/// at its place, and blanks between.
pub fn put<'r, const N: usize>(
    room: &'r mut [u8],
    of: Type,
    places: &[Place; N],
    fields: &[&[u8]; N],
) -> Result<&'r mut Line, Refusal> {
    let line: &mut Line = room
        .first_chunk_mut()
        .ok_or(Refusal::at(Reason::Room, LINE))?;
    line.fill(b' ');
    for (place, field) in places.iter().zip(fields) {
        line[place.range()].copy_from_slice(field);
    }
    line[TYPE].copy_from_slice(of.digits());
    line[TYPE.end..].copy_from_slice(END);
    Ok(line)
}

#[cfg(test)]
mod tests {
    use super::*;

    /// 004's tables give lengths too; the places lie in order and apart.
    #[test]
    fn lengths_of_004() {
        let lengths = |places: &[Place]| -> Vec<(usize, usize)> {
            for pair in places.windows(2) {
                assert!(pair[0].end <= pair[1].start && pair[0].field < pair[1].field);
            }
            places.iter().map(|p| (p.field, p.length())).collect()
        };
        assert_eq!(
            lengths(&LABEL),
            [
                (1, 8),
                (2, 1),
                (3, 3),
                (4, 1),
                (5, 11),
                (6, 11),
                (7, 11),
                (8, 11)
            ]
        );
        assert_eq!(
            lengths(&GROUP),
            [(1, 21), (2, 3), (3, 21), (4, 3), (5, 5), (6, 20), (7, 8)]
        );
        assert_eq!(
            lengths(&ORDER),
            [
                (1, 34),
                (2, 70 + 35 + 35),
                (5, 3),
                (6, 4),
                (7, 22),
                (8, 4),
                (9, 140),
                (10, 15),
                (11, 4),
                (12, 22),
                (18, 1),
                (19, 3),
                (20, 1),
                (21, 1),
                (22, 3),
                (23, 11)
            ]
        );
    }

    #[test]
    fn what_a_line_is() {
        let mut line = [b'x'; LINE];
        assert_eq!(Type::of(&line[1..]), Err(Reason::Size.into()));
        assert_eq!(Type::of(&[0; LINE + 1]), Err(Reason::Size.into()));
        assert_eq!(Type::of(b""), Err(Reason::Size.into()));
        for end in [b"\n\r", b"\r\r", b"\n\n", b"xx"] {
            line[1000..].copy_from_slice(end);
            assert_eq!(Type::of(&line), Err(Reason::LineEnds.into()));
        }
        line[1000..].copy_from_slice(b"\r\n");
        for digits in 0..1000 {
            line[TYPE].copy_from_slice(format!("{digits:03}").as_bytes());
            let expected = match digits {
                300 => Ok((&line, Type::Label)),
                301 => Ok((&line, Type::Group)),
                309 => Ok((&line, Type::Order)),
                399 => Ok((&line, Type::Close)),
                _ => Err(Refusal::at(Reason::Form, 997)),
            };
            assert_eq!(Type::of(&line), expected);
        }
    }

    #[test]
    fn places_by_number() {
        // Every byte tells where it stands, but for the type and the end.
        let mut line: Line = std::array::from_fn(|k| (k % 251) as u8);
        line[1000..].copy_from_slice(END);
        let mut met = 0;
        for of in Type::ALL {
            line[TYPE].copy_from_slice(of.digits());
            for field in (0..2000).chain([usize::MAX]) {
                let part = place(&line, field);
                match places(of).iter().find(|p| p.field == field) {
                    Some(p) => {
                        assert_eq!(part, &line[p.start..p.end]);
                        assert_eq!(part.as_ptr(), line[p.start..].as_ptr());
                        met += 1;
                    }
                    None => assert_eq!(part, b""),
                }
                assert_eq!(place(&line[..LINE - 1], field), b"");
            }
        }
        assert_eq!(met, 8 + 7 + 16);
        assert_eq!(place(&line, 1), b"");
        line[TYPE].copy_from_slice(b"309");
        assert_eq!(place(&line, 23).len(), 11);
        line[1001] = b'\r';
        assert_eq!(place(&line, 23), b"");
        line[1001] = b'\n';
        line[TYPE].copy_from_slice(b"310");
        assert_eq!(place(&line, 1), b"");
    }
}
