//! The sixteen reference models that 01 handles, each a row of one table.

use crate::checkdigit::Rule;
use crate::codes::is_code;
use crate::refusal::{only, Reason, Refusal};
use std::ops::{Range, RangeInclusive};

pub const LONGEST: usize = 22;
const MOST_PARTS: usize = 3;

/// Digits under one check digit: neighbouring parts, numbered from 0.
pub struct Group {
    pub rule: Rule,
    pub parts: Range<usize>,
}

/// What a part is, besides so many digits.
pub enum Contents {
    /// This number.
    Fixed(u64),
    /// A code of income.
    Code,
}

/// A part, numbered from 0, and what it must be.
pub struct Held {
    pub part: usize,
    pub contents: Contents,
}

pub struct Model {
    pub number: u8,
    /// How many parts there may be.
    pub parts: RangeInclusive<usize>,
    pub lengths: [RangeInclusive<usize>; MOST_PARTS],
    /// What is asked of a reference of three parts (document 02, W4).
    pub held: &'static [Held],
    pub groups: &'static [Group],
}

const ANY: RangeInclusive<usize> = 1..=12;

const fn ini(first: usize, last: usize) -> Group {
    Group {
        rule: Rule::Ini,
        parts: first - 1..last,
    }
}

const fn iso(first: usize, last: usize) -> Group {
    Group {
        rule: Rule::Iso,
        parts: first - 1..last,
    }
}

const fn held(part: usize, contents: Contents) -> Held {
    Held {
        part: part - 1,
        contents,
    }
}

/// One to three parts of one to twelve digits.
const fn open(number: u8, groups: &'static [Group]) -> Model {
    Model {
        number,
        parts: 1..=3,
        lengths: [ANY, ANY, ANY],
        held: &[],
        groups,
    }
}

pub static MODELS: [Model; 16] = [
    open(0, &[]),
    open(1, &[ini(1, 3)]),
    open(2, &[ini(2, 2), ini(3, 3)]),
    open(3, &[ini(1, 1), ini(2, 2), ini(3, 3)]),
    open(4, &[ini(1, 1), ini(3, 3)]),
    open(6, &[ini(2, 3)]),
    open(7, &[ini(2, 2)]),
    open(8, &[ini(1, 2), ini(3, 3)]),
    open(9, &[ini(1, 2)]),
    open(10, &[ini(1, 1), ini(2, 3)]),
    open(11, &[ini(1, 1), ini(2, 2)]),
    Model {
        number: 16,
        parts: 3..=3,
        lengths: [5..=5, 4..=4, 8..=8],
        held: &[],
        groups: &[ini(1, 1), ini(2, 2)],
    },
    open(17, &[iso(1, 1)]),
    Model {
        number: 35,
        parts: 2..=2,
        lengths: [1..=10, 11..=11, ANY],
        held: &[],
        groups: &[ini(1, 1), iso(2, 2)],
    },
    Model {
        number: 69,
        parts: 2..=3,
        lengths: [5..=5, 11..=11, 3..=3],
        held: &[held(1, Contents::Fixed(40_002)), held(3, Contents::Code)],
        groups: &[ini(1, 1), iso(2, 2)],
    },
    // An empty reference has no part at all, and that is what HR99 wants.
    Model {
        number: 99,
        parts: 0..=0,
        lengths: [ANY, ANY, ANY],
        held: &[],
        groups: &[],
    },
];

impl Model {
    /// 5 unless `HR` and two digits, then 7 unless in the table.
    pub fn named(text: &[u8]) -> Result<&'static Model, Refusal> {
        let &[b'H', b'R', tens @ b'0'..=b'9', ones @ b'0'..=b'9'] = text else {
            return Err(Reason::Form.into());
        };
        let number = 10 * (tens - b'0') + (ones - b'0');
        MODELS
            .iter()
            .find(|m| m.number == number)
            .ok_or_else(|| Reason::Model.into())
    }

    /// Judges a reference as field 12 of the slip: 3, 4, 8, 5, 9.
    pub fn judge(&self, text: &[u8]) -> Result<(), Refusal> {
        let parts = self.formed(text)?;
        if parts.count == MOST_PARTS && !self.held.iter().all(|held| held.stands_in(&parts)) {
            return Err(Reason::Form.into());
        }
        self.checked(&parts)
    }

    /// Judges as before document 02's W4, without the 5: 3, 4, 8, 9.
    pub fn judge_before_w4(&self, text: &[u8]) -> Result<(), Refusal> {
        self.checked(&self.formed(text)?)
    }

    // Two judges call each of the next three, and as calls they cost a tenth.

    /// The parts, or 3, 4, 8.
    #[inline(always)]
    fn formed(&self, text: &[u8]) -> Result<Parts, Refusal> {
        only(text, |b| b == b'-' || b.is_ascii_digit())?;
        if text.len() > LONGEST {
            return Err(Reason::Length.into());
        }
        self.parts(text).ok_or_else(|| Reason::Parts.into())
    }

    /// 9 unless each group that is there ends in its check digit.
    #[inline(always)]
    fn checked(&self, parts: &Parts) -> Result<(), Refusal> {
        for group in self.groups {
            let last = group.parts.end.min(parts.count);
            if group.parts.start < last {
                let digits = parts.joined(group.parts.start..last);
                if !group.rule.passes(digits.iter().copied()) {
                    return Err(Reason::ReferenceCheck.into());
                }
            }
        }
        Ok(())
    }

    /// The parts of digits and hyphens, if their number and lengths are right.
    #[inline(always)]
    fn parts(&self, text: &[u8]) -> Option<Parts> {
        let mut parts = Parts::default();
        if !text.is_empty() {
            let mut length = 0;
            // The end closes the last part as a hyphen would.
            for &b in text.iter().chain(b"-") {
                if b == b'-' {
                    let permitted = self.lengths.get(parts.count)?;
                    if !permitted.contains(&(length - parts.ends[parts.count])) {
                        return None;
                    }
                    parts.count += 1;
                    parts.ends[parts.count] = length;
                } else {
                    parts.digits[length] = b - b'0';
                    length += 1;
                }
            }
        }
        self.parts.contains(&parts.count).then_some(parts)
    }
}

/// A reference without its hyphens, kept off the heap: listings ask often.
#[derive(Default)]
struct Parts {
    count: usize,
    /// The values of all digits, one part after another.
    digits: [u8; LONGEST],
    /// Where the parts end among the digits, and before them where they begin.
    ends: [usize; 1 + MOST_PARTS],
}

impl Parts {
    /// The digits of neighbouring parts.
    fn joined(&self, parts: Range<usize>) -> &[u8] {
        &self.digits[self.ends[parts.start]..self.ends[parts.end]]
    }
}

impl Held {
    fn stands_in(&self, parts: &Parts) -> bool {
        let digits = parts.joined(self.part..self.part + 1);
        let number = digits.iter().fold(0, |n, &d| 10 * n + u64::from(d));
        match self.contents {
            Contents::Fixed(wanted) => number == wanted,
            Contents::Code => is_code(number),
        }
    }
}

#[cfg(test)]
mod tests {
    use super::*;

    /// 0 for acceptance, else 01's number.
    fn answer(line: &str) -> u8 {
        let (model, text) = line.split_once(' ').unwrap();
        Model::named(model.as_bytes())
            .and_then(|m| m.judge(text.as_bytes()))
            .map_or_else(|r| r.number(), |()| 0)
    }

    #[test]
    fn examples_of_003() {
        for line in [
            "HR01 102-3057-89016",
            "HR01 10230578-9016",
            "HR01 10-2305789016",
            "HR01 10-230578901-6",
            "HR02 1023-5789010",
            "HR02 578901-10235",
            "HR02 1023-5789-9016",
            "HR02 1023-57894-19",
            "HR06 102-3057-89015",
            "HR06 102-30-5789015",
            "HR06 102-30578-9015",
            "HR06 102-30578901-5",
            "HR06 102305-789011",
            "HR06 102-305789015",
            "HR06 10230578-9016",
        ] {
            assert_eq!(answer(line), 0, "{line}");
        }
    }

    #[test]
    fn both_sides_of_the_line() {
        for (line, number) in [
            ("HR69 40002-12345678903-100", 0),
            ("HR69 40003-12345678903", 9),
            ("HR69 40002", 8),
            ("HR01 7269-68499637766-00019", 9),
            ("HR01 7269-68499637766-00011", 0),
            ("HR01 0", 0),
            ("HR01 1", 9),
            ("HR99 ", 0),
            ("HR99 0", 8),
            ("HR99 -", 8),
            ("HR00 ", 8),
        ] {
            assert_eq!(answer(line), number, "{line}");
        }
    }

    /// Document 02, W4: in a reference of three parts under HR69 the first is
    /// 40002 and the third a code; 5, after 8 and before 9.
    #[test]
    fn wage_references() {
        for (text, number) in [
            ("40002-12345678903-100", 0),
            ("40002-12345678903-699", 0),
            ("40003-12345678903", 9),
            ("40010-12345678903", 0),
            ("40010-12345678903-100", 5),
            ("40003-12345678903-100", 5),
            ("40003-12345678904-999", 5),
            ("40002-12345678903-10", 8),
            ("40003-12345678903-1010", 8),
            ("40002-12345678903-10-1", 8),
            ("40002-12345678903-100-1", 4),
            ("40002-12345678903-101", 5),
            ("40002-12345678903-000", 5),
            ("40002-12345678903-099", 5),
            ("40002-12345678904-100", 9),
            ("40002-12345678904-101", 5),
            ("40002-12345678903-1000", 8),
            ("40002-12345678903-10000", 4),
            ("40010-12345678903-1x1", 3),
            ("40002", 8),
        ] {
            assert_eq!(answer(&format!("HR69 {text}")), number, "{text}");
        }
        // No other model asks for contents.
        assert_eq!(answer("HR00 40010-12345678903-101"), 0);
        assert_eq!(answer("HR11 40010-12345678909-101"), 0);
        assert_eq!(answer("HR16 40010-1007-00000101"), 0);
        assert_eq!(answer("HR35 40010-12345678903"), 0);
    }

    #[test]
    fn before_w4() {
        let model = Model::named(b"HR69").unwrap();
        for (text, number) in [
            ("40002-12345678903-101", 0),
            ("40010-12345678903-100", 0),
            ("40003-12345678903-101", 9),
            ("40002-12345678904-101", 9),
            ("40010-12345678903-10", 8),
            ("40010-12345678903-1x1", 3),
        ] {
            let answer = model.judge_before_w4(text.as_bytes());
            let answer = answer.map_or_else(|refusal| refusal.number(), |()| 0);
            assert_eq!(answer, number, "{text}");
        }
    }

    #[test]
    fn parts() {
        for (line, number) in [
            ("HR00 123456789012", 0),
            ("HR00 1234567890123", 8),
            ("HR00 1-2-3", 0),
            ("HR00 1-2-3-4", 8),
            ("HR00 1-", 8),
            ("HR00 -1", 8),
            ("HR00 1--2", 8),
            ("HR00 -", 8),
            ("HR00 12345678901-1234567890", 0),
            ("HR00 12345678901-12345678901", 4),
            ("HR00 1 2", 3),
            ("HR05 1", 7),
            ("HR1 1", 5),
            ("HR001 1", 5),
            ("hr01 1", 5),
        ] {
            assert_eq!(answer(line), number, "{line}");
        }
    }

    /// Each model's groups, by flipping the last digit of each part in turn:
    /// a part whose change is noticed is the last one present of some group.
    #[test]
    fn which_parts_end_a_group() {
        let ends: [(&str, [&str; 3]); 12] = [
            ("HR00", ["", "", ""]),
            ("HR01", ["1", "12", "123"]),
            ("HR02", ["", "2", "23"]),
            ("HR03", ["1", "12", "123"]),
            ("HR04", ["1", "1", "13"]),
            ("HR06", ["", "2", "23"]),
            ("HR07", ["", "2", "2"]),
            ("HR08", ["1", "12", "123"]),
            ("HR09", ["1", "12", "12"]),
            ("HR10", ["1", "12", "123"]),
            ("HR11", ["1", "12", "12"]),
            ("HR17", ["1", "1", "1"]),
        ];
        for (name, watched) in ends {
            let model = Model::named(name.as_bytes()).unwrap();
            for (count, watched) in (1..=3).zip(watched) {
                // Find any passing text of `count` two-digit parts.
                let text = (0..10u32.pow(2 * count))
                    .step_by(7)
                    .map(|n| {
                        let n = format!("{n:0w$}", w = 2 * count as usize);
                        let parts: Vec<&str> =
                            (0..count as usize).map(|k| &n[2 * k..2 * k + 2]).collect();
                        parts.join("-").into_bytes()
                    })
                    .find(|t| t.iter().any(|&b| b > b'0' && b != b'-') && model.judge(t).is_ok())
                    .expect("a passing text");
                for part in 1..=count as usize {
                    let mut other = text.clone();
                    let last = 3 * part - 2;
                    other[last] = if other[last] == b'9' {
                        b'0'
                    } else {
                        other[last] + 1
                    };
                    let noticed = model.judge(&other).is_err();
                    let expected = watched.contains(char::from(b'0' + part as u8));
                    assert_eq!(noticed, expected, "{name} {count} parts, part {part}");
                }
            }
        }
    }
}
