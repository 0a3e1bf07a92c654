//! The two rules for one check digit: INI (003, 4.5) and MOD 11,10 (003, 4.4).

use crate::refusal::{only, Reason, Refusal};

#[derive(Clone, Copy, Debug, PartialEq, Eq)]
pub enum Rule {
    Ini,
    Iso,
}

/// The longest reference, so the longest digits that can want a check.
const LONGEST_CHECKED: usize = 22;
/// The most digits that 01 lets a check digit be made for.
const LONGEST_MADE: usize = 19;

impl Rule {
    pub fn named(word: &[u8]) -> Option<Rule> {
        match word {
            b"ini" => Some(Rule::Ini),
            b"iso" => Some(Rule::Iso),
            _ => None,
        }
    }

    /// The check digit that completes these digits (values 0 to 9).
    pub fn digit(self, body: impl DoubleEndedIterator<Item = u8>) -> u8 {
        match self {
            Rule::Ini => {
                let sum: u32 = (2..).zip(body.rev()).map(|(w, d)| w * u32::from(d)).sum();
                match sum % 11 {
                    0 | 1 => 0,
                    r => (11 - r) as u8,
                }
            }
            Rule::Iso => {
                let p = body.fold(10, |p, d| match (p + d) % 10 {
                    0 => 20 % 11,
                    s => 2 * s % 11,
                });
                (11 - p) % 10
            }
        }
    }

    /// Whether the last of these digits is the check digit of those before it.
    pub fn passes(self, mut digits: impl DoubleEndedIterator<Item = u8>) -> bool {
        digits
            .next_back()
            .is_some_and(|last| last == self.digit(digits))
    }

    /// Judges a text of 1 to 22 digits. No place is told for a check digit.
    pub fn check(self, text: &[u8]) -> Result<(), Refusal> {
        let digits = sized_digits(text, LONGEST_CHECKED)?;
        if self.passes(digits) {
            Ok(())
        } else {
            Err(Reason::ReferenceCheck.into())
        }
    }

    /// Makes the check digit for a text of 1 to 19 digits.
    pub fn make(self, text: &[u8]) -> Result<u8, Refusal> {
        Ok(self.digit(sized_digits(text, LONGEST_MADE)?))
    }
}

/// The values of ASCII digits.
pub fn values(text: &[u8]) -> impl DoubleEndedIterator<Item = u8> + '_ {
    text.iter().map(|b| b - b'0')
}

fn sized_digits(
    text: &[u8],
    longest: usize,
) -> Result<impl DoubleEndedIterator<Item = u8> + '_, Refusal> {
    if text.is_empty() || text.len() > longest {
        return Err(Reason::Size.into());
    }
    only(text, |b| b.is_ascii_digit()).map_err(|_| Refusal::from(Reason::Byte))?;
    Ok(values(text))
}

#[cfg(test)]
mod tests {
    use super::*;

    #[test]
    fn examples_of_003() {
        // 3 a): sum 214, remainder 5, check digit 6.
        assert_eq!(Rule::Ini.make(b"10230578901"), Ok(6));
        // 4.4 and 4.5.
        assert_eq!(Rule::Iso.make(b"234000"), Ok(9));
        assert_eq!(Rule::Iso.check(b"2340009"), Ok(()));
        assert_eq!(Rule::Ini.make(b"33444555666"), Ok(9));
        assert_eq!(Rule::Ini.check(b"334445556669"), Ok(()));
    }

    #[test]
    fn a_digit_alone() {
        for d in 0..10u8 {
            assert_eq!(Rule::Ini.passes([d].into_iter()), d == 0);
            assert_eq!(Rule::Iso.passes([d].into_iter()), d == 1);
        }
        assert!(!Rule::Ini.passes(std::iter::empty()));
    }

    #[test]
    fn remainders_zero_and_one_give_zero() {
        // 3 x 1 + 2 x 4 is 11 (r = 0), 2 x 6 is 12 (r = 1).
        assert_eq!(Rule::Ini.make(b"14"), Ok(0));
        assert_eq!(Rule::Ini.make(b"6"), Ok(0));
        assert_eq!(Rule::Ini.make(b"1"), Ok(9));
    }

    #[test]
    fn iso_by_its_standard() {
        // MOD 11,10 also says: run over all digits, the last one added but not
        // doubled, and the sum must leave 1 on division by 10.
        for n in 0..100_000u32 {
            let text = format!("{n:05}");
            let p = text.as_bytes()[..4].iter().fold(10u32, |p, b| {
                let s = (p + u32::from(b - b'0')) % 10;
                (if s == 0 { 10 } else { s }) * 2 % 11
            });
            let whole = (p + n % 10) % 10 == 1;
            assert_eq!(Rule::Iso.check(text.as_bytes()).is_ok(), whole, "{text}");
        }
    }

    #[test]
    fn limits() {
        assert_eq!(Rule::Ini.check(b""), Err(Reason::Size.into()));
        assert_eq!(Rule::Ini.check(&[b'0'; 22]), Ok(()));
        assert_eq!(Rule::Ini.check(&[b'0'; 23]), Err(Reason::Size.into()));
        assert_eq!(Rule::Ini.make(&[b'0'; 19]), Ok(0));
        assert_eq!(Rule::Ini.make(&[b'0'; 20]), Err(Reason::Size.into()));
        assert_eq!(Rule::Iso.make(b"12-"), Err(Reason::Byte.into()));
    }
}
