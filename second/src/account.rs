//! IBAN, account and OIB, as fields 10 of the slips and the OIB places judge
//! them.

use crate::checkdigit::{values, Rule};
use crate::refusal::{only, Reason, Refusal};

pub const IBAN_LENGTH: usize = 21;
pub const ACCOUNT_LENGTH: usize = 18;
pub const OIB_LENGTH: usize = 11;

/// The bank's digits, before the hyphen of an account.
const BANK_DIGITS: usize = 7;

/// `HR` moved behind the account and written as digits: H is 17, R is 27.
const COUNTRY: u64 = 17_27;

pub fn iban(text: &[u8]) -> Result<(), Refusal> {
    iban_formed(sized(text)?)
}

/// 5 unless `HR` and nineteen digits, then 6.
pub fn iban_formed(text: &[u8; IBAN_LENGTH]) -> Result<(), Refusal> {
    let (check, account) = divided(text)?;
    let check = number(check);
    checked(check, remainder(number(account), check))
}

/// As `iban`, but the remainder is taken after every digit: a routine that takes
/// several at a time is measured and held against it (document 02, W3).
pub fn iban_digit_by_digit(text: &[u8]) -> Result<(), Refusal> {
    let (check, account) = divided(sized(text)?)?;
    let moved = values(account).chain([1, 7, 2, 7]).chain(values(check));
    let left = moved.fold(0, |left, digit| (left * 10 + u32::from(digit)) % 97);
    checked(number(check), left.into())
}

/// 3, then 4.
fn sized(text: &[u8]) -> Result<&[u8; IBAN_LENGTH], Refusal> {
    only(text, |b| b.is_ascii_uppercase() || b.is_ascii_digit())?;
    Ok(text.try_into().map_err(|_| Reason::Length)?)
}

/// The check digits and the digits behind them; 5 unless `HR` stands before
/// nineteen digits.
fn divided(text: &[u8; IBAN_LENGTH]) -> Result<(&[u8], &[u8]), Refusal> {
    let digits = text
        .strip_prefix(b"HR")
        .filter(|rest| rest.iter().all(u8::is_ascii_digit))
        .ok_or(Reason::Form)?;
    Ok(digits.split_at(2))
}

/// 6 unless the check digits lie in 02 to 98 and the number leaves 1.
fn checked(check: u64, left: u64) -> Result<(), Refusal> {
    if (2..=98).contains(&check) && left == 1 {
        Ok(())
    } else {
        Err(Reason::AccountCheck.into())
    }
}

/// The check digits, 02 to 98, that make this account number an IBAN.
pub fn iban_check(account: u64) -> u64 {
    98 - remainder(account, 0)
}

/// What the rearranged IBAN leaves on division by 97. Its 23 digits would not
/// fit, so the account's seventeen are divided first.
fn remainder(account: u64, check: u64) -> u64 {
    ((account % 97 * 10_000 + COUNTRY) * 100 + check) % 97
}

fn number(digits: &[u8]) -> u64 {
    values(digits).fold(0, |n, d| n * 10 + u64::from(d))
}

/// Field 10 of a kuna slip: what begins with a digit is an account.
pub fn iban_or_account(text: &[u8]) -> Result<(), Refusal> {
    match text.first() {
        Some(b'0'..=b'9') => account(text),
        _ => iban(text),
    }
}

/// Seven digits, a hyphen and ten digits: 3, 4, 5, and no check.
fn account(text: &[u8]) -> Result<(), Refusal> {
    only(text, |b| {
        b == b'-' || b.is_ascii_uppercase() || b.is_ascii_digit()
    })?;
    if text.len() != ACCOUNT_LENGTH {
        return Err(Reason::Length.into());
    }
    let wanted = |(place, byte): (usize, &u8)| match place {
        BANK_DIGITS => *byte == b'-',
        _ => byte.is_ascii_digit(),
    };
    if text.iter().enumerate().all(wanted) {
        Ok(())
    } else {
        Err(Reason::Form.into())
    }
}

pub fn oib(text: &[u8]) -> Result<(), Refusal> {
    only(text, |b| b.is_ascii_digit())?;
    if text.len() != OIB_LENGTH {
        return Err(Reason::Length.into());
    }
    if Rule::Iso.passes(values(text)) {
        Ok(())
    } else {
        Err(Reason::AccountCheck.into())
    }
}

#[cfg(test)]
mod tests {
    use super::*;

    fn refused(reason: Reason) -> Result<(), Refusal> {
        Err(reason.into())
    }

    #[test]
    fn printed_ibans() {
        assert_eq!(iban(b"HR1210010051863000160"), Ok(()));
        assert_eq!(iban(b"HR7023400091510946338"), Ok(()));
        assert_eq!(
            iban(b"HR1310010051863000160"),
            refused(Reason::AccountCheck)
        );
    }

    #[test]
    fn digit_by_digit() {
        for account in [0, 10010051863000160, 99999999999999999u64] {
            for check in 0..100 {
                let text = format!("HR{check:02}{account:017}");
                assert_eq!(iban_digit_by_digit(text.as_bytes()), iban(text.as_bytes()));
            }
        }
        for text in [
            &b"HR12?"[..],
            b"",
            b"HR12100100518630001600",
            b"HX1210010051863000160",
            b"HR121001005186300016A",
        ] {
            assert_eq!(iban_digit_by_digit(text), iban(text), "{text:?}");
        }
    }

    #[test]
    fn the_twins_of_right_check_digits() {
        // 00, 01 and 99 leave the remainder of 97, 98 and 02.
        let mut met = [false; 3];
        for account in 10010051863000000u64..10010051863000200 {
            let right = iban_check(account);
            assert!((2..=98).contains(&right));
            let twins = [(97, 0), (98, 1), (2, 99)];
            for check in 0..100 {
                let text = format!("HR{check:02}{account:017}");
                assert_eq!(iban(text.as_bytes()).is_ok(), check == right, "{text}");
            }
            if let Some(k) = twins.iter().position(|t| t.0 == right) {
                assert_eq!(remainder(account, twins[k].1), 1);
                met[k] = true;
            }
        }
        assert_eq!(met, [true; 3]);
    }

    #[test]
    fn order_of_refusals() {
        assert_eq!(iban(b"HR12?"), Err(Refusal::at(Reason::Byte, 4)));
        assert_eq!(iban(b""), refused(Reason::Length));
        assert_eq!(iban(b"HR12100100518630001600"), refused(Reason::Length));
        assert_eq!(iban(b"HX1210010051863000160"), refused(Reason::Form));
        assert_eq!(iban(b"HR121001005186300016A"), refused(Reason::Form));
    }

    #[test]
    fn accounts() {
        for text in [&b"1001005-1863000160"[..], b"1001005-1700128481"] {
            assert_eq!(iban_or_account(text), Ok(()));
            // Where only an IBAN may stand, the hyphen is not permitted.
            assert_eq!(iban(text), Err(Refusal::at(Reason::Byte, 7)));
        }
        assert_eq!(iban_or_account(b"0000000-0000000000"), Ok(()));
        for (text, place) in [
            (&b"1001005-186300016a"[..], 17),
            (b"1001005 1863000160", 7),
            (b"1 01005-1863000160", 1),
            (b"1-\xff", 2),
            (b"1001005-1863000160 ", 18),
        ] {
            let expected = Err(Refusal::at(Reason::Byte, place));
            assert_eq!(iban_or_account(text), expected, "{text:?}");
        }
    }

    #[test]
    fn accounts_of_another_length_or_form() {
        let told = |text: &str| iban_or_account(text.as_bytes());
        for text in [
            "1",
            "1001005-186300016",
            "1001005-18630001600",
            "10010051863000160",
            "1210010051863000160",
            "121001005186300016000",
            "1001005--1863000160",
        ] {
            assert_eq!(told(text), refused(Reason::Length), "{text}");
        }
        for text in [
            "1001005A1863000160",
            "100100518-63000160",
            "100100-51863000160",
            "10010051-863000160",
            "100100518630001600",
            "1001005-186300-160",
            "1001005-186300016-",
            "1001005-186300016A",
            "1-----------------",
        ] {
            assert_eq!(told(text), refused(Reason::Form), "{text}");
        }
    }

    /// What does not begin with a digit is judged as an IBAN.
    #[test]
    fn ibans_beside_accounts() {
        for text in [
            &b""[..],
            b"HR1210010051863000160",
            b"HR1310010051863000160",
            b"SI1210010051863000160",
            b"HR12-0010051863000160",
            b"A001005-1863000160",
            b"-1001005-1863000160",
            b" 1001005-1863000160",
            b"/001005-1863000160",
            b":001005-1863000160",
            b"O001005A1863000160",
            b"\xb2001005-1863000160",
        ] {
            assert_eq!(iban_or_account(text), iban(text), "{text:?}");
        }
        assert_eq!(
            iban_or_account(b"HR12-0010051863000160"),
            Err(Refusal::at(Reason::Byte, 4))
        );
        assert_eq!(iban_or_account(b""), refused(Reason::Length));
    }

    #[test]
    fn oibs() {
        assert_eq!(oib(b"12345678903"), Ok(()));
        assert_eq!(oib(b"12345678904"), refused(Reason::AccountCheck));
        assert_eq!(oib(b"1234567890"), refused(Reason::Length));
        assert_eq!(oib(b"1234567890A3"), Err(Refusal::at(Reason::Byte, 10)));
    }
}
