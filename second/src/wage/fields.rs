//! The rules of the fields. Each takes a field's bytes alone, which a line or
//! a writer's caller has lent, and tells bytes as they are counted in the line.

use super::date::is_date;
use super::layout::{Place, GROUP, LABEL, ORDER};
use crate::account::{iban_formed, oib, IBAN_LENGTH, OIB_LENGTH};
use crate::checkdigit::values;
use crate::codes::is_code;
use crate::reference::{Model, LONGEST};
use crate::refusal::{only, Reason, Refusal};

/// What a file's orders are.
#[derive(Clone, Copy, Debug, PartialEq, Eq)]
pub enum Kind {
    /// 4
    Wages,
    /// 5
    Deductions,
}

impl Kind {
    pub fn of(number: u64) -> Option<Kind> {
        match number {
            4 => Some(Kind::Wages),
            5 => Some(Kind::Deductions),
            _ => None,
        }
    }
}

/// What a 301 says of the 309 lines that follow it.
#[derive(Clone, Copy, Debug, PartialEq, Eq)]
pub struct Declared {
    pub orders: u32,
    pub sum: u128,
}

/// A credit: its recipient wants a reference.
const CREDIT: u64 = 500;

const CURRENCY: &[u8; 3] = b"EUR";

// The three lines that have fields.

/// Judges a 300.
pub fn label(fields: &[&[u8]; 8], day: u32) -> Result<Kind, Refusal> {
    let [date, kind, source, way, employer, register, internal, payer] = *fields;
    let at = &LABEL;
    // The day is a date, unless the judge was made up with another.
    at[0].judge(date, |t: &[u8; 8]| {
        let date = number(t)? as u32;
        must(is_date(date) && date == day, Reason::Date)
    })?;
    let kind = at[1].judge(kind, |t: &[u8; 1]| {
        Kind::of(number(t)?).ok_or_else(|| Reason::Form.into())
    })?;
    at[2].judge(source, |t: &[u8; 3]| must(number(t)? == 0, Reason::Form))?;
    at[3].judge(way, |t: &[u8; 1]| {
        must(matches!(number(t)?, 1 | 2), Reason::Form)
    })?;
    at[4].judge(employer, oib_or_zeros)?;
    at[5].judge(register, |t: &[u8; OIB_LENGTH]| digits(t))?;
    at[6].judge(internal, |t: &[u8; OIB_LENGTH]| {
        digits(t)?;
        let used = [employer, register, internal]
            .into_iter()
            .filter(|t| !is_zeros(t))
            .count();
        must(used >= 2, Reason::Form)
    })?;
    at[7].judge(payer, needed_oib)?;
    Ok(kind)
}

/// Judges a 301.
pub fn group(fields: &[&[u8]; 7], day: u32) -> Result<Declared, Refusal> {
    let [account, currency, fee_account, fee_currency, orders, sum, date] = *fields;
    let at = &GROUP;
    at[0].judge(account, |t: &[u8; IBAN_LENGTH]| {
        account_bytes(t)?;
        iban_formed(t)
    })?;
    at[1].judge(currency, |t: &[u8; 3]| must(t == CURRENCY, Reason::Form))?;
    at[2].judge(fee_account, |t: &[u8; IBAN_LENGTH]| {
        account_bytes(t)?;
        if is_blank(t) {
            return Ok(());
        }
        iban_formed(t)
    })?;
    at[3].judge(fee_currency, blank_or_currency)?;
    let orders = at[4].judge(orders, |t: &[u8; 5]| number(t))?;
    let sum = at[5].judge(sum, |t: &[u8; 20]| {
        digits(t)?;
        Ok(values(t).fold(0, |n, d| n * 10 + u128::from(d)))
    })?;
    at[6].judge(date, |t: &[u8; 8]| {
        let date = number(t)? as u32;
        must(is_date(date) && date >= day, Reason::Date)
    })?;
    Ok(Declared {
        orders: orders as u32,
        sum,
    })
}

/// Judges a 309 and tells its amount in cents.
pub fn order(fields: &[&[u8]; 16], kind: Kind) -> Result<u64, Refusal> {
    #[rustfmt::skip]
    let [
        account, name, country, payer_model, payer_reference, purpose, description, amount,
        own_model, own_reference, person, currency, costs, urgency, code, oib,
    ] = *fields;
    let at = &ORDER;
    at[0].judge(account, |t: &[u8; 34]| {
        account_bytes(t)?;
        let (front, rest) = t.split_first_chunk().expect("longer");
        must(is_blank(rest), Reason::Form)?;
        iban_formed(front)
    })?;
    at[1].judge(name, |_: &[u8; 140]| Ok(()))?;
    at[2].judge(country, |t: &[u8; 3]| {
        must(matches!(number(t)?, 0 | 191), Reason::Form)
    })?;
    let payer_model = at[3].judge(payer_model, model)?;
    at[4].judge(payer_reference, |t| reference(t, payer_model))?;
    at[5].judge(purpose, |t: &[u8; 4]| {
        let letters = t.iter().all(u8::is_ascii_uppercase);
        must(letters || is_blank(t), Reason::Form)
    })?;
    at[6].judge(description, |t: &[u8; 140]| {
        if !t.iter().fold(true, |all, &b| all & is_described(b)) {
            only(t, is_described)?;
        }
        must(!is_blank(t), Reason::Form)
    })?;
    let cents = at[7].judge(amount, |t: &[u8; 15]| number(t))?;
    let own_model = at[8].judge(own_model, model)?;
    at[9].judge(own_reference, |t| reference(t, own_model))?;
    at[10].judge(person, |t: &[u8; 1]| must(number(t)? <= 2, Reason::Form))?;
    at[11].judge(currency, blank_or_currency)?;
    at[12].judge(costs, |t: &[u8; 1]| {
        must(matches!(t, b" " | b"0" | b"3"), Reason::Form)
    })?;
    at[13].judge(urgency, |t: &[u8; 1]| {
        must(matches!(t, b" " | b"0"), Reason::Form)
    })?;
    at[14].judge(code, |t: &[u8; 3]| {
        let code = number(t)?;
        let missing = kind == Kind::Deductions && code == CREDIT && own_model.is_none();
        must(is_code(code) && !missing, Reason::Form)
    })?;
    at[15].judge(oib, |t| match kind {
        Kind::Wages => oib_or_zeros(t),
        Kind::Deductions => needed_oib(t),
    })?;
    Ok(cents)
}

impl Place {
    /// Judges what is to stand here: 4 for another length, then the rule.
    #[inline(always)]
    fn judge<'a, T, const N: usize>(
        &self,
        text: &'a [u8],
        rule: impl FnOnce(&'a [u8; N]) -> Result<T, Refusal>,
    ) -> Result<T, Refusal> {
        debug_assert_eq!(N, self.length());
        text.try_into()
            .map_err(|_| Reason::Length.into())
            .and_then(rule)
            .map_err(|refusal| refusal.in_field(self.field, self.start))
    }
}

// What the fields have in common.

fn must(right: bool, reason: Reason) -> Result<(), Refusal> {
    if right {
        Ok(())
    } else {
        Err(reason.into())
    }
}

fn is_blank(text: &[u8]) -> bool {
    text.iter().all(|&b| b == b' ')
}

fn is_zeros(text: &[u8]) -> bool {
    text.iter().all(|&b| b == b'0')
}

fn digits<const N: usize>(text: &[u8; N]) -> Result<(), Refusal> {
    only(text, |b| b.is_ascii_digit())
}

/// The number of at most nineteen digits.
fn number<const N: usize>(text: &[u8; N]) -> Result<u64, Refusal> {
    const { assert!(N < 20) };
    digits(text)?;
    Ok(values(text).fold(0, |n, d| n * 10 + u64::from(d)))
}

fn oib_or_zeros(text: &[u8; OIB_LENGTH]) -> Result<(), Refusal> {
    if is_zeros(text) {
        return Ok(());
    }
    oib(text)
}

fn needed_oib(text: &[u8; OIB_LENGTH]) -> Result<(), Refusal> {
    must(!is_zeros(text), Reason::Form)?;
    oib(text)
}

fn account_bytes(text: &[u8]) -> Result<(), Refusal> {
    only(text, |b| {
        b.is_ascii_uppercase() || b.is_ascii_digit() || b == b' '
    })
}

fn blank_or_currency(text: &[u8; 3]) -> Result<(), Refusal> {
    must(text == CURRENCY || is_blank(text), Reason::Form)
}

/// No model where there are blanks.
fn model(text: &[u8; 4]) -> Result<Option<&'static Model>, Refusal> {
    if is_blank(text) {
        return Ok(None);
    }
    Model::named(text).map(Some)
}

fn reference(text: &[u8; LONGEST], model: Option<&Model>) -> Result<(), Refusal> {
    let end = text.iter().rposition(|&b| b != b' ').map_or(0, |k| k + 1);
    let text = &text[..end];
    match model {
        Some(model) => model.judge(text),
        None => {
            only(text, |b| b == b'-' || b.is_ascii_digit())?;
            must(text.is_empty(), Reason::Parts)
        }
    }
}

/// Blank, digits, letters, `- . , /` and the ten letters of WIN-1250. Free of
/// branches, so that many bytes are compared at a time.
const fn is_described(b: u8) -> bool {
    let letter = (b | 0x20).wrapping_sub(b'a') < 26;
    // `,`, `-`, `.` and `/` stand before the digits.
    let mark_or_digit = b.wrapping_sub(b',') < 14;
    // 8A and 8E, 9A and 9E; then each with its small letter, 20 above.
    let caron = b & 0xEB == 0x8A;
    let other = b & 0xDF;
    letter
        | mark_or_digit
        | caron
        | (b == b' ')
        | (other == 0xC6)
        | (other == 0xC8)
        | (other == 0xD0)
}
