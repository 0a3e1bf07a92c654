//! Writes single lines into lent room. All is judged before the first byte is
//! written, and the room last.

use super::date::is_date;
use super::fields::{self, Kind};
use super::layout::{parts, put, Type, BANK_COUNTRY, GROUP, LABEL, LINE, ORDER};
use crate::refusal::{Reason, Refusal};

/// The most orders that a 301 can declare.
pub const MOST_ORDERS: usize = 99_999;

/// Writes a 300 from its fields 1 to 8.
pub fn write_label(day: u32, fields: &[&[u8]; 8], room: &mut [u8]) -> Result<(), Refusal> {
    submitted(day)?;
    fields::label(fields, day)?;
    put(room, Type::Label, &LABEL, fields).map(drop)
}

/// Writes a 301 from its fields 1, 2, 3, 4 and 7; its fields 5 and 6 are worked
/// out from the 309 lines of its group.
pub fn write_group(
    day: u32,
    kind: u64,
    fields: &[&[u8]; 5],
    orders: &[u8],
    room: &mut [u8],
) -> Result<(), Refusal> {
    submitted(day)?;
    let (count, sum) = total(of_kind(kind)?, orders)?;
    let (count, sum) = (format!("{count:05}"), format!("{sum:020}"));
    let [account, currency, fee_account, fee_currency, date] = *fields;
    let fields = [
        account,
        currency,
        fee_account,
        fee_currency,
        count.as_bytes(),
        sum.as_bytes(),
        date,
    ];
    fields::group(&fields, day)?;
    put(room, Type::Group, &GROUP, &fields).map(drop)
}

/// Writes a 309 from its fields 1, 2, 5 to 12 and 18 to 23.
pub fn write_order(
    day: u32,
    kind: u64,
    fields: &[&[u8]; 16],
    room: &mut [u8],
) -> Result<(), Refusal> {
    submitted(day)?;
    fields::order(fields, of_kind(kind)?)?;
    let line = put(room, Type::Order, &ORDER, fields)?;
    line[BANK_COUNTRY].fill(b'0');
    Ok(())
}

/// Writes a 399.
pub fn write_close(day: u32, room: &mut [u8]) -> Result<(), Refusal> {
    submitted(day)?;
    put(room, Type::Close, &[], &[]).map(drop)
}

fn submitted(day: u32) -> Result<(), Refusal> {
    if is_date(day) {
        Ok(())
    } else {
        Err(Reason::Date.into())
    }
}

fn of_kind(number: u64) -> Result<Kind, Refusal> {
    Kind::of(number).ok_or_else(|| Reason::Form.into())
}

/// The number and the sum of these 309 lines: 1, 10, 12, then what is wrong in
/// the first bad one, lines counted from the first of them.
fn total(kind: Kind, orders: &[u8]) -> Result<(usize, u128), Refusal> {
    let (lines, rest) = orders.as_chunks::<LINE>();
    if !rest.is_empty() {
        return Err(Reason::Size.into());
    }
    if lines.is_empty() {
        return Err(Reason::Type.into());
    }
    if lines.len() > MOST_ORDERS {
        return Err(Reason::Orders.into());
    }
    let mut sum = 0;
    for (number, line) in (1..).zip(lines) {
        sum += u128::from(cents(line, kind).map_err(|refusal| refusal.in_line(number))?);
    }
    Ok((lines.len(), sum))
}

fn cents(line: &[u8], kind: Kind) -> Result<u64, Refusal> {
    match Type::of(line)? {
        (line, Type::Order) => fields::order(&parts(line, &ORDER), kind),
        _ => Err(Reason::Type.into()),
    }
}
