//! Lanecockle's calls with slices for pointers and counts, and nothing more.

use crate::ffi::*;

/// The fields of a line or slip as a caller lends them: one text and the sizes.
#[derive(Clone, Copy)]
pub struct Lent<'a> {
    pub text: &'a [u8],
    pub sizes: &'a [usize],
}

/// The farm's sheet and the association's.
#[derive(Clone, Copy)]
pub struct Sheets<'a> {
    pub farm: &'a [u8],
    pub association: &'a [u8],
}

impl Sheets<'_> {
    pub const NONE: Sheets<'static> = Sheets {
        farm: &[],
        association: &[],
    };
}

pub fn check_digits(rule: u32, digits: &[u8]) -> Told {
    unsafe { lanecockle_check_digits(rule, digits.as_ptr(), digits.len()) }
}

pub fn make_digit(rule: u32, digits: &[u8]) -> Valued {
    unsafe { lanecockle_make_digit(rule, digits.as_ptr(), digits.len()) }
}

pub fn iban(text: &[u8]) -> Told {
    unsafe { lanecockle_iban(text.as_ptr(), text.len()) }
}

pub fn oib(text: &[u8]) -> Told {
    unsafe { lanecockle_oib(text.as_ptr(), text.len()) }
}

pub fn reference(model: &[u8], text: &[u8]) -> Told {
    unsafe { lanecockle_reference(model.as_ptr(), model.len(), text.as_ptr(), text.len()) }
}

pub fn list_iban(text: &[u8], out: &mut [u16]) -> Valued {
    unsafe { lanecockle_list_iban(text.as_ptr(), text.len(), out.as_mut_ptr(), out.len()) }
}

pub fn list_reference(model: &[u8], text: &[u8], out: &mut [u16]) -> Valued {
    unsafe {
        lanecockle_list_reference(
            model.as_ptr(),
            model.len(),
            text.as_ptr(),
            text.len(),
            out.as_mut_ptr(),
            out.len(),
        )
    }
}

pub fn filled(text: &[u8], number: u16, out: &mut [u8]) -> Told {
    unsafe {
        lanecockle_filled(
            text.as_ptr(),
            text.len(),
            number,
            out.as_mut_ptr(),
            out.len(),
        )
    }
}

pub fn slip_read(slip: &[u8]) -> Told {
    unsafe { lanecockle_slip_read(slip.as_ptr(), slip.len()) }
}

pub fn slip_field(slip: &[u8], number: usize) -> Part {
    unsafe { lanecockle_slip_field(slip.as_ptr(), slip.len(), number) }
}

pub fn slip_cents(slip: &[u8]) -> Valued {
    unsafe { lanecockle_slip_cents(slip.as_ptr(), slip.len()) }
}

pub fn slip_write(cents: u64, fields: Lent, out: &mut [u8]) -> Valued {
    unsafe {
        lanecockle_slip_write(
            cents,
            fields.text.as_ptr(),
            fields.text.len(),
            fields.sizes.as_ptr(),
            fields.sizes.len(),
            out.as_mut_ptr(),
            out.len(),
        )
    }
}

pub fn ledger_read(slip: &[u8]) -> Ledger {
    unsafe { lanecockle_ledger_read(slip.as_ptr(), slip.len()) }
}

pub fn ledger_field(slip: &[u8], number: usize) -> Part {
    unsafe { lanecockle_ledger_field(slip.as_ptr(), slip.len(), number) }
}

pub fn lipa_in_cents(lipa: u64) -> u64 {
    unsafe { lanecockle_lipa_in_cents(lipa) }
}

pub fn standing_text(field: usize, sheets: Sheets) -> Standing {
    let Sheets { farm, association } = sheets;
    unsafe {
        lanecockle_standing_text(
            field,
            farm.as_ptr(),
            farm.len(),
            association.as_ptr(),
            association.len(),
        )
    }
}

pub fn slip_write_standing(
    cents: u64,
    fields: Lent,
    sheets: Sheets,
    out: &mut [u8],
) -> StandingWritten {
    let Sheets { farm, association } = sheets;
    unsafe {
        lanecockle_slip_write_standing(
            cents,
            fields.text.as_ptr(),
            fields.text.len(),
            fields.sizes.as_ptr(),
            fields.sizes.len(),
            farm.as_ptr(),
            farm.len(),
            association.as_ptr(),
            association.len(),
            out.as_mut_ptr(),
            out.len(),
        )
    }
}

pub fn judge_begin(day: u64) -> Record {
    unsafe { lanecockle_judge_begin(day) }
}

pub fn judge_step(record: Record, line: &[u8]) -> Record {
    unsafe { lanecockle_judge_step(record, line.as_ptr(), line.len()) }
}

pub fn judge_step_tally(record: Record, line: &[u8], tally: &mut Tally) -> Record {
    unsafe { lanecockle_judge_step_tally(record, line.as_ptr(), line.len(), tally) }
}

pub fn judge_lines(record: Record, bytes: &[u8]) -> Record {
    unsafe { lanecockle_judge_lines(record, bytes.as_ptr(), bytes.len()) }
}

pub fn judge_end(record: Record) -> Ended {
    unsafe { lanecockle_judge_end(record) }
}

pub fn wage_file(day: u64, bytes: &[u8]) -> Ended {
    unsafe { lanecockle_wage_file(day, bytes.as_ptr(), bytes.len()) }
}

pub fn wage_place(line: &[u8], field: usize) -> Part {
    unsafe { lanecockle_wage_place(line.as_ptr(), line.len(), field) }
}

pub fn write_label(day: u64, fields: Lent, out: &mut [u8]) -> Told {
    unsafe {
        lanecockle_write_label(
            day,
            fields.text.as_ptr(),
            fields.text.len(),
            fields.sizes.as_ptr(),
            fields.sizes.len(),
            out.as_mut_ptr(),
            out.len(),
        )
    }
}

pub fn write_order(day: u64, kind: u64, fields: Lent, out: &mut [u8]) -> Told {
    unsafe {
        lanecockle_write_order(
            day,
            kind,
            fields.text.as_ptr(),
            fields.text.len(),
            fields.sizes.as_ptr(),
            fields.sizes.len(),
            out.as_mut_ptr(),
            out.len(),
        )
    }
}

pub fn write_group(day: u64, kind: u64, fields: Lent, orders: &[u8], out: &mut [u8]) -> Told {
    unsafe {
        lanecockle_write_group(
            day,
            kind,
            fields.text.as_ptr(),
            fields.text.len(),
            fields.sizes.as_ptr(),
            fields.sizes.len(),
            orders.as_ptr(),
            orders.len(),
            out.as_mut_ptr(),
            out.len(),
        )
    }
}

pub fn write_closing(day: u64, out: &mut [u8]) -> Told {
    unsafe { lanecockle_write_closing(day, out.as_mut_ptr(), out.len()) }
}
