//! The C functions of include/lanecockle.h and a thin safe function over each: all the `unsafe` of the crate.
//!
//! What the header asks of a caller, a slice or a reference gives by its type: memory for its length, and a `&mut` that
//! overlaps nothing.

// cents come back in a `size_t`
const _: () = assert!(usize::BITS == 64);

/// An answer by its numbers, as a [`Record`] keeps its refusal: number 0 is acceptance, 1 to 17, 20, 28 and 29 are
/// refusals.
///
/// ```
/// use lanecockle::wage::{Judge, Told};
///
/// let refused = Judge::begin(20240230).record();
/// assert_eq!(refused.told, Told { number: 11, line: 0, field: 0, byte: 0, needed: 0 });
/// ```
#[repr(C)]
#[derive(Clone, Copy, Debug, Default, PartialEq, Eq)]
pub struct Told {
    /// 0 for acceptance, else the refusal's number.
    pub number: usize,
    /// The line, counted from 1; 0 for none.
    pub line: usize,
    /// The field, counted from 1; 0 for none.
    pub field: usize,
    /// The byte, counted from 0.
    pub byte: usize,
    /// The needed number, for 15.
    pub needed: usize,
}

/// An answer with a value.
#[repr(C)]
#[derive(Clone, Copy)]
pub struct Valued {
    pub told: Told,
    pub value: usize,
}

/// What a wage file comes to.
#[repr(C)]
#[derive(Clone, Copy)]
pub struct Ended {
    pub told: Told,
    pub lines: usize,
    pub groups: usize,
    pub orders: usize,
    pub total: Cents,
}

/// A standing text, or a refusal, with whose sheet it is.
#[repr(C)]
#[derive(Clone, Copy)]
pub struct Standing {
    pub told: Told,
    pub sheet: usize,
    pub part: Part,
}

/// How many bytes were written, or a refusal with whose sheet it is.
#[repr(C)]
#[derive(Clone, Copy)]
pub struct StandingWritten {
    pub told: Told,
    pub value: usize,
    pub sheet: usize,
}

/// An answer with the currency of a slip and its amount in its own unit.
#[repr(C)]
#[derive(Clone, Copy)]
pub struct Ledger {
    pub told: Told,
    pub currency: usize,
    pub cents: u64,
    pub lipa: u64,
    /// The lipa in cents, which `lipa_in_cents` gives of any lipa.
    pub _converted: u64,
}

/// A part of the lent bytes.
#[repr(C)]
#[derive(Clone, Copy)]
pub struct Part {
    pub start: usize,
    pub length: usize,
}

/// Exact cents: `high` times 10^18, and `low`.
///
/// ```
/// use lanecockle::wage::Cents;
///
/// assert_eq!(Cents { high: 2, low: 7 }.total(), 2_000_000_000_000_000_007);
/// ```
#[repr(C)]
#[derive(Clone, Copy, Debug, Default, PartialEq, Eq, Hash)]
pub struct Cents {
    /// How many times 10^18.
    pub high: u64,
    /// What is added to that.
    pub low: u64,
}

impl Cents {
    /// The cents as one number.
    pub fn total(self) -> u128 {
        u128::from(self.high) * 1_000_000_000_000_000_000 + u128::from(self.low)
    }
}

/// The judge's record, plain data: keep it, copy it, store it.
///
/// A record that the judge did not make gets an answer as well: 17 for another condition, for a count above 1,000,000, for a
/// sum of the group of 10^20 or more, for a total of the file of 10^21 or more, and for a refusal of another number than 1 to
/// 17, 20, 28 and 29.
///
/// ```
/// use lanecockle::wage::{Judge, Record};
///
/// let made_up = Record { lines: 1_000_001, ..Judge::begin(20240228).record() };
/// assert_eq!(Judge::from_record(made_up).end().unwrap_err().kind.number(), 17);
/// ```
#[repr(C)]
#[derive(Clone, Copy, Debug, Default, PartialEq, Eq)]
pub struct Record {
    /// 0 fresh, 1 after the label, 2 inside a group, 3 closed, 4 refused.
    pub condition: usize,
    /// The refusal of condition 4; all 0 in the others.
    pub told: Told,
    /// The day of submission, YYYYMMDD.
    pub day: u64,
    /// The kind that the label told, 4 or 5.
    pub kind: u64,
    /// The lines read so far.
    pub lines: usize,
    /// The groups read so far.
    pub groups: usize,
    /// The orders read so far.
    pub orders: usize,
    /// What all of them come to.
    pub file_total: Cents,
    /// The number of orders that the group declares.
    pub declared: u64,
    /// The sum that the group declares.
    pub promised: Cents,
    /// The orders of the group read so far.
    pub counted: u64,
    /// What they come to.
    pub total: Cents,
}

/// A tally of what was read, plain data: groups, orders, and what these orders come to. It begins with zeros.
///
/// ```
/// use lanecockle::wage::{Cents, Tally};
///
/// assert_eq!(Tally::default(), Tally { groups: 0, orders: 0, total: Cents { high: 0, low: 0 } });
/// ```
#[repr(C)]
#[derive(Clone, Copy, Debug, Default, PartialEq, Eq, Hash)]
pub struct Tally {
    /// The groups.
    pub groups: usize,
    /// The orders.
    pub orders: usize,
    /// What all of them come to.
    pub total: Cents,
}

#[rustfmt::skip]
extern "C" {
    fn lanecockle_version() -> u32;
    fn lanecockle_check_digits(rule: u32, digits: *const u8, length: usize) -> Told;
    fn lanecockle_make_digit(rule: u32, digits: *const u8, length: usize) -> Valued;
    fn lanecockle_iban(text: *const u8, length: usize) -> Told;
    fn lanecockle_oib(text: *const u8, length: usize) -> Told;
    fn lanecockle_reference(model: *const u8, model_length: usize, text: *const u8, text_length: usize) -> Told;
    fn lanecockle_list_iban(text: *const u8, length: usize, out: *mut u16, room: usize) -> Valued;
    fn lanecockle_list_reference(model: *const u8, model_length: usize, text: *const u8, text_length: usize,
                                 out: *mut u16, room: usize) -> Valued;
    fn lanecockle_filled(text: *const u8, length: usize, number: u16, out: *mut u8, room: usize) -> Told;
    fn lanecockle_slip_read(slip: *const u8, length: usize) -> Told;
    fn lanecockle_slip_field(slip: *const u8, length: usize, number: usize) -> Part;
    fn lanecockle_slip_cents(slip: *const u8, length: usize) -> Valued;
    fn lanecockle_slip_write(cents: u64, text: *const u8, text_length: usize, sizes: *const usize, count: usize,
                             out: *mut u8, room: usize) -> Valued;
    fn lanecockle_standing_text(field: usize, farm: *const u8, farm_length: usize, association: *const u8,
                                association_length: usize) -> Standing;
    fn lanecockle_slip_write_standing(cents: u64, text: *const u8, text_length: usize, sizes: *const usize, count: usize,
                                      farm: *const u8, farm_length: usize, association: *const u8,
                                      association_length: usize, out: *mut u8, room: usize) -> StandingWritten;
    fn lanecockle_ledger_read(slip: *const u8, length: usize) -> Ledger;
    fn lanecockle_ledger_field(slip: *const u8, length: usize, number: usize) -> Part;
    fn lanecockle_lipa_in_cents(lipa: u64) -> u64;
    fn lanecockle_judge_begin(day: u64) -> Record;
    fn lanecockle_judge_step(record: Record, line: *const u8, length: usize) -> Record;
    fn lanecockle_judge_step_tally(record: Record, line: *const u8, length: usize, tally: *mut Tally) -> Record;
    fn lanecockle_judge_lines(record: Record, bytes: *const u8, length: usize) -> Record;
    fn lanecockle_judge_end(record: Record) -> Ended;
    fn lanecockle_wage_file(day: u64, bytes: *const u8, length: usize) -> Ended;
    fn lanecockle_wage_place(line: *const u8, length: usize, field: usize) -> Part;
    fn lanecockle_write_label(day: u64, text: *const u8, text_length: usize, sizes: *const usize, count: usize,
                              out: *mut u8, room: usize) -> Told;
    fn lanecockle_write_order(day: u64, kind: u64, text: *const u8, text_length: usize, sizes: *const usize, count: usize,
                              out: *mut u8, room: usize) -> Told;
    fn lanecockle_write_group(day: u64, kind: u64, text: *const u8, text_length: usize, sizes: *const usize, count: usize,
                              orders: *const u8, orders_length: usize, out: *mut u8, room: usize) -> Told;
    fn lanecockle_write_closing(day: u64, out: *mut u8, room: usize) -> Told;
}

pub fn version() -> u32 {
    // SAFETY: the call takes nothing.
    unsafe { lanecockle_version() }
}

pub fn check_digits(rule: u32, digits: &[u8]) -> Told {
    // SAFETY: the slice may be read for its length, and the call keeps no pointer.
    unsafe { lanecockle_check_digits(rule, digits.as_ptr(), digits.len()) }
}

pub fn make_digit(rule: u32, digits: &[u8]) -> Valued {
    // SAFETY: the slice may be read for its length, and the call keeps no pointer.
    unsafe { lanecockle_make_digit(rule, digits.as_ptr(), digits.len()) }
}

pub fn iban(text: &[u8]) -> Told {
    // SAFETY: the slice may be read for its length, and the call keeps no pointer.
    unsafe { lanecockle_iban(text.as_ptr(), text.len()) }
}

pub fn oib(text: &[u8]) -> Told {
    // SAFETY: the slice may be read for its length, and the call keeps no pointer.
    unsafe { lanecockle_oib(text.as_ptr(), text.len()) }
}

pub fn reference(model: &[u8], text: &[u8]) -> Told {
    // SAFETY: both slices may be read for their lengths, and the call keeps no pointer.
    unsafe { lanecockle_reference(model.as_ptr(), model.len(), text.as_ptr(), text.len()) }
}

pub fn list_iban(text: &[u8], out: &mut [u16]) -> Valued {
    // SAFETY: the text may be read and `out` written for their lengths; `out`, a `&mut`, overlaps nothing.
    unsafe { lanecockle_list_iban(text.as_ptr(), text.len(), out.as_mut_ptr(), out.len()) }
}

pub fn list_reference(model: &[u8], text: &[u8], out: &mut [u16]) -> Valued {
    let (model, model_length) = (model.as_ptr(), model.len());
    // SAFETY: both texts may be read and `out` written for their lengths; `out`, a `&mut`, overlaps nothing.
    unsafe { lanecockle_list_reference(model, model_length, text.as_ptr(), text.len(), out.as_mut_ptr(), out.len()) }
}

pub fn filled(text: &[u8], number: u16, out: &mut [u8]) -> Told {
    // SAFETY: the text may be read and `out` written for their lengths; `out`, a `&mut`, overlaps nothing.
    unsafe { lanecockle_filled(text.as_ptr(), text.len(), number, out.as_mut_ptr(), out.len()) }
}

pub fn slip_read(slip: &[u8]) -> Told {
    // SAFETY: the slice may be read for its length, and the call keeps no pointer.
    unsafe { lanecockle_slip_read(slip.as_ptr(), slip.len()) }
}

pub fn slip_field(slip: &[u8], number: usize) -> Part {
    // SAFETY: the slice may be read for its length, and the call keeps no pointer.
    unsafe { lanecockle_slip_field(slip.as_ptr(), slip.len(), number) }
}

pub fn slip_cents(slip: &[u8]) -> Valued {
    // SAFETY: the slice may be read for its length, and the call keeps no pointer.
    unsafe { lanecockle_slip_cents(slip.as_ptr(), slip.len()) }
}

pub fn slip_write(cents: u64, fields: &Fields, out: &mut [u8]) -> Valued {
    let (text, sizes) = (&fields.text, &fields.sizes);
    let (text, text_length, sizes, count) = (text.as_ptr(), text.len(), sizes.as_ptr(), sizes.len());
    // SAFETY: text and sizes may be read and `out` written for their lengths; `out`, a `&mut`, overlaps nothing.
    unsafe { lanecockle_slip_write(cents, text, text_length, sizes, count, out.as_mut_ptr(), out.len()) }
}

pub fn standing_text(field: usize, farm: &[u8], association: &[u8]) -> Standing {
    // SAFETY: both slices may be read for their lengths, and the call keeps no pointer.
    unsafe { lanecockle_standing_text(field, farm.as_ptr(), farm.len(), association.as_ptr(), association.len()) }
}

pub fn slip_write_standing(
    cents: u64,
    fields: &Fields,
    farm: &[u8],
    association: &[u8],
    out: &mut [u8],
) -> StandingWritten {
    let (text, sizes, room) = (&fields.text, &fields.sizes, out.len());
    let (text, text_length, sizes, count) = (text.as_ptr(), text.len(), sizes.as_ptr(), sizes.len());
    let (farm, farm_length) = (farm.as_ptr(), farm.len());
    let (association, association_length, out) = (association.as_ptr(), association.len(), out.as_mut_ptr());
    // SAFETY: text, sizes and sheets may be read and `out` written for their lengths; `out`, a `&mut`, overlaps nothing.
    unsafe {
        lanecockle_slip_write_standing(
            cents,
            text,
            text_length,
            sizes,
            count,
            farm,
            farm_length,
            association,
            association_length,
            out,
            room,
        )
    }
}

pub fn ledger_read(slip: &[u8]) -> Ledger {
    // SAFETY: the slice may be read for its length, and the call keeps no pointer.
    unsafe { lanecockle_ledger_read(slip.as_ptr(), slip.len()) }
}

pub fn ledger_field(slip: &[u8], number: usize) -> Part {
    // SAFETY: the slice may be read for its length, and the call keeps no pointer.
    unsafe { lanecockle_ledger_field(slip.as_ptr(), slip.len(), number) }
}

pub fn lipa_in_cents(lipa: u64) -> u64 {
    // SAFETY: the call takes a number alone.
    unsafe { lanecockle_lipa_in_cents(lipa) }
}

pub fn judge_begin(day: u64) -> Record {
    // SAFETY: the call takes a number alone.
    unsafe { lanecockle_judge_begin(day) }
}

pub fn judge_step(record: Record, line: &[u8]) -> Record {
    // SAFETY: the slice may be read for its length; any record of numbers has an answer.
    unsafe { lanecockle_judge_step(record, line.as_ptr(), line.len()) }
}

pub fn judge_step_tally(record: Record, line: &[u8], tally: &mut Tally) -> Record {
    // SAFETY: the slice may be read for its length, and the tally, a `&mut`, read and written, which overlaps nothing; any
    // record and any tally of numbers have an answer.
    unsafe { lanecockle_judge_step_tally(record, line.as_ptr(), line.len(), tally) }
}

pub fn judge_lines(record: Record, bytes: &[u8]) -> Record {
    // SAFETY: the slice may be read for its length; any record of numbers has an answer.
    unsafe { lanecockle_judge_lines(record, bytes.as_ptr(), bytes.len()) }
}

pub fn judge_end(record: Record) -> Ended {
    // SAFETY: the call takes numbers alone, and any record of numbers has an answer.
    unsafe { lanecockle_judge_end(record) }
}

pub fn wage_file(day: u64, bytes: &[u8]) -> Ended {
    // SAFETY: the slice may be read for its length, and the call keeps no pointer.
    unsafe { lanecockle_wage_file(day, bytes.as_ptr(), bytes.len()) }
}

pub fn wage_place(line: &[u8], field: usize) -> Part {
    // SAFETY: the slice may be read for its length, and the call keeps no pointer.
    unsafe { lanecockle_wage_place(line.as_ptr(), line.len(), field) }
}

pub fn write_label(day: u64, fields: &Fields, out: &mut [u8]) -> Told {
    let (text, sizes) = (&fields.text, &fields.sizes);
    let (text, text_length, sizes, count) = (text.as_ptr(), text.len(), sizes.as_ptr(), sizes.len());
    // SAFETY: text and sizes may be read and `out` written for their lengths; `out`, a `&mut`, overlaps nothing.
    unsafe { lanecockle_write_label(day, text, text_length, sizes, count, out.as_mut_ptr(), out.len()) }
}

pub fn write_order(day: u64, kind: u64, fields: &Fields, out: &mut [u8]) -> Told {
    let (text, sizes) = (&fields.text, &fields.sizes);
    let (text, text_length, sizes, count) = (text.as_ptr(), text.len(), sizes.as_ptr(), sizes.len());
    // SAFETY: text and sizes may be read and `out` written for their lengths; `out`, a `&mut`, overlaps nothing.
    unsafe { lanecockle_write_order(day, kind, text, text_length, sizes, count, out.as_mut_ptr(), out.len()) }
}

pub fn write_group(day: u64, kind: u64, fields: &Fields, orders: &[u8], out: &mut [u8]) -> Told {
    let (text, sizes) = (&fields.text, &fields.sizes);
    let (text, text_length, sizes, count) = (text.as_ptr(), text.len(), sizes.as_ptr(), sizes.len());
    let (orders, orders_length, room) = (orders.as_ptr(), orders.len(), out.len());
    let out = out.as_mut_ptr();
    // SAFETY: text, sizes and orders may be read and `out` written for their lengths; `out`, a `&mut`, overlaps nothing.
    unsafe { lanecockle_write_group(day, kind, text, text_length, sizes, count, orders, orders_length, out, room) }
}

pub fn write_closing(day: u64, out: &mut [u8]) -> Told {
    // SAFETY: `out` may be written for its length.
    unsafe { lanecockle_write_closing(day, out.as_mut_ptr(), out.len()) }
}

/// The fields of a slip or a line, one behind the other, with the size of each.
pub struct Fields {
    text: Vec<u8>,
    sizes: Vec<usize>,
}

impl Fields {
    pub fn of(fields: &[&[u8]]) -> Fields {
        Fields { text: fields.concat(), sizes: fields.iter().map(|field| field.len()).collect() }
    }
}
