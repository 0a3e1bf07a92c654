//! The C functions of include/lanecockle.h and their structs, as they stand.

/// An answer.
#[repr(C)]
#[derive(Clone, Copy, Debug, Default, PartialEq, Eq)]
pub struct Told {
    pub number: usize,
    pub line: usize,
    pub field: usize,
    pub byte: usize,
    pub needed: usize,
}

/// An answer with a value.
#[repr(C)]
#[derive(Clone, Copy, Debug, Default, PartialEq, Eq)]
pub struct Valued {
    pub told: Told,
    pub value: usize,
}

/// What a wage file comes to.
#[repr(C)]
#[derive(Clone, Copy, Debug, Default, PartialEq, Eq)]
pub struct Ended {
    pub told: Told,
    pub lines: usize,
    pub groups: usize,
    pub orders: usize,
    pub total: Cents,
}

/// A part of the lent bytes.
#[repr(C)]
#[derive(Clone, Copy, Debug, Default, PartialEq, Eq)]
pub struct Part {
    pub start: usize,
    pub length: usize,
}

/// What a slip of either kind comes to.
#[repr(C)]
#[derive(Clone, Copy, Debug, Default, PartialEq, Eq)]
pub struct Ledger {
    pub told: Told,
    pub currency: usize,
    pub cents: u64,
    pub lipa: u64,
    pub converted: u64,
}

/// Which sheet has the text, and where in it.
#[repr(C)]
#[derive(Clone, Copy, Debug, Default, PartialEq, Eq)]
pub struct Standing {
    pub told: Told,
    pub sheet: usize,
    pub start: usize,
    pub length: usize,
}

/// What a writer of slips with standing text answers.
#[repr(C)]
#[derive(Clone, Copy, Debug, Default, PartialEq, Eq)]
pub struct StandingWritten {
    pub told: Told,
    pub value: usize,
    pub sheet: usize,
}

/// Exact cents: `high` times 10^18, and `low`.
#[repr(C)]
#[derive(Clone, Copy, Debug, Default, PartialEq, Eq)]
pub struct Cents {
    pub high: u64,
    pub low: u64,
}

/// The judge's record.
#[repr(C)]
#[derive(Clone, Copy, Debug, Default, PartialEq, Eq)]
pub struct Record {
    pub condition: usize,
    pub told: Told,
    pub day: u64,
    pub kind: u64,
    pub lines: usize,
    pub groups: usize,
    pub orders: usize,
    pub file_total: Cents,
    pub declared: u64,
    pub promised: Cents,
    pub counted: u64,
    pub total: Cents,
}

/// The tally that is lent to a step.
#[repr(C)]
#[derive(Clone, Copy, Debug, Default, PartialEq, Eq)]
pub struct Tally {
    pub groups: usize,
    pub orders: usize,
    pub total: Cents,
}

extern "C" {
    pub fn lanecockle_check_digits(rule: u32, digits: *const u8, length: usize) -> Told;
    pub fn lanecockle_make_digit(rule: u32, digits: *const u8, length: usize) -> Valued;
    pub fn lanecockle_iban(text: *const u8, length: usize) -> Told;
    pub fn lanecockle_oib(text: *const u8, length: usize) -> Told;
    pub fn lanecockle_reference(
        model: *const u8,
        model_length: usize,
        text: *const u8,
        text_length: usize,
    ) -> Told;

    pub fn lanecockle_list_iban(
        text: *const u8,
        length: usize,
        out: *mut u16,
        room: usize,
    ) -> Valued;
    pub fn lanecockle_list_reference(
        model: *const u8,
        model_length: usize,
        text: *const u8,
        text_length: usize,
        out: *mut u16,
        room: usize,
    ) -> Valued;
    pub fn lanecockle_filled(
        text: *const u8,
        length: usize,
        number: u16,
        out: *mut u8,
        room: usize,
    ) -> Told;

    pub fn lanecockle_slip_read(slip: *const u8, length: usize) -> Told;
    pub fn lanecockle_slip_field(slip: *const u8, length: usize, number: usize) -> Part;
    pub fn lanecockle_slip_cents(slip: *const u8, length: usize) -> Valued;
    pub fn lanecockle_slip_write(
        cents: u64,
        text: *const u8,
        text_length: usize,
        sizes: *const usize,
        count: usize,
        out: *mut u8,
        room: usize,
    ) -> Valued;

    pub fn lanecockle_ledger_read(slip: *const u8, length: usize) -> Ledger;
    pub fn lanecockle_ledger_field(slip: *const u8, length: usize, number: usize) -> Part;
    pub fn lanecockle_lipa_in_cents(lipa: u64) -> u64;

    pub fn lanecockle_standing_text(
        field: usize,
        farm: *const u8,
        farm_length: usize,
        association: *const u8,
        association_length: usize,
    ) -> Standing;
    pub fn lanecockle_slip_write_standing(
        cents: u64,
        text: *const u8,
        text_length: usize,
        sizes: *const usize,
        count: usize,
        farm: *const u8,
        farm_length: usize,
        association: *const u8,
        association_length: usize,
        out: *mut u8,
        room: usize,
    ) -> StandingWritten;

    pub fn lanecockle_judge_begin(day: u64) -> Record;
    pub fn lanecockle_judge_step(record: Record, line: *const u8, length: usize) -> Record;
    pub fn lanecockle_judge_step_tally(
        record: Record,
        line: *const u8,
        length: usize,
        tally: *mut Tally,
    ) -> Record;
    pub fn lanecockle_judge_lines(record: Record, bytes: *const u8, length: usize) -> Record;
    pub fn lanecockle_judge_end(record: Record) -> Ended;
    pub fn lanecockle_wage_file(day: u64, bytes: *const u8, length: usize) -> Ended;
    pub fn lanecockle_wage_place(line: *const u8, length: usize, field: usize) -> Part;

    pub fn lanecockle_write_label(
        day: u64,
        text: *const u8,
        text_length: usize,
        sizes: *const usize,
        count: usize,
        out: *mut u8,
        room: usize,
    ) -> Told;
    pub fn lanecockle_write_order(
        day: u64,
        kind: u64,
        text: *const u8,
        text_length: usize,
        sizes: *const usize,
        count: usize,
        out: *mut u8,
        room: usize,
    ) -> Told;
    pub fn lanecockle_write_group(
        day: u64,
        kind: u64,
        text: *const u8,
        text_length: usize,
        sizes: *const usize,
        count: usize,
        orders: *const u8,
        orders_length: usize,
        out: *mut u8,
        room: usize,
    ) -> Told;
    pub fn lanecockle_write_closing(day: u64, out: *mut u8, room: usize) -> Told;
}
