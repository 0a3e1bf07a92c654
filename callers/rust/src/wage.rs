//! Wage files: lines of 1,002 bytes, judged whole or line by line, queried and written.
//!
//! A file is one 300 (the label), groups of one 301 and its 309 lines (the orders), and one 399. A day is a number, YYYYMMDD.
//! A writer takes each field as the bytes of its positions, with its blanks and zeros; [`FIELDS`](crate::FIELDS) tells which
//! these are.
//!
//! ```
//! use lanecockle::wage;
//!
//! let day = 20240228;
//! let (payee, name) = (format!("{:<34}", "HR7023400091510946338"), format!("{:<140}", "IVANA HORVAT"));
//! let (reference, wages) = (format!("{:<22}", "40002-12345678903-100"), format!("{:<140}", "Placa 1/2024"));
//! let blanks = " ".repeat(22);
//!
//! let mut file = vec![0; 4 * wage::LINE];
//! let (label, rest) = file.split_at_mut(wage::LINE);
//! let (group, rest) = rest.split_at_mut(wage::LINE);
//! let (order, closing) = rest.split_at_mut(wage::LINE);
//! wage::write_order(day, 4, &[
//!     payee.as_bytes(), name.as_bytes(), b"191", b"HR69", reference.as_bytes(), b"SALA", wages.as_bytes(),
//!     b"000000000012355", b"    ", blanks.as_bytes(), b"0", b"EUR", b"3", b"0", b"100", b"12345678903",
//! ], order)?;
//! wage::write_group(day, 4, &[
//!     b"HR1210010051863000160", b"EUR", blanks[..21].as_bytes(), b"   ", b"20240301",
//! ], order, group)?;
//! wage::write_label(day, &[
//!     b"20240228", b"4", b"000", b"1", b"12345678903", b"00000000042", b"00000000000", b"12345678903",
//! ], label)?;
//! wage::write_closing(day, closing)?;
//!
//! let counts = wage::file(day, &file)?;
//! assert_eq!((counts.lines, counts.groups, counts.orders, counts.total.total()), (4, 1, 1, 12355));
//! assert_eq!(wage::place(&file[wage::LINE..2 * wage::LINE], 6), b"00000000000000012355");
//! # Ok::<(), lanecockle::Refusal>(())
//! ```

use crate::{ffi, part, Refusal};

pub use crate::ffi::{Cents, Record, Tally, Told};
pub use crate::running::RunningTotal;

/// The bytes of a line, CR LF the last two.
///
/// ```
/// use lanecockle::wage;
///
/// let mut line = [0; wage::LINE];
/// wage::write_closing(20240228, &mut line)?;
/// assert_eq!(line[997..], *b"399\r\n");
/// # Ok::<(), lanecockle::Refusal>(())
/// ```
pub const LINE: usize = 1002;

/// The condition of a record that has refused.
const REFUSED: usize = 4;

/// What an accepted file comes to.
///
/// ```
/// use lanecockle::wage::{Cents, Counts, Judge, Record};
///
/// let total = Cents { high: 0, low: 12355 };
/// let closed = Record { condition: 3, lines: 4, groups: 1, orders: 1, file_total: total, ..Judge::begin(20240228).record() };
/// assert_eq!(Judge::from_record(closed).end(), Ok(Counts { lines: 4, groups: 1, orders: 1, total }));
/// ```
#[derive(Clone, Copy, Debug, Default, PartialEq, Eq, Hash)]
pub struct Counts {
    /// The lines, 300 and 399 too.
    pub lines: usize,
    /// The groups.
    pub groups: usize,
    /// The orders.
    pub orders: usize,
    /// What all of them come to.
    pub total: Cents,
}

/// The judge of a wage file, one line at a step. Its first refusal stays: each step and the end give it again.
///
/// ```
/// use lanecockle::wage::{self, Judge};
///
/// let mut closing = [0; wage::LINE];
/// wage::write_closing(20240228, &mut closing)?;
///
/// let mut judge = Judge::begin(20240228);
/// let refusal = judge.step(&closing).unwrap_err();
/// assert_eq!(refusal.to_string(), "Line 1: a line of this type may not stand here.");
/// assert_eq!(judge.end(), Err(refusal));
/// # Ok::<(), lanecockle::Refusal>(())
/// ```
#[derive(Clone, Debug, PartialEq, Eq)]
pub struct Judge {
    record: Record,
}

impl Judge {
    /// A fresh judge for the day of submission; it has refused with 11 where that is not a date of 2023 to 9999.
    ///
    /// ```
    /// use lanecockle::wage::Judge;
    ///
    /// assert_eq!(Judge::begin(20240228).end().unwrap_err().kind.number(), 14);
    /// assert_eq!(Judge::begin(20240230).end().unwrap_err().kind.number(), 11);
    /// ```
    pub fn begin(day: u64) -> Judge {
        Judge { record: ffi::judge_begin(day) }
    }

    /// The judge of a record, which may be one that was stored.
    ///
    /// ```
    /// use lanecockle::wage::Judge;
    ///
    /// let judge = Judge::begin(20240228);
    /// assert_eq!(Judge::from_record(judge.record()), judge);
    /// ```
    pub fn from_record(record: Record) -> Judge {
        Judge { record }
    }

    /// The record as it stands: the condition, the counts and the sums so far.
    ///
    /// ```
    /// use lanecockle::wage::Judge;
    ///
    /// let record = Judge::begin(20240228).record();
    /// assert_eq!((record.condition, record.day, record.lines), (0, 20240228, 0));
    /// ```
    pub fn record(&self) -> Record {
        self.record
    }

    /// Judges one line of whatever size.
    ///
    /// ```
    /// use lanecockle::{wage::Judge, Kind};
    ///
    /// let refusal = Judge::begin(20240228).step(b"short").unwrap_err();
    /// assert_eq!((refusal.kind, refusal.line), (Kind::Size, 1));
    /// ```
    pub fn step(&mut self, line: &[u8]) -> Result<(), Refusal> {
        self.record = ffi::judge_step(self.record, line);
        self.standing()
    }

    /// Judges one line as [`step`](Judge::step) does, and brings a tally up to date with it: a group more for a 301, an order
    /// and its amount more for a 309. Where the line is refused the tally stays as it was.
    ///
    /// Refusals: those of [`step`](Judge::step); then 29, with the line's number, where the tally would come to more than
    /// 1,000,000 groups or orders, or to 10^21 cents or more. One tally may go through several files, a fresh judge for each;
    /// [`RunningTotal`] is a judge and a tally in one.
    ///
    /// ```
    /// use lanecockle::{wage::{Judge, Tally}, Kind};
    ///
    /// # let mut label = [0; lanecockle::wage::LINE];
    /// # lanecockle::wage::write_label(20240228, &[
    /// #     b"20240228", b"4", b"000", b"1", b"12345678903", b"00000000042", b"00000000000", b"12345678903",
    /// # ], &mut label)?;
    /// let mut full = Tally { groups: 1_000_001, ..Tally::default() };
    /// let refusal = Judge::begin(20240228).step_tally(&label, &mut full).unwrap_err();
    /// assert_eq!((refusal.kind, refusal.line), (Kind::Overfull, 1));
    /// # Ok::<(), lanecockle::Refusal>(())
    /// ```
    pub fn step_tally(&mut self, line: &[u8], tally: &mut Tally) -> Result<(), Refusal> {
        self.record = ffi::judge_step_tally(self.record, line, tally);
        self.standing()
    }

    /// Judges the lines of a part of a file: pieces of 1,002 bytes, of which the last may be short (1).
    ///
    /// ```
    /// use lanecockle::wage::Judge;
    ///
    /// let mut judge = Judge::begin(20240228);
    /// assert!(judge.lines(b"").is_ok());
    /// assert_eq!(judge.lines(b"short").unwrap_err().line, 1);
    /// ```
    pub fn lines(&mut self, bytes: &[u8]) -> Result<(), Refusal> {
        self.record = ffi::judge_lines(self.record, bytes);
        self.standing()
    }

    /// What the file comes to: its counts and total, its first refusal, or 14 at the next line where the 399 was not read.
    ///
    /// ```
    /// use lanecockle::{wage::Judge, Kind};
    ///
    /// let refusal = Judge::begin(20240228).end().unwrap_err();
    /// assert_eq!((refusal.kind, refusal.line), (Kind::Unfinished, 1));
    /// ```
    pub fn end(&self) -> Result<Counts, Refusal> {
        counts(ffi::judge_end(self.record))
    }

    /// The refusal that the record holds, if it does.
    pub(crate) fn standing(&self) -> Result<(), Refusal> {
        if self.record.condition == REFUSED {
            return Err(self.record.told.refusal());
        }
        Ok(())
    }
}

fn counts(ended: ffi::Ended) -> Result<Counts, Refusal> {
    let ffi::Ended { told, lines, groups, orders, total } = ended;
    told.result().map(|()| Counts { lines, groups, orders, total })
}

/// A whole file: its counts and total, or its first refusal.
///
/// ```
/// use lanecockle::{wage, Kind};
///
/// let refusal = wage::file(20240228, &[b' '; wage::LINE]).unwrap_err();
/// assert_eq!((refusal.kind, refusal.line), (Kind::Ends, 1));
/// ```
pub fn file(day: u64, bytes: &[u8]) -> Result<Counts, Refusal> {
    counts(ffi::wage_file(day, bytes))
}

/// A place of a line by the field number of the layout tables: 1 to 8 of a 300, 1 to 7 of a 301, 1, 2, 5 to 12 and 18 to 23
/// of a 309. Nothing for another number, or where 1, 2 or 5 (type) refuses the line.
///
/// ```
/// use lanecockle::wage;
///
/// let mut line = [0; wage::LINE];
/// let fields: [&[u8]; 8] = [
///     b"20240228", b"4", b"000", b"1", b"12345678903", b"00000000042", b"00000000000", b"12345678903",
/// ];
/// wage::write_label(20240228, &fields, &mut line)?;
/// assert_eq!(wage::place(&line, 6), b"00000000042");
/// assert_eq!(wage::place(&line, 9), b"");
/// # Ok::<(), lanecockle::Refusal>(())
/// ```
pub fn place(line: &[u8], field: usize) -> &[u8] {
    part(line, ffi::wage_place(line, field))
}

/// Writes a 300 of its fields 1 to 8 at the front of `out`, 1,002 bytes, and nothing behind it. Refusals: 11 for the day, the
/// judge's for the fields, 4 (another length) first in each, then 15.
///
/// ```
/// use lanecockle::{wage, Kind};
///
/// let mut line = [0; wage::LINE];
/// let mut fields: [&[u8]; 8] = [
///     b"20240228", b"4", b"000", b"1", b"12345678903", b"00000000042", b"00000000000", b"12345678903",
/// ];
/// wage::write_label(20240228, &fields, &mut line)?;
/// assert_eq!(line[..9], *b"202402284");
///
/// fields[0] = b"20240227";
/// let refusal = wage::write_label(20240228, &fields, &mut line).unwrap_err();
/// assert_eq!((refusal.kind, refusal.field), (Kind::Date, 1));
/// # Ok::<(), lanecockle::Refusal>(())
/// ```
pub fn write_label(day: u64, fields: &[&[u8]; 8], out: &mut [u8]) -> Result<(), Refusal> {
    ffi::write_label(day, &ffi::Fields::of(fields), out).result()
}

/// Writes a 309 of its fields 1, 2, 5 to 12 and 18 to 23, as [`write_label`] does a 300. A kind that is not 4 or 5 is 5,
/// after 11 for the day.
///
/// The example of the [module](self) writes one.
///
/// ```
/// use lanecockle::{wage, Kind};
///
/// let mut line = [0; wage::LINE];
/// let refusal = wage::write_order(20240228, 3, &[b""; 16], &mut line).unwrap_err();
/// assert_eq!((refusal.kind, refusal.field), (Kind::Form, 0));
/// let refusal = wage::write_order(20240228, 4, &[b""; 16], &mut line).unwrap_err();
/// assert_eq!((refusal.kind, refusal.field), (Kind::Length, 1));
/// assert_eq!(line, [0; wage::LINE]);
/// ```
pub fn write_order(day: u64, kind: u64, fields: &[&[u8]; 16], out: &mut [u8]) -> Result<(), Refusal> {
    ffi::write_order(day, kind, &ffi::Fields::of(fields), out).result()
}

/// Writes a 301 of its fields 1 to 4 and 7, as [`write_order`] does a 309; 5 and 6, the number of orders and their sum, are
/// worked out from `orders`, the group's 309 lines one behind the other. Refusals of these: 1 if they are not whole lines, 10
/// if there are none, 12 above 99,999, then the first refusal in them, with its line in the group.
///
/// The example of the [module](self) writes one.
///
/// ```
/// use lanecockle::{wage, Kind};
///
/// let mut line = [0; wage::LINE];
/// let refusal = wage::write_group(20240228, 4, &[b""; 5], b"", &mut line).unwrap_err();
/// assert_eq!(refusal.kind, Kind::Misplaced);
/// assert_eq!(refusal.to_string(), "The group has no orders.");
/// ```
pub fn write_group(day: u64, kind: u64, fields: &[&[u8]; 5], orders: &[u8], out: &mut [u8]) -> Result<(), Refusal> {
    ffi::write_group(day, kind, &ffi::Fields::of(fields), orders, out).result()
}

/// Writes a 399, which has no fields. Refusals: 11 for the day, then 15.
///
/// ```
/// use lanecockle::{wage, Kind};
///
/// let mut line = [0; wage::LINE];
/// wage::write_closing(20240228, &mut line)?;
/// assert_eq!(line[997..], *b"399\r\n");
///
/// let refusal = wage::write_closing(20240228, &mut line[1..]).unwrap_err();
/// assert_eq!((refusal.kind, refusal.needed), (Kind::Room, 1002));
/// # Ok::<(), lanecockle::Refusal>(())
/// ```
pub fn write_closing(day: u64, out: &mut [u8]) -> Result<(), Refusal> {
    ffi::write_closing(day, out).result()
}
