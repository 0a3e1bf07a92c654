//! The running total of wage files, for a screen.

use crate::wage::{Counts, Judge, Tally};
use crate::Refusal;

/// The running total of a wage file, for a screen that is redrawn while the file is read: a judge, and beside it a tally that
/// each line brings up to date. No line is kept, and none is added up twice.
///
/// Begun with zeros, its groups, orders and total are those of the lines that were taken so far; a refused line leaves them as
/// they stood. Begun with the tally of the file before, they are the sum over both.
///
/// ```
/// use lanecockle::wage::{self, RunningTotal};
///
/// # let day = 20240228;
/// # let (payee, name) = (format!("{:<34}", "HR7023400091510946338"), format!("{:<140}", "IVANA HORVAT"));
/// # let (wages, blanks) = (format!("{:<140}", "Placa 1/2024"), " ".repeat(22));
/// # let mut file = vec![0; 4 * wage::LINE];
/// # let (label, rest) = file.split_at_mut(wage::LINE);
/// # let (group, rest) = rest.split_at_mut(wage::LINE);
/// # let (order, closing) = rest.split_at_mut(wage::LINE);
/// # wage::write_order(day, 4, &[
/// #     payee.as_bytes(), name.as_bytes(), b"191", b"    ", blanks.as_bytes(), b"SALA", wages.as_bytes(),
/// #     b"000000000012355", b"    ", blanks.as_bytes(), b"0", b"EUR", b"3", b"0", b"100", b"12345678903",
/// # ], order)?;
/// # wage::write_group(day, 4, &[
/// #     b"HR1210010051863000160", b"EUR", blanks[..21].as_bytes(), b"   ", b"20240301",
/// # ], order, group)?;
/// # wage::write_label(day, &[
/// #     b"20240228", b"4", b"000", b"1", b"12345678903", b"00000000042", b"00000000000", b"12345678903",
/// # ], label)?;
/// # wage::write_closing(day, closing)?;
/// // a file of one group with one order of 123.55 euro
/// let mut running = RunningTotal::begin(20240228);
/// let mut seen = Vec::new();
/// for line in file.chunks(wage::LINE) {
///     running.step(line)?;
///     seen.push((running.groups(), running.orders(), running.total()));
/// }
/// assert_eq!(seen, [(0, 0, 0), (1, 0, 0), (1, 1, 12355), (1, 1, 12355)]);
/// assert_eq!(running.end()?.total.total(), 12355);
///
/// // the next file, carried on
/// let mut running = RunningTotal::begin_from(20240228, running.tally());
/// for line in file.chunks(wage::LINE) {
///     running.step(line)?;
/// }
/// assert_eq!((running.groups(), running.orders(), running.total()), (2, 2, 24710));
/// assert_eq!(running.end()?.total.total(), 12355);
/// # Ok::<(), lanecockle::Refusal>(())
/// ```
#[derive(Clone, Debug, PartialEq, Eq)]
pub struct RunningTotal {
    judge: Judge,
    tally: Tally,
}

impl RunningTotal {
    /// The running total of a file that begins, with zeros, for its day of submission; it has refused with 11 where that is
    /// not a date of 2023 to 9999.
    ///
    /// ```
    /// use lanecockle::wage::RunningTotal;
    ///
    /// let running = RunningTotal::begin(20240228);
    /// assert_eq!((running.groups(), running.orders(), running.total(), running.refusal()), (0, 0, 0, None));
    /// ```
    pub fn begin(day: u64) -> RunningTotal {
        RunningTotal::begin_from(day, Tally::default())
    }

    /// The running total of a file that begins, carried on from a tally: that of the file before, or one that was stored.
    ///
    /// ```
    /// use lanecockle::wage::{RunningTotal, Tally};
    ///
    /// let running = RunningTotal::begin_from(20240228, Tally { groups: 2, orders: 7, ..Tally::default() });
    /// assert_eq!((running.groups(), running.orders()), (2, 7));
    /// ```
    pub fn begin_from(day: u64, tally: Tally) -> RunningTotal {
        RunningTotal { judge: Judge::begin(day), tally }
    }

    /// Judges one line of whatever size, and adds what it adds. Refusals: those of [`Judge::step`], then 29; a refused line
    /// leaves groups, orders and total as they stood, and each further step gives the refusal again.
    ///
    /// ```
    /// use lanecockle::{wage::RunningTotal, Kind};
    ///
    /// let mut running = RunningTotal::begin(20240228);
    /// let refusal = running.step(b"short").unwrap_err();
    /// assert_eq!((refusal.kind, refusal.line), (Kind::Size, 1));
    /// assert_eq!(running.refusal(), Some(refusal));
    /// assert_eq!(running.total(), 0);
    /// ```
    pub fn step(&mut self, line: &[u8]) -> Result<(), Refusal> {
        self.judge.step_tally(line, &mut self.tally)
    }

    /// The groups read so far.
    ///
    /// ```
    /// assert_eq!(lanecockle::wage::RunningTotal::begin(20240228).groups(), 0);
    /// ```
    pub fn groups(&self) -> usize {
        self.tally.groups
    }

    /// The orders read so far.
    ///
    /// ```
    /// assert_eq!(lanecockle::wage::RunningTotal::begin(20240228).orders(), 0);
    /// ```
    pub fn orders(&self) -> usize {
        self.tally.orders
    }

    /// What these orders come to, in cents, exactly.
    ///
    /// ```
    /// use lanecockle::wage::{Cents, RunningTotal, Tally};
    ///
    /// let tally = Tally { total: Cents { high: 20, low: 7 }, ..Tally::default() };
    /// assert_eq!(RunningTotal::begin_from(20240228, tally).total(), 20_000_000_000_000_000_007);
    /// ```
    pub fn total(&self) -> u128 {
        self.tally.total.total()
    }

    /// The tally as it stands: what the running total of the next file is begun from.
    ///
    /// ```
    /// use lanecockle::wage::{RunningTotal, Tally};
    ///
    /// assert_eq!(RunningTotal::begin(20240228).tally(), Tally::default());
    /// ```
    pub fn tally(&self) -> Tally {
        self.tally
    }

    /// The judge of the file, which knows its lines and its own total apart from the files before.
    ///
    /// ```
    /// use lanecockle::wage::RunningTotal;
    ///
    /// let running = RunningTotal::begin(20240228);
    /// assert_eq!((running.judge().record().lines, running.judge().record().file_total.total()), (0, 0));
    /// ```
    pub fn judge(&self) -> &Judge {
        &self.judge
    }

    /// The refusal, if the file is refused.
    ///
    /// ```
    /// use lanecockle::{wage::RunningTotal, Kind};
    ///
    /// assert_eq!(RunningTotal::begin(20240228).refusal(), None);
    /// assert_eq!(RunningTotal::begin(20240230).refusal().map(|refusal| refusal.kind), Some(Kind::Date));
    /// ```
    pub fn refusal(&self) -> Option<Refusal> {
        self.judge.standing().err()
    }

    /// What the file comes to, as [`Judge::end`] gives it: its own counts and total, or its refusal.
    ///
    /// ```
    /// use lanecockle::{wage::RunningTotal, Kind};
    ///
    /// assert_eq!(RunningTotal::begin(20240228).end().unwrap_err().kind, Kind::Unfinished);
    /// ```
    pub fn end(&self) -> Result<Counts, Refusal> {
        self.judge.end()
    }
}
