//! Slips of either currency, for the ledgers. A kuna slip, printed before 2023, has `HRK` in field 2, its amount in lipa, and
//! in field 10 an IBAN or, where that begins with a digit, an account: seven digits, a hyphen and ten digits. All else is as in
//! a euro slip.
//!
//! To [`slip`](crate::slip), which reads and writes slips to be paid, a kuna slip is 5 at field 2.
//!
//! ```
//! use lanecockle::ledger::{self, Amount, Cents, Lipa};
//! use lanecockle::slip;
//!
//! let slip = b"HRVHUB30\nHRK\n000000000012355\n\n\n\n\n\n\n1001005-1863000160\nHR99\n\n\nVoda\n";
//! match ledger::read(slip)? {
//!     Amount::Euro(Cents(cents)) => println!("{cents} cents"),
//!     Amount::Kuna(lipa) => println!("{} lipa, {} cents", lipa.0, lipa.in_cents().0),
//! }
//! assert_eq!(ledger::read(slip), Ok(Amount::Kuna(Lipa(12355))));
//! assert_eq!(Lipa(12355).in_cents(), Cents(1640));
//! assert_eq!(ledger::field(slip, 10), b"1001005-1863000160");
//!
//! let refusal = slip::cents(slip).unwrap_err();
//! assert_eq!((refusal.kind.number(), refusal.field), (5, 2));
//! # Ok::<(), lanecockle::Refusal>(())
//! ```

use crate::{ffi, part, Refusal};

/// The currencies, by the library's numbers.
const EURO: usize = 1;
const KUNA: usize = 2;

/// An amount in cents, hundredths of a euro. No operator adds amounts, so none adds cents and lipa; who adds cents takes their
/// numbers.
///
/// ```
/// use lanecockle::ledger::Cents;
///
/// assert_eq!(Cents(1640).0 + Cents(60).0, 1700);
/// ```
///
/// ```compile_fail,E0369
/// use lanecockle::ledger::{Cents, Lipa};
///
/// let sum = Cents(1640) + Lipa(12355);
/// ```
#[derive(Clone, Copy, Debug, PartialEq, Eq, PartialOrd, Ord, Hash)]
pub struct Cents(pub u64);

/// An amount in lipa, hundredths of a kuna. No operator adds amounts, and lipa are no cents.
///
/// ```compile_fail,E0308
/// use lanecockle::ledger::{Cents, Lipa};
///
/// let cents: Cents = Lipa(12355);
/// ```
#[derive(Clone, Copy, Debug, PartialEq, Eq, PartialOrd, Ord, Hash)]
pub struct Lipa(pub u64);

impl Lipa {
    /// The lipa in cents at 7.53450 kuna for a euro: the nearest cent, exactly, whatever the amount.
    ///
    /// ```
    /// use lanecockle::ledger::{Cents, Lipa};
    ///
    /// assert_eq!(Lipa(753_450).in_cents(), Cents(100_000));
    /// assert_eq!(Lipa(999_999_999_999_999).in_cents(), Cents(132_722_808_414_626));
    /// ```
    pub fn in_cents(self) -> Cents {
        Cents(ffi::lipa_in_cents(self.0))
    }
}

/// The amount of a slip in its own unit, which tells the slip's currency.
///
/// ```
/// use lanecockle::ledger::{self, Amount, Cents};
///
/// let slip = b"HRVHUB30\nEUR\n000000000000100\n\n\n\n\n\n\nHR1210010051863000160\nHR99\n\n\nVoda\n";
/// assert_eq!(ledger::read(slip), Ok(Amount::Euro(Cents(100))));
/// ```
#[derive(Clone, Copy, Debug, PartialEq, Eq, Hash)]
pub enum Amount {
    /// A euro slip's.
    Euro(Cents),
    /// A kuna slip's.
    Kuna(Lipa),
}

/// The amount of an accepted slip of either currency. Refusals: those of [`slip::read`](crate::slip::read), field 10 of a kuna
/// slip judged by its own rule: an account permits A to Z, digits and hyphens (3), has 18 bytes (4) and its form (5), and has no
/// check. A currency that is neither `EUR` nor `HRK` is 5 at field 2.
///
/// ```
/// use lanecockle::{ledger, Kind};
///
/// let slip = b"HRVHUB30\nHRK\n000000000012355\n\n\n\n\n\n\n10010051863000160\nHR99\n\n\nVoda\n";
/// let refusal = ledger::read(slip).unwrap_err();
/// assert_eq!((refusal.kind, refusal.field, refusal.byte), (Kind::Length, 10, 35));
/// ```
pub fn read(slip: &[u8]) -> Result<Amount, Refusal> {
    let read = ffi::ledger_read(slip);
    read.told.result()?;
    match read.currency {
        EURO => Ok(Amount::Euro(Cents(read.cents))),
        KUNA => Ok(Amount::Kuna(Lipa(read.lipa))),
        _ => unreachable!("an accepted slip has a currency"),
    }
}

/// Field 4 to 14 of an accepted slip of either currency, where it stands; nothing for another number or a refused slip.
///
/// ```
/// use lanecockle::{ledger, slip};
///
/// let slip = b"HRVHUB30\nHRK\n000000000000100\n\n\n\n\n\n\nHR1210010051863000160\nHR99\n\n\nVoda\n";
/// assert_eq!(ledger::field(slip, 14), b"Voda");
/// assert_eq!(ledger::field(slip, 2), b"");
/// assert_eq!(slip::field(slip, 14), b"");
/// ```
pub fn field(slip: &[u8], number: usize) -> &[u8] {
    part(slip, ffi::ledger_field(slip, number))
}
