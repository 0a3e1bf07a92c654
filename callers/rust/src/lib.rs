//! Lanecockle for Rust: HUB3 payment slips and their standing text, kuna slips for the ledgers, wage files of
//! 300/301/309/399 lines, wet slips and check digits, as the desk of a Croatian water rights association checks them.
//!
//! The checks are those of a proved library, `libdesk.a` in the project and `liblanecockle.a` where it is installed, that this
//! crate links with: `build.rs` looks for it in the folder that the environment variable `LANECOCKLE_LIB` names, else in the
//! `lib` of a release archive and in `target/staticlib` of the project. Every call answers, whatever bytes it is given, and
//! keeps nothing, so any number of threads may call.
//!
//! Text is bytes: a slip is UTF-8, a wage file WIN-1250. Every call that can refuse gives a [`Refusal`], with its number, its
//! place, and one sentence in English or Croatian; what is lent as `out` is then as it was.
//!
//! ```
//! use lanecockle::{iban, list_iban, Kind};
//!
//! assert!(iban(b"HR1210010051863000160").is_ok());
//!
//! let refusal = iban(b"HR1310010051863000160").unwrap_err();
//! assert_eq!(refusal.kind, Kind::Check);
//! assert_eq!(refusal.to_string(), "The check of the IBAN or OIB fails.");
//! assert_eq!(refusal.in_croatian().to_string(), "IBAN ili OIB ne prolazi kontrolu.");
//!
//! // a wet slip: two digits cannot be read
//! let mut numbers = [0; 100];
//! let count = list_iban(b"HR??10010051863000160", &mut numbers)?;
//! assert_eq!(numbers[..count], [12]);
//! # Ok::<(), lanecockle::Refusal>(())
//! ```
//!
//! Slips are read and written by [`slip`], wage files by [`wage`], whose [`RunningTotal`](wage::RunningTotal) is what a screen
//! is redrawn from while a file is read; [`standing`] has the text that slips take from a farm's sheet or the association's;
//! [`ledger`] reads the slips of the ledgers, in euro or in kuna. [`FIELDS`] has the names, places and rules of all fields.
#![deny(missing_docs, unsafe_code, unsafe_op_in_unsafe_fn)]

#[allow(unsafe_code)]
mod ffi;
mod fields;
pub mod ledger;
mod refusal;
mod running;
pub mod slip;
pub mod standing;
#[rustfmt::skip]
mod tables;
pub mod wage;

pub use fields::{Field, Layout};
pub use refusal::{InCroatian, Language, Refusal};
pub use tables::{Kind, FIELDS, VERSION};

/// The version of the library that this crate is linked with, as `1.0.0`; that of the crate is [`VERSION`].
///
/// ```
/// assert_eq!(lanecockle::version(), lanecockle::VERSION);
/// ```
pub fn version() -> String {
    let number = ffi::version();
    format!("{}.{}.{}", number / 10_000, number / 100 % 100, number % 100)
}

/// A rule of check digits.
///
/// ```
/// use lanecockle::{make_digit, Rule};
///
/// assert_eq!(make_digit(Rule::Ini, b"1234567890"), Ok(9));
/// assert_eq!(make_digit(Rule::Mod1110, b"1234567890"), Ok(3));
/// ```
#[derive(Clone, Copy, Debug, PartialEq, Eq, Hash)]
pub enum Rule {
    /// INI (MOD11INI): weights 2, 3, 4 and on, leftwards.
    Ini,
    /// ISO 7064 MOD 11,10, the rule of an OIB.
    Mod1110,
}

impl Rule {
    /// The number by which the library knows the rule.
    fn number(self) -> u32 {
        match self {
            Rule::Ini => 0,
            Rule::Mod1110 => 1,
        }
    }
}

/// The most fillings that a listing has: room for these is always enough.
///
/// ```
/// let mut numbers = [0; lanecockle::FILLINGS];
/// assert_eq!(lanecockle::list_reference(b"HR00", b"????", &mut numbers), Ok(10_000));
/// ```
pub const FILLINGS: usize = 10_000;

/// Whether one to 22 digits end in their check digit. Refusals: 1, 3, 9, none with a place.
///
/// ```
/// use lanecockle::{check_digits, Kind, Rule};
///
/// assert!(check_digits(Rule::Ini, b"102305789016").is_ok());
/// assert_eq!(check_digits(Rule::Ini, b"102305789017").unwrap_err().kind, Kind::Digit);
/// ```
pub fn check_digits(rule: Rule, digits: &[u8]) -> Result<(), Refusal> {
    ffi::check_digits(rule.number(), digits).result()
}

/// The check digit of one to nineteen digits, 0 to 9. Refusals: 1, 3, none with a place.
///
/// ```
/// use lanecockle::{make_digit, Kind, Rule};
///
/// assert_eq!(make_digit(Rule::Ini, b"10230578901"), Ok(6));
/// assert_eq!(make_digit(Rule::Mod1110, b"").unwrap_err().kind, Kind::Size);
/// ```
pub fn make_digit(rule: Rule, digits: &[u8]) -> Result<u8, Refusal> {
    // a digit is below 10
    value(ffi::make_digit(rule.number(), digits)).map(|digit| digit as u8)
}

/// An IBAN: `HR` and nineteen digits. Refusals: 3 with its byte, 4, 5, 6.
///
/// ```
/// assert!(lanecockle::iban(b"HR1210010051863000160").is_ok());
/// let refusal = lanecockle::iban(b"HR12 10010051863000160").unwrap_err();
/// assert_eq!((refusal.kind.number(), refusal.byte), (3, 4));
/// ```
pub fn iban(text: &[u8]) -> Result<(), Refusal> {
    ffi::iban(text).result()
}

/// An OIB: eleven digits. Refusals: 3 with its byte, 4, 6.
///
/// ```
/// assert!(lanecockle::oib(b"12345678903").is_ok());
/// assert_eq!(lanecockle::oib(b"1234567890").unwrap_err().kind.number(), 4);
/// ```
pub fn oib(text: &[u8]) -> Result<(), Refusal> {
    ffi::oib(text).result()
}

/// A reference under its model, `HR` and two digits. Refusals, in this order: 5 (not `HR` and two digits) and 7 of the model; 3
/// with its byte, 4, 8, 5, 9 of the reference.
///
/// That last 5 is of HR69 alone, with three parts: the first is not `40002`, or the third no code of a kind of personal income.
/// Like the model's it tells no place: where the model is `HR` and two digits, 5 is of the reference.
///
/// ```
/// use lanecockle::{reference, Kind};
///
/// assert!(reference(b"HR69", b"40002-12345678903-100").is_ok());
/// assert_eq!(reference(b"HR69", b"40002").unwrap_err().kind, Kind::Parts);
/// assert_eq!(reference(b"HR69", b"40002-12345678903-101").unwrap_err().kind, Kind::Form);
/// assert_eq!(reference(b"HR12", b"40002").unwrap_err().kind, Kind::Model);
/// ```
pub fn reference(model: &[u8], text: &[u8]) -> Result<(), Refusal> {
    ffi::reference(model, text).result()
}

/// The fillings of an IBAN with `?` for up to four unreadable digits: how many there are, their numbers ascending at the front
/// of `out`. Nothing behind them changes. Refusals: 1, 3, 16, 15 with the count, none with a place.
///
/// ```
/// let mut numbers = [999; 2];
/// assert_eq!(lanecockle::list_iban(b"HR??10010051863000160", &mut numbers), Ok(1));
/// assert_eq!(numbers, [12, 999]);
/// ```
pub fn list_iban(text: &[u8], out: &mut [u16]) -> Result<usize, Refusal> {
    value(ffi::list_iban(text, out))
}

/// The fillings of a reference under its model, as [`list_iban`] gives those of an IBAN. Refusals: 1, 3, 16, 5 and 7 of the
/// model, 15 with the count, none with a place. A filling that [`reference`] refuses is not listed.
///
/// ```
/// let mut numbers = [0; 10];
/// assert_eq!(lanecockle::list_reference(b"HR01", b"??", &mut numbers), Ok(10));
/// assert_eq!(numbers, [0, 19, 27, 35, 43, 51, 60, 78, 86, 94]);
///
/// let refusal = lanecockle::list_reference(b"HR01", b"??", &mut numbers[..9]).unwrap_err();
/// assert_eq!((refusal.kind.number(), refusal.needed), (15, 10));
///
/// assert_eq!(lanecockle::list_reference(b"HR69", b"4000?-12345678903-10?", &mut numbers), Ok(1));
/// assert_eq!(numbers[0], 20);
/// ```
pub fn list_reference(model: &[u8], text: &[u8], out: &mut [u16]) -> Result<usize, Refusal> {
    value(ffi::list_reference(model, text, out))
}

/// Writes a text with its marks filled by the digits of a number at the front of `out`, and nothing behind it. Refusals: 15
/// with the text's length.
///
/// ```
/// let mut out = *b"........................";
/// lanecockle::filled(b"HR??10010051863000160", 12, &mut out)?;
/// assert_eq!(&out, b"HR1210010051863000160...");
/// # Ok::<(), lanecockle::Refusal>(())
/// ```
pub fn filled(text: &[u8], number: u16, out: &mut [u8]) -> Result<(), Refusal> {
    ffi::filled(text, number, out).result()
}

/// The value of an answer, or its refusal.
fn value(valued: ffi::Valued) -> Result<usize, Refusal> {
    valued.told.result().map(|()| valued.value)
}

/// A part of lent bytes, by the library's numbers.
fn part(bytes: &[u8], part: ffi::Part) -> &[u8] {
    &bytes[part.start..][..part.length]
}
