//! Slips: the bytes of a HUB3 barcode, fourteen fields that each end in a line feed; [`FIELDS`](crate::FIELDS) tells their
//! names and widths.
//!
//! ```
//! use lanecockle::slip;
//!
//! let fields: [&[u8]; 11] = [
//!     "ŽELJKO SENEKOVIĆ".as_bytes(), "IVANEČKA ULICA 125".as_bytes(), "42000 VARAŽDIN".as_bytes(),
//!     b"2DBK d.d.", b"ALKARSKI PROLAZ 13B", b"21230 SINJ", b"HR1210010051863000160",
//!     b"HR01", b"7269-68499637766-00011", b"COST", "Troškovi za 1. mjesec".as_bytes(),
//! ];
//! let mut room = [0; slip::MOST];
//! let length = slip::write(12355, &fields, &mut room)?;
//!
//! let slip = &room[..length];
//! assert!(slip::read(slip).is_ok());
//! assert_eq!(slip::cents(slip)?, 12355);
//! assert_eq!(slip::field(slip, 10), b"HR1210010051863000160");
//! # Ok::<(), lanecockle::Refusal>(())
//! ```

use crate::standing::{self, SheetRefusal};
use crate::{ffi, part, value, Refusal};

/// The most bytes that a slip has.
///
/// ```
/// use lanecockle::{slip, Kind};
///
/// assert_eq!(slip::read(&[b'\n'; slip::MOST + 1]).unwrap_err().kind, Kind::Size);
/// ```
pub const MOST: usize = 483;

/// A slip. Refusals: 1 (above 483 bytes), 2, then the first of its fourteen fields, 3 to 9, with field and byte.
///
/// ```
/// use lanecockle::{slip, Kind};
///
/// assert_eq!(slip::read(b"HRVHUB30\nEUR\n").unwrap_err().kind, Kind::Ends);
/// ```
pub fn read(slip: &[u8]) -> Result<(), Refusal> {
    ffi::slip_read(slip).result()
}

/// Field 4 to 14 of an accepted slip, where it stands; nothing for another number or a refused slip.
///
/// ```
/// use lanecockle::slip;
///
/// let slip = b"HRVHUB30\nEUR\n000000000000100\n\n\n\n\n\n\nHR1210010051863000160\nHR99\n\n\nVoda\n";
/// assert_eq!(slip::field(slip, 14), b"Voda");
/// assert_eq!(slip::field(slip, 1), b"");
/// assert_eq!(slip::field(&slip[1..], 14), b"");
/// ```
pub fn field(slip: &[u8], number: usize) -> &[u8] {
    part(slip, ffi::slip_field(slip, number))
}

/// The amount of an accepted slip in cents, or the slip's refusal.
///
/// ```
/// use lanecockle::slip;
///
/// let slip = b"HRVHUB30\nEUR\n000000000000100\n\n\n\n\n\n\nHR1210010051863000160\nHR99\n\n\nVoda\n";
/// assert_eq!(slip::cents(slip), Ok(100));
/// assert_eq!(slip::cents(b"").unwrap_err().kind.number(), 2);
/// ```
pub fn cents(slip: &[u8]) -> Result<u64, Refusal> {
    value(ffi::slip_cents(slip)).map(|cents| cents as u64)
}

/// Writes the slip of an amount in cents and the fields 4 to 14 at the front of `out`, and nothing behind it; gives how many
/// bytes it has. Refusals: those of [`read`] for the fields 3 to 14 (10^15 cents or more are 4), the byte of a 3 counted
/// within its field and 0 otherwise; then 15 with the needed number of bytes.
///
/// ```
/// use lanecockle::{slip, Kind};
///
/// let mut fields: [&[u8]; 11] = [b""; 11];
/// fields[10 - 4] = b"HR1210010051863000160";
/// fields[11 - 4] = b"HR99";
/// fields[14 - 4] = b"Voda";
/// let mut out = [0; slip::MOST];
/// let length = slip::write(100, &fields, &mut out)?;
/// assert_eq!(
///     out[..length],
///     *b"HRVHUB30\nEUR\n000000000000100\n\n\n\n\n\n\nHR1210010051863000160\nHR99\n\n\nVoda\n"
/// );
///
/// fields[14 - 4] = b"Voda!";
/// let refusal = slip::write(100, &fields, &mut out).unwrap_err();
/// assert_eq!((refusal.kind, refusal.field, refusal.byte), (Kind::Byte, 14, 4));
/// # Ok::<(), lanecockle::Refusal>(())
/// ```
pub fn write(cents: u64, fields: &[&[u8]; 11], out: &mut [u8]) -> Result<usize, Refusal> {
    value(ffi::slip_write(cents, &ffi::Fields::of(fields), out))
}

/// Writes a slip as [`write()`] does, but each of the fields 4 to 9, 13 and 14 that is given empty is its standing text, as
/// [`standing::text`] answers it of the two sheets. Refusals: 20, also where nothing is taken from a sheet; then those of
/// [`write()`].
///
/// ```
/// use lanecockle::{slip, standing::Sheet, Kind};
///
/// let mut fields: [&[u8]; 11] = [b""; 11];
/// fields[10 - 4] = b"HR1210010051863000160";
/// fields[11 - 4] = b"HR99";
/// let mut out = [0; slip::MOST];
/// let length = slip::write_standing(100, &fields, b"4=OPG HORVAT\n", b"13=WTER\n14=Voda\n", &mut out)?;
/// assert_eq!(
///     out[..length],
///     *b"HRVHUB30\nEUR\n000000000000100\nOPG HORVAT\n\n\n\n\n\nHR1210010051863000160\nHR99\n\nWTER\nVoda\n"
/// );
///
/// let refused = slip::write_standing(100, &fields, b"", b"13=WTER\n14=Voda!\n", &mut out).unwrap_err();
/// assert_eq!((refused.refusal.kind, refused.sheet, refused.refusal.line), (Kind::Sheet, Some(Sheet::Association), 2));
/// # Ok::<(), lanecockle::standing::SheetRefusal>(())
/// ```
pub fn write_standing(
    cents: u64,
    fields: &[&[u8]; 11],
    farm: &[u8],
    association: &[u8],
    out: &mut [u8],
) -> Result<usize, SheetRefusal> {
    let written = ffi::slip_write_standing(cents, &ffi::Fields::of(fields), farm, association, out);
    standing::accepted(written.told, written.sheet).map(|()| written.value)
}
