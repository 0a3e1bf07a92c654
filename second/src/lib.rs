//! The ground of document 01 written a second time: check digits, IBAN, OIB,
//! the sixteen reference models, the listing of wet texts, the slip and the
//! wage file; and of document 02, W1: slips in kuna, W2: standing text, W4: the
//! HR69 wage reference, and W5: a wage file's total and the tally.
//!
//! It shares only the formats with the first implementation, so that an answer
//! both give is unlikely to be the same slip of the pen twice.

pub mod account;
pub mod cases;
pub mod checkdigit;
pub mod codes;
pub mod compare;
pub mod generate;
pub mod ledger;
pub mod lent;
pub mod reference;
pub mod refusal;
pub mod slip;
pub mod standing;
pub mod wage;
pub mod wet;
