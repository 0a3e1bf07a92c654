//! The wage file of 004, narrowed by 01: a label (300), groups of a head (301)
//! and its orders (309), and an end (399), in lines of 1,000 bytes and CR LF;
//! and of 02, W5: its total, and the tally that is lent to each step.
//!
//! A field is judged in one way only, whether it stands in a line that is read
//! or is handed in to be written: `fields` takes the bytes of each field alone.

mod date;
mod fields;
mod judge;
mod layout;
mod program;
pub mod record;
mod tally;
mod writer;

pub use date::is_date;
pub use fields::{Declared, Kind};
pub use judge::{whole, Accepted, Condition, Judge, Open, MOST_LINES};
pub use layout::{place, places, Line, Place, Type, GROUP, LABEL, LINE, ORDER, TYPE};
pub use program::program;
pub use tally::{Brought, Tally, MOST_COUNTED, TOO_MUCH_IN_ALL};
pub use writer::{write_close, write_group, write_label, write_order, MOST_ORDERS};

#[cfg(test)]
mod tests;
