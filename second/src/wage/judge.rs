//! The judge of a wage file, who is shown one line after another.

use super::date::is_date;
use super::fields::{self, Declared, Kind};
use super::layout::{parts, Line, Type, GROUP, LABEL, LINE, ORDER};
use super::tally::{Brought, Tally};
use crate::refusal::{Reason, Refusal};
use std::fmt;

pub const MOST_LINES: usize = 1_000_000;

#[derive(Clone, Copy, Debug)]
pub struct Judge {
    /// The day of submission; a date unless that is what was refused.
    day: u32,
    condition: Condition,
    told: Accepted,
}

/// What an accepted file holds.
#[derive(Clone, Copy, Debug, Default, PartialEq, Eq)]
pub struct Accepted {
    pub lines: usize,
    pub groups: usize,
    pub orders: usize,
    /// What its orders come to, in cents.
    pub total: u128,
}

/// As the file program says it, which does not tell the total.
impl fmt::Display for Accepted {
    fn fmt(&self, f: &mut fmt::Formatter<'_>) -> fmt::Result {
        write!(
            f,
            "accepted {} lines {} groups {} orders",
            self.lines, self.groups, self.orders
        )
    }
}

/// Where a judge stands.
#[derive(Clone, Copy, Debug)]
pub enum Condition {
    Fresh,
    Labelled(Kind),
    InGroup(Kind, Open),
    Closed,
    Refused(Refusal),
}

/// A group whose end has not come.
#[derive(Clone, Copy, Debug)]
pub struct Open {
    pub declared: Declared,
    pub orders: u32,
    pub sum: u128,
}

impl Judge {
    pub fn begin(day: u32) -> Judge {
        Judge {
            day,
            condition: if is_date(day) {
                Condition::Fresh
            } else {
                Condition::Refused(Reason::Date.into())
            },
            told: Accepted::default(),
        }
    }

    /// A judge who stands anywhere.
    pub fn from_parts(day: u32, condition: Condition, told: Accepted) -> Judge {
        Judge {
            day,
            condition,
            told,
        }
    }

    pub fn condition(&self) -> &Condition {
        &self.condition
    }

    /// What was read so far.
    pub fn counts(&self) -> Accepted {
        self.told
    }

    /// The first refusal, if there was one.
    pub fn refusal(&self) -> Option<Refusal> {
        match self.condition {
            Condition::Refused(refusal) => Some(refusal),
            _ => None,
        }
    }

    /// Reads the next line. Once it has refused, it gives that refusal again.
    pub fn step(&mut self, bytes: &[u8]) -> Result<(), Refusal> {
        self.take(bytes).map(drop)
    }

    /// Reads the next line, and brings the tally up to date. A refused line
    /// leaves the tally as it stood. 29 is the last of the refusals: the line
    /// is right, but would leave the tally too full, and is not taken.
    pub fn step_tally(&mut self, bytes: &[u8], tally: &mut Tally) -> Result<(), Refusal> {
        let before = *self;
        let brought = self.take(bytes)?;
        let Some(next) = tally.after(brought) else {
            let refusal = Refusal::from(Reason::Overfull).in_line(before.told.lines + 1);
            *self = Judge {
                condition: Condition::Refused(refusal),
                ..before
            };
            return Err(refusal);
        };
        *tally = next;
        Ok(())
    }

    fn take(&mut self, bytes: &[u8]) -> Result<Brought, Refusal> {
        if let Some(refusal) = self.refusal() {
            return Err(refusal);
        }
        let number = self.told.lines + 1;
        let brought = self.read(number, bytes).map_err(|refusal| {
            let refusal = refusal.in_line(number);
            self.condition = Condition::Refused(refusal);
            refusal
        })?;
        self.told.lines = number;
        Ok(brought)
    }

    /// What all the lines together come to. It changes nothing.
    pub fn end(&self) -> Result<Accepted, Refusal> {
        match self.condition {
            Condition::Closed => Ok(self.told),
            Condition::Refused(refusal) => Err(refusal),
            _ => Err(Refusal::from(Reason::Unfinished).in_line(self.told.lines + 1)),
        }
    }

    fn read(&mut self, number: usize, bytes: &[u8]) -> Result<Brought, Refusal> {
        if number > MOST_LINES {
            return Err(Reason::Lines.into());
        }
        let (line, found) = Type::of(bytes)?;
        match (&mut self.condition, found) {
            (Condition::InGroup(kind, open), Type::Order) => {
                if open.orders >= open.declared.orders {
                    return Err(Reason::Orders.into());
                }
                let cents = fields::order(&parts(line, &ORDER), *kind)?;
                open.sum += u128::from(cents);
                open.orders += 1;
                self.told.orders += 1;
                self.told.total += u128::from(cents);
                Ok(Brought::Order(cents))
            }
            (&mut Condition::InGroup(kind, open), Type::Group) => {
                open.closes()?;
                self.begin_group(kind, line)
            }
            (Condition::InGroup(_, open), Type::Close) => {
                open.closes()?;
                self.condition = Condition::Closed;
                Ok(Brought::Nothing)
            }
            (&mut Condition::Labelled(kind), Type::Group) => self.begin_group(kind, line),
            (Condition::Fresh, Type::Label) => {
                let kind = fields::label(&parts(line, &LABEL), self.day)?;
                self.condition = Condition::Labelled(kind);
                Ok(Brought::Nothing)
            }
            _ => Err(Reason::Type.into()),
        }
    }

    fn begin_group(&mut self, kind: Kind, line: &Line) -> Result<Brought, Refusal> {
        let open = Open {
            declared: fields::group(&parts(line, &GROUP), self.day)?,
            orders: 0,
            sum: 0,
        };
        self.condition = Condition::InGroup(kind, open);
        self.told.groups += 1;
        Ok(Brought::Group)
    }
}

impl Open {
    /// Whether another group or the end may follow: 10, 12, 13.
    fn closes(&self) -> Result<(), Refusal> {
        if self.orders == 0 {
            return Err(Reason::Type.into());
        }
        if self.orders != self.declared.orders {
            return Err(Reason::Orders.into());
        }
        if self.sum != self.declared.sum {
            return Err(Reason::Sum.into());
        }
        Ok(())
    }
}

/// Judges a file that is there as a whole.
pub fn whole(day: u32, file: &[u8]) -> Result<Accepted, Refusal> {
    let mut judge = Judge::begin(day);
    for line in file.chunks(LINE) {
        judge.step(line)?;
    }
    judge.end()
}
