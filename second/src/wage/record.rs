//! The judge's record and the tally as plain numbers, as a caller in another
//! language keeps them: whoever made them up, a step and the end have an answer.

use super::fields::{Declared, Kind};
use super::judge::{Accepted, Condition, Judge, Open, MOST_LINES};
use super::tally::{self, TOO_MUCH_IN_ALL};
use crate::refusal::{Reason, Refusal};

/// A group's sum of so many cents or more has no twenty digits.
pub const TOO_MUCH: u128 = 100_000_000_000_000_000_000;
const BASE: u128 = 1_000_000_000_000_000_000;

/// Cents in two numbers: `high` times 10^18, and `low`.
#[derive(Clone, Copy, Debug, Default, PartialEq, Eq)]
pub struct Cents {
    pub high: u64,
    pub low: u64,
}

impl Cents {
    pub fn value(self) -> u128 {
        u128::from(self.high) * BASE + u128::from(self.low)
    }

    /// `low` below 10^18; the limit stands for all above it too.
    pub fn up_to(limit: u128, value: u128) -> Cents {
        let value = value.min(limit);
        Cents {
            high: (value / BASE) as u64,
            low: (value % BASE) as u64,
        }
    }

    /// A group's sum.
    pub fn of_group(value: u128) -> Cents {
        Cents::up_to(TOO_MUCH, value)
    }

    /// The total of a file or a tally.
    pub fn in_all(value: u128) -> Cents {
        Cents::up_to(TOO_MUCH_IN_ALL, value)
    }
}

/// The tally that a caller lends.
#[derive(Clone, Copy, Debug, Default, PartialEq, Eq)]
pub struct Tally {
    pub groups: usize,
    pub orders: usize,
    pub total: Cents,
}

impl Tally {
    fn value(self) -> tally::Tally {
        tally::Tally {
            groups: self.groups,
            orders: self.orders,
            total: self.total.value(),
        }
    }

    /// The same numbers but for what a line has brought: only an order writes
    /// the total anew.
    fn brought_to(self, value: tally::Tally) -> Tally {
        let total = if value.orders > self.orders {
            Cents::in_all(value.total)
        } else {
            self.total
        };
        Tally {
            groups: value.groups,
            orders: value.orders,
            total,
        }
    }
}

/// What an accepted file comes to, its total in the numbers of its record.
#[derive(Clone, Copy, Debug, Default, PartialEq, Eq)]
pub struct Ended {
    pub lines: usize,
    pub groups: usize,
    pub orders: usize,
    pub total: Cents,
}

impl From<Accepted> for Ended {
    fn from(accepted: Accepted) -> Self {
        Ended {
            lines: accepted.lines,
            groups: accepted.groups,
            orders: accepted.orders,
            total: Cents::in_all(accepted.total),
        }
    }
}

/// What a record says of its refusal, whatever the numbers.
#[derive(Clone, Copy, Debug, Default, PartialEq, Eq)]
pub struct Told {
    pub number: usize,
    pub line: usize,
    pub field: usize,
    pub byte: usize,
    pub needed: usize,
}

impl Told {
    /// The needed number is told for 15 alone.
    pub fn of(refusal: Refusal) -> Told {
        let (byte, needed) = match refusal.reason {
            Reason::Room => (0, refusal.detail),
            _ => (refusal.detail, 0),
        };
        Told {
            number: usize::from(refusal.number()),
            line: refusal.line,
            field: refusal.field,
            byte,
            needed,
        }
    }

    /// What is told of a refused record. One without a number of a refusal is
    /// 17, and no other than 15 needs anything.
    fn of_refused(self) -> Told {
        let number = match self.number {
            1..=17 | 20 | 28 | 29 => self.number,
            _ => Reason::Lines as usize,
        };
        let needed = match number {
            15 => self.needed,
            _ => 0,
        };
        Told {
            number,
            needed,
            ..self
        }
    }
}

pub const FRESH: usize = 0;
pub const LABELLED: usize = 1;
pub const GROUPED: usize = 2;
pub const CLOSED: usize = 3;
pub const REFUSED: usize = 4;

#[derive(Clone, Copy, Debug, Default, PartialEq, Eq)]
pub struct Record {
    pub condition: usize,
    pub told: Told,
    pub day: u64,
    pub kind: u64,
    pub lines: usize,
    pub groups: usize,
    pub orders: usize,
    /// What all orders of the file came to so far.
    pub file_total: Cents,
    pub declared: u64,
    pub promised: Cents,
    pub counted: u64,
    pub total: Cents,
}

impl Record {
    pub fn begin(day: u64) -> Record {
        let judge = Judge::begin(day_of(day));
        let record = Record {
            day,
            ..Record::default()
        };
        match judge.refusal() {
            Some(refusal) => record.refused(Told::of(refusal)),
            None => record,
        }
    }

    /// The record after one line. What the line does not speak of stays as it
    /// stood, and a refused line changes nothing but the condition.
    pub fn step(self, line: &[u8]) -> Record {
        self.stepped(|judge| judge.step(line))
    }

    /// The record after one line, and the tally brought up to date; a refused
    /// line leaves every number of the tally.
    pub fn step_tally(self, line: &[u8], lent: &mut Tally) -> Record {
        let mut value = lent.value();
        let next = self.stepped(|judge| judge.step_tally(line, &mut value));
        if next.condition != REFUSED {
            *lent = lent.brought_to(value);
        }
        next
    }

    fn stepped(self, step: impl FnOnce(&mut Judge) -> Result<(), Refusal>) -> Record {
        let mut judge = match self.judge() {
            Ok(judge) => judge,
            Err(told) => return self.refused(told),
        };
        match step(&mut judge) {
            Ok(()) => self.brought_to(&judge),
            Err(refusal) => self.refused(Told::of(refusal)),
        }
    }

    /// The same record but for what a line has brought to its judge.
    fn brought_to(self, judge: &Judge) -> Record {
        let counts = judge.counts();
        let mut next = Record {
            told: Told::default(),
            lines: counts.lines,
            groups: counts.groups,
            orders: counts.orders,
            ..self
        };
        if counts.orders > self.orders {
            next.file_total = Cents::in_all(counts.total);
        }
        match *judge.condition() {
            Condition::Labelled(kind) => {
                next.condition = LABELLED;
                next.kind = match kind {
                    Kind::Wages => 4,
                    Kind::Deductions => 5,
                };
            }
            Condition::InGroup(_, open) => {
                next.condition = GROUPED;
                if counts.groups > self.groups {
                    next.declared = u64::from(open.declared.orders);
                    next.promised = Cents::of_group(open.declared.sum);
                }
                next.counted = u64::from(open.orders);
                next.total = Cents::of_group(open.sum);
            }
            _ => next.condition = CLOSED,
        }
        next
    }

    /// The record after the lines of a part of a file.
    pub fn steps(self, bytes: &[u8]) -> Record {
        bytes
            .chunks(super::LINE)
            .fold(self.told_once(), |record, line| record.step(line))
    }

    /// The same record with nothing told unless it is refused, and one in no
    /// known condition refused for that.
    fn told_once(self) -> Record {
        match self.condition {
            ..REFUSED => Record {
                told: Told::default(),
                ..self
            },
            REFUSED => self.refused(self.told.of_refused()),
            _ => self.refused(beyond()),
        }
    }

    /// An accepted file's total is told as it stands in the record.
    pub fn end(self) -> Result<Ended, Told> {
        let accepted = self.judge()?.end().map_err(Told::of)?;
        Ok(Ended {
            total: self.file_total,
            ..accepted.into()
        })
    }

    /// Whether no count is above 1,000,000, no sum of the group 10^20 or more,
    /// and the file's total not 10^21 or more.
    fn is_sound(&self) -> bool {
        let counts = [self.lines, self.groups, self.orders].map(|n| n as u64);
        let most = MOST_LINES as u64;
        counts.iter().all(|&n| n <= most)
            && self.declared <= most
            && self.counted <= most
            && self.promised.value() < TOO_MUCH
            && self.total.value() < TOO_MUCH
            && self.file_total.value() < TOO_MUCH_IN_ALL
    }

    /// The judge that the record stands for, or what it is refused with.
    fn judge(&self) -> Result<Judge, Told> {
        if self.condition == REFUSED {
            return Err(self.told.of_refused());
        }
        if self.condition > REFUSED || !self.is_sound() {
            return Err(beyond());
        }
        let kind = Kind::of(self.kind).unwrap_or(Kind::Wages);
        let condition = match self.condition {
            FRESH => Condition::Fresh,
            LABELLED => Condition::Labelled(kind),
            GROUPED => Condition::InGroup(
                kind,
                Open {
                    declared: Declared {
                        orders: self.declared as u32,
                        sum: self.promised.value(),
                    },
                    orders: self.counted as u32,
                    sum: self.total.value(),
                },
            ),
            _ => Condition::Closed,
        };
        let counts = Accepted {
            lines: self.lines,
            groups: self.groups,
            orders: self.orders,
            total: self.file_total.value(),
        };
        Ok(Judge::from_parts(day_of(self.day), condition, counts))
    }

    fn refused(self, told: Told) -> Record {
        Record {
            condition: REFUSED,
            told,
            ..self
        }
    }
}

/// 17, at the line that it names.
fn beyond() -> Told {
    Told::of(Refusal::from(Reason::Lines).in_line(MOST_LINES + 1))
}

/// What is no u32 is no date, and later than all of them.
fn day_of(day: u64) -> u32 {
    u32::try_from(day).unwrap_or(u32::MAX)
}

#[cfg(test)]
mod tests {
    use super::*;
    use crate::generate::{right_wage_file, wage_input, Dice};
    use crate::wage::{whole, LINE};

    /// Through the plain numbers, step by step, as the judge himself.
    #[test]
    fn as_the_judge() {
        let mut dice = Dice::new(1);
        for _ in 0..300 {
            let file = right_wage_file(&mut dice);
            let input = wage_input(&mut dice);
            for bytes in [file.lines.as_flattened(), &input[9.min(input.len())..]] {
                let record = Record::begin(u64::from(file.day)).steps(bytes);
                let expected = whole(file.day, bytes).map(Ended::from).map_err(Told::of);
                assert_eq!(record.end(), expected);
            }
        }
    }

    #[test]
    fn made_up_records() {
        let beyond = Told {
            number: 17,
            line: 1_000_001,
            ..Told::default()
        };
        let sound = Record {
            condition: GROUPED,
            day: 20240229,
            kind: 4,
            lines: 1_000_000,
            groups: 1_000_000,
            orders: 1_000_000,
            file_total: Cents {
                high: 981,
                low: u64::MAX,
            },
            declared: 1_000_000,
            promised: Cents { high: 99, low: 0 },
            counted: 1_000_000,
            total: Cents {
                high: 81,
                low: u64::MAX,
            },
            ..Record::default()
        };
        assert_eq!(sound.end().unwrap_err().number, 14);
        assert_eq!(sound.end().unwrap_err().line, 1_000_001);
        assert_eq!(sound.step(b"").told, beyond);
        for broken in [
            Record {
                condition: 5,
                ..sound
            },
            Record {
                lines: 1_000_001,
                ..sound
            },
            Record {
                groups: 1_000_001,
                ..sound
            },
            Record {
                orders: usize::MAX,
                ..sound
            },
            Record {
                declared: 1_000_001,
                ..sound
            },
            Record {
                counted: u64::MAX,
                ..sound
            },
            Record {
                promised: Cents { high: 100, low: 0 },
                ..sound
            },
            Record {
                total: Cents {
                    high: 82,
                    low: u64::MAX,
                },
                ..sound
            },
            Record {
                file_total: Cents { high: 1000, low: 0 },
                ..sound
            },
            Record {
                file_total: Cents {
                    high: 982,
                    low: u64::MAX,
                },
                ..sound
            },
        ] {
            assert_eq!(broken.end(), Err(beyond));
            let after = broken.step(&[0; LINE]);
            assert_eq!(
                after,
                Record {
                    condition: REFUSED,
                    told: beyond,
                    ..broken
                }
            );
            assert_eq!(after.step(b"x"), after);
            assert_eq!(after.steps(b""), after);
        }
        let told = Record {
            told: beyond,
            ..sound
        };
        assert_eq!(told.steps(b""), sound);
        let nowhere = Record {
            condition: 5,
            ..sound
        };
        assert_eq!(nowhere.steps(b"").told, beyond);
        let refused = Record {
            condition: REFUSED,
            told: Told {
                number: 15,
                line: 1,
                field: 2,
                byte: 3,
                needed: 4,
            },
            lines: usize::MAX,
            ..sound
        };
        assert_eq!(refused.step(b""), refused);
        assert_eq!(refused.end(), Err(refused.told));
        for number in [1, 17, 20, 28, 29] {
            let mut known = refused;
            known.told = Told {
                number,
                needed: 0,
                ..refused.told
            };
            assert_eq!(known.step(b""), known);
            assert_eq!(known.end(), Err(known.told));
        }
        for number in [0, 18, 19, 21, 27, 30, 256 + 20, usize::MAX] {
            let strange = Record {
                told: Told {
                    number,
                    ..refused.told
                },
                ..refused
            };
            let expected = Told {
                number: 17,
                needed: 0,
                ..refused.told
            };
            assert_eq!(strange.end(), Err(expected));
            assert_eq!(strange.step(b"").told, expected);
        }
    }

    /// A label of the day that was made up is still no label of a date.
    #[test]
    fn a_day_that_is_no_date() {
        let mut dice = Dice::new(2);
        let file = right_wage_file(&mut dice);
        let mut line = file.lines[0];
        line[..8].copy_from_slice(b"20280230");
        let record = Record {
            day: 20280230,
            ..Record::default()
        };
        let told = record.step(&line).told;
        assert_eq!((told.number, told.line, told.field), (11, 1, 1));
    }

    #[test]
    fn cents_in_two_numbers() {
        for value in [
            0,
            1,
            BASE - 1,
            BASE,
            u128::from(u64::MAX),
            TOO_MUCH - 1,
            TOO_MUCH,
        ] {
            for cents in [Cents::of_group(value), Cents::in_all(value)] {
                assert_eq!(cents.value(), value);
                assert!(u128::from(cents.low) < BASE);
            }
        }
        let limit = Cents { high: 100, low: 0 };
        assert_eq!(Cents::of_group(TOO_MUCH + 1), limit);
        assert_eq!(Cents::in_all(TOO_MUCH + 1), Cents { low: 1, ..limit });
        let limit = Cents { high: 1000, low: 0 };
        assert_eq!(Cents::in_all(TOO_MUCH_IN_ALL), limit);
        assert_eq!(Cents::in_all(TOO_MUCH_IN_ALL + 1), limit);
        let most = Cents {
            high: u64::MAX,
            low: u64::MAX,
        };
        assert_eq!(most.value() % BASE, u128::from(u64::MAX) % BASE);
    }
}
