//! Tallies and totals by dice: small ones, about their limits, and numbers that
//! nobody would write.

use super::Dice;
use crate::wage::record::{Cents, Tally};
use crate::wage::{MOST_COUNTED, TOO_MUCH_IN_ALL};

const BASE: u64 = 1_000_000_000_000_000_000;

/// A tally that is lent to a step over an order of so many cents.
pub fn lent_tally(dice: &mut Dice, cents: u64) -> Tally {
    let mut tally = Tally {
        groups: dice.below(1_000),
        orders: dice.below(1_000),
        total: Cents::in_all(u128::from(dice.roll() % 1_000_000_000_000)),
    };
    match dice.below(10) {
        0 | 1 => tally.groups = counted(dice),
        2 | 3 => tally.orders = counted(dice),
        4..=6 => tally.total = total(dice, cents),
        7 => {
            tally = Tally {
                groups: counted(dice),
                orders: counted(dice),
                total: total(dice, cents),
            };
        }
        _ => {}
    }
    tally
}

/// About 1,000,000, the largest, or anything.
pub fn counted(dice: &mut Dice) -> usize {
    match dice.below(8) {
        0 => dice.roll() as usize,
        1 => *dice.pick(&[usize::MAX, usize::MAX - 1, 1 << 32, 1 << 63]),
        _ => MOST_COUNTED - 2 + dice.below(4),
    }
}

/// A total before an order of so many cents: about 10^21 or what leaves no more
/// than the order, about 10^20, 2^64 or 10^18, or numbers as they come.
pub fn total(dice: &mut Dice, cents: u64) -> Cents {
    let some = u128::from(dice.roll() % 4);
    match dice.below(12) {
        0..=2 => about(TOO_MUCH_IN_ALL + 2 - some - u128::from(cents)),
        3 => about(TOO_MUCH_IN_ALL + 1 - some),
        4 => about(TOO_MUCH_IN_ALL - u128::from(dice.roll() % 2_000_000_000_000_000)),
        5 => about(TOO_MUCH_IN_ALL / 10 + 1 - some),
        6 => about(u128::from(u64::MAX) + 2 - some),
        7 => about(u128::from(BASE) + 1 - some),
        8 => Cents {
            high: *dice.pick(&[0, 1, 980, 981, 982, 983, 999, 1000]),
            low: u64::MAX - dice.roll() % 3,
        },
        9 => Cents {
            high: 998 + dice.roll() % 3,
            low: BASE - 2 + dice.roll() % 4,
        },
        10 => Cents {
            high: dice.roll() % 1_000,
            low: dice.roll(),
        },
        _ => Cents {
            high: *dice.pick(&[0, u64::MAX, u64::MAX - 1, 1 << 63]),
            low: dice.roll() | 1 << 63,
        },
    }
}

/// As a judge writes it: the limit is not cut off.
fn about(cents: u128) -> Cents {
    Cents::up_to(2 * TOO_MUCH_IN_ALL, cents)
}

#[cfg(test)]
mod tests {
    use super::*;
    use crate::wage::{Brought, Tally as Counted};

    /// Tallies from which the order can be taken, by each limit and at its very
    /// edge, and those from which it cannot.
    #[test]
    fn on_both_sides_of_each_limit() {
        let mut dice = Dice::new(1);
        let cents = 123_456_789;
        let (mut taken, mut groups, mut orders, mut totals, mut edges, mut odd) =
            (0, 0, 0, 0, 0, 0);
        for _ in 0..20_000 {
            let lent = lent_tally(&mut dice, cents);
            let tally = Counted {
                groups: lent.groups,
                orders: lent.orders,
                total: lent.total.value(),
            };
            match tally.after(Brought::Order(cents)) {
                Some(next) => {
                    taken += 1;
                    edges += usize::from(next.total == TOO_MUCH_IN_ALL - 1);
                    odd += usize::from(lent.total.low >= BASE);
                }
                None if tally.groups > MOST_COUNTED => groups += 1,
                None if tally.orders >= MOST_COUNTED => orders += 1,
                None => totals += 1,
            }
        }
        assert!(taken > 8_000, "{taken}");
        for met in [groups, orders, totals, edges, odd] {
            assert!(met > 200, "{groups} {orders} {totals} {edges} {odd}");
        }
    }
}
