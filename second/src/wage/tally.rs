//! A tally of groups, orders and their exact total (02, W5).

/// The most groups, and the most orders, that a tally may hold.
pub const MOST_COUNTED: usize = 1_000_000;
/// A total of so many cents or more is too much for a tally, and for a file.
pub const TOO_MUCH_IN_ALL: u128 = 1_000_000_000_000_000_000_000;

#[derive(Clone, Copy, Debug, Default, PartialEq, Eq)]
pub struct Tally {
    pub groups: usize,
    pub orders: usize,
    /// In cents.
    pub total: u128,
}

/// What a right line brings to a tally.
#[derive(Clone, Copy, Debug, PartialEq, Eq)]
pub enum Brought {
    Nothing,
    Group,
    /// An order of so many cents.
    Order(u64),
}

impl Tally {
    /// The tally after a right line, unless it is too full then. One that was
    /// too full before stays so, whatever the line brings.
    pub fn after(self, brought: Brought) -> Option<Tally> {
        let mut next = self;
        match brought {
            Brought::Nothing => {}
            Brought::Group => next.groups = next.groups.saturating_add(1),
            Brought::Order(cents) => {
                next.orders = next.orders.saturating_add(1);
                next.total += u128::from(cents);
            }
        }
        let fits = next.groups <= MOST_COUNTED
            && next.orders <= MOST_COUNTED
            && next.total < TOO_MUCH_IN_ALL;
        fits.then_some(next)
    }
}

#[cfg(test)]
mod tests {
    use super::*;

    const FULL: Tally = Tally {
        groups: MOST_COUNTED,
        orders: MOST_COUNTED,
        total: TOO_MUCH_IN_ALL - 1,
    };

    #[test]
    fn what_a_line_brings() {
        let tally = Tally {
            groups: 3,
            orders: 7,
            total: 1 << 64,
        };
        assert_eq!(tally.after(Brought::Nothing), Some(tally));
        let group = Tally { groups: 4, ..tally };
        assert_eq!(tally.after(Brought::Group), Some(group));
        let order = Tally {
            orders: 8,
            total: (1 << 64) + 5,
            ..tally
        };
        assert_eq!(tally.after(Brought::Order(5)), Some(order));
    }

    #[test]
    fn up_to_the_limits_and_not_beyond() {
        assert_eq!(FULL.after(Brought::Nothing), Some(FULL));
        assert_eq!(FULL.after(Brought::Group), None);
        assert_eq!(FULL.after(Brought::Order(0)), None);
        let short = Tally {
            groups: MOST_COUNTED - 1,
            orders: MOST_COUNTED - 1,
            total: TOO_MUCH_IN_ALL - 3,
        };
        assert!(short.after(Brought::Group).is_some());
        assert!(short.after(Brought::Order(2)).is_some());
        assert_eq!(short.after(Brought::Order(3)), None);
    }

    /// Nothing wraps round to a small number.
    #[test]
    fn too_full_already() {
        for tally in [
            Tally {
                groups: usize::MAX,
                ..FULL
            },
            Tally {
                orders: usize::MAX,
                ..FULL
            },
            Tally {
                total: TOO_MUCH_IN_ALL,
                ..FULL
            },
        ] {
            for brought in [Brought::Nothing, Brought::Group, Brought::Order(1)] {
                assert_eq!(tally.after(brought), None);
            }
        }
    }
}
