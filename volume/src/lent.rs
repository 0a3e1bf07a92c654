//! Fields as the header says that they are lent: one text, and their sizes.

use crate::dice::Dice;
use crate::guard::{Lender, Side};
use crate::lane::Lent;
use second::refusal::Refusal;

/// A text of fields one behind the other, and their sizes, right or wrong.
#[derive(Clone)]
pub struct Given {
    pub text: Vec<u8>,
    pub sizes: Vec<usize>,
}

impl Given {
    pub fn new(fields: &[Vec<u8>]) -> Given {
        Given {
            text: fields.concat(),
            sizes: fields.iter().map(Vec::len).collect(),
        }
    }

    /// Sizes that run past the text's end, sizes that leave bytes over, and
    /// others that still make the text: a third of each.
    pub fn mangle(&mut self, dice: &mut Dice) {
        match dice.below(3) {
            0 => self.overrun(dice),
            1 => self.leave_over(dice),
            _ => self.divide(dice),
        }
    }

    /// A size too large, mostly by one, and the last as often as all others; or
    /// a text too short.
    fn overrun(&mut self, dice: &mut Dice) {
        let last = self.sizes.len().saturating_sub(1);
        let any = dice.below(last + 1);
        let place = *dice.pick(&[last, any]);
        let Some(size) = self.sizes.get_mut(place) else {
            return;
        };
        match dice.below(6) {
            0 => *size = *dice.pick(&[140, 1002, usize::MAX, usize::MAX / 2 + 1]),
            1 => self.text.truncate(dice.below(self.text.len() + 1)),
            2 if place < last => {
                // Together they make the text's in 64 bits.
                let both = *size + self.sizes[last];
                self.sizes[place] = usize::MAX;
                self.sizes[last] = both + 1;
            }
            _ => *size += 1,
        }
    }

    /// A size too small or not there, or a byte more, also for a size that is
    /// not read.
    fn leave_over(&mut self, dice: &mut Dice) {
        let place = dice.below(self.sizes.len().max(1));
        match dice.below(4) {
            0 => self.sizes.truncate(place),
            1 => {
                if let Some(size) = self.sizes.get_mut(place) {
                    *size = size.saturating_sub(dice.between(1, 3));
                }
            }
            2 => self.text.push(b' '),
            _ => {
                self.text.push(b' ');
                self.sizes.push(1);
            }
        }
    }

    /// A byte that goes from one field to another, sizes that are not read, the
    /// last fields not there, or a size that belongs to none.
    fn divide(&mut self, dice: &mut Dice) {
        let places = self.sizes.len().max(1);
        let (from, to) = (dice.below(places), dice.below(places));
        let strange = *dice.pick(&[0, 1, 2, 22, 140, 1002, usize::MAX]);
        match dice.below(6) {
            0 => self.sizes.push(strange),
            1 => {
                self.sizes.truncate(from);
                self.text.truncate(self.sizes.iter().sum());
            }
            2 => self.sizes.insert(from, strange),
            _ => {
                if self.sizes.get(from).is_some_and(|&size| size > 0) {
                    self.sizes[from] -= 1;
                    self.sizes[to] += 1;
                }
            }
        }
    }

    /// The fields that these stand for, or second's refusal.
    pub fn fields<const N: usize>(&self) -> Result<[&[u8]; N], Refusal> {
        second::lent::fields(&self.text, &self.sizes)
    }
}

/// The memory that fields are lent from.
pub struct Shelf {
    text: Lender,
    sizes: Lender,
}

impl Shelf {
    pub fn new() -> Shelf {
        Shelf {
            text: Lender::new(8192),
            sizes: Lender::new(4096),
        }
    }

    pub fn lend(&mut self, given: &Given, side: Side) -> Lent<'_> {
        Lent {
            text: self.text.lend(&given.text, side),
            sizes: self.sizes.lend(&given.sizes, side),
        }
    }
}

impl Default for Shelf {
    fn default() -> Self {
        Shelf::new()
    }
}

#[cfg(test)]
mod tests {
    use super::*;

    /// A library that cuts fields or drops bytes would be seen, and so would one
    /// that refuses sizes that fit.
    #[test]
    fn a_fair_share() {
        let mut dice = Dice::new(1);
        let (mut past, mut over, mut fits) = (0, 0, 0);
        for _ in 0..6000 {
            let mut given = Given::new(&["abc", "", "de", "f"].map(|f| f.as_bytes().to_vec()));
            given.mangle(&mut dice);
            let read = given.sizes.iter().take(4).map(|&size| size as u128);
            let (sum, length) = (read.sum::<u128>(), given.text.len() as u128);
            past += usize::from(sum > length);
            over += usize::from(sum < length);
            fits += usize::from(sum == length);
            assert_eq!(given.fields::<4>().is_ok(), sum == length);
        }
        assert!(
            past > 1200 && over > 1200 && fits > 1200,
            "{past} {over} {fits}"
        );
    }
}
