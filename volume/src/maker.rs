//! What Lanecockle itself makes of right fields, in memory between guard pages:
//! inputs of the properties, and round trips.

use crate::dice::Dice;
use crate::ffi::Told;
use crate::guard::{Lender, Room, Side};
use crate::lane;
use crate::lent::{Given, Shelf};
use second::generate::{right_slip, Fields};
use second::slip::{LARGEST, TOO_MUCH};
use second::wage::{Type, LINE};

/// The most orders that are lent to a 301 here.
const MOST_ORDERS: usize = 16;

/// The memory that Lanecockle makes things in.
pub struct Maker {
    shelf: Shelf,
    digits: Lender,
    orders: Lender,
    out: Room,
}

impl Maker {
    pub fn new() -> Maker {
        Maker {
            shelf: Shelf::new(),
            digits: Lender::new(4096),
            orders: Lender::new(MOST_ORDERS * LINE),
            out: Room::new(LINE),
        }
    }

    /// Puts the check digit behind digits that can have one.
    pub fn complete(&mut self, dice: &mut Dice, rule: u32, digits: &mut Vec<u8>) {
        let side = Side::any(dice);
        let made = lane::make_digit(rule, self.digits.lend(digits, side));
        if made.told.number == 0 {
            digits.push(b'0' + made.value as u8);
        }
    }

    /// A slip of fields 4 to 14.
    pub fn slip(
        &mut self,
        dice: &mut Dice,
        cents: u64,
        fields: &[Vec<u8>],
    ) -> Result<Vec<u8>, Told> {
        let side = Side::any(dice);
        let (out, _) = self.out.lend::<u8>(dice, LARGEST, side);
        let lent = self.shelf.lend(&Given::new(fields), side);
        let answer = lane::slip_write(cents, lent, out);
        made(answer.told, out.get(..answer.value).unwrap_or_default())
    }

    /// A slip of right fields.
    pub fn right_slip(&mut self, dice: &mut Dice) -> Vec<u8> {
        let fields = right_slip(dice).split_off(3);
        let cents = dice.roll() % TOO_MUCH;
        self.slip(dice, cents, &fields).unwrap_or_default()
    }

    /// A wage line; only a 301 looks at the orders.
    pub fn line(
        &mut self,
        dice: &mut Dice,
        head: Head,
        fields: &Fields,
        orders: &[u8],
    ) -> Result<Vec<u8>, Told> {
        let side = Side::any(dice);
        let (out, _) = self.out.lend::<u8>(dice, LINE, side);
        let lent = self.shelf.lend(&Given::new(fields), side);
        let Head { of, day, kind } = head;
        let told = match of {
            Type::Label => lane::write_label(day, lent, out),
            Type::Group => {
                let orders = self.orders.lend(orders, side);
                lane::write_group(day, kind, lent, orders, out)
            }
            Type::Order => lane::write_order(day, kind, lent, out),
            Type::Close => lane::write_closing(day, out),
        };
        made(told, out)
    }
}

impl Default for Maker {
    fn default() -> Self {
        Maker::new()
    }
}

/// What a line is, and what it is written for.
#[derive(Clone, Copy)]
pub struct Head {
    pub of: Type,
    pub day: u64,
    pub kind: u64,
}

fn made(told: Told, bytes: &[u8]) -> Result<Vec<u8>, Told> {
    match told.number {
        0 => Ok(bytes.to_vec()),
        _ => Err(told),
    }
}
