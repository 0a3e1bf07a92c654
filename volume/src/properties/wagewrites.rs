//! Wage lines written: 300, 301, 309 and 399.

use super::wages::line;
use super::MILLION;
use crate::dice::Dice;
use crate::ffi::Told;
use crate::guard::{Lender, Room, Side};
use crate::lane;
use crate::lent::{Given, Shelf};
use crate::maker::Maker;
use crate::trial::{told, Inputs, Plan, Trial};
use second::generate::{right_day, right_order, slices, spoilt_line};
use second::refusal::Refusal;
use second::wage::{write_close, write_group, write_label, write_order, Type, LINE};

/// The largest room that is lent.
const LARGEST: usize = 1100;
/// Orders that a 301 is given: one more than it can declare.
const TOO_MANY: usize = 100_000;

struct Desk {
    shelf: Shelf,
    orders: Lender,
    out: Room,
}

/// What a writer is asked for.
struct Asked {
    of: Type,
    day: u64,
    kind: u64,
    given: Given,
    orders: Vec<u8>,
}

pub fn run(plan: &Plan) {
    let mut maker = Maker::new();
    let mut desk = Desk {
        shelf: Shelf::new(),
        orders: Lender::new(16 * LINE),
        out: Room::new(LARGEST),
    };
    for (property, of) in [
        ("300 written", Type::Label),
        ("301 written", Type::Group),
        ("309 written", Type::Order),
        ("399 written", Type::Close),
    ] {
        plan.run(property, MILLION, |trial| {
            let asked = asked(&mut maker, &mut trial.dice, of);
            one(trial, &mut desk, &asked);
        });
    }
    let mut desk = Desk {
        orders: Lender::new(TOO_MANY * LINE),
        ..desk
    };
    plan.run("301 of many orders", 10, |trial| {
        let asked = of_many(trial.number(), &mut trial.dice);
        one(trial, &mut desk, &asked);
    });
}

fn one(trial: &mut Trial, desk: &mut Desk, asked: &Asked) {
    let dice = &mut trial.dice;
    let size = match dice.below(8) {
        0 => dice.below(LINE),
        1 => 0,
        2 => LINE - 1,
        3 => dice.between(LINE, LARGEST),
        4 => LINE + 1,
        _ => LINE,
    };
    let side = Side::any(dice);
    let (out, before) = desk.out.lend::<u8>(dice, size, side);
    let fields = desk.shelf.lend(&asked.given, side);
    let orders = desk.orders.lend(&asked.orders, side);
    let (day, kind) = (asked.day, asked.kind);
    let ours: Told = match asked.of {
        Type::Label => lane::write_label(day, fields, out),
        Type::Group => lane::write_group(day, kind, fields, orders, out),
        Type::Order => lane::write_order(day, kind, fields, out),
        Type::Close => lane::write_closing(day, out),
    };
    let mut expected = before.to_vec();
    let theirs = second_writes(asked, &mut expected);
    let sizes = &asked.given.sizes[..];
    let inputs: Inputs = &[
        ("day", &day),
        ("kind", &kind),
        ("text", &asked.given.text),
        ("sizes", &sizes),
        ("orders", &orders),
        ("room", &size),
    ];
    let call = std::str::from_utf8(asked.of.digits()).expect("digits");
    trial.same(call, ours, told(&theirs), inputs);
    let written = if theirs.is_ok() { LINE } else { 0 };
    trial.same_room(call, out, before, &expected[..written], inputs);
    trial.answered(ours.number);
}

fn second_writes(asked: &Asked, room: &mut [u8]) -> Result<(), Refusal> {
    // What is no u32 is no date.
    let day = u32::try_from(asked.day).unwrap_or(0);
    let (kind, given) = (asked.kind, &asked.given);
    match asked.of {
        Type::Label => write_label(day, &given.fields()?, room),
        Type::Group => write_group(day, kind, &given.fields()?, &asked.orders, room),
        Type::Order => write_order(day, kind, &given.fields()?, room),
        Type::Close => write_close(day, room),
    }
}

fn asked(maker: &mut Maker, dice: &mut Dice, of: Type) -> Asked {
    let (day, kind) = (right_day(dice), *dice.pick(&[4, 5]));
    let wrong = *dice.pick(&[0, 0, 0, 1, 1, 2, 3]);
    let mut given = Given::new(&spoilt_line(dice, of, day, kind, wrong));
    if dice.one_in(6) {
        given.mangle(dice);
    }
    let orders = match of {
        Type::Group => group(maker, dice, day, kind),
        _ => Vec::new(),
    };
    let day = match dice.below(24) {
        0 => *dice.pick(&[0, 20_230_229, 20_221_231, 100_000_101, 1 << 32, u64::MAX]),
        1 => u64::from(day) + (1 << 32),
        2 => u64::from(day) + 1,
        _ => u64::from(day),
    };
    let kind = match dice.below(24) {
        0 => *dice.pick(&[0, 3, 6, 52, 260, (1 << 32) + 4, u64::MAX]),
        1 => 9 - kind,
        _ => kind,
    };
    Asked {
        of,
        day,
        kind,
        given,
        orders,
    }
}

/// The orders of a group, mostly right.
fn group(maker: &mut Maker, dice: &mut Dice, day: u32, kind: u64) -> Vec<u8> {
    let mut orders = Vec::new();
    for _ in 0..*dice.pick(&[0, 1, 1, 1, 2, 2, 3, 6]) {
        if dice.one_in(4) {
            let of = *dice.pick(&[
                Type::Order,
                Type::Order,
                Type::Order,
                Type::Close,
                Type::Group,
            ]);
            orders.extend(line(maker, dice, of, day, kind));
        } else {
            orders.extend(right_line(dice, day, kind));
        }
    }
    if dice.one_in(16) {
        orders.truncate(dice.below(orders.len() + 1));
    }
    orders
}

fn right_line(dice: &mut Dice, day: u32, kind: u64) -> [u8; LINE] {
    let mut line = [0; LINE];
    let fields = right_order(dice, kind);
    write_order(day, kind, &slices(&fields), &mut line).expect("right");
    line
}

/// About as many orders as a 301 can declare, one of them perhaps wrong.
fn of_many(number: u64, dice: &mut Dice) -> Asked {
    let (day, kind) = (right_day(dice), 4);
    let count = match number % 2 {
        0 => TOO_MANY - 1,
        _ => TOO_MANY,
    };
    let some: Vec<[u8; LINE]> = (0..50).map(|_| right_line(dice, day, kind)).collect();
    let mut orders = Vec::with_capacity(count * LINE);
    for line in some.iter().cycle().take(count) {
        orders.extend_from_slice(line);
    }
    if number.is_multiple_of(4) {
        let place = orders.len() - 1 - dice.below(1000);
        orders[place] ^= 1;
    }
    Asked {
        of: Type::Group,
        day: u64::from(day),
        kind,
        given: Given::new(&spoilt_line(dice, Type::Group, day, kind, 0)),
        orders,
    }
}
