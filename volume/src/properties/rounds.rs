//! Round trips at the boundary: written, judged, asked field by field, and
//! written again, all by Lanecockle.

use super::{HUNDRED_THOUSAND, MILLION};
use crate::dice::Dice;
use crate::ffi::{Cents, Ended, Part, Told};
use crate::guard::{Lender, Side};
use crate::lane;
use crate::maker::{Head, Maker};
use crate::trial::{Inputs, Plan, Trial};
use second::generate::{right_day, right_group, right_label, right_order, right_slip, Fields};
use second::slip::TOO_MUCH;
use second::wage::{Type, LINE};

pub fn run(plan: &Plan) {
    let (mut maker, mut lender) = (Maker::new(), Lender::new(1 << 17));
    plan.run("slip round trip", MILLION, |trial| {
        slip(trial, &mut maker, &mut lender);
    });
    plan.run("wage round trip", HUNDRED_THOUSAND, |trial| {
        wage_file(trial, &mut maker, &mut lender);
    });
}

// Slips.

fn slip(trial: &mut Trial, maker: &mut Maker, lender: &mut Lender) {
    let fields = right_slip(&mut trial.dice).split_off(3);
    let cents = trial.dice.roll() % TOO_MUCH;
    let all = fields.concat();
    let first = maker.slip(&mut trial.dice, cents, &fields);
    trial.same(
        "slip_write",
        first.as_ref().err(),
        None,
        &[("fields", &all)],
    );
    let slip = first.unwrap_or_default();

    let side = Side::any(&mut trial.dice);
    let lent = lender.lend(&slip, side);
    let inputs: Inputs = &[("slip", &slip)];
    trial.same("slip_read", lane::slip_read(lent), Told::default(), inputs);
    let read = lane::slip_cents(lent);
    trial.same(
        "slip_cents",
        (read.told.number, read.value),
        (0, cents as usize),
        inputs,
    );
    let asked: Fields = (4..=14)
        .map(|number| part(&slip, lane::slip_field(lent, number)))
        .collect();
    trial.same("slip_field", &asked, &fields, inputs);
    let again = maker.slip(&mut trial.dice, cents, &asked);
    trial.same("slip_write again", again.as_ref(), Ok(&slip), inputs);
    trial.answered(0);
}

/// The bytes of a part; none where it would lie outside.
fn part(bytes: &[u8], part: Part) -> Vec<u8> {
    let end = part.start.saturating_add(part.length);
    bytes.get(part.start..end).unwrap_or_default().to_vec()
}

// Wage files.

/// The fields of a whole file.
struct Sheets {
    day: u64,
    kind: u64,
    label: Fields,
    groups: Vec<Group>,
}

struct Group {
    head: Fields,
    orders: Vec<Fields>,
}

/// Where the amount stands among the fields of an order.
const AMOUNT: usize = 7;

fn number(digits: &[u8]) -> u64 {
    digits.iter().fold(0, |n, b| n * 10 + u64::from(b - b'0'))
}

impl Sheets {
    fn by_dice(dice: &mut Dice) -> Sheets {
        let (day, kind) = (right_day(dice), *dice.pick(&[4, 5]));
        let label = right_label(dice, day, kind);
        let count = *dice.pick(&[1, 1, 1, 2, 3]);
        let mut groups = Vec::new();
        for _ in 0..count {
            let count = *dice.pick(&[1, 1, 2, 3, 5]);
            groups.push(Group {
                head: right_group(dice, day),
                orders: (0..count).map(|_| right_order(dice, kind)).collect(),
            });
        }
        let day = u64::from(day);
        Sheets {
            day,
            kind,
            label,
            groups,
        }
    }

    /// The lines that Lanecockle writes of them.
    fn written(&self, maker: &mut Maker, dice: &mut Dice) -> Result<Vec<u8>, Told> {
        let head = |of| Head {
            of,
            day: self.day,
            kind: self.kind,
        };
        let mut bytes = maker.line(dice, head(Type::Label), &self.label, &[])?;
        for group in &self.groups {
            let mut orders = Vec::new();
            for order in &group.orders {
                orders.extend(maker.line(dice, head(Type::Order), order, &[])?);
            }
            bytes.extend(maker.line(dice, head(Type::Group), &group.head, &orders)?);
            bytes.extend(orders);
        }
        bytes.extend(maker.line(dice, head(Type::Close), &Fields::new(), &[])?);
        Ok(bytes)
    }

    fn counts(&self) -> Ended {
        let orders = self.groups.iter().map(|group| group.orders.len()).sum();
        let amounts = self.groups.iter().flat_map(|group| &group.orders);
        let total = amounts.map(|order| number(&order[AMOUNT])).sum();
        Ended {
            told: Told::default(),
            lines: 2 + self.groups.len() + orders,
            groups: self.groups.len(),
            orders,
            // A few orders stay below 10^18.
            total: Cents {
                high: 0,
                low: total,
            },
        }
    }
}

fn wage_file(trial: &mut Trial, maker: &mut Maker, lender: &mut Lender) {
    let sheets = Sheets::by_dice(&mut trial.dice);
    let all = everything(&sheets);
    let first = sheets.written(maker, &mut trial.dice);
    trial.same("written", first.as_ref().err(), None, &[("fields", &all)]);
    let file = first.unwrap_or_default();

    let side = Side::any(&mut trial.dice);
    let lent = lender.lend(&file, side);
    let inputs: Inputs = &[("day", &sheets.day), ("file", &file)];
    let whole = lane::wage_file(sheets.day, lent);
    trial.same("wage_file", whole, sheets.counts(), inputs);
    let mut record = lane::judge_begin(sheets.day);
    for line in lent.chunks(LINE) {
        record = lane::judge_step(record, line);
    }
    trial.same(
        "judge_end",
        lane::judge_end(record),
        sheets.counts(),
        inputs,
    );

    let asked = asked(&sheets, lent);
    trial.same("wage_place", everything(&asked), all, inputs);
    let again = asked.written(maker, &mut trial.dice);
    trial.same("written again", again.as_ref(), Ok(&file), inputs);
    trial.answered(0);
}

/// The fields of a file, asked place by place.
fn asked(sheets: &Sheets, file: &[u8]) -> Sheets {
    const LABEL: [usize; 8] = [1, 2, 3, 4, 5, 6, 7, 8];
    const HEAD: [usize; 5] = [1, 2, 3, 4, 7];
    const ORDER: [usize; 16] = [1, 2, 5, 6, 7, 8, 9, 10, 11, 12, 18, 19, 20, 21, 22, 23];
    let mut lines = file.chunks(LINE);
    let mut fields = |numbers: &[usize]| -> Fields {
        let line = lines.next().expect("as many lines as were written");
        numbers
            .iter()
            .map(|&number| part(line, lane::wage_place(line, number)))
            .collect()
    };
    Sheets {
        day: sheets.day,
        kind: sheets.kind,
        label: fields(&LABEL),
        groups: sheets
            .groups
            .iter()
            .map(|group| Group {
                head: fields(&HEAD),
                orders: group.orders.iter().map(|_| fields(&ORDER)).collect(),
            })
            .collect(),
    }
}

/// All fields one behind the other, to be compared and shown.
fn everything(sheets: &Sheets) -> Vec<u8> {
    let mut all = sheets.label.concat();
    for group in &sheets.groups {
        all.extend(group.head.concat());
        all.extend(group.orders.concat().concat());
    }
    all
}

/// A right file that Lanecockle wrote.
pub struct Written {
    pub day: u64,
    pub bytes: Vec<u8>,
}

pub fn written_file(maker: &mut Maker, dice: &mut Dice) -> Written {
    let sheets = Sheets::by_dice(dice);
    let bytes = sheets.written(maker, dice);
    Written {
        day: sheets.day,
        bytes: bytes.unwrap_or_default(),
    }
}
