//! Wage cases by dice: little scenes at the desk.

use super::tallies::{lent_tally, total};
use super::wages::{right_day, right_group, right_label, right_order, spoil, Fields};
use super::Dice;
use crate::wage::record::{Cents, Tally};
use crate::wage::{places, Type, LINE};
use std::io::{self, Write};

/// Bytes that are poked into a line.
const POKED: &[u8] = b"\0\r 0123456789/:@AHRZ[`az{-.,|\x7f\x80\x89\x8a\x8b\x9a\x9e\xc6\xd0\xf0\xff";

/// `count` commands.
pub fn wage_cases(seed: u64, count: usize, mut output: impl Write) -> io::Result<()> {
    let mut dice = Dice::new(seed);
    let mut commands = Vec::new();
    while commands.len() < count {
        scene(&mut dice, &mut commands);
    }
    for command in &commands[..count] {
        debug_assert!(!command.contains(&b'\n'));
        output.write_all(command)?;
        output.write_all(b"\n")?;
    }
    output.flush()
}

type Commands = Vec<Vec<u8>>;

fn scene(dice: &mut Dice, commands: &mut Commands) {
    let day = right_day(dice);
    let kind = *dice.pick(&[4, 5]);
    match dice.below(22) {
        0..=3 => file(dice, commands, day, kind),
        4..=13 => lines(dice, commands, day, kind),
        14..=16 => group(dice, commands, day, kind),
        17 => queries(dice, commands, day, kind),
        18 => rooms(dice, commands, day, kind),
        19 | 20 => tallied(dice, commands, day, kind),
        _ => odd(dice, commands),
    }
}

fn say(commands: &mut Commands, command: &str) {
    commands.push(command.as_bytes().to_vec());
}

/// A question that writes a line of these fields.
fn written(head: String, fields: Fields) -> Vec<u8> {
    let mut command = head.into_bytes();
    for field in fields {
        command.push(b'|');
        // Neither the end of a field nor that of a question can stand in one.
        command.extend(field.iter().map(|b| match b {
            b'\n' => 0x0b,
            b'|' => b'!',
            &b => b,
        }));
    }
    command
}

/// What a write is given besides its fields: the room, and how many of the kept
/// bytes are a 301's group.
#[derive(Clone, Copy)]
struct Lent {
    room: usize,
    kept: usize,
}

/// Room for a line, and no group.
const LENT: Lent = Lent {
    room: LINE,
    kept: 0,
};

/// A write with right fields, of which some are then spoilt.
fn write(dice: &mut Dice, of: Type, day: u32, kind: u64, wrong: usize, lent: Lent) -> Vec<u8> {
    let Lent { room, kept } = lent;
    let head = match of {
        Type::Label => format!("300|{room}|{day}||"),
        Type::Group => format!("301|{room}|{day}|{kind}|{kept}"),
        Type::Order => format!("309|{room}|{day}|{kind}|"),
        Type::Close => format!("399|{room}|{day}"),
    };
    written(head, spoilt_line(dice, of, day, kind, wrong))
}

/// The fields that a writer of such a line wants, spoilt so many times.
pub fn spoilt_line(dice: &mut Dice, of: Type, day: u32, kind: u64, wrong: usize) -> Fields {
    let mut fields = match of {
        Type::Label => right_label(dice, day, kind),
        Type::Group => right_group(dice, day),
        Type::Order => right_order(dice, kind),
        Type::Close => Vec::new(),
    };
    for _ in 0..wrong {
        if fields.is_empty() {
            break;
        }
        if dice.one_in(4) {
            let k = dice.below(fields.len());
            let length = match dice.below(5) {
                0 => 0,
                1 => fields[k].len().saturating_sub(1),
                2 => dice.below(2 * fields[k].len() + 1),
                _ => fields[k].len() + 1,
            };
            let filler = *dice.pick(b" 0A");
            fields[k].resize(length, filler);
        } else {
            // Only fields of the right length can be spoilt in their way.
            let sound = fields.iter().zip(lengths(of)).all(|(f, n)| f.len() == n);
            if sound {
                spoil(dice, of, &mut fields, day);
            }
        }
    }
    fields
}

fn lengths(of: Type) -> Vec<usize> {
    places(of)
        .iter()
        .filter(|p| of != Type::Group || !matches!(p.field, 5 | 6))
        .map(|p| p.length())
        .collect()
}

fn poke(dice: &mut Dice, of: Type) -> Vec<u8> {
    let place = match (dice.below(5), places(of)) {
        (0, _) | (_, []) => dice.below(LINE),
        (1, _) => dice.between(997, 1001),
        (_, places) => {
            let place = dice.pick(places);
            dice.between(place.start, place.end - 1)
        }
    };
    let byte = match dice.below(6) {
        0 if place >= 1000 => b'\n',
        0 => dice.byte(),
        _ => *dice.pick(POKED),
    };
    format!("poke|{place}|{byte}").into_bytes()
}

/// A small file, line by line, with a mishap now and then.
fn file(dice: &mut Dice, commands: &mut Commands, day: u32, kind: u64) {
    let mishap = dice.below(3);
    let whole_step = *dice.pick(&["step|1002", "step tally|1002"]);
    if !dice.one_in(4) {
        say(commands, "tally|0|0|0|0");
    }
    let begun = match dice.below(12) {
        0 => day + 1,
        1 => *dice.pick(&[0, 20230229, 20221231, 21000229, 20231301, 20230100]),
        _ => day,
    };
    commands.push(format!("begin|{begun}").into_bytes());
    if dice.one_in(12) {
        say(commands, "end");
        commands.push(format!("begin|{begun}").into_bytes());
    }
    let step = |dice: &mut Dice, commands: &mut Commands, of: Type, command: Vec<u8>| {
        commands.push(command);
        if mishap == 0 && dice.one_in(5) {
            commands.push(poke(dice, of));
        }
        if mishap == 1 && dice.one_in(14) {
            let size = *dice.pick(&[0, 1, 998, 1000, 1001]);
            let verb = *dice.pick(&["step", "step tally"]);
            commands.push(format!("{verb}|{size}").into_bytes());
        }
        say(commands, whole_step);
        if mishap == 1 && dice.one_in(14) {
            say(commands, whole_step);
        }
    };
    let label = write(dice, Type::Label, day, kind, 0, LENT);
    step(dice, commands, Type::Label, label);
    for _ in 0..*dice.pick(&[1, 1, 2]) {
        let orders: Commands = (0..*dice.pick(&[1, 1, 2, 3]))
            .map(|_| write(dice, Type::Order, day, kind, 0, LENT))
            .collect();
        let mut lent = LENT;
        for command in &orders {
            commands.push(command.clone());
            keep(commands, &mut lent);
        }
        let head = write(dice, Type::Group, day, kind, 0, lent);
        step(dice, commands, Type::Group, head);
        for command in orders {
            // Forgotten, and so too few; or another, of another amount.
            match dice.below(5) {
                0 if mishap == 2 => {}
                1 if mishap == 2 => {
                    let other = write(dice, Type::Order, day, kind, 0, LENT);
                    step(dice, commands, Type::Order, other);
                }
                _ => step(dice, commands, Type::Order, command),
            }
        }
    }
    if !dice.one_in(10) {
        let close = write(dice, Type::Close, day, kind, 0, LENT);
        step(dice, commands, Type::Close, close);
    }
    say(commands, "end");
    if dice.one_in(6) {
        say(commands, "end");
    }
}

/// A right file of one order, with made-up tallies and totals before its lines.
fn tallied(dice: &mut Dice, commands: &mut Commands, day: u32, kind: u64) {
    let mut lent = LENT;
    let fields = right_order(dice, kind);
    let cents = fields[7]
        .iter()
        .fold(0, |n, b| n * 10 + u64::from(b - b'0'));
    let order = written(format!("309|{LINE}|{day}|{kind}|"), fields);
    commands.push(order.clone());
    keep(commands, &mut lent);
    let lines = [
        write(dice, Type::Label, day, kind, 0, LENT),
        write(dice, Type::Group, day, kind, 0, lent),
        order,
        write(dice, Type::Close, day, kind, 0, LENT),
    ];
    commands.push(format!("begin|{day}").into_bytes());
    for line in lines {
        commands.push(line);
        if dice.one_in(2) {
            let Tally {
                groups,
                orders,
                total: Cents { high, low },
            } = lent_tally(dice, cents);
            commands.push(format!("tally|{groups}|{orders}|{high}|{low}").into_bytes());
        }
        if dice.one_in(4) {
            let Cents { high, low } = total(dice, cents);
            commands.push(format!("total|{high}|{low}").into_bytes());
        }
        if dice.one_in(10) {
            commands.push(format!("step tally|{}", dice.below(LINE)).into_bytes());
        }
        let verb = *dice.pick(&["step", "step tally", "step tally"]);
        commands.push(format!("{verb}|{LINE}").into_bytes());
        if dice.one_in(6) {
            say(commands, "end");
        }
    }
    say(commands, "end");
}

/// Some lines, right and wrong.
fn lines(dice: &mut Dice, commands: &mut Commands, day: u32, kind: u64) {
    for _ in 0..dice.between(3, 8) {
        let of = *dice.pick(&[Type::Label, Type::Order, Type::Order, Type::Order]);
        let wrong = *dice.pick(&[0, 1, 1, 1, 1, 2, 2]);
        let day = match dice.below(25) {
            0 => *dice.pick(&[0, 20230229, 21000229, 20221231, 100_000_101]),
            _ => day,
        };
        let kind = match dice.below(25) {
            0 => *dice.pick(&[0, 3, 6, 45]),
            _ => kind,
        };
        commands.push(write(dice, of, day, kind, wrong, LENT));
    }
    if dice.one_in(2) {
        say(commands, "show|1000");
    }
}

/// A 301 and its lent lines, of which one may be damaged.
fn group(dice: &mut Dice, commands: &mut Commands, day: u32, kind: u64) {
    let mut lent = LENT;
    let many = dice.one_in(12);
    let count = if many { 8 } else { dice.between(0, 3) };
    for _ in 0..count {
        let of = match dice.below(15) {
            0 => *dice.pick(&[Type::Label, Type::Close]),
            _ => Type::Order,
        };
        let of_kind = if dice.one_in(10) { 9 - kind } else { kind };
        if !many || dice.one_in(3) {
            commands.push(write(dice, of, day, of_kind, 0, LENT));
        }
        if dice.one_in(6) {
            commands.push(poke(dice, of));
        }
        keep(commands, &mut lent);
    }
    if dice.one_in(6) {
        let less = *dice.pick(&[0, 1, 2, 500, 1001, 1002, 1003, 3006]);
        lent.kept = lent.kept.saturating_sub(less);
    }
    let day = match dice.below(20) {
        0 => *dice.pick(&[0, 20230431, 24000230]),
        _ => day,
    };
    let kind = match dice.below(20) {
        0 => *dice.pick(&[0, 3, 6]),
        _ => kind,
    };
    let wrong = *dice.pick(&[0, 0, 1, 1, 2]);
    commands.push(write(dice, Type::Group, day, kind, wrong, lent));
    say(commands, "show|1000");
    if dice.one_in(3) {
        say(commands, "place|1002|5");
        say(commands, "place|1002|6");
    }
}

/// Places of a line that is a line, or is none any more.
fn queries(dice: &mut Dice, commands: &mut Commands, day: u32, kind: u64) {
    let of = *dice.pick(&[Type::Label, Type::Order, Type::Order, Type::Close]);
    commands.push(write(dice, of, day, kind, 0, LENT));
    for _ in 0..dice.between(0, 2) {
        commands.push(poke(dice, of));
    }
    if dice.one_in(6) {
        let digits = dice.pick(&["300", "301", "309", "399", "308"]).as_bytes();
        for (place, digit) in (997..).zip(digits) {
            commands.push(format!("poke|{place}|{digit}").into_bytes());
        }
    }
    let size = match dice.below(8) {
        0 => *dice.pick(&[0, 57, 1000, 1001, 1003]),
        _ => LINE,
    };
    for _ in 0..dice.between(2, 6) {
        let field = match dice.below(8) {
            0 => *dice.pick(&[0, 24, 25, 26, 255, 256, 257, 1000]),
            _ => dice.between(1, 23),
        };
        commands.push(format!("place|{size}|{field}").into_bytes());
    }
}

fn rooms(dice: &mut Dice, commands: &mut Commands, day: u32, kind: u64) {
    for _ in 0..dice.between(1, 3) {
        let room = *dice.pick(&[0, 1, 1000, 1001, 1002, 1003, 1100, 1101]);
        let of = *dice.pick(&Type::ALL);
        let mut lent = Lent { room, kept: 0 };
        if of == Type::Group {
            commands.push(write(dice, Type::Order, day, kind, 0, LENT));
            keep(commands, &mut lent);
        }
        let wrong = usize::from(dice.one_in(4));
        commands.push(write(dice, of, day, kind, wrong, lent));
    }
    if dice.one_in(2) {
        say(commands, "show|1100");
    }
}

/// The line written last, kept behind those that a group has already.
fn keep(commands: &mut Commands, lent: &mut Lent) {
    commands.push(format!("keep|{}", lent.kept).into_bytes());
    lent.kept += LINE;
}

/// What is no question, or has not all its fields.
fn odd(dice: &mut Dice, commands: &mut Commands) {
    let texts = [
        "",
        " ",
        "hello",
        "STEP",
        "keep it",
        "keep",
        "keep|8000",
        "keep|99999999999999999999",
        "place",
        "place|1002|x",
        "poke|1100|1",
        "poke|1",
        "poke|5|65601",
        "begin",
        "begin|today",
        "begin|99999999999",
        "300",
        "300|1002|20230101",
        "300|1002|20230101|||20230101|4|000|1",
        "301|1002|20230101|4|9999|a|b|c|d|e",
        "309|1002|20230101|4",
        "399",
        "399|1002|x",
        "399|1101|20230101",
        "step",
        "show",
        "step tally",
        "step tally|99999999999999999999",
        "tally",
        "tally|1",
        "tally|99999999999999999999|18446744073709551616|x|1 8",
        "total",
        "total|1000",
        "tallies|1",
    ];
    let text: &str = texts[dice.below(texts.len())];
    say(commands, text);
}

#[cfg(test)]
mod tests {
    use super::*;
    use crate::cases::Desk;
    use std::collections::BTreeMap;

    fn answers(seed: u64, count: usize) -> (Vec<Vec<u8>>, Vec<Vec<u8>>) {
        let mut input = Vec::new();
        wage_cases(seed, count, &mut input).unwrap();
        let input = input.strip_suffix(b"\n").unwrap();
        let questions: Vec<Vec<u8>> = input.split(|&b| b == b'\n').map(<[u8]>::to_vec).collect();
        let mut desk = Desk::default();
        let answers = questions.iter().map(|q| desk.answer(q)).collect();
        (questions, answers)
    }

    /// Every refusal that a writer or a judge can give, with its field.
    #[test]
    fn every_answer_is_met() {
        let (commands, answers) = answers(1, 60_000);
        assert_eq!(commands.len(), 60_000);
        assert_eq!(answers.len(), 60_000);
        let mut met: BTreeMap<String, usize> = BTreeMap::new();
        for (command, answer) in commands.iter().zip(&answers) {
            let verb = command.split(|&b| b == b'|').next().unwrap();
            let verb = String::from_utf8_lossy(verb).into_owned();
            let text = String::from_utf8_lossy(answer).into_owned();
            let words: Vec<&str> = text.split(' ').collect();
            let key = match words[..] {
                ["refused", number, "line", line, "field", field, ..] => {
                    let lent = if verb.starts_with("30") && line != "0" {
                        " lent"
                    } else {
                        ""
                    };
                    format!("{verb}{lent} {field}: {number}")
                }
                ["accepted" | "unknown", ..] => format!("{verb} {}", words[0]),
                [""] => format!("{verb} nothing"),
                _ => format!("{verb} text"),
            };
            *met.entry(key).or_default() += 1;
        }
        let order: [(usize, &[u8]); 16] = [
            (1, &[3, 5, 6]),
            (2, &[]),
            (5, &[3, 5]),
            (6, &[5, 7]),
            (7, &[3, 8, 9]),
            (8, &[5]),
            (9, &[3, 5]),
            (10, &[3]),
            (11, &[5, 7]),
            (12, &[3, 8, 9]),
            (18, &[3, 5]),
            (19, &[5]),
            (20, &[5]),
            (21, &[5]),
            (22, &[3, 5]),
            (23, &[3, 5, 6]),
        ];
        let label: [(usize, &[u8]); 8] = [
            (1, &[3, 11]),
            (2, &[3, 5]),
            (3, &[3, 5]),
            (4, &[3, 5]),
            (5, &[3, 6]),
            (6, &[3]),
            (7, &[3, 5]),
            (8, &[3, 5, 6]),
        ];
        let group: [(usize, &[u8]); 5] = [
            (1, &[3, 5, 6]),
            (2, &[5]),
            (3, &[3, 5, 6]),
            (4, &[5]),
            (7, &[3, 11]),
        ];
        let mut missing = Vec::new();
        for (verb, table) in [
            ("300", &label[..]),
            ("301", &group[..]),
            ("309", &order[..]),
        ] {
            for (field, numbers) in table {
                for number in [4].iter().chain(*numbers) {
                    let key = format!("{verb} {field}: {number}");
                    if !met.contains_key(&key) {
                        missing.push(key);
                    }
                }
            }
        }
        for key in [
            "300 0: 11",
            "300 0: 15",
            "300 accepted",
            "301 0: 1",
            "301 0: 5",
            "301 0: 10",
            "301 0: 11",
            "301 0: 15",
            "301 lent 0: 2",
            "301 lent 0: 5",
            "301 lent 0: 10",
            "301 lent 1: 3",
            "301 lent 9: 3",
            "301 lent 23: 5",
            "301 accepted",
            "309 0: 5",
            "309 0: 11",
            "309 0: 15",
            "309 accepted",
            "399 0: 15",
            "399 accepted",
            "keep nothing",
            "poke nothing",
            "399 unknown",
            "place text",
            "show text",
            "begin 0: 11",
            "begin accepted",
            "step 0: 1",
            "step 0: 2",
            "step 0: 5",
            "step 0: 10",
            "step 0: 11",
            "step 0: 12",
            "step 0: 13",
            "step 0: 17",
            "step accepted",
            "step tally 0: 1",
            "step tally 0: 17",
            "step tally 0: 29",
            "step tally accepted",
            "tally nothing",
            "total nothing",
            "end 0: 14",
            "end 0: 17",
            "end 0: 29",
            "end accepted",
        ] {
            if !met.contains_key(key) {
                missing.push(key.to_string());
            }
        }
        assert_eq!(missing, Vec::<String>::new(), "{met:#?}");
    }
}
