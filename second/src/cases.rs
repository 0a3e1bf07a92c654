//! The cases: one question a line, answered behind ` -> `. A desk keeps what was
//! written last, some kept lines, a judge and a tally from question to question.
//! README.md lists the verbs.

use crate::account::{iban, oib};
use crate::checkdigit::Rule;
use crate::ledger::{in_cents, Amount, Entry};
use crate::reference::Model;
use crate::refusal::{Reason, Refusal};
use crate::slip::{Slip, TEXTS};
use crate::standing::{standing_text, write_standing, Owner, Refused, Standing};
use crate::wage::record::{Cents, Ended, Record, Tally, Told};
use crate::wage::{place, write_close, write_group, write_label, write_order, LINE};
use crate::wet::{list_iban, list_reference, Listing};
use std::fmt::Write as _;
use std::io::{self, Write};

const MEMORY: usize = 1100;
const MOST_KEPT: usize = 8 * LINE;
const MOST_NUMBERS: usize = 10_000;
/// What is written stands behind room, cents or day, kind and size.
const HEAD: usize = 4;

/// Answers every line. What follows the last LF is a line unless empty.
pub fn answer_all(input: &[u8], mut output: impl Write) -> io::Result<()> {
    let mut desk = Desk::default();
    for line in input.split_inclusive(|&b| b == b'\n') {
        let question = line.strip_suffix(b"\n").unwrap_or(line);
        output.write_all(question)?;
        output.write_all(b" -> ")?;
        output.write_all(&desk.answer(question))?;
        output.write_all(b"\n")?;
    }
    output.flush()
}

pub struct Desk {
    /// What is written stands at its front.
    memory: [u8; MEMORY],
    kept: [u8; MOST_KEPT],
    judge: Record,
    tally: Tally,
}

impl Default for Desk {
    fn default() -> Self {
        Desk {
            memory: [0; MEMORY],
            kept: [0; MOST_KEPT],
            judge: Record::begin(0),
            tally: Tally::default(),
        }
    }
}

impl Desk {
    /// The answer to one question.
    pub fn answer(&mut self, question: &[u8]) -> Vec<u8> {
        let bar = question.iter().position(|&b| b == b'|');
        let (verb, rest) = bar.map_or((question, &b""[..]), |k| {
            (&question[..k], &question[k + 1..])
        });
        let fields = Fields(rest.split(|&b| b == b'|').collect());
        let answer = match verb {
            b"iban" => Some(verdict(iban(fields.text(0)))),
            b"oib" => Some(verdict(oib(fields.text(0)))),
            b"ref" => {
                let model = Model::named(fields.text(0));
                Some(verdict(model.and_then(|m| m.judge(fields.text(1)))))
            }
            b"check ini" => Some(verdict(Rule::Ini.check(fields.text(0)))),
            b"check iso" => Some(verdict(Rule::Iso.check(fields.text(0)))),
            b"make ini" => Some(made(Rule::Ini.make(fields.text(0)))),
            b"make iso" => Some(made(Rule::Iso.make(fields.text(0)))),
            b"slip" => Some(verdict(Slip::read(&swapped(rest, b'|', b'\n')).map(drop))),
            b"ledger" => Some(entered(Entry::read(&swapped(rest, b'|', b'\n')))),
            b"lipa" => Some(format!("cents {}", in_cents(fields.number(0)))),
            b"list iban" => listed(fields.size(0), |room| list_iban(fields.text(1), room)),
            b"list ref" => listed(fields.size(0), |room| {
                list_reference(fields.text(1), fields.text(2), room)
            }),
            b"write" => self.write_slip(&fields),
            b"standing" => Some(standing(&fields)),
            b"write standing" => self.write_with_standing(&fields),
            b"300" | b"301" | b"309" | b"399" => self.write_line(verb, &fields),
            _ => return self.handle(verb, &fields),
        };
        answer.map_or(b"unknown".to_vec(), String::into_bytes)
    }

    /// Nothing where the memory has no such room.
    fn write_slip(&mut self, fields: &Fields) -> Option<String> {
        let room = Some(fields.size(0)).filter(|&n| n <= MEMORY)?;
        let cents = fields.number(1);
        let texts = fields.behind::<TEXTS>(HEAD);
        let written = texts.and_then(|texts| Slip { cents, texts }.write(room));
        Some(self.written(written, ""))
    }

    /// Nothing where the memory has no such room.
    fn write_with_standing(&mut self, fields: &Fields) -> Option<String> {
        let room = Some(fields.size(0)).filter(|&n| n <= MEMORY)?;
        let cents = fields.number(1);
        let (farm, association) = (fields.sheet(2), fields.sheet(3));
        let given = fields.0.get(HEAD..).unwrap_or_default();
        let (text, sizes) = (given.concat(), given.iter().map(|f| f.len()));
        let sizes: Vec<usize> = sizes.collect();
        let written = write_standing(cents, &text, &sizes, &farm, &association, room);
        let owner = written.as_ref().err().and_then(|refused| refused.owner);
        let more = format!(" sheet {}", number_of(owner));
        Some(self.written(written.map_err(|refused| refused.refusal), &more))
    }

    /// What a writer of slips answers, and more behind the number of bytes.
    fn written(&mut self, written: Result<Vec<u8>, Refusal>, more: &str) -> String {
        match written {
            Err(refusal) => format!("{} bytes 0{more}|", told(refusal)),
            Ok(bytes) => {
                self.memory[..bytes.len()].copy_from_slice(&bytes);
                let text = String::from_utf8(bytes).expect("permitted only");
                format!("accepted bytes {}{more}|{text}", text.len())
            }
        }
    }

    /// Nothing where the memory has no such room.
    fn write_line(&mut self, verb: &[u8], fields: &Fields) -> Option<String> {
        let room = Some(fields.size(0)).filter(|&n| n <= MEMORY)?;
        let (day, kind) = (fields.day(1), fields.number(2));
        let orders = front(&self.kept, fields.size(3));
        let room = &mut self.memory[..room];
        Some(verdict(match verb {
            b"300" => fields.behind(HEAD).and_then(|f| write_label(day, &f, room)),
            b"301" => fields
                .behind(HEAD)
                .and_then(|f| write_group(day, kind, &f, orders, room)),
            b"309" => fields
                .behind(HEAD)
                .and_then(|f| write_order(day, kind, &f, room)),
            _ => write_close(day, room),
        }))
    }

    /// The memory as a wage line, the judge and the tally.
    fn handle(&mut self, verb: &[u8], fields: &Fields) -> Vec<u8> {
        let size = fields.size(0);
        let seen = front(&self.memory, size);
        match verb {
            b"keep" => {
                let room = self.kept.iter_mut().skip(size);
                room.zip(self.memory).take(LINE).for_each(|(k, b)| *k = b);
                Vec::new()
            }
            b"poke" => {
                if let Some(byte) = self.memory.get_mut(size) {
                    *byte = fields.number(1) as u8;
                }
                Vec::new()
            }
            b"place" => place(seen, fields.size(1)).to_vec(),
            b"show" => seen.to_vec(),
            b"begin" => {
                self.judge = Record::begin(fields.number(0));
                answer(self.judge.told).into_bytes()
            }
            b"step" => {
                self.judge = self.judge.step(seen);
                answer(self.judge.told).into_bytes()
            }
            b"step tally" => {
                self.judge = self.judge.step_tally(seen, &mut self.tally);
                self.tallied().into_bytes()
            }
            b"tally" => {
                self.tally = Tally {
                    groups: fields.size(0),
                    orders: fields.size(1),
                    total: fields.cents(2),
                };
                Vec::new()
            }
            b"total" => {
                self.judge.file_total = fields.cents(0);
                Vec::new()
            }
            b"end" => self.end().into_bytes(),
            _ => b"unknown".to_vec(),
        }
    }

    fn tallied(&self) -> String {
        let Tally {
            groups,
            orders,
            total,
        } = self.tally;
        let told = answer(self.judge.told);
        let (total, file) = (in_two(total), in_two(self.judge.file_total));
        format!("{told} groups {groups} orders {orders} total {total} file {file}")
    }

    fn end(&self) -> String {
        let (told, all) = match self.judge.end() {
            Ok(all) => (Told::default(), all),
            Err(told) => (told, Ended::default()),
        };
        let (told, total) = (answer(told), in_two(all.total));
        let (lines, groups, orders) = (all.lines, all.groups, all.orders);
        format!("{told} lines {lines} groups {groups} orders {orders} total {total}")
    }
}

/// What follows a verb; a field that is not there is empty.
struct Fields<'a>(Vec<&'a [u8]>);

impl<'a> Fields<'a> {
    fn text(&self, k: usize) -> &'a [u8] {
        self.0.get(k).copied().unwrap_or_default()
    }

    /// The number of a field's digits; the largest where that is more.
    fn number(&self, k: usize) -> u64 {
        let digits = self.text(k).iter().filter(|b| b.is_ascii_digit());
        digits.fold(0, |n: u64, b| {
            n.saturating_mul(10).saturating_add(u64::from(b - b'0'))
        })
    }

    fn size(&self, k: usize) -> usize {
        self.number(k) as usize
    }

    /// Cents in two fields.
    fn cents(&self, k: usize) -> Cents {
        Cents {
            high: self.number(k),
            low: self.number(k + 1),
        }
    }

    /// A number that is too large for a day is as little a date as 0.
    fn day(&self, k: usize) -> u32 {
        u32::try_from(self.number(k)).unwrap_or(0)
    }

    /// A sheet: `~` stands for a line feed.
    fn sheet(&self, k: usize) -> Vec<u8> {
        swapped(self.text(k), b'~', b'\n')
    }

    /// So many fields as a writer takes them: the bytes of one too many would be
    /// left over in the text that they are lent in, which is 1.
    fn behind<const N: usize>(&self, head: usize) -> Result<[&'a [u8]; N], Refusal> {
        if self.0.iter().skip(head + N).any(|field| !field.is_empty()) {
            return Err(Reason::Size.into());
        }
        Ok(std::array::from_fn(|k| self.text(head + k)))
    }
}

/// The first bytes, as far as there are any.
fn front(bytes: &[u8], size: usize) -> &[u8] {
    &bytes[..size.min(bytes.len())]
}

pub fn swapped(text: &[u8], from: u8, to: u8) -> Vec<u8> {
    text.iter()
        .map(|&b| if b == from { to } else { b })
        .collect()
}

fn verdict(result: Result<(), Refusal>) -> String {
    result.map_or_else(told, |()| "accepted".to_string())
}

fn told(refusal: Refusal) -> String {
    answer(Told::of(refusal))
}

/// What a record or an end tells; 0 is no refusal.
fn answer(told: Told) -> String {
    if told.number == 0 {
        return "accepted".to_string();
    }
    let (number, line, field, byte) = (told.number, told.line, told.field, told.byte);
    let needed = told.needed;
    format!("refused {number} line {line} field {field} byte {byte} needed {needed}")
}

fn in_two(cents: Cents) -> String {
    format!("{} {}", cents.high, cents.low)
}

fn made(result: Result<u8, Refusal>) -> String {
    match result {
        Ok(digit) => format!("accepted digit {digit}"),
        Err(refusal) => format!("{} digit 0", told(refusal)),
    }
}

fn entered(result: Result<Entry, Refusal>) -> String {
    match result.map(|entry| entry.amount) {
        Ok(Amount::Cents(cents)) => format!("accepted euro {cents}"),
        Ok(Amount::Lipa(lipa)) => format!("accepted kuna {lipa} cents {}", in_cents(lipa)),
        Err(refusal) => told(refusal),
    }
}

fn standing(fields: &Fields) -> String {
    let (farm, association) = (fields.sheet(1), fields.sheet(2));
    let (verdict, owner, start, length) = match standing_text(fields.size(0), &farm, &association) {
        Ok(None) => (verdict(Ok(())), None, 0, 0),
        Ok(Some(Standing { owner, start, text })) => {
            (verdict(Ok(())), Some(owner), start, text.len())
        }
        Err(Refused { refusal, owner }) => (told(refusal), owner, 0, 0),
    };
    let sheet = number_of(owner);
    format!("{verdict} sheet {sheet} start {start} length {length}")
}

/// 0 where it is nobody's sheet.
fn number_of(owner: Option<Owner>) -> usize {
    owner.map_or(0, |owner| owner as usize)
}

/// Nothing where the room is more than ten thousand numbers.
fn listed(room: usize, list: impl Fn(usize) -> Result<Listing, Refusal>) -> Option<String> {
    let room = Some(room).filter(|&n| n <= MOST_NUMBERS)?;
    Some(match list(room) {
        Err(refusal) => format!("{} fillings 0", told(refusal)),
        Ok(listing) => {
            let mut text = format!("accepted fillings {}", listing.numbers.len());
            for number in &listing.numbers {
                let _ = write!(text, " {number}");
            }
            text
        }
    })
}

#[cfg(test)]
mod tests {
    use super::*;

    const HAND: &[u8] = include_bytes!("../../cases/hand.txt");
    const WAGE: &[u8] = include_bytes!("../../cases/wage.txt");
    const LABEL: &str =
        "20240228|||20240228|4|000|1|12345678903|00000000042|00000000000|12345678903";

    /// Questions at one desk, each with its answer.
    fn run(script: &[(&str, &str)]) {
        let mut desk = Desk::default();
        for (question, expected) in script {
            let answer = desk.answer(question.as_bytes());
            assert_eq!(answer, expected.as_bytes(), "{question}");
        }
    }

    #[test]
    fn one_of_each() {
        run(&[
            ("iban|HR1210010051863000160", "accepted"),
            (
                "iban|HR1310010051863000160",
                "refused 6 line 0 field 0 byte 0 needed 0",
            ),
            (
                "iban|HR12 10010051863000160",
                "refused 3 line 0 field 0 byte 4 needed 0",
            ),
            ("iban", "refused 4 line 0 field 0 byte 0 needed 0"),
            ("oib|12345678903", "accepted"),
            ("ref|HR01|0", "accepted"),
            ("ref|HR99", "accepted"),
            ("ref|HR01| 0", "refused 3 line 0 field 0 byte 0 needed 0"),
            ("ref", "refused 5 line 0 field 0 byte 0 needed 0"),
            ("check ini|334445556669", "accepted"),
            ("check iso|1", "accepted"),
            ("check iso|0", "refused 9 line 0 field 0 byte 0 needed 0"),
            ("check ini", "refused 1 line 0 field 0 byte 0 needed 0"),
            ("check mod|1", "unknown"),
            ("make iso|234000", "accepted digit 9"),
            (
                "make ini|x",
                "refused 3 line 0 field 0 byte 0 needed 0 digit 0",
            ),
            (
                "list ref|10|HR01|??",
                "accepted fillings 10 0 19 27 35 43 51 60 78 86 94",
            ),
            (
                "list iban|1|HR??10010051863000160",
                "accepted fillings 1 12",
            ),
            ("list ref|1|HR01|1", "accepted fillings 0"),
            (
                "list ref|9|HR01|??",
                "refused 15 line 0 field 0 byte 0 needed 10 fillings 0",
            ),
            ("list ref|10001|HR01|??", "unknown"),
            ("IBAN|HR1210010051863000160", "unknown"),
            ("# iban", "unknown"),
            ("", "unknown"),
        ]);
    }

    #[test]
    fn slips() {
        let tail = "Ž||||||HR1210010051863000160|HR99||COST|a b";
        let slip = format!("HRVHUB30|EUR|000000000000007|{tail}|");
        let written = format!("accepted bytes 74|{}", slip.replace('|', "\n"));
        let nothing = |told: &str| format!("refused {told} bytes 0|");
        let much = nothing("4 line 0 field 3 byte 0 needed 0");
        let left_over = "1 line 0 field 0 byte 0 needed 0";
        let refused = "refused 2 line 0 field 0 byte 0 needed 0";
        for (question, expected) in [
            (format!("slip|{slip}"), "accepted"),
            (format!("slip|{slip}x"), refused),
            ("slip".to_string(), refused),
            (
                format!("slip|{slip}").replace("COST", "CO T"),
                "refused 3 line 0 field 13 byte 67 needed 0",
            ),
            (
                format!("slip|{}", "|".repeat(484)),
                "refused 1 line 0 field 0 byte 0 needed 0",
            ),
            (format!("write|74|7|||{tail}"), &written),
            (format!("write|74|7|||{tail}|"), &written),
            (
                format!("write|1100|0000000000000000000007|||{tail}"),
                &written,
            ),
            (format!("write|74|7|||{tail}|x"), &nothing(left_over)),
            (
                format!("write|0|9999999999999999|||{tail}||x"),
                &nothing(left_over),
            ),
            (format!("write|1101|7|||{tail}"), "unknown"),
            (
                format!("write|73|7|||{tail}"),
                &nothing("15 line 0 field 0 byte 0 needed 74"),
            ),
            (format!("write|0|1000000000000000|||{tail}"), &much),
            (format!("write|0|99999999999999999999|||{tail}"), &much),
            (
                format!("write|0|7|||{tail};"),
                &nothing("3 line 0 field 14 byte 3 needed 0"),
            ),
        ] {
            run(&[(&question, expected)]);
        }
    }

    #[test]
    fn ledgers() {
        let euro = "Ž||||||HR1210010051863000160|HR99||COST|a b|";
        let kuna = "Ž||||||1001005-1863000160|HR99||COST|a b|";
        for (question, expected) in [
            (
                format!("ledger|HRVHUB30|EUR|000000000012355|{euro}"),
                "accepted euro 12355",
            ),
            (
                format!("ledger|HRVHUB30|HRK|000000000012355|{euro}"),
                "accepted kuna 12355 cents 1640",
            ),
            (
                format!("ledger|HRVHUB30|HRK|999999999999999|{kuna}"),
                "accepted kuna 999999999999999 cents 132722808414626",
            ),
            (
                format!("slip|HRVHUB30|HRK|999999999999999|{kuna}"),
                "refused 5 line 0 field 2 byte 9 needed 0",
            ),
            (
                format!("ledger|HRVHUB30|EUR|000000000012355|{kuna}"),
                "refused 3 line 0 field 10 byte 44 needed 0",
            ),
            (
                format!("ledger|HRVHUB30|HRK|000000000012355|{kuna}|"),
                "refused 2 line 0 field 0 byte 0 needed 0",
            ),
        ] {
            run(&[(&question, expected)]);
        }
        run(&[
            ("ledger", "refused 2 line 0 field 0 byte 0 needed 0"),
            ("lipa|12355", "cents 1640"),
            ("lipa|123.55|1", "cents 1640"),
            ("lipa", "cents 0"),
            ("lipa|18446744073709551615", "cents 2448303679568591362"),
            ("lipa|18446744073709551616", "cents 2448303679568591362"),
        ]);
    }

    #[test]
    fn standing_texts() {
        let refused = |number: u8, line: u8, sheet: u8| {
            format!(
                "refused {number} line {line} field 0 byte 0 needed 0 sheet {sheet} \
                 start 0 length 0"
            )
        };
        let none = "accepted sheet 0 start 0 length 0";
        run(&[
            ("standing|4|4=a~14=b~|", "accepted sheet 1 start 2 length 1"),
            ("standing|14|4=a~14=b~", "accepted sheet 1 start 7 length 1"),
            (
                "standing|14|14=~|14=b~",
                "accepted sheet 1 start 3 length 0",
            ),
            ("standing|14||14=b~", "accepted sheet 2 start 3 length 1"),
            ("standing|4||14=b~|4=x", none),
            ("standing|14", none),
            ("standing", &refused(28, 0, 0)),
            ("standing|12|x|x", &refused(28, 0, 0)),
            ("standing|14|4=a~x|y", &refused(20, 2, 1)),
            ("standing|14|14=a~|y", &refused(20, 1, 2)),
        ]);
        let tail = "HR1210010051863000160|HR99";
        let written = "accepted bytes 67 sheet 0|HRVHUB30\nEUR\n000000000000007\n\n\n\n\n\n\n\
            HR1210010051863000160\nHR99\n\n\nab\n";
        let nothing = |told: &str, sheet: u8| {
            let place = "needed 0 bytes 0 sheet";
            format!("refused {told} byte 0 {place} {sheet}|")
        };
        for (question, expected) in [
            (
                format!("write standing|67|7|14=ab~|14=c~|||||||{tail}"),
                written,
            ),
            (
                format!("write standing|1100|7||14=ab~|||||||{tail}|||"),
                written,
            ),
            (
                format!("write standing|1101|7||14=ab~|||||||{tail}"),
                "unknown",
            ),
            (
                format!("write standing|66|7||14=ab~|||||||{tail}"),
                "refused 15 line 0 field 0 byte 0 needed 67 bytes 0 sheet 0|",
            ),
            (
                format!("write standing|0|1000000000000000|x|x|||||||{tail}||||x"),
                &nothing("1 line 0 field 0", 0),
            ),
            (
                format!("write standing|0|1000000000000000|4=~x|x|;||||||{tail}"),
                &nothing("20 line 2 field 0", 1),
            ),
            (
                format!("write standing|0|1000000000000000||x|;||||||{tail}"),
                &nothing("20 line 1 field 0", 2),
            ),
            (
                format!("write standing|0|1000000000000000|||;||||||{tail}"),
                &nothing("4 line 0 field 3", 0),
            ),
            (
                format!("write standing|0|7|4=a~||;||||||{tail}"),
                &nothing("3 line 0 field 4", 0),
            ),
        ] {
            run(&[(&question, expected)]);
        }
    }

    #[test]
    fn wage_lines() {
        run(&[
            (
                "end",
                "refused 11 line 0 field 0 byte 0 needed 0 lines 0 groups 0 orders 0 total 0 0",
            ),
            ("begin|20240228", "accepted"),
            (
                "end",
                "refused 14 line 1 field 0 byte 0 needed 0 lines 0 groups 0 orders 0 total 0 0",
            ),
            ("place|1002|1", ""),
            (
                &format!("300|1001|{LABEL}"),
                "refused 15 line 0 field 0 byte 0 needed 1002",
            ),
            (&format!("300|1101|{LABEL}"), "unknown"),
            (
                &format!("300|0|{LABEL}|x"),
                "refused 1 line 0 field 0 byte 0 needed 0",
            ),
            (&format!("300|1003|{LABEL}"), "accepted"),
            ("place|1002|6", "00000000042"),
            ("place|1002|9", ""),
            ("poke|0|120", ""),
            ("place|1002|1", "x0240228"),
            ("place|1001|1", ""),
            ("poke|1100|1", ""),
            ("step|1001", "refused 1 line 1 field 0 byte 0 needed 0"),
            ("step|1002", "refused 1 line 1 field 0 byte 0 needed 0"),
            ("begin|20240228", "accepted"),
            ("step|1002", "refused 3 line 1 field 1 byte 0 needed 0"),
            ("399|1002|20240228", "accepted"),
            ("keep|0", ""),
            (
                "301|1002|20240228|4|1002|a|b|c|d|e",
                "refused 10 line 1 field 0 byte 0 needed 0",
            ),
            (
                "301|1002|20240228|4|1000|a|b|c|d|e",
                "refused 1 line 0 field 0 byte 0 needed 0",
            ),
            (
                "301|1002|20240228|4||a|b|c|d|e",
                "refused 10 line 0 field 0 byte 0 needed 0",
            ),
            (
                "301|1002|20240228|3||a|b|c|d|e|f",
                "refused 1 line 0 field 0 byte 0 needed 0",
            ),
            (
                "309|1002|0|3||||||||||||||||||f",
                "refused 1 line 0 field 0 byte 0 needed 0",
            ),
            ("399|1002|20240228|||f", "accepted"),
            (
                "begin|20240230",
                "refused 11 line 0 field 0 byte 0 needed 0",
            ),
            ("begin", "refused 11 line 0 field 0 byte 0 needed 0"),
            ("show|1000", &format!("{:>1000}", "399")),
            ("show", ""),
            ("keep it", "unknown"),
        ]);
    }

    #[test]
    fn tallies() {
        let label = format!("300|1002|{LABEL}");
        let order = "309|1002|20240228|4||HR7023400091510946338             |\
            {name}|191|    |{reference}|SALA|{text}|000000000000002|    |{reference}|0|EUR|3|0|100|\
            12345678903"
            .replace("{name}", &" ".repeat(140))
            .replace("{reference}", &" ".repeat(22))
            .replace("{text}", &format!("{:140}", "Placa"));
        let head = "301|1002|20240228|4|1002|HR1210010051863000160|EUR|                     |   |\
            20240228";
        run(&[
            ("tally|1|2|3|4|5", ""),
            (
                "step tally|5",
                "refused 11 line 0 field 0 byte 0 needed 0 groups 1 orders 2 total 3 4 file 0 0",
            ),
            ("begin|20240228", "accepted"),
            (&label, "accepted"),
            (
                "step tally|1002",
                "accepted groups 1 orders 2 total 3 4 file 0 0",
            ),
            (&order, "accepted"),
            ("keep|0", ""),
            (head, "accepted"),
            ("total|5|99999999999999999999", ""),
            (
                "step tally|1002",
                "accepted groups 2 orders 2 total 3 4 file 5 18446744073709551615",
            ),
            (&order, "accepted"),
            (
                "step tally|1002",
                "accepted groups 2 orders 3 total 3 6 file 23 446744073709551617",
            ),
            ("tally|0|1000001", ""),
            ("399|1002|20240228", "accepted"),
            (
                "step tally|1002",
                "refused 29 line 4 field 0 byte 0 needed 0 groups 0 orders 1000001 total 0 0 \
                 file 23 446744073709551617",
            ),
            ("step|1002", "refused 29 line 4 field 0 byte 0 needed 0"),
            (
                "end",
                "refused 29 line 4 field 0 byte 0 needed 0 lines 0 groups 0 orders 0 total 0 0",
            ),
            ("begin|20240228", "accepted"),
            ("total|1000|0", ""),
            ("step|5", "refused 17 line 1000001 field 0 byte 0 needed 0"),
        ]);
    }

    #[test]
    fn lines_are_bytes() {
        let run = |input: &[u8]| {
            let mut output = Vec::new();
            answer_all(input, &mut output).unwrap();
            output
        };
        assert_eq!(run(b""), b"");
        assert_eq!(run(b"\n"), b" -> unknown\n");
        assert_eq!(run(b"a"), b"a -> unknown\n");
        assert_eq!(
            run(b"oib|1\xff\n\n"),
            b"oib|1\xff -> refused 3 line 0 field 0 byte 1 needed 0\n -> unknown\n"
        );
    }

    /// What a person chose meets every refusal.
    #[test]
    fn hand_picked() {
        let mut desk = Desk::default();
        let mut answers = Vec::new();
        for question in [HAND, WAGE].concat().split(|&b| b == b'\n') {
            answers.push(desk.answer(question));
        }
        for number in (1..=17)
            .chain([20, 28, 29])
            .map(|n| format!("refused {n} "))
        {
            let met = answers.iter().any(|a| a.starts_with(number.as_bytes()));
            assert!(met, "{number}");
        }
    }
}
