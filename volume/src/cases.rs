//! The cases of second/README.md, answered through the static library.

use crate::ffi::{Cents, Ledger, Record, Tally, Told, Valued};
use crate::lane::{self, Lent, Sheets};
use crate::lent::Given;
use std::io::{self, Write};

const LINE: usize = 1002;
const MEMORY: usize = 1100;
const MOST_KEPT: usize = 8 * LINE;
const MOST_NUMBERS: usize = 10_000;
const INI: u32 = 0;
const ISO: u32 = 1;

/// Answers every line.
pub fn answer_all(input: &[u8], mut output: impl Write) -> io::Result<()> {
    let mut desk = Desk {
        memory: vec![0; MEMORY],
        kept: vec![0; MOST_KEPT],
        record: lane::judge_begin(0),
        tally: Tally::default(),
    };
    for line in input.split_inclusive(|&b| b == b'\n') {
        let question = line.strip_suffix(b"\n").unwrap_or(line);
        let answer = desk.answer(question);
        output.write_all(question)?;
        output.write_all(b" -> ")?;
        output.write_all(&answer.unwrap_or_else(|| b"unknown".to_vec()))?;
        output.write_all(b"\n")?;
    }
    output.flush()
}

struct Desk {
    /// What is written stands at its front.
    memory: Vec<u8>,
    kept: Vec<u8>,
    record: Record,
    tally: Tally,
}

impl Desk {
    /// Nothing for what is no question, or asks for more room than there is.
    fn answer(&mut self, question: &[u8]) -> Option<Vec<u8>> {
        let mut parts = question.split(|&b| b == b'|').map(<[u8]>::to_vec);
        let verb = parts.next()?;
        let fields = Fields(parts.collect());
        let told = match &verb[..] {
            b"iban" => lane::iban(fields.text(0)),
            b"oib" => lane::oib(fields.text(0)),
            b"ref" => lane::reference(fields.text(0), fields.text(1)),
            b"check ini" => lane::check_digits(INI, fields.text(0)),
            b"check iso" => lane::check_digits(ISO, fields.text(0)),
            b"make ini" => return Some(valued(lane::make_digit(INI, fields.text(0)), "digit")),
            b"make iso" => return Some(valued(lane::make_digit(ISO, fields.text(0)), "digit")),
            b"slip" => lane::slip_read(&fields.0.join(&b'\n')),
            b"ledger" => return Some(entered(lane::ledger_read(&fields.0.join(&b'\n')))),
            b"lipa" => {
                let cents = lane::lipa_in_cents(fields.number(0));
                return Some(format!("cents {cents}").into_bytes());
            }
            b"list iban" | b"list ref" => return list(&verb, &fields),
            b"write" => return self.write_slip(&fields),
            b"standing" => return Some(standing(&fields)),
            b"write standing" => return self.write_with_standing(&fields),
            b"300" | b"301" | b"309" | b"399" => return self.write_line(&verb, &fields),
            b"begin" | b"step" => self.judge(&verb, &fields),
            _ => return self.handle(&verb, &fields),
        };
        Some(answer(told))
    }

    fn write_slip(&mut self, fields: &Fields) -> Option<Vec<u8>> {
        let given = fields.given(4);
        let written = self.lend(fields.size(0), |_, out| {
            let written = lane::slip_write(fields.number(1), lent(&given), out);
            (written, written.value)
        })?;
        Some(self.written(written, ""))
    }

    fn write_with_standing(&mut self, fields: &Fields) -> Option<Vec<u8>> {
        let given = fields.given(4);
        let [farm, association] = [2, 3].map(|k| fields.sheet(k));
        let sheets = Sheets {
            farm: &farm,
            association: &association,
        };
        let written = self.lend(fields.size(0), |_, out| {
            let cents = fields.number(1);
            let written = lane::slip_write_standing(cents, lent(&given), sheets, out);
            (written, written.value)
        })?;
        let (told, value) = (written.told, written.value);
        let more = format!(" sheet {}", written.sheet);
        Some(self.written(Valued { told, value }, &more))
    }

    /// What a writer of slips answered, more behind it, and the slip.
    fn written(&self, written: Valued, more: &str) -> Vec<u8> {
        let mut text = valued(written, "bytes");
        text.extend_from_slice(more.as_bytes());
        text.push(b'|');
        text.extend_from_slice(&self.memory[..written.value]);
        text
    }

    fn write_line(&mut self, verb: &[u8], fields: &Fields) -> Option<Vec<u8>> {
        let (day, kind, size) = (fields.number(1), fields.number(2), fields.size(3));
        let given = fields.given(4);
        let told = self.lend(fields.size(0), |kept, out| {
            let told = match verb {
                b"300" => lane::write_label(day, lent(&given), out),
                b"301" => lane::write_group(day, kind, lent(&given), front(kept, size), out),
                b"309" => lane::write_order(day, kind, lent(&given), out),
                _ => lane::write_closing(day, out),
            };
            (told, if told.number == 0 { LINE } else { 0 })
        })?;
        Some(answer(told))
    }

    /// Lends a room at the front of the memory to a writer, which answers how
    /// many bytes it may have changed.
    fn lend<T>(
        &mut self,
        room: usize,
        writer: impl FnOnce(&[u8], &mut [u8]) -> (T, usize),
    ) -> Option<T> {
        let before = self.memory.clone();
        let (told, changed) = writer(&self.kept, self.memory.get_mut(..room)?);
        assert_eq!(
            self.memory[changed..],
            before[changed..],
            "changed too much"
        );
        Some(told)
    }

    fn judge(&mut self, verb: &[u8], fields: &Fields) -> Told {
        self.record = match verb {
            b"begin" => lane::judge_begin(fields.number(0)),
            _ => lane::judge_step(self.record, front(&self.memory, fields.size(0))),
        };
        self.record.told
    }

    fn handle(&mut self, verb: &[u8], fields: &Fields) -> Option<Vec<u8>> {
        let size = fields.size(0);
        let seen = front(&self.memory, size);
        match verb {
            b"keep" => {
                let room = self.kept.iter_mut().skip(size);
                room.zip(&self.memory).take(LINE).for_each(|(k, b)| *k = *b);
            }
            b"poke" => {
                if let Some(byte) = self.memory.get_mut(size) {
                    *byte = fields.number(1) as u8;
                }
            }
            b"place" => {
                let part = lane::wage_place(seen, fields.size(1));
                return Some(seen[part.start..][..part.length].to_vec());
            }
            b"show" => return Some(seen.to_vec()),
            b"tally" => {
                self.tally = Tally {
                    groups: size,
                    orders: fields.size(1),
                    total: fields.cents(2),
                };
            }
            b"step tally" => {
                self.record = lane::judge_step_tally(self.record, seen, &mut self.tally);
                return Some(self.tallied());
            }
            b"total" => self.record.file_total = fields.cents(0),
            b"end" => {
                let ended = lane::judge_end(self.record);
                let (lines, groups, orders) = (ended.lines, ended.groups, ended.orders);
                let total = in_two(ended.total);
                let counts =
                    format!(" lines {lines} groups {groups} orders {orders} total {total}");
                return Some([answer(ended.told), counts.into_bytes()].concat());
            }
            _ => return None,
        }
        Some(Vec::new())
    }

    fn tallied(&self) -> Vec<u8> {
        let (groups, orders) = (self.tally.groups, self.tally.orders);
        let (total, file) = (in_two(self.tally.total), in_two(self.record.file_total));
        let numbers = format!(" groups {groups} orders {orders} total {total} file {file}");
        [answer(self.record.told), numbers.into_bytes()].concat()
    }
}

fn in_two(cents: Cents) -> String {
    format!("{} {}", cents.high, cents.low)
}

fn standing(fields: &Fields) -> Vec<u8> {
    let [farm, association] = [1, 2].map(|k| fields.sheet(k));
    let sheets = Sheets {
        farm: &farm,
        association: &association,
    };
    let found = lane::standing_text(fields.size(0), sheets);
    let (sheet, start, length) = (found.sheet, found.start, found.length);
    let part = format!(" sheet {sheet} start {start} length {length}");
    [answer(found.told), part.into_bytes()].concat()
}

fn list(verb: &[u8], fields: &Fields) -> Option<Vec<u8>> {
    let mut numbers = [0; MOST_NUMBERS];
    let out = numbers.get_mut(..fields.size(0))?;
    let listed = match verb {
        b"list iban" => lane::list_iban(fields.text(1), out),
        _ => lane::list_reference(fields.text(1), fields.text(2), out),
    };
    let mut text = valued(listed, "fillings");
    for number in &out[..listed.value] {
        text.extend_from_slice(format!(" {number}").as_bytes());
    }
    Some(text)
}

fn answer(told: Told) -> Vec<u8> {
    if told.number == 0 {
        return b"accepted".to_vec();
    }
    let (number, line, field, byte) = (told.number, told.line, told.field, told.byte);
    let needed = told.needed;
    format!("refused {number} line {line} field {field} byte {byte} needed {needed}").into_bytes()
}

fn valued(valued: Valued, word: &str) -> Vec<u8> {
    let value = format!(" {word} {}", valued.value);
    [answer(valued.told), value.into_bytes()].concat()
}

/// The unit that a slip has, and of a kuna slip its cents too; each number as
/// it was answered.
fn entered(read: Ledger) -> Vec<u8> {
    let (cents, lipa, converted) = (read.cents, read.lipa, read.converted);
    let amount = match read.currency {
        0 => String::new(),
        1 => format!(" euro {cents}"),
        2 => format!(" kuna {lipa} cents {converted}"),
        other => format!(" currency {other}"),
    };
    [answer(read.told), amount.into_bytes()].concat()
}

fn lent(given: &Given) -> Lent<'_> {
    Lent {
        text: &given.text,
        sizes: &given.sizes,
    }
}

/// The first bytes, as far as there are any.
fn front(bytes: &[u8], size: usize) -> &[u8] {
    &bytes[..size.min(bytes.len())]
}

/// What follows a verb; a field that is not there is empty.
struct Fields(Vec<Vec<u8>>);

impl Fields {
    fn text(&self, k: usize) -> &[u8] {
        self.0.get(k).map_or(&[], Vec::as_slice)
    }

    /// The number of a field's digits; the largest where that is more.
    fn number(&self, k: usize) -> u64 {
        let digits = self.text(k).iter().filter(|b| b.is_ascii_digit());
        digits.fold(0, |n: u64, b| {
            n.saturating_mul(10).saturating_add(u64::from(b - b'0'))
        })
    }

    fn size(&self, k: usize) -> usize {
        self.number(k) as usize
    }

    /// Cents in two fields.
    fn cents(&self, k: usize) -> Cents {
        Cents {
            high: self.number(k),
            low: self.number(k + 1),
        }
    }

    /// A sheet: `~` stands for a line feed.
    fn sheet(&self, k: usize) -> Vec<u8> {
        let lines = self.text(k).split(|&b| b == b'~');
        lines.collect::<Vec<_>>().join(&b'\n')
    }

    /// The fields from one on, as they are lent.
    fn given(&self, first: usize) -> Given {
        Given::new(self.0.get(first..).unwrap_or_default())
    }
}
