//! Wage files written, judged whole and line by line, queried and written again; refusals and the lent memory after them.

mod lines;

use lanecockle::wage::{self, Cents, Counts, Judge, Record, Told};
use lanecockle::{Kind, Refusal};
use lines::{
    closing, file, group_fields, label, label_fields, lent, order, order_fields, refused, wide, DAY, FILE_CENTS,
};

const COUNTS: Counts = Counts { lines: 6, groups: 2, orders: 2, total: Cents { high: 0, low: FILE_CENTS } };
const LABEL_FIELDS: [usize; 8] = [1, 2, 3, 4, 5, 6, 7, 8];
const GROUP_FIELDS: [usize; 5] = [1, 2, 3, 4, 7];
const ORDER_FIELDS: [usize; 16] = [1, 2, 5, 6, 7, 8, 9, 10, 11, 12, 18, 19, 20, 21, 22, 23];

fn no_room() -> Refusal {
    Refusal { needed: wage::LINE, ..refused(Kind::Room, 0, 0, 0) }
}

fn line(file: &[u8], number: usize) -> &[u8] {
    &file[(number - 1) * wage::LINE..number * wage::LINE]
}

#[test]
fn a_file_is_accepted_whole_and_step_by_step() {
    let file = file();
    assert_eq!(wage::file(DAY, &file), Ok(COUNTS));
    let mut judge = Judge::begin(DAY);
    for (read, line) in file.chunks(wage::LINE).enumerate() {
        assert_eq!(judge.record().lines, read);
        assert_eq!(judge.end(), Err(refused(Kind::Unfinished, read + 1, 0, 0)));
        assert_eq!(judge.step(line), Ok(()));
    }
    assert_eq!(judge.end(), Ok(COUNTS));
}

#[test]
fn a_file_is_accepted_in_parts_and_from_a_stored_record() {
    let file = file();
    let (first, second) = file.split_at(2 * wage::LINE);
    let mut judge = Judge::begin(DAY);
    assert_eq!(judge.lines(first), Ok(()));
    let record = judge.record();
    assert_eq!((record.condition, record.told, record.day, record.kind), (2, Told::default(), DAY, 4));
    assert_eq!((record.lines, record.groups, record.orders), (2, 1, 0));
    assert_eq!((record.declared, record.promised.total()), (1, 12355));
    assert_eq!((record.counted, record.total.total(), record.file_total.total()), (0, 0, 0));
    let mut judge = Judge::from_record(record);
    assert_eq!(judge.lines(second), Ok(()));
    assert_eq!(judge.record().total, Cents { high: 0, low: 999_999_999_999_999 });
    assert_eq!(judge.record().file_total, Cents { high: 0, low: FILE_CENTS });
    assert_eq!(judge.end(), Ok(COUNTS));
}

#[test]
fn queried_and_written_again_a_file_is_the_same() {
    let file = file();
    let mut again = vec![0; file.len()];
    let lines: Vec<&mut [u8]> = again.chunks_mut(wage::LINE).collect();
    for (i, out) in lines.into_iter().enumerate() {
        let line = line(&file, i + 1);
        let written = match &line[997..1000] {
            b"300" => wage::write_label(DAY, &LABEL_FIELDS.map(|field| wage::place(line, field)), out),
            b"301" => {
                let fields = GROUP_FIELDS.map(|field| wage::place(line, field));
                wage::write_group(DAY, 4, &fields, self::line(&file, i + 2), out)
            }
            b"309" => wage::write_order(DAY, 4, &ORDER_FIELDS.map(|field| wage::place(line, field)), out),
            _ => wage::write_closing(DAY, out),
        };
        assert_eq!(written, Ok(()));
    }
    assert_eq!(again, file);
}

#[test]
fn places_are_borrowed_from_the_line() {
    let file = file();
    for (field, text) in LABEL_FIELDS.into_iter().zip(label_fields()) {
        assert_eq!(wage::place(line(&file, 1), field), text);
    }
    for (field, text) in ORDER_FIELDS.into_iter().zip(order_fields(b"000000000012355")) {
        assert_eq!(wage::place(line(&file, 3), field), text);
    }
    assert_eq!(wage::place(line(&file, 2), 5), b"00001");
    assert_eq!(wage::place(line(&file, 2), 6), b"00000000000000012355");
    assert_eq!(wage::place(line(&file, 2), 5).as_ptr(), file[wage::LINE + 48..].as_ptr());
    for (number, field) in [(1, 0), (1, 9), (2, 8), (3, 3), (3, 13), (3, 24), (6, 1), (1, usize::MAX)] {
        assert_eq!(wage::place(line(&file, number), field), b"");
    }
    assert_eq!(wage::place(&file[1..wage::LINE], 1), b"");
    assert_eq!(wage::place(b"", 1), b"");
}

/// A byte of the file changed (line, byte, value), and the file's refusal.
const CHANGED: [(usize, usize, u8, Kind, usize, usize, usize); 13] = [
    (2, 3, b'3', Kind::Check, 2, 1, 0),
    (3, 1001, b' ', Kind::Ends, 3, 0, 0),
    (3, 350, b' ', Kind::Byte, 3, 10, 350),
    (3, 997, b'4', Kind::Form, 3, 0, 997),
    (3, 179, b'2', Kind::Model, 3, 6, 177),
    (3, 186, b'4', Kind::Parts, 3, 7, 181),
    (3, 181, b'5', Kind::Form, 3, 7, 181),
    (3, 201, b'1', Kind::Form, 3, 7, 181),
    (3, 197, b'4', Kind::Digit, 3, 7, 181),
    (2, 77, b'9', Kind::Date, 2, 7, 73),
    (2, 52, b'0', Kind::Orders, 3, 0, 0),
    (2, 52, b'2', Kind::Orders, 4, 0, 0),
    (4, 53, b'1', Kind::Sum, 6, 0, 0),
];

#[test]
fn a_changed_file_is_refused_whole_and_step_by_step() {
    for (number, at, value, kind, line, field, byte) in CHANGED {
        let mut file = file();
        file[(number - 1) * wage::LINE + at] = value;
        let refusal = refused(kind, line, field, byte);
        assert_eq!(wage::file(DAY, &file), Err(refusal));
        let mut judge = Judge::begin(DAY);
        let stopped = file.chunks(wage::LINE).position(|line| judge.step(line).is_err());
        assert_eq!(stopped, Some(line - 1));
        assert_eq!(judge.end(), Err(refusal));
    }
}

#[test]
fn a_refusal_stays() {
    let mut judge = Judge::begin(DAY);
    let refusal = refused(Kind::Misplaced, 1, 0, 0);
    assert_eq!(judge.step(&closing()), Err(refusal));
    let record = judge.record();
    assert_eq!(judge.step(&label()), Err(refusal));
    assert_eq!(judge.lines(b""), Err(refusal));
    assert_eq!(judge.end(), Err(refusal));
    assert_eq!(judge.record(), record);
}

#[test]
fn a_file_of_the_wrong_size_or_day_is_refused() {
    let file = file();
    assert_eq!(wage::file(DAY, b""), Err(refused(Kind::Unfinished, 1, 0, 0)));
    assert_eq!(wage::file(DAY, &file[..file.len() - 1]), Err(refused(Kind::Size, 6, 0, 0)));
    assert_eq!(wage::file(DAY + 1, &file), Err(refused(Kind::Date, 1, 1, 0)));
    for day in [0, 20221231, 20230229, 100000101, u64::MAX] {
        assert_eq!(wage::file(day, &file), Err(refused(Kind::Date, 0, 0, 0)));
        assert_eq!(Judge::begin(day).end(), Err(refused(Kind::Date, 0, 0, 0)));
    }
}

#[test]
fn a_made_up_record_is_answered() {
    let beyond = refused(Kind::Beyond, 1_000_001, 0, 0);
    let record = Judge::begin(DAY).record();
    let made_up = [
        Record { condition: 5, ..record },
        Record { lines: 1_000_001, ..record },
        Record { groups: usize::MAX, ..record },
        Record { orders: 1_000_001, ..record },
        Record { declared: u64::MAX, ..record },
        Record { counted: 1_000_001, ..record },
        Record { promised: Cents { high: 100, low: 0 }, ..record },
        Record { total: Cents { high: 99, low: 1_000_000_000_000_000_000 }, ..record },
        Record { file_total: Cents { high: 1000, low: 0 }, ..record },
        Record { file_total: Cents { high: 999, low: 1_000_000_000_000_000_000 }, ..record },
    ];
    for record in made_up {
        let mut judge = Judge::from_record(record);
        assert_eq!(judge.end(), Err(beyond));
        assert_eq!(judge.step(&label()), Err(beyond));
        assert_eq!(judge.lines(&label()), Err(beyond));
    }
    let full = Record { lines: 1_000_000, ..record };
    assert_eq!(Judge::from_record(full).step(&label()), Err(beyond));
}

#[test]
fn a_made_up_refusal_is_answered() {
    for number in (0..33).chain([usize::MAX]) {
        let told = Told { number, line: 3, field: 4, byte: 5, needed: 6 };
        let mut judge = Judge::from_record(Record { condition: 4, told, ..Record::default() });
        let kind = Kind::from_number(number).unwrap_or(Kind::Beyond);
        let needed = if kind == Kind::Room { 6 } else { 0 };
        let refusal = Refusal { needed, ..refused(kind, 3, 4, 5) };
        assert_eq!(judge.end(), Err(refusal));
        assert_eq!(judge.step(b""), Err(refusal));
    }
}

/// Checks that a writer refuses and leaves the lent room as it was.
fn unwritten(refusal: Refusal, write: impl Fn(&mut [u8]) -> Result<(), Refusal>) {
    let mut out = [7; wage::LINE + 9];
    assert_eq!(write(&mut out), Err(refusal));
    assert_eq!(out, [7; wage::LINE + 9]);
}

/// Checks that a writer refuses too little room, and leaves what is behind its line.
fn fits(write: impl Fn(&mut [u8]) -> Result<(), Refusal>) {
    unwritten(no_room(), |out| write(&mut out[..wage::LINE - 1]));
    unwritten(no_room(), |_| write(&mut []));
    let mut out = [7; wage::LINE + 9];
    assert_eq!(write(&mut out), Ok(()));
    assert_eq!(out[wage::LINE - 2..], *b"\r\n\x07\x07\x07\x07\x07\x07\x07\x07\x07");
}

#[test]
fn writers_keep_to_the_room() {
    let amount = b"000000000012355";
    fits(|out| wage::write_label(DAY, &lent(&label_fields()), out));
    fits(|out| wage::write_order(DAY, 5, &lent(&order_fields(amount)), out));
    fits(|out| wage::write_group(DAY, 4, &lent(&group_fields()), &order(amount), out));
    fits(|out| wage::write_closing(DAY, out));
}

#[test]
fn writers_refuse_days_and_kinds() {
    let (date, form) = (refused(Kind::Date, 0, 0, 0), refused(Kind::Form, 0, 0, 0));
    unwritten(date, |out| wage::write_label(20230229, &lent(&label_fields()), out));
    unwritten(date, |out| wage::write_order(0, 3, &lent(&order_fields(b"")), out));
    unwritten(date, |out| wage::write_group(u64::MAX, 3, &lent(&group_fields()), b"", out));
    unwritten(date, |out| wage::write_closing(20230229, out));
    for kind in [0, 3, 6, u64::MAX] {
        unwritten(form, |out| wage::write_order(DAY, kind, &lent(&order_fields(b"")), out));
        unwritten(form, |out| wage::write_group(DAY, kind, &lent(&group_fields()), b"", out));
    }
}

#[test]
fn writers_refuse_fields() {
    let mut label = label_fields();
    label[4] = b"12345678904".to_vec();
    unwritten(refused(Kind::Check, 0, 5, 13), |out| wage::write_label(DAY, &lent(&label), out));
    unwritten(refused(Kind::Length, 0, 10, 347), |out| wage::write_order(DAY, 4, &lent(&order_fields(b"12355")), out));
    let mut group = group_fields();
    group[4] = b"20240227".to_vec();
    let order = order(b"000000000012355");
    unwritten(refused(Kind::Date, 0, 7, 73), |out| wage::write_group(DAY, 4, &lent(&group), &order, out));
}

/// References under HR69 in the fields 7 and 12: written, judged in a file, and lent to the writer of a group.
#[test]
fn a_reference_of_three_parts_is_for_personal_income() {
    let texts: [(&[u8], Option<Kind>); 4] = [
        (b"40002-12345678903-699", None),
        (b"40002-12345678903-101", Some(Kind::Form)),
        (b"40010-12345678903-100", Some(Kind::Form)),
        (b"40002-12345678904-100", Some(Kind::Digit)),
    ];
    for (place, field, byte) in [(4, 7, 181), (9, 12, 366)] {
        for (text, kind) in texts {
            let told = |line| kind.map(|kind| refused(kind, line, field, byte));
            let mut fields = order_fields(b"000000000012355");
            (fields[place - 1], fields[place]) = (b"HR69".to_vec(), wide(text, 22));
            let written = wage::write_order(DAY, 4, &lent(&fields), &mut [0; wage::LINE]);
            assert_eq!(written.err(), told(0));
            let mut file = file();
            let start = 2 * wage::LINE + byte - 4;
            file[start..start + 26].copy_from_slice(&fields[place - 1..=place].concat());
            assert_eq!(wage::file(DAY, &file).err(), told(3));
            let group = wage::write_group(DAY, 4, &lent(&group_fields()), line(&file, 3), &mut [0; wage::LINE]);
            assert_eq!(group.err(), told(1));
        }
    }
}

#[test]
fn a_group_refuses_its_orders() {
    let write = |orders: &[u8], out: &mut [u8]| wage::write_group(DAY, 4, &lent(&group_fields()), orders, out);
    let order = order(b"000000000012355");
    let mut wrong = [order, order].concat();
    wrong[wage::LINE + 350] = b'x';
    unwritten(refused(Kind::Byte, 2, 10, 350), |out| write(&wrong, out));
    unwritten(refused(Kind::Misplaced, 2, 0, 0), |out| write(&[order, closing()].concat(), out));
    unwritten(refused(Kind::Misplaced, 0, 0, 0), |out| write(b"", out));
    unwritten(refused(Kind::Size, 0, 0, 0), |out| write(&order[1..], out));
    unwritten(refused(Kind::Orders, 0, 0, 0), |out| write(&vec![0; 100_000 * wage::LINE], out));
}
