//! Standing text: whose it is, where it stands, every malformed line, and slips written with it.

use lanecockle::standing::{self, sheet_text, Sheet, SheetRefusal};
use lanecockle::wage::{Judge, Record, Told};
use lanecockle::{slip, Field, Kind, Layout, Refusal};

const FARM: &[u8] = "4=OPG HORVAT\n6=42000 VARAŽDIN\n14=\n".as_bytes();
const ASSOCIATION: &[u8] = b"4=NITKO\n7=UDRUGA\n13=WTER\n14=Voda\n";

fn malformed(sheet: Sheet, line: usize) -> SheetRefusal {
    SheetRefusal { refusal: Refusal { kind: Kind::Sheet, line, field: 0, byte: 0, needed: 0 }, sheet: Some(sheet) }
}

fn refused(kind: Kind, field: usize, byte: usize) -> SheetRefusal {
    SheetRefusal { refusal: Refusal { kind, line: 0, field, byte, needed: 0 }, sheet: None }
}

/// The fields of a slip: IBAN, model and reference, and one other (0 for none).
fn fields(number: usize, text: &[u8]) -> [&[u8]; 11] {
    let mut fields: [&[u8]; 11] = [b""; 11];
    fields[10 - 4] = b"HR1210010051863000160";
    fields[11 - 4] = b"HR01";
    fields[12 - 4] = b"7269-68499637766-00011";
    if number != 0 {
        fields[number - 4] = text;
    }
    fields
}

#[test]
fn the_farm_goes_before_the_association() {
    let told = standing::FIELDS.map(|field| standing::text(field, FARM, ASSOCIATION).unwrap());
    let farm = |text: &'static str| Some((Sheet::Farm, text.as_bytes()));
    let association = |text: &'static str| Some((Sheet::Association, text.as_bytes()));
    assert_eq!(told[..4], [farm("OPG HORVAT"), None, farm("42000 VARAŽDIN"), association("UDRUGA")]);
    assert_eq!(told[4..], [None, None, association("WTER"), farm("")]);
}

#[test]
fn a_text_is_borrowed_from_its_sheet() {
    let (farm, association) = (FARM.to_vec(), ASSOCIATION.to_vec());
    for (field, sheet, lent) in [(4, Sheet::Farm, &farm[2..12]), (13, Sheet::Association, &association[20..24])] {
        let (whose, text) = standing::text(field, &farm, &association).unwrap().unwrap();
        assert_eq!((whose, text, text.as_ptr()), (sheet, lent, lent.as_ptr()));
    }
}

#[test]
fn an_empty_sheet_is_right() {
    for field in standing::FIELDS {
        assert_eq!(standing::text(field, b"", b""), Ok(None));
        let found = standing::text(field, ASSOCIATION, b"").unwrap();
        assert_eq!(found.is_some(), [4, 7, 13, 14].contains(&field));
    }
}

#[test]
fn another_field_is_refused_before_a_sheet_is_judged() {
    for field in (0..100).chain([usize::MAX, 1 << 32 | 4]).filter(|field| !standing::FIELDS.contains(field)) {
        assert_eq!(standing::text(field, FARM, ASSOCIATION), Err(refused(Kind::Field, 0, 0)));
        assert_eq!(standing::text(field, b"x", b"x"), Err(refused(Kind::Field, 0, 0)));
    }
}

/// Malformed, as the only line of a sheet and behind `4=x`.
#[rustfmt::skip]
const MALFORMED: [&[u8]; 45] = [
    b"\n", b"=\n", b"=x\n", b"4\n", b"x\n", b"04=x\n", b"+4=x\n", b" 4=x\n", b"4 =x\n", b"\t4=x\n", b"0=x\n", b"3=x\n",
    b"10=x\n", b"11=x\n", b"12=x\n", b"15=x\n", b"40=x\n", b"013=WTER\n", b"130=WTER\n", b"18446744073709551620=x\n",
    b"\xEF\xBB\xBF5=x\n", b"5=x=y\n", b"5==\n", b"5=x\r\n", b"5=\r\n", b"\r\n", b"5=x_\n", b"5=x\t\n", b"5=x\0\n",
    b"5=\xC5\n", b"5=\xC5x\n", b"5=\xBD\n", b"5=\x8A\n", b"13=WTE\n", b"13=WTERX\n", b"13=wter\n", b"13=WTE1\n", b"13= \n",
    b"5=x", b"5=", b"5", b"=", b"x", b"\0", b"\r",
];

#[test]
fn a_malformed_line_is_told_with_its_sheet() {
    for line in MALFORMED {
        let behind = [b"4=x\n", line].concat();
        assert_eq!(standing::text(4, line, b""), Err(malformed(Sheet::Farm, 1)), "{line:?}");
        assert_eq!(standing::text(4, b"", line), Err(malformed(Sheet::Association, 1)), "{line:?}");
        assert_eq!(standing::text(4, &behind, b""), Err(malformed(Sheet::Farm, 2)), "{line:?}");
        assert_eq!(standing::text(4, FARM, &behind), Err(malformed(Sheet::Association, 2)), "{line:?}");
        assert_eq!(standing::text(4, line, &behind), Err(malformed(Sheet::Farm, 1)), "{line:?}");
    }
}

#[test]
fn of_two_lines_out_of_order_the_second_is_malformed() {
    for (sheet, line) in [(&b"5=x\n4=y\n"[..], 2), (b"4=x\n4=x\n", 2), (b"4=x\n14=y\n13=WTER\n", 3), (b"13=\n4=x\n", 2)]
    {
        assert_eq!(standing::text(4, sheet, b"x"), Err(malformed(Sheet::Farm, line)));
    }
}

/// A text as long as a field permits, in letters of two bytes, and one character more.
fn longest(field: usize) -> (Vec<u8>, Vec<u8>) {
    let letter = if field == 13 { "W" } else { "Ž" };
    let most = Field::of(Layout::Slip, field).unwrap().width;
    (letter.repeat(most).into_bytes(), letter.repeat(most + 1).into_bytes())
}

#[test]
fn a_text_obeys_the_rule_of_its_field() {
    for field in standing::FIELDS {
        let (right, long) = longest(field);
        let sheet = sheet_text(&[(field, &right)]);
        assert_eq!(standing::text(field, &sheet, b""), Ok(Some((Sheet::Farm, &right[..]))));
        assert_eq!(standing::text(field, &sheet_text(&[(field, &long)]), b""), Err(malformed(Sheet::Farm, 1)));
    }
}

#[test]
fn a_sheet_written_of_lines_reads_back_as_these() {
    let texts = standing::FIELDS.map(longest);
    let lines: Vec<(usize, &[u8])> =
        standing::FIELDS.into_iter().zip(texts.iter().map(|(text, _)| &text[..])).collect();
    for chosen in 0..1 << lines.len() {
        let chosen: Vec<_> =
            lines.iter().enumerate().filter(|(at, _)| chosen >> at & 1 == 1).map(|(_, line)| *line).collect();
        let sheet = sheet_text(&chosen);
        for field in standing::FIELDS {
            let awaited = chosen.iter().find(|line| line.0 == field).map(|line| (Sheet::Association, line.1));
            assert_eq!(standing::text(field, b"", &sheet), Ok(awaited));
        }
    }
}

#[test]
fn a_slip_is_written_with_standing_text() {
    let mut out = [7; slip::MOST];
    let length = slip::write_standing(12355, &fields(0, b""), FARM, ASSOCIATION, &mut out).unwrap();
    let slip = &out[..length];
    assert_eq!(slip::cents(slip), Ok(12355));
    for (number, given) in (4..).zip(fields(0, b"")) {
        let text = standing::text(number, FARM, ASSOCIATION).map_or(given, |found| found.map_or(b"", |(_, text)| text));
        assert_eq!(slip::field(slip, number), text);
    }
    assert!(out[length..].iter().all(|&byte| byte == 7));
}

#[test]
fn what_is_given_is_not_taken_from_a_sheet() {
    let mut out = [0; slip::MOST];
    let mut plain = [0; slip::MOST];
    for number in standing::FIELDS {
        let given = fields(number, if number == 13 { b"COST" } else { b"dano" });
        let length = slip::write_standing(1, &given, FARM, ASSOCIATION, &mut out).unwrap();
        assert_eq!(slip::field(&out[..length], number), given[number - 4]);
        let length = slip::write_standing(1, &given, b"", b"", &mut out).unwrap();
        assert_eq!(slip::write(1, &given, &mut plain), Ok(length));
        assert_eq!(out[..length], plain[..length]);
    }
}

/// That a slip is refused, and the room as it was.
fn assert_unwritten(cents: u64, given: &[&[u8]; 11], [farm, association]: [&[u8]; 2], room: usize, told: SheetRefusal) {
    let mut out = [7; slip::MOST];
    assert_eq!(slip::write_standing(cents, given, farm, association, &mut out[..room]), Err(told));
    assert_eq!(out, [7; slip::MOST]);
}

#[test]
fn a_slip_that_is_refused_is_not_written() {
    let wrong = fields(4, b"IVAN_");
    assert_unwritten(u64::MAX, &wrong, [b"4=x\nx", b"x"], 0, malformed(Sheet::Farm, 2));
    assert_unwritten(u64::MAX, &wrong, [FARM, b"4=x\n5=x\n\n"], 0, malformed(Sheet::Association, 3));
    assert_unwritten(1_000_000_000_000_000, &wrong, [FARM, b""], 0, refused(Kind::Length, 3, 0));
    assert_unwritten(1, &wrong, [FARM, b""], 0, refused(Kind::Byte, 4, 4));
    assert_unwritten(1, &fields(13, b"COS"), [FARM, ASSOCIATION], 0, refused(Kind::Length, 13, 0));
    assert_unwritten(1, &fields(10, b""), [FARM, ASSOCIATION], 0, refused(Kind::Length, 10, 0));
    let needed = Refusal { needed: 94, ..refused(Kind::Room, 0, 0).refusal };
    let told = SheetRefusal { refusal: needed, sheet: None };
    assert_unwritten(1, &fields(0, b""), [b"14=Voda\n", b"4=IVO\n"], 93, told);
}

#[test]
fn the_longest_slip_is_written_from_a_sheet() {
    let texts = standing::FIELDS.map(longest);
    let lines: Vec<(usize, &[u8])> =
        standing::FIELDS.into_iter().zip(texts.iter().map(|(text, _)| &text[..])).collect();
    let mut out = [0; slip::MOST];
    let sheet = sheet_text(&lines);
    assert_eq!(sheet.len(), 422);
    let length = slip::write_standing(999_999_999_999_999, &fields(0, b""), &sheet, b"", &mut out);
    assert_eq!((length, slip::read(&out)), (Ok(slip::MOST), Ok(())));
}

#[test]
fn a_stored_record_keeps_these_refusals() {
    for (number, kind) in
        [(20, Kind::Sheet), (28, Kind::Field), (17, Kind::Beyond), (19, Kind::Beyond), (21, Kind::Beyond)]
    {
        let told = Told { number, line: 3, ..Told::default() };
        let record = Record { condition: 4, told, ..Record::default() };
        assert_eq!(Judge::from_record(record).end().unwrap_err(), Refusal { line: 3, ..refused(kind, 0, 0).refusal });
    }
}
