//! The table of fields against the library: where it hands out the fields of a line, and how wide a slip's may be. The
//! version.

use lanecockle::{slip, version, wage, Field, Kind, Layout, Refusal, FIELDS, VERSION};

const LINES: [(Layout, &[u8]); 4] =
    [(Layout::Label, b"300"), (Layout::Group, b"301"), (Layout::Order, b"309"), (Layout::Closing, b"399")];

/// Where the type of a line stands, which the library does not hand out.
const TYPE: usize = 998;

/// A blank line of a type.
fn line(kind: &[u8]) -> Vec<u8> {
    [&[b' '; TYPE - 1], kind, b"\r\n"].concat()
}

/// The first position and the width of a field as the library hands it out; nothing for an empty part.
fn handed(line: &[u8], number: usize) -> Option<(usize, usize)> {
    let part = wage::place(line, number);
    let start = part.as_ptr() as usize - line.as_ptr() as usize + 1;
    (!part.is_empty()).then_some((start, part.len()))
}

/// The first position and the width by the table; a 309's name, address and seat are handed out as one.
fn tabled(layout: Layout, number: usize) -> Option<(usize, usize)> {
    let field = Field::of(layout, number)?;
    if (layout, number) == (Layout::Order, 2) {
        return Some((35, 140));
    }
    (field.read && field.start != TYPE).then_some((field.start, field.width))
}

#[test]
fn fields_of_lines_stand_where_the_library_hands_them_out() {
    for (layout, kind) in LINES {
        let line = line(kind);
        for number in 0..40 {
            assert_eq!(handed(&line, number), tabled(layout, number), "{layout:?} {number}");
        }
    }
}

#[test]
fn fields_of_a_line_stand_one_behind_the_other() {
    for (layout, kind) in LINES {
        let fields: Vec<&Field> = FIELDS.iter().filter(|field| field.layout == layout).collect();
        let mut next = 1;
        for (number, field) in (1..).zip(&fields) {
            assert_eq!((field.number, field.start, field.at_most), (number, next, false));
            next += field.width;
        }
        assert_eq!(next, wage::LINE - 1);
        assert_eq!(fields.last().unwrap().rule[0].as_bytes(), [b"Must be `", kind, b"`."].concat());
    }
}

/// The fields of a slip that is accepted, as texts.
const SLIP: [&str; 14] =
    ["HRVHUB30", "EUR", "000000000012355", "", "", "", "", "", "", "HR1210010051863000160", "HR00", "1", "", "Voda"];

/// A slip with one of its fields replaced, and where this field begins.
fn slip_with(number: usize, text: &str) -> (Vec<u8>, usize) {
    let mut fields = SLIP;
    fields[number - 1] = text;
    let start = fields[..number - 1].iter().map(|field| field.len() + 1).sum();
    (fields.map(|field| format!("{field}\n")).concat().into_bytes(), start)
}

/// A text as wide as the field, which is right there.
fn full(field: &Field) -> String {
    match field.number {
        12 => "12345678901-1234567890".into(),
        13 => "COST".into(),
        _ if field.at_most => "Ž".repeat(field.width),
        number => SLIP[number - 1].into(),
    }
}

#[test]
fn fields_of_a_slip_are_as_wide_as_the_library_takes() {
    for field in FIELDS.iter().filter(|field| field.layout == Layout::Slip) {
        let full = full(field);
        assert_eq!(full.chars().count(), field.width);
        assert_eq!(slip::read(&slip_with(field.number, &full).0), Ok(()));
        let last = full.chars().last().unwrap();
        let (slip, byte) = slip_with(field.number, &format!("{full}{last}"));
        // only 5 applies to these
        let kind = if [1, 2, 11].contains(&field.number) { Kind::Form } else { Kind::Length };
        let refused = Err(Refusal { kind, line: 0, field: field.number, byte, needed: 0 });
        assert_eq!(slip::read(&slip), refused);
        let short = slip_with(field.number, full.strip_suffix(last).unwrap()).0;
        assert_eq!(slip::read(&short), if field.at_most { Ok(()) } else { refused });
    }
}

#[test]
fn versions_are_the_same() {
    assert_eq!(version(), VERSION);
    assert_eq!(env!("CARGO_PKG_VERSION"), VERSION);
    assert_eq!(include_str!("../../../VERSION").trim_end(), VERSION);
}
