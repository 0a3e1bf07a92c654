//! Lines of wage files, for the tests of wage files and of running totals.

use lanecockle::{wage, Kind, Refusal};

pub const DAY: u64 = 20240228;

pub type Line = [u8; wage::LINE];

pub fn refused(kind: Kind, line: usize, field: usize, byte: usize) -> Refusal {
    Refusal { kind, line, field, byte, needed: 0 }
}

/// A field with blanks behind it.
pub fn wide(text: &[u8], width: usize) -> Vec<u8> {
    let mut field = text.to_vec();
    field.resize(width, b' ');
    field
}

pub fn lent<const N: usize>(fields: &[Vec<u8>; N]) -> [&[u8]; N] {
    std::array::from_fn(|i| &fields[i][..])
}

pub fn label_fields() -> [Vec<u8>; 8] {
    let texts = ["20240228", "4", "000", "1", "12345678903", "00000000042", "00000000000", "12345678903"];
    texts.map(|text| text.as_bytes().to_vec())
}

pub fn group_fields() -> [Vec<u8>; 5] {
    [
        b"HR1210010051863000160".to_vec(),
        b"EUR".to_vec(),
        wide(b"HR7023400091510946338", 21),
        wide(b"", 3),
        b"20240301".to_vec(),
    ]
}

pub fn order_fields(cents: &[u8]) -> [Vec<u8>; 16] {
    [
        wide(b"HR7023400091510946338", 34),
        wide(b"IVANA HORVAT", 140),
        b"191".to_vec(),
        b"HR69".to_vec(),
        wide(b"40002-12345678903-100", 22),
        b"SALA".to_vec(),
        // WIN-1250
        wide(b"Pla\xE6a 1/2024", 140),
        cents.to_vec(),
        b"HR01".to_vec(),
        b"7269-68499637766-00011".to_vec(),
        b"0".to_vec(),
        b"EUR".to_vec(),
        b"3".to_vec(),
        b"0".to_vec(),
        b"100".to_vec(),
        b"12345678903".to_vec(),
    ]
}

pub fn label() -> Line {
    let mut line = [0; wage::LINE];
    wage::write_label(DAY, &lent(&label_fields()), &mut line).unwrap();
    line
}

pub fn group(orders: &[u8]) -> Line {
    let mut line = [0; wage::LINE];
    wage::write_group(DAY, 4, &lent(&group_fields()), orders, &mut line).unwrap();
    line
}

pub fn order(cents: &[u8]) -> Line {
    let mut line = [0; wage::LINE];
    wage::write_order(DAY, 4, &lent(&order_fields(cents)), &mut line).unwrap();
    line
}

pub fn closing() -> Line {
    let mut line = [0; wage::LINE];
    wage::write_closing(DAY, &mut line).unwrap();
    line
}

/// What the orders of the file below come to.
pub const FILE_CENTS: u64 = 1_000_000_000_012_354;

/// A file of two groups of one order each.
pub fn file() -> Vec<u8> {
    let (first, second) = (order(b"000000000012355"), order(b"999999999999999"));
    [label(), group(&first), first, group(&second), second, closing()].concat()
}
