//! Slips read, queried and written: every refusal, the round trip, and the lent memory after a refusal.

use lanecockle::{slip, Kind, Refusal};

const CENTS: u64 = 12355;

/// The fields 4 to 14 of a slip that is accepted.
fn fields() -> [&'static [u8]; 11] {
    [
        "ŽELJKO SENEKOVIĆ".as_bytes(),
        "IVANEČKA ULICA 125".as_bytes(),
        "42000 VARAŽDIN".as_bytes(),
        b"2DBK d.d.",
        b"ALKARSKI PROLAZ 13B",
        b"21230 SINJ",
        b"HR1210010051863000160",
        b"HR01",
        b"7269-68499637766-00011",
        b"COST",
        "Troškovi za 1. mjesec".as_bytes(),
    ]
}

/// The bytes of a slip from all its fields, of whatever content.
fn joined(fields: &[&[u8]; 11]) -> Vec<u8> {
    let mut slip = b"HRVHUB30\nEUR\n000000000012355\n".to_vec();
    for field in fields {
        slip.extend_from_slice(field);
        slip.push(b'\n');
    }
    slip
}

fn refused(kind: Kind, field: usize, byte: usize) -> Refusal {
    Refusal { kind, line: 0, field, byte, needed: 0 }
}

#[test]
fn a_slip_is_read() {
    let slip = joined(&fields());
    assert_eq!(slip::read(&slip), Ok(()));
    assert_eq!(slip::cents(&slip), Ok(CENTS));
    for (number, field) in (4..).zip(fields()) {
        assert_eq!(slip::field(&slip, number), field);
    }
    for number in [0, 1, 2, 3, 15, usize::MAX] {
        assert_eq!(slip::field(&slip, number), b"");
    }
}

#[test]
fn a_field_is_borrowed_from_the_slip() {
    let slip = joined(&fields());
    assert_eq!(slip::field(&slip, 4).as_ptr(), slip[29..].as_ptr());
}

#[test]
fn a_slip_is_refused() {
    let long = [b'\n'; slip::MOST + 1];
    assert_eq!(slip::read(&long), Err(refused(Kind::Size, 0, 0)));
    assert_eq!(slip::read(b""), Err(refused(Kind::Ends, 0, 0)));
    assert_eq!(slip::cents(b""), Err(refused(Kind::Ends, 0, 0)));
    assert_eq!(slip::field(&long, 4), b"");
    let mut slip = joined(&fields());
    slip[12] = b' ';
    assert_eq!(slip::read(&slip), Err(refused(Kind::Ends, 0, 0)));
    assert_eq!(slip::field(&slip, 10), b"");
}

/// One field (4 to 14) replaced by a text, and the refusal of that field, its byte counted within it.
const REPLACED: [(usize, &[u8], usize, Kind, usize); 11] = [
    (4, b"IVAN_", 4, Kind::Byte, 4),
    (5, &[b'x'; 28], 5, Kind::Length, 0),
    (10, b"HR1210010051863000160 ", 10, Kind::Byte, 21),
    (10, b"HR121001005186300016", 10, Kind::Length, 0),
    (10, b"SI1210010051863000160", 10, Kind::Form, 0),
    (10, b"HR1310010051863000160", 10, Kind::Check, 0),
    (11, b"HR12", 11, Kind::Model, 0),
    (12, b"1-", 12, Kind::Parts, 0),
    (12, b"7269-68499637766-00019", 12, Kind::Digit, 0),
    (13, b"COSt", 13, Kind::Byte, 3),
    (14, b"\xC4", 14, Kind::Byte, 0),
];

#[test]
fn a_field_is_refused_by_the_reader_and_by_the_writer() {
    for (number, text, field, kind, byte) in REPLACED {
        let mut given = fields();
        given[number - 4] = text;
        let slip = joined(&given);
        let start = 29 + given[..field - 4].iter().map(|field| field.len() + 1).sum::<usize>();
        assert_eq!(slip::read(&slip), Err(refused(kind, field, start + byte)));
        assert_eq!(slip::cents(&slip), Err(refused(kind, field, start + byte)));
        assert_eq!(slip::field(&slip, 4), b"");
        let mut out = [7; slip::MOST];
        assert_eq!(slip::write(CENTS, &given, &mut out), Err(refused(kind, field, byte)));
        assert_eq!(out, [7; slip::MOST]);
    }
}

/// References under HR69, by the reader and by the writer.
#[test]
fn a_reference_of_three_parts_is_for_personal_income() {
    let texts: [(&[u8], Option<Kind>); 5] = [
        (b"40002-12345678903-100", None),
        (b"40002-12345678903-101", Some(Kind::Form)),
        (b"40010-12345678903-100", Some(Kind::Form)),
        (b"40002-12345678904-100", Some(Kind::Digit)),
        (b"40002-12345678903-10", Some(Kind::Parts)),
    ];
    for (text, kind) in texts {
        let mut given = fields();
        (given[7], given[8]) = (b"HR69", text);
        let start = 29 + given[..8].iter().map(|field| field.len() + 1).sum::<usize>();
        assert_eq!(slip::read(&joined(&given)).err(), kind.map(|kind| refused(kind, 12, start)));
        let written = slip::write(CENTS, &given, &mut [0; slip::MOST]);
        assert_eq!(written.err(), kind.map(|kind| refused(kind, 12, 0)));
    }
}

#[test]
fn a_line_feed_within_a_field_is_refused() {
    let mut given = fields();
    given[0] = b"IVAN\nHORVAT";
    let mut out = [7; slip::MOST];
    assert_eq!(slip::write(CENTS, &given, &mut out), Err(refused(Kind::Byte, 4, 4)));
    assert_eq!(out, [7; slip::MOST]);
}

#[test]
fn an_amount_is_below_ten_to_the_fifteenth() {
    let mut out = [7; slip::MOST];
    for cents in [1_000_000_000_000_000, u64::MAX] {
        assert_eq!(slip::write(cents, &fields(), &mut out), Err(refused(Kind::Length, 3, 0)));
    }
    assert_eq!(out, [7; slip::MOST]);
    let length = slip::write(999_999_999_999_999, &fields(), &mut out).unwrap();
    assert_eq!(slip::cents(&out[..length]), Ok(999_999_999_999_999));
}

#[test]
fn the_needed_room_is_told() {
    let length = joined(&fields()).len();
    let mut out = [7; slip::MOST];
    let needed = Refusal { needed: length, ..refused(Kind::Room, 0, 0) };
    assert_eq!(slip::write(CENTS, &fields(), &mut out[..length - 1]), Err(needed));
    assert_eq!(slip::write(CENTS, &fields(), &mut []), Err(needed));
    assert_eq!(out, [7; slip::MOST]);
    assert_eq!(slip::write(CENTS, &fields(), &mut out[..length]), Ok(length));
    assert_eq!(slip::write(CENTS, &fields(), &mut out), Ok(length));
    assert!(out[length..].iter().all(|&byte| byte == 7));
}

#[test]
fn written_read_and_written_a_slip_is_the_same() {
    let mut first = [0; slip::MOST];
    let length = slip::write(CENTS, &fields(), &mut first).unwrap();
    let slip = &first[..length];
    assert_eq!(slip, joined(&fields()));
    let read: Vec<&[u8]> = (4..=14).map(|number| slip::field(slip, number)).collect();
    let mut second = [0; slip::MOST];
    let again = slip::write(slip::cents(slip).unwrap(), &read.try_into().unwrap(), &mut second).unwrap();
    assert_eq!(slip, &second[..again]);
}
