//! 01's paragraph on the wage file, sentence by sentence, and 02's W5.

use super::record::{Cents, Record, Tally, Told, REFUSED};
use super::*;
use crate::refusal::{Reason, Refusal};

const DAY: u32 = 20240228;
const IBAN: &[u8] = b"HR1210010051863000160";
const OTHER_IBAN: &[u8] = b"HR7023400091510946338";
const OIB: &[u8] = b"12345678903";
const NO_OIB: &[u8] = b"00000000000";

type Fields = Vec<Vec<u8>>;

fn padded(text: &[u8], length: usize) -> Vec<u8> {
    let mut text = text.to_vec();
    assert!(text.len() <= length);
    text.resize(length, b' ');
    text
}

fn slices<const N: usize>(fields: &[Vec<u8>]) -> [&[u8]; N] {
    let slices: Vec<&[u8]> = fields.iter().map(Vec::as_slice).collect();
    slices.try_into().unwrap()
}

fn label_fields() -> Fields {
    [
        b"20240228",
        &b"4"[..],
        b"000",
        b"1",
        OIB,
        b"00000000042",
        NO_OIB,
        OIB,
    ]
    .map(<[u8]>::to_vec)
    .to_vec()
}

/// Fields 1, 2, 3, 4 and 7.
fn group_fields() -> Fields {
    [IBAN, b"EUR", &[b' '; 21], b"   ", b"20240228"]
        .map(<[u8]>::to_vec)
        .to_vec()
}

fn order_fields() -> Fields {
    vec![
        padded(OTHER_IBAN, 34),
        padded(b"IVANA HORVAT", 140),
        b"191".to_vec(),
        b"HR69".to_vec(),
        padded(b"40002-12345678903-100", 22),
        b"SALA".to_vec(),
        padded(b"Pla\xe6a 1/2024", 140),
        b"000000000012355".to_vec(),
        b"HR01".to_vec(),
        padded(b"7269-68499637766-00011", 22),
        b"0".to_vec(),
        b"EUR".to_vec(),
        b"3".to_vec(),
        b"0".to_vec(),
        b"100".to_vec(),
        OIB.to_vec(),
    ]
}

fn label_line() -> Line {
    let mut line = [0; LINE];
    write_label(DAY, &slices(&label_fields()), &mut line).unwrap();
    line
}

fn order_line() -> Line {
    let mut line = [0; LINE];
    write_order(DAY, 4, &slices(&order_fields()), &mut line).unwrap();
    line
}

fn group_line(orders: &[Line]) -> Line {
    let mut line = [0; LINE];
    let fields = group_fields();
    write_group(DAY, 4, &slices(&fields), orders.as_flattened(), &mut line).unwrap();
    line
}

fn close_line() -> Line {
    let mut line = [0; LINE];
    write_close(DAY, &mut line).unwrap();
    line
}

/// One group of two orders: five lines.
fn file() -> Vec<Line> {
    let orders = [order_line(); 2];
    let mut lines = vec![label_line(), group_line(&orders)];
    lines.extend(orders);
    lines.push(close_line());
    lines
}

fn judged(lines: &[Line]) -> String {
    answer(whole(DAY, lines.as_flattened()))
}

fn answer(result: Result<Accepted, Refusal>) -> String {
    match result {
        Ok(accepted) => accepted.to_string(),
        Err(refusal) => refusal.to_string(),
    }
}

fn refused(number: u8, line: usize, field: usize, byte: usize) -> String {
    format!("refused {number} line {line} field {field} byte {byte}")
}

fn kind_of(line: &mut Line, kind: u8) {
    line[8] = kind;
}

#[test]
fn the_answer_of_01() {
    let mut lines = file();
    assert_eq!(judged(&lines), "accepted 5 lines 1 groups 2 orders");
    // `refused 6 line 2 field 1 byte 0`
    lines[1][..21].copy_from_slice(b"HR1310010051863000160");
    assert_eq!(judged(&lines), "refused 6 line 2 field 1 byte 0");
}

/// Puts bytes into a line of the file, and says what becomes of that file.
fn with(line: usize, kind: u8, changes: &[(usize, &[u8])]) -> String {
    let mut lines = file();
    kind_of(&mut lines[0], kind);
    for (position, bytes) in changes {
        // Positions as 01 and 004 count them.
        lines[line - 1][position - 1..position - 1 + bytes.len()].copy_from_slice(bytes);
    }
    judged(&lines)
}

const ACCEPTED: &str = "accepted 5 lines 1 groups 2 orders";

/// Each change of a line by itself: what it holds and 0 or the refusal.
fn try_all(line: usize, kind: u8, cases: &[(usize, &[u8], u8, usize, usize)]) {
    for &(position, bytes, number, field, byte) in cases {
        let expected = match number {
            0 => ACCEPTED.to_string(),
            n => refused(n, line, field, byte),
        };
        assert_eq!(
            with(line, kind, &[(position, bytes)]),
            expected,
            "{} at {position} of line {line}",
            bytes.escape_ascii()
        );
    }
}

#[test]
fn fields_of_a_label() {
    let blanks = &[b' '; 11];
    try_all(
        1,
        b'4',
        &[
            // 1: today, and no other date.
            (1, b"20240227", 11, 1, 0),
            (1, b"20240229", 11, 1, 0),
            (1, b"00000000", 11, 1, 0),
            (1, b"2024022:", 3, 1, 7),
            (1, b" 0240228", 3, 1, 0),
            // 2: the kind.
            (9, b"4", 0, 0, 0),
            (9, b"3", 5, 2, 8),
            (9, b"6", 5, 2, 8),
            (9, b"0", 5, 2, 8),
            (9, b" ", 3, 2, 8),
            (9, b"/", 3, 2, 8),
            // 3 and 4.
            (10, b"001", 5, 3, 9),
            (10, b"100", 5, 3, 9),
            (10, b"00 ", 3, 3, 11),
            (13, b"2", 0, 0, 0),
            (13, b"0", 5, 4, 12),
            (13, b"3", 5, 4, 12),
            (13, b"x", 3, 4, 12),
            // 5: an OIB or zeros, but two of the three.
            (14, b"12345678904", 6, 5, 13),
            (14, b"00000000001", 0, 0, 0),
            (14, b"1234567890 ", 3, 5, 23),
            (14, NO_OIB, 5, 7, 35),
            (25, NO_OIB, 5, 7, 35),
            (25, b"12345678904", 0, 0, 0),
            (25, b"0000000000-", 3, 6, 34),
            (36, b"10000000000", 0, 0, 0),
            (36, blanks, 3, 7, 35),
            // Any two will do.
            (14, b"000000000000000000004212345678904", 0, 0, 0),
            (14, b"000000000000000000004200000000001", 0, 0, 0),
            (14, b"123456789030000000000012345678904", 0, 0, 0),
            (14, b"123456789030000000004200000000000", 0, 0, 0),
            (14, b"000000000000000000000000000000001", 5, 7, 35),
            (14, b"000000000000000000000000000000000", 5, 7, 35),
            // 8: an OIB.
            (47, NO_OIB, 5, 8, 46),
            (47, b"12345678904", 6, 8, 46),
            (47, b"1234567890a", 3, 8, 56),
            (47, b"00000000001", 0, 0, 0),
            // What follows is not read.
            (58, &[0; 940], 0, 0, 0),
        ],
    );
}

#[test]
fn fields_of_a_group() {
    let blank = &[b' '; 21];
    try_all(
        2,
        b'4',
        &[
            (1, OTHER_IBAN, 0, 0, 0),
            (1, b"HR1310010051863000160", 6, 1, 0),
            (1, b"SI1210010051863000160", 5, 1, 0),
            (1, b"HR121001005186300016A", 5, 1, 0),
            (1, b"HR121001005186300016 ", 5, 1, 0),
            (1, b" HR121001005186300016", 5, 1, 0),
            (1, blank, 5, 1, 0),
            (1, b"hR1210010051863000160", 3, 1, 0),
            (1, b"HR121001005186300016-", 3, 1, 20),
            (1, b"HR12100100518630/0 60", 3, 1, 16),
            (22, b"EUr", 5, 2, 21),
            (22, b"HRK", 5, 2, 21),
            (22, b"   ", 5, 2, 21),
            (25, OTHER_IBAN, 0, 0, 0),
            (25, blank, 0, 0, 0),
            (25, b"HR1310010051863000160", 6, 3, 24),
            (25, b"                    1", 5, 3, 24),
            (25, b"1                    ", 5, 3, 24),
            (25, b"HR121001005186300016 ", 5, 3, 24),
            (25, b"                    .", 3, 3, 44),
            (46, b"EUR", 0, 0, 0),
            (46, b"EU ", 5, 4, 45),
            (46, b"000", 5, 4, 45),
            (49, b"0000 ", 3, 5, 52),
            (49, b"/0002", 3, 5, 48),
            (54, b"0000000000000002471x", 3, 6, 72),
            (54, b"-0000000000000024710", 3, 6, 53),
            (74, b"20240228", 0, 0, 0),
            (74, b"20240229", 0, 0, 0),
            (74, b"20240301", 0, 0, 0),
            (74, b"20240230", 11, 7, 73),
            (74, b"20240227", 11, 7, 73),
            (74, b"20230228", 11, 7, 73),
            (74, b"99991231", 0, 0, 0),
            (74, b"99991232", 11, 7, 73),
            (74, b"21000228", 0, 0, 0),
            (74, b"21000229", 11, 7, 73),
            (74, b"24000229", 0, 0, 0),
            (74, b"20240431", 11, 7, 73),
            (74, b"20241301", 11, 7, 73),
            (74, b"20250001", 11, 7, 73),
            (74, b"20250100", 11, 7, 73),
            (74, b"00000000", 11, 7, 73),
            (74, b"2024022a", 3, 7, 80),
            (82, &[0xff; 916], 0, 0, 0),
        ],
    );
    // A day before a date that is none: 11 all the same.
    assert_eq!(with(2, b'4', &[(74, b"20230229")]), refused(11, 2, 7, 73));
}

#[test]
fn fields_of_an_order() {
    let cases: &[(usize, &[u8], u8, usize, usize)] = &[
        // 1: 34 bytes, the last thirteen blank.
        (1, IBAN, 0, 0, 0),
        (1, b"HR1310010051863000160", 6, 1, 0),
        (1, b"HR7023400091510946338 1", 5, 1, 0),
        (1, b"HR70234000915109463380", 5, 1, 0),
        (1, b"                     HR7023400091A", 5, 1, 0),
        (1, b"HR13100100518630001600", 5, 1, 0),
        (1, b"HR7023400091510946338             ", 0, 0, 0),
        (34, b"Z", 5, 1, 0),
        (34, b"-", 3, 1, 33),
        (34, b"\0", 3, 1, 33),
        (22, b"\t", 3, 1, 21),
        (1, b"Hr", 3, 1, 1),
        (1, b"hR                   h", 3, 1, 0),
        // 2 is not judged.
        (35, &[0xff; 140], 0, 0, 0),
        (35, b"\r\n", 0, 0, 0),
        // 5
        (175, b"000", 0, 0, 0),
        (175, b"190", 5, 5, 174),
        (175, b"001", 5, 5, 174),
        (175, b"19 ", 3, 5, 176),
        // 6 and 7
        (178, b"HR01 0                    ", 3, 7, 181),
        (178, b"HR010                     ", 0, 0, 0),
        (178, b"HR011                     ", 9, 7, 181),
        (178, b"HR01                      ", 8, 7, 181),
        (178, b"HR00                      ", 8, 7, 181),
        (178, b"HR99                      ", 0, 0, 0),
        (178, b"HR990                     ", 8, 7, 181),
        (178, b"HR99-                     ", 8, 7, 181),
        (178, b"                          ", 0, 0, 0),
        (178, b"    0                     ", 8, 7, 181),
        (178, b"    -                     ", 8, 7, 181),
        (178, b"    x                     ", 3, 7, 181),
        (178, b"     1                    ", 3, 7, 181),
        (178, b"                         1", 3, 7, 181),
        (178, b"    0                    x", 3, 7, 182),
        (178, b"    01 2                  ", 3, 7, 183),
        (178, b"HR001 2                   ", 3, 7, 182),
        (178, b"HR001-2-3                 ", 0, 0, 0),
        (178, b"HR001-2-3-4               ", 8, 7, 181),
        (178, b"HR001-                    ", 8, 7, 181),
        (178, b"HR00123456789012-123456789", 0, 0, 0),
        (178, b"HR001234567890123         ", 8, 7, 181),
        (178, b"HR00123456789012-12345678.", 3, 7, 202),
        (178, b"HR6940003-12345678903     ", 9, 7, 181),
        (178, b"HR6940002                 ", 8, 7, 181),
        (178, b"HR6940010-12345678903     ", 0, 0, 0),
        (178, b"HR6940010-12345678903-100 ", 5, 7, 181),
        (178, b"HR6940002-12345678904-101 ", 5, 7, 181),
        (178, b"HR6940002-12345678904-100 ", 9, 7, 181),
        (178, b"HR6940002-12345678903-10  ", 8, 7, 181),
        (178, b"HR6940002-12345678903-1 0 ", 3, 7, 200),
        (178, b"HR050                     ", 7, 6, 177),
        (178, b"HR980                     ", 7, 6, 177),
        (178, b"HR05x                     ", 7, 6, 177),
        (178, b"hr010                     ", 5, 6, 177),
        (178, b"HR1 0                     ", 5, 6, 177),
        (178, b"HR 10                     ", 5, 6, 177),
        (178, b"   1                      ", 5, 6, 177),
        (178, b"HRAA                      ", 5, 6, 177),
        (178, b"\0\0\0\0                      ", 5, 6, 177),
        // 8
        (204, b"    ", 0, 0, 0),
        (204, b"AAAA", 0, 0, 0),
        (204, b"ZZZZ", 0, 0, 0),
        (204, b"SAL ", 5, 8, 203),
        (204, b"SALa", 5, 8, 203),
        (204, b"@AAA", 5, 8, 203),
        (204, b"AAA[", 5, 8, 203),
        (204, b"\0\0\0\0", 5, 8, 203),
        // 9
        (208, &[b' '; 140], 5, 9, 207),
        (208, &[b'/'; 140], 0, 0, 0),
        (208, &[0xd0; 140], 0, 0, 0),
        (347, b"~", 3, 9, 346),
        (208, b"\xc5", 3, 9, 207),
        // 10
        (348, b"00000000001235 ", 3, 10, 361),
        (348, b"a00000000012355", 3, 10, 347),
        // 11 and 12, by the same rules
        (363, b"HR010                     ", 0, 0, 0),
        (363, b"HR011                     ", 9, 12, 366),
        (363, b"                          ", 0, 0, 0),
        (363, b"    0                     ", 8, 12, 366),
        (363, b"HR000 1                   ", 3, 12, 367),
        // The code is not that of field 22, and need not be.
        (363, b"HR6940002-12345678903-699 ", 0, 0, 0),
        (363, b"HR6940002-12345678903-698 ", 5, 12, 366),
        (363, b"HR05                      ", 7, 11, 362),
        (363, b"HR0                       ", 5, 11, 362),
        (388, b"/", 3, 12, 387),
        // What stands between is not read.
        (389, &[0; 154], 0, 0, 0),
        // 18
        (543, b"1", 0, 0, 0),
        (543, b"2", 0, 0, 0),
        (543, b"3", 5, 18, 542),
        (543, b" ", 3, 18, 542),
        // 19, 20, 21
        (544, b"   ", 0, 0, 0),
        (544, b"E R", 5, 19, 543),
        (544, b"HRK", 5, 19, 543),
        (547, b" ", 0, 0, 0),
        (547, b"0", 0, 0, 0),
        (547, b"1", 5, 20, 546),
        (547, b"4", 5, 20, 546),
        (547, b"x", 5, 20, 546),
        (548, b" ", 0, 0, 0),
        (548, b"1", 5, 21, 547),
        (548, b"\0", 5, 21, 547),
        // 22 and 23
        (549, b"101", 5, 22, 548),
        (549, b"500", 0, 0, 0),
        (549, b"000", 5, 22, 548),
        (549, b"10 ", 3, 22, 550),
        (552, NO_OIB, 0, 0, 0),
        (552, b"12345678904", 6, 23, 551),
        (552, b"1234567890 ", 3, 23, 561),
        (563, &[0; 435], 0, 0, 0),
    ];
    // The first order and the second: the place is told in either line.
    try_all(3, b'4', cases);
    try_all(4, b'4', cases);
}

#[test]
fn every_byte_of_a_description() {
    let letters: &[u8] = b"\x8a\x9a\x8e\x9e\xc6\xe6\xc8\xe8\xd0\xf0";
    let mut permitted = 0;
    for byte in 0..=255u8 {
        let right =
            byte.is_ascii_alphanumeric() || b" -.,/".contains(&byte) || letters.contains(&byte);
        permitted += usize::from(right);
        for position in [208, 279, 347] {
            let expected = if right {
                ACCEPTED.to_string()
            } else {
                refused(3, 3, 9, position - 1)
            };
            assert_eq!(with(3, b'4', &[(position, &[byte])]), expected, "{byte}");
        }
        // Alone among blanks, where a blank is a blank too many.
        let mut text = [b' '; 140];
        text[77] = byte;
        let expected = match byte {
            b' ' => refused(5, 3, 9, 207),
            _ if right => ACCEPTED.to_string(),
            _ => refused(3, 3, 9, 284),
        };
        assert_eq!(with(3, b'4', &[(208, &text)]), expected, "{byte}");
    }
    assert_eq!(permitted, 10 + 26 + 26 + 5 + 10);
}

/// As 004 prints the list, to be read beside it.
const PRINTED: &str =
    "100 110 120 130 140 150 160 170 180 190 191 200 210 220 230 240 250 260 270 \
    280 290 300 310 320 330 340 350 360 361 370 380 390 400 410 420 430 431 432 433 440 441 450 \
    451 500 510 600 610 620 621 630 640 650 660 690 699";

#[test]
fn every_code() {
    let mut count = 0;
    for code in 0..1000 {
        let text = format!("{code:03}");
        let right = PRINTED.split(' ').any(|printed| printed == text);
        count += usize::from(right);
        let expected = if right {
            ACCEPTED.to_string()
        } else {
            refused(5, 3, 22, 548)
        };
        assert_eq!(with(3, b'4', &[(549, text.as_bytes())]), expected, "{code}");
        assert_eq!(with(3, b'5', &[(549, text.as_bytes())]), expected, "{code}");
    }
    assert_eq!(count, 55);
}

#[test]
fn kind_5() {
    assert_eq!(with(3, b'5', &[]), ACCEPTED);
    assert_eq!(with(3, b'5', &[(552, NO_OIB)]), refused(5, 3, 23, 551));
    assert_eq!(with(4, b'5', &[(552, NO_OIB)]), refused(5, 4, 23, 551));
    assert_eq!(
        with(3, b'5', &[(552, b"12345678904")]),
        refused(6, 3, 23, 551)
    );
    // A credit needs the recipient's model, and the payer's is no help.
    let blank: &[u8] = &[b' '; 26];
    let credit: (usize, &[u8]) = (549, b"500");
    assert_eq!(with(3, b'5', &[credit]), ACCEPTED);
    assert_eq!(with(3, b'5', &[credit, (178, blank)]), ACCEPTED);
    let refusal = refused(5, 3, 22, 548);
    assert_eq!(with(3, b'5', &[credit, (363, blank)]), refusal);
    assert_eq!(with(3, b'4', &[credit, (363, blank)]), ACCEPTED);
    assert_eq!(with(3, b'5', &[(549, b"510"), (363, blank)]), ACCEPTED);
    let empty = b"HR99                      ";
    assert_eq!(with(3, b'5', &[credit, (363, empty)]), ACCEPTED);
    // 22 comes before 23.
    let both = [credit, (363, blank), (552, NO_OIB)];
    assert_eq!(with(3, b'5', &both), refusal);
}

#[test]
fn fields_in_their_order() {
    // Every field of a line wrong: the first is told, then the next, mended.
    for (line, kind) in [(1, b'4'), (2, b'4'), (3, b'5')] {
        let right = file()[line - 1];
        let (_, of) = Type::of(&right).unwrap();
        let judged_places: Vec<Place> = places(of)
            .iter()
            .filter(|p| of != Type::Order || p.field != 2)
            .copied()
            .collect();
        let mut lines = file();
        kind_of(&mut lines[0], kind);
        for place in &judged_places {
            lines[line - 1][place.range()].fill(b'~');
        }
        for place in &judged_places {
            let answer = judged(&lines);
            let end = format!(" line {line} field {} byte {}", place.field, place.start);
            assert!(answer.ends_with(&end), "{answer} {end}");
            lines[line - 1][place.range()].copy_from_slice(&right[place.range()]);
        }
        // Only the kind was mended back.
        kind_of(&mut lines[0], b'4');
        assert_eq!(judged(&lines), ACCEPTED);
    }
}

// The order of lines, numbers and sums.

#[test]
fn types_in_their_order() {
    let [label, group, order, _, close] = file().try_into().unwrap();
    let one = group_line(&[order]);
    let judged = |lines: &[&Line]| {
        let lines: Vec<Line> = lines.iter().map(|l| **l).collect();
        judged(&lines)
    };
    assert_eq!(judged(&[]), refused(14, 1, 0, 0));
    for first in [&group, &order, &close] {
        assert_eq!(judged(&[first]), refused(10, 1, 0, 0));
    }
    assert_eq!(judged(&[&label]), refused(14, 2, 0, 0));
    for second in [&label, &order, &close] {
        assert_eq!(judged(&[&label, second]), refused(10, 2, 0, 0));
    }
    assert_eq!(judged(&[&label, &group]), refused(14, 3, 0, 0));
    for third in [&label, &group, &close] {
        assert_eq!(judged(&[&label, &group, third]), refused(10, 3, 0, 0));
    }
    assert_eq!(judged(&[&label, &group, &order]), refused(14, 4, 0, 0));
    assert_eq!(
        judged(&[&label, &group, &order, &label]),
        refused(10, 4, 0, 0)
    );
    // Too few, noticed at the end or at the next group, before its fields.
    let mut bad = group;
    bad[0] = b'~';
    for fourth in [&group, &bad, &close] {
        assert_eq!(
            judged(&[&label, &group, &order, fourth]),
            refused(12, 4, 0, 0)
        );
    }
    // One too many, noticed at once, before its fields.
    let mut bad = order;
    bad[0] = b'~';
    for fifth in [&order, &bad] {
        assert_eq!(
            judged(&[&label, &group, &order, &order, fifth]),
            refused(12, 5, 0, 0)
        );
    }
    assert_eq!(
        judged(&[&label, &group, &order, &order, &one, &order, &close]),
        "accepted 7 lines 2 groups 3 orders"
    );
    // Nothing after the end, but a line must be one.
    for sixth in [&label, &group, &order, &close] {
        let lines = [&label, &group, &order, &order, &close, sixth];
        assert_eq!(judged(&lines), refused(10, 6, 0, 0));
    }
    let mut unknown = close;
    unknown[999] = b'8';
    let lines = [&label, &group, &order, &order, &close, &unknown];
    assert_eq!(judged(&lines), refused(5, 6, 0, 997));
    unknown[1000] = b'\n';
    let lines = [&label, &group, &order, &order, &close, &unknown];
    assert_eq!(judged(&lines), refused(2, 6, 0, 0));
    let mut bytes = file().as_flattened().to_vec();
    bytes.push(b'\n');
    assert_eq!(answer(whole(DAY, &bytes)), refused(1, 6, 0, 0));
}

#[test]
fn numbers_and_sums() {
    for (number, answer) in [
        ("00002", ACCEPTED.to_string()),
        ("00001", refused(12, 4, 0, 0)),
        ("00000", refused(12, 3, 0, 0)),
        ("00003", refused(12, 5, 0, 0)),
        ("99999", refused(12, 5, 0, 0)),
    ] {
        assert_eq!(with(2, b'4', &[(49, number.as_bytes())]), answer);
    }
    for sum in [
        24_711,
        24_709,
        0,
        24_710 + (1 << 64),
        24_710 + (1 << 32),
        99_999_999_999_999_999_999u128,
    ] {
        let text = format!("{sum:020}");
        assert_eq!(
            with(2, b'4', &[(54, text.as_bytes())]),
            refused(13, 5, 0, 0)
        );
    }
    // An amount of nothing is one too.
    let zeros: (usize, &[u8]) = (348, &[b'0'; 15]);
    assert_eq!(with(3, b'4', &[zeros]), refused(13, 5, 0, 0));
    let mut lines = file();
    lines[2][347..362].fill(b'0');
    lines[1] = group_line(&lines[2..4]);
    assert_eq!(judged(&lines), ACCEPTED);
    // 12 before 13, both before the fields of the line that shows them.
    let wrong = [(49, &b"00003"[..]), (54, b"00000000000000000000")];
    assert_eq!(with(2, b'4', &wrong), refused(12, 5, 0, 0));
    let orders = [order_line()];
    let mut bad = group_line(&orders);
    bad[..21].fill(b'~');
    let mut lines = vec![label_line(), group_line(&orders), orders[0], bad];
    assert_eq!(judged(&lines), refused(3, 4, 1, 0));
    lines[1][72] ^= 1;
    assert_eq!(judged(&lines), refused(13, 4, 0, 0));
}

/// More than 2^64 cents in one group: kept exactly.
#[test]
fn a_sum_beyond_64_bits() {
    const ORDERS: usize = 18_500;
    let mut order = order_line();
    order[347..362].fill(b'9');
    let orders = vec![order; ORDERS];
    let head = group_line(&orders);
    let sum = ORDERS as u128 * 999_999_999_999_999;
    assert!(sum > 1 << 64);
    assert_eq!(&head[48..73], format!("{ORDERS:05}{sum:020}").as_bytes());
    let run = |sum: u128| {
        let mut judge = Judge::begin(DAY);
        judge.step(&label_line()).unwrap();
        let mut head = head;
        head[53..73].copy_from_slice(format!("{sum:020}").as_bytes());
        judge.step(&head).unwrap();
        for line in &orders {
            judge.step(line).unwrap();
        }
        let _ = judge.step(&close_line());
        assert_eq!(judge.counts().total, ORDERS as u128 * 999_999_999_999_999);
        answer(judge.end())
    };
    assert_eq!(run(sum), "accepted 18503 lines 1 groups 18500 orders");
    for wrong in [sum - (1 << 64), sum + 1, sum - 1] {
        assert_eq!(run(wrong), refused(13, 18503, 0, 0));
    }
}

// The judge.

#[test]
fn the_day() {
    let bytes = file().as_flattened().to_vec();
    for day in [
        0, 20240230, 20230229, 21000229, 20221231, 20241301, 20240001, 20240100, 99991232,
        100000101, 120240228,
    ] {
        assert_eq!(answer(whole(day, &bytes)), refused(11, 0, 0, 0));
        assert_eq!(answer(whole(day, b"")), refused(11, 0, 0, 0));
        assert_eq!(answer(whole(day, b"x")), refused(11, 0, 0, 0));
        let mut judge = Judge::begin(day);
        let refusal: Refusal = Reason::Date.into();
        assert_eq!(judge.refusal(), Some(refusal));
        assert_eq!(judge.step(b""), Err(refusal));
        assert_eq!(judge.end(), Err(refusal));
    }
    assert_eq!(answer(whole(20240229, &bytes)), refused(11, 1, 1, 0));
    assert_eq!(answer(whole(DAY, b"")), refused(14, 1, 0, 0));
    assert_eq!(answer(whole(DAY, b"x")), refused(1, 1, 0, 0));
}

#[test]
fn cut_anywhere() {
    let bytes = file().as_flattened().to_vec();
    for length in 0..bytes.len() {
        let (lines, rest) = (length / LINE, length % LINE);
        let number = if rest == 0 { 14 } else { 1 };
        let expected = refused(number, lines + 1, 0, 0);
        assert_eq!(answer(whole(DAY, &bytes[..length])), expected);
    }
}

#[test]
fn refused_once() {
    let lines = file();
    let mut judge = Judge::begin(DAY);
    assert_eq!(judge.step(&lines[0]), Ok(()));
    let expected = Refusal::from(Reason::Type).in_line(2);
    assert_eq!(judge.step(&lines[0]), Err(expected));
    for line in &lines {
        assert_eq!(judge.step(line), Err(expected));
        assert_eq!(judge.end(), Err(expected));
        assert_eq!(judge.refusal(), Some(expected));
    }
    assert_eq!(judge.step(b""), Err(expected));
    // The end changes nothing.
    let mut judge = Judge::begin(DAY);
    for (number, line) in (1..).zip(&lines) {
        let expected = Refusal::from(Reason::Unfinished).in_line(number);
        assert_eq!(judge.end(), Err(expected));
        assert_eq!(judge.step(line), Ok(()));
    }
    assert_eq!(answer(judge.end()), ACCEPTED);
    assert_eq!(answer(judge.end()), ACCEPTED);
}

#[test]
fn a_million_lines() {
    // Nine groups of 99,999 orders, one of 99,997: 999,999 lines before the end.
    let order = order_line();
    let head = |count: u32| {
        let mut line = group_line(&[order]);
        line[48..53].copy_from_slice(format!("{count:05}").as_bytes());
        line[53..73].copy_from_slice(format!("{:020}", count as u64 * 12_355).as_bytes());
        line
    };
    let mut judge = Judge::begin(DAY);
    judge.step(&label_line()).unwrap();
    for count in [99_999; 9].into_iter().chain([99_997]) {
        judge.step(&head(count)).unwrap();
        for _ in 0..count {
            judge.step(&order).unwrap();
        }
    }
    let beyond = Refusal::from(Reason::Lines).in_line(1_000_001);
    assert_eq!(beyond.to_string(), refused(17, 1_000_001, 0, 0));

    // Closed by the millionth line: accepted, but nothing may follow.
    let mut closed = judge;
    assert_eq!(answer(closed.end()), refused(14, 1_000_000, 0, 0));
    closed.step(&close_line()).unwrap();
    assert_eq!(
        answer(closed.end()),
        "accepted 1000000 lines 10 groups 999988 orders"
    );
    for bytes in [&close_line()[..], b"", b"x", &order] {
        let mut judge = closed;
        assert_eq!(judge.step(bytes), Err(beyond));
        assert_eq!(judge.step(bytes), Err(beyond));
        assert_eq!(judge.end(), Err(beyond));
    }

    // Not closed by it, which is judged as any other.
    let mut open = judge;
    assert_eq!(
        open.step(&label_line()),
        Err(Refusal::from(Reason::Type).in_line(1_000_000))
    );
    let mut open = judge;
    open.step(&head(1)).unwrap();
    assert_eq!(answer(open.end()), refused(14, 1_000_001, 0, 0));
    assert_eq!(open.step(&order), Err(beyond));
    assert_eq!(open.end(), Err(beyond));
}

// 02, W5: the file's total, and the tally.

/// Puts an amount into a 309.
fn order_of(cents: u64) -> Line {
    let mut line = order_line();
    line[347..362].copy_from_slice(format!("{cents:015}").as_bytes());
    line
}

/// A right file with one order, and its record before each of the four lines.
fn small(cents: u64) -> [(Line, Record); 4] {
    let order = order_of(cents);
    let mut record = Record::begin(u64::from(DAY));
    [label_line(), group_line(&[order]), order, close_line()].map(|line| {
        let before = record;
        record = record.step(&line);
        assert_ne!(record.condition, REFUSED);
        (line, before)
    })
}

fn tally(groups: usize, orders: usize, high: u64, low: u64) -> Tally {
    let total = Cents { high, low };
    Tally {
        groups,
        orders,
        total,
    }
}

fn overfull(line: usize) -> Told {
    Told {
        number: 29,
        line,
        ..Told::default()
    }
}

const MOST: u64 = u64::MAX;
const LOWS: u64 = 1_000_000_000_000_000_000;

#[test]
fn a_step_with_a_tally() {
    let file = small(1);
    let [label, group, order, close] = [0, 1, 2, 3];
    #[rustfmt::skip]
    let rows = [
        (tally(0, 0, 0, 0), label, Some(tally(0, 0, 0, 0))),
        (tally(0, 0, 0, 0), group, Some(tally(1, 0, 0, 0))),
        (tally(1, 0, 0, 0), order, Some(tally(1, 1, 0, 1))),
        (tally(7, 8, 9, 10), close, Some(tally(7, 8, 9, 10))),
        // At the most, and one beyond.
        (tally(999_999, 0, 0, 0), group, Some(tally(1_000_000, 0, 0, 0))),
        (tally(1_000_000, 0, 0, 0), label, Some(tally(1_000_000, 0, 0, 0))),
        (tally(1_000_000, 0, 0, 0), order, Some(tally(1_000_000, 1, 0, 1))),
        (tally(1_000_000, 0, 0, 0), group, None),
        (tally(0, 999_999, 0, 0), order, Some(tally(0, 1_000_000, 0, 1))),
        (tally(0, 1_000_000, 0, 0), group, Some(tally(1, 1_000_000, 0, 0))),
        (tally(0, 1_000_000, 0, 0), order, None),
        (tally(0, 0, 999, LOWS - 2), order, Some(tally(0, 1, 999, LOWS - 1))),
        (tally(0, 0, 999, LOWS - 1), order, None),
        (tally(0, 0, 999, LOWS - 1), close, Some(tally(0, 0, 999, LOWS - 1))),
        // Beyond already, whatever the line.
        (tally(1_000_001, 0, 0, 0), label, None),
        (tally(0, 1_000_001, 0, 0), close, None),
        (tally(0, 0, 1000, 0), label, None),
        (tally(usize::MAX, 0, 0, 0), group, None),
        (tally(0, usize::MAX, 0, 0), order, None),
        (tally(0, 0, MOST, MOST), order, None),
        (tally(0, 0, MOST, MOST), close, None),
        // Numbers that nobody would write: taken by the cents that they stand for.
        (tally(0, 0, 0, MOST), order, Some(tally(0, 1, 18, 446_744_073_709_551_616))),
        (tally(0, 0, 0, MOST), group, Some(tally(1, 0, 0, MOST))),
        (tally(0, 0, 0, MOST), label, Some(tally(0, 0, 0, MOST))),
        (tally(0, 0, 981, MOST), order, Some(tally(0, 1, 999, 446_744_073_709_551_616))),
        (tally(0, 0, 982, MOST), order, None),
        (tally(0, 0, 999, LOWS), close, None),
        (tally(0, 0, 998, LOWS), order, Some(tally(0, 1, 999, 1))),
    ];
    for (lent, step, taken) in rows {
        let (line, before) = file[step];
        let mut after = lent;
        let answer = before.step_tally(&line, &mut after);
        assert_eq!(after, taken.unwrap_or(lent), "{lent:?} {step}");
        let refused = Record {
            condition: REFUSED,
            told: overfull(step + 1),
            ..before
        };
        let expected = if taken.is_some() {
            before.step(&line)
        } else {
            refused
        };
        assert_eq!(answer, expected, "{lent:?} {step}");
        // A refusal stays, and so does the tally.
        let stood = after;
        if taken.is_none() {
            assert_eq!(answer.step_tally(&line, &mut after), answer);
            assert_eq!(answer.step(&line), answer);
            assert_eq!(answer.steps(&line), answer);
            assert_eq!(answer.end(), Err(overfull(step + 1)));
            assert_eq!(after, stood);
        }
    }
}

/// An order of nothing is an order, and its total is written anew.
#[test]
fn an_order_of_nothing() {
    let [_, _, (line, before), _] = small(0);
    let mut lent = tally(0, 0, 1, LOWS);
    let after = before.step_tally(&line, &mut lent);
    assert_eq!(lent, tally(0, 1, 2, 0));
    assert_eq!(after.file_total, Cents::default());
    let before = Record {
        file_total: Cents { high: 1, low: LOWS },
        ..before
    };
    assert_eq!(before.step(&line).file_total, Cents { high: 2, low: 0 });
    lent = tally(0, 1_000_000, 0, 0);
    assert_eq!(before.step_tally(&line, &mut lent).told, overfull(3));
}

/// 29 is given last, and no refused line changes the tally.
#[test]
fn every_refusal_comes_before_29() {
    let full = tally(usize::MAX, usize::MAX, MOST, MOST);
    let file = small(1);
    let number = |before: Record, line: &[u8]| {
        let mut lent = full;
        let answer = before.step_tally(line, &mut lent);
        assert_eq!(lent, full);
        assert_eq!(answer.condition, REFUSED);
        if answer.told.number != 29 {
            assert_eq!(answer, before.step(line));
        }
        answer.told.number
    };
    for (step, (line, before)) in file.iter().enumerate() {
        assert_eq!(number(*before, line), 29);
        assert_eq!(number(*before, b"short"), 1);
        let mut other = *line;
        other[1000] = b' ';
        assert_eq!(number(*before, &other), 2);
        other = *line;
        other[997] = b'4';
        assert_eq!(number(*before, &other), 5);
        let stranger = file[if step == 0 { 2 } else { 0 }].0;
        assert_eq!(number(*before, &stranger), 10);
        let beyond = Record {
            lines: 1_000_001,
            ..*before
        };
        assert_eq!(number(beyond, line), 17);
        let beyond = Record {
            file_total: Cents { high: 1000, low: 0 },
            ..*before
        };
        assert_eq!(number(beyond, line), 17);
    }
    let [_, _, (order, inside), (close, last)] = file;
    let mut other = order;
    other[0] = b'~';
    assert_eq!(number(inside, &other), 3);
    assert_eq!(number(last, &order), 12);
    let promised = Cents { high: 0, low: 2 };
    assert_eq!(number(Record { promised, ..last }, &close), 13);
}

/// Begun at zero, over several files: what adding all orders anew would give.
#[test]
fn one_tally_over_files() {
    let orders = [order_of(999_999_999_999_999), order_of(1), order_of(0)];
    let mut lines = vec![label_line(), group_line(&orders)];
    lines.extend(orders);
    lines.extend([group_line(&orders[..1]), orders[0], close_line()]);
    let mut lent = Tally::default();
    let mut sum = 0;
    for file in 1..=3 {
        let mut record = Record::begin(u64::from(DAY));
        for line in &lines {
            let plain = record.step(line);
            record = record.step_tally(line, &mut lent);
            assert_eq!(record, plain);
            if line[TYPE] == *b"309" {
                let digits = std::str::from_utf8(&line[347..362]).unwrap();
                sum += digits.parse::<u128>().unwrap();
            }
            assert_eq!(lent.total.value(), sum);
        }
        assert_eq!((lent.groups, lent.orders), (2 * file, 4 * file));
        let total = Cents {
            high: 0,
            low: 1_999_999_999_999_999,
        };
        let ended = record.end().unwrap();
        assert_eq!((ended.groups, ended.orders, ended.total), (2, 4, total));
    }
}

#[test]
fn the_total_of_a_file() {
    let [(label, fresh), (group, labelled), (order, inside), (close, last)] = small(1);
    let with = |record: Record, high, low| Record {
        file_total: Cents { high, low },
        ..record
    };
    let beyond = Told {
        number: 17,
        line: 1_000_001,
        ..Told::default()
    };
    // Only an order changes it.
    for (line, before) in [(label, fresh), (group, labelled), (close, last)] {
        for (high, low) in [(0, 5), (0, MOST), (981, MOST), (999, LOWS - 1)] {
            let after = with(before, high, low).step(&line);
            assert_eq!(after, with(before.step(&line), high, low));
        }
    }
    for (high, low, next_high, next_low) in [
        (0, 12_345, 0, 12_346),
        (0, LOWS - 1, 1, 0),
        (0, MOST, 18, 446_744_073_709_551_616),
        (999, LOWS - 2, 999, LOWS - 1),
        // Reached by this order, which is not refused for it.
        (999, LOWS - 1, 1000, 0),
    ] {
        let after = with(inside, high, low).step(&order);
        assert_eq!(after, with(inside.step(&order), next_high, next_low));
    }
    let reached = with(inside, 999, LOWS - 1).step(&order);
    assert_eq!(reached.step(&close).told, beyond);
    assert_eq!(reached.end(), Err(beyond));
    // Too much is 17 before all else of a line, and at the end.
    for (high, low) in [(1000, 0), (999, LOWS), (982, MOST), (MOST, MOST)] {
        for before in [fresh, labelled, inside, last, last.step(&close)] {
            let before = with(before, high, low);
            let refused = Record {
                condition: REFUSED,
                told: beyond,
                ..before
            };
            assert_eq!(before.step(b"short"), refused);
            assert_eq!(before.steps(&close), refused);
            assert_eq!(before.end(), Err(beyond));
            assert_eq!(before.steps(b""), before);
        }
    }
    // The end tells it as it stands.
    let closed = with(last.step(&close), 5, MOST);
    let total = closed.file_total;
    assert_eq!(closed.end().map(|ended| ended.total), Ok(total));
}

// The writers.

fn written(result: Result<(), Refusal>) -> String {
    match result {
        Ok(()) => "written".to_string(),
        Err(refusal) => refusal.to_string(),
    }
}

#[test]
fn blanks_between() {
    let line = label_line();
    assert_eq!(
        &line[..57],
        b"202402284000112345678903000000000420000000000012345678903"
    );
    assert!(line[57..997].iter().all(|&b| b == b' '));
    assert_eq!(&line[997..], b"300\r\n");
    let line = group_line(&[order_line()]);
    assert_eq!(&line[48..81], b"000010000000000000001235520240228");
    assert!(line[81..997].iter().all(|&b| b == b' '));
    assert_eq!(&line[997..], b"301\r\n");
    let line = order_line();
    assert!(line[388..539].iter().all(|&b| b == b' '));
    assert_eq!(&line[539..562], b"0000EUR3010012345678903");
    assert!(line[562..997].iter().all(|&b| b == b' '));
    assert_eq!(&line[997..], b"309\r\n");
    let line = close_line();
    assert!(line[..997].iter().all(|&b| b == b' '));
    assert_eq!(&line[997..], b"399\r\n");
}

/// One byte more or fewer in any field is 4 there, whatever the bytes; the
/// fields before it come first.
#[test]
fn fields_of_another_length() {
    let orders = order_line();
    let write = |of: Type, fields: &Fields| {
        let mut room = [7; LINE];
        let answer = match of {
            Type::Label => write_label(DAY, &slices(fields), &mut room),
            Type::Group => write_group(DAY, 4, &slices(fields), &orders, &mut room),
            Type::Order => write_order(DAY, 4, &slices(fields), &mut room),
            Type::Close => write_close(DAY, &mut room),
        };
        assert_eq!(answer.is_err(), room == [7; LINE]);
        written(answer)
    };
    for (of, fields) in [
        (Type::Label, label_fields()),
        (Type::Group, group_fields()),
        (Type::Order, order_fields()),
    ] {
        assert_eq!(write(of, &fields), "written");
        let given: Vec<Place> = places(of)
            .iter()
            .filter(|p| of != Type::Group || !matches!(p.field, 5 | 6))
            .copied()
            .collect();
        assert_eq!(given.len(), fields.len());
        for (k, place) in given.iter().enumerate() {
            let expected = refused(4, 0, place.field, place.start);
            let mut other = fields.clone();
            for later in &mut other[k + 1..] {
                *later = b"~".repeat(200);
            }
            for text in [
                fields[k][1..].to_vec(),
                [&fields[k][..], b" "].concat(),
                [&fields[k][..], b"0"].concat(),
                [b"~", &fields[k][..]].concat(),
                Vec::new(),
            ] {
                other[k] = text;
                assert_eq!(write(of, &other), expected);
            }
            // A 3 is told where it would stand in the line.
            let mut other = fields.clone();
            *other[k].last_mut().unwrap() = b'~';
            let answer = write(of, &other);
            let last = place.end - 1;
            let five = refused(5, 0, place.field, place.start);
            let three = refused(3, 0, place.field, last);
            match (of, place.field) {
                (Type::Group, 2 | 4) | (Type::Order, 6 | 8 | 11 | 19 | 20 | 21) => {
                    assert_eq!(answer, five);
                }
                (Type::Order, 2) => assert_eq!(answer, "written"),
                _ => assert_eq!(answer, three),
            }
        }
    }
}

#[test]
fn refusals_of_the_writers() {
    let (label, group, order) = (label_fields(), group_fields(), order_fields());
    let bad_label: Fields = vec![Vec::new(); 8];
    let bad_group: Fields = vec![Vec::new(); 5];
    let bad_order: Fields = vec![Vec::new(); 16];
    let line = order_line();
    let mut none: [u8; 0] = [];
    let mut room = [7; LINE];

    // 11 for the day before all else.
    let eleven = refused(11, 0, 0, 0);
    for day in [0, 20240230, 20221231, 100000101] {
        assert_eq!(
            written(write_label(day, &slices(&bad_label), &mut none)),
            eleven
        );
        assert_eq!(
            written(write_group(day, 9, &slices(&bad_group), b"x", &mut none)),
            eleven
        );
        assert_eq!(
            written(write_order(day, 9, &slices(&bad_order), &mut none)),
            eleven
        );
        assert_eq!(written(write_close(day, &mut none)), eleven);
    }
    // Then 5 for the kind.
    let five = refused(5, 0, 0, 0);
    for kind in [0, 3, 6, 9, 52, 260, u64::MAX] {
        assert_eq!(
            written(write_group(DAY, kind, &slices(&bad_group), b"x", &mut none)),
            five
        );
        assert_eq!(
            written(write_order(DAY, kind, &slices(&bad_order), &mut none)),
            five
        );
    }
    // Then, for a 301, its lent lines.
    for (lent, expected) in [
        (&b"x"[..], refused(1, 0, 0, 0)),
        (&line[1..], refused(1, 0, 0, 0)),
        (&vec![0; LINE + 1], refused(1, 0, 0, 0)),
        (b"", refused(10, 0, 0, 0)),
        (&vec![0; LINE * 100_000], refused(12, 0, 0, 0)),
        (&vec![0; LINE * 99_999], refused(2, 1, 0, 0)),
    ] {
        let answer = write_group(DAY, 4, &slices(&bad_group), lent, &mut none);
        assert_eq!(written(answer), expected);
    }
    let lent = |changes: &[(usize, usize, u8)]| {
        let mut lines = [line; 4];
        for &(number, byte, to) in changes {
            lines[number - 1][byte] = to;
        }
        written(write_group(
            DAY,
            5,
            &slices(&bad_group),
            lines.as_flattened(),
            &mut [],
        ))
    };
    assert_eq!(lent(&[]), refused(4, 0, 1, 0));
    assert_eq!(lent(&[(3, 1000, b' ')]), refused(2, 3, 0, 0));
    assert_eq!(lent(&[(3, 999, b'8')]), refused(5, 3, 0, 997));
    assert_eq!(lent(&[(4, 999, b'1'), (4, 0, b'~')]), refused(10, 4, 0, 0));
    assert_eq!(lent(&[(2, 346, b'~'), (3, 1000, 0)]), refused(3, 2, 9, 346));
    assert_eq!(lent(&[(4, 548, b'9')]), refused(5, 4, 22, 548));
    // The kind rules the lent lines too.
    let mut without = line;
    without[551..562].fill(b'0');
    let run = |kind| {
        written(write_group(
            DAY,
            kind,
            &slices(&group),
            &without,
            &mut [0; LINE],
        ))
    };
    assert_eq!(run(4), "written");
    assert_eq!(run(5), refused(5, 1, 23, 551));
    let mut fields = order.clone();
    fields[15] = NO_OIB.to_vec();
    let run = |kind| written(write_order(DAY, kind, &slices(&fields), &mut [0; LINE]));
    assert_eq!(run(4), "written");
    assert_eq!(run(5), refused(5, 0, 23, 551));

    // The fields before the room; the room must have 1,002 bytes.
    for size in [0, 1, 1000, 1001, 1002, 1003] {
        let mut memory = [7; 1100];
        let room = &mut memory[..size];
        let four = |start| refused(4, 0, 1, start);
        assert_eq!(
            written(write_label(DAY, &slices(&bad_label), room)),
            four(0)
        );
        assert_eq!(
            written(write_order(DAY, 4, &slices(&bad_order), room)),
            four(0)
        );
        assert_eq!(
            written(write_group(DAY, 4, &slices(&bad_group), &line, room)),
            four(0)
        );
        assert_eq!(room, &[7; 1100][..size]);
        for write in 0..4 {
            let mut memory = [7; 1100];
            let room = &mut memory[..size];
            let answer = match write {
                0 => write_label(DAY, &slices(&label), room),
                1 => write_group(DAY, 4, &slices(&group), &line, room),
                2 => write_order(DAY, 5, &slices(&order), room),
                _ => write_close(DAY, room),
            };
            if size < LINE {
                assert_eq!(answer, Err(Refusal::at(Reason::Room, 1002)));
                assert_eq!(memory, [7; 1100]);
            } else {
                assert_eq!(answer, Ok(()));
                let expected = [label_line(), group_line(&[line]), line, close_line()][write];
                assert_eq!(memory[..LINE], expected);
                assert_eq!(memory[LINE..], [7; 98]);
            }
        }
    }
    assert_eq!(room, [7; LINE]);
    write_close(DAY, &mut room).unwrap();
}

// The program.

fn run(input: &[u8]) -> String {
    let mut output = Vec::new();
    program(input, &mut output).unwrap();
    String::from_utf8(output).unwrap()
}

#[test]
fn the_file_program() {
    let bytes = file().as_flattened().to_vec();
    let input = [b"20240228\n", &bytes[..]].concat();
    assert_eq!(run(&input), format!("{ACCEPTED}\n"));
    let eleven = "refused 11 line 0 field 0 byte 0\n";
    for front in [
        &b""[..],
        b"2",
        b"20240228",
        b"20240228\r\n",
        b"2024022\n8",
        b"2024022\n",
        b"020240228\n",
        b"20240230\n",
        b"2024022x\n",
        b"\n20240228\n",
        b" 20240228\n",
        b"20240228 \n",
        b"00000000\n",
    ] {
        assert_eq!(run(front), eleven);
        assert_eq!(run(&[front, &bytes].concat()), eleven, "{front:?}");
    }
    assert_eq!(run(b"20240228\n"), "refused 14 line 1 field 0 byte 0\n");
    assert_eq!(
        run(&[&input[..], b"\n"].concat()),
        "refused 1 line 6 field 0 byte 0\n"
    );
    assert_eq!(
        run(&input[..input.len() - 1]),
        "refused 1 line 5 field 0 byte 0\n"
    );
}

/// However the bytes arrive, and about the size that is read at a time.
#[test]
fn bytes_in_drops() {
    struct Drops<'a>(&'a [u8], usize);
    impl std::io::Read for Drops<'_> {
        fn read(&mut self, room: &mut [u8]) -> std::io::Result<usize> {
            let size = self.1.min(room.len()).min(self.0.len());
            room[..size].copy_from_slice(&self.0[..size]);
            self.0 = &self.0[size..];
            Ok(size)
        }
    }
    let order = order_line();
    for count in [1, 61, 62, 124, 125, 126, 127, 128, 129, 253, 300] {
        let orders = vec![order; count];
        let mut input = b"20240228\n".to_vec();
        input.extend(label_line());
        input.extend(group_line(&orders));
        input.extend(orders.as_flattened());
        input.extend(close_line());
        let accepted = format!("accepted {} lines 1 groups {count} orders\n", count + 3);
        for size in [1, 1001, 1002, 1003, 65536, usize::MAX] {
            let mut output = Vec::new();
            program(Drops(&input, size), &mut output).unwrap();
            assert_eq!(output, accepted.as_bytes());
        }
        let mut more = input.clone();
        more.push(0);
        let expected = format!("refused 1 line {} field 0 byte 0\n", count + 4);
        assert_eq!(run(&more), expected);
        more.extend([0; 1001]);
        let expected = format!("refused 2 line {} field 0 byte 0\n", count + 4);
        assert_eq!(run(&more), expected);
        let expected = format!("refused 14 line {} field 0 byte 0\n", count + 3);
        assert_eq!(run(&input[..input.len() - LINE]), expected);
    }
}
