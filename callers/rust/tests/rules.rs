//! Check digits, accounts, references and wet slips: every call, its refusals, and the lent memory after them.

use lanecockle::{
    check_digits, filled, iban, list_iban, list_reference, make_digit, oib, reference, Kind, Refusal, Rule, FILLINGS,
};

/// A refusal without a place.
fn refused(kind: Kind) -> Refusal {
    Refusal { kind, line: 0, field: 0, byte: 0, needed: 0 }
}

/// A byte that is not permitted.
fn wrong_byte(byte: usize) -> Refusal {
    Refusal { byte, ..refused(Kind::Byte) }
}

#[test]
fn digits_are_checked() {
    assert_eq!(check_digits(Rule::Ini, b"102305789016"), Ok(()));
    assert_eq!(check_digits(Rule::Mod1110, b"2340009"), Ok(()));
    assert_eq!(check_digits(Rule::Ini, b"2340009"), Err(refused(Kind::Digit)));
    assert_eq!(check_digits(Rule::Mod1110, b"102305789016"), Err(refused(Kind::Digit)));
    assert_eq!(check_digits(Rule::Ini, b""), Err(refused(Kind::Size)));
    assert_eq!(check_digits(Rule::Ini, &[b'0'; 22]), Ok(()));
    assert_eq!(check_digits(Rule::Ini, &[b'0'; 23]), Err(refused(Kind::Size)));
    assert_eq!(check_digits(Rule::Ini, b"1x"), Err(refused(Kind::Byte)));
}

#[test]
fn digits_are_made() {
    assert_eq!(make_digit(Rule::Ini, b"10230578901"), Ok(6));
    assert_eq!(make_digit(Rule::Mod1110, b"234000"), Ok(9));
    assert_eq!(make_digit(Rule::Ini, &[b'0'; 19]), Ok(0));
    assert_eq!(make_digit(Rule::Ini, &[b'0'; 20]), Err(refused(Kind::Size)));
    assert_eq!(make_digit(Rule::Mod1110, b"12-3"), Err(refused(Kind::Byte)));
}

#[test]
fn a_made_digit_passes() {
    for rule in [Rule::Ini, Rule::Mod1110] {
        for number in 0..1000 {
            let mut digits = number.to_string().into_bytes();
            let digit = make_digit(rule, &digits).unwrap();
            digits.push(b'0' + digit);
            assert_eq!(check_digits(rule, &digits), Ok(()));
        }
    }
}

#[test]
fn accounts() {
    assert_eq!(iban(b"HR1210010051863000160"), Ok(()));
    assert_eq!(iban(b"HR1310010051863000160"), Err(refused(Kind::Check)));
    assert_eq!(iban(b"HR9910010051863000049"), Err(refused(Kind::Check)));
    assert_eq!(iban(b"HR12 10010051863000160"), Err(wrong_byte(4)));
    assert_eq!(iban(b""), Err(refused(Kind::Length)));
    assert_eq!(iban(b"SI1210010051863000160"), Err(refused(Kind::Form)));
    assert_eq!(oib(b"12345678903"), Ok(()));
    assert_eq!(oib(b"12345678904"), Err(refused(Kind::Check)));
    assert_eq!(oib(b"1234567890"), Err(refused(Kind::Length)));
    assert_eq!(oib(b"1234567890x"), Err(wrong_byte(10)));
}

#[test]
fn references() {
    assert_eq!(reference(b"HR69", b"40002-12345678903-100"), Ok(()));
    assert_eq!(reference(b"HR99", b""), Ok(()));
    assert_eq!(reference(b"HR69", b"40003-12345678903"), Err(refused(Kind::Digit)));
    assert_eq!(reference(b"HR69", b"40002"), Err(refused(Kind::Parts)));
    assert_eq!(reference(b"HR01", &[b'1'; 23]), Err(refused(Kind::Length)));
    assert_eq!(reference(b"HR01", b"12a"), Err(wrong_byte(2)));
    assert_eq!(reference(b"HR12", b"1"), Err(refused(Kind::Model)));
    assert_eq!(reference(b"", b"1"), Err(refused(Kind::Form)));
}

/// References under HR69, and what refuses them: with three parts they are for personal income, 40002, an OIB and a code; 5
/// comes after 8 and before 9.
const PERSONAL_INCOME: [(&[u8], Option<Kind>); 16] = [
    (b"40002-12345678903-100", None),
    (b"40002-12345678903-699", None),
    (b"40010-12345678903", None),
    (b"40003-12345678903", Some(Kind::Digit)),
    (b"40002-12345678904-100", Some(Kind::Digit)),
    (b"40010-12345678903-100", Some(Kind::Form)),
    (b"40003-12345678903-100", Some(Kind::Form)),
    (b"40003-12345678904-999", Some(Kind::Form)),
    (b"40002-12345678903-101", Some(Kind::Form)),
    (b"40002-12345678903-000", Some(Kind::Form)),
    (b"40002-12345678903-099", Some(Kind::Form)),
    (b"40002-12345678904-101", Some(Kind::Form)),
    (b"40002-12345678903-10", Some(Kind::Parts)),
    (b"40002-12345678903-10-1", Some(Kind::Parts)),
    (b"40002", Some(Kind::Parts)),
    (b"40002-12345678903-100-1", Some(Kind::Length)),
];

#[test]
fn personal_income() {
    for (text, kind) in PERSONAL_INCOME {
        assert_eq!(reference(b"HR69", text).err(), kind.map(refused), "{text:?}");
    }
    assert_eq!(reference(b"HR00", b"40003-12345678904-101"), Ok(()));
}

#[test]
fn wet_ibans() {
    let mut out = [7; 3];
    assert_eq!(list_iban(b"HR??10010051863000160", &mut out), Ok(1));
    assert_eq!(out, [12, 7, 7]);
    let mut out = [7; 3];
    assert_eq!(list_iban(b"HR1310010051863000160", &mut out), Ok(0));
    assert_eq!(list_iban(b"HR", &mut out), Err(refused(Kind::Size)));
    assert_eq!(list_iban(b"?R1210010051863000160", &mut out), Err(refused(Kind::Byte)));
    assert_eq!(list_iban(b"HR?????10051863000160", &mut out), Err(refused(Kind::Marks)));
    assert_eq!(out, [7; 3]);
    let needed = Refusal { needed: 1, ..refused(Kind::Room) };
    assert_eq!(list_iban(b"HR??10010051863000160", &mut []), Err(needed));
}

#[test]
fn wet_references() {
    let mut out = [7; 11];
    let needed = Refusal { needed: 10, ..refused(Kind::Room) };
    assert_eq!(list_reference(b"HR01", b"??", &mut out[..9]), Err(needed));
    assert_eq!(list_reference(b"HR01", &[b'1'; 23], &mut out), Err(refused(Kind::Size)));
    assert_eq!(list_reference(b"HR01", b"x", &mut out), Err(refused(Kind::Byte)));
    assert_eq!(list_reference(b"HR01", b"?????", &mut out), Err(refused(Kind::Marks)));
    assert_eq!(list_reference(b"HR", b"?", &mut out), Err(refused(Kind::Form)));
    assert_eq!(list_reference(b"HR12", b"?", &mut out), Err(refused(Kind::Model)));
    assert_eq!(out, [7; 11]);
    assert_eq!(list_reference(b"HR01", b"??", &mut out), Ok(10));
    assert_eq!(out, [0, 19, 27, 35, 43, 51, 60, 78, 86, 94, 7]);
}

#[test]
fn wet_personal_income() {
    let mut out = [7; 56];
    assert_eq!(list_reference(b"HR69", b"40002-12345678903-10?", &mut out), Ok(1));
    assert_eq!(out[..2], [0, 7]);
    assert_eq!(list_reference(b"HR69", b"40010-1234567890?", &mut out), Ok(1));
    assert_eq!(out[..2], [3, 7]);
    assert_eq!(list_reference(b"HR69", b"40010-12345678903-???", &mut out), Ok(0));
    assert_eq!(list_reference(b"HR69", b"4000?-12345678903-???", &mut out), Ok(55));
    assert_eq!((out[0], out[1], out[54], out[55]), (2100, 2110, 2699, 7));
}

#[test]
fn every_filling_passes_and_no_other() {
    for (model, text) in [(b"HR01", &b"??0-1?"[..]), (b"HR69", b"4000?-12345678903-???")] {
        let mut numbers = [0; FILLINGS];
        let count = list_reference(model, text, &mut numbers).unwrap();
        let marks = text.iter().filter(|&&byte| byte == b'?').count() as u32;
        let passing: Vec<u16> = (0..10_u16.pow(marks))
            .filter(|&number| {
                let mut out = text.to_vec();
                filled(text, number, &mut out).unwrap();
                reference(model, &out).is_ok()
            })
            .collect();
        assert!(count > 0);
        assert_eq!(numbers[..count], passing);
    }
}

#[test]
fn texts_are_filled() {
    let mut out = *b"........";
    assert_eq!(filled(b"?-?-?", 7, &mut out), Ok(()));
    assert_eq!(&out, b"0-0-7...");
    assert_eq!(filled(b"", 7, &mut []), Ok(()));
    let needed = Refusal { needed: 9, ..refused(Kind::Room) };
    assert_eq!(filled(b"?-?-?-?-?", 7, &mut out), Err(needed));
    assert_eq!(&out, b"0-0-7...");
}
