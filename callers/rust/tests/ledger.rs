//! Slips of either currency: read, queried, refused; lipa in cents.

use lanecockle::ledger::{self, Amount, Cents, Lipa};
use lanecockle::{slip, Field, Kind, Layout, Refusal, FIELDS};

const IBAN: &[u8] = b"HR1210010051863000160";
const ACCOUNT: &[u8] = b"1001005-1863000160";

/// The fields of a slip that is accepted, of a currency and an account.
fn fields<'a>(currency: &'a [u8], account: &'a [u8]) -> [&'a [u8]; 14] {
    [
        b"HRVHUB30",
        currency,
        b"000000000012355",
        "ŽELJKO SENEKOVIĆ".as_bytes(),
        "IVANEČKA ULICA 125".as_bytes(),
        "42000 VARAŽDIN".as_bytes(),
        b"2DBK d.d.",
        b"ALKARSKI PROLAZ 13B",
        b"21230 SINJ",
        account,
        b"HR01",
        b"7269-68949637676-00018",
        b"COST",
        "Troškovi za 1. mjesec".as_bytes(),
    ]
}

/// The three slips that are accepted: in euro, and in kuna with an IBAN and with an account.
fn accepted() -> [[&'static [u8]; 14]; 3] {
    [fields(b"EUR", IBAN), fields(b"HRK", IBAN), fields(b"HRK", ACCOUNT)]
}

fn joined(fields: &[&[u8]; 14]) -> Vec<u8> {
    fields.iter().flat_map(|field| [field, &b"\n"[..]].concat()).collect()
}

/// Fields with one of them, 1 to 14, replaced, and where it begins.
fn with<'a>(mut fields: [&'a [u8]; 14], number: usize, text: &'a [u8]) -> (Vec<u8>, usize) {
    fields[number - 1] = text;
    (joined(&fields), fields[..number - 1].iter().map(|field| field.len() + 1).sum())
}

fn refused(kind: Kind, field: usize, byte: usize) -> Refusal {
    Refusal { kind, line: 0, field, byte, needed: 0 }
}

#[test]
fn a_slip_of_either_currency_is_read() {
    let [euro, kuna, account] = accepted().map(|fields| joined(&fields));
    assert_eq!(ledger::read(&euro), Ok(Amount::Euro(Cents(12355))));
    assert_eq!(ledger::read(&kuna), Ok(Amount::Kuna(Lipa(12355))));
    assert_eq!(ledger::read(&account), Ok(Amount::Kuna(Lipa(12355))));
}

#[test]
fn amounts_are_told_in_their_own_unit() {
    for (digits, number) in [("000000000000000", 0), ("000000000000001", 1), ("999999999999999", 999_999_999_999_999)] {
        let [euro, kuna, _] = accepted().map(|fields| with(fields, 3, digits.as_bytes()).0);
        assert_eq!(ledger::read(&euro), Ok(Amount::Euro(Cents(number))));
        assert_eq!(ledger::read(&kuna), Ok(Amount::Kuna(Lipa(number))));
    }
}

#[test]
fn fields_are_borrowed_from_the_slip() {
    for fields in accepted() {
        let slip = joined(&fields);
        let mut start = 29;
        for number in 4..=14 {
            let field = ledger::field(&slip, number);
            assert_eq!((field, field.as_ptr()), (fields[number - 1], slip[start..].as_ptr()));
            start += field.len() + 1;
        }
        for number in [0, 1, 2, 3, 15, usize::MAX] {
            assert_eq!(ledger::field(&slip, number), b"");
        }
    }
}

#[test]
fn a_slip_is_refused_whole() {
    for (size, kind) in [(slip::MOST + 1, Kind::Size), (slip::MOST, Kind::Ends), (0, Kind::Ends)] {
        let slip = vec![b'\n'; size];
        assert_eq!(ledger::read(&slip), Err(refused(kind, 0, 0)));
        assert_eq!(ledger::field(&slip, 4), b"");
    }
}

#[test]
fn another_currency_is_refused() {
    for currency in ["USD", "", "hrk", "HRK ", "HR", "HRKK", "EURO", "HRK\r"] {
        let slip = joined(&fields(currency.as_bytes(), IBAN));
        assert_eq!(ledger::read(&slip), Err(refused(Kind::Form, 2, 9)), "{currency:?}");
        assert_eq!(ledger::field(&slip, 4), b"");
    }
}

/// One field replaced by a text, and its refusal, whatever the currency; the byte is counted within the field.
const REPLACED: [(usize, &[u8], Kind, usize); 12] = [
    (1, b"HRVHUB31", Kind::Form, 0),
    (3, b"00000000001235O", Kind::Byte, 14),
    (3, b"00000000012355", Kind::Length, 0),
    (4, b"IVAN_", Kind::Byte, 4),
    (5, &[b'x'; 28], Kind::Length, 0),
    (10, b"HR1310010051863000160", Kind::Check, 0),
    (11, b"HRO1", Kind::Form, 0),
    (11, b"HR12", Kind::Model, 0),
    (12, b"1-", Kind::Parts, 0),
    (12, b"7269-68949637676-00019", Kind::Digit, 0),
    (13, b"COSt", Kind::Byte, 3),
    (14, b"\xC4", Kind::Byte, 0),
];

#[test]
fn a_field_is_refused_in_either_currency() {
    for fields in accepted() {
        for (number, text, kind, byte) in REPLACED {
            let (slip, start) = with(fields, number, text);
            assert_eq!(ledger::read(&slip), Err(refused(kind, number, start + byte)));
            assert_eq!(ledger::field(&slip, 4), b"");
        }
    }
}

/// Field 10 of a kuna slip: what is refused in it, the byte counted within it.
const ACCOUNTS: [(&[u8], Kind, usize); 14] = [
    (b"1001005A1863000160", Kind::Form, 0),
    (b"100100518-63000160", Kind::Form, 0),
    (b"1001005--863000160", Kind::Form, 0),
    (b"100100511863000160", Kind::Form, 0),
    (b"1001005-186300016A", Kind::Form, 0),
    (b"1001005-186300016", Kind::Length, 0),
    (b"1001005-18630001600", Kind::Length, 0),
    (b"100100518630001601234", Kind::Length, 0),
    (b"1001005 1863000160", Kind::Byte, 7),
    (b"1001005-186300016a", Kind::Byte, 17),
    (b"1_", Kind::Byte, 1),
    // these begin with no digit, so they are to be IBANs
    (b"HR12-0010051863000160", Kind::Byte, 4),
    (b"-10010051863000160", Kind::Byte, 0),
    (b"", Kind::Length, 0),
];

#[test]
fn an_account_has_its_form() {
    for (text, kind, byte) in ACCOUNTS {
        let (slip, start) = with(fields(b"HRK", ACCOUNT), 10, text);
        assert_eq!(ledger::read(&slip), Err(refused(kind, 10, start + byte)), "{text:?}");
    }
    for text in [&b"0000000-0000000000"[..], b"9999999-9999999999", b"1001005-1700128481"] {
        assert_eq!(ledger::read(&with(fields(b"HRK", ACCOUNT), 10, text).0), Ok(Amount::Kuna(Lipa(12355))));
    }
}

#[test]
fn an_account_is_a_kuna_slip_s_alone() {
    let (slip, start) = with(fields(b"EUR", IBAN), 10, ACCOUNT);
    assert_eq!(ledger::read(&slip), Err(refused(Kind::Byte, 10, start + 7)));
    assert_eq!(slip::read(&slip), ledger::read(&slip).map(|_| ()));
}

#[test]
fn a_reader_of_euro_slips_refuses_the_kuna() {
    for account in [IBAN, ACCOUNT] {
        let slip = joined(&fields(b"HRK", account));
        assert_eq!(slip::read(&slip), Err(refused(Kind::Form, 2, 9)));
        assert_eq!(slip::cents(&slip), Err(refused(Kind::Form, 2, 9)));
        assert_eq!(slip::field(&slip, 10), b"");
    }
}

#[test]
fn a_euro_slip_is_the_same_to_both_readers() {
    let right = fields(b"EUR", IBAN);
    let slips = REPLACED.map(|(number, text, ..)| with(right, number, text).0);
    for slip in slips.into_iter().chain([joined(&right), b"".to_vec()]) {
        assert_eq!(ledger::read(&slip), slip::cents(&slip).map(|cents| Amount::Euro(Cents(cents))));
        for number in 0..16 {
            assert_eq!(ledger::field(&slip, number), slip::field(&slip, number));
        }
    }
}

/// Whether so many cents are the nearest to so many lipa: twice the distance is less than a cent.
fn is_nearest(lipa: u64, cents: u64) -> bool {
    let (lipa, cents) = (u128::from(lipa) * 10_000, u128::from(cents) * 75_345);
    2 * lipa.abs_diff(cents) < 75_345
}

#[test]
fn lipa_in_cents_are_the_nearest() {
    assert_eq!([0, 3, 4, 12355, 75345].map(|lipa| Lipa(lipa).in_cents().0), [0, 0, 1, 1640, 10000]);
    assert_eq!(Lipa(999_999_999_999_999).in_cents(), Cents(132_722_808_414_626));
    assert_eq!(Lipa(u64::MAX).in_cents(), Cents(2_448_303_679_568_591_362));
    let wide = (0..64).flat_map(|bit| (0..99).map(move |less| (u64::MAX >> bit).wrapping_sub(less)));
    for lipa in (0..200_000).chain(wide) {
        assert!(is_nearest(lipa, Lipa(lipa).in_cents().0), "{lipa}");
    }
}

#[test]
fn fields_of_a_kuna_slip_are_those_that_differ() {
    let kuna: Vec<&Field> = FIELDS.iter().filter(|field| field.layout == Layout::Kuna).collect();
    assert_eq!(kuna.iter().map(|field| field.number).collect::<Vec<_>>(), [2, 3, 10]);
    for field in kuna {
        assert_ne!(Some(field.rule), Field::of(Layout::Slip, field.number).map(|of_slip| of_slip.rule));
        assert_eq!(Field::of(Layout::Kuna, field.number), Some(field));
    }
    for number in [1, 4, 9, 11, 14] {
        assert_eq!(Field::of(Layout::Kuna, number), Field::of(Layout::Slip, number));
    }
    assert_eq!(Field::of(Layout::Kuna, 15), None);
}
