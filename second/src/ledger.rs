//! Slips of either kind, as the ledgers hold them (02, W1): those of 000 in
//! euro, and those of 001, printed before 2023, in kuna.

use crate::refusal::Refusal;
use crate::slip::{print, taken, Currency, Divided, TEXTS};
use std::io::{self, Read, Write};

/// 7.53450 kuna for a euro: so many lipa are ten thousand cents.
const RATE: u128 = 75_345;
const TEN_THOUSAND: u128 = 10_000;

/// An amount in its own unit: lipa and cents are never added.
#[derive(Clone, Copy, Debug, PartialEq, Eq)]
pub enum Amount {
    Cents(u64),
    Lipa(u64),
}

/// What a slip of either kind says.
#[derive(Clone, Copy, Debug, PartialEq, Eq)]
pub struct Entry<'a> {
    pub amount: Amount,
    pub texts: [&'a [u8]; TEXTS],
}

impl<'a> Entry<'a> {
    /// Field 2 says by which rules the slip is read: whatever is not `HRK` has
    /// to be a euro slip.
    pub fn read(input: &'a [u8]) -> Result<Entry<'a>, Refusal> {
        let slip = Divided::at_line_ends(input)?;
        if slip.fields[2 - 1] == Currency::Kuna.word() {
            let (lipa, texts) = slip.judged(Currency::Kuna)?;
            let amount = Amount::Lipa(lipa);
            Ok(Entry { amount, texts })
        } else {
            let (cents, texts) = slip.judged(Currency::Euro)?;
            let amount = Amount::Cents(cents);
            Ok(Entry { amount, texts })
        }
    }
}

/// The nearest number of cents. No number of lipa lies in the middle between
/// two: twice its ten-thousandths are even, and the rate is odd.
pub fn in_cents(lipa: u64) -> u64 {
    let exact = u128::from(lipa) * TEN_THOUSAND;
    let (below, rest) = (exact / RATE, exact % RATE);
    let nearest = if 2 * rest > RATE { below + 1 } else { below };
    u64::try_from(nearest).expect("no more cents than lipa")
}

/// The program ledger: a slip of either kind in, which it was and its fields, or
/// the refusal, out. A kuna amount is shown in cents too.
pub fn program(input: impl Read, mut output: impl Write) -> io::Result<()> {
    match Entry::read(&taken(input)?) {
        Err(refusal) => writeln!(output, "{refusal}")?,
        Ok(entry) => match entry.amount {
            Amount::Cents(cents) => {
                writeln!(output, "accepted euro")?;
                print(&mut output, cents, &entry.texts)?;
            }
            Amount::Lipa(lipa) => {
                writeln!(output, "accepted kuna")?;
                print(&mut output, lipa, &entry.texts)?;
                writeln!(output, "cents={}", in_cents(lipa))?;
            }
        },
    }
    output.flush()
}

#[cfg(test)]
mod tests {
    use super::*;
    use crate::generate::{ledger_slip, slip, Dice};
    use crate::refusal::Reason;
    use crate::slip::{Slip, LARGEST, TOO_MUCH};

    /// 001's second printed slip, its amount and its reference mended.
    const PRINTED: [&str; 14] = [
        "HRVHUB30",
        "HRK",
        "000000000012355",
        "ŽELJKO SENEKOVIĆ",
        "IVANEČKA ULICA 125",
        "42000 VARAŽDIN",
        "2DBK d.d.",
        "ALKARSKI PROLAZ 13B",
        "21230 SINJ",
        "1001005-1863000160",
        "HR01",
        "7269-68949637676-00018",
        "COST",
        "Troškovi za 1. mjesec",
    ];

    fn with(changes: &[(usize, &[u8])]) -> Vec<u8> {
        let mut fields = PRINTED.map(str::as_bytes);
        for &(number, text) in changes {
            fields[number - 1] = text;
        }
        [fields.join(&b'\n'), b"\n".to_vec()].concat()
    }

    fn answer(input: &[u8]) -> Result<Amount, (u8, usize, usize)> {
        let read = Entry::read(input).map(|entry| entry.amount);
        read.map_err(|r| (r.number(), r.field, r.detail))
    }

    const PASSES: Result<Amount, (u8, usize, usize)> = Ok(Amount::Lipa(12355));

    #[test]
    fn printed_slip() {
        let input = with(&[]);
        let entry = Entry::read(&input).unwrap();
        assert_eq!(entry.amount, Amount::Lipa(12355));
        assert_eq!(entry.texts[..], PRINTED.map(str::as_bytes)[3..]);
        for (number, text, refused) in [
            (3, "00000000012355", (4, 3, 13)),
            (11, "HRO1", (5, 11, 144)),
            (12, "7269-68949637676-00019", (9, 12, 149)),
        ] {
            let printed = with(&[(number, text.as_bytes())]);
            assert_eq!(answer(&printed), Err(refused), "{text}");
        }
    }

    #[test]
    fn either_kind() {
        let iban: (usize, &[u8]) = (10, b"HR1210010051863000160");
        assert_eq!(answer(&with(&[iban])), PASSES);
        let euro: (usize, &[u8]) = (2, b"EUR");
        assert_eq!(answer(&with(&[euro, iban])), Ok(Amount::Cents(12355)));
        assert_eq!(answer(&with(&[euro])), Err((3, 10, 132)));
        for unit in [
            "", "USD", "hrk", "HR", "HRKK", "HRK ", " HRK", "HRK\r", "EURO", "191",
        ] {
            let other = with(&[(2, unit.as_bytes()), (3, b"x"), (10, b"")]);
            assert_eq!(answer(&other), Err((5, 2, 9)), "{unit}");
        }
    }

    #[test]
    fn field_10_of_a_kuna_slip() {
        for (text, refused) in [
            (&b""[..], (4, 125)),
            (b"1001005 1863000160", (3, 132)),
            (b"1001005-186300016", (4, 125)),
            (b"121001005186300016000", (4, 125)),
            (b"1001005A1863000160", (5, 125)),
            (b"100100518-63000160", (5, 125)),
            (b"HR12-0010051863000160", (3, 129)),
            (b"HR121001005186300016", (4, 125)),
            (b"SI1210010051863000160", (5, 125)),
            (b"HR1310010051863000160", (6, 125)),
        ] {
            let (number, byte) = refused;
            let expected = Err((number, 10, byte));
            assert_eq!(answer(&with(&[(10, text)])), expected, "{text:?}");
        }
    }

    #[test]
    fn order_of_refusals() {
        let wrong: (usize, &[u8]) = (10, b"1001005");
        assert_eq!(answer(&with(&[wrong, (1, b"")])), Err((5, 1, 0)));
        assert_eq!(answer(&with(&[wrong, (3, b"1")])), Err((4, 3, 13)));
        assert_eq!(answer(&with(&[wrong, (9, b";")])), Err((3, 9, 114)));
        assert_eq!(answer(&with(&[wrong, (11, b"")])), Err((4, 10, 125)));
        assert_eq!(answer(&with(&[(10, b"1a")])), Err((3, 10, 126)));
        assert_eq!(answer(&with(&[(11, b"HR05")])), Err((7, 11, 144)));
        assert_eq!(answer(&with(&[(12, b"1--")])), Err((8, 12, 149)));
    }

    #[test]
    fn size_and_line_ends() {
        let slip = with(&[]);
        assert_eq!(answer(b""), Err((2, 0, 0)));
        assert_eq!(answer(b"HRVHUB30\nHRK\n"), Err((2, 0, 0)));
        assert_eq!(answer(&slip[..slip.len() - 1]), Err((2, 0, 0)));
        assert_eq!(answer(&[&slip[..], b"\n"].concat()), Err((2, 0, 0)));
        assert_eq!(answer(&[b'\n'; 14]), Err((5, 1, 0)));
        let letters = "Ž".repeat(35).into_bytes();
        let limits = [30, 27, 27, 25, 25, 27].map(|most| &letters[..2 * most]);
        let mut full: Vec<(usize, &[u8])> = (4..).zip(limits).collect();
        full.extend([(14, &letters[..]), (10, b"HR1210010051863000160")]);
        let largest = with(&full);
        assert_eq!(largest.len(), LARGEST);
        assert_eq!(answer(&largest), PASSES);
        assert_eq!(answer(&[&largest[..], b"\n"].concat()), Err((1, 0, 0)));
    }

    /// What the euro reader accepts is a euro slip here, with the same fields;
    /// what is a kuna slip here it refuses with 5 at field 2.
    #[test]
    fn beside_the_euro_reader() {
        let mut dice = Dice::new(1);
        let mut met = [0; 2];
        for k in 0..20_000 {
            let input = match k % 4 {
                0 => slip(&mut dice),
                _ => ledger_slip(&mut dice),
            };
            let (either, euro) = (Entry::read(&input), Slip::read(&input));
            match (either, euro) {
                (Ok(entry), Ok(slip)) => {
                    assert_eq!(entry.amount, Amount::Cents(slip.cents));
                    assert_eq!(entry.texts, slip.texts);
                    met[0] += 1;
                }
                (Ok(entry), Err(refusal)) => {
                    assert!(matches!(entry.amount, Amount::Lipa(_)));
                    assert_eq!(refusal, Refusal::at(Reason::Form, 0).in_field(2, 9));
                    met[1] += 1;
                }
                (Err(_), Ok(_)) => panic!("{}", input.escape_ascii()),
                (Err(_), Err(_)) => {}
            }
        }
        assert!(met.iter().all(|&times| times > 2_000), "{met:?}");
    }

    /// Twice the distance is below the rate.
    fn is_nearest(lipa: u64, cents: u64) -> bool {
        let (lipa, cents) = (u128::from(lipa), u128::from(cents));
        (cents * RATE).abs_diff(lipa * TEN_THOUSAND) * 2 < RATE
    }

    #[test]
    fn nearest_cents() {
        for (lipa, cents) in [
            (0, 0),
            (3, 0),
            (4, 1),
            (753_450, 100_000),
            (12_355, 1_640),
            // The nearest to the middle between two, on either side of it.
            (11_411, 1_514),
            (3_658, 486),
            (TOO_MUCH - 1, 132_722_808_414_626),
            (u64::MAX, 2_448_303_679_568_591_362),
        ] {
            assert_eq!(in_cents(lipa), cents, "{lipa}");
        }
        let mut dice = Dice::new(2);
        let few = 0..200_000;
        let many = (0..200_000).map(|_| dice.roll());
        let most = (0..1_000).map(|less| u64::MAX - less);
        for lipa in few.chain(many).chain(most) {
            let cents = in_cents(lipa);
            assert!(is_nearest(lipa, cents), "{lipa}");
            assert!(!is_nearest(lipa, cents + 1), "{lipa}");
            assert!(cents == 0 || !is_nearest(lipa, cents - 1), "{lipa}");
        }
    }

    #[test]
    fn program_output() {
        let run = |input: &[u8]| {
            let mut output = Vec::new();
            program(input, &mut output).unwrap();
            String::from_utf8(output).unwrap()
        };
        let fields = "3=000000000012355\n4=ŽELJKO SENEKOVIĆ\n5=IVANEČKA ULICA 125\n\
             6=42000 VARAŽDIN\n7=2DBK d.d.\n8=ALKARSKI PROLAZ 13B\n9=21230 SINJ\n\
             10=1001005-1863000160\n11=HR01\n12=7269-68949637676-00018\n13=COST\n\
             14=Troškovi za 1. mjesec\n";
        assert_eq!(
            run(&with(&[])),
            format!("accepted kuna\n{fields}cents=1640\n")
        );
        let iban: (usize, &[u8]) = (10, b"HR1210010051863000160");
        assert_eq!(
            run(&with(&[(2, b"EUR"), iban])),
            format!("accepted euro\n{fields}")
                .replace("1001005-1863000160", "HR1210010051863000160")
        );
        assert_eq!(
            run(&with(&[(2, b"USD")])),
            "refused 5 line 0 field 2 byte 9\n"
        );
        assert_eq!(run(b""), "refused 2 line 0 field 0 byte 0\n");
        assert_eq!(
            run(&vec![b'\n'; 1 << 20]),
            "refused 1 line 0 field 0 byte 0\n"
        );
    }
}
