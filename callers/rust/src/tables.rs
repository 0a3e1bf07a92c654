//! Refusals and fields, written by tools/tables, from callers/sentences.txt, callers/fields.txt and VERSION.

use crate::fields::{Field, Layout};
use crate::refusal::{Sentence, When, Words};

/// The version of the crate, which is that of the library it was made with.
pub const VERSION: &str = "2.0.0";

/// What is wrong: one of the 20 numbers of the documents.
///
/// ```
/// use lanecockle::{oib, Kind};
///
/// let refusal = oib(b"12345678904").unwrap_err();
/// assert_eq!(refusal.kind, Kind::Check);
/// assert_eq!(refusal.kind.number(), 6);
/// ```
#[non_exhaustive]
#[derive(Clone, Copy, Debug, PartialEq, Eq, PartialOrd, Ord, Hash)]
pub enum Kind {
    /// 1: wrong size of the whole input or line.
    Size = 1,
    /// 2: line ends wrong: a slip has not exactly fourteen LF with one last; a file line lacks CR LF.
    Ends = 2,
    /// 3: a byte that the field does not permit.
    Byte = 3,
    /// 4: field too long or not of its fixed length.
    Length = 4,
    /// 5: field not a required word, form or code.
    Form = 5,
    /// 6: IBAN or OIB check fails.
    Check = 6,
    /// 7: model not handled.
    Model = 7,
    /// 8: reference: wrong number or lengths of parts.
    Parts = 8,
    /// 9: reference: check digit fails.
    Digit = 9,
    /// 10: line type out of place.
    Misplaced = 10,
    /// 11: not a date, or not in the required relation to today.
    Date = 11,
    /// 12: number of orders differs.
    Orders = 12,
    /// 13: sum differs.
    Sum = 13,
    /// 14: file ended before its 399 line.
    Unfinished = 14,
    /// 15: no room; the needed number is told.
    Room = 15,
    /// 16: more than four unreadable digits.
    Marks = 16,
    /// 17: line beyond 1,000,000.
    Beyond = 17,
    /// 20: sheet line malformed.
    Sheet = 20,
    /// 28: a field number other than 4 to 9, 13 and 14.
    Field = 28,
    /// 29: the line would leave the lent tally beyond 1,000,000 groups or orders, or at 10^21 cents or more.
    Overfull = 29,
}

impl Kind {
    /// All kinds, by their numbers.
    ///
    /// ```
    /// assert_eq!(lanecockle::Kind::ALL.len(), 20);
    /// ```
    pub const ALL: [Kind; 20] = [
        Kind::Size,
        Kind::Ends,
        Kind::Byte,
        Kind::Length,
        Kind::Form,
        Kind::Check,
        Kind::Model,
        Kind::Parts,
        Kind::Digit,
        Kind::Misplaced,
        Kind::Date,
        Kind::Orders,
        Kind::Sum,
        Kind::Unfinished,
        Kind::Room,
        Kind::Marks,
        Kind::Beyond,
        Kind::Sheet,
        Kind::Field,
        Kind::Overfull,
    ];
}

/// What each refusal is told as; the first that fits is said.
pub(crate) const SENTENCES: &[Sentence] = &[
    Sentence { number: 1, when: When::Line, told: ["the line is not 1,002 bytes long.", "slog nema točno 1002 znaka."] },
    Sentence { number: 1, when: When::Any, told: ["the input has the wrong size.", "ulazni podaci nisu propisane veličine."] },
    Sentence { number: 2, when: When::Line, told: ["the line does not end in CR LF.", "slog ne završava sekvencom CR LF."] },
    Sentence { number: 2, when: When::Any, told: ["a slip has exactly fourteen line feeds, the last of them at its end.", "uplatnica ima točno četrnaest graničnika LF, zadnji na samom kraju."] },
    Sentence { number: 3, when: When::Byte, told: ["this byte is not permitted here.", "ovaj znak ovdje nije dozvoljen."] },
    Sentence { number: 3, when: When::Any, told: ["one of the bytes is not permitted.", "jedan od znakova nije dozvoljen."] },
    Sentence { number: 4, when: When::Any, told: ["the field is too long or not of its fixed length.", "podatak je predug ili nije propisane duljine."] },
    Sentence { number: 5, when: When::Type, told: ["the type of the line is not 300, 301, 309 or 399.", "tip sloga nije 300, 301, 309 ni 399."] },
    Sentence { number: 5, when: When::Any, told: ["the content is not the required word, form or code.", "podatak nije propisana riječ, oblik ili šifra."] },
    Sentence { number: 6, when: When::Any, told: ["the check of the IBAN or OIB fails.", "IBAN ili OIB ne prolazi kontrolu."] },
    Sentence { number: 7, when: When::Any, told: ["the model is not handled.", "model nije podržan."] },
    Sentence { number: 8, when: When::Any, told: ["the reference does not fit its model: wrong number or lengths of parts.", "poziv na broj ne odgovara modelu: pogrešan broj ili duljina podataka."] },
    Sentence { number: 9, when: When::Any, told: ["a check digit is wrong.", "kontrolni broj nije ispravan."] },
    Sentence { number: 10, when: When::Line, told: ["a line of this type may not stand here.", "slog ovog tipa ne smije stajati ovdje."] },
    Sentence { number: 10, when: When::Any, told: ["the group has no orders.", "grupa nema nijedan nalog."] },
    Sentence { number: 11, when: When::Any, told: ["this is not a date, or it does not fit the day of submission.", "ovo nije datum ili ne odgovara danu podnošenja."] },
    Sentence { number: 12, when: When::Line, told: ["the number of orders differs from the one in the 301 line.", "broj naloga razlikuje se od upisanog u slogu 301."] },
    Sentence { number: 12, when: When::Any, told: ["the group has more than 99,999 orders.", "grupa ima više od 99.999 naloga."] },
    Sentence { number: 13, when: When::Any, told: ["the sum of the orders differs from the one in the 301 line.", "zbroj iznosa naloga razlikuje se od upisanog u slogu 301."] },
    Sentence { number: 14, when: When::Any, told: ["the file ends without a 399 line.", "datoteka završava bez sloga 399."] },
    Sentence { number: 15, when: When::Any, told: ["there is too little room; there must be room for {needed}.", "nema dovoljno mjesta; treba biti mjesta za {needed}."] },
    Sentence { number: 16, when: When::Any, told: ["more than four digits are unreadable.", "nečitljivo je više od četiri znamenke."] },
    Sentence { number: 17, when: When::Any, told: ["the file has more than 1,000,000 lines.", "datoteka ima više od 1.000.000 slogova."] },
    Sentence { number: 20, when: When::Line, told: ["the line is not `number=text` as its field asks for, or is out of order.", "redak nije `broj=tekst` kako polje traži ili nije po redu."] },
    Sentence { number: 20, when: When::Any, told: ["a line of a sheet is malformed.", "redak predloška nije ispravan."] },
    Sentence { number: 28, when: When::Any, told: ["only the fields 4 to 9, 13 and 14 have standing text.", "stalni tekst imaju samo polja 4 do 9, 13 i 14."] },
    Sentence { number: 29, when: When::Any, told: ["the running total would pass 1,000,000 groups or orders, or reach 10^21 cents.", "tekući zbroj prešao bi 1.000.000 grupa ili naloga ili dosegnuo 10^21 centi."] },
];

/// The words of a place, in English and Croatian.
pub(crate) const WORDS: [Words; 2] = [
    Words { line: "line", field: "field", position: "position", sheet_line: "line", farm: "of the farm's sheet", association: "of the association's sheet" },
    Words { line: "slog", field: "polje", position: "pozicija", sheet_line: "redak", farm: "predloška gospodarstva", association: "predloška udruge" },
];

/// Every field of the slip and of the four lines of a wage file, and those of the kuna slip that differ from the slip's.
///
/// ```
/// use lanecockle::{Layout, FIELDS};
///
/// let field = FIELDS.iter().find(|field| field.layout == Layout::Order && field.number == 1).unwrap();
/// assert_eq!((field.name[0], field.width), ("IBAN of the recipient", 34));
/// ```
pub const FIELDS: [Field; 63] = [
    Field { layout: Layout::Slip, number: 1, start: 0, width: 8, at_most: false, read: true, name: ["Header", "Zaglavlje"], rule: ["Must be `HRVHUB30`.", "Mora biti `HRVHUB30`."] },
    Field { layout: Layout::Slip, number: 2, start: 0, width: 3, at_most: false, read: true, name: ["Currency", "Valuta"], rule: ["Must be `EUR`.", "Mora biti `EUR`."] },
    Field { layout: Layout::Slip, number: 3, start: 0, width: 15, at_most: false, read: true, name: ["Amount", "Iznos"], rule: ["Exactly fifteen digits, the amount in cents with leading zeros.", "Točno petnaest znamenki, iznos u centima s vodećim nulama."] },
    Field { layout: Layout::Slip, number: 4, start: 0, width: 30, at_most: true, read: true, name: ["Payer (name)", "Platitelj (naziv/ime i prezime)"], rule: ["Text of at most 30 characters; may be empty.", "Tekst od najviše 30 znakova; smije biti prazan."] },
    Field { layout: Layout::Slip, number: 5, start: 0, width: 27, at_most: true, read: true, name: ["Payer's address (street and number)", "Adresa platitelja (ulica i broj)"], rule: ["Text of at most 27 characters; may be empty.", "Tekst od najviše 27 znakova; smije biti prazan."] },
    Field { layout: Layout::Slip, number: 6, start: 0, width: 27, at_most: true, read: true, name: ["Payer's address (postal code and town)", "Adresa platitelja (poštanski broj i mjesto)"], rule: ["Text of at most 27 characters; may be empty.", "Tekst od najviše 27 znakova; smije biti prazan."] },
    Field { layout: Layout::Slip, number: 7, start: 0, width: 25, at_most: true, read: true, name: ["Recipient (name)", "Primatelj (naziv/ime i prezime)"], rule: ["Text of at most 25 characters; may be empty.", "Tekst od najviše 25 znakova; smije biti prazan."] },
    Field { layout: Layout::Slip, number: 8, start: 0, width: 25, at_most: true, read: true, name: ["Recipient's address (street and number)", "Adresa primatelja (ulica i broj)"], rule: ["Text of at most 25 characters; may be empty.", "Tekst od najviše 25 znakova; smije biti prazan."] },
    Field { layout: Layout::Slip, number: 9, start: 0, width: 27, at_most: true, read: true, name: ["Recipient's address (postal code and town)", "Adresa primatelja (poštanski broj i mjesto)"], rule: ["Text of at most 27 characters; may be empty.", "Tekst od najviše 27 znakova; smije biti prazan."] },
    Field { layout: Layout::Slip, number: 10, start: 0, width: 21, at_most: false, read: true, name: ["Recipient's account number (IBAN)", "Broj računa primatelja (IBAN)"], rule: ["`HR` and nineteen digits that pass the IBAN's check.", "`HR` i devetnaest znamenki koje prolaze kontrolu IBAN-a."] },
    Field { layout: Layout::Slip, number: 11, start: 0, width: 4, at_most: false, read: true, name: ["Model of the recipient's reference", "Model kontrole poziva na broj primatelja"], rule: ["`HR` and two digits, a model that is handled.", "`HR` i dvije znamenke, model koji je podržan."] },
    Field { layout: Layout::Slip, number: 12, start: 0, width: 22, at_most: true, read: true, name: ["Recipient's reference", "Poziv na broj primatelja"], rule: ["Digits and hyphens, at most 22 characters, as the model in field 11 asks; of three parts under `HR69`, the first is `40002` and the third one of the 55 codes of kinds of personal income.", "Znamenke i crtice, najviše 22 znaka, u skladu s modelom iz polja 11; ako model `HR69` ima tri podatka, prvi je `40002`, a treći jedna od 55 šifara vrste osobnog primanja."] },
    Field { layout: Layout::Slip, number: 13, start: 0, width: 4, at_most: false, read: true, name: ["Purpose code", "Šifra namjene"], rule: ["Four letters A to Z, or empty.", "Četiri slova od A do Z ili prazno."] },
    Field { layout: Layout::Slip, number: 14, start: 0, width: 35, at_most: true, read: true, name: ["Description of the payment", "Opis plaćanja"], rule: ["Text of at most 35 characters; may be empty.", "Tekst od najviše 35 znakova; smije biti prazan."] },
    Field { layout: Layout::Kuna, number: 2, start: 0, width: 3, at_most: false, read: true, name: ["Currency", "Valuta"], rule: ["Must be `HRK`.", "Mora biti `HRK`."] },
    Field { layout: Layout::Kuna, number: 3, start: 0, width: 15, at_most: false, read: true, name: ["Amount", "Iznos"], rule: ["Exactly fifteen digits, the amount in lipa with leading zeros.", "Točno petnaest znamenki, iznos u lipama s vodećim nulama."] },
    Field { layout: Layout::Kuna, number: 10, start: 0, width: 21, at_most: true, read: true, name: ["Recipient's IBAN or account", "IBAN ili račun primatelja"], rule: ["An IBAN or an account, at most 21 characters: `HR` and nineteen digits that pass the IBAN's check; or, where it begins with a digit, seven digits, a hyphen and ten digits.", "IBAN ili račun, najviše 21 znak: `HR` i devetnaest znamenki koje prolaze kontrolu IBAN-a; ili, ako počinje znamenkom, sedam znamenki, crtica i deset znamenki."] },
    Field { layout: Layout::Label, number: 1, start: 1, width: 8, at_most: false, read: true, name: ["Date of submission of the file", "Datum podnošenja / slanja datoteke"], rule: ["The day of submission, YYYYMMDD.", "Dan podnošenja, GGGGMMDD."] },
    Field { layout: Layout::Label, number: 2, start: 9, width: 1, at_most: false, read: true, name: ["Kind of orders in the file", "Vrsta naloga u datoteci"], rule: ["4 (wages and other income) or 5 (deductions).", "4 (plaće, ostala redovna i povremena primanja) ili 5 (ustege)."] },
    Field { layout: Layout::Label, number: 3, start: 10, width: 3, at_most: false, read: true, name: ["Source of the document", "Izvor dokumenta"], rule: ["Must be `000`.", "Mora biti `000`."] },
    Field { layout: Layout::Label, number: 4, start: 13, width: 1, at_most: false, read: true, name: ["Way of execution", "Način izvršenja"], rule: ["1 (specification) or 2 (collective order).", "1 (specifikacija) ili 2 (zbrojni nalog)."] },
    Field { layout: Layout::Label, number: 5, start: 14, width: 11, at_most: false, read: true, name: ["OIB of the employer", "OIB poslodavca (isplatitelja osobnog primanja)"], rule: ["An OIB, or zeros.", "OIB ili nule."] },
    Field { layout: Layout::Label, number: 6, start: 25, width: 11, at_most: false, read: true, name: ["Registration number of the employer", "Matični broj i podbroj poslodavca (isplatitelja osobnog primanja)"], rule: ["Eleven digits, zeros where there is none.", "Jedanaest znamenki, nule ako podatak nije poznat."] },
    Field { layout: Layout::Label, number: 7, start: 36, width: 11, at_most: false, read: true, name: ["Internal code of the employer", "Interna šifra poslodavca (isplatitelja osobnog primanja)"], rule: ["Eleven digits, zeros where there is none; at least two of the fields 5, 6 and 7 must not be zeros.", "Jedanaest znamenki, nule ako podatak nije poznat; najmanje dva od polja 5, 6 i 7 ne smiju biti nule."] },
    Field { layout: Layout::Label, number: 8, start: 47, width: 11, at_most: false, read: true, name: ["OIB of the payer of the income", "OIB uplatitelja osobnog primanja"], rule: ["An OIB; zeros are not accepted.", "OIB; nule se ne prihvaćaju."] },
    Field { layout: Layout::Label, number: 9, start: 58, width: 940, at_most: false, read: false, name: ["Reserve", "Rezerva"], rule: ["Not read.", "Ne provjerava se."] },
    Field { layout: Layout::Label, number: 10, start: 998, width: 3, at_most: false, read: true, name: ["Type of the line", "Tip sloga"], rule: ["Must be `300`.", "Mora biti `300`."] },
    Field { layout: Layout::Group, number: 1, start: 1, width: 21, at_most: false, read: true, name: ["IBAN of the payer", "IBAN platitelja"], rule: ["`HR` and nineteen digits that pass the IBAN's check.", "`HR` i devetnaest znamenki koje prolaze kontrolu IBAN-a."] },
    Field { layout: Layout::Group, number: 2, start: 22, width: 3, at_most: false, read: true, name: ["Currency of the payment", "Oznaka valute plaćanja"], rule: ["Must be `EUR`.", "Mora biti `EUR`."] },
    Field { layout: Layout::Group, number: 3, start: 25, width: 21, at_most: false, read: true, name: ["Account for the fee", "Račun naknade"], rule: ["Blank, or an IBAN.", "Praznine ili IBAN."] },
    Field { layout: Layout::Group, number: 4, start: 46, width: 3, at_most: false, read: true, name: ["Currency of the fee", "Oznaka valute naknade"], rule: ["Blank, or `EUR`.", "Praznine ili `EUR`."] },
    Field { layout: Layout::Group, number: 5, start: 49, width: 5, at_most: false, read: true, name: ["Number of orders in the group", "Ukupan broj naloga u sljedećoj grupi (slogovi 309)"], rule: ["Five digits, the number of the 309 lines that follow.", "Pet znamenki, broj slogova 309 koji slijede."] },
    Field { layout: Layout::Group, number: 6, start: 54, width: 20, at_most: false, read: true, name: ["Sum of the orders in the group", "Ukupan iznos naloga u sljedećoj grupi (slogovi 309)"], rule: ["Twenty digits, the sum of their amounts in cents.", "Dvadeset znamenki, zbroj njihovih iznosa u centima."] },
    Field { layout: Layout::Group, number: 7, start: 74, width: 8, at_most: false, read: true, name: ["Date of execution", "Datum izvršenja naloga"], rule: ["A date, YYYYMMDD, the day of submission or later.", "Datum, GGGGMMDD, jednak danu podnošenja ili kasniji."] },
    Field { layout: Layout::Group, number: 8, start: 82, width: 916, at_most: false, read: false, name: ["Reserve", "Rezerva"], rule: ["Not read.", "Ne provjerava se."] },
    Field { layout: Layout::Group, number: 9, start: 998, width: 3, at_most: false, read: true, name: ["Type of the line", "Tip sloga"], rule: ["Must be `301`.", "Mora biti `301`."] },
    Field { layout: Layout::Order, number: 1, start: 1, width: 34, at_most: false, read: true, name: ["IBAN of the recipient", "IBAN ili račun primatelja"], rule: ["`HR` and nineteen digits that pass the IBAN's check, then thirteen blanks.", "`HR` i devetnaest znamenki koje prolaze kontrolu IBAN-a, zatim trinaest praznina."] },
    Field { layout: Layout::Order, number: 2, start: 35, width: 70, at_most: false, read: false, name: ["Name of the recipient", "Ime i prezime ili Naziv primatelja"], rule: ["Not judged; handed out together with the fields 3 and 4, positions 35 to 174.", "Ne provjerava se; čita se zajedno s poljima 3 i 4, pozicije 35 do 174."] },
    Field { layout: Layout::Order, number: 3, start: 105, width: 35, at_most: false, read: false, name: ["Address of the recipient", "Adresa primatelja"], rule: ["Not judged; part of what is handed out as field 2.", "Ne provjerava se; čita se kao dio polja 2."] },
    Field { layout: Layout::Order, number: 4, start: 140, width: 35, at_most: false, read: false, name: ["Seat of the recipient", "Sjedište primatelja"], rule: ["Not judged; part of what is handed out as field 2.", "Ne provjerava se; čita se kao dio polja 2."] },
    Field { layout: Layout::Order, number: 5, start: 175, width: 3, at_most: false, read: true, name: ["Country code of the recipient", "Šifra zemlje primatelja"], rule: ["`000` or `191`.", "`000` ili `191`."] },
    Field { layout: Layout::Order, number: 6, start: 178, width: 4, at_most: false, read: true, name: ["Model of the payer's reference", "Broj modela platitelja"], rule: ["Blank, or `HR` and two digits, a model that is handled.", "Praznine, ili `HR` i dvije znamenke, model koji je podržan."] },
    Field { layout: Layout::Order, number: 7, start: 182, width: 22, at_most: false, read: true, name: ["Payer's reference", "Poziv na broj platitelja"], rule: ["Digits and hyphens, then blanks, as the model in field 6 asks; blank where the model is blank; of three parts under `HR69`, the first is `40002` and the third one of the 55 codes of kinds of personal income.", "Znamenke i crtice, zatim praznine, u skladu s modelom iz polja 6; praznine ako modela nema; ako model `HR69` ima tri podatka, prvi je `40002`, a treći jedna od 55 šifara vrste osobnog primanja."] },
    Field { layout: Layout::Order, number: 8, start: 204, width: 4, at_most: false, read: true, name: ["Purpose code", "Šifra namjene"], rule: ["Blank, or four letters A to Z.", "Praznine ili četiri slova od A do Z."] },
    Field { layout: Layout::Order, number: 9, start: 208, width: 140, at_most: false, read: true, name: ["Description of the payment", "Opis plaćanja"], rule: ["Blanks, digits, letters and `- . , /`; not all blank.", "Praznine, znamenke, slova i znakovi `- . , /`; ne smije biti prazno."] },
    Field { layout: Layout::Order, number: 10, start: 348, width: 15, at_most: false, read: true, name: ["Amount", "Iznos"], rule: ["Fifteen digits, the amount in cents with leading zeros.", "Petnaest znamenki, iznos u centima s vodećim nulama."] },
    Field { layout: Layout::Order, number: 11, start: 363, width: 4, at_most: false, read: true, name: ["Model of the recipient's reference", "Broj modela primatelja"], rule: ["Blank, or `HR` and two digits, a model that is handled.", "Praznine, ili `HR` i dvije znamenke, model koji je podržan."] },
    Field { layout: Layout::Order, number: 12, start: 367, width: 22, at_most: false, read: true, name: ["Recipient's reference", "Poziv na broj primatelja"], rule: ["Digits and hyphens, then blanks, as the model in field 11 asks; blank where the model is blank; of three parts under `HR69`, the first is `40002` and the third one of the 55 codes of kinds of personal income.", "Znamenke i crtice, zatim praznine, u skladu s modelom iz polja 11; praznine ako modela nema; ako model `HR69` ima tri podatka, prvi je `40002`, a treći jedna od 55 šifara vrste osobnog primanja."] },
    Field { layout: Layout::Order, number: 13, start: 389, width: 11, at_most: false, read: false, name: ["BIC (SWIFT) address", "BIC (SWIFT) adresa"], rule: ["Not read.", "Ne provjerava se."] },
    Field { layout: Layout::Order, number: 14, start: 400, width: 70, at_most: false, read: false, name: ["Name of the recipient's bank", "Naziv banke primatelja"], rule: ["Not read.", "Ne provjerava se."] },
    Field { layout: Layout::Order, number: 15, start: 470, width: 35, at_most: false, read: false, name: ["Address of the bank", "Adresa banke"], rule: ["Not read.", "Ne provjerava se."] },
    Field { layout: Layout::Order, number: 16, start: 505, width: 35, at_most: false, read: false, name: ["Seat of the bank", "Sjedište banke"], rule: ["Not read.", "Ne provjerava se."] },
    Field { layout: Layout::Order, number: 17, start: 540, width: 3, at_most: false, read: false, name: ["Country code of the bank", "Šifra zemlje banke"], rule: ["Not read; the writer writes `000`.", "Ne provjerava se; upisuje se `000`."] },
    Field { layout: Layout::Order, number: 18, start: 543, width: 1, at_most: false, read: true, name: ["Kind of foreign person", "Vrsta strane osobe"], rule: ["0, 1 (legal person) or 2 (natural person).", "0, 1 (pravna osoba) ili 2 (fizička osoba)."] },
    Field { layout: Layout::Order, number: 19, start: 544, width: 3, at_most: false, read: true, name: ["Currency of the cover", "Valuta pokrića"], rule: ["Blank, or `EUR`.", "Praznine ili `EUR`."] },
    Field { layout: Layout::Order, number: 20, start: 547, width: 1, at_most: false, read: true, name: ["Charges option", "Troškovna opcija"], rule: ["Blank, 0 or 3 (shared, SHA).", "Praznina, 0 ili 3 (podijeljeni troškovi SHA)."] },
    Field { layout: Layout::Order, number: 21, start: 548, width: 1, at_most: false, read: true, name: ["Urgency", "Oznaka hitnosti"], rule: ["Blank, or 0 (regular execution).", "Praznina ili 0 (redovno izvršenje)."] },
    Field { layout: Layout::Order, number: 22, start: 549, width: 3, at_most: false, read: true, name: ["Code of the kind of personal income or deduction", "Šifra vrste osobnog primanja ili ustege"], rule: ["One of the 55 codes; for kind 5, code 500 needs the model in field 11.", "Jedna od 55 šifara; za vrstu naloga 5 šifra 500 traži model u polju 11."] },
    Field { layout: Layout::Order, number: 23, start: 552, width: 11, at_most: false, read: true, name: ["OIB of the actual payer, a natural person", "OIB stvarnog platitelja fizičke osobe"], rule: ["An OIB, or zeros; for kind 5 zeros are not accepted.", "OIB ili nule; za vrstu naloga 5 nule se ne prihvaćaju."] },
    Field { layout: Layout::Order, number: 24, start: 563, width: 435, at_most: false, read: false, name: ["Reserve", "Rezerva"], rule: ["Not read.", "Ne provjerava se."] },
    Field { layout: Layout::Order, number: 25, start: 998, width: 3, at_most: false, read: true, name: ["Type of the line", "Tip sloga"], rule: ["Must be `309`.", "Mora biti `309`."] },
    Field { layout: Layout::Closing, number: 1, start: 1, width: 997, at_most: false, read: false, name: ["Reserve", "Rezerva"], rule: ["Not read.", "Ne provjerava se."] },
    Field { layout: Layout::Closing, number: 2, start: 998, width: 3, at_most: false, read: true, name: ["Type of the line", "Tip sloga"], rule: ["Must be `399`.", "Mora biti `399`."] },
];
