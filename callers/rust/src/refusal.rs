//! Refusals: what is wrong, where, and one sentence about it in English or Croatian.

use crate::ffi::Told;
use crate::tables::{Kind, SENTENCES, WORDS};
use std::error::Error;
use std::fmt;

/// A language of sentences, names and rules.
///
/// ```
/// use lanecockle::Language;
///
/// let refusal = lanecockle::oib(b"12345678904").unwrap_err();
/// assert_eq!(refusal.sentence(Language::English), "The check of the IBAN or OIB fails.");
/// assert_eq!(refusal.sentence(Language::Croatian), "IBAN ili OIB ne prolazi kontrolu.");
/// ```
#[derive(Clone, Copy, Debug, PartialEq, Eq, Hash)]
pub enum Language {
    /// English.
    English,
    /// Croatian, in the words of the documents.
    Croatian,
}

impl Language {
    /// Where the tables have it.
    pub(crate) fn place(self) -> usize {
        self as usize
    }
}

/// What a refusal is told as, in English and Croatian.
pub(crate) struct Sentence {
    pub number: usize,
    pub when: When,
    pub told: [&'static str; 2],
}

/// The words of a place in a language; a 20 has its own for a line, and behind its number whose sheet it is.
pub(crate) struct Words {
    pub line: &'static str,
    pub field: &'static str,
    pub position: &'static str,
    pub sheet_line: &'static str,
    pub farm: &'static str,
    pub association: &'static str,
}

/// What a refusal must tell for a sentence to fit it.
#[derive(Clone, Copy)]
pub(crate) enum When {
    Line,
    Byte,
    Type,
    Any,
}

/// A wrong type of line is 5 with field 0 and this byte.
const TYPE_BYTE: usize = 997;

impl Kind {
    /// The number: 1 to 17, 20, 28 or 29.
    ///
    /// ```
    /// assert_eq!(lanecockle::Kind::Beyond.number(), 17);
    /// ```
    pub fn number(self) -> usize {
        self as usize
    }

    /// The kind of a number, if there is one.
    ///
    /// ```
    /// use lanecockle::Kind;
    ///
    /// assert_eq!(Kind::from_number(15), Some(Kind::Room));
    /// assert_eq!(Kind::from_number(0), None);
    /// assert_eq!(Kind::from_number(18), None);
    /// ```
    pub fn from_number(number: usize) -> Option<Kind> {
        Kind::ALL.into_iter().find(|kind| kind.number() == number)
    }
}

/// A refusal: what is wrong and where, as one sentence by `Display`.
///
/// Lines and fields count from 1, bytes from 0 in the slip, the line of the wage file or the text; 0 stands for none. A
/// sentence tells a byte as a position, which counts from 1.
///
/// ```
/// use lanecockle::{slip, Kind, Refusal};
///
/// let refusal = slip::read(b"HRVHUB30\nHRK\n\n\n\n\n\n\n\n\n\n\n\n\n").unwrap_err();
/// assert_eq!(refusal, Refusal { kind: Kind::Form, line: 0, field: 2, byte: 9, needed: 0 });
/// assert_eq!(refusal.to_string(), "Field 2, position 10: the content is not the required word, form or code.");
/// ```
#[derive(Clone, Copy, Debug, PartialEq, Eq, Hash)]
pub struct Refusal {
    /// What is wrong.
    pub kind: Kind,
    /// The line of the wage file, of a group's orders, or for [`Kind::Sheet`] of a sheet; 0 for none.
    pub line: usize,
    /// The field; 0 for none.
    pub field: usize,
    /// The byte: for [`Kind::Byte`] the first offending one, otherwise the field's first.
    pub byte: usize,
    /// The needed number of bytes or entries, for [`Kind::Room`]; 0 otherwise.
    pub needed: usize,
}

impl Refusal {
    /// The sentence in Croatian, by `Display`.
    ///
    /// ```
    /// let refusal = lanecockle::oib(b"12345678904").unwrap_err();
    /// assert_eq!(refusal.in_croatian().to_string(), "IBAN ili OIB ne prolazi kontrolu.");
    /// ```
    pub fn in_croatian(&self) -> InCroatian {
        InCroatian(*self)
    }

    /// The place and what is wrong, as one sentence in a language.
    ///
    /// ```
    /// use lanecockle::{Kind, Language, Refusal};
    ///
    /// let refusal = Refusal { kind: Kind::Check, line: 2, field: 1, byte: 0, needed: 0 };
    /// assert_eq!(
    ///     refusal.sentence(Language::English),
    ///     "Line 2, field 1, position 1: the check of the IBAN or OIB fails."
    /// );
    /// assert_eq!(
    ///     refusal.sentence(Language::Croatian),
    ///     "Slog 2, polje 1, pozicija 1: IBAN ili OIB ne prolazi kontrolu."
    /// );
    /// ```
    pub fn sentence(&self, language: Language) -> String {
        sentence(&self.place(language), &self.what(language))
    }

    /// What is wrong, without its place and without a capital letter.
    ///
    /// ```
    /// use lanecockle::Language;
    ///
    /// let refusal = lanecockle::wage::file(20240228, b"").unwrap_err();
    /// assert_eq!(refusal.what(Language::English), "the file ends without a 399 line.");
    /// ```
    pub fn what(&self, language: Language) -> String {
        let sentence = SENTENCES
            .iter()
            .find(|sentence| sentence.number == self.kind.number() && self.fits(sentence.when))
            .expect("every kind has a sentence for `any`");
        sentence.told[language.place()].replace("{needed}", &self.needed.to_string())
    }

    /// The place in words, as much of it as is told.
    ///
    /// ```
    /// use lanecockle::{iban, Language};
    ///
    /// let refusal = iban(b"HR12 10010051863000160").unwrap_err();
    /// assert_eq!(refusal.byte, 4);
    /// assert_eq!(refusal.place(Language::English), "position 5");
    /// assert_eq!(refusal.place(Language::Croatian), "pozicija 5");
    /// ```
    pub fn place(&self, language: Language) -> String {
        let words = &WORDS[language.place()];
        let mut told = Vec::new();
        if self.line != 0 {
            let line = if self.kind == Kind::Sheet { words.sheet_line } else { words.line };
            told.push(format!("{line} {}", self.line));
        }
        if self.field != 0 {
            told.push(format!("{} {}", words.field, self.field));
        }
        if self.tells_byte() {
            // a stored record may hold any byte, the highest number too
            told.push(format!("{} {}", words.position, self.byte as u128 + 1));
        }
        told.join(", ")
    }

    /// Whether a byte is told: always with a field, and without one where it is not 0.
    fn tells_byte(&self) -> bool {
        self.field != 0 || self.byte != 0
    }

    fn fits(&self, when: When) -> bool {
        match when {
            When::Line => self.line != 0,
            When::Byte => self.tells_byte(),
            When::Type => self.field == 0 && self.byte == TYPE_BYTE,
            When::Any => true,
        }
    }
}

/// A place, which may be none, and what is wrong there.
pub(crate) fn sentence(place: &str, what: &str) -> String {
    if place.is_empty() {
        return capitalized(what);
    }
    capitalized(&format!("{place}: {what}"))
}

/// A text with its first letter a capital.
fn capitalized(text: &str) -> String {
    let mut letters = text.chars();
    letters.next().map_or_else(String::new, |first| first.to_uppercase().chain(letters).collect())
}

impl fmt::Display for Refusal {
    fn fmt(&self, f: &mut fmt::Formatter<'_>) -> fmt::Result {
        f.write_str(&self.sentence(Language::English))
    }
}

impl Error for Refusal {}

/// A refusal whose `Display` is its sentence in Croatian; [`Refusal::in_croatian`] gives it.
///
/// ```
/// let refusal = lanecockle::wage::file(20240228, b"").unwrap_err();
/// assert_eq!(refusal.to_string(), "Line 1: the file ends without a 399 line.");
/// assert_eq!(refusal.in_croatian().to_string(), "Slog 1: datoteka završava bez sloga 399.");
/// ```
#[derive(Clone, Copy, Debug, PartialEq, Eq, Hash)]
pub struct InCroatian(Refusal);

impl fmt::Display for InCroatian {
    fn fmt(&self, f: &mut fmt::Formatter<'_>) -> fmt::Result {
        f.write_str(&self.0.sentence(Language::Croatian))
    }
}

impl Told {
    /// Acceptance, or the refusal.
    pub(crate) fn result(self) -> Result<(), Refusal> {
        if self.number == 0 {
            return Ok(());
        }
        Err(self.refusal())
    }

    /// The refusal; a number that there is not stands for 17, as it does in a record.
    pub(crate) fn refusal(self) -> Refusal {
        let kind = Kind::from_number(self.number).unwrap_or(Kind::Beyond);
        Refusal { kind, line: self.line, field: self.field, byte: self.byte, needed: self.needed }
    }
}
