//! The fields of the slip, of the kuna slip and of the lines of a wage file: their positions, widths, names and rules.

use crate::refusal::Language;
use crate::tables::FIELDS;

/// What a field is part of: the slip, the kuna slip, or one of the four lines of a wage file.
///
/// ```
/// use lanecockle::{Layout, FIELDS};
///
/// let fields_of = |layout| FIELDS.iter().filter(move |field| field.layout == layout).count();
/// assert_eq!((fields_of(Layout::Slip), fields_of(Layout::Order)), (14, 25));
/// ```
#[non_exhaustive]
#[derive(Clone, Copy, Debug, PartialEq, Eq, Hash)]
pub enum Layout {
    /// The slip: fourteen fields that each end in a line feed.
    Slip,
    /// The kuna slip, in the fields 2, 3 and 10, which differ from the slip's.
    Kuna,
    /// A 300, the label of a wage file.
    Label,
    /// A 301, the head of a group.
    Group,
    /// A 309, an order.
    Order,
    /// A 399, the end of a wage file.
    Closing,
}

/// A field: where it stands, how wide it is, what it is called and what it must hold.
///
/// ```
/// use lanecockle::{wage, Field, Layout};
///
/// let mut line = [0; wage::LINE];
/// wage::write_closing(20240228, &mut line)?;
/// let kind = Field::of(Layout::Closing, 2).unwrap();
/// assert_eq!(line[kind.start - 1..][..kind.width], *b"399");
/// # Ok::<(), lanecockle::Refusal>(())
/// ```
#[derive(Clone, Copy, Debug, PartialEq, Eq, Hash)]
pub struct Field {
    /// What the field is part of.
    pub layout: Layout,
    /// Its number, counted from 1, by which a [`Refusal`](crate::Refusal) tells it.
    pub number: usize,
    /// Its first position in the line, counted from 1; 0 in a slip, where fields have no fixed place.
    pub start: usize,
    /// Its bytes; in a slip its characters.
    pub width: usize,
    /// Whether it may be shorter than its width.
    pub at_most: bool,
    /// Whether it is judged.
    pub read: bool,
    /// Its name in English and Croatian.
    pub name: [&'static str; 2],
    /// Its rule in English and Croatian.
    pub rule: [&'static str; 2],
}

impl Field {
    /// The field of a number, if there is one; a kuna slip's other fields are the slip's.
    ///
    /// ```
    /// use lanecockle::{slip, Field, Language, Layout};
    ///
    /// let refusal = slip::read(b"HRVHUB30\nHRK\n\n\n\n\n\n\n\n\n\n\n\n\n").unwrap_err();
    /// let field = Field::of(Layout::Slip, refusal.field).unwrap();
    /// assert_eq!(field.name_in(Language::English), "Currency");
    ///
    /// assert_eq!(Field::of(Layout::Slip, 0), None);
    /// assert_eq!(Field::of(Layout::Slip, 15), None);
    ///
    /// assert_eq!(Field::of(Layout::Kuna, 10).unwrap().name_in(Language::Croatian), "IBAN ili račun primatelja");
    /// assert_eq!(Field::of(Layout::Kuna, 11), Field::of(Layout::Slip, 11));
    /// ```
    pub fn of(layout: Layout, number: usize) -> Option<&'static Field> {
        const ALL: &[Field] = &FIELDS;
        let found = ALL.iter().find(|field| field.layout == layout && field.number == number);
        match layout {
            Layout::Kuna => found.or_else(|| Field::of(Layout::Slip, number)),
            _ => found,
        }
    }

    /// The name in a language.
    ///
    /// ```
    /// use lanecockle::{Field, Language, Layout};
    ///
    /// let field = Field::of(Layout::Order, 1).unwrap();
    /// assert_eq!(field.name_in(Language::English), "IBAN of the recipient");
    /// assert_eq!(field.name_in(Language::Croatian), "IBAN ili račun primatelja");
    /// ```
    pub fn name_in(&self, language: Language) -> &'static str {
        self.name[language.place()]
    }

    /// The rule in a language, one sentence.
    ///
    /// ```
    /// use lanecockle::{Field, Language, Layout};
    ///
    /// let field = Field::of(Layout::Group, 2).unwrap();
    /// assert_eq!(field.rule_in(Language::English), "Must be `EUR`.");
    /// assert_eq!(field.rule_in(Language::Croatian), "Mora biti `EUR`.");
    /// ```
    pub fn rule_in(&self, language: Language) -> &'static str {
        self.rule[language.place()]
    }
}
