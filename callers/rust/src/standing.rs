//! Standing text for slips: what the fields 4 to 9, 13 and 14 are where a slip is given none, from the farm's sheet or the
//! association's. [`slip::write_standing`](crate::slip::write_standing) writes a slip with it.
//!
//! A sheet is lines `number=text`, each ended by LF: a field's number without a leading zero, above that of the line before,
//! and a text that the field permits, which may be empty. A sheet of no bytes is right.
//!
//! ```
//! use lanecockle::standing::{self, Sheet};
//!
//! let farm = b"4=OPG HORVAT\n14=\n";
//! let association = b"13=WTER\n14=Voda\n";
//! assert_eq!(standing::text(4, farm, association)?, Some((Sheet::Farm, &b"OPG HORVAT"[..])));
//! assert_eq!(standing::text(13, farm, association)?, Some((Sheet::Association, &b"WTER"[..])));
//! // a line of the farm's goes before, even if its text is empty
//! assert_eq!(standing::text(14, farm, association)?, Some((Sheet::Farm, &b""[..])));
//! assert_eq!(standing::text(5, farm, association)?, None);
//! # Ok::<(), lanecockle::standing::SheetRefusal>(())
//! ```

use crate::ffi::{self, Told};
use crate::part;
use crate::refusal::{sentence, Language, Refusal};
use crate::tables::WORDS;
use std::error::Error;
use std::fmt;

/// The fields that have standing text.
///
/// ```
/// use lanecockle::standing;
///
/// assert!(standing::FIELDS.iter().all(|&field| standing::text(field, b"", b"") == Ok(None)));
/// ```
pub const FIELDS: [usize; 8] = [4, 5, 6, 7, 8, 9, 13, 14];

/// Whose sheet.
///
/// ```
/// use lanecockle::standing::{text, Sheet};
///
/// let (sheet, _) = text(14, b"", b"14=Voda\n")?.expect("the association's sheet has the line");
/// assert_eq!(sheet, Sheet::Association);
/// # Ok::<(), lanecockle::standing::SheetRefusal>(())
/// ```
#[derive(Clone, Copy, Debug, PartialEq, Eq, Hash)]
pub enum Sheet {
    /// The farm's.
    Farm,
    /// The association's.
    Association,
}

impl Sheet {
    /// The sheet of the library's number, none for 0.
    fn of_number(number: usize) -> Option<Sheet> {
        match number {
            0 => None,
            1 => Some(Sheet::Farm),
            2 => Some(Sheet::Association),
            _ => unreachable!("there are two sheets"),
        }
    }

    /// What stands behind a line's number: whose sheet the line is of.
    fn whose(self, language: Language) -> &'static str {
        let words = &WORDS[language.place()];
        match self {
            Sheet::Farm => words.farm,
            Sheet::Association => words.association,
        }
    }
}

/// A refusal, and for [`Kind::Sheet`](crate::Kind::Sheet) the sheet that has the malformed line; `Display` is one sentence,
/// which names it.
///
/// ```
/// use lanecockle::standing::{text, Sheet};
/// use lanecockle::{Kind, Refusal};
///
/// let refused = text(14, b"4=OPG HORVAT\n", b"13=WTER\n14=Voda").unwrap_err();
/// assert_eq!(refused.refusal, Refusal { kind: Kind::Sheet, line: 2, field: 0, byte: 0, needed: 0 });
/// assert_eq!(refused.sheet, Some(Sheet::Association));
/// assert!(refused.to_string().starts_with("Line 2 of the association's sheet: the line is not `number=text` as "));
/// assert!(refused.in_croatian().to_string().starts_with("Redak 2 predloška udruge: redak nije `broj=tekst` "));
///
/// let refused = text(10, b"", b"").unwrap_err();
/// assert_eq!((refused.refusal.kind, refused.sheet), (Kind::Field, None));
/// ```
#[derive(Clone, Copy, Debug, PartialEq, Eq, Hash)]
pub struct SheetRefusal {
    /// What is wrong and where; a line is one of the sheet.
    pub refusal: Refusal,
    /// Whose sheet has the malformed line, for [`Kind::Sheet`](crate::Kind::Sheet); none otherwise.
    pub sheet: Option<Sheet>,
}

impl SheetRefusal {
    /// The sentence in Croatian, by `Display`.
    ///
    /// ```
    /// let refused = lanecockle::standing::text(10, b"", b"").unwrap_err();
    /// assert_eq!(refused.in_croatian().to_string(), "Stalni tekst imaju samo polja 4 do 9, 13 i 14.");
    /// ```
    pub fn in_croatian(&self) -> InCroatian {
        InCroatian(*self)
    }

    /// The place, with whose sheet it is, and what is wrong, as one sentence in a language.
    ///
    /// ```
    /// use lanecockle::Language;
    ///
    /// let refused = lanecockle::standing::text(10, b"", b"").unwrap_err();
    /// assert_eq!(refused.sentence(Language::English), "Only the fields 4 to 9, 13 and 14 have standing text.");
    /// ```
    pub fn sentence(&self, language: Language) -> String {
        sentence(&self.place(language), &self.refusal.what(language))
    }

    /// The place in words, with whose sheet it is.
    ///
    /// ```
    /// use lanecockle::Language;
    ///
    /// let refused = lanecockle::standing::text(4, b"\n", b"").unwrap_err();
    /// assert_eq!(refused.place(Language::English), "line 1 of the farm's sheet");
    /// assert_eq!(refused.place(Language::Croatian), "redak 1 predloška gospodarstva");
    /// ```
    pub fn place(&self, language: Language) -> String {
        let place = self.refusal.place(language);
        match self.sheet {
            Some(sheet) => format!("{place} {}", sheet.whose(language)),
            None => place,
        }
    }
}

impl fmt::Display for SheetRefusal {
    fn fmt(&self, f: &mut fmt::Formatter<'_>) -> fmt::Result {
        f.write_str(&self.sentence(Language::English))
    }
}

impl Error for SheetRefusal {}

/// The refusal without its sheet, so that `?` gives it where a [`Refusal`] is awaited.
///
/// ```
/// use lanecockle::{standing, Refusal};
///
/// fn description<'a>(farm: &'a [u8], association: &'a [u8]) -> Result<&'a [u8], Refusal> {
///     Ok(standing::text(14, farm, association)?.map_or(b"", |(_, text)| text))
/// }
/// assert_eq!(description(b"14=Voda\n", b""), Ok(&b"Voda"[..]));
/// ```
impl From<SheetRefusal> for Refusal {
    fn from(refused: SheetRefusal) -> Refusal {
        refused.refusal
    }
}

/// A refusal whose `Display` is its sentence in Croatian; [`SheetRefusal::in_croatian`] gives it.
///
/// ```
/// let refused = lanecockle::standing::text(4, b"", b"4").unwrap_err();
/// assert!(refused.in_croatian().to_string().starts_with("Redak 1 predloška udruge: "));
/// ```
#[derive(Clone, Copy, Debug, PartialEq, Eq, Hash)]
pub struct InCroatian(SheetRefusal);

impl fmt::Display for InCroatian {
    fn fmt(&self, f: &mut fmt::Formatter<'_>) -> fmt::Result {
        f.write_str(&self.0.sentence(Language::Croatian))
    }
}

/// The standing text of a field, borrowed from the sheet that supplied it: the farm's where its sheet has a line of that
/// number, even if its text is empty, else the association's, else none. Refusals: 28 (a field other than those of [`FIELDS`]);
/// then 20, with the first malformed line of the farm's sheet or, where that has none, of the association's. Both are judged
/// whole.
///
/// ```
/// use lanecockle::standing::{text, Sheet};
///
/// let (farm, association) = (b"4=OPG HORVAT\n".to_vec(), b"14=Voda\n".to_vec());
/// let found = text(14, &farm, &association)?;
/// assert_eq!(found, Some((Sheet::Association, &association[3..7])));
///
/// // 4 stands in the farm's sheet, and all the same the association's is judged
/// let refused = text(4, &farm, b"14=Voda\n13=WTER\n").unwrap_err();
/// assert_eq!((refused.sheet, refused.refusal.line), (Some(Sheet::Association), 2));
/// # Ok::<(), lanecockle::standing::SheetRefusal>(())
/// ```
pub fn text<'a>(
    field: usize,
    farm: &'a [u8],
    association: &'a [u8],
) -> Result<Option<(Sheet, &'a [u8])>, SheetRefusal> {
    let found = ffi::standing_text(field, farm, association);
    accepted(found.told, found.sheet)?;
    Ok(Sheet::of_number(found.sheet).map(|sheet| {
        let lent = match sheet {
            Sheet::Farm => farm,
            Sheet::Association => association,
        };
        (sheet, part(lent, found.part))
    }))
}

/// Acceptance, or the refusal with the sheet that has the malformed line.
pub(crate) fn accepted(told: Told, sheet: usize) -> Result<(), SheetRefusal> {
    told.result().map_err(|refusal| SheetRefusal { refusal, sheet: Sheet::of_number(sheet) })
}

/// A sheet of lines, each a field's number and its text, in the order given. It judges nothing and is outside the proofs: what
/// it writes is judged by the calls that it is lent to.
///
/// ```
/// use lanecockle::standing::{sheet_text, text, Sheet};
///
/// let sheet = sheet_text(&[(4, b"OPG HORVAT"), (14, b"Voda")]);
/// assert_eq!(sheet, b"4=OPG HORVAT\n14=Voda\n");
/// assert_eq!(text(14, &sheet, b"")?, Some((Sheet::Farm, &b"Voda"[..])));
///
/// let refused = text(14, &sheet_text(&[(14, b"Voda"), (4, b"OPG HORVAT")]), b"").unwrap_err();
/// assert_eq!(refused.refusal.line, 2);
/// # Ok::<(), lanecockle::standing::SheetRefusal>(())
/// ```
pub fn sheet_text(lines: &[(usize, &[u8])]) -> Vec<u8> {
    let mut sheet = Vec::new();
    for (field, text) in lines {
        sheet.extend_from_slice(format!("{field}=").as_bytes());
        sheet.extend_from_slice(text);
        sheet.push(b'\n');
    }
    sheet
}
