//! Fields as a caller lends them to a writer: one behind the other in one text,
//! with the size of each.

use crate::refusal::{Reason, Refusal};

/// The fields, where the sizes of so many are together the text's; else 1. A
/// size that is not there is 0, and one too many is not read.
pub fn fields<'a, const N: usize>(
    text: &'a [u8],
    sizes: &[usize],
) -> Result<[&'a [u8]; N], Refusal> {
    let mut fields = [&text[..0]; N];
    let mut rest = text;
    for (field, &size) in fields.iter_mut().zip(sizes) {
        (*field, rest) = rest.split_at_checked(size).ok_or(Reason::Size)?;
    }
    if rest.is_empty() {
        Ok(fields)
    } else {
        Err(Reason::Size.into())
    }
}

#[cfg(test)]
mod tests {
    use super::*;

    const MOST: usize = usize::MAX;

    /// Three fields of a text, with bars between them.
    fn three(text: &str, sizes: &[usize]) -> Option<String> {
        let fields: Result<[&[u8]; 3], _> = fields(text.as_bytes(), sizes);
        assert!(fields.is_ok() || fields == Err(Refusal::at(Reason::Size, 0)));
        Some(String::from_utf8(fields.ok()?.join(&b'|')).expect("as it was given"))
    }

    #[test]
    fn sizes_of_the_text() {
        for (text, sizes, expected) in [
            ("abcd", &[1, 0, 3][..], "a||bcd"),
            ("abcd", &[0, 0, 4], "||abcd"),
            // Missing ones are 0, further ones are not read.
            ("abcd", &[4], "abcd||"),
            ("abcd", &[1, 1, 2, 7], "a|b|cd"),
            ("", &[], "||"),
            ("", &[0, 0, 0, MOST], "||"),
        ] {
            assert_eq!(three(text, sizes).as_deref(), Some(expected), "{sizes:?}");
        }
    }

    #[test]
    fn other_sizes() {
        for (text, sizes) in [
            // Past the end, by one and by far, and round to the text's in 64 bits.
            ("abcd", &[1, 1, 3][..]),
            ("abcd", &[MOST, 0, 0]),
            ("abcd", &[4, 1, MOST]),
            ("", &[0, 0, 1]),
            // Bytes left over, also where a further size would take them.
            ("abcd", &[1, 1, 1]),
            ("abcd", &[1, 1, 1, 1]),
            ("abcd", &[]),
        ] {
            assert_eq!(three(text, sizes), None, "{sizes:?}");
        }
    }
}
