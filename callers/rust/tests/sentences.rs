//! The sentences of refusals, in both languages, as ../told.txt has them, which has one of each in ../sentences.txt.

use lanecockle::standing::{Sheet, SheetRefusal};
use lanecockle::{Kind, Language, Refusal};
use std::collections::HashSet;
use std::error::Error;

const TOLD: &str = include_str!("../../told.txt");
const SENTENCES: &str = include_str!("../../sentences.txt");

/// The rows of a table, each in its parts.
fn rows(table: &'static str) -> impl Iterator<Item = Vec<&'static str>> {
    table.lines().filter(|line| !line.starts_with('#')).map(|line| line.split('|').collect())
}

/// The examples: each a refusal, with whose sheet it is where that is known, and its two sentences.
fn all_examples() -> impl Iterator<Item = (SheetRefusal, [&'static str; 2])> {
    rows(TOLD).map(|row| {
        let numbers: Vec<usize> = row[0].split(' ').map(|number| number.parse().unwrap()).collect();
        let kind = Kind::from_number(numbers[0]).unwrap();
        let refusal = Refusal { kind, line: numbers[1], field: numbers[2], byte: numbers[3], needed: numbers[4] };
        let sheet = numbers.get(5).map(|&number| [Sheet::Farm, Sheet::Association][number - 1]);
        (SheetRefusal { refusal, sheet }, [row[1], row[2]])
    })
}

/// The examples without a sheet.
fn examples() -> impl Iterator<Item = (Refusal, [&'static str; 2])> {
    all_examples().filter(|(refused, _)| refused.sheet.is_none()).map(|(refused, told)| (refused.refusal, told))
}

/// A text without its first letter, which a sentence has as a capital where no place stands before it.
fn tail(text: &str) -> &str {
    let mut letters = text.chars();
    letters.next();
    letters.as_str()
}

/// Whether an example says a row of sentences.txt, in both languages.
fn says(example: &(Refusal, [&str; 2]), row: &[&str]) -> bool {
    let (refusal, told) = example;
    let needed = refusal.needed.to_string();
    row[0] == refusal.kind.number().to_string()
        && told.iter().zip(&row[2..]).all(|(told, what)| told.ends_with(&tail(what).replace("{needed}", &needed)))
}

#[test]
fn sentences_are_those_of_the_examples() {
    for (refusal, [english, croatian]) in examples() {
        assert_eq!(refusal.to_string(), english);
        assert_eq!(refusal.in_croatian().to_string(), croatian);
        assert_eq!(refusal.sentence(Language::English), english);
        assert_eq!(refusal.sentence(Language::Croatian), croatian);
    }
}

#[test]
fn sentences_name_the_sheet() {
    assert!(all_examples().count() > examples().count());
    for (refused, [english, croatian]) in all_examples() {
        assert_eq!(refused.to_string(), english);
        assert_eq!(refused.in_croatian().to_string(), croatian);
        assert_eq!(refused.sentence(Language::English), english);
        assert_eq!(refused.sentence(Language::Croatian), croatian);
        assert_eq!(Refusal::from(refused), refused.refusal);
    }
}

#[test]
fn every_sentence_has_an_example() {
    let sentences: Vec<Vec<&str>> = rows(SENTENCES).filter(|row| row.len() == 4).collect();
    assert!(sentences.len() > Kind::ALL.len());
    for row in &sentences {
        assert!(examples().any(|example| says(&example, row)), "no example of {row:?}");
    }
    for example in examples() {
        let said = sentences.iter().filter(|row| says(&example, row)).count();
        assert_eq!(said, 1, "{example:?}");
    }
}

/// The sentences of all kinds, told of one place.
fn told(line: usize, field: usize) -> HashSet<String> {
    let refusals = Kind::ALL.map(|kind| Refusal { kind, line, field, byte: 0, needed: 7 });
    refusals.iter().flat_map(|refusal| [refusal.to_string(), refusal.in_croatian().to_string()]).collect()
}

#[test]
fn sentences_are_distinct_and_whole() {
    for (line, field) in [(0, 0), (0, 4), (2, 0), (2, 4)] {
        let all = told(line, field);
        assert_eq!(all.len(), 2 * Kind::ALL.len());
        for sentence in all {
            assert!(sentence.ends_with('.') && sentence.len() > 10);
            assert!(sentence.starts_with(char::is_uppercase));
            assert!(!sentence.contains('{'));
        }
    }
}

#[test]
fn a_sentence_is_its_place_and_what_is_wrong() {
    let refusal = Refusal { kind: Kind::Byte, line: 3, field: 10, byte: 350, needed: 0 };
    assert_eq!(refusal.place(Language::English), "line 3, field 10, position 351");
    assert_eq!(refusal.place(Language::Croatian), "slog 3, polje 10, pozicija 351");
    assert_eq!(refusal.what(Language::English), "this byte is not permitted here.");
    assert_eq!(refusal.what(Language::Croatian), "ovaj znak ovdje nije dozvoljen.");
    assert_eq!(Refusal { line: 0, field: 0, byte: 0, ..refusal }.place(Language::English), "");
}

#[test]
fn numbers_are_those_of_the_documents() {
    let numbers: Vec<usize> = (1..=17).chain([20, 28, 29]).collect();
    assert_eq!(Kind::ALL.map(Kind::number)[..], numbers);
    for (number, kind) in numbers.into_iter().zip(Kind::ALL) {
        assert_eq!(Kind::from_number(number), Some(kind));
    }
}

#[test]
fn a_refusal_is_an_error() {
    let error: Box<dyn Error + Send + Sync> = lanecockle::oib(b"").unwrap_err().into();
    assert_eq!(error.to_string(), "The field is too long or not of its fixed length.");
}
