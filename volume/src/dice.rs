//! Dice for each input of each property, and the mishaps that texts meet.

pub use second::generate::Dice;

/// The dice of one input: the same for the same seed, property and number.
pub fn of(seed: u64, property: &str, number: u64) -> Dice {
    let name = property.bytes().fold(0, |n: u64, b| {
        n.wrapping_mul(131).wrapping_add(u64::from(b))
    });
    let first = Dice::new(seed).roll();
    let second = Dice::new(first ^ name).roll();
    let third = Dice::new(second ^ number).roll();
    Dice::new(third)
}

/// Any bytes.
pub fn fill(dice: &mut Dice, bytes: &mut [u8]) {
    for chunk in bytes.chunks_mut(8) {
        let more = dice.roll().to_le_bytes();
        chunk.copy_from_slice(&more[..chunk.len()]);
    }
}

pub fn bytes(dice: &mut Dice, longest: usize) -> Vec<u8> {
    let mut bytes = vec![0; dice.between(0, longest)];
    fill(dice, &mut bytes);
    bytes
}

/// The text as it is, damaged, cut, doubled, with its parts in another order,
/// other bytes, or none.
pub fn mishap(dice: &mut Dice, text: Vec<u8>, divider: u8) -> Vec<u8> {
    match dice.below(16) {
        0 | 1 => text,
        2..=9 => damaged(dice, text),
        10 | 11 => cut(dice, text),
        12 => doubled(dice, text),
        13 => shuffled(dice, &text, divider),
        14 => bytes(dice, text.len() + 2),
        _ if dice.one_in(4) => Vec::new(),
        _ => damaged(dice, text),
    }
}

/// Damaged in one to three places.
pub fn damaged(dice: &mut Dice, mut text: Vec<u8>) -> Vec<u8> {
    for _ in 0..dice.between(1, 3) {
        let place = dice.below(text.len() + 1);
        let byte = any_byte(dice);
        match dice.below(6) {
            0 => text.insert(place, byte),
            1 if place < text.len() => drop(text.remove(place)),
            2 if place < text.len() => text[place] = text[place].wrapping_add(1),
            3 if place < text.len() => text[place] ^= 1 << dice.below(8),
            _ if place < text.len() => text[place] = byte,
            _ => text.push(byte),
        }
    }
    text
}

/// Mostly one that stands in some text.
pub fn any_byte(dice: &mut Dice) -> u8 {
    match dice.below(3) {
        0 => dice.below(256) as u8,
        1 => dice.digit(),
        _ => *dice.pick(b"-? HRAZaz\r\n\0/:@[`{.,'()+\x7f\x80\xc4\xc5\xff"),
    }
}

fn cut(dice: &mut Dice, mut text: Vec<u8>) -> Vec<u8> {
    let place = dice.below(text.len() + 1);
    if dice.one_in(2) {
        text.truncate(place);
        text
    } else {
        text.split_off(place)
    }
}

/// The text, or a part of it, twice.
fn doubled(dice: &mut Dice, text: Vec<u8>) -> Vec<u8> {
    let (from, to) = (dice.below(text.len() + 1), dice.below(text.len() + 1));
    let part = match dice.below(2) {
        0 => &text[..],
        _ => &text[from.min(to)..from.max(to)],
    };
    [&text, part].concat()
}

fn shuffled(dice: &mut Dice, text: &[u8], divider: u8) -> Vec<u8> {
    let mut parts: Vec<&[u8]> = text.split(|&b| b == divider).collect();
    mixed(dice, &mut parts);
    parts.join(&divider)
}

/// Some of the things in each other's place.
pub fn mixed<T>(dice: &mut Dice, things: &mut [T]) {
    if things.is_empty() {
        return;
    }
    for _ in 0..dice.between(1, 4) {
        let (one, other) = (dice.below(things.len()), dice.below(things.len()));
        things.swap(one, other);
    }
}
