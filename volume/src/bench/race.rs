//! Two that do the same work by turns; the best turn of each counts.

use super::Size;
use crate::clock::seconds;
use std::hint::black_box;

/// Seconds for one operation.
#[derive(Clone, Copy)]
pub struct Race {
    pub ours: f64,
    pub theirs: f64,
}

impl Race {
    /// Before the first stretch of a work.
    pub const NOTHING: Race = Race {
        ours: 0.0,
        theirs: 0.0,
    };

    /// Two stretches of a work, one behind the other.
    pub fn and(self, other: Race) -> Race {
        Race {
            ours: self.ours + other.ours,
            theirs: self.theirs + other.theirs,
        }
    }

    /// How much faster ours is: at least 1.0 is the bar.
    pub fn ratio(&self) -> f64 {
        self.theirs / self.ours
    }
}

/// Both go over the same inputs, again from the first when they are through.
/// What they answer is taken for used.
pub fn over<'a, I, A, B>(
    size: Size,
    inputs: &'a [I],
    mut ours: impl FnMut(&'a I) -> A,
    mut theirs: impl FnMut(&'a I) -> B,
) -> Race {
    let mut ours = |count| pass(inputs, count, &mut ours);
    let mut theirs = |count| pass(inputs, count, &mut theirs);
    let few = inputs.len().min(50);
    let alone = seconds(|| ours(few)).min(seconds(|| theirs(few)));
    let wanted = (size.turn / alone.max(1e-9) * few as f64) as usize;
    let count = wanted.clamp(few, 10_000_000);
    let race = turns(size.rounds, || ours(count), || theirs(count));
    Race {
        ours: race.ours / count as f64,
        theirs: race.theirs / count as f64,
    }
}

fn pass<'a, I, A>(inputs: &'a [I], count: usize, work: &mut impl FnMut(&'a I) -> A) {
    for input in inputs.iter().cycle().take(count) {
        black_box(work(black_box(input)));
    }
}

/// Seconds for the whole of each work.
pub fn turns(rounds: usize, mut ours: impl FnMut(), mut theirs: impl FnMut()) -> Race {
    let mut best = Race {
        ours: f64::INFINITY,
        theirs: f64::INFINITY,
    };
    for _ in 0..rounds {
        best.ours = best.ours.min(seconds(&mut ours));
        best.theirs = best.theirs.min(seconds(&mut theirs));
    }
    best
}

/// A pass over bytes that adds them up and asks nothing of them.
pub fn plain_pass(bytes: &[u8]) -> u8 {
    bytes.iter().fold(0, |sum, &byte| sum.wrapping_add(byte))
}
