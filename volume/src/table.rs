//! The table at the end: a row for each property.

use crate::clock::now;

/// Refusals go up to 29.
const NUMBERS: usize = 30;

/// What one property came to.
pub struct Tally {
    property: &'static str,
    inputs: u64,
    /// How many were answered with each number; 0 is acceptance.
    answers: [u64; NUMBERS],
    /// Processor seconds of the run when it began.
    begun: f64,
}

impl Tally {
    pub fn new(property: &'static str) -> Tally {
        Tally {
            property,
            inputs: 0,
            answers: [0; NUMBERS],
            begun: now(),
        }
    }

    /// One input more, answered with this number.
    pub fn answered(&mut self, number: usize) {
        self.inputs += 1;
        self.answers[number] += 1;
    }

    /// A row: nothing can differ in it, for a difference ends the run.
    pub fn print(&self) {
        let refused: Vec<String> = (1..NUMBERS)
            .filter(|&number| self.answers[number] > 0)
            .map(|number| format!("{number}: {}", self.answers[number]))
            .collect();
        println!(
            "{:<22}{:>9}{:>10}  0 differ{:>8.2} s  {}",
            self.property,
            self.inputs,
            self.answers[0],
            now() - self.begun,
            refused.join(", ")
        );
    }
}

pub fn head(seed: u64) {
    println!("seed {seed}, libdesk.a against second, processor time");
    println!(
        "{:<22}{:>9}{:>10}{:>10}{:>10}  refused by number",
        "property", "inputs", "accepted", "", "time"
    );
}
