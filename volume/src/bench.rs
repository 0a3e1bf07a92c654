//! The benchmark: Lanecockle and second side by side on the same inputs.

pub mod child;
pub mod inputs;
pub mod night;
pub mod race;
pub mod sheet;
pub mod slips;
pub mod standing;
pub mod texts;
pub mod wages;

/// How large a run is.
#[derive(Clone, Copy)]
pub struct Size {
    /// Rounds in which both take their turn; the best of them counts.
    pub rounds: usize,
    /// Processor seconds that a turn takes at the least.
    pub turn: f64,
    /// Lines of the wage file.
    pub lines: usize,
    /// Rounds over the wage file.
    pub passes: usize,
}

pub const FULL: Size = Size {
    rounds: 60,
    turn: 0.005,
    lines: 1_000_000,
    passes: 20,
};

pub const QUICK: Size = Size {
    rounds: 5,
    turn: 0.005,
    lines: 50_000,
    passes: 3,
};
