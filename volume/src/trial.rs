//! One input of one property: its dice, its comparisons, and what is printed
//! where two answers differ.

use crate::dice::{self, Dice};
use crate::ffi::Told;
use crate::table::Tally;
use second::refusal::Refusal;
use second::wage::record;
use std::cell::Cell;
use std::fmt::Debug;
use std::process::exit;
use std::sync::atomic::{AtomicU64, Ordering::Relaxed};

/// What is run: which seed, how many inputs, and perhaps one property alone.
#[derive(Clone, Debug)]
pub struct Plan {
    pub seed: u64,
    /// Inputs of a property that a full run tries a million times.
    pub count: u64,
    pub property: Option<String>,
    pub number: Option<u64>,
    /// Whether a property was run: a name that is none of theirs runs nothing.
    pub met: Cell<bool>,
}

impl Plan {
    /// Runs a property: `one` for each input, as often as a full run does by
    /// `full`, scaled to this run.
    pub fn run(&self, property: &'static str, full: u64, mut one: impl FnMut(&mut Trial)) {
        if self.property.as_ref().is_some_and(|only| only != property) {
            return;
        }
        self.met.set(true);
        // Both sorts at least, where a full run tries only a few.
        let count = (full * self.count).div_ceil(1_000_000).max(2);
        let mut trial = Trial {
            property,
            seed: self.seed,
            number: 0,
            dice: Dice::new(0),
            tally: Tally::new(property),
        };
        fault::enter(property, self.seed);
        let numbers = match self.number {
            Some(number) => number..number + 1,
            None => 1..count + 1,
        };
        for number in numbers {
            trial.number = number;
            trial.dice = dice::of(self.seed, property, number);
            fault::note(number);
            one(&mut trial);
        }
        trial.tally.print();
    }
}

pub struct Trial {
    property: &'static str,
    seed: u64,
    number: u64,
    pub dice: Dice,
    tally: Tally,
}

/// The inputs of a call, each with its name.
pub type Inputs<'a> = &'a [(&'a str, &'a dyn Shown)];

impl Trial {
    /// Which input of its property this is, counted from 1.
    pub fn number(&self) -> u64 {
        self.number
    }

    /// Counts this input by its answer.
    pub fn answered(&mut self, number: usize) {
        self.tally.answered(number);
    }

    /// Ends the run unless both are the same.
    pub fn same<T: PartialEq + Debug>(&self, call: &str, ours: T, theirs: T, inputs: Inputs) {
        if ours != theirs {
            self.differs(call, &format!("{ours:?}"), &format!("{theirs:?}"), inputs);
        }
    }

    /// Ends the run unless the room holds what it must, to the last byte.
    pub fn same_room<T: PartialEq + Shown>(
        &self,
        call: &str,
        room: &[T],
        before: &[T],
        written: &[T],
        inputs: Inputs,
    ) where
        [T]: Shown,
    {
        let (front, rest) = room.split_at(written.len());
        if front != written || rest != &before[written.len()..] {
            let expected = format!(
                "{} then {}",
                written.shown(),
                before[written.len()..].shown()
            );
            self.differs(
                &format!("{call}, its room"),
                &room.shown(),
                &expected,
                inputs,
            );
        }
    }

    fn differs(&self, call: &str, ours: &str, theirs: &str, inputs: Inputs) -> ! {
        println!(
            "DIFFERENCE in {} (seed {}, number {}): {call}",
            self.property, self.seed, self.number
        );
        for (name, input) in inputs {
            println!("  {name}: {}", input.shown());
        }
        println!("  Lanecockle: {ours}");
        println!("  second:     {theirs}");
        exit(1)
    }
}

/// What can be printed to the last byte.
pub trait Shown {
    fn shown(&self) -> String;
}

impl Shown for [u8] {
    fn shown(&self) -> String {
        let digits: String = self.iter().map(|b| format!("{b:02x}")).collect();
        format!("{} bytes, hex {digits}", self.len())
    }
}

impl Shown for &[u8] {
    fn shown(&self) -> String {
        (**self).shown()
    }
}

impl Shown for Vec<u8> {
    fn shown(&self) -> String {
        self[..].shown()
    }
}

impl Shown for [u16] {
    fn shown(&self) -> String {
        format!("{} numbers, {self:?}", self.len())
    }
}

/// As `Debug` shows it.
macro_rules! shown_as_it_is {
    ($($of:ty),*) => {
        $(impl Shown for $of {
            fn shown(&self) -> String {
                format!("{self:?}")
            }
        })*
    };
}
shown_as_it_is!(
    u8,
    u16,
    u32,
    u64,
    usize,
    &[usize],
    Vec<usize>,
    crate::ffi::Record,
    crate::ffi::Tally
);

/// Second's answer in the words of the header.
pub fn told<T>(answer: &Result<T, Refusal>) -> Told {
    match answer {
        Ok(_) => Told::default(),
        Err(refusal) => of_told(record::Told::of(*refusal)),
    }
}

pub fn of_told(told: record::Told) -> Told {
    Told {
        number: told.number,
        line: told.line,
        field: told.field,
        byte: told.byte,
        needed: told.needed,
    }
}

/// Says where the run was when a call touched what it may not.
pub mod fault {
    use super::*;
    use std::sync::Mutex;

    static SEED: AtomicU64 = AtomicU64::new(0);
    static NUMBER: AtomicU64 = AtomicU64::new(0);
    static PROPERTY: Mutex<&str> = Mutex::new("");

    const SIGBUS: i32 = 7;
    const SIGSEGV: i32 = 11;

    extern "C" {
        fn signal(number: i32, handler: extern "C" fn(i32)) -> usize;
    }

    pub fn enter(property: &'static str, seed: u64) {
        *PROPERTY.lock().expect("one thread") = property;
        SEED.store(seed, Relaxed);
    }

    pub fn note(number: u64) {
        NUMBER.store(number, Relaxed);
    }

    /// From now on a fault is told before the run ends.
    pub fn tell() {
        unsafe {
            signal(SIGSEGV, faulted);
            signal(SIGBUS, faulted);
        }
    }

    /// The process is lost, and a lock or a line of text more does no harm.
    extern "C" fn faulted(signal: i32) {
        let property = PROPERTY.try_lock().map_or("", |name| *name);
        println!(
            "FAULT (signal {signal}) in {property}, seed {}, number {}: memory that was not lent, \
             or not to be written",
            SEED.load(Relaxed),
            NUMBER.load(Relaxed)
        );
        exit(1)
    }
}
