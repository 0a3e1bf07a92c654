//! The sheet of results: a row for each race, with its bars.

use super::race::Race;
use std::fmt::Write;

#[derive(Clone, Copy)]
pub enum Bar {
    /// At least as fast as second.
    Ratio,
    /// At least so many times as fast.
    Times(f64),
    /// And an operation in less than so many seconds.
    RatioAndSeconds(f64),
}

#[derive(Default)]
pub struct Sheet {
    missed: usize,
}

impl Sheet {
    pub fn head(&self) {
        println!("Lanecockle (libdesk.a) and second, processor time, best of alternating rounds");
        println!(
            "{:<30}{:>15}{:>15}{:>8}  bars",
            "", "Lanecockle", "second", "ratio"
        );
    }

    pub fn operations(&mut self, name: &str, race: Race, bar: Bar) {
        let rate = |seconds: f64| scaled(1.0 / seconds, "/s");
        let mut bars = String::new();
        let least = if let Bar::Times(n) = bar { n } else { 1.0 };
        let asked = format!("ratio >= {least:?}");
        self.judge(&mut bars, &asked, race.ratio() >= least);
        if let Bar::RatioAndSeconds(most) = bar {
            let asked = format!("{:.3} ms < {} ms", race.ours * 1e3, most * 1e3);
            self.judge(&mut bars, &asked, race.ours < most);
        }
        self.row(
            name,
            &rate(race.ours),
            &rate(race.theirs),
            race.ratio(),
            &bars,
        );
    }

    /// A work over so many bytes, whose ratio is to be at least `least`.
    pub fn bytes(&mut self, name: &str, bytes: usize, race: Race, least: f64) {
        let rate = |seconds: f64| scaled(bytes as f64 / seconds, "B/s");
        let mut bars = String::new();
        let asked = format!("ratio >= {least:?}");
        self.judge(&mut bars, &asked, race.ratio() >= least);
        self.row(
            name,
            &rate(race.ours),
            &rate(race.theirs),
            race.ratio(),
            &bars,
        );
    }

    /// A number that is no race.
    pub fn plain(&mut self, name: &str, ours: &str, theirs: &str, remark: &str) {
        println!("{name:<30}{ours:>15}{theirs:>15}{:>8}  {remark}", "");
    }

    /// A bar of its own, for a row that shows the numbers.
    pub fn barred(&mut self, name: &str, ours: &str, theirs: &str, asked: &str, met: bool) {
        let mut bars = String::new();
        self.judge(&mut bars, asked, met);
        self.plain(name, ours, theirs, &bars);
    }

    /// Tells whether every bar is met.
    pub fn foot(&self) -> bool {
        match self.missed {
            0 => println!("every bar is met"),
            n => println!("{n} bars are missed"),
        }
        self.missed == 0
    }

    fn judge(&mut self, bars: &mut String, asked: &str, met: bool) {
        let word = if met { "met" } else { "MISSED" };
        if !bars.is_empty() {
            bars.push_str("; ");
        }
        write!(bars, "{asked} {word}").expect("a string takes all");
        self.missed += usize::from(!met);
    }

    fn row(&self, name: &str, ours: &str, theirs: &str, ratio: f64, bars: &str) {
        println!("{name:<30}{ours:>15}{theirs:>15}{ratio:>8.2}  {bars}");
    }
}

/// A number with three places and a unit of thousands.
pub fn scaled(number: f64, unit: &str) -> String {
    let (shown, prefix) = match number {
        n if n >= 1e9 => (n / 1e9, "G"),
        n if n >= 1e6 => (n / 1e6, "M"),
        n if n >= 1e3 => (n / 1e3, "k"),
        n => (n, ""),
    };
    format!("{shown:.2} {prefix}{unit}")
}
