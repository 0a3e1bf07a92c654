//! The properties, one file for each family of them.

mod accounts;
mod digits;
mod ledgers;
mod lines;
mod listings;
mod records;
mod references;
mod rounds;
mod slips;
mod slipwrites;
mod standing;
mod tallies;
mod wagefiles;
mod wages;
mod wagewrites;

use crate::trial::Plan;

/// Runs them all, or the one that the plan names.
pub fn run(plan: &Plan) {
    accounts::run(plan);
    digits::run(plan);
    references::run(plan);
    listings::run(plan);
    slips::run(plan);
    slipwrites::run(plan);
    ledgers::run(plan);
    standing::run(plan);
    lines::run(plan);
    records::run(plan);
    wagewrites::run(plan);
    wagefiles::run(plan);
    tallies::run(plan);
    rounds::run(plan);
}

/// How often a full run tries a short text, and how often a long one.
const MILLION: u64 = 1_000_000;
const HUNDRED_THOUSAND: u64 = 100_000;
