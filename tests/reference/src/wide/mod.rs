//! The wide comparison: sessions of many kinds and single records on tables
//! of many kinds, by the reference and by whoever else has the two calls.
//! The same seed gives the same cases; a case that differs is made small.

mod calls;
mod check;
mod counts;
mod courses;
mod damage;
mod rounds;
mod show;
mod shrink;
#[cfg(test)]
mod tests;
pub mod writer;

pub use calls::{Calls, Fault, Reference, Wrong, FAULTS};
pub use check::{Case, Room};
pub use counts::Counts;

use crate::cases::Random;
use rounds::Round;

/// Which cases: so many at least, from this round of this seed.
#[derive(Clone, Copy)]
pub struct Wish {
    pub count: u64,
    pub seed: u64,
    pub first: u64,
}

/// A case that differs, made small, and where it occurred.
pub struct Failure {
    pub round: u64,
    pub case: Case,
    pub text: String,
}

/// Compares until there were enough cases or one differs.
pub fn compare(calls: &mut dyn Calls, wish: Wish, counts: &mut Counts) -> Option<Failure> {
    for round in wish.first.. {
        if counts.cases() >= wish.count {
            break;
        }
        let random = Random::of_round(wish.seed, round);
        let found = Round {
            random,
            calls: &mut *calls,
            counts: &mut *counts,
        }
        .go();
        if let Some(case) = found {
            let case = shrink::smallest(calls, case);
            let text = show::shown(calls, &case);
            return Some(Failure { round, case, text });
        }
    }
    None
}
