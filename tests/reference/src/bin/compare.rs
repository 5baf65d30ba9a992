//! Compares the proved code with the reference, by the two calls from C:
//! `compare COUNT [SEED [ROUND]] [--fault NAME]`.
//!
//! It links the archive that `tools/build bench_calls` writes. Its last
//! lines are what occurred; the status is 0 if all agree, 1 at the first case
//! that differs, which is made small and printed. With a fault, a stand-in
//! does something wrong on purpose. `tools/compare-code` builds and runs it.

use reference::wide::{compare, Calls, Counts, Fault, Wish, Wrong, FAULTS};
use std::process::ExitCode;

#[link(name = "bench_calls", kind = "static")]
extern "C" {
    fn bench_play(session: *const u8, bytes: usize, output: *mut u8, room: usize) -> u32;
    fn bench_perform(
        record: *const u8,
        bytes: usize,
        table: *mut u16,
        words: usize,
        answer: *mut u16,
        room: usize,
    ) -> u32;
}

/// So many cases have to meet everything.
const LONG_ENOUGH: u64 = 60_000;

/// The proved calls.
struct Archive;

impl Calls for Archive {
    fn play(&mut self, session: &[u8], output: &mut [u8]) -> u32 {
        // SAFETY: what is lent are two slices that don't overlap, with their own lengths.
        unsafe {
            bench_play(
                session.as_ptr(),
                session.len(),
                output.as_mut_ptr(),
                output.len(),
            )
        }
    }

    fn perform(&mut self, record: &[u8], table: &mut [u16], answer: &mut [u16]) -> u32 {
        // SAFETY: what is lent are three slices that don't overlap, with their own lengths.
        unsafe {
            bench_perform(
                record.as_ptr(),
                record.len(),
                table.as_mut_ptr(),
                table.len(),
                answer.as_mut_ptr(),
                answer.len(),
            )
        }
    }
}

/// The cases that are wished for, and a fault if there is to be one.
fn wish() -> Option<(Wish, Option<Fault>)> {
    let mut words: Vec<String> = std::env::args().skip(1).collect();
    let mut fault = None;
    if let Some(at) = words.iter().position(|word| word == "--fault") {
        let name = words.get(at + 1)?;
        fault = Some(FAULTS.iter().find(|(known, _)| known == name)?.1);
        words.drain(at..at + 2);
    }
    let numbers: Option<Vec<u64>> = words.iter().map(|word| word.parse().ok()).collect();
    let (count, seed, first) = match numbers?[..] {
        [count] => (count, 1, 0),
        [count, seed] => (count, seed, 0),
        [count, seed, first] => (count, seed, first),
        _ => return None,
    };
    Some((Wish { count, seed, first }, fault))
}

fn report(counts: &Counts) {
    print!("{}", counts.tally);
    println!(
        "compare: {} cases agree: {} sessions by {} calls of bench_play, {} records by as many calls of bench_perform",
        counts.cases(),
        counts.sessions,
        counts.plays,
        counts.singles
    );
}

/// A run that is long enough fails too if something never occurred in it.
fn told_of_missing(counts: &Counts) -> ExitCode {
    let missing = counts.missing();
    if counts.cases() < LONG_ENOUGH || missing.is_empty() {
        return ExitCode::SUCCESS;
    }
    println!("compare: never occurred: {}", missing.join("; "));
    ExitCode::FAILURE
}

fn main() -> ExitCode {
    let Some((wish, fault)) = wish() else {
        let names: Vec<&str> = FAULTS.iter().map(|(name, _)| *name).collect();
        eprintln!("compare COUNT [SEED [ROUND]] [--fault NAME], NAME one of {names:?}");
        return ExitCode::from(2);
    };
    let mut archive = Archive;
    let mut counts = Counts::default();
    let failure = match fault {
        Some(fault) => compare(&mut Wrong(&mut archive, fault), wish, &mut counts),
        None => compare(&mut archive, wish, &mut counts),
    };
    let Some(failure) = failure else {
        report(&counts);
        return told_of_missing(&counts);
    };
    print!("{}", failure.text);
    println!(
        "compare: differs in round {} of seed {}, case {}",
        failure.round,
        wish.seed,
        counts.cases()
    );
    ExitCode::FAILURE
}
