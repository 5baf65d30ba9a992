//! Cases of set-up and a course of requests, with the whole run after each.

use super::bench::Bench;
use super::random::Random;
use super::text::{answer_line, line, request_line, request_name, Tally};
use crate::table::{set_up, words_for};

/// The numbers of a set-up: n, mask, capacity.
pub type SetUp = (u16, u16, u16);

pub fn case(random: &mut Random, tally: &mut Tally) -> String {
    let (n, mask, capacity) = set_up_numbers(random);
    let mut run = lent_run(random, capacity);
    let mut text = String::from("session\n");
    line(&mut text, "run", &run);
    line(&mut text, "setup", &[n, mask, capacity]);
    let answer = set_up(&mut run, n, mask, capacity);
    tally.answer("set-up", answer);
    answer_line(&mut text, answer);
    line(&mut text, "table", &run);
    let most = if capacity > 40 { 8 } else { 25 };
    let count = usize::from(random.between(8, most));
    let mut bench = Bench::new(run, random, count);
    while bench.left > 0 {
        bench.proceed();
    }
    for done in bench.done {
        tally.answer(request_name(done.request), done.answer);
        request_line(&mut text, done.request);
        answer_line(&mut text, done.answer);
        line(&mut text, "table", &done.table);
    }
    text.push_str("end\n");
    text
}

/// Mostly a set-up that is in range.
fn set_up_numbers(random: &mut Random) -> SetUp {
    let (n, mask, capacity) = good_set_up(random, 40);
    match random.below(60) {
        0 => (*random.pick(&[0, 1, 1, 9, 9, u16::MAX]), 1, capacity),
        1 => (n, (1 << n) | mask, capacity),
        2 => (n, *random.pick(&[1 << n, 256, 1 << 15, u16::MAX]), capacity),
        3 => (n, mask, *random.pick(&[0, 14, 15, 15, 513, u16::MAX])),
        4 if random.one_in(2) => (n, mask, 512),
        _ => (n, mask, capacity),
    }
}

/// A set-up in range with a small capacity, most often with some
/// participants honest and some not.
pub fn good_set_up(random: &mut Random, most: u16) -> SetUp {
    let n = match random.below(4) {
        0 => random.between(2, 8),
        _ => random.between(2, 4),
    };
    let full = (1 << n) - 1;
    let mask = match random.below(10) {
        0 => random.between(0, full),
        1 => full,
        2 => random.between(1, full),
        _ => (random.between(1, full) | 1) & !(1 << random.between(1, n - 1)),
    };
    let capacity = match random.below(3) {
        0 => random.between(16, most),
        _ => random.between(most - (most - 16) / 3, most),
    };
    (n, mask, capacity)
}

/// A run of junk for a table of this capacity: just long enough, longer, or
/// now and then too short.
fn lent_run(random: &mut Random, capacity: u16) -> Vec<u16> {
    let words = words_for(capacity.min(520));
    let words = match random.below(30) {
        0 => words - 1 - random.below(words.min(30)),
        1..=10 => words + random.below(41),
        _ => words,
    };
    random.words(words)
}
