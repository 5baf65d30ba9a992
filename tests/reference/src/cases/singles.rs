//! Cases of the call that performs one record on a table of the host's.

use super::bench::Bench;
use super::files::record_bytes;
use super::random::Random;
use super::records::any_record;
use super::sessions::good_set_up;
use super::tables::reached_table;
use super::text::{line, Tally};
use crate::commands::Record;
use crate::single::single;
use crate::table::words_for;

pub fn case(random: &mut Random, tally: &mut Tally) -> String {
    let (mut run, bytes) = match random.one_in(40) {
        true => set_up_at_bounds(random),
        false => {
            let run = lent_table(random);
            let bytes = lent_bytes(&run, random);
            (run, bytes)
        }
    };
    let room = match random.one_in(3) {
        true => random.below(8),
        false => 4 + random.below(4),
    };
    let mut answer = random.words(room);
    let mut text = String::from("single\n");
    line(&mut text, "run", &run);
    line(&mut text, "bytes", &bytes);
    line(&mut text, "room", &answer);
    let result = single(&mut run, &bytes, &mut answer);
    tally.add(&format!("result {result}"));
    match answer.first_chunk::<4>() {
        Some([7, number, ..]) if result == 0 => tally.add(&format!("answer 7 {number}")),
        Some([word, ..]) if result == 0 => tally.add(&format!("answer {word}")),
        _ => {}
    }
    line(&mut text, "result", &[result]);
    line(&mut text, "table", &run);
    line(&mut text, "answer", &answer);
    text.push_str("end\n");
    text
}

/// A set-up with one number at or over its bound, and a run long enough.
pub fn set_up_at_bounds(random: &mut Random) -> (Vec<u16>, Vec<u8>) {
    let (n, mask, capacity) = *random.pick(&[
        (0, 0, 16),
        (1, 1, 16),
        (2, 3, 16),
        (2, 4, 16),
        (8, 255, 16),
        (8, 256, 16),
        (9, 1, 16),
        (9, 1, 18),
        (3, 3, 15),
        (3, 3, 512),
        (3, 3, 513),
    ]);
    let run = vec![7; words_for(capacity)];
    (run, record_bytes(Record::SetUp(n, mask, capacity)))
}

/// Mostly a well-formed table; now and then junk or one altered word.
fn lent_table(random: &mut Random) -> Vec<u16> {
    let mut run = reached_table(random);
    match random.below(12) {
        0 => {
            let words = random.below(400);
            run = random.words(words);
        }
        1 => {
            let place = random.below(120.min(run.len()));
            run[place] = run[place].wrapping_add(1);
        }
        2 => run.truncate(random.below(run.len())),
        _ => {}
    }
    run
}

/// Mostly just one record that suits the table.
pub fn lent_bytes(run: &[u16], random: &mut Random) -> Vec<u8> {
    let mut bytes = record_bytes(suiting_record(run, random));
    match random.below(16) {
        0 => bytes.push(random.byte()),
        1 => bytes.truncate(random.below(bytes.len())),
        2 => bytes.insert(0, 1),
        3 => bytes = bytes.repeat(2),
        4 if !bytes.is_empty() => {
            let place = random.below(bytes.len().min(3));
            bytes[place] = bytes[place].wrapping_add(1);
        }
        _ => {}
    }
    bytes
}

fn suiting_record(run: &[u16], random: &mut Random) -> Record {
    match random.below(8) {
        0 => {
            let (n, mask, capacity) = good_set_up(random, 24);
            let over = u16::from(random.one_in(4));
            Record::SetUp(n, mask | (over << n), capacity)
        }
        1 => any_record(random),
        _ => Record::Request(Bench::new(run.to_vec(), random, 0).propose()),
    }
}
