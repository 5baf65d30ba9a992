//! Cases of whole session files, sound and damaged, with the player's lines
//! and the call for the C host.

use super::bench::Bench;
use super::random::Random;
use super::sessions::good_set_up;
use super::text::{line, Tally};
use crate::commands::{Record, Request};
use crate::player::{play, play_call, play_in, Mode};
use crate::session::{write_record, Written};
use crate::table::{set_up, words_for};

pub fn case(random: &mut Random, tally: &mut Tally) -> String {
    let (bytes, what) = match random.one_in(100) {
        true => greatest(random),
        false => small(random),
    };
    tally.add(what);
    let lines = play(&bytes);
    debug_assert_eq!(lines, play_in(&bytes, Mode::Trusting));
    let mut out = lent_output(random, lines.len());
    let mut text = String::from("file\n");
    line(&mut text, "bytes", &bytes);
    line(&mut text, "lines", &lines);
    line(&mut text, "room", &out);
    let result = play_call(&bytes, &mut out);
    let fits = if result == u32::MAX {
        "short"
    } else {
        "long enough"
    };
    tally.add(&format!("output {fits}"));
    line(&mut text, "result", &[result]);
    line(&mut text, "out", &out);
    text.push_str("end\n");
    text
}

/// An output of junk, its size about what is needed.
fn lent_output(random: &mut Random, needed: usize) -> Vec<u8> {
    let size = match random.below(8) {
        _ if needed > 5000 => random.below(40),
        0 => 0,
        1 => needed.saturating_sub(1),
        2 => random.below(needed),
        3 => needed + 1,
        4 => needed + random.below(30),
        _ => needed,
    };
    random.bytes(size)
}

/// The bytes of a record; none if it can't be written.
pub fn record_bytes(record: Record) -> Vec<u8> {
    let mut out = [0; 11];
    match write_record(record, &mut out) {
        Written::Bytes(count) => out[..count].to_vec(),
        Written::Refused(_) => Vec::new(),
    }
}

/// A sound session as its records, the set-up first.
fn session(random: &mut Random) -> Vec<Vec<u8>> {
    let (n, mask, capacity) = good_set_up(random, 40);
    let mask = match random.one_in(12) {
        true => mask | (1 << n),
        false => mask,
    };
    let capacity = match random.one_in(12) {
        true => 512,
        false => capacity,
    };
    let mut run = vec![0; words_for(capacity)];
    set_up(&mut run, n, mask, capacity);
    let mut records = vec![record_bytes(Record::SetUp(n, mask, capacity))];
    let count = random.below(12);
    let mut bench = Bench::new(run, random, count);
    while bench.left > 0 {
        bench.proceed();
    }
    let requests = bench.done.iter().map(|done| Record::Request(done.request));
    records.extend(requests.map(record_bytes).filter(|bytes| !bytes.is_empty()));
    records
}

pub fn joined(records: &[Vec<u8>]) -> Vec<u8> {
    [&[1], records.concat().as_slice()].concat()
}

fn small(random: &mut Random) -> (Vec<u8>, &'static str) {
    let records = session(random);
    match random.below(20) {
        0..=7 => (joined(&records), "sound"),
        8..=12 => damaged_bytes(joined(&records), random),
        _ => damaged_records(records, random),
    }
}

/// Damage that needn't know where the records lie.
pub fn damaged_bytes(mut bytes: Vec<u8>, random: &mut Random) -> (Vec<u8>, &'static str) {
    match random.below(7) {
        0..=1 => {
            bytes.truncate(random.below(bytes.len()));
            (bytes, "cut")
        }
        2 => {
            bytes[0] = *random.pick(&[0, 2, 255]);
            (bytes, "version")
        }
        3 => (Vec::new(), "empty"),
        4 => (vec![random.between(0, 2) as u8], "version only"),
        5 => {
            bytes.push(random.byte());
            (bytes, "trailing byte")
        }
        _ => {
            let place = random.below(bytes.len());
            bytes[place] = bytes[place].wrapping_add(*random.pick(&[1, 255]));
            (bytes, "one byte")
        }
    }
}

/// Damage of one record, or of the order of records.
pub fn damaged_records(mut records: Vec<Vec<u8>>, random: &mut Random) -> (Vec<u8>, &'static str) {
    let place = random.below(records.len());
    let what = match random.below(9) {
        0..=4 => damage(&mut records[place], random),
        5 => {
            records.insert(place, vec![0, 0]);
            "empty body"
        }
        6 => {
            let again = records[0].clone();
            records.insert(place + 1, again);
            "second set-up"
        }
        7 => {
            records.remove(0);
            "no set-up"
        }
        _ => {
            records[0] = record_bytes(refused_set_up(random));
            "refused set-up"
        }
    };
    (joined(&records), what)
}

fn damage(record: &mut Vec<u8>, random: &mut Random) -> &'static str {
    match random.below(5) {
        0 => {
            record[2] = *random.pick(&[10, 11, 128, 255]);
            "unknown kind"
        }
        1 => {
            record[2] = random.between(0, 9) as u8;
            "other kind"
        }
        2 => {
            record[1] = record[1].wrapping_add(*random.pick(&[1, 2, 254, 255]));
            "body length"
        }
        3 => {
            record[0] = *random.pick(&[1, 128]);
            "high byte of the length"
        }
        _ => {
            *record = stretched(record, random);
            "stretched body"
        }
    }
}

/// A record with more or fewer bytes than its kind has, its length agreeing.
fn stretched(record: &[u8], random: &mut Random) -> Vec<u8> {
    let mut body = record[2..].to_vec();
    let size = (body.len() + *random.pick(&[1, 2, 4, 8])).saturating_sub(*random.pick(&[0, 3, 6]));
    body.resize(size, 1);
    let mut record = vec![0, size as u8];
    record.extend(body);
    record
}

pub fn refused_set_up(random: &mut Random) -> Record {
    let (n, mask, capacity) = good_set_up(random, 40);
    match random.below(3) {
        0 => Record::SetUp(*random.pick(&[0, 1, 9, 259]), 1, capacity),
        1 => Record::SetUp(n, 1 << n, capacity),
        _ => Record::SetUp(n, mask, *random.pick(&[0, 15, 513, 1000])),
    }
}

/// A session of just the greatest size, or of one byte more.
fn greatest(random: &mut Random) -> (Vec<u8>, &'static str) {
    let mut bytes = vec![1];
    bytes.extend(record_bytes(Record::SetUp(3, 3, 20)));
    let list = record_bytes(Record::Request(Request::List(4, [1, 1, 1, 9])));
    while bytes.len() + list.len() <= 65_526 {
        bytes.extend(&list);
    }
    for _ in 0..2 {
        bytes.extend(record_bytes(Record::Request(Request::Parse(4))));
    }
    debug_assert_eq!(bytes.len(), 65_536);
    if random.one_in(2) {
        bytes.push(0);
        return (bytes, "one byte too many");
    }
    (bytes, "greatest size")
}
