//! Cases of reading one record at a place and of writing one record.

use super::files::record_bytes;
use super::random::Random;
use super::text::{line, record_numbers, Tally};
use crate::commands::{Record, Request};
use crate::session::{read_record, write_record, Read, Written};

pub fn case(random: &mut Random, tally: &mut Tally) -> String {
    let mut text = String::from("record\n");
    reading(&mut text, random, tally);
    writing(&mut text, random, tally);
    text.push_str("end\n");
    text
}

fn reading(text: &mut String, random: &mut Random, tally: &mut Tally) {
    let (bytes, at) = readable(random);
    line(text, "bytes", &bytes);
    line(text, "at", &[at]);
    match read_record(&bytes, at) {
        Read::End => {
            tally.add("read end");
            line::<u16>(text, "read end", &[]);
        }
        Read::Malformed => {
            tally.add("read malformed");
            line::<u16>(text, "read malformed", &[]);
        }
        Read::Record(record, next) => {
            let numbers = record_numbers(record);
            tally.add(&format!("read kind {}", numbers[0]));
            line(text, &format!("read record {next}"), &numbers);
        }
    }
}

/// Bytes with a record or something like it, and a place in them.
fn readable(random: &mut Random) -> (Vec<u8>, usize) {
    let before = random.below(4);
    let mut bytes = random.bytes(before);
    let mut record = record_bytes(any_record(random));
    if record.is_empty() || random.one_in(3) {
        record = likely_bytes(random);
    }
    if random.one_in(8) {
        let place = random.below(record.len());
        record[place] = record[place].wrapping_add(*random.pick(&[1, 2, 254, 255]));
    }
    bytes.extend(record);
    match random.below(6) {
        0 => bytes.truncate(before + random.below(bytes.len() - before)),
        1 | 2 => {
            let behind = random.below(6);
            bytes.extend(random.bytes(behind));
        }
        _ => {}
    }
    let at = match random.below(12) {
        0 => bytes.len(),
        1 => bytes.len() + 1 + random.below(3),
        2 => random.below(bytes.len() + 1),
        _ => before,
    };
    (bytes, at)
}

/// A body of some small size with some kind, mostly of that length.
fn likely_bytes(random: &mut Random) -> Vec<u8> {
    let size = random.below(14);
    let mut bytes = vec![0, size as u8];
    if random.one_in(12) {
        bytes[0] = 1;
    }
    bytes.extend(random.bytes(size));
    if size > 0 {
        bytes[2] = random.between(0, 10) as u8;
    }
    bytes
}

/// Any record at all, lists of bad counts too.
pub fn any_record(random: &mut Random) -> Record {
    let mut number = || match random.below(3) {
        0 => random.word(),
        1 => random.between(0, 300),
        _ => random.between(0, 6),
    };
    let (a, b, c, d) = (number(), number(), number(), number());
    Record::Request(match random.below(13) {
        0 => return Record::SetUp(a, b, c),
        1 => Request::Start(a, b),
        2 => Request::Deliver(a, b, c),
        3 => Request::Store(a),
        4 => Request::Nonce,
        5..=8 => any_list(random, [a, b, c, d]),
        9 => Request::Project(a, b),
        10 => Request::Encrypt(a, b),
        11 => Request::Decrypt(a, b),
        _ => Request::Parse(a),
    })
}

fn any_list(random: &mut Random, mut handles: [u16; 4]) -> Request {
    let count = match random.below(5) {
        0 => *random.pick(&[0, 5, 6, 255, 256, 257, u16::MAX]),
        _ => random.between(1, 4),
    };
    if !random.one_in(4) {
        for handle in handles.iter_mut().skip(usize::from(count)) {
            *handle = 0;
        }
    }
    Request::List(count, handles)
}

fn writing(text: &mut String, random: &mut Random, tally: &mut Tally) {
    let record = any_record(random);
    let needed = record_bytes(record).len();
    let size = match random.below(6) {
        0 => 0,
        1 => needed.saturating_sub(1),
        2 => random.below(13),
        3 => needed + 1 + random.below(5),
        _ => needed,
    };
    let mut out = random.bytes(size);
    line(text, "write", &record_numbers(record));
    line(text, "room", &out);
    match write_record(record, &mut out) {
        Written::Bytes(count) => {
            tally.add("written");
            line(text, "written bytes", &[count]);
        }
        Written::Refused(number) => {
            tally.add(&format!("written refused {number}"));
            line(text, "written refused", &[number]);
        }
    }
    line(text, "out", &out);
}
