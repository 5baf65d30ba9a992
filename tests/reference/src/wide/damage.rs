//! Session files that are damaged, and files of about the greatest size.

use crate::cases::files::{damaged_bytes, damaged_records, joined, record_bytes};
use crate::cases::Random;
use crate::commands::{Record, Request};

const GREATEST: usize = 65_536;

/// A damaged file and what is wrong with it.
pub fn damaged(records: &[Vec<u8>], random: &mut Random) -> (Vec<u8>, &'static str) {
    match random.below(4) {
        0 => damaged_bytes(joined(records), random),
        1 => damaged_records(records.to_vec(), random),
        2 => reordered(records.to_vec(), random),
        _ => altered(joined(records), random),
    }
}

/// Sound records that come in another order or number.
fn reordered(mut records: Vec<Vec<u8>>, random: &mut Random) -> (Vec<u8>, &'static str) {
    let (one, other) = (random.below(records.len()), random.below(records.len()));
    let what = match random.below(5) {
        0 => {
            records.remove(one);
            "a record left out"
        }
        1 => {
            records.swap(one, other);
            "two records swapped"
        }
        2 => {
            records.insert(other, records[one].clone());
            "a record once more"
        }
        3 => {
            records[one][3..].reverse();
            "numbers reversed"
        }
        _ => {
            records.extend_from_within(..);
            "the file twice"
        }
    };
    (joined(&records), what)
}

/// Bytes changed anywhere.
pub fn altered(mut bytes: Vec<u8>, random: &mut Random) -> (Vec<u8>, &'static str) {
    let place = random.below(bytes.len());
    let some = 1 + random.below(6);
    let what = match random.below(6) {
        0 => {
            bytes.drain(place..(place + some).min(bytes.len()));
            "bytes left out"
        }
        1 => {
            let more = random.bytes(some);
            bytes.splice(place..place, more);
            "bytes put in"
        }
        2 => {
            for _ in 0..some {
                let place = random.below(bytes.len());
                bytes[place] ^= 1 << random.below(8);
            }
            "bits changed"
        }
        3 => {
            bytes.truncate(bytes.len() - some.min(bytes.len() - 1));
            "cut near the end"
        }
        4 => {
            bytes.extend(vec![0; some]);
            "zeros after the end"
        }
        _ => {
            bytes.truncate(1 + random.below(12));
            bytes.extend(random.bytes(some * 4));
            "junk"
        }
    };
    (bytes, what)
}

/// Goes on with a session's own records until it has about the greatest
/// size: some hundred bytes less, just that, or one to three more.
pub fn near_greatest(records: &[Vec<u8>], random: &mut Random) -> (Vec<u8>, &'static str) {
    let wanted = match random.below(4) {
        0 => GREATEST - random.below(5_000),
        1 => GREATEST - random.below(4),
        2 => GREATEST,
        _ => GREATEST + 1 + random.below(3),
    };
    let mut bytes = joined(records);
    let again = if records.len() > 1 {
        &records[1..]
    } else {
        &[]
    };
    while !again.is_empty() && bytes.len() + 30 < wanted {
        bytes.extend(random.pick(again));
    }
    bytes.extend(exactly(wanted.saturating_sub(bytes.len())));
    match bytes.len() {
        ..GREATEST => (bytes, "near the greatest size"),
        GREATEST => (bytes, "the greatest size"),
        _ => (bytes, "over the greatest size"),
    }
}

/// Sound records that take just so many bytes, if there are such.
pub fn exactly(size: usize) -> Vec<u8> {
    let request = match size % 3 {
        1 => Request::Project(1, 1),
        2 => Request::Parse(1),
        _ => Request::Nonce,
    };
    let mut bytes = record_bytes(Record::Request(request));
    while bytes.len() < size {
        bytes.extend(record_bytes(Record::Request(Request::Nonce)));
    }
    bytes
}
