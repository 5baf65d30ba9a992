//! Records of a session file: reading one and writing one.
//!
//! Readings chosen where the specification leaves room:
//! - At the end, and at any place past it, stands the end. Version byte, file
//!   size and order of records are left to the player.
//! - An empty body has no kind and is malformed.
//! - A list of none or of five can't be read: its body length doesn't fit, so
//!   in a file it is malformed and never refusal 4.
//! - Unused list arguments aren't written; reading gives them back as zero.

use crate::commands::{list_arguments_fit, refusal, Record, Request};

/// What stands at a place in a file.
#[derive(Clone, Copy, Debug, PartialEq, Eq)]
pub enum Read {
    End,
    Malformed,
    /// The record and the place behind it.
    Record(Record, usize),
}

/// What became of writing a record.
#[derive(Clone, Copy, Debug, PartialEq, Eq)]
pub enum Written {
    Bytes(usize),
    Refused(u16),
}

/// Reads the record that begins at a place.
pub fn read_record(bytes: &[u8], at: usize) -> Read {
    if bytes.len() <= at {
        return Read::End;
    }
    match body_at(bytes, at) {
        Some(body) => match decode(body) {
            Some(record) => Read::Record(record, at + 2 + body.len()),
            None => Read::Malformed,
        },
        None => Read::Malformed,
    }
}

fn body_at(bytes: &[u8], at: usize) -> Option<&[u8]> {
    let (length, rest) = bytes.get(at..)?.split_first_chunk::<2>()?;
    rest.get(..usize::from(u16::from_be_bytes(*length)))
}

fn decode(body: &[u8]) -> Option<Record> {
    let (&kind, rest) = body.split_first()?;
    let (pairs, odd) = rest.as_chunks::<2>();
    if pairs.len() > 4 || !odd.is_empty() {
        return None;
    }
    let mut numbers = [0; 4];
    for (number, pair) in numbers.iter_mut().zip(pairs) {
        *number = u16::from_be_bytes(*pair);
    }
    let [a, b, c, _] = numbers;
    let request = match (kind, pairs.len()) {
        (0, 3) => return Some(Record::SetUp(a, b, c)),
        (1, 2) => Request::Start(a, b),
        (2, 3) => Request::Deliver(a, b, c),
        (3, 1) => Request::Store(a),
        (4, 0) => Request::Nonce,
        (5, 1) => Request::List(1, numbers),
        (5, 2) => Request::List(2, numbers),
        (5, 3) => Request::List(3, numbers),
        (5, 4) => Request::List(4, numbers),
        (6, 2) => Request::Project(a, b),
        (7, 2) => Request::Encrypt(a, b),
        (8, 2) => Request::Decrypt(a, b),
        (9, 1) => Request::Parse(a),
        _ => return None,
    };
    Some(Record::Request(request))
}

/// Writes a record at the start of the output.
pub fn write_record(record: Record, out: &mut [u8]) -> Written {
    if let Record::Request(Request::List(count, handles)) = record {
        if !list_arguments_fit(count, &handles) {
            return Written::Refused(refusal::MALFORMED);
        }
    }
    let (kind, numbers, count) = fields(record);
    let body = 1 + 2 * count;
    let Some(([high, low, first], rest)) = out
        .get_mut(..2 + usize::from(body))
        .and_then(|out| out.split_first_chunk_mut::<3>())
    else {
        return Written::Refused(refusal::SHORT_OUTPUT);
    };
    [*high, *low] = body.to_be_bytes();
    *first = kind;
    for (pair, number) in rest.as_chunks_mut::<2>().0.iter_mut().zip(numbers) {
        *pair = number.to_be_bytes();
    }
    Written::Bytes(2 + usize::from(body))
}

/// A record's kind, its numbers, and how many of them a file holds.
pub(crate) fn fields(record: Record) -> (u8, [u16; 4], u16) {
    let request = match record {
        Record::SetUp(n, mask, capacity) => return (0, [n, mask, capacity, 0], 3),
        Record::Request(request) => request,
    };
    match request {
        Request::Start(u, v) => (1, [u, v, 0, 0], 2),
        Request::Deliver(s, r, handle) => (2, [s, r, handle, 0], 3),
        Request::Store(value) => (3, [value, 0, 0, 0], 1),
        Request::Nonce => (4, [0; 4], 0),
        Request::List(count, handles) => (5, handles, count),
        Request::Project(handle, place) => (6, [handle, place, 0, 0], 2),
        Request::Encrypt(key, list) => (7, [key, list, 0, 0], 2),
        Request::Decrypt(key, text) => (8, [key, text, 0, 0], 2),
        Request::Parse(handle) => (9, [handle, 0, 0, 0], 1),
    }
}
