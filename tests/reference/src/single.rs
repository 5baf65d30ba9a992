//! One record on a table that the host keeps: a call the specification's
//! player doesn't have, for hosts with tables of their own.
//!
//! Readings chosen: the record comes without a version byte; set-up may come
//! at any time; a refusal by the machine itself is an answer like any other
//! and the call's own result is then 0.

use crate::commands::{refusal, step, Record};
use crate::session::{read_record, Read};
use crate::table::set_up;

/// Performs the one record in the bytes. The result is 0 with the answer in
/// the first four numbers, or 11 or 12 with nothing changed.
pub fn single(table: &mut [u16], bytes: &[u8], answer: &mut [u16]) -> u32 {
    let record = match read_record(bytes, 0) {
        Read::Record(record, next) if next == bytes.len() => record,
        _ => return u32::from(refusal::MALFORMED),
    };
    let Some(answer) = answer.first_chunk_mut::<4>() else {
        return u32::from(refusal::SHORT_OUTPUT);
    };
    let given = match record {
        Record::SetUp(n, mask, capacity) => set_up(table, n, mask, capacity),
        Record::Request(request) => step(table, request),
    };
    let (word, [first, second, third], _) = given.parts();
    *answer = [word, first, second, third];
    0
}
