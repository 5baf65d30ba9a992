//! The reference machine behind calls of the same forms as the proved
//! machine's in `host/bench.h`, so that one program in C times them all.
//!
//! Each call asks of its caller what `host/bench.h` asks: pointers that are
//! good for their lengths, and runs that don't overlap.

use reference::{play_call_in, single, Mode};
use std::slice::{from_raw_parts, from_raw_parts_mut};

/// Plays a session with no test of the table after set-up.
///
/// # Safety
/// As above.
#[no_mangle]
pub unsafe extern "C" fn reference_play(
    session: *const u8,
    session_length: usize,
    output: *mut u8,
    output_length: usize,
) -> u32 {
    let session = from_raw_parts(session, session_length);
    let output = from_raw_parts_mut(output, output_length);
    play_call_in(session, output, Mode::Trusting)
}

/// Plays a session and tests the table before each command.
///
/// # Safety
/// As above.
#[no_mangle]
pub unsafe extern "C" fn reference_play_tested(
    session: *const u8,
    session_length: usize,
    output: *mut u8,
    output_length: usize,
) -> u32 {
    let session = from_raw_parts(session, session_length);
    let output = from_raw_parts_mut(output, output_length);
    play_call_in(session, output, Mode::Checked)
}

/// Performs one record on a table of the caller's, which is tested first.
///
/// # Safety
/// As above.
#[no_mangle]
pub unsafe extern "C" fn reference_perform(
    record: *const u8,
    record_length: usize,
    table: *mut u16,
    table_length: usize,
    answer: *mut u16,
    answer_length: usize,
) -> u32 {
    let record = from_raw_parts(record, record_length);
    let table = from_raw_parts_mut(table, table_length);
    let answer = from_raw_parts_mut(answer, answer_length);
    single(table, record, answer)
}
