//! A case that differs, in hex, with what the reference gives for it and
//! what the other calls do.

use super::calls::Calls;
use super::check::{both, Case, Given, MARGIN};
use super::counts::named;
use crate::table::ROW;
use std::fmt::Write;

pub fn shown(calls: &mut dyn Calls, case: &Case) -> String {
    let (wanted, got) = both(calls, case);
    let mut text = String::new();
    match case {
        Case::Session(session, room) => {
            say(&mut text, &format!("session of {} bytes:", session.len()));
            say(&mut text, &session_hex(session));
            say(&mut text, &format!("output {}", named(*room)));
            say(&mut text, &format!("reference: {}", output(&wanted, &got)));
            say(
                &mut text,
                &format!("proved code: {}", output(&got, &wanted)),
            );
        }
        Case::Single(record, table, answer) => {
            say(&mut text, &format!("record: {}", hex(record)));
            say(&mut text, &format!("answer: {answer} numbers of 1234"));
            say(&mut text, &format!("table: {}", described(table)));
            text.push_str(&rows_hex(table));
            say(&mut text, &format!("reference: {}", performed(&wanted)));
            say(&mut text, &format!("proved code: {}", performed(&got)));
            text.push_str(&differing_words(&wanted.table, &got.table));
        }
    }
    if outside_changed(&wanted.output, &got.output)
        || outside_changed(&wanted.table, &got.table)
        || outside_changed(&wanted.answer, &got.answer)
    {
        say(&mut text, "something beside what was lent has changed");
    }
    text
}

fn say(text: &mut String, line: &str) {
    text.push_str(line);
    text.push('\n');
}

pub fn hex(bytes: &[u8]) -> String {
    bytes.iter().fold(String::new(), |mut text, byte| {
        // Writing into a string can't fail.
        let _ = write!(text, "{byte:02x}");
        text
    })
}

fn words_hex(words: &[u16]) -> String {
    let words: Vec<String> = words.iter().map(|word| format!("{word:04x}")).collect();
    words.join(" ")
}

/// A file in hex with a line for each record, as far as records go. Equal
/// records after each other share a line.
fn session_hex(session: &[u8]) -> String {
    let mut lines: Vec<(String, usize)> = Vec::new();
    for line in pieces(session).map(hex) {
        match lines.last_mut() {
            Some((last, times)) if *last == line => *times += 1,
            _ => lines.push((line, 1)),
        }
    }
    let lines: Vec<String> = lines.into_iter().map(times_named).collect();
    lines.join("\n")
}

fn times_named((line, times): (String, usize)) -> String {
    match times {
        1 => line,
        _ => format!("{line}, {times} times"),
    }
}

/// The version byte, each record, and what is left.
fn pieces(session: &[u8]) -> impl Iterator<Item = &[u8]> {
    let mut rest = session;
    let mut first = true;
    std::iter::from_fn(move || {
        let size = match rest {
            [] => return None,
            [high, low, ..] if !first => 2 + usize::from(u16::from_be_bytes([*high, *low])),
            _ => 1,
        };
        first = false;
        let (piece, behind) = rest.split_at(size.min(rest.len()));
        rest = behind;
        Some(piece)
    })
}

fn inside<T>(lent: &[T]) -> &[T] {
    &lent[MARGIN..lent.len() - MARGIN]
}

/// Whether a margin is another than it should be.
fn outside_changed<T: PartialEq>(wanted: &[T], got: &[T]) -> bool {
    let back = wanted.len().saturating_sub(MARGIN);
    wanted.get(..MARGIN) != got.get(..MARGIN) || wanted.get(back..) != got.get(back..)
}

/// Outputs longer than this are shown about their first difference only.
const SHORT: usize = 600;

fn output(given: &Given, other: &Given) -> String {
    let lent = inside(&given.output);
    let head = format!("result {}, output of {} bytes", given.result, lent.len());
    if lent.len() > SHORT {
        let pairs = given.output.iter().zip(&other.output);
        let place = pairs.take_while(|(one, other)| one == other).count();
        let from = place.saturating_sub(MARGIN + 40).min(lent.len());
        let part = &lent[from..(from + 80).min(lent.len())];
        return format!("{head}, from byte {from}: {}", hex(part));
    }
    let lines = lent.get(..given.result as usize).unwrap_or_default();
    let lines = String::from_utf8_lossy(lines);
    format!("{head}: {}\n{}", hex(lent), lines.trim_end())
}

fn performed(given: &Given) -> String {
    format!(
        "result {}, answer {}, table afterwards {}",
        given.result,
        words_hex(inside(&given.answer)),
        described(inside(&given.table))
    )
}

/// The size of a run and a digest of it (FNV-1a over its numbers).
fn described(table: &[u16]) -> String {
    let digest = table.iter().fold(0xCBF2_9CE4_8422_2325u64, |sum, &word| {
        (sum ^ u64::from(word)).wrapping_mul(0x0000_0100_0000_01B3)
    });
    format!("{} numbers, digest {digest:016x}", table.len())
}

/// The rows that aren't zero.
fn rows_hex(table: &[u16]) -> String {
    let rows = table.chunks(ROW).enumerate();
    rows.filter(|(_, row)| row.iter().any(|&word| word != 0))
        .map(|(number, row)| format!("  row {number}: {}\n", words_hex(row)))
        .collect()
}

/// The first places at which two tables differ.
fn differing_words(wanted: &[u16], got: &[u16]) -> String {
    let pairs = wanted.iter().zip(got).enumerate();
    pairs
        .filter(|(_, (wanted, got))| wanted != got)
        .take(8)
        .map(|(place, (wanted, got))| {
            let place = place as isize - MARGIN as isize;
            format!("  number {place} of the table: {wanted:04x}, in the proved code {got:04x}\n")
        })
        .collect()
}
