//! The player: a whole session file in, the printed lines out; and the same
//! as one call with a lent output.
//!
//! Readings chosen where the specification leaves room:
//! - A file of exactly 65,536 bytes is still played.
//! - Set-up may only be record 1. A malformed record 1 and a record 1 that
//!   isn't set-up look the same: `1 refused 11`, then nothing.
//! - After a refused set-up the commands are answered with refusal 1.
//! - The lent output of the call fits if it is exactly as long as the lines;
//!   if it is too short all of it becomes zero.

use crate::commands::{act, refusal, step, Answer, Record};
use crate::session::{read_record, Read};
use crate::table::{set_up, HEAD, ROW};

/// The words of the player's own table, enough for the greatest capacity.
pub const PLAYER_WORDS: usize = 8208;
const _: () = assert!(PLAYER_WORDS == HEAD + 512 * ROW);

const VERSION: u8 = 1;
const LONGEST_FILE: usize = 65_536;
const DOES_NOT_FIT: u32 = u32::MAX;

/// How the player performs commands. Both ways print the same.
#[derive(Clone, Copy, Debug, PartialEq, Eq)]
pub enum Mode {
    /// Test the table before every command.
    Checked,
    /// Trust the table once set-up has succeeded.
    Trusting,
}

/// All that the player prints for a session file.
pub fn play(session: &[u8]) -> Vec<u8> {
    play_in(session, Mode::Checked)
}

/// All that the player prints, with a choice of how it performs commands.
pub fn play_in(session: &[u8], mode: Mode) -> Vec<u8> {
    let mut lines = Vec::new();
    play_to(session, mode, |line| lines.extend_from_slice(line));
    lines
}

/// Plays a session and hands on each line as it is made.
fn play_to(session: &[u8], mode: Mode, mut say: impl FnMut(&[u8])) {
    let mut line = Line::new();
    if session.first() != Some(&VERSION) || session.len() > LONGEST_FILE {
        say(line.of(0, &Answer::Refused(refusal::MALFORMED)));
        return;
    }
    let mut player = Player::new(mode);
    let mut at = 1;
    for number in 1.. {
        let answer = match read_record(session, at) {
            Read::End => break,
            Read::Malformed => Answer::Refused(refusal::MALFORMED),
            Read::Record(record, next) => {
                at = next;
                player.perform(number, record)
            }
        };
        say(line.of(number, &answer));
        if answer == Answer::Refused(refusal::MALFORMED) {
            break;
        }
    }
}

/// The player's table and whether it may be used untested.
struct Player {
    table: [u16; PLAYER_WORDS],
    mode: Mode,
    trusted: bool,
}

impl Player {
    fn new(mode: Mode) -> Self {
        Self {
            table: [0; PLAYER_WORDS],
            mode,
            trusted: false,
        }
    }

    fn perform(&mut self, number: u32, record: Record) -> Answer {
        match record {
            Record::SetUp(n, mask, capacity) if number == 1 => {
                let answer = set_up(&mut self.table, n, mask, capacity);
                let ready = matches!(answer, Answer::Ready(_));
                self.trusted = ready && self.mode == Mode::Trusting;
                answer
            }
            Record::Request(request) if number > 1 => {
                if self.trusted {
                    act(&mut self.table, request)
                } else {
                    step(&mut self.table, request)
                }
            }
            _ => Answer::Refused(refusal::MALFORMED),
        }
    }
}

/// A number of ten digits, the longest word, three values, the line feed.
const LONGEST_LINE: usize = 10 + 9 + 3 * 6 + 1;

/// Room for a line, which is made from its end: that way a number's digits
/// come in the order in which division gives them.
struct Line([u8; LONGEST_LINE]);

impl Line {
    fn new() -> Self {
        Self([0; LONGEST_LINE])
    }

    fn of(&mut self, number: u32, answer: &Answer) -> &[u8] {
        let mut first = self.put(LONGEST_LINE, b"\n");
        let (_, values, count) = answer.parts();
        for &value in values[..count].iter().rev() {
            first = self.put_number(first, u32::from(value));
            first = self.put(first, b" ");
        }
        first = self.put(first, answer.word().as_bytes());
        first = self.put(first, b" ");
        first = self.put_number(first, number);
        &self.0[first..]
    }

    /// Puts bytes before a place and gives the place of the first.
    fn put(&mut self, before: usize, bytes: &[u8]) -> usize {
        let first = before - bytes.len();
        self.0[first..before].copy_from_slice(bytes);
        first
    }

    fn put_number(&mut self, before: usize, number: u32) -> usize {
        let mut first = before;
        let mut rest = number;
        loop {
            first -= 1;
            self.0[first] = b'0' + (rest % 10) as u8;
            rest /= 10;
            if rest == 0 {
                return first;
            }
        }
    }
}

/// Plays a session into a lent output and gives the number of bytes written,
/// or 4,294,967,295 and an output of zeros if the lines don't fit.
pub fn play_call(session: &[u8], out: &mut [u8]) -> u32 {
    play_call_in(session, out, Mode::Checked)
}

/// The same, with a choice of how commands are performed. The lines go
/// straight to the output, and nothing is allocated.
pub fn play_call_in(session: &[u8], out: &mut [u8], mode: Mode) -> u32 {
    let mut end = Some(0);
    play_to(session, mode, |line| {
        end = end.and_then(|end| {
            out.get_mut(end..end + line.len())?.copy_from_slice(line);
            Some(end + line.len())
        });
    });
    match end.map(u32::try_from) {
        Some(Ok(written)) => written,
        _ => {
            out.fill(0);
            DOES_NOT_FIT
        }
    }
}

/// Puts lines at the start of a lent output, as the call does.
pub fn put_lines(lines: &[u8], out: &mut [u8]) -> u32 {
    match (out.get_mut(..lines.len()), u32::try_from(lines.len())) {
        (Some(start), Ok(written)) => {
            start.copy_from_slice(lines);
            written
        }
        _ => {
            out.fill(0);
            DOES_NOT_FIT
        }
    }
}
