//! What occurred in the cases: the histogram that a run prints at its end.

use super::check::{Given, Room, MARGIN};
use crate::cases::Tally;

/// Answers by their words, the parsed ones by type, the refusals by number.
const ANSWERS: [&str; 22] = [
    "ready",
    "sent",
    "accepted",
    "dropped",
    "handle",
    "parsed, data",
    "parsed, nonce",
    "parsed, list",
    "parsed, ciphertext",
    "parsed, secret key",
    "parsed, public key",
    "refused 1",
    "refused 2",
    "refused 3",
    "refused 4",
    "refused 5",
    "refused 6",
    "refused 7",
    "refused 8",
    "refused 9",
    "refused 10",
    "refused 11",
];

/// The place of an answer above: its word's number and its first value.
fn place_of(word: usize, value: usize) -> usize {
    match word {
        6 => 4 + value,
        7 => 10 + value,
        _ => word - 1,
    }
}

/// The place above of the answer that a line tells.
fn place_of_line(line: &[u8]) -> Option<usize> {
    const WORDS: [&[u8]; 7] = [
        b"ready",
        b"sent",
        b"accepted",
        b"dropped",
        b"handle",
        b"parsed",
        b"refused",
    ];
    let mut parts = line.split(|&byte| byte == b' ').skip(1);
    let said = parts.next()?;
    let word = 1 + WORDS.iter().position(|&word| word == said)?;
    let digits = parts.next().unwrap_or_default();
    let value = digits
        .iter()
        .fold(0, |sum, &digit| 10 * sum + usize::from(digit - b'0'));
    Some(place_of(word, value))
}

#[derive(Default)]
pub struct Counts {
    pub sessions: u64,
    pub singles: u64,
    /// Calls of `bench_play` and of `bench_perform`.
    pub plays: u64,
    pub performs: u64,
    pub tally: Tally,
}

impl Counts {
    pub fn cases(&self) -> u64 {
        self.sessions + self.singles
    }

    /// Counts a session: what it is, the answers that occur in it, its size.
    pub fn session(&mut self, what: &str, bytes: usize, lines: &[u8]) {
        self.sessions += 1;
        self.tally.add(&format!("session, {what}"));
        let mut seen = [false; ANSWERS.len()];
        let ended = lines.strip_suffix(b"\n").unwrap_or_default();
        for place in ended.split(|&byte| byte == b'\n').filter_map(place_of_line) {
            seen[place] = true;
        }
        for (label, _) in ANSWERS.iter().zip(seen).filter(|&(_, seen)| seen) {
            self.tally.add(&format!("session with {label}"));
        }
        if bytes > 60_000 {
            self.tally.add("session above 60,000 bytes");
        }
        if lines.is_empty() {
            self.tally.add("session with no line");
        }
    }

    /// Counts a call of `bench_play` by its output's size.
    pub fn output(&mut self, room: Room, needed: usize) {
        self.plays += 1;
        let short = match room.size(needed) < needed {
            true => "short, refused 12",
            false => "long enough",
        };
        self.tally.add(&format!("output {}: {short}", named(room)));
    }

    /// Counts a single record by what its table is and what is answered.
    pub fn single(&mut self, how: &str, given: &Given) {
        self.singles += 1;
        self.performs += 1;
        let answer = &given.answer[MARGIN..given.answer.len() - MARGIN];
        let place = match (given.result, answer) {
            (0, [word, value, ..]) => Some(place_of(usize::from(*word), usize::from(*value))),
            _ => None,
        };
        let label = match place {
            Some(place) => ANSWERS[place],
            None if given.result == 11 => "refused 11",
            None => "refused 12",
        };
        self.tally.add(&format!("record: {label}"));
        let formed = match label {
            "refused 1" => "not well formed",
            "refused 2" | "refused 11" | "refused 12" | "ready" => "not looked at",
            _ => "well formed",
        };
        self.tally.add(&format!("table {how}: {formed}"));
    }
}

/// What every long enough run has to meet beside each answer.
const OTHERS: [&str; 8] = [
    "record: refused 12",
    "session above 60,000 bytes",
    "session with no line",
    "course that ends with a full table",
    "output of 0: short, refused 12",
    "table cut anywhere: not well formed",
    "table junk: not well formed",
    "table any word: well formed",
];

impl Counts {
    /// What never occurred of that which a long run has to meet: the answers
    /// in sessions and of single records, and some more.
    pub fn missing(&self) -> Vec<String> {
        let sessions = ANSWERS
            .iter()
            .map(|answer| format!("session with {answer}"));
        let records = ANSWERS.iter().map(|answer| format!("record: {answer}"));
        let others = OTHERS.iter().map(|&other| other.to_owned());
        let all = sessions.chain(records).chain(others);
        all.filter(|label| self.tally.count(label) == 0).collect()
    }
}

/// A size of output in words.
pub fn named(room: Room) -> String {
    match room {
        Room::Needed(0) => "of the needed size".to_owned(),
        Room::Needed(more) => format!("of the needed size {more:+}"),
        Room::Just(size) => format!("of {size}"),
    }
}
