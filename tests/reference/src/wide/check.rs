//! A case, what the reference and other calls give for it, and whether that
//! is the same: the result and every byte or number that is lent, with a
//! margin on both sides.

use super::calls::{Calls, Reference};
use crate::player::{play_in, put_lines, Mode};

/// How many bytes an output has.
#[derive(Clone, Copy, Debug, PartialEq, Eq)]
pub enum Room {
    /// So many more than the lines need, or fewer.
    Needed(isize),
    Just(usize),
}

impl Room {
    pub fn size(self, needed: usize) -> usize {
        match self {
            Room::Needed(more) => needed.saturating_add_signed(more),
            Room::Just(size) => size,
        }
    }
}

/// All sizes that are tried around the needed one, and the smallest.
pub const ROOMS: [Room; 9] = [
    Room::Needed(0),
    Room::Needed(-1),
    Room::Needed(-2),
    Room::Needed(-3),
    Room::Needed(1),
    Room::Needed(2),
    Room::Needed(3),
    Room::Just(0),
    Room::Just(1),
];

#[derive(Clone, Debug, PartialEq, Eq)]
pub enum Case {
    /// A session file and the output that its lines are for.
    Session(Vec<u8>, Room),
    /// A record, a table, and how many numbers the answer has room for.
    Single(Vec<u8>, Vec<u16>, usize),
}

/// What a call gives: its result, and what it was lent with the margins.
#[derive(Debug, PartialEq, Eq)]
pub struct Given {
    pub result: u32,
    pub output: Vec<u8>,
    pub table: Vec<u16>,
    pub answer: Vec<u16>,
}

/// Bytes or numbers on either side of what is lent.
pub const MARGIN: usize = 8;

/// A lent output of junk that differs from byte to byte.
fn lent_bytes(size: usize) -> Vec<u8> {
    let places = 0..size + 2 * MARGIN;
    places.map(|at| (at * 37 + 11) as u8 | 128).collect()
}

fn with_margins(numbers: &[u16]) -> Vec<u16> {
    let margin = [0xC5A5; MARGIN];
    [&margin, numbers, &margin].concat()
}

fn inside<T>(lent: &mut [T]) -> &mut [T] {
    let last = lent.len() - MARGIN;
    &mut lent[MARGIN..last]
}

/// Sessions up to this size are played by testing the table before every
/// record, as the rules say. Both ways print the same; one is faster.
const TESTED: usize = 2_000;

/// The player's lines by the reference.
pub fn lines_of(session: &[u8]) -> Vec<u8> {
    match session.len() > TESTED {
        true => play_in(session, Mode::Trusting),
        false => play_in(session, Mode::Checked),
    }
}

fn played(session: &[u8], size: usize, play: impl FnOnce(&[u8], &mut [u8]) -> u32) -> Given {
    let mut output = lent_bytes(size);
    let result = play(session, inside(&mut output));
    Given {
        result,
        output,
        table: Vec::new(),
        answer: Vec::new(),
    }
}

fn performed(calls: &mut dyn Calls, record: &[u8], table: &[u16], answer: usize) -> Given {
    let mut table = with_margins(table);
    let mut answer = with_margins(&vec![0x1234; answer]);
    let result = calls.perform(record, inside(&mut table), inside(&mut answer));
    Given {
        result,
        output: Vec::new(),
        table,
        answer,
    }
}

/// What the reference gives for a record on a table, and what the others do.
pub fn both_perform(
    calls: &mut dyn Calls,
    record: &[u8],
    table: &[u16],
    answer: usize,
) -> (Given, Given) {
    (
        performed(&mut Reference, record, table, answer),
        performed(calls, record, table, answer),
    )
}

/// The same for a session whose lines are known, and one size of output.
fn both_play(calls: &mut dyn Calls, session: &[u8], lines: &[u8], room: Room) -> (Given, Given) {
    let size = room.size(lines.len());
    (
        played(session, size, |_, out| put_lines(lines, out)),
        played(session, size, |bytes, out| calls.play(bytes, out)),
    )
}

pub fn both(calls: &mut dyn Calls, case: &Case) -> (Given, Given) {
    match case {
        Case::Session(session, room) => both_play(calls, session, &lines_of(session), *room),
        Case::Single(record, table, answer) => both_perform(calls, record, table, *answer),
    }
}

/// The first of some sizes of output at which a session differs.
pub fn differing_room(
    calls: &mut dyn Calls,
    session: &[u8],
    lines: &[u8],
    rooms: &[Room],
) -> Option<Room> {
    rooms.iter().copied().find(|&room| {
        let (wanted, got) = both_play(calls, session, lines, room);
        wanted != got
    })
}
