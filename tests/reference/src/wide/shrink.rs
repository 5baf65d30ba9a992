//! Makes a case that differs smaller while it still differs: records are
//! dropped, then numbers lowered, then what is lent brought to its usual
//! size.

use super::calls::Calls;
use super::check::{both, lines_of, Case, Room};
use super::damage::exactly;
use crate::cases::tables::drop_last;
use crate::cases::Random;
use crate::table::{words_for, CAPACITY, HEAD, PARTICIPANTS, USED};

/// Passes over a case at most: each makes it smaller, or is the last.
const PASSES: usize = 60;

/// How much may be tried: a case costs one for each thousand bytes.
const BUDGET: usize = 60_000;

/// Tells whether cases differ until the budget is spent.
struct Trial<'a> {
    calls: &'a mut dyn Calls,
    left: usize,
}

impl Trial<'_> {
    fn differs(&mut self, case: &Case) -> bool {
        let cost = match case {
            Case::Session(bytes, _) => 1 + bytes.len() / 1_000,
            Case::Single(_, table, _) => 1 + table.len() / 500,
        };
        self.left = self.left.saturating_sub(cost);
        if self.left == 0 {
            return false;
        }
        let (wanted, got) = both(self.calls, case);
        wanted != got
    }
}

/// The smallest case found that differs, starting from one that does.
pub fn smallest(calls: &mut dyn Calls, mut case: Case) -> Case {
    let trial = &mut Trial {
        calls,
        left: BUDGET,
    };
    for _ in 0..PASSES {
        let before = case.clone();
        case = match case {
            Case::Session(bytes, room) => smaller_session(trial, bytes, room),
            Case::Single(record, table, answer) => smaller_single(trial, record, table, answer),
        };
        if case == before {
            break;
        }
    }
    case
}

fn smaller_session(trial: &mut Trial, bytes: Vec<u8>, room: Room) -> Case {
    let mut pieces = pieces_of(&bytes);
    let mut fails = |pieces: &[Vec<u8>], room| trial.differs(&Case::Session(pieces.concat(), room));
    if let Some(plain) = plainest(&pieces).filter(|plain| fails(plain, room)) {
        return Case::Session(plain.concat(), room);
    }
    drop_pieces(&mut pieces, &mut |pieces| fails(pieces, room));
    drop_with_handles(&mut pieces, &mut |pieces| fails(pieces, room));
    lower_numbers(&mut pieces, &mut |pieces| fails(pieces, room));
    let plain = Room::Needed(0);
    let room = if fails(&pieces, plain) { plain } else { room };
    Case::Session(pieces.concat(), room)
}

/// A file as its version byte, its records, and any rest byte by byte.
fn pieces_of(bytes: &[u8]) -> Vec<Vec<u8>> {
    let mut pieces = Vec::new();
    let mut rest = bytes;
    while !rest.is_empty() {
        let size = match rest {
            [high, low, ..] if !pieces.is_empty() => {
                2 + usize::from(u16::from_be_bytes([*high, *low]))
            }
            _ => 1,
        };
        let size = if size > rest.len() { 1 } else { size };
        let (piece, behind) = rest.split_at(size);
        pieces.push(piece.to_vec());
        rest = behind;
    }
    pieces
}

/// A large file of the same size with the same set-up and nonces alone, if
/// it isn't that already: where only the size matters, this shows it.
fn plainest(pieces: &[Vec<u8>]) -> Option<Vec<Vec<u8>>> {
    let (begin, rest) = pieces.split_at_checked(2)?;
    let size = rest.iter().map(Vec::len).sum();
    let plain = [&begin.concat(), &exactly(size)]
        .map(Vec::as_slice)
        .concat();
    let pieces_wanted = pieces_of(&plain);
    (size > 10_000 && pieces_wanted != pieces).then_some(pieces_wanted)
}

type Fails<'a> = dyn FnMut(&[Vec<u8>]) -> bool + 'a;

/// Drops runs of pieces, long ones first.
fn drop_pieces(pieces: &mut Vec<Vec<u8>>, fails: &mut Fails) {
    let mut run = pieces.len() / 2;
    while run > 0 {
        let mut at = 0;
        while at + run <= pieces.len() {
            let mut fewer = pieces.clone();
            fewer.drain(at..at + run);
            match fails(&fewer) {
                true => *pieces = fewer,
                false => at += run,
            }
        }
        run /= 2;
    }
}

/// Drops one record at a time; handles that came after the one it gave are
/// lowered by one in the records behind it.
fn drop_with_handles(pieces: &mut Vec<Vec<u8>>, fails: &mut Fails) {
    let mut at = 2;
    while at < pieces.len() {
        let mut fewer = pieces.clone();
        fewer.remove(at);
        if let Some(handle) = handle_given(&pieces.concat(), at) {
            for piece in &mut fewer[at..] {
                lower_handles(piece, handle);
            }
        }
        match fails(&fewer) {
            true => *pieces = fewer,
            false => at += 1,
        }
    }
}

/// The handle that the line of record `number` ends with, if it tells one.
fn handle_given(session: &[u8], number: usize) -> Option<u16> {
    let lines = String::from_utf8(lines_of(session)).ok()?;
    let line = lines.lines().nth(number - 1)?;
    let tells = line.contains("handle") || line.contains("sent");
    let last = line.rsplit(' ').next()?;
    tells.then(|| last.parse().ok())?
}

/// Lowers a record's handles that are above this one.
fn lower_handles(record: &mut [u8], above: u16) {
    let handles = match record.get(2) {
        Some(2) => 2..3,
        Some(5) => 0..4,
        Some(6 | 9) => 0..1,
        Some(7 | 8) => 0..2,
        _ => 0..0,
    };
    for number in handles {
        let place = 3 + 2 * number;
        if let Some(&[high, low]) = record
            .get(place..place + 2)
            .and_then(|two| two.first_chunk())
        {
            let handle = u16::from_be_bytes([high, low]);
            let lowered = handle - u16::from(handle > above);
            record[place..place + 2].copy_from_slice(&lowered.to_be_bytes());
        }
    }
}

/// Lower values to try for a number, the lowest first.
fn lower(number: u16) -> impl Iterator<Item = u16> {
    let tries = [0, 1, 2, 16, number / 2, number.saturating_sub(1)];
    tries.into_iter().filter(move |&value| value < number)
}

/// Lowers the numbers of records, and their other bytes where that helps.
fn lower_numbers(pieces: &mut [Vec<u8>], fails: &mut Fails) {
    for piece in 0..pieces.len() {
        let mut place = 3;
        while place + 1 < pieces[piece].len() {
            let old = [pieces[piece][place], pieces[piece][place + 1]];
            for value in lower(u16::from_be_bytes(old)) {
                pieces[piece][place..place + 2].copy_from_slice(&value.to_be_bytes());
                if fails(pieces) {
                    break;
                }
                pieces[piece][place..place + 2].copy_from_slice(&old);
            }
            place += 2;
        }
    }
}

fn smaller_single(trial: &mut Trial, record: Vec<u8>, table: Vec<u16>, answer: usize) -> Case {
    let mut fails = |record: &[u8], table: &[u16], answer| {
        trial.differs(&Case::Single(record.to_vec(), table.to_vec(), answer))
    };
    let answer = if fails(&record, &table, 4) { 4 } else { answer };
    let mut pieces = [record];
    lower_numbers(&mut pieces, &mut |pieces| fails(&pieces[0], &table, answer));
    let [record] = pieces;
    let table = smaller_table(table, &mut |table| fails(&record, table, answer));
    Case::Single(record, table, answer)
}

/// Takes entries away, shortens the run, and lowers words.
fn smaller_table(mut table: Vec<u16>, fails: &mut dyn FnMut(&[u16]) -> bool) -> Vec<u16> {
    for shorten in [
        last_entry_away,
        last_with_its_room,
        to_its_capacity,
        to_its_used,
    ] {
        while let Some(shorter) = shorten(&table).filter(|table| fails(table)) {
            table = shorter;
        }
    }
    for place in 0..table.len() {
        let old = table[place];
        for value in lower(old) {
            table[place] = value;
            if fails(&table) {
                break;
            }
            table[place] = old;
        }
    }
    table
}

fn head_is_there(table: &[u16]) -> bool {
    let (capacity, used) = (table.get(CAPACITY), table.get(USED));
    used <= capacity && capacity.is_some_and(|&all| table.len() >= words_for(all.max(16)))
}

fn last_entry_away(table: &[u16]) -> Option<Vec<u16>> {
    let fits = head_is_there(table) && table[USED] > 2 * table[PARTICIPANTS];
    let held = table.get(HEAD - 11..HEAD - 2)?.iter().all(|&next| next > 0);
    let mut shorter = table.to_vec();
    (fits && held).then(|| drop_last(&mut shorter, &mut Random::new(0)))?;
    Some(shorter)
}

/// The last entry away, and the capacity lower by one.
fn last_with_its_room(table: &[u16]) -> Option<Vec<u16>> {
    let mut shorter = last_entry_away(table).filter(|table| table[CAPACITY] > 16)?;
    shorter[CAPACITY] -= 1;
    shorter.truncate(words_for(shorter[CAPACITY]));
    Some(shorter)
}

fn to_its_capacity(table: &[u16]) -> Option<Vec<u16>> {
    let words = words_for(*table.get(CAPACITY)?);
    (words < table.len()).then(|| table[..words].to_vec())
}

fn to_its_used(table: &[u16]) -> Option<Vec<u16>> {
    let used = head_is_there(table).then(|| table[USED].max(16))?;
    let mut shorter = table[..words_for(used)].to_vec();
    shorter[CAPACITY] = used;
    (shorter.len() < table.len()).then_some(shorter)
}
