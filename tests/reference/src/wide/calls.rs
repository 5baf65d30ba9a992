//! The two calls as the comparison makes them: whoever has them can be
//! compared. Beside the reference's own there is a stand-in that does one
//! thing wrong on purpose, so that the comparison is seen to fail.

use crate::single::single;
use crate::table::{CAPACITY, USED};

/// The calls of `host/bench.h`.
pub trait Calls {
    /// Plays a session into an output.
    fn play(&mut self, session: &[u8], output: &mut [u8]) -> u32;
    /// Performs a record on a table.
    fn perform(&mut self, record: &[u8], table: &mut [u16], answer: &mut [u16]) -> u32;
}

/// The reference's own calls.
pub struct Reference;

impl Calls for Reference {
    fn play(&mut self, session: &[u8], output: &mut [u8]) -> u32 {
        crate::player::play_call(session, output)
    }

    fn perform(&mut self, record: &[u8], table: &mut [u16], answer: &mut [u16]) -> u32 {
        single(table, record, answer)
    }
}

/// What a stand-in does wrong.
#[derive(Clone, Copy, Debug, PartialEq, Eq)]
pub enum Fault {
    /// A line `refused 9` says `refused 8`.
    NineAsEight,
    /// An acceptance past record 9 is told as dropped; the byte count agrees.
    AcceptanceLost,
    /// An output of just the lines' size is taken for short, if they are
    /// over 200 bytes.
    ExactFitShort,
    /// A record that finds no room still counts one more used entry.
    RoomlessCounts,
    /// The handle told for an entry of a full table is one too high.
    LastHandle,
}

/// The faults by the names they are asked for with.
pub const FAULTS: [(&str, Fault); 5] = [
    ("nine-as-eight", Fault::NineAsEight),
    ("acceptance-lost", Fault::AcceptanceLost),
    ("exact-fit-short", Fault::ExactFitShort),
    ("roomless-counts", Fault::RoomlessCounts),
    ("last-handle", Fault::LastHandle),
];

/// Another's calls with a fault.
pub struct Wrong<'a>(pub &'a mut dyn Calls, pub Fault);

impl Calls for Wrong<'_> {
    fn play(&mut self, session: &[u8], output: &mut [u8]) -> u32 {
        let result = self.0.play(session, output);
        let size = result as usize;
        let Some(lines) = output.get_mut(..size) else {
            return result;
        };
        match self.1 {
            Fault::NineAsEight => replace(lines, b" refused 9\n", b" refused 8\n", 0),
            Fault::AcceptanceLost => replace(lines, b" accepted 1 2\n", b" dropped   1 2", 9),
            Fault::ExactFitShort if size == output.len() && size > 200 => {
                output.fill(0);
                return u32::MAX;
            }
            _ => {}
        }
        result
    }

    fn perform(&mut self, record: &[u8], table: &mut [u16], answer: &mut [u16]) -> u32 {
        let result = self.0.perform(record, table, answer);
        if result != 0 {
            return result;
        }
        match (self.1, &mut *answer) {
            (Fault::RoomlessCounts, [7, 10, ..]) => table[USED] += 1,
            (Fault::LastHandle, [5, handle, ..]) if table[USED] == table[CAPACITY] => {
                *handle += 1;
            }
            _ => {}
        }
        result
    }
}

/// Puts other text in the place of some, in lines after the first so many.
fn replace(lines: &mut [u8], old: &[u8], new: &[u8], after: usize) {
    let mut feeds = 0;
    for at in 0..(lines.len() + 1).saturating_sub(old.len()) {
        if feeds >= after && lines[at..].starts_with(old) {
            lines[at..at + new.len()].copy_from_slice(new);
        }
        feeds += usize::from(lines[at] == b'\n');
    }
}
