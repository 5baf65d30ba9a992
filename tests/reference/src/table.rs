//! The lent run of words: where each field lies, how entries are found,
//! added and granted, and set-up.
//!
//! Readings chosen where the specification leaves room:
//! - A new entry takes all sixteen of its words, so whatever stood in the
//!   unused row before is gone.
//! - Only used entries are ever searched, and only as many as the run has.
//! - A run that isn't well formed never causes a panic here: missing words
//!   read as zero and writes to them are lost.

use crate::commands::{refusal, Answer};

pub const HEAD: usize = 16;
pub const ROW: usize = 16;
pub const LONGEST: u32 = 4095;
pub const KNOWERS: usize = 9;
pub const ADVERSARY: u16 = 0;
pub const MOST_PARTICIPANTS: u16 = 8;

/// Places in the head.
pub const VERSION: usize = 0;
pub const PARTICIPANTS: usize = 1;
pub const MASK: usize = 2;
pub const CAPACITY: usize = 3;
pub const USED: usize = 4;
pub const NEXT: usize = 5;

/// Places in an entry's row.
pub const TYPE: usize = 0;
pub const COUNT: usize = 1;
pub const ARGS: usize = 2;
pub const LENGTH: usize = 6;
pub const HANDLES: usize = 7;

/// Types of entries.
pub const DATA: u16 = 1;
pub const NONCE: u16 = 2;
pub const LIST: u16 = 3;
pub const CIPHERTEXT: u16 = 4;
pub const SECRET_KEY: u16 = 5;
pub const PUBLIC_KEY: u16 = 6;

/// What each type adds to, or has as, its length.
pub const DATA_LENGTH: u32 = 2;
pub const NONCE_LENGTH: u32 = 8;
pub const LIST_EXTRA: u32 = 2;
pub const CIPHERTEXT_EXTRA: u32 = 16;
pub const PUBLIC_KEY_LENGTH: u32 = 32;

/// The sixteen words of one entry.
pub type Row = [u16; ROW];

static NO_ROW: Row = [0; ROW];

/// An entry's number, counted from 1.
#[derive(Clone, Copy, Debug, PartialEq, Eq)]
pub struct Entry(pub u16);

/// A name for an entry, good for one knower only.
#[derive(Clone, Copy, Debug, PartialEq, Eq)]
pub struct Handle(pub u16);

/// The part of an entry that doesn't depend on who holds it.
#[derive(Clone, Copy, Debug, PartialEq, Eq)]
pub struct Term {
    kind: u16,
    count: u16,
    args: [u16; 4],
    length: u32,
}

impl Term {
    pub fn data(value: u16) -> Self {
        Self::new(DATA, 1, [value, 0, 0, 0], DATA_LENGTH)
    }

    pub fn nonce(owner: u16, partner: u16) -> Self {
        Self::new(NONCE, 2, [owner, partner, 0, 0], NONCE_LENGTH)
    }

    pub fn list(count: u16, elements: [u16; 4], length: u32) -> Self {
        Self::new(LIST, count, elements, length)
    }

    pub fn ciphertext(key: Entry, list: Entry, length: u32) -> Self {
        Self::new(CIPHERTEXT, 2, [key.0, list.0, 0, 0], length)
    }

    pub fn secret_key(participant: u16) -> Self {
        Self::new(SECRET_KEY, 1, [participant, 0, 0, 0], 0)
    }

    pub fn public_key(participant: u16) -> Self {
        Self::new(PUBLIC_KEY, 1, [participant, 0, 0, 0], PUBLIC_KEY_LENGTH)
    }

    fn new(kind: u16, count: u16, args: [u16; 4], length: u32) -> Self {
        Self {
            kind,
            count,
            args,
            length,
        }
    }

    /// The row of this term while nobody holds it.
    pub fn row(&self) -> Row {
        let mut row = [0; ROW];
        row[TYPE] = self.kind;
        row[COUNT] = self.count;
        row[ARGS..LENGTH].copy_from_slice(&self.args);
        row[LENGTH] = u16::try_from(self.length).unwrap_or(u16::MAX);
        row
    }
}

/// One word of the head.
pub fn head(table: &[u16], place: usize) -> u16 {
    table.get(place).copied().unwrap_or(0)
}

fn set_head(table: &mut [u16], place: usize, value: u16) {
    if let Some(word) = table.get_mut(place) {
        *word = value;
    }
}

/// The number of participants, held down to the most there can be.
pub fn participants(table: &[u16]) -> u16 {
    head(table, PARTICIPANTS).min(MOST_PARTICIPANTS)
}

/// Whether the mask has participant p's bit.
pub fn in_mask(mask: u16, p: u16) -> bool {
    p >= 1 && mask.checked_shr(u32::from(p) - 1).unwrap_or(0) & 1 == 1
}

pub fn honest(table: &[u16], p: u16) -> bool {
    in_mask(head(table, MASK), p)
}

/// Whether set-up gives p's secret key to this knower.
pub fn secret_key_falls_to(mask: u16, p: u16, knower: u16) -> bool {
    let owner = if in_mask(mask, p) { p } else { ADVERSARY };
    knower == owner
}

/// Whether set-up gives the public keys to this knower.
pub fn public_keys_fall_to(mask: u16, knower: u16) -> bool {
    knower == ADVERSARY || in_mask(mask, knower)
}

pub fn public_key_of(p: u16) -> Entry {
    Entry(p.saturating_mul(2))
}

/// The rows of the used entries.
pub fn rows(table: &[u16]) -> &[Row] {
    let used = usize::from(head(table, USED));
    let all = table.get(HEAD..).unwrap_or_default().as_chunks().0;
    &all[..used.min(all.len())]
}

/// The row of a used entry, or zeros if there is none of that number.
pub fn row(table: &[u16], entry: Entry) -> &Row {
    usize::from(entry.0)
        .checked_sub(1)
        .and_then(|index| rows(table).get(index))
        .unwrap_or(&NO_ROW)
}

fn row_mut(table: &mut [u16], entry: Entry) -> Option<&mut Row> {
    let index = usize::from(entry.0).checked_sub(1)?;
    table.get_mut(HEAD..)?.as_chunks_mut().0.get_mut(index)
}

pub fn length(table: &[u16], entry: Entry) -> u32 {
    u32::from(row(table, entry)[LENGTH])
}

/// The lowest used entry whose row passes the test.
fn lowest(table: &[u16], test: impl Fn(&Row) -> bool) -> Option<Entry> {
    let index = rows(table).iter().position(test)?;
    u16::try_from(index + 1).ok().map(Entry)
}

pub fn find_data(table: &[u16], value: u16) -> Option<Entry> {
    lowest(table, |row| row[TYPE] == DATA && row[ARGS] == value)
}

pub fn find_list(table: &[u16], count: u16, elements: [u16; 4]) -> Option<Entry> {
    lowest(table, |row| {
        row[TYPE] == LIST && row[COUNT] == count && row[ARGS..LENGTH] == elements
    })
}

/// The entry that a handle names to a knower.
pub fn held(table: &[u16], knower: u16, handle: Handle) -> Option<Entry> {
    let place = HANDLES + usize::from(knower);
    if handle.0 == 0 || place >= ROW {
        return None;
    }
    lowest(table, |row| row[place] == handle.0)
}

/// How many more entries fit.
pub fn room(table: &[u16]) -> u16 {
    head(table, CAPACITY).saturating_sub(head(table, USED))
}

/// Puts a term behind the last used entry, held by nobody.
pub fn add(table: &mut [u16], term: Term) -> Entry {
    let entry = Entry(head(table, USED).saturating_add(1));
    if let Some(row) = row_mut(table, entry) {
        *row = term.row();
        set_head(table, USED, entry.0);
    }
    entry
}

/// Lets a knower hold an entry and says under which handle it does.
pub fn grant(table: &mut [u16], knower: u16, entry: Entry) -> Handle {
    let knower = usize::from(knower);
    let next = head(table, NEXT + knower);
    let Some(word) = row_mut(table, entry).and_then(|row| row.get_mut(HANDLES + knower)) else {
        return Handle(0);
    };
    if *word != 0 {
        return Handle(*word);
    }
    *word = next;
    set_head(table, NEXT + knower, next.wrapping_add(1));
    Handle(next)
}

/// Whether n, mask and capacity lie within their bounds.
pub fn in_range(n: u16, mask: u16, capacity: u16) -> bool {
    (2..=MOST_PARTICIPANTS).contains(&n) && mask >> n == 0 && (16..=512).contains(&capacity)
}

/// The words that a table of this capacity takes up.
pub fn words_for(capacity: u16) -> usize {
    HEAD + ROW * usize::from(capacity)
}

/// Makes a fresh table of the lent run: the keys and nothing else.
pub fn set_up(table: &mut [u16], n: u16, mask: u16, capacity: u16) -> Answer {
    let words = words_for(capacity);
    if !in_range(n, mask, capacity) || table.len() < words {
        return Answer::Refused(refusal::SET_UP);
    }
    table[..words].fill(0);
    table[VERSION] = 1;
    table[PARTICIPANTS] = n;
    table[MASK] = mask;
    table[CAPACITY] = capacity;
    table[NEXT..NEXT + KNOWERS].fill(1);
    for p in 1..=n {
        add_keys(table, mask, p);
    }
    Answer::Ready(table[USED])
}

fn add_keys(table: &mut [u16], mask: u16, p: u16) {
    let secret = add(table, Term::secret_key(p));
    let public = add(table, Term::public_key(p));
    for knower in ADVERSARY..=MOST_PARTICIPANTS {
        if secret_key_falls_to(mask, p, knower) {
            grant(table, knower, secret);
        }
        if public_keys_fall_to(mask, knower) {
            grant(table, knower, public);
        }
    }
}
