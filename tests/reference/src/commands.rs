//! Requests and answers, the choice of what to do with a request, and the
//! adversary's commands.
//!
//! Readings chosen where the specification leaves room:
//! - An entry that is found but that knower 0 doesn't hold yet is granted
//!   like a new one; it needs no room.
//! - If a handle stands on two entries, a command that ends at the higher of
//!   them still answers with that same handle.
//! - Parse works on every type, a secret key too.

use crate::formed::well_formed;
use crate::steps;
use crate::table::*;

/// The refusal numbers.
pub mod refusal {
    pub const NOT_WELL_FORMED: u16 = 1;
    pub const SET_UP: u16 = 2;
    pub const PARTICIPANT: u16 = 3;
    pub const COUNT_OR_PLACE: u16 = 4;
    pub const NOT_HELD: u16 = 5;
    pub const WRONG_TYPE: u16 = 6;
    pub const BEYOND_LIST: u16 = 7;
    pub const WRONG_KEY: u16 = 8;
    pub const TOO_LONG: u16 = 9;
    pub const NO_ROOM: u16 = 10;
    pub const MALFORMED: u16 = 11;
    pub const SHORT_OUTPUT: u16 = 12;
}

/// What the machine says to a set-up or a command.
#[derive(Clone, Copy, Debug, PartialEq, Eq)]
pub enum Answer {
    /// Used entries.
    Ready(u16),
    /// From, to, knower 0's handle.
    Sent(u16, u16, u16),
    /// Acceptor, peer.
    Accepted(u16, u16),
    Dropped,
    Handle(u16),
    /// Type, value, length.
    Parsed(u16, u16, u16),
    Refused(u16),
}

impl Answer {
    /// The number of the answer's word, its values, and how many these are.
    pub fn parts(&self) -> (u16, [u16; 3], usize) {
        match *self {
            Answer::Ready(used) => (1, [used, 0, 0], 1),
            Answer::Sent(from, to, handle) => (2, [from, to, handle], 3),
            Answer::Accepted(acceptor, peer) => (3, [acceptor, peer, 0], 2),
            Answer::Dropped => (4, [0, 0, 0], 0),
            Answer::Handle(handle) => (5, [handle, 0, 0], 1),
            Answer::Parsed(kind, value, length) => (6, [kind, value, length], 3),
            Answer::Refused(number) => (7, [number, 0, 0], 1),
        }
    }

    /// The number of the answer's word, then its values.
    pub fn numbers(&self) -> Vec<u16> {
        let (word, values, count) = self.parts();
        let mut numbers = vec![word];
        numbers.extend_from_slice(&values[..count]);
        numbers
    }

    /// The answer's word as the player prints it.
    pub fn word(&self) -> &'static str {
        match self {
            Answer::Ready(..) => "ready",
            Answer::Sent(..) => "sent",
            Answer::Accepted(..) => "accepted",
            Answer::Dropped => "dropped",
            Answer::Handle(..) => "handle",
            Answer::Parsed(..) => "parsed",
            Answer::Refused(..) => "refused",
        }
    }
}

/// One of the nine commands with its numbers.
#[derive(Clone, Copy, Debug, PartialEq, Eq)]
pub enum Request {
    /// The opening participant and its partner.
    Start(u16, u16),
    /// Supposed sender, receiver, handle of the list.
    Deliver(u16, u16, u16),
    Store(u16),
    Nonce,
    /// How many handles, then four numbers of which the rest should be zero.
    List(u16, [u16; 4]),
    /// Handle, place.
    Project(u16, u16),
    /// Handle of a public key, handle of a list.
    Encrypt(u16, u16),
    /// Handle of a secret key, handle of a ciphertext.
    Decrypt(u16, u16),
    Parse(u16),
}

/// What a session file holds: set-up or a command.
#[derive(Clone, Copy, Debug, PartialEq, Eq)]
pub enum Record {
    /// n, mask, capacity.
    SetUp(u16, u16, u16),
    Request(Request),
}

/// An answer, or the number of a refusal.
pub(crate) type Outcome = Result<Answer, u16>;

/// Performs a command on any run, which may turn out not to be a table.
pub fn step(table: &mut [u16], request: Request) -> Answer {
    if well_formed(table) {
        act(table, request)
    } else {
        Answer::Refused(refusal::NOT_WELL_FORMED)
    }
}

/// Performs a command on a table that is known to be well formed.
pub fn act(table: &mut [u16], request: Request) -> Answer {
    let outcome = match request {
        Request::Start(u, v) => steps::start(table, u, v),
        Request::Deliver(s, r, list) => steps::deliver(table, s, r, Handle(list)),
        Request::Store(value) => store(table, value),
        Request::Nonce => nonce(table),
        Request::List(count, handles) => list(table, count, handles),
        Request::Project(handle, place) => project(table, Handle(handle), place),
        Request::Encrypt(key, list) => encrypt(table, Handle(key), Handle(list)),
        Request::Decrypt(key, text) => decrypt(table, Handle(key), Handle(text)),
        Request::Parse(handle) => parse(table, Handle(handle)),
    };
    outcome.unwrap_or_else(Answer::Refused)
}

fn store(table: &mut [u16], value: u16) -> Outcome {
    let entry = match find_data(table, value) {
        Some(entry) => entry,
        None => add_checked(table, Term::data(value), DATA_LENGTH)?,
    };
    hand_over(table, entry)
}

fn nonce(table: &mut [u16]) -> Outcome {
    let term = Term::nonce(ADVERSARY, ADVERSARY);
    let entry = add_checked(table, term, NONCE_LENGTH)?;
    hand_over(table, entry)
}

fn list(table: &mut [u16], count: u16, handles: [u16; 4]) -> Outcome {
    if !list_arguments_fit(count, &handles) {
        return Err(refusal::COUNT_OR_PLACE);
    }
    let mut elements = [0; 4];
    let mut length = LIST_EXTRA;
    let mut has_secret_key = false;
    for (element, handle) in elements.iter_mut().zip(handles).take(usize::from(count)) {
        let entry = adversary_holds(table, Handle(handle))?;
        let row = row(table, entry);
        has_secret_key |= row[TYPE] == SECRET_KEY;
        length += u32::from(row[LENGTH]);
        *element = entry.0;
    }
    if has_secret_key {
        return Err(refusal::WRONG_TYPE);
    }
    let entry = match find_list(table, count, elements) {
        Some(entry) => entry,
        None => add_checked(table, Term::list(count, elements, length), length)?,
    };
    hand_over(table, entry)
}

/// Whether the count is 1 to 4 and all the numbers past it are zero.
pub(crate) fn list_arguments_fit(count: u16, handles: &[u16; 4]) -> bool {
    let unused = handles.get(usize::from(count)..);
    count != 0 && unused.is_some_and(|unused| unused.iter().all(|&handle| handle == 0))
}

fn project(table: &mut [u16], handle: Handle, place: u16) -> Outcome {
    if !(1..=4).contains(&place) {
        return Err(refusal::COUNT_OR_PLACE);
    }
    let list = adversary_holds(table, handle)?;
    of_type(table, list, LIST)?;
    let row = row(table, list);
    if place > row[COUNT] {
        return Err(refusal::BEYOND_LIST);
    }
    let element = Entry(row[ARGS + usize::from(place) - 1]);
    hand_over(table, element)
}

fn encrypt(table: &mut [u16], key: Handle, list: Handle) -> Outcome {
    let key = adversary_holds(table, key)?;
    let list = adversary_holds(table, list)?;
    of_type(table, key, PUBLIC_KEY)?;
    of_type(table, list, LIST)?;
    let length = length(table, list) + CIPHERTEXT_EXTRA;
    let entry = add_checked(table, Term::ciphertext(key, list, length), length)?;
    hand_over(table, entry)
}

fn decrypt(table: &mut [u16], key: Handle, text: Handle) -> Outcome {
    let key = adversary_holds(table, key)?;
    let text = adversary_holds(table, text)?;
    of_type(table, key, SECRET_KEY)?;
    of_type(table, text, CIPHERTEXT)?;
    let row = row(table, text);
    if u32::from(row[ARGS]) != u32::from(key.0) + 1 {
        return Err(refusal::WRONG_KEY);
    }
    let list = Entry(row[ARGS + 1]);
    hand_over(table, list)
}

fn parse(table: &[u16], handle: Handle) -> Outcome {
    let entry = adversary_holds(table, handle)?;
    let term = row(table, entry);
    let value = match term[TYPE] {
        NONCE => 0,
        LIST => term[COUNT],
        CIPHERTEXT => row(table, Entry(term[ARGS]))[HANDLES],
        _ => term[ARGS],
    };
    Ok(Answer::Parsed(term[TYPE], value, term[LENGTH]))
}

pub(crate) fn adversary_holds(table: &[u16], handle: Handle) -> Result<Entry, u16> {
    held(table, ADVERSARY, handle).ok_or(refusal::NOT_HELD)
}

pub(crate) fn of_type(table: &[u16], entry: Entry, kind: u16) -> Result<(), u16> {
    let fits = row(table, entry)[TYPE] == kind;
    fits.then_some(()).ok_or(refusal::WRONG_TYPE)
}

/// Tests whether new entries, the longest of this length, may be made.
pub(crate) fn admit(table: &[u16], longest: u32, entries: u16) -> Result<(), u16> {
    if longest > LONGEST {
        Err(refusal::TOO_LONG)
    } else if entries > room(table) {
        Err(refusal::NO_ROOM)
    } else {
        Ok(())
    }
}

fn add_checked(table: &mut [u16], term: Term, length: u32) -> Result<Entry, u16> {
    admit(table, length, 1)?;
    Ok(add(table, term))
}

fn hand_over(table: &mut [u16], entry: Entry) -> Outcome {
    Ok(Answer::Handle(grant(table, ADVERSARY, entry).0))
}
