//! The honest participants' steps: opening a run and taking a delivered
//! message.
//!
//! Readings chosen where the specification leaves room:
//! - The delivered list may have more than one element. Only the first is
//!   looked at, and the others aren't granted.
//! - In a message of four elements the fourth isn't granted either.
//! - Acceptance brings the same grants as an answer does.
//! - An answer's ciphertext and outer list are always new ones; so is a list
//!   that contains a new nonce.

use crate::commands::{admit, adversary_holds, of_type, refusal, Answer, Outcome};
use crate::table::*;

/// A delivered message that its receiver could open.
pub(crate) struct Opened {
    delivered: Entry,
    ciphertext: Entry,
    list: Entry,
    pub(crate) count: u16,
    pub(crate) elements: [Entry; 4],
}

/// What the receiver takes an opened message for.
enum Message {
    First,
    Second,
    Third,
}

pub(crate) fn start(table: &mut [u16], u: u16, v: u16) -> Outcome {
    pair_fits(table, u, v)?;
    let name = find_data(table, u);
    let length = LIST_EXTRA + NONCE_LENGTH + DATA_LENGTH;
    admit(table, sealed(length), 4 + u16::from(name.is_none()))?;
    let nonce = make(table, u, Term::nonce(u, v));
    let name = find_or_make(table, u, name, Term::data(u));
    let list = make(table, u, Term::list(2, [nonce.0, name.0, 0, 0], length));
    Ok(send(table, u, v, list))
}

pub(crate) fn deliver(table: &mut [u16], s: u16, r: u16, handle: Handle) -> Outcome {
    pair_fits(table, r, s)?;
    let delivered = adversary_holds(table, handle)?;
    of_type(table, delivered, LIST)?;
    let Some(opened) = open(table, r, delivered) else {
        return Ok(Answer::Dropped);
    };
    match recognise(table, s, r, &opened) {
        Some(Message::First) => answer_first(table, s, r, &opened),
        Some(Message::Second) => answer_second(table, s, r, &opened),
        Some(Message::Third) => {
            learn(table, r, &opened);
            Ok(Answer::Accepted(r, s))
        }
        None => Ok(Answer::Dropped),
    }
}

/// Two different participants, of which the acting one is honest.
pub(crate) fn pair_fits(table: &[u16], acting: u16, other: u16) -> Result<(), u16> {
    let both = 1..=participants(table);
    let fits =
        both.contains(&acting) && both.contains(&other) && acting != other && honest(table, acting);
    fits.then_some(()).ok_or(refusal::PARTICIPANT)
}

pub(crate) fn open(table: &[u16], r: u16, delivered: Entry) -> Option<Opened> {
    let ciphertext = Entry(row(table, delivered)[ARGS]);
    let outer = row(table, ciphertext);
    if outer[TYPE] != CIPHERTEXT || outer[ARGS] != public_key_of(r).0 {
        return None;
    }
    let list = Entry(outer[ARGS + 1]);
    let inner = row(table, list);
    Some(Opened {
        delivered,
        ciphertext,
        list,
        count: inner[COUNT],
        elements: [0, 1, 2, 3].map(|place| Entry(inner[ARGS + place])),
    })
}

fn recognise(table: &[u16], s: u16, r: u16, opened: &Opened) -> Option<Message> {
    let [x1, x2, x3, _] = opened.elements;
    match opened.count {
        1 if is_nonce(table, x1, r, s) => Some(Message::Third),
        2 if is_data(table, x2, s) => Some(Message::First),
        3 | 4 if is_nonce(table, x1, r, s) && is_data(table, x3, s) => Some(Message::Second),
        _ => None,
    }
}

pub(crate) fn is_nonce(table: &[u16], entry: Entry, owner: u16, partner: u16) -> bool {
    let row = row(table, entry);
    row[TYPE] == NONCE && row[ARGS] == owner && row[ARGS + 1] == partner
}

pub(crate) fn is_data(table: &[u16], entry: Entry, value: u16) -> bool {
    let row = row(table, entry);
    row[TYPE] == DATA && row[ARGS] == value
}

/// The answer that carries x1 back along with a nonce and r's name.
fn answer_first(table: &mut [u16], s: u16, r: u16, opened: &Opened) -> Outcome {
    let x1 = opened.elements[0];
    let name = find_data(table, r);
    let length = LIST_EXTRA + length(table, x1) + NONCE_LENGTH + DATA_LENGTH;
    admit(table, sealed(length), 4 + u16::from(name.is_none()))?;
    learn(table, r, opened);
    let nonce = make(table, r, Term::nonce(r, s));
    let name = find_or_make(table, r, name, Term::data(r));
    let list = make(table, r, Term::list(3, [x1.0, nonce.0, name.0, 0], length));
    Ok(send(table, r, s, list))
}

/// The answer that carries x2 back alone.
pub(crate) fn answer_second(table: &mut [u16], s: u16, r: u16, opened: &Opened) -> Outcome {
    let elements = [opened.elements[1].0, 0, 0, 0];
    let length = LIST_EXTRA + length(table, opened.elements[1]);
    let list = find_list(table, 1, elements);
    admit(table, sealed(length), 2 + u16::from(list.is_none()))?;
    learn(table, r, opened);
    let list = find_or_make(table, r, list, Term::list(1, elements, length));
    Ok(send(table, r, s, list))
}

/// Grants the receiver what it could see of the message.
pub(crate) fn learn(table: &mut [u16], r: u16, opened: &Opened) {
    grant(table, r, opened.delivered);
    grant(table, r, opened.ciphertext);
    grant(table, r, opened.list);
    let seen = usize::from(opened.count.min(3));
    for &element in &opened.elements[..seen] {
        grant(table, r, element);
    }
}

/// The length of the outer list around a list of the given length.
pub(crate) fn sealed(list: u32) -> u32 {
    list + CIPHERTEXT_EXTRA + LIST_EXTRA
}

/// Seals a list for its receiver and puts it on the wire.
pub(crate) fn send(table: &mut [u16], from: u16, to: u16, list: Entry) -> Answer {
    let length = length(table, list) + CIPHERTEXT_EXTRA;
    let term = Term::ciphertext(public_key_of(to), list, length);
    let ciphertext = make(table, from, term);
    let term = Term::list(1, [ciphertext.0, 0, 0, 0], length + LIST_EXTRA);
    let outer = make(table, from, term);
    Answer::Sent(from, to, grant(table, ADVERSARY, outer).0)
}

pub(crate) fn make(table: &mut [u16], knower: u16, term: Term) -> Entry {
    let entry = add(table, term);
    grant(table, knower, entry);
    entry
}

fn find_or_make(table: &mut [u16], knower: u16, found: Option<Entry>, term: Term) -> Entry {
    let entry = found.unwrap_or_else(|| add(table, term));
    grant(table, knower, entry);
    entry
}
