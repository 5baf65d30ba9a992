//! The check of demand 3's first clause: if honest v accepts honest u on a
//! nonce k, then earlier and in this order u started with v using a fresh
//! nonce m, v answered u with exactly m, a fresh k and v's name, and u
//! answered v with exactly k. In the form of 1978 there is no name.
//!
//! It is read off requests, answers and what handles name, as rules D2 to D5
//! of docs/MACHINE.md say, and knows nothing of why the clause should hold.

use super::form::Form;
use crate::commands::{Answer, Request};
use crate::table::*;

/// A request with its answer and the tables before and after it.
pub struct Turn<'a> {
    pub before: &'a [u16],
    pub request: Request,
    pub answer: Answer,
    pub after: &'a [u16],
}

/// What a turn is in the words of demand 3. Nonces go by their entries.
#[derive(Clone, Copy, Debug, PartialEq, Eq, PartialOrd, Ord)]
pub enum Event {
    Started { u: u16, v: u16, m: u16 },
    Answered { v: u16, u: u16, m: u16, k: u16 },
    Replied { u: u16, v: u16, m: u16, k: u16 },
    Accepted { v: u16, u: u16, k: u16 },
}

use Event::{Accepted, Answered, Replied, Started};

/// The events so far, and what came of the acceptances among them.
#[derive(Clone, Debug)]
pub struct History {
    form: Form,
    pub events: Vec<Event>,
    /// Acceptances between honest participants that were asked for.
    pub passed: u64,
    /// Whether one was not.
    pub violated: bool,
}

impl History {
    pub fn new(form: Form) -> Self {
        Self {
            form,
            events: Vec::new(),
            passed: 0,
            violated: false,
        }
    }

    pub fn add(&mut self, turn: &Turn) {
        let event = event(self.form, turn);
        if let Answer::Accepted(v, u) = turn.answer {
            if honest(turn.before, v) && honest(turn.before, u) {
                let fits = event.is_some_and(|event| asked_for(&self.events, event));
                self.passed += u64::from(fits);
                self.violated |= !fits;
            }
        }
        self.events.extend(event);
    }

    /// The events that a later acceptance can still rest on: starts, answers
    /// after their start, replies after their answer. `asked_for` can't tell
    /// two histories apart in which these are the same.
    pub fn standing(&self) -> Vec<Event> {
        let mut standing = Vec::new();
        for &event in &self.events {
            let rests = match event {
                Started { .. } => true,
                Answered { v, u, m, .. } => standing.contains(&Started { u, v, m }),
                Replied { u, v, m, k } => standing.contains(&Answered { v, u, m, k }),
                Accepted { .. } => false,
            };
            if rests && !standing.contains(&event) {
                standing.push(event);
            }
        }
        standing
    }
}

/// Whether the events before an acceptance have the three it needs, in order.
pub fn asked_for(earlier: &[Event], acceptance: Event) -> bool {
    let Accepted { v, u, k } = acceptance else {
        return false;
    };
    let replied = |events: &[Event], m| events.contains(&Replied { u, v, m, k });
    let answered = |events: &[Event], m| {
        let answer = Answered { v, u, m, k };
        (1..)
            .zip(events)
            .any(|(next, &event)| event == answer && replied(&events[next..], m))
    };
    (1..).zip(earlier).any(|(next, &event)| match event {
        Started { u: a, v: b, m } => (a, b) == (u, v) && answered(&earlier[next..], m),
        _ => false,
    })
}

fn event(form: Form, turn: &Turn) -> Option<Event> {
    match (turn.request, turn.answer) {
        (Request::Start(u, v), Answer::Sent(from, to, sent)) if (from, to) == (u, v) => {
            started(turn, u, v, sent)
        }
        (Request::Deliver(s, r, given), Answer::Sent(from, to, sent)) if (from, to) == (r, s) => {
            answered(form, turn, r, s, sent).or_else(|| replied(form, turn, r, s, given, sent))
        }
        (Request::Deliver(s, r, given), Answer::Accepted(v, u)) if (v, u) == (r, s) => {
            accepted(turn, v, u, given)
        }
        _ => None,
    }
}

fn started(turn: &Turn, u: u16, v: u16, sent: u16) -> Option<Event> {
    let [m, name] = exactly(turn.after, sent, v)?;
    let fits = is_nonce(turn.after, m, u, v) && is_fresh(turn, m) && is_name(turn.after, name, u);
    fits.then_some(Started { u, v, m })
}

fn answered(form: Form, turn: &Turn, v: u16, u: u16, sent: u16) -> Option<Event> {
    let (m, k) = match form {
        Form::Present => {
            let [m, k, name] = exactly(turn.after, sent, u)?;
            is_name(turn.after, name, v).then_some((m, k))?
        }
        Form::Of1978 => {
            let [m, k] = exactly(turn.after, sent, u)?;
            (m, k)
        }
    };
    let fits = is_nonce(turn.after, k, v, u) && is_fresh(turn, k);
    fits.then_some(Answered { v, u, m, k })
}

fn replied(form: Form, turn: &Turn, u: u16, v: u16, given: u16, sent: u16) -> Option<Event> {
    let [k] = exactly(turn.after, sent, v)?;
    let (_, taken) = carried(turn.before, given, u)?;
    let (&m, &x2) = (taken.first()?, taken.get(1)?);
    let named = match form {
        Form::Present => is_name(turn.before, *taken.get(2)?, v),
        Form::Of1978 => taken.len() == 2,
    };
    let fits = named && x2 == k && is_nonce(turn.before, m, u, v);
    fits.then_some(Replied { u, v, m, k })
}

fn accepted(turn: &Turn, v: u16, u: u16, given: u16) -> Option<Event> {
    let (_, taken) = carried(turn.before, given, v)?;
    let &[k] = taken.as_slice() else {
        return None;
    };
    is_nonce(turn.before, k, v, u).then_some(Accepted { v, u, k })
}

/// The elements of a sent list, if these are as many as wanted and the
/// ciphertext is alone in the outer list.
fn exactly<const N: usize>(table: &[u16], handle: u16, p: u16) -> Option<[u16; N]> {
    let (beside, elements) = carried(table, handle, p)?;
    (beside == 0).then_some(())?;
    elements.try_into().ok()
}

/// What knower 0's handle carries under p's key: how many elements stand
/// beside the ciphertext, and those of its list.
fn carried(table: &[u16], handle: u16, p: u16) -> Option<(usize, Vec<u16>)> {
    let outer = elements(table, held(table, ADVERSARY, Handle(handle))?.0)?;
    let sealed = row(table, Entry(*outer.first()?));
    let fits = sealed[TYPE] == CIPHERTEXT && sealed[ARGS] == public_key_of(p).0;
    fits.then_some(())?;
    Some((outer.len() - 1, elements(table, sealed[ARGS + 1])?))
}

fn elements(table: &[u16], list: u16) -> Option<Vec<u16>> {
    let row = row(table, Entry(list));
    let count = usize::from(row[COUNT]);
    (row[TYPE] == LIST).then(|| row[ARGS..LENGTH].iter().copied().take(count).collect())
}

fn is_nonce(table: &[u16], entry: u16, owner: u16, partner: u16) -> bool {
    row(table, Entry(entry))[..LENGTH] == [NONCE, 2, owner, partner, 0, 0]
}

fn is_name(table: &[u16], entry: u16, p: u16) -> bool {
    row(table, Entry(entry))[..LENGTH] == [DATA, 1, p, 0, 0, 0]
}

fn is_fresh(turn: &Turn, entry: u16) -> bool {
    entry > head(turn.before, USED)
}
