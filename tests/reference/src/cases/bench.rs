//! A table with what happened on it so far, and views of it that help to
//! choose requests with some sense in them.

use super::random::Random;
use crate::commands::{step, Answer, Request};
use crate::table::*;

/// A request that was performed, its answer, and the run afterwards.
pub struct Done {
    pub request: Request,
    pub answer: Answer,
    pub table: Vec<u16>,
}

pub struct Bench<'a> {
    pub table: Vec<u16>,
    pub random: &'a mut Random,
    /// How many more requests there may be.
    pub left: usize,
    pub done: Vec<Done>,
    /// What the honest sent: from, to, handle.
    pub sent: Vec<(u16, u16, u16)>,
}

impl<'a> Bench<'a> {
    pub fn new(table: Vec<u16>, random: &'a mut Random, left: usize) -> Self {
        Self {
            table,
            random,
            left,
            done: Vec::new(),
            sent: Vec::new(),
        }
    }

    /// Performs a request, unless there have been enough of them.
    pub fn ask(&mut self, request: Request) -> Option<Answer> {
        self.left = self.left.checked_sub(1)?;
        let answer = step(&mut self.table, request);
        if let Answer::Sent(from, to, handle) = answer {
            self.sent.push((from, to, handle));
        }
        self.done.push(Done {
            request,
            answer,
            table: self.table.clone(),
        });
        Some(answer)
    }

    /// Performs a request that should give a handle.
    pub fn gain(&mut self, request: Request) -> Option<u16> {
        match self.ask(request)? {
            Answer::Handle(handle) => Some(handle),
            _ => None,
        }
    }

    /// Performs a request that should have a participant send something.
    pub fn post(&mut self, request: Request) -> Option<u16> {
        match self.ask(request)? {
            Answer::Sent(_, _, handle) => Some(handle),
            _ => None,
        }
    }

    pub fn n(&self) -> u16 {
        participants(&self.table).max(1)
    }

    /// The participants that are honest, or those that aren't.
    fn those(&self, wanted: bool) -> Vec<u16> {
        (1..=self.n())
            .filter(|&p| honest(&self.table, p) == wanted)
            .collect()
    }

    pub fn honest_one(&mut self) -> u16 {
        self.one_of(true)
    }

    /// An honest participant other than this one, or any other if there is
    /// none.
    pub fn honest_other(&mut self, p: u16) -> u16 {
        let mut those = self.those(true);
        those.retain(|&other| other != p);
        if those.is_empty() {
            self.other_than(p)
        } else {
            *self.random.pick(&those)
        }
    }

    pub fn dishonest_one(&mut self) -> u16 {
        self.one_of(false)
    }

    /// A participant of the wanted sort, or any if there is none.
    fn one_of(&mut self, wanted: bool) -> u16 {
        let those = self.those(wanted);
        if those.is_empty() {
            self.anyone()
        } else {
            *self.random.pick(&those)
        }
    }

    pub fn anyone(&mut self) -> u16 {
        let n = self.n();
        self.random.between(1, n)
    }

    /// A participant other than this one.
    pub fn other_than(&mut self, p: u16) -> u16 {
        let n = self.n();
        let step = self.random.between(1, n.max(2) - 1);
        (p + step - 1) % n + 1
    }

    /// Knower 0's handle on an entry, zero for none.
    pub fn handle_on(&self, entry: u16) -> u16 {
        row(&self.table, Entry(entry))[HANDLES]
    }

    pub fn public_key(&self, p: u16) -> u16 {
        self.handle_on(2 * p)
    }

    pub fn secret_key(&self, p: u16) -> u16 {
        self.handle_on(2 * p - 1)
    }

    /// The rows that knower 0 holds and that pass a test.
    pub fn held_rows(&self, test: impl Fn(&Row) -> bool) -> Vec<Row> {
        rows(&self.table)
            .iter()
            .filter(|row| row[HANDLES] != 0 && test(row))
            .copied()
            .collect()
    }

    /// A handle on an entry of this type, or a likely one if there is none.
    pub fn some(&mut self, kind: u16) -> u16 {
        let held = self.held_rows(|row| row[TYPE] == kind);
        self.one_handle(&held)
    }

    /// A handle on anything that may stand in a list, the latest ones more
    /// often.
    pub fn listable(&mut self) -> u16 {
        let held = self.held_rows(|row| row[TYPE] != SECRET_KEY);
        let late = held.len() - held.len().min(6);
        if self.random.one_in(2) {
            self.one_handle(&held[late..])
        } else {
            self.one_handle(&held)
        }
    }

    pub fn one_handle(&mut self, held: &[Row]) -> u16 {
        if held.is_empty() {
            let next = head(&self.table, NEXT);
            self.random.between(0, next.min(60))
        } else {
            self.random.pick(held)[HANDLES]
        }
    }
}

/// A list request of up to four handles.
pub fn list_of(handles: &[u16]) -> Request {
    let mut four = [0; 4];
    for (place, handle) in four.iter_mut().zip(handles) {
        *place = *handle;
    }
    Request::List(handles.len() as u16, four)
}
