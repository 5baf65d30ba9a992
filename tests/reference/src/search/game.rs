//! A table in play: requests are performed on it and its history is kept.

use super::form::Form;
use super::history::{History, Turn};
use crate::commands::{Answer, Request};
use crate::table::*;

#[derive(Clone)]
pub struct Game {
    form: Form,
    pub table: Vec<u16>,
    pub history: History,
    /// All requests since set-up.
    pub requests: Vec<Request>,
}

impl Game {
    pub fn new(form: Form, n: u16, mask: u16, capacity: u16) -> Self {
        let mut table = vec![0; words_for(capacity)];
        set_up(&mut table, n, mask, capacity);
        Self {
            form,
            table,
            history: History::new(form),
            requests: Vec::new(),
        }
    }

    pub fn ask(&mut self, request: Request) -> Answer {
        self.requests.push(request);
        if !matches!(request, Request::Start(..) | Request::Deliver(..)) {
            return self.form.perform(&mut self.table, request);
        }
        let before = self.table.clone();
        let answer = self.form.perform(&mut self.table, request);
        self.history.add(&Turn {
            before: &before,
            request,
            answer,
            after: &self.table,
        });
        answer
    }

    /// Asks for something that is never refused, and gives its handle.
    pub fn gain(&mut self, request: Request) -> u16 {
        match self.ask(request) {
            Answer::Handle(handle) => handle,
            other => panic!("{request:?} gave {other:?}"),
        }
    }

    pub fn people(&self) -> std::ops::RangeInclusive<u16> {
        1..=participants(&self.table)
    }

    /// The pairs of an honest participant and any other one.
    pub fn pairs(&self) -> Vec<(u16, u16)> {
        let acting = self.people().filter(|&p| honest(&self.table, p));
        let pairs = acting.flat_map(|p| self.people().map(move |other| (p, other)));
        pairs.filter(|(p, other)| p != other).collect()
    }

    /// Knower 0's handles, each with the row of its entry.
    pub fn held(&self) -> Vec<(u16, Row)> {
        let held = rows(&self.table).iter().filter(|row| row[HANDLES] != 0);
        held.map(|row| (row[HANDLES], *row)).collect()
    }

    /// Knower 0's handles on entries of one type.
    pub fn held_of(&self, kind: u16) -> Vec<(u16, Row)> {
        let mut held = self.held();
        held.retain(|(_, row)| row[TYPE] == kind);
        held
    }

    /// Knower 0's handle on an entry, zero for none.
    pub fn handle_on(&self, entry: u16) -> u16 {
        row(&self.table, Entry(entry))[HANDLES]
    }
}
