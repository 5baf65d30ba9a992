//! Single requests, chosen by looking at the table: sensible ones and
//! faulty ones.

use super::bench::{list_of, Bench};
use crate::commands::Request;
use crate::table::*;

impl Bench<'_> {
    /// One request that fits the table as it stands, or nearly so.
    pub fn propose(&mut self) -> Request {
        match self.random.below(26) {
            0..=2 => self.opening(),
            3..=6 => self.passing_on(),
            7 => self.misdirected(),
            8..=10 => self.projection(),
            11..=12 => self.decryption(),
            13..=14 => Request::Encrypt(self.some(PUBLIC_KEY), self.some(LIST)),
            15..=17 => self.random_list(),
            18 => Request::Store(self.likely_value()),
            19 => Request::Nonce,
            20..=23 => self.parsing(),
            _ => self.faulty(),
        }
    }

    fn opening(&mut self) -> Request {
        let u = self.honest_one();
        Request::Start(u, self.other_than(u))
    }

    /// Something sent, delivered as addressed; mostly something recent.
    fn passing_on(&mut self) -> Request {
        let Some(&last) = self.sent.last() else {
            return self.opening();
        };
        let (from, to, handle) = match self.random.one_in(2) {
            true => last,
            false => *self.random.pick(&self.sent),
        };
        match self.random.one_in(8) {
            true => Request::Deliver(from, self.honest_other(from), handle),
            false => Request::Deliver(from, to, handle),
        }
    }

    /// Something sent or any list, delivered under other names.
    fn misdirected(&mut self) -> Request {
        let receiver = self.honest_one();
        let sender = self.other_than(receiver);
        let handle = match self.sent.is_empty() || self.random.one_in(3) {
            true => self.some(LIST),
            false => self.random.pick(&self.sent).2,
        };
        Request::Deliver(sender, receiver, handle)
    }

    fn projection(&mut self) -> Request {
        let held = self.held_rows(|row| row[TYPE] == LIST);
        if held.is_empty() {
            return Request::Project(self.listable(), 1);
        }
        let row = *self.random.pick(&held);
        let beyond = u16::from(self.random.one_in(4));
        let place = self.random.between(1, row[COUNT].clamp(1, 4) + beyond);
        Request::Project(row[HANDLES], place)
    }

    /// A decryption with the fitting key if knower 0 has one.
    fn decryption(&mut self) -> Request {
        let held = self.held_rows(|row| row[TYPE] == CIPHERTEXT);
        let fitting: Vec<(u16, u16)> = held
            .iter()
            .map(|row| (self.handle_on(row[ARGS].wrapping_sub(1)), row[HANDLES]))
            .filter(|&(key, _)| key != 0)
            .collect();
        if fitting.is_empty() || self.random.one_in(3) {
            return Request::Decrypt(self.some(SECRET_KEY), self.some(CIPHERTEXT));
        }
        let &(key, text) = self.random.pick(&fitting);
        Request::Decrypt(key, text)
    }

    pub fn random_list(&mut self) -> Request {
        let known = self.held_rows(|row| row[TYPE] == LIST);
        if !known.is_empty() && self.random.one_in(4) {
            return self.same_again(&known);
        }
        let count = self.random.between(1, 4);
        let handles: Vec<u16> = (0..count).map(|_| self.listable()).collect();
        list_of(&handles)
    }

    /// A list of what a known list contains, as far as that is known, and
    /// now and then with another last element.
    fn same_again(&mut self, known: &[Row]) -> Request {
        let row = *self.random.pick(known);
        let count = usize::from(row[COUNT].clamp(1, 4));
        let elements = &row[ARGS..ARGS + count];
        let mut handles: Vec<u16> = elements.iter().map(|&e| self.handle_on(e)).collect();
        if handles.contains(&0) {
            return list_of(&[self.listable()]);
        }
        if self.random.one_in(3) {
            handles[count - 1] = self.listable();
        }
        list_of(&handles)
    }

    /// Mostly a participant's number, which an honest step may look for.
    pub fn likely_value(&mut self) -> u16 {
        match self.random.below(6) {
            0 => self.random.word(),
            1 => self.random.between(0, 9),
            _ => self.anyone(),
        }
    }

    fn parsing(&mut self) -> Request {
        let next = head(&self.table, NEXT);
        let held = self.held_rows(|_| true);
        match self.random.below(8) {
            0 => Request::Parse(next),
            1..=3 => Request::Parse(self.random.between(1, next.max(2) - 1)),
            _ => Request::Parse(self.one_handle(&held)),
        }
    }

    /// A request with something wrong, often with more than one thing.
    pub fn faulty(&mut self) -> Request {
        match self.random.below(12) {
            0 => Request::Start(self.odd_participant(), self.odd_participant()),
            1..=3 => Request::Deliver(
                self.odd_participant(),
                self.odd_participant(),
                self.odd_handle(),
            ),
            4..=6 => self.faulty_list(),
            7..=8 => Request::Project(
                self.odd_handle(),
                *self.random.pick(&[0, 1, 2, 3, 4, 5, 6, 255, u16::MAX]),
            ),
            9..=10 => Request::Encrypt(self.odd_handle(), self.odd_handle()),
            _ => Request::Decrypt(self.odd_handle(), self.odd_handle()),
        }
    }

    fn odd_participant(&mut self) -> u16 {
        let n = self.n();
        match self.random.below(12) {
            0 => 0,
            1 => n + 1,
            2 => *self.random.pick(&[9, 17, 255, u16::MAX]),
            3 => self.dishonest_one(),
            4 => n,
            _ => self.honest_one(),
        }
    }

    fn odd_handle(&mut self) -> u16 {
        let next = head(&self.table, NEXT);
        match self.random.below(10) {
            0 => 0,
            1 => next,
            2 => next.saturating_add(1),
            3 => self.random.word(),
            4..=5 => self.some(SECRET_KEY),
            6 => self.some(PUBLIC_KEY),
            7 => self.some(CIPHERTEXT),
            _ => self.some(LIST),
        }
    }

    fn faulty_list(&mut self) -> Request {
        let mut handles = [0; 4];
        for handle in &mut handles {
            *handle = match self.random.below(4) {
                0 => self.odd_handle(),
                1 => 0,
                _ => self.listable(),
            };
        }
        let count = *self.random.pick(&[0, 1, 1, 2, 2, 3, 3, 4, 4, 5, u16::MAX]);
        if self.random.one_in(2) {
            for handle in handles.iter_mut().skip(usize::from(count)) {
                *handle = 0;
            }
        }
        Request::List(count, handles)
    }
}
