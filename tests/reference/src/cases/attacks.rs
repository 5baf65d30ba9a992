//! Courses of several requests: honest runs, attacks, and terms grown to the
//! greatest length. Each goes on until it ends, fails, or the bench has had
//! enough; the returned nothing only says where a course stopped.

use super::bench::{list_of, Bench};
use crate::commands::Request;
use crate::table::*;

impl Bench<'_> {
    /// One course or one single request.
    pub fn proceed(&mut self) {
        // Where a course ends early is of no interest.
        let _ = match self.random.below(36) {
            0..=2 => self.honest_run(),
            3..=4 => self.relay(),
            5..=7 => self.first_message(),
            8..=10 => self.second_message(),
            11..=12 => self.rewrap(),
            13 => self.grow(),
            14 => self.longest_first_message(),
            15 => self.fill(),
            16..=21 => self.faulty_request(),
            _ => self.one_request(),
        };
    }

    fn one_request(&mut self) -> Option<()> {
        let request = self.propose();
        self.ask(request).map(|_| ())
    }

    pub fn faulty_request(&mut self) -> Option<()> {
        let request = self.faulty();
        self.ask(request).map(|_| ())
    }

    /// A run from its start to acceptance, now and then with something in
    /// between or with each message delivered twice.
    pub fn honest_run(&mut self) -> Option<()> {
        let u = self.honest_one();
        let v = match self.random.one_in(4) {
            true => self.dishonest_one(),
            false => self.honest_other(u),
        };
        let (mut from, mut to) = (u, v);
        let mut handle = self.post(Request::Start(u, v))?;
        loop {
            if self.random.one_in(4) {
                self.one_request()?;
            }
            if self.random.one_in(6) {
                self.ask(Request::Deliver(from, to, handle))?;
            }
            handle = self.post(Request::Deliver(from, to, handle))?;
            (from, to) = (to, from);
        }
    }

    /// Lowe's course: a message for a dishonest participant is sealed anew
    /// for an honest one, whose answer goes back.
    pub fn relay(&mut self) -> Option<()> {
        let a = self.honest_one();
        let m = self.dishonest_one();
        let b = self.honest_other(a);
        let sent = self.post(Request::Start(a, m))?;
        let list = self.opened(sent, m)?;
        let sealed = self.seal(b, list)?;
        let sender = *self.random.pick(&[a, a, a, m]);
        let reply = self.post(Request::Deliver(sender, b, sealed))?;
        self.ask(Request::Deliver(m, a, reply))?;
        self.ask(Request::Deliver(b, a, reply))?;
        Some(())
    }

    /// A first message of the adversary's making; if the answer can be
    /// opened, then the third message too.
    pub fn first_message(&mut self) -> Option<()> {
        let r = self.honest_one();
        let s = match self.random.one_in(3) {
            true => self.other_than(r),
            false => self.dishonest_one(),
        };
        let x1 = self.something()?;
        let value = if self.random.one_in(6) { r } else { s };
        let name = self.gain(Request::Store(value))?;
        let list = self.gain(list_of(&[x1, name]))?;
        let sealed = self.seal(r, list)?;
        if self.random.one_in(6) {
            let spare = self.random.between(3, 5);
            self.leave(spare)?;
        }
        let reply = self.post(Request::Deliver(s, r, sealed))?;
        let list = self.opened(reply, s)?;
        let nonce = self.gain(Request::Project(list, 2))?;
        let list = self.gain(list_of(&[nonce]))?;
        let sealed = self.seal(r, list)?;
        if self.random.one_in(3) {
            let other = self.other_than(r);
            self.ask(Request::Deliver(other, r, sealed))?;
        }
        self.ask(Request::Deliver(s, r, sealed)).map(|_| ())
    }

    /// A second message of three or four elements of the adversary's making,
    /// in answer to an honest start with a dishonest participant.
    pub fn second_message(&mut self) -> Option<()> {
        let r = self.honest_one();
        let m = self.dishonest_one();
        let sent = self.post(Request::Start(r, m))?;
        let list = self.opened(sent, m)?;
        let nonce = match self.random.one_in(10) {
            true => self.gain(Request::Nonce)?,
            false => self.gain(Request::Project(list, 1))?,
        };
        let x2 = self.something()?;
        if self.random.one_in(3) {
            self.gain(list_of(&[x2]))?;
        }
        let value = if self.random.one_in(6) { r } else { m };
        let name = self.gain(Request::Store(value))?;
        let mut handles = vec![nonce, x2, name];
        if self.random.one_in(8) {
            handles.swap(1, 2);
        }
        if self.random.one_in(2) {
            handles.push(self.something()?);
        }
        let list = self.gain(list_of(&handles))?;
        let sealed = self.seal(r, list)?;
        match self.random.below(4) {
            0 => {
                let other = self.other_than(r);
                self.ask(Request::Deliver(other, r, sealed))?;
            }
            1 => {
                let spare = self.random.between(1, 3);
                self.leave(spare)?;
            }
            _ => {}
        }
        self.ask(Request::Deliver(m, r, sealed)).map(|_| ())
    }

    /// A sent ciphertext in a new outer list with other things around it.
    pub fn rewrap(&mut self) -> Option<()> {
        let last = self.sent.last()?;
        let &(from, to, handle) = match self.random.one_in(2) {
            true => last,
            false => self.random.pick(&self.sent),
        };
        let text = self.gain(Request::Project(handle, 1))?;
        let mut handles = vec![text];
        for _ in 0..self.random.below(4) {
            handles.push(self.listable());
        }
        if self.random.one_in(5) {
            handles.reverse();
        }
        let list = self.gain(list_of(&handles))?;
        self.ask(Request::Deliver(from, to, list)).map(|_| ())
    }

    /// Lists of four copies, each of the one before, until one is too long;
    /// then lists near the greatest length, and ciphertexts of them.
    pub fn grow(&mut self) -> Option<()> {
        let mut term = self.something()?;
        while let Some(longer) = self.gain(list_of(&[term; 4])) {
            term = longer;
        }
        for _ in 0..=self.random.below(5) {
            let request = self.near_longest();
            if let Some(list) = self.gain(request) {
                self.seal(1, list)?;
            }
        }
        if self.random.one_in(2) {
            self.leave(0)?;
            self.ask(list_of(&[term; 4]))?;
        }
        Some(())
    }

    /// Of some lists that could be made, the one nearest to a length about
    /// the greatest.
    fn near_longest(&mut self) -> Request {
        let aim = u32::from(self.random.between(4060, 4100));
        let held = self.held_rows(|row| row[TYPE] != SECRET_KEY);
        let tries = if held.is_empty() { 0 } else { 80 };
        let mut best = (u32::MAX, Request::Nonce);
        for _ in 0..tries {
            let count = self.random.between(1, 4);
            let chosen: Vec<Row> = (0..count).map(|_| *self.random.pick(&held)).collect();
            let sum: u32 = chosen.iter().map(|row| u32::from(row[LENGTH])).sum();
            let off = aim.abs_diff(sum + LIST_EXTRA);
            if off < best.0 {
                let handles: Vec<u16> = chosen.iter().map(|row| row[HANDLES]).collect();
                best = (off, list_of(&handles));
            }
        }
        best.1
    }

    /// A first message whose x1 is so long that the answer just fits or just
    /// doesn't: 8, 34, 138, 554, 2218, 3882 and 4064 are the lengths.
    pub fn longest_first_message(&mut self) -> Option<()> {
        let r = self.honest_one();
        let s = self.other_than(r);
        let nonce = self.gain(Request::Nonce)?;
        let a = self.gain(list_of(&[nonce; 4]))?;
        let b = self.gain(list_of(&[a; 4]))?;
        let c = self.gain(list_of(&[b; 4]))?;
        let d = self.gain(list_of(&[c; 4]))?;
        let e = self.gain(list_of(&[d, c, c, c]))?;
        let mut x1 = self.gain(list_of(&[e, b, a, nonce]))?;
        for _ in 0..self.random.below(4) {
            x1 = self.gain(list_of(&[x1]))?;
        }
        let name = self.gain(Request::Store(s))?;
        let list = self.gain(list_of(&[x1, name]))?;
        let sealed = self.seal(r, list)?;
        self.ask(Request::Deliver(s, r, sealed)).map(|_| ())
    }

    /// New entries until few or none are left, then a start.
    pub fn fill(&mut self) -> Option<()> {
        let spare = self.random.between(0, 5);
        self.leave(spare)?;
        let u = self.honest_one();
        let v = self.other_than(u);
        self.ask(Request::Start(u, v)).map(|_| ())
    }

    /// Makes nonces until there is room for so few more entries.
    fn leave(&mut self, spare: u16) -> Option<()> {
        while room(&self.table) > spare && self.left > 1 {
            self.gain(Request::Nonce)?;
        }
        Some(())
    }

    /// What is in a sent message, with a participant's secret key.
    fn opened(&mut self, sent: u16, p: u16) -> Option<u16> {
        let text = self.gain(Request::Project(sent, 1))?;
        let key = self.secret_key(p);
        self.gain(Request::Decrypt(key, text))
    }

    /// A list sealed for a participant, in an outer list of its own; rarely
    /// with another's key, or not sealed but only put beside the key.
    fn seal(&mut self, p: u16, list: u16) -> Option<u16> {
        let way = self.random.below(24);
        let p = if way == 0 { self.anyone() } else { p };
        let key = self.public_key(p);
        let text = match way {
            1 => self.gain(list_of(&[key, list]))?,
            _ => self.gain(Request::Encrypt(key, list))?,
        };
        self.gain(list_of(&[text]))
    }

    /// A handle on a term of any type: held already or made.
    fn something(&mut self) -> Option<u16> {
        let request = match self.random.below(8) {
            0 => Request::Store(self.likely_value()),
            1..=3 => Request::Nonce,
            4 => self.random_list(),
            _ => return Some(self.listable()),
        };
        self.gain(request)
    }
}
