//! Courses of requests for the wide comparison, each of a kind: honest runs
//! at the same time, attacks, full tables, long terms. A course becomes a
//! session file, and every table on its way is one that requests lead to.

use crate::cases::bench::{Bench, Done};
use crate::cases::files::record_bytes;
use crate::cases::sessions::good_set_up;
use crate::cases::Random;
use crate::commands::{Answer, Record, Request};
use crate::table::*;

/// One kind of course.
struct Plan {
    weight: usize,
    name: &'static str,
    capacity: (u16, u16),
    requests: (u16, u16),
    go: fn(&mut Bench) -> Option<()>,
}

impl Plan {
    const fn new(
        weight: usize,
        name: &'static str,
        capacity: (u16, u16),
        requests: (u16, u16),
        go: fn(&mut Bench) -> Option<()>,
    ) -> Self {
        Self {
            weight,
            name,
            capacity,
            requests,
            go,
        }
    }
}

const PLANS: [Plan; 11] = [
    Plan::new(
        160,
        "honest runs interleaved",
        (40, 120),
        (12, 40),
        interleaved,
    ),
    Plan::new(80, "attack: relay", (30, 60), (8, 24), |bench| {
        bench.relay()
    }),
    Plan::new(
        100,
        "attack: own first message",
        (40, 80),
        (10, 30),
        |bench| bench.first_message(),
    ),
    Plan::new(
        100,
        "attack: own second message",
        (40, 80),
        (10, 30),
        |bench| bench.second_message(),
    ),
    Plan::new(
        100,
        "attack: rebuilt and replayed",
        (40, 80),
        (12, 30),
        replayed,
    ),
    Plan::new(160, "attack: taken apart", (30, 60), (16, 40), taken_apart),
    Plan::new(80, "full table", (16, 40), (10, 30), |bench| bench.fill()),
    Plan::new(80, "long terms", (30, 60), (14, 40), long_terms),
    Plan::new(240, "mixed", (16, 40), (4, 25), mixed),
    Plan::new(60, "requests with faults", (16, 30), (8, 20), |bench| {
        bench.faulty_request()
    }),
    Plan::new(4, "table of 512 filled", (512, 512), (540, 600), large),
];

/// A set-up, the table it leaves, and what was asked of it afterwards.
pub struct Course {
    pub name: &'static str,
    pub start: Vec<u16>,
    pub done: Vec<Done>,
    pub full: bool,
    set_up: Record,
}

impl Course {
    pub fn new(random: &mut Random) -> Self {
        let plan = planned(random);
        let (n, mask, _) = good_set_up(random, 40);
        let mask = match plan.name.starts_with("honest") {
            true => mask | 3,
            false => mask,
        };
        let capacity = random.between(plan.capacity.0, plan.capacity.1);
        let behind = *random.pick(&[0, 0, 0, 1, 20]);
        let mut start = random.words(words_for(capacity) + behind);
        set_up(&mut start, n, mask, capacity);
        let left = usize::from(random.between(plan.requests.0, plan.requests.1));
        let mut bench = Bench::new(start.clone(), random, left);
        while bench.left > 0 {
            // Where a course stops early, any request comes next.
            let _ = (plan.go)(&mut bench);
            bench.proceed();
        }
        Self {
            name: plan.name,
            full: room(&bench.table) == 0,
            done: bench.done,
            start,
            set_up: Record::SetUp(n, mask, capacity),
        }
    }

    /// The table before the request of this number; past the last, the last.
    pub fn table(&self, number: usize) -> &[u16] {
        match number.checked_sub(1) {
            Some(before) => &self.done[before].table,
            None => &self.start,
        }
    }

    /// The record of a request, empty if it has none.
    pub fn record(&self, number: usize) -> Vec<u8> {
        let done = self.done.get(number);
        done.map_or_else(Vec::new, |done| record_bytes(Record::Request(done.request)))
    }

    /// The session's records, its set-up first.
    pub fn records(&self) -> Vec<Vec<u8>> {
        let mut records = vec![record_bytes(self.set_up)];
        records.extend((0..self.done.len()).map(|number| self.record(number)));
        records.retain(|record| !record.is_empty());
        records
    }
}

fn planned(random: &mut Random) -> &'static Plan {
    let all = PLANS.iter().map(|plan| plan.weight).sum();
    let mut place = random.below(all);
    for plan in &PLANS {
        match place.checked_sub(plan.weight) {
            Some(rest) => place = rest,
            None => return plan,
        }
    }
    &PLANS[0]
}

/// Several honest runs at a time: what was sent is delivered in any order,
/// some of it twice.
fn interleaved(bench: &mut Bench) -> Option<()> {
    let mut open = Vec::new();
    loop {
        if open.is_empty() || bench.random.one_in(4) {
            let u = bench.honest_one();
            let v = bench.honest_other(u);
            open.push((u, v, bench.post(Request::Start(u, v))?));
        }
        let place = bench.random.below(open.len());
        let (from, to, handle) = match bench.random.one_in(5) {
            true => open[place],
            false => open.swap_remove(place),
        };
        if let Answer::Sent(from, to, handle) = bench.ask(Request::Deliver(from, to, handle))? {
            open.push((from, to, handle));
        }
    }
}

/// A run whose messages are wrapped anew and delivered again, as addressed
/// and otherwise.
fn replayed(bench: &mut Bench) -> Option<()> {
    // A run that ends early leaves enough behind.
    let _ = bench.honest_run();
    for _ in 0..4 {
        bench.rewrap()?;
        let &(from, to, handle) = bench.random.pick(&bench.sent);
        let request = match bench.random.below(3) {
            0 => Request::Deliver(to, from, handle),
            1 => Request::Deliver(bench.other_than(to), to, handle),
            _ => Request::Deliver(from, to, handle),
        };
        bench.ask(request)?;
    }
    Some(())
}

/// Messages taken apart: places within a list and past it, keys that fit
/// and that don't, and everything parsed.
fn taken_apart(bench: &mut Bench) -> Option<()> {
    // A course that ends early leaves enough behind.
    let _ = bench.relay();
    for _ in 0..6 {
        let list = bench.some(LIST);
        let place = bench.random.between(1, 4);
        bench.ask(Request::Project(list, place))?;
        let text = bench.some(CIPHERTEXT);
        let key = bench.some(SECRET_KEY);
        bench.ask(Request::Decrypt(key, text))?;
        let kind = *bench
            .random
            .pick(&[DATA, NONCE, LIST, CIPHERTEXT, SECRET_KEY]);
        let handle = bench.some(kind);
        bench.ask(Request::Parse(handle))?;
    }
    Some(())
}

fn long_terms(bench: &mut Bench) -> Option<()> {
    match bench.random.one_in(2) {
        true => bench.grow(),
        false => bench.longest_first_message(),
    }
}

fn mixed(bench: &mut Bench) -> Option<()> {
    bench.proceed();
    Some(())
}

/// A table of 512 up to its last entry, with some of everything on the way.
fn large(bench: &mut Bench) -> Option<()> {
    while room(&bench.table) > 0 && bench.left > 60 {
        bench.ask(Request::Nonce)?;
        if bench.random.one_in(30) {
            bench.proceed();
        }
    }
    Some(())
}
