//! Rounds of the wide comparison. A round is one course of requests: its
//! session file and damaged ones, each request on the table it was asked of,
//! and records on tables that are altered, cut short or junk.

use super::calls::Calls;
use super::check::{both_perform, differing_room, lines_of, Case, Room, ROOMS};
use super::counts::Counts;
use super::courses::Course;
use super::damage::{altered, damaged, near_greatest};
use crate::cases::files::{joined, record_bytes};
use crate::cases::records::any_record;
use crate::cases::singles::{lent_bytes, set_up_at_bounds};
use crate::cases::tables::{tamper, telling_request};
use crate::cases::Random;
use crate::commands::Record;

/// How many damaged files, steps and altered tables a round has.
const DAMAGED: usize = 3;
const STEPS: usize = 24;
const ALTERED: usize = 14;

/// One round: what is compared, by whom, and what is counted.
pub struct Round<'a> {
    pub random: Random,
    pub calls: &'a mut dyn Calls,
    pub counts: &'a mut Counts,
}

impl Round<'_> {
    /// The first case that differs, if there is one.
    pub fn go(&mut self) -> Option<Case> {
        let course = Course::new(&mut self.random);
        if course.full {
            self.counts.tally.add("course that ends with a full table");
        }
        self.sessions(&course)
            .or_else(|| self.steps(&course))
            .or_else(|| self.altered(&course))
    }

    fn sessions(&mut self, course: &Course) -> Option<Case> {
        let records = course.records();
        let differing = self.session(joined(&records), course.name);
        if differing.is_some() {
            return differing;
        }
        if self.random.one_in(60) {
            return self.greatest(&records);
        }
        (0..DAMAGED).find_map(|_| {
            let (bytes, what) = damaged(&records, &mut self.random);
            self.session(bytes, &format!("damaged: {what}"))
        })
    }

    /// A session of about the greatest size, some of them damaged too.
    fn greatest(&mut self, records: &[Vec<u8>]) -> Option<Case> {
        let (bytes, what) = near_greatest(records, &mut self.random);
        if self.random.one_in(3) {
            let (bytes, what) = altered(bytes, &mut self.random);
            return self.session(bytes, &format!("damaged: {what}"));
        }
        self.session(bytes, what)
    }

    /// One session; for a share of them with every size of output.
    fn session(&mut self, bytes: Vec<u8>, what: &str) -> Option<Case> {
        let lines = lines_of(&bytes);
        let all = self.random.one_in(4);
        let rooms = match all {
            true if lines.len() > 20_000 => &ROOMS[..3],
            true => &ROOMS[..],
            false => &[*self
                .random
                .pick(&[Room::Needed(0), Room::Needed(1), Room::Needed(3)])],
        };
        self.counts.session(what, bytes.len(), &lines);
        for &room in rooms {
            self.counts.output(room, lines.len());
        }
        let room = differing_room(self.calls, &bytes, &lines, rooms)?;
        Some(Case::Session(bytes, room))
    }

    /// The course's own requests, each on the table it was asked of.
    fn steps(&mut self, course: &Course) -> Option<Case> {
        let count = course.done.len();
        (0..count.min(STEPS)).find_map(|step| {
            let number = match count > STEPS {
                true => self.random.below(count),
                false => step,
            };
            let record = course.record(number);
            match record.is_empty() {
                true => None,
                false => self.single(record, course.table(number).to_vec(), "reached"),
            }
        })
    }

    fn altered(&mut self, course: &Course) -> Option<Case> {
        (0..ALTERED).find_map(|_| {
            let number = self.random.below(course.done.len() + 1);
            let mut table = course.table(number).to_vec();
            let how = alter(&mut table, &mut self.random);
            let record = match self.random.below(8) {
                0..=2 => course.record(number),
                3..=5 => record_bytes(Record::Request(telling_request(&table, &mut self.random))),
                6 => lent_bytes(&table, &mut self.random),
                _ => record_bytes(any_record(&mut self.random)),
            };
            match self.random.one_in(60) {
                true => {
                    let (table, record) = set_up_at_bounds(&mut self.random);
                    self.single(record, table, "for a set-up at its bounds")
                }
                false => self.single(record, table, how),
            }
        })
    }

    fn single(&mut self, record: Vec<u8>, table: Vec<u16>, how: &str) -> Option<Case> {
        let answer = match self.random.below(8) {
            0 => self.random.below(9),
            1 => 5 + self.random.below(3),
            _ => 4,
        };
        let (wanted, got) = both_perform(self.calls, &record, &table, answer);
        self.counts.single(how, &wanted);
        (wanted != got).then_some(Case::Single(record, table, answer))
    }
}

/// Alters a table in one of the ways of the other cases, or anywhere.
fn alter(table: &mut Vec<u16>, random: &mut Random) -> &'static str {
    match random.below(12) {
        0 => {
            table.truncate(random.below(table.len()));
            "cut anywhere"
        }
        1 => {
            let place = random.below(table.len());
            table[place] = random.word();
            "any word"
        }
        2 => {
            for _ in 0..random.between(2, 5) {
                let place = random.below(table.len());
                table[place] = table[place].wrapping_add(*random.pick(&[1, 2, u16::MAX]));
            }
            "some words"
        }
        _ => tamper(table, random),
    }
}
