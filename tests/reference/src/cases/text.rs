//! The text form of cases, and the count of what occurred in them.

use crate::commands::{Answer, Record, Request};
use crate::session::fields;
use std::collections::BTreeMap;
use std::fmt::{self, Display, Write};

/// Appends a line: a word and numbers behind it.
pub fn line<T: Display>(text: &mut String, word: &str, numbers: &[T]) {
    text.push_str(word);
    for number in numbers {
        // Writing into a string can't fail.
        let _ = write!(text, " {number}");
    }
    text.push('\n');
}

/// A record's kind and its numbers; a list's count stands before its handles.
pub fn record_numbers(record: Record) -> Vec<u16> {
    let (kind, numbers, count) = fields(record);
    let mut all = vec![u16::from(kind)];
    if let Record::Request(Request::List(count, _)) = record {
        all.push(count);
        all.extend(numbers);
    } else {
        all.extend(&numbers[..usize::from(count)]);
    }
    all
}

pub fn request_line(text: &mut String, request: Request) {
    line(text, "request", &record_numbers(Record::Request(request)));
}

pub fn answer_line(text: &mut String, answer: Answer) {
    line(text, "answer", &answer.numbers());
}

/// How often each thing occurred.
#[derive(Default)]
pub struct Tally(BTreeMap<String, u64>);

impl Tally {
    pub fn add(&mut self, label: &str) {
        self.add_many(label, 1);
    }

    pub fn add_many(&mut self, label: &str, times: u64) {
        match self.0.get_mut(label) {
            Some(count) => *count += times,
            None => {
                self.0.insert(label.to_owned(), times);
            }
        }
    }

    /// Counts an answer by itself and together with what was asked.
    pub fn answer(&mut self, asked: &str, answer: Answer) {
        let label = match answer {
            Answer::Refused(number) => format!("refused {number}"),
            other => other.word().to_owned(),
        };
        self.add(&label);
        self.add(&format!("{asked}: {label}"));
    }

    pub fn count(&self, label: &str) -> u64 {
        self.0.get(label).copied().unwrap_or(0)
    }
}

impl Display for Tally {
    fn fmt(&self, out: &mut fmt::Formatter) -> fmt::Result {
        for (label, count) in &self.0 {
            writeln!(out, "{count:8} {label}")?;
        }
        Ok(())
    }
}

pub fn request_name(request: Request) -> &'static str {
    match request {
        Request::Start(..) => "start",
        Request::Deliver(..) => "deliver",
        Request::Store(..) => "store",
        Request::Nonce => "nonce",
        Request::List(..) => "list",
        Request::Project(..) => "project",
        Request::Encrypt(..) => "encrypt",
        Request::Decrypt(..) => "decrypt",
        Request::Parse(..) => "parse",
    }
}
