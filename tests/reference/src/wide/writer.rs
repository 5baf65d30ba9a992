//! The writer of records, compared by a program: `crates/show_writer` reads
//! requests of twelve bytes and gives an answer of eighteen for each. Here
//! are the requests, and the answers that the reference gives.

use crate::cases::files::record_bytes;
use crate::cases::records::any_record;
use crate::cases::{Random, Tally};
use crate::commands::{Record, Request as Asked};
use crate::session::{fields, write_record, Written};

/// A kind, a list's count, four numbers, and how many bytes are lent.
pub type Request = [u8; 12];

/// The output, of which so many bytes were lent; then 0 and the number of
/// bytes written, or 1 and the refusal.
pub type Answer = [u8; 18];

const OUTPUT: usize = 16;
const BEFORE: u8 = 165;

/// A request for any record at all, with an output of about its size. What a
/// kind doesn't have is junk in half of them.
pub fn request(random: &mut Random) -> Request {
    let record = any_record(random);
    let (kind, mut numbers, mut count) = fields(record);
    if kind != 5 && random.one_in(2) {
        for number in numbers.iter_mut().skip(usize::from(count)) {
            *number = random.word();
        }
        count = random.word();
    }
    let needed = record_bytes(record).len().min(OUTPUT);
    let room = match random.below(8) {
        0 => 0,
        1 => needed.saturating_sub(1),
        2 => random.below(OUTPUT + 1),
        3 => (needed + 1).min(OUTPUT),
        4 => OUTPUT,
        _ => needed,
    };
    request_of(kind, count, numbers, room as u8)
}

fn request_of(kind: u8, count: u16, numbers: [u16; 4], room: u8) -> Request {
    let mut request = [kind; 12];
    request[1..3].copy_from_slice(&count.to_be_bytes());
    for (place, number) in request[3..11]
        .as_chunks_mut::<2>()
        .0
        .iter_mut()
        .zip(numbers)
    {
        *place = number.to_be_bytes();
    }
    request[11] = room;
    request
}

fn number(request: &Request, place: usize) -> u16 {
    u16::from_be_bytes([request[place], request[place + 1]])
}

fn record(request: &Request) -> Record {
    let numbers = [3, 5, 7, 9].map(|place| number(request, place));
    let [a, b, c, _] = numbers;
    Record::Request(match request[0] {
        0 => return Record::SetUp(a, b, c),
        1 => Asked::Start(a, b),
        2 => Asked::Deliver(a, b, c),
        3 => Asked::Store(a),
        4 => Asked::Nonce,
        5 => Asked::List(number(request, 1), numbers),
        6 => Asked::Project(a, b),
        7 => Asked::Encrypt(a, b),
        8 => Asked::Decrypt(a, b),
        _ => Asked::Parse(a),
    })
}

/// What the reference answers.
pub fn answer(request: &Request) -> Answer {
    let mut answer = [BEFORE; 18];
    let room = usize::from(request[11]) % (OUTPUT + 1);
    let (how, number) = match write_record(record(request), &mut answer[..room]) {
        Written::Bytes(count) => (0, count as u8),
        Written::Refused(number) => (1, number as u8),
    };
    answer[OUTPUT..].copy_from_slice(&[how, number]);
    answer
}

/// Counts a request by its kind and answer.
pub fn count(request: &Request, tally: &mut Tally) {
    let answer = answer(request);
    let kind = request[0];
    match answer[OUTPUT..] {
        [0, bytes] if usize::from(bytes) == usize::from(request[11]) => {
            tally.add(&format!("writer, kind {kind}: written, just fits"));
        }
        [0, _] => tally.add(&format!("writer, kind {kind}: written, bytes to spare")),
        [_, number] => tally.add(&format!("writer, kind {kind}: refused {number}")),
        _ => {}
    }
}

/// The same request with lower numbers, each with one of them lower.
pub fn smaller(request: &Request) -> Vec<Request> {
    let mut all = Vec::new();
    for place in [1, 3, 5, 7, 9] {
        let old = number(request, place);
        for value in [0, 1, old / 2, old.saturating_sub(1)] {
            let mut lower = *request;
            lower[place..place + 2].copy_from_slice(&value.to_be_bytes());
            if value < old {
                all.push(lower);
            }
        }
    }
    all
}
