//! Cases of one request on a table that may have been tampered with.
//!
//! Some tamperings break one clause of well-formedness only, with all other
//! words in agreement; some leave the table well formed in a way that no
//! course of requests leads to.

use super::bench::Bench;
use super::random::Random;
use super::sessions::good_set_up;
use super::text::{answer_line, line, request_line, request_name, Tally};
use crate::commands::{act, step, Answer, Request};
use crate::formed::well_formed;
use crate::table::*;

pub fn case(random: &mut Random, tally: &mut Tally) -> String {
    let mut run = reached_table(random);
    let how = tamper(&mut run, random);
    let formed = if well_formed(&run) { "formed" } else { "not" };
    tally.add(&format!("{how}: {formed}"));
    let request = telling_request(&run, random);
    let mut text = String::from("table\n");
    line(&mut text, "run", &run);
    request_line(&mut text, request);
    let answer = step(&mut run, request);
    tally.answer(request_name(request), answer);
    answer_line(&mut text, answer);
    line(&mut text, "table", &run);
    text.push_str("end\n");
    text
}

/// A table that a course of requests leads to.
pub fn reached_table(random: &mut Random) -> Vec<u16> {
    let (n, mask, capacity) = good_set_up(random, 24);
    let extra = *random.pick(&[0, 0, 0, 1, 5, 20]);
    let mut run = random.words(words_for(capacity) + extra);
    set_up(&mut run, n, mask, capacity);
    let count = random.below(18);
    let mut bench = Bench::new(run, random, count);
    while bench.left > 0 {
        bench.proceed();
    }
    bench.table
}

/// A request that isn't refused if the table is taken as it is.
pub fn telling_request(run: &[u16], random: &mut Random) -> Request {
    let sent = outer_lists(run);
    if random.one_in(3) {
        let taken = taken_deliveries(run, &sent);
        if !taken.is_empty() {
            return *random.pick(&taken);
        }
    }
    let mut bench = Bench::new(run.to_vec(), random, 0);
    bench.sent = sent;
    for _ in 0..25 {
        let request = bench.propose();
        let mut copy = run.to_vec();
        let answer = act(&mut copy, request);
        if !matches!(answer, Answer::Refused(_) | Answer::Dropped) {
            return request;
        }
    }
    Request::Parse(1)
}

/// Held lists of a ciphertext, as sent by anyone to the key's participant.
fn outer_lists(run: &[u16]) -> Vec<(u16, u16, u16)> {
    let n = participants(run).max(1);
    let mut sent = Vec::new();
    for outer in rows(run).iter().filter(|row| row[HANDLES] != 0) {
        let text = row(run, Entry(outer[ARGS]));
        if outer[TYPE] == LIST && text[TYPE] == CIPHERTEXT {
            sent.extend((1..=n).map(|from| (from, text[ARGS] / 2, outer[HANDLES])));
        }
    }
    sent
}

/// The deliveries that the receiver doesn't drop.
fn taken_deliveries(run: &[u16], sent: &[(u16, u16, u16)]) -> Vec<Request> {
    sent.iter()
        .map(|&(from, to, handle)| Request::Deliver(from, to, handle))
        .filter(|&request| {
            let answer = act(&mut run.to_vec(), request);
            !matches!(answer, Answer::Refused(_) | Answer::Dropped)
        })
        .collect()
}

pub fn tamper(run: &mut Vec<u16>, random: &mut Random) -> &'static str {
    match random.below(50) {
        0..=9 => "alone",
        10..=15 => alter(run, 0..HEAD, random, "head"),
        16..=20 => alter_one_column(run, random),
        21..=29 => alter_used_entry(run, random),
        30 => alter_unused(run, random),
        31 => alter_past_end(run, random),
        32 => alter_few(run, random),
        33 => cut(run, random),
        34 => junk(run, random),
        35..=37 => rehold(run, random),
        38..=41 => append(run, random, odd_term),
        42 => append_forward(run, random),
        43 => append(run, random, copied_term),
        44..=45 => append_long(run, random),
        46 => drop_last(run, random),
        47 => move_handle(run, random),
        48 => change_mask(run, random),
        _ => resize(run, random),
    }
}

/// Another value for a word: near the old one, small, or at some bound.
fn near(word: u16, random: &mut Random) -> u16 {
    match random.below(8) {
        0..=1 => word.wrapping_add(1),
        2..=3 => word.wrapping_sub(1),
        4..=5 => random.between(0, 9),
        6 => word ^ (1 << random.below(16)),
        _ => *random.pick(&[0, 15, 16, 17, 256, 512, 513, 4095, 4096, u16::MAX]),
    }
}

fn alter<'a>(
    run: &mut [u16],
    places: std::ops::Range<usize>,
    random: &mut Random,
    name: &'a str,
) -> &'a str {
    let last = places.end.min(run.len());
    let place = places.start + random.below(last.saturating_sub(places.start));
    if let Some(word) = run.get_mut(place) {
        *word = near(*word, random);
    }
    name
}

fn alter_few(run: &mut [u16], random: &mut Random) -> &'static str {
    for _ in 0..random.between(2, 4) {
        alter(run, 0..row_at(20), random, "");
    }
    "few words"
}

fn used(run: &[u16]) -> usize {
    usize::from(head(run, USED))
}

fn capacity(run: &[u16]) -> usize {
    usize::from(head(run, CAPACITY))
}

/// Where the words of the row with this index begin.
fn row_at(index: usize) -> usize {
    HEAD + index * ROW
}

/// The same field of a random used entry: first the column, then the entry.
fn alter_one_column(run: &mut [u16], random: &mut Random) -> &'static str {
    let column = random.below(ROW);
    let place = row_at(random.below(used(run))) + column;
    alter(run, place..place + 1, random, "entry field")
}

/// A field that means something, of an entry behind the keys if there is one.
fn alter_used_entry(run: &mut [u16], random: &mut Random) -> &'static str {
    let keys = 2 * usize::from(head(run, PARTICIPANTS));
    let index = keys + random.below(used(run) - keys);
    let columns = [0, 0, 1, 1, 1, 2, 2, 3, 3, 4, 5, 6, 6, 7, 7, 8, 9, 10];
    let place = row_at(index) + *random.pick(&columns);
    alter(run, place..place + 1, random, "later entry field")
}

fn alter_unused(run: &mut [u16], random: &mut Random) -> &'static str {
    let unused = row_at(used(run))..row_at(capacity(run));
    for word in &mut run[unused] {
        *word = random.word();
    }
    "unused entries"
}

fn alter_past_end(run: &mut Vec<u16>, random: &mut Random) -> &'static str {
    for _ in 0..random.between(1, 20) {
        run.push(random.word());
    }
    "past the end"
}

fn cut(run: &mut Vec<u16>, random: &mut Random) -> &'static str {
    let gone = usize::from(random.between(1, 20));
    run.truncate(row_at(capacity(run)) - gone);
    "cut"
}

fn junk(run: &mut Vec<u16>, random: &mut Random) -> &'static str {
    match random.below(4) {
        0 => run.clear(),
        1 => run.truncate(random.below(HEAD)),
        2 => run.truncate(HEAD + random.below(40)),
        _ => {
            let words = random.below(300);
            *run = random.words(words);
        }
    }
    "junk"
}

/// Takes an entry from a knower or gives it one, with the next handle in
/// agreement. On keys and for the dishonest this breaks the table.
fn rehold(run: &mut [u16], random: &mut Random) -> &'static str {
    let knower = match random.one_in(2) {
        true => 0,
        false => random.below(KNOWERS),
    };
    let handle = row_at(random.below(used(run))) + HANDLES + knower;
    let next = NEXT + knower;
    if run[handle] == 0 {
        run[handle] = random.between(1, run[next]);
        run[next] += 1;
    } else {
        run[handle] = 0;
        run[next] -= 1;
        lower_handles(run, knower);
    }
    "held otherwise"
}

/// Brings a knower's handles below its next handle.
fn lower_handles(run: &mut [u16], knower: usize) {
    let next = run[NEXT + knower];
    for index in 0..used(run) {
        let handle = &mut run[row_at(index) + HANDLES + knower];
        if *handle >= next {
            *handle = next - 1;
        }
    }
}

/// Adds an entry from a maker of rows, held by knower 0 and perhaps others,
/// all counts in agreement.
fn append(
    run: &mut [u16],
    random: &mut Random,
    maker: fn(&[u16], &mut Random) -> (Row, &'static str),
) -> &'static str {
    if used(run) >= capacity(run) {
        drop_last(run, random);
    }
    let (mut row, name) = maker(run, random);
    push_row(run, &mut row, random.one_in(2));
    name
}

fn push_row(run: &mut [u16], row: &mut Row, held: bool) {
    if used(run) >= capacity(run) {
        return;
    }
    row[HANDLES..].fill(0);
    if held {
        row[HANDLES] = run[NEXT];
        run[NEXT] += 1;
    }
    let at = row_at(used(run));
    run[at..at + ROW].copy_from_slice(row);
    run[USED] += 1;
}

/// A used entry once more: the lower one must be found before it.
fn copied_term(run: &[u16], random: &mut Random) -> (Row, &'static str) {
    let keys = 2 * usize::from(head(run, PARTICIPANTS));
    let later = rows(run).get(keys..).unwrap_or_default();
    match later.is_empty() {
        true => (Term::data(1).row(), "copied entry"),
        false => (*random.pick(later), "copied entry"),
    }
}

/// An entry with arguments at or over their bounds and a length that follows
/// from them.
fn odd_term(run: &[u16], random: &mut Random) -> (Row, &'static str) {
    let n = head(run, PARTICIPANTS);
    let me = head(run, USED) + 1;
    match random.below(12) {
        0..=1 => {
            let owner = random.between(0, n + 1);
            let term = Term::nonce(owner, random.between(0, n + 1));
            (term.row(), "odd nonce")
        }
        2..=4 => (odd_list(run, random, me), "odd list"),
        5..=7 => (odd_ciphertext(run, random, n, me), "odd ciphertext"),
        8 => (Term::list(0, [0; 4], LIST_EXTRA).row(), "empty list"),
        9..=10 => (odd_count(random, n), "odd count"),
        _ => {
            let p = random.between(0, n + 1);
            let key = [Term::secret_key(p), Term::public_key(p)];
            (random.pick(&key).row(), "key behind the keys")
        }
    }
}

/// Data or a nonce with a count that isn't its type's but that the arguments
/// go with.
fn odd_count(random: &mut Random, n: u16) -> Row {
    let p = random.between(1, n);
    let terms = [
        Term::data(0),
        Term::data(p),
        Term::nonce(0, 0),
        Term::nonce(p, 0),
    ];
    let mut row = random.pick(&terms).row();
    row[COUNT] = random.between(0, 4);
    row
}

fn odd_list(run: &[u16], random: &mut Random, me: u16) -> Row {
    let count = random.between(1, 4);
    let mut elements = [0; 4];
    for element in elements.iter_mut().take(usize::from(count)) {
        *element = match random.below(12) {
            0 => 0,
            1 => me,
            2 => me + 1,
            3 => 1,
            4..=5 => 2 * random.between(1, me / 2),
            _ => random.between(2 * head(run, PARTICIPANTS), me - 1),
        };
    }
    let sum: u32 = elements.iter().map(|&e| length(run, Entry(e))).sum();
    Term::list(count, elements, LIST_EXTRA + sum).row()
}

/// A ciphertext with a wrong key entry, or a wrong list entry, or neither.
fn odd_ciphertext(run: &[u16], random: &mut Random, n: u16, me: u16) -> Row {
    let lists: Vec<u16> = (1..me)
        .filter(|&e| row(run, Entry(e))[TYPE] == LIST)
        .collect();
    if lists.is_empty() {
        return odd_list(run, random, me);
    }
    let p = random.between(1, n);
    let (key, list) = (2 * p, *random.pick(&lists));
    let (key, list) = match random.below(5) {
        0..=1 => (*random.pick(&[0, 2 * n + 2, 2 * n + 2, 2 * p - 1]), list),
        2..=3 => (key, *random.pick(&[0, me, me - 1, 2, 2 * n])),
        _ => (key, list),
    };
    let length = length(run, Entry(list)) + CIPHERTEXT_EXTRA;
    Term::ciphertext(Entry(key), Entry(list), length).row()
}

/// Adds a list or a ciphertext of the entry behind it, and that entry.
fn append_forward(run: &mut [u16], random: &mut Random) -> &'static str {
    let next = head(run, USED) + 2;
    let list = Term::list(1, [2, 0, 0, 0], LIST_EXTRA + PUBLIC_KEY_LENGTH);
    let length = LIST_EXTRA + PUBLIC_KEY_LENGTH;
    let before = match random.one_in(2) {
        true => Term::list(1, [next, 0, 0, 0], length + LIST_EXTRA),
        false => Term::ciphertext(Entry(2), Entry(next), length + CIPHERTEXT_EXTRA),
    };
    push_row(run, &mut before.row(), true);
    push_row(run, &mut list.row(), true);
    "forward"
}

/// A table with lists of just the greatest length that lists can have, or
/// one or two steps over it: 4094, 4096 and 4098.
fn replace_by_longest(run: &mut [u16], random: &mut Random) -> &'static str {
    set_up(run, 2, 1, 16);
    push_row(run, &mut Term::nonce(0, 0).row(), true);
    let lists = [
        [2, 2, 2, 2],
        [6, 6, 6, 6],
        [7, 7, 7, 7],
        [8, 7, 7, 7],
        [9, 6, 6, 6],
        [2, 0, 0, 0],
        [10, 11, 5, 0],
        [12, 0, 0, 0],
        [13, 0, 0, 0],
    ];
    let count = lists.len() - random.below(3);
    for elements in lists.into_iter().take(count) {
        let count = elements.iter().filter(|&&e| e != 0).count() as u16;
        let sum: u32 = elements.iter().map(|&e| length(run, Entry(e))).sum();
        let mut row = Term::list(count, elements, LIST_EXTRA + sum).row();
        push_row(run, &mut row, true);
    }
    "longest list"
}

/// Lists of lists up to the greatest length or over it.
fn append_long(run: &mut [u16], random: &mut Random) -> &'static str {
    if random.one_in(2) {
        return replace_by_longest(run, random);
    }
    let mut element = head(run, USED).min(2);
    for _ in 0..random.between(3, 6) {
        let count = if random.one_in(3) { 2 } else { 4 };
        let mut elements = [element; 4];
        elements[usize::from(count)..].fill(0);
        let sum = u32::from(count) * length(run, Entry(element));
        let mut row = Term::list(count, elements, LIST_EXTRA + sum).row();
        push_row(run, &mut row, true);
        element = head(run, USED);
        if sum > LONGEST {
            break;
        }
    }
    "long lists"
}

/// Takes the last entry away, with all counts in agreement. If it is a key
/// this breaks the table.
pub fn drop_last(run: &mut [u16], _: &mut Random) -> &'static str {
    run[USED] -= 1;
    let gone = row_at(used(run)) + HANDLES;
    for knower in 0..KNOWERS {
        if run[gone + knower] != 0 {
            run[NEXT + knower] -= 1;
            lower_handles(run, knower);
        }
    }
    "last dropped"
}

/// Another handle for an entry: mostly one that occurs already.
fn move_handle(run: &mut [u16], random: &mut Random) -> &'static str {
    let knower = *random.pick(&[0, 0, 0, 1, 2]);
    let handle = row_at(random.below(used(run))) + HANDLES + knower;
    if run[handle] != 0 {
        run[handle] = random.between(1, run[NEXT + knower]);
    }
    "handle moved"
}

/// Makes a participant honest or dishonest, perhaps with the keys' holders
/// left as they are.
fn change_mask(run: &mut [u16], random: &mut Random) -> &'static str {
    run[MASK] ^= 1 << random.below(usize::from(run[PARTICIPANTS]) + 1);
    "mask"
}

/// Another capacity, which the run may be too short for or which may lie
/// below what is used.
fn resize(run: &mut Vec<u16>, random: &mut Random) -> &'static str {
    let used = run[USED];
    run[CAPACITY] = *random.pick(&[used, used - 1, used - 1, 15, 16, 25, 512, 513]);
    if random.one_in(2) {
        run.resize(row_at(capacity(run)), 3);
    }
    "capacity"
}
