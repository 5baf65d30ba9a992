//! A test: what the proved program `show_cases` has to print is what this
//! machine gives for the same cases, the answers, the used entries and who
//! holds what.

use std::fmt::Write;

use crate::table::{HANDLES, USED, rows};
use crate::*;
use Request::*;

fn add_line(text: &mut String, place: usize, answer: Answer) {
    let (_, values, count) = answer.parts();
    write!(text, "{place} {}", answer.word()).unwrap();
    for value in &values[..count] {
        write!(text, " {value}").unwrap();
    }
    text.push('\n');
}

/// The entries that a knower holds, in the order of its handles, which have
/// to be 1, 2 and so on.
fn holdings(table: &[u16], knower: usize) -> Vec<u16> {
    let mut held: Vec<(u16, u16)> = (1..)
        .zip(rows(table))
        .take(usize::from(table[USED]))
        .map(|(entry, row)| (row[HANDLES + knower], entry))
        .filter(|&(handle, _)| handle != 0)
        .collect();
    held.sort_unstable();
    assert!((1..).zip(&held).all(|(next, &(handle, _))| next == handle));
    held.into_iter().map(|(_, entry)| entry).collect()
}

fn add_play(text: &mut String, n: u16, mask: u16, capacity: u16, requests: &[Request]) {
    let mut table = vec![9; 1040];
    add_line(text, 1, set_up(&mut table, n, mask, capacity));
    for (place, request) in (2..).zip(requests) {
        add_line(text, place, step(&mut table, *request));
    }
    writeln!(text, "used {}", table[USED]).unwrap();
    for knower in 0..=usize::from(n) {
        write!(text, "knower {knower}:").unwrap();
        for entry in holdings(&table, knower) {
            write!(text, " {entry}").unwrap();
        }
        text.push('\n');
    }
}

/// The cases with the usual set-up, 3 participants, mask 3, capacity 64.
fn usual(case: u16) -> Option<Vec<Request>> {
    Some(match case {
        1 => vec![],
        2 => vec![Start(1, 2), Parse(5)],
        3 => vec![Start(1, 1), Start(3, 1), Start(2, 3)],
        5 => vec![Start(1, 2), Project(5, 1), Decrypt(3, 6)],
        6 => vec![Store(7), Store(7)],
        7 => vec![Start(1, 2), Project(5, 2), Project(5, 0), Project(9, 0)],
        8 => vec![
            Start(1, 3),
            Project(5, 1),
            Decrypt(3, 6),
            Encrypt(2, 7),
            List(1, [8, 0, 0, 0]),
            Deliver(1, 2, 9),
            Deliver(3, 1, 10),
            Deliver(2, 1, 10),
        ],
        11 => vec![Start(1, 2), Deliver(1, 2, 5), Deliver(2, 1, 6), Deliver(1, 2, 7)],
        _ => return None,
    })
}

fn add_case(text: &mut String, case: u16) {
    writeln!(text, "case {case}").unwrap();
    match case {
        4 => {
            add_play(text, 8, 1, 20, &[Start(1, 2)]);
            add_play(text, 8, 1, 21, &[Start(1, 2)]);
        }
        9 => add_play(text, 8, 255, 64, &[Start(1, 8), Deliver(1, 8, 9)]),
        10 => text.push_str(&String::from_utf8(play(&[2])).unwrap()),
        _ => add_play(text, 3, 3, 64, &usual(case).unwrap()),
    }
}

#[test]
fn show_cases_prints_these() {
    let mut text = String::new();
    for case in 1..=11 {
        add_case(&mut text, case);
    }
    assert_eq!(text, include_str!("../../../crates/show_cases/stdout"));
}
